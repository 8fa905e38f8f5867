module driver

go 1.19

require fbcheck.dev/fbcheck v0.0.0

replace fbcheck.dev/fbcheck => ../../../bindings/go
