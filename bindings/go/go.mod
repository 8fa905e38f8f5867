module fbcheck.dev/fbcheck

go 1.19
