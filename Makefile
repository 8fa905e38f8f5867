# What can be done here. The scripts that are called say more, and when nothing is to be done.
#
#   make              the program and the library for C, proved and built where they aren't, or are stale
#   make build        the program alone, as crates/fbcheck/out/fbcheck
#   make library      the library for C alone, in out/
#   make test         every proof and every test (./test)
#   make install      into PREFIX (/usr/local), below DESTDIR (./install)
#   make package      packages of these, in dist/: a tarball, Debian packages, and packages for languages
#   make reproduce    builds the program twice, and compares; with FILE=PROGRAM once, and compares it with PROGRAM
#   make bench        times the program on what costs it the most, and beside the two verifiers for C++
#   make clean        removes all that was built, and what was proved with it
#   make help         prints these lines

.PHONY: all build library test check install package reproduce bench clean help
.NOTPARALLEL:

all: build library

build:
	scripts/build fbcheck

library:
	scripts/build_c

test check:
	./test

install:
	./install

package:
	scripts/package

reproduce:
	scripts/reproduce $(if $(FILE),"$(FILE)")

bench:
	bench/hostile
	bench/compare

clean:
	rm -rf out dist bench/out crates/*/out

help:
	@sed -n 's/^#   //p' Makefile
