# make install PREFIX=DIR puts the program, the C header, the archive and the Rust package under DIR; see docs/PACKAGE.md.
PREFIX = /usr/local

build:
	tools/host build --release --bin herringnet

install:
	DESTDIR='$(DESTDIR)' tools/install '$(PREFIX)'

test:
	tools/host test

.PHONY: build install test
