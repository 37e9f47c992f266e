# What one does with the library, each in one command.
PREFIX ?= /usr/local
DESTDIR ?=
TARGET ?= x86_64

help:
	@echo 'make build                  proves and builds the library, the program ask and the tool mill'
	@echo 'make build TARGET=aarch64   proves and builds the library for 64-bit Arm, in target/aarch64'
	@echo 'make install                puts what is built under PREFIX, $(PREFIX); DESTDIR goes before it'
	@echo 'make uninstall              takes exactly these away'
	@echo 'make dev C=NAME             checks one crate, over what was checked before, in seconds'
	@echo 'make quick                  proves and tests what changed since HEAD and since the last quick run'
	@echo 'make check                  the gate: proves and tests everything'
	@echo 'make check-aarch64          tests the library for 64-bit Arm, under an emulator'
	@echo 'make check-types            checks the types of the Python package, with mypy'

build: build-$(TARGET)

build-x86_64:
	sh built.sh mill ask
	sh shared.sh target/staticlib/libmill.a target/shared
	cd rust && env -u CARGO_BUILD_TARGET cargo build --offline --release --package tool --target-dir target

build-aarch64:
	sh built.sh mill
	sh aarch64.sh

install uninstall:
	@PREFIX='$(PREFIX)' DESTDIR='$(DESTDIR)' sh install.sh $@

dev:
	@[ -n '$(C)' ] || { echo 'make dev wants the name of a crate: make dev C=recording' >&2; exit 2; }
	cd 'crates/$(C)' && rt check

quick:
	@bash tests/quick/run $(SINCE)

check:
	bash .ci/run

check-aarch64:
	bash tests/aarch64/run

check-types:
	mypy --strict --cache-dir=target/mypy python/mill

.PHONY: help build build-x86_64 build-aarch64 install uninstall dev quick check check-aarch64 check-types
