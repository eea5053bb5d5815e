# `make run` checks an image, `make test` proves and tests everything. README.md says what each needs.
SHELL := /bin/sh
.DEFAULT_GOAL := help
.NOTPARALLEL:
.PHONY: help run test test-large prove no-links kit python staticlib sharedlib eif map written-test show-test c-test rust-test rust-lint install-test bench doc install

IMAGE ?= samples/worked.eif
PREFIX ?= /usr/local
LIBDIR ?= $(PREFIX)/lib
LDCONFIG ?= ldconfig
RT ?= rt
CARGO ?= cargo
CARGO_FLAGS := --locked --offline
ifeq ($(origin CC),default)
CC := gcc
endif
ifeq ($(origin CXX),default)
CXX := g++
endif
C_WARNINGS := -Wall -Wextra -Werror -pedantic
# The tests in C that compile as C++ too.
C_TESTS := worked boundary sign1 staged writing assembler
VERSION := $(shell sed -n 's/^#define EIF_VERSION "\(.*\)"/\1/p' include/eif.h)
# The version in the shared library's soname: the first two numbers.
ABI := $(basename $(VERSION))
SHARED := target/sharedlib/libeif.so.$(VERSION)

# With EIF_LIB_DIR set, the archive in that folder is taken as it is. It is not exported: a make within this one would take it as set, and
# build no archive.
ifeq ($(origin EIF_LIB_DIR),undefined)
EIF_LIB_DIR := $(CURDIR)/target/staticlib
archive := staticlib
ARCHIVE := target/staticlib/libeif_c.a
else
override EIF_LIB_DIR := $(abspath $(EIF_LIB_DIR))
ARCHIVE := $(EIF_LIB_DIR)/libeif_c.a
endif
# What the archive is proved and compiled from. A folder of sources is newer when a file in it is removed.
CRATE_FILES = $(shell find crates/*/src crates/*/specs crates/*/proofs -type d -o -name '*.rt' -o -name '*.antt')

help:
	@echo 'make eif                  the command: target/bin/eif'
	@echo 'make run [IMAGE=file]     check an image of any size with the small proved program, samples/worked.eif if none is named'
	@echo 'make test                 prove every crate, try every must-fail edit, run every program and test'
	@echo 'make prove                the proofs, edits and programs alone: rt ci'
	@echo 'make rust-test c-test     the command and the library from Rust; the library from C'
	@echo 'make written-test         that what tools have written is fresh, and what documents name is there'
	@echo 'make show-test            the small programs; make install-test: an installation, in target/install'
	@echo 'make staticlib            the library for C and Rust: target/staticlib/libeif_c.a'
	@echo 'make sharedlib            the shared library: target/sharedlib/libeif.so'
	@echo 'make rust-lint doc        lints of the Rust code, its documentation'
	@echo 'make test-large           the tests that keep images of 1 GiB in memory: minutes, 4 GiB'
	@echo 'make bench                speed beside the plain Rust twin, zlib, libdeflate and OpenSSL, with plots; BENCH_LARGE=1: images of 1 GiB too; BENCH=checksum, BENCH=writing or BENCH=json: that part alone'
	@echo 'make map                  the map of the crates, docs/map.svg, and the table of definitions in README.md'
	@echo 'make install PREFIX=dir   installs what `make eif` built: command, man page, C header, archive, shared library, documents'

kit:
	@command -v $(RT) >/dev/null || { echo 'rt, the command of the Rattle kit, is not on the PATH: install the kit first'; exit 1; }

python:
	@tests/need.sh python3 python3 --version

run: kit
	@mkdir -p target
	@tools/program.sh $(RT) eif_check target/bin
	@target/bin/eif_check <'$(IMAGE)'

# The proofs come first, and the tests use what they built; the archive is built once. The last line says the kit's verdict again; where there is
# no cargo that is new enough, and none could be installed, all the rest is tried and the last line says what is missing.
test: kit no-links
	@tests/prove.sh $(RT) target
	@tests/edits.sh target/ci.log
	@$(MAKE) --no-print-directory written-test show-test $(archive)
	@if [ -n '$(archive)' ]; then tests/again.sh '$(MAKE)'; fi
	@$(MAKE) --no-print-directory EIF_LIB_DIR='$(EIF_LIB_DIR)' c-test
	@if tests/cargo.sh $(CARGO); then $(MAKE) --no-print-directory EIF_LIB_DIR='$(EIF_LIB_DIR)' rust-test install-test; fi
	@tests/cargo.sh $(CARGO)
	@cat target/verdict

prove: kit no-links
	@$(RT) ci

# `rt ci` takes no tree that has links. Both folders are made anew by the tests that need them.
no-links:
	@rm -rf target/sharedlib target/install

staticlib: target/staticlib/libeif_c.a

# Proved again only where a file of a crate, or the kit, has changed.
target/staticlib/libeif_c.a: crates.txt target/kit $(CRATE_FILES)
	tools/staticlib.sh $(RT) target/staticlib
	@touch $@

target/kit: kit
	@mkdir -p target
	@$(RT) version | cmp -s - $@ || $(RT) version >$@

# Linked each time, since EIF_LIB_DIR can name another archive each time.
sharedlib: $(archive)
	@tests/need.sh gcc $(CC) --version
	tools/sharedlib.sh $(CC) $(ARCHIVE) target/sharedlib

eif: $(archive) sharedlib
	@tests/cargo.sh $(CARGO)
	cd rust && $(CARGO) build --release $(CARGO_FLAGS) -p eif-cli
	@mkdir -p target/bin
	install -m 755 rust/target/release/eif target/bin/eif

map: python
	tools/map.py
	tools/believe.py

# What tools/ has written is what it would write, what the documents name is there, the name of a definition has one meaning, and each import is
# used. The layout is tested by rt ci.
written-test: python
	tools/map.py --check
	tools/believe.py --check
	tools/json_tables.py --check
	tools/names.py --check
	tools/meanings.py
	tools/imports.py

show-test: kit python
	for name in show check assemble; do \
	    tools/program.sh $(RT) eif_$$name target/bin && \
	    tests/$$name.sh target/bin/eif_$$name || exit 1; \
	done

c-test: $(archive) sharedlib
	tests/need.sh gcc $(CC) --version
	tests/need.sh g++ $(CXX) --version
	tests/header.sh $(CC)
	tests/archive.sh $(EIF_LIB_DIR)/libeif_c.a include/eif.h
	tests/sharedlib.sh target/sharedlib/libeif.so include/eif.h
	mkdir -p target/c-test
	for name in $(C_TESTS) stack station receive send; do \
	    $(CC) -std=c99 $(C_WARNINGS) -Iinclude tests/c/$$name.c $(EIF_LIB_DIR)/libeif_c.a -o target/c-test/$$name-c && \
	    target/c-test/$$name-c || exit 1; \
	done
	for name in $(C_TESTS); do \
	    $(CXX) -std=c++11 $(C_WARNINGS) -Iinclude -x c++ tests/c/$$name.c -x none $(EIF_LIB_DIR)/libeif_c.a -o target/c-test/$$name-cpp && \
	    target/c-test/$$name-cpp || exit 1; \
	done

rust-test: $(archive)
	@tests/cargo.sh $(CARGO)
	cd rust && EIF_PYTHON="$$(../tests/cbor2.sh)" $(CARGO) test --release $(CARGO_FLAGS)

test-large: $(archive)
	@tests/cargo.sh $(CARGO)
	cd rust && $(CARGO) test --release $(CARGO_FLAGS) large -- --ignored --test-threads 1

rust-lint:
	cd rust && $(CARGO) fmt --check
	cd rust && $(CARGO) clippy --release --all-targets $(CARGO_FLAGS) -- -D warnings

# Tables on standard output and in target/bench/tables.md, plots in target/bench.
bench: $(archive)
	@tests/need.sh zlib1g sh -c 'ldconfig -p | grep -q "[[:space:]]libz.so.1 "' || echo 'zlib is not compared'
	@tests/need.sh libdeflate0 sh -c 'ldconfig -p | grep -q "[[:space:]]libdeflate.so.0 "' || echo 'libdeflate is not compared'
	@mkdir -p target/bench
	cd rust && $(CARGO) build --release $(CARGO_FLAGS) -p eif-bench
	BENCH_PLOTS=target/bench BENCH_LARGE=$(BENCH_LARGE) rust/target/release/eif-bench $(BENCH) | tee target/bench/tables.md

FILLED := -e 's|@PREFIX@|$(PREFIX)|; s|@LIBDIR@|$(LIBDIR)|; s|@VERSION@|$(VERSION)|; s|@ABI@|$(ABI)|'

doc:
	cd rust && RUSTDOCFLAGS="-D warnings" $(CARGO) doc --no-deps $(CARGO_FLAGS)

# Installs what `make eif` has built, and builds nothing: under sudo there is often no rt and no cargo on the PATH.
install:
	@for file in target/bin/eif $(ARCHIVE) $(SHARED); do \
	    test -e $$file || { echo "nothing is installed: there is no $$file; run \`make eif\` first" >&2; exit 1; }; \
	done
	install -d $(DESTDIR)$(PREFIX)/bin $(DESTDIR)$(PREFIX)/include $(DESTDIR)$(LIBDIR)/pkgconfig $(DESTDIR)$(LIBDIR)/cmake/eif
	install -d $(DESTDIR)$(PREFIX)/share/man/man1 $(DESTDIR)$(PREFIX)/share/doc/eif
	install -m 755 target/bin/eif $(DESTDIR)$(PREFIX)/bin
	install -m 644 docs/eif.1 $(DESTDIR)$(PREFIX)/share/man/man1
	install -m 644 docs/FORMAT.md docs/MANUAL.md LICENSE $(DESTDIR)$(PREFIX)/share/doc/eif
	install -m 644 include/eif.h $(DESTDIR)$(PREFIX)/include
	install -m 644 $(ARCHIVE) $(DESTDIR)$(LIBDIR)
	ln -sf libeif_c.a $(DESTDIR)$(LIBDIR)/libeif.a
	install -m 644 $(SHARED) $(DESTDIR)$(LIBDIR)
	ln -sf libeif.so.$(VERSION) $(DESTDIR)$(LIBDIR)/libeif.so.$(ABI)
	ln -sf libeif.so.$(ABI) $(DESTDIR)$(LIBDIR)/libeif.so
	sed $(FILLED) include/eif.pc.in >$(DESTDIR)$(LIBDIR)/pkgconfig/eif.pc
	sed $(FILLED) include/eif-config.cmake.in >$(DESTDIR)$(LIBDIR)/cmake/eif/eif-config.cmake
	sed $(FILLED) include/eif-config-version.cmake.in >$(DESTDIR)$(LIBDIR)/cmake/eif/eif-config-version.cmake
	@if [ -z '$(DESTDIR)' ] && [ "$$(id -u)" = 0 ]; then $(LDCONFIG); fi

install-test: eif
	@rm -rf target/install
	@! $(MAKE) --no-print-directory install PREFIX=$(CURDIR)/target/install DESTDIR= EIF_LIB_DIR=target/none 2>/dev/null
	@! test -e target/install
	@$(MAKE) --no-print-directory install PREFIX=$(CURDIR)/target/install DESTDIR= LDCONFIG=: RT=none CARGO=none CC=none >/dev/null
	tests/install.sh $(CURDIR)/target/install $(CC)
