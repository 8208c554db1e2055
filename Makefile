# `make` says what there is.
RUST_SRC ?= ../shared/docs/src
export RUST_SRC
PREFIX ?= /usr/local
VERSION = $(shell sed -n 's/^.define STACKLINES_VERSION "\(.*\)"/\1/p' bindings/c/stacklines.h)
ARCHIVE = target/staticlib/libstacklines.a

.PHONY: help run compare test lib install book fuzz faults bench bench-docs profile prove must-fail fmt clean

help:
	@echo 'make run BOOK=file        print the STACK lines of a book, as specimens/first.book'
	@echo 'make compare A=file B=file   say whether two books have the same records, and list those that differ'
	@echo 'make test                 everything: the proofs, the must-fail edits, the programs, the tests beside them'
	@echo 'make lib [PREFIX=dir]     the archive to link from C, $(ARCHIVE), its header is bindings/c/stacklines.h; with PREFIX also installed'
	@echo 'make install PREFIX=dir   header, archive and pkg-config file to dir/include and dir/lib, once make lib has made the archive'
	@echo 'make book                 the tool that makes books from readable text or unwind bytes, shows and compares them, target/book; tools/book/README.md'
	@echo 'make fuzz [SEED=] [N=]    the archive against the model and the Rust on N books and unwind bytes, from a fresh seed unless one is given'
	@echo 'make faults               wrong programs, each caught by a test or refused by the prover; some minutes'
	@echo 'make bench [LTO=fat]      the speed beside the Rust and a plain copy, how the time grows, the stack taken; LTO links the Rust that way'
	@echo 'make bench-docs           the same, and its tables into docs/BENCHMARKS.md'
	@echo 'make profile              instructions by function on both sides, with valgrind'
	@echo 'make prove                the proofs alone'
	@echo 'make must-fail            the must-fail edits alone'
	@echo 'make fmt                  lay out the sources'
	@echo 'make clean                remove what was built'
	@echo
	@echo 'RUST_SRC is the Rust source, a checkout or a folder of its files, $(RUST_SRC); without it its tests are skipped.'
	@echo 'REAL is a folder with books and unwind bytes of real files for bench and profile; without it oracle/real has a sample.'

run:
	@sh tools/run '$(BOOK)'

compare:
	@sh tools/compare '$(A)' '$(B)'

test:
	@sh tests/run

lib:
	@sh tools/archive $(ARCHIVE)
	@$(if $(findstring command line,$(origin PREFIX)),$(MAKE) -s install)
	@echo $(ARCHIVE)

install:
	@test -f $(ARCHIVE) || { echo 'make lib first' >&2; exit 2; }
	@mkdir -p '$(DESTDIR)$(PREFIX)/include' '$(DESTDIR)$(PREFIX)/lib/pkgconfig'
	@cp bindings/c/stacklines.h '$(DESTDIR)$(PREFIX)/include/'
	@cp $(ARCHIVE) '$(DESTDIR)$(PREFIX)/lib/'
	@sed 's|@PREFIX@|$(PREFIX)|; s|@VERSION@|$(VERSION)|' bindings/c/stacklines.pc.in >'$(DESTDIR)$(PREFIX)/lib/pkgconfig/stacklines.pc'

book:
	@mkdir -p target
	@cargo build --offline --release -q -j1 --manifest-path tools/book/Cargo.toml $$(test ! -f $(ARCHIVE) || echo --features compare)
	@cp tools/book/target/release/book target/book
	@echo target/book

fuzz: lib
	@SEED='$(SEED)' N='$(N)' sh tests/fuzz

faults:
	@sh tests/faults/run

bench: lib
	@LTO='$(LTO)' REAL='$(REAL)' sh tests/bench

bench-docs: lib
	@REAL='$(REAL)' sh tests/bench docs/BENCHMARKS.md

profile: lib
	@REAL='$(REAL)' sh tests/profile

prove:
	rt all check

must-fail:
	rt must-fail

fmt:
	@for c in crates/*/; do (cd $$c && rt fmt) || exit; done

clean:
	rm -rf target crates/*/out oracle/target bindings/rust/target tools/book/target
