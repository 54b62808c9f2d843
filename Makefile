# Cechnuol, the price unit. Commands:
#
#   make help       prints these lines
#   make run        a day at the counter in words, and the listing of the image that it ends with; before any proof too
#   make lib        proves the unit and writes target/staticlib/libcechnuol.a; does nothing where no source has changed
#   make example    builds examples/box_office.c with that library, and runs it
#   make install    installs header, library and pkg-config file under PREFIX (/usr/local), or under DESTDIR and PREFIX
#   make uninstall  takes these three files away again
#   make dist       writes target/dist/cechnuol-VERSION.tar.gz: what an integrator needs, with checksums and how it was built
#   make replay     builds model/target/release/replay, which runs a script of calls on the unit (docs/REPLAY.md)
#   make listing    proves the program that prints an image, and writes target/bin/listing
#   make check      the quick loop: proves what has changed and runs the tests, without the must-fail edits; no verdict
#   make test       the whole gate: rt ci (every proof, the must-fail edits, the programs) and the tests
#   make bench      measures the unit beside the same work in Rust, LMDB and SQLite, and writes target/bench/BENCHMARKS.md and its plot,
#                   with DOCS=1 to docs/ instead; half a minute; not part of the gate

MAKEFLAGS += --no-builtin-rules
PREFIX = /usr/local
DESTDIR =
CC ?= cc
CFLAGS ?= -O2

version := $(shell sed -n 's/^.define CECHNUOL_VERSION_TEXT "\(.*\)"$$/\1/p' include/cechnuol.h)
library = target/staticlib/libcechnuol.a
# What the library is made of: the kit, and the sources with their folders, so that a file that is gone counts as a change.
made_of := $(shell command -v rt) crates.txt $(shell find crates -name out -prune -o -type d -print -o -name '*.rt' -print -o -name '*.antt' -print)
installed = "$(DESTDIR)$(PREFIX)"
# need COMMAND,WHAT-IT-IS: says what is missing
need = @command -v $(1) >/dev/null || \
	{ echo "make $@ needs $(2): the command $(1) is not on the PATH (see README.md)." >&2; exit 1; }

.PHONY: help run lib example install uninstall dist replay listing check test bench

help:
	@sed -n '/^#/!q; s/^# \{0,1\}//p' Makefile

run:
	@tools/run-day

lib: $(library)

# The tool leaves a library alone that was made of sources with this content; it then counts as made now.
$(library): $(made_of)
	@tools/static-library
	@touch $@

example: $(library)
	$(call need,$(CC),a C compiler)
	@$(CC) -std=c99 -Wall -Wextra -Wpedantic -Werror $(CFLAGS) -Iinclude examples/box_office.c $(library) -o target/box_office
	@target/box_office

install: $(library)
	$(call need,install,the command that copies files (coreutils))
	@install -d $(installed)/include $(installed)/lib/pkgconfig
	@install -m 644 include/cechnuol.h $(installed)/include/cechnuol.h
	@install -m 644 $(library) $(installed)/lib/libcechnuol.a
	@sed 's/@VERSION@/$(version)/' tools/cechnuol.pc.in >$(installed)/lib/pkgconfig/cechnuol.pc
	@chmod 644 $(installed)/lib/pkgconfig/cechnuol.pc
	@echo "installed: cechnuol.h, libcechnuol.a and cechnuol.pc, version $(version), under" $(installed)

uninstall:
	@rm -f $(installed)/include/cechnuol.h $(installed)/lib/libcechnuol.a $(installed)/lib/pkgconfig/cechnuol.pc
	@echo "uninstalled: cechnuol.h, libcechnuol.a and cechnuol.pc, under" $(installed)

dist: $(library)
	@rm -rf target/dist/cechnuol-$(version)
	@$(MAKE) --no-print-directory install DESTDIR= PREFIX="$(CURDIR)/target/dist/cechnuol-$(version)" >/dev/null
	@tools/dist $(version)

replay: $(library)
	$(call need,cargo,Rust)
	$(call need,cc,a C compiler by which Rust links)
	@cd model && cargo build --release --offline --quiet -p replay
	@echo "replay: model/target/release/replay is built"

listing:
	$(call need,rt,the Rattle kit)
	$(call need,python3,Python)
	@tools/program listing

check:
	@.ci/run --quick

test:
	@.ci/run

bench: $(library)
	$(call need,cargo,Rust)
	$(call need,cc,a C compiler by which Rust links)
	@cd model && cargo run --release --offline --quiet -p bench --bin benchmarks $(if $(DOCS),../docs,../target/bench)
