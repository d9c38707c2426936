# Zagvulem: what make builds goes to build/.
#
#   make               the library build/libzagvulem.a, the programs build/cutlist and build/zgvbook, which makes books of expressions,
#                      and the examples build/player and build/modernize
#   make sheet         cuts the sample sheet by the built-in book and prints its tokens
#   make example       runs the player on the sample sheet
#   make cutlist       build/cutlist alone: cuts text.bin by book.bin of the folder that it is run in
#   make harness       compares the library with a second implementation (CASES=n SEED=n)
#   make test          tries what README.md, the header, the documents and the examples say
#   make check         the gate, .ci/run: proves every crate, then all of the above
#   make bench         measures the library beside flex and re2c, which it needs (INSTALL=1 installs them by apt-get,
#                      NO_FLEX=1 and NO_RE2C=1 leave them out; OLD=FILE measures an earlier library too, one whose cuts
#                      have no masks; with OLD_MASKS=1 one whose cuts have them)
#   make layouts       measures an earlier library (OLD=FILE) beside this one in 16 programs that differ in where the two lie
#   make install       header, library, pkg-config file, cutlist, zgvbook, documents and examples below PREFIX (/usr/local; DESTDIR)
#   make uninstall     removes what make install put there
#   make dist          a tarball of the same in build/, for who has no kit
#   make clean         removes build/; what rt has proved stays in crates/*/out/
#   make help          this text
#
# Building the library and cutlist needs rt, the Rattle kit: it proves what it compiles. The rest needs a C compiler; the harness
# needs rustc. A build says how long it takes and keeps its log in build/.

VERSION := $(shell sed -n 's/^\#define ZGV_VERSION  *"\(.*\)"/\1/p' include/zagvulem.h)
PREFIX ?= /usr/local
DESTDIR ?=
CC ?= cc
CFLAGS ?= -O2
RUSTC ?= rustc
RUSTFLAGS ?= -O --edition 2021 -C debug-assertions=on
CASES ?= 20000
SEED ?= 1
OLD ?=
INSTALL ?=
NO_FLEX ?=
NO_RE2C ?=

WARNINGS = -std=c99 -Wall -Wextra -Werror -pedantic
RATTLE := crates.txt $(shell find crates -name out -prune -o \( -name '*.rt' -o -name '*.antt' \) -print)
# two runs of rt would share out/ of each crate: the lock has one wait for the other
RT = flock build/rt.lock tools/quiet.sh

DOCUMENTS = docs/FORMAT.md docs/PERFORMANCE.md
EXAMPLES = examples/player.c examples/modernize.c examples/zgvbook.c examples/sheet.txt examples/builtin.bin examples/builtin.rules \
	examples/make-book.sh examples/list-book.sh
DIST = zagvulem-$(VERSION)
DOC = $(DESTDIR)$(PREFIX)/share/doc/zagvulem

all: build/libzagvulem.a build/cutlist build/zgvbook build/player build/modernize

help:
	@sed -n -e '/^#/!q' -e 's/^# \{0,1\}//p' Makefile

build:
	@mkdir -p build

build/libzagvulem.a: $(RATTLE) | build
	@echo 'Proving the library, which takes a while where nothing is proved yet. Log: build/library.log'
	@$(RT) build/library.log -C crates/zagvulem_c rt lib
	@cp crates/zagvulem_c/out/libzagvulem_c.a $@

build/cutlist: $(RATTLE) | build
	@echo 'Proving cutlist, which takes a while where nothing is proved yet. Log: build/cutlist.log'
	@$(RT) build/cutlist.log -C crates/cutlist rt run
	@cp crates/cutlist/out/cutlist $@

cutlist: build/cutlist
	@:

sheet: build/cutlist
	@cd examples/sheet && ../../build/cutlist

build/player build/modernize build/zgvbook: build/%: examples/%.c include/zagvulem.h build/libzagvulem.a
	$(CC) $(WARNINGS) $(CFLAGS) -Iinclude $< build/libzagvulem.a -o $@

example: build/player
	build/player examples/builtin.bin examples/sheet.txt 2 boats ships
	build/player -l examples/builtin.bin examples/sheet.txt 2 boats ships
	@echo

# compiled apart from the library that it is linked with, so that make -j builds both at once
build/libharness.rlib: $(wildcard harness/src/*.rs) examples/builtin.bin | build
	$(RUSTC) $(RUSTFLAGS) --crate-type rlib --crate-name harness harness/src/lib.rs -o $@

build/harness: harness/main.rs build/libharness.rlib build/libzagvulem.a
	$(RUSTC) $(RUSTFLAGS) --extern harness=build/libharness.rlib -C link-arg=build/libzagvulem.a harness/main.rs -o $@

harness: build/harness
	build/harness --cases $(CASES) --seed $(SEED)

test: all build/harness
	@for t in tests/*.sh; do echo "$$t"; "$$t" || exit 1; done

bench: build/libzagvulem.a
	CC="$(CC)" OLD="$(OLD)" INSTALL="$(INSTALL)" NO_FLEX="$(NO_FLEX)" NO_RE2C="$(NO_RE2C)" bench/run.sh

layouts: build/libzagvulem.a
	CC="$(CC)" bench/layouts.sh $(OLD)

check:
	.ci/run

install: build/libzagvulem.a build/cutlist build/zgvbook
	sed -e 's|@PREFIX@|$(PREFIX)|' -e 's|@VERSION@|$(VERSION)|' zagvulem.pc.in >build/zagvulem.pc
	install -d $(DESTDIR)$(PREFIX)/bin $(DESTDIR)$(PREFIX)/include $(DESTDIR)$(PREFIX)/lib/pkgconfig $(DOC)/examples
	install -m 644 include/zagvulem.h $(DESTDIR)$(PREFIX)/include/
	install -m 644 build/libzagvulem.a $(DESTDIR)$(PREFIX)/lib/
	install -m 644 build/zagvulem.pc $(DESTDIR)$(PREFIX)/lib/pkgconfig/
	install -m 755 build/cutlist build/zgvbook $(DESTDIR)$(PREFIX)/bin/
	install -m 644 $(DOCUMENTS) $(DOC)/
	install -m 644 $(filter-out %.sh,$(EXAMPLES)) $(DOC)/examples/
	install -m 755 $(filter %.sh,$(EXAMPLES)) $(DOC)/examples/

uninstall:
	rm -f $(DESTDIR)$(PREFIX)/include/zagvulem.h $(DESTDIR)$(PREFIX)/lib/libzagvulem.a
	rm -f $(DESTDIR)$(PREFIX)/lib/pkgconfig/zagvulem.pc $(DESTDIR)$(PREFIX)/bin/cutlist $(DESTDIR)$(PREFIX)/bin/zgvbook
	rm -f $(DOCUMENTS:docs/%=$(DOC)/%) $(EXAMPLES:%=$(DOC)/%)
	-rmdir $(DOC)/examples $(DOC)

# The folders of the tarball are those of the sources, with lib/ and bin/; its pkg-config file finds its own folder.
dist: build/libzagvulem.a build/cutlist build/zgvbook
	rm -rf build/$(DIST)
	mkdir -p build/$(DIST)/include build/$(DIST)/lib/pkgconfig build/$(DIST)/bin build/$(DIST)/docs build/$(DIST)/examples
	cp docs/TARBALL.md build/$(DIST)/README.md
	cp include/zagvulem.h build/$(DIST)/include/
	cp build/libzagvulem.a build/$(DIST)/lib/
	sed -e 's|@PREFIX@|$${pcfiledir}/../..|' -e 's|@VERSION@|$(VERSION)|' zagvulem.pc.in >build/$(DIST)/lib/pkgconfig/zagvulem.pc
	cp build/cutlist build/zgvbook build/$(DIST)/bin/
	cp $(DOCUMENTS) build/$(DIST)/docs/
	cp $(EXAMPLES) build/$(DIST)/examples/
	tar -C build --sort=name --owner=0 --group=0 --numeric-owner -czf build/$(DIST)-x86_64-linux.tar.gz $(DIST)
	@echo build/$(DIST)-x86_64-linux.tar.gz

clean:
	rm -rf build

.PHONY: all help cutlist sheet example harness test bench layouts check install uninstall dist clean
