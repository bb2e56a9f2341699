# make help      this list, which plain make prints too
# make demo      steer the messages of examples/messages.hex by examples/rules.txt, through the library
# make test      the whole gate: proves all from nothing, tries the edits that must be refused, runs every test
# make check     prove what has changed
# make list      prove and build the listing program, and list a message with it
# make archive   prove and build the library for C: target/lib/libgoldenskep.a
# make examples  build the examples: target/examples/steer, answer, change, sccp, desk
# make install   header, library and pkg-config file, under DESTDIR PREFIX (/usr/local)
# make uninstall take these three away again
# make ctest     the tests in C of the library; SEED (1) and COUNT (20000) of the model's cases
# make fuzz      the same comparisons with fresh seeds until one differs: SEED, COUNT (2000), ROUNDS (0: no end)
# make bench     instructions of a call beside plain C, the costliest message found, the deepest stack
# make fmt       lay out the sources
# make clean     remove target/ and what rt keeps in crates/*/out
#
# ARCHIVE may name another archive of the library. C is compiled for x86-64 through tools/cc.sh.
.PHONY: help test check list archive demo examples install uninstall ctest fuzz bench fmt clean always

PREFIX = /usr/local
DESTDIR =
VERSION := $(shell sed -n 's/^\#define GOLDENSKEP_VERSION "\(.*\)"$$/\1/p' include/goldenskep.h)
ARCHIVE = target/lib/libgoldenskep.a
CFLAGS = -std=c99 -Wall -Wextra -Wpedantic -O2
SOURCES := crates.txt $(shell find crates -name '*.rt' -o -name '*.antt')
EXAMPLES = target/examples/steer target/examples/answer target/examples/change target/examples/sccp target/examples/desk
INCLUDED = $(DESTDIR)$(PREFIX)/include
LIBRARIES = $(DESTDIR)$(PREFIX)/lib

help:
	@sed -n '/^#/!q; s/^# \{0,1\}//p' Makefile

test:
	@sh tests/run.sh

check:
	@sh tools/prove.sh check

list: target/bin/list
	sh tools/cc.sh run target/bin/list <crates/list/stdin

target/bin/%: $(SOURCES)
	@echo "proving $*; the prover's notes are in target/log"
	@sh tools/prove.sh program $* $@

archive: $(ARCHIVE)

target/lib/libgoldenskep.a: $(SOURCES)
	@echo "proving the library; the prover's notes are in target/log"
	@sh tools/prove.sh archive $@

examples: $(EXAMPLES)

# always: with another ARCHIVE, which may be older, they are other programs
target/examples/%: examples/%.c $(ARCHIVE) always
	@mkdir -p target/examples
	sh tools/cc.sh cc $(CFLAGS) -Iinclude -o $@ $< $(ARCHIVE)

demo: target/examples/steer
	sh tools/cc.sh run target/examples/steer examples/rules.txt examples/messages.hex

install: $(ARCHIVE)
	mkdir -p target "$(INCLUDED)" "$(LIBRARIES)/pkgconfig"
	install -m 644 include/goldenskep.h "$(INCLUDED)/goldenskep.h"
	install -m 644 $(ARCHIVE) "$(LIBRARIES)/libgoldenskep.a"
	sed 's,@PREFIX@,$(abspath $(PREFIX)),; s,@VERSION@,$(VERSION),' goldenskep.pc.in >target/goldenskep.pc
	install -m 644 target/goldenskep.pc "$(LIBRARIES)/pkgconfig/goldenskep.pc"

uninstall:
	rm -f "$(INCLUDED)/goldenskep.h" "$(LIBRARIES)/libgoldenskep.a" "$(LIBRARIES)/pkgconfig/goldenskep.pc"

ctest: $(ARCHIVE)
	@VECTORS=tests/vectors SEED=$(or $(SEED),1) COUNT=$(or $(COUNT),20000) sh tests/c/run.sh $(ARCHIVE)

fuzz: $(ARCHIVE)
	@SEED=$(SEED) COUNT=$(COUNT) ROUNDS=$(ROUNDS) sh tests/fuzz.sh $(ARCHIVE)

bench: $(ARCHIVE) target/bin/program_readings
	@sh bench/run.sh $(ARCHIVE) target/bin/program_readings

fmt:
	@for crate in crates/*/; do (cd "$$crate" && rt fmt) || exit; done

clean:
	rm -rf target crates/*/out
