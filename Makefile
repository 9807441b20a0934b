# The library as C programs use it, the card tool, and their tests.
#
#   make                  target/staticlib/libisc.a, proved
#   make card             target/bin/card, the card tool
#   make test             the tests of the C border, of the examples, of the card tool and of the program broken
#   make compare          the library beside the model of tests/model, byte by byte
#   make bench            what each request costs
#   make figures          what two files come to that grow in turn: pointers, and the time of a grow
#   make install PREFIX=  library, header, isc.pc and the card tool
#   make clean            removes what this file makes (rt's own proofs stay)
#
# The library is for x86-64. On another processor a cross compiler and an emulator are used, by their names on
# Debian; CC, CXX, NM and EMULATOR can be given.

PREFIX ?= /usr/local
DESTDIR ?=

ifeq ($(shell uname -m),x86_64)
  CC = cc
  CXX = c++
  NM = nm
  EMULATOR =
  LDFLAGS =
else
  CC = x86_64-linux-gnu-gcc
  CXX = x86_64-linux-gnu-g++
  NM = x86_64-linux-gnu-nm
  EMULATOR = qemu-x86_64-static
  LDFLAGS = -static
endif

# The changes of the library that the model is to know too: its cargo features
CHANGES = w6,w3,w1,w7,w4
# Of make compare: the seed, the number of requests and the most seconds (0: no limit)
SEED = 1
COUNT = 200000
SECONDS = 0
# Of make bench: seconds for each figure
FIGURE = 0.3

LIB = target/staticlib/libisc.a
BIN = target/bin
STRICT = -Wall -Wextra -Wpedantic -Werror
C99 = -std=c99 -D_POSIX_C_SOURCE=200809L $(STRICT) -O2 -Iinclude
VERSION = $(shell awk '/^.define ISC_VERSION_M(AJOR|INOR)/ { v = v (v ? "." : "") $$3 } END { print v }' include/isc.h)

RATTLE := $(wildcard crates.txt crates/*/src/*.rt crates/*/src/*/*.rt) \
          $(wildcard crates/*/specs/*.antt crates/*/specs/*/*.antt) \
          $(shell find crates/*/proofs -name '*.antt')
TOOL := $(wildcard tools/*.c)
BORDER := $(filter-out tests/c/header.c,$(wildcard tests/c/*.c))
EXAMPLES := $(patsubst examples/%.c,$(BIN)/%,$(wildcard examples/*.c))
FIGURES := $(patsubst tests/figures/%.c,$(BIN)/%,$(wildcard tests/figures/*.c))

# Says which package has a command that is not there: $(call needs,command,package)
needs = @command -v $(1) >/dev/null || { echo "make: $(1) is missing: it is in Debian's package $(2)" >&2; exit 1; }

.PHONY: all card test compare bench figures install clean tools-c tools-cxx tools-run tools-model

all: $(LIB)

$(LIB): $(RATTLE)
	$(call needs,rt,of no name: it is the Rattle toolchain)
	cd crates/isc && rt lib
	@mkdir -p $(dir $@)
	cp crates/isc/out/libisc.a $@

tools-c:
	$(call needs,$(CC),$(if $(EMULATOR),gcc-x86-64-linux-gnu,gcc))

tools-cxx:
	$(call needs,$(CXX),$(if $(EMULATOR),g++-x86-64-linux-gnu,g++))

tools-run:
ifneq ($(EMULATOR),)
	$(call needs,$(EMULATOR),qemu-user-static)
endif

tools-model:
	$(call needs,cargo,cargo)

card: $(BIN)/card

$(BIN)/card: $(TOOL) $(wildcard tools/*.h) include/isc.h $(LIB) | tools-c
	@mkdir -p $(BIN)
	$(CC) $(C99) $(LDFLAGS) $(TOOL) $(LIB) -o $@

# The card tool whose power can be cut at a write
$(BIN)/card_cut: $(TOOL) $(wildcard tools/*.h) tests/card/cut.c include/isc.h $(LIB) | tools-c
	@mkdir -p $(BIN)
	$(CC) $(C99) $(LDFLAGS) -Wl,--wrap=pwrite,--wrap=fsync $(TOOL) tests/card/cut.c $(LIB) -o $@

$(BIN)/border: $(BORDER) $(wildcard tests/c/*.h) include/isc.h $(LIB) | tools-c
	@mkdir -p $(BIN)
	$(CC) $(C99) $(LDFLAGS) $(BORDER) $(LIB) -o $@

$(BIN)/%: examples/%.c include/isc.h $(LIB) | tools-c
	@mkdir -p $(BIN)
	$(CC) $(C99) $(LDFLAGS) $< $(LIB) -o $@

$(BIN)/%: tests/figures/%.c include/isc.h $(LIB) | tools-c
	@mkdir -p $(BIN)
	$(CC) $(C99) $(LDFLAGS) $< $(LIB) -o $@

# The program that says which rule is broken, proved and built by rt, which runs it too
$(BIN)/broken: $(RATTLE)
	$(call needs,rt,of no name: it is the Rattle toolchain)
	cd crates/broken && rt run < stdin > /dev/null
	@mkdir -p $(BIN)
	cp crates/broken/out/broken $@

# What gives the program broken its input as one message
$(BIN)/message: tests/broken/message.c | tools-c
	@mkdir -p $(BIN)
	$(CC) $(C99) $(LDFLAGS) $< -o $@

test: tools-c tools-cxx tools-run $(BIN)/border $(BIN)/card $(BIN)/card_cut $(BIN)/broken $(BIN)/message $(EXAMPLES)
	CC='$(CC)' CXX='$(CXX)' NM='$(NM)' EMULATOR='$(EMULATOR)' tests/run.sh

MODEL = ISC_LIB_DIR=$(CURDIR)/target/staticlib CARGO_TARGET_DIR=$(CURDIR)/target/model tests/model/build-lib.sh $(CHANGES)
# What build-lib.sh prints behind "diff:" or "perf:" is the command, with its arguments in brackets
command_of = sed -n 's/^$(1): \(.*$(1)\) .*/\1/p' target/model/commands

compare: tools-model $(LIB)
	@mkdir -p target/model
	$(MODEL) > target/model/commands
	env $$($(call command_of,diff)) $(SEED) $(COUNT) $(SECONDS)

bench: tools-model $(LIB)
	@mkdir -p target/model
	$(MODEL) > target/model/commands
	env $$($(call command_of,perf)) $(FIGURE)

figures: tools-run $(FIGURES)
	for program in $(FIGURES); do $(EMULATOR) $$program || exit 1; done

install: $(LIB) $(BIN)/card
	install -d $(DESTDIR)$(PREFIX)/lib/pkgconfig $(DESTDIR)$(PREFIX)/include $(DESTDIR)$(PREFIX)/bin
	install -m 644 $(LIB) $(DESTDIR)$(PREFIX)/lib/libisc.a
	install -m 644 include/isc.h $(DESTDIR)$(PREFIX)/include/isc.h
	install -m 755 $(BIN)/card $(DESTDIR)$(PREFIX)/bin/card
	sed -e 's|@PREFIX@|$(PREFIX)|' -e 's|@VERSION@|$(VERSION)|' isc.pc.in > $(DESTDIR)$(PREFIX)/lib/pkgconfig/isc.pc

clean:
	rm -rf $(LIB) $(BIN)/card $(BIN)/card_cut $(BIN)/border $(BIN)/broken $(BIN)/message $(EXAMPLES) $(FIGURES) target/model
