# Flow: the command `flow` over the proved library, its tests and an install.
# (rt ci proves the crates; bench/ has a Makefile of its own.)
#
#   make            build/flow
#   make demo       a program of examples/, from its text to an attack before and after hardening
#   make test       all tests: rt ci, make edits, then make check
#   make edits      says of each must-fail edit, by rt must-fail, at which fact it was refused first
#   make check      every test of the command (SEED=..)
#   make costs      what each command costs, as Markdown
#   make install    to $(DESTDIR)$(PREFIX): the command, its man page, flow.h, flow_words.h, libflow.a, libflow.so.1 and flow.pc

CC = gcc
CFLAGS = -std=c11 -O2 -g -Wall -Wextra -Werror -pedantic
CPPFLAGS = -D_XOPEN_SOURCE=700 -Iinclude -Itools
LDFLAGS =
PREFIX = /usr/local
DESTDIR =
SEED = 1

ROOT = .
BUILD = build
all: $(BUILD)/flow

include library.mk

SOURCES := tools/flow.c $(wildcard tools/records/*.c tools/library/*.c tools/files/*.c tools/text/*.c tools/commands/*.c)
objects = $(patsubst %.c,$(BUILD)/%.o,$(1))

$(BUILD)/flow: $(call objects,$(SOURCES)) $(LIBRARY)
	$(CC) $(LDFLAGS) -o $@ $^

demo: $(BUILD)/flow
	@sh tools/demo.sh $(BUILD)

# In this order: the command is tested over crates that are proved, and a make of its own sees what rt ci left.
test:
	$(want_rt)
	rt ci
	python3 tools/test/edits.py
	$(MAKE) check

edits:
	$(want_rt)
	python3 tools/test/edits.py

# Tests: programs of tools/test over the command's own parts and the bench's generator.
PARTS = $(filter-out tools/flow.c,$(SOURCES))
GENERATOR = $(addprefix bench/,generate.c copies.c factors.c call.c reference.c)

$(BUILD)/test/%: $(BUILD)/tools/test/%.o $(call objects,tools/test/memory.c tools/test/widen.c $(PARTS) $(GENERATOR)) $(LIBRARY)
	@mkdir -p $(@D)
	$(CC) $(LDFLAGS) -o $@ $^

check: check-transcripts check-round-trips check-versions check-explain check-stuck check-signals check-fuzz check-install

# What every command prints, with its exit status; the examples of README among them.
check-transcripts: $(BUILD)/flow $(BUILD)/test/failing.so
	python3 tools/test/transcripts.py $(BUILD) tools/test/*.txt README.md

$(BUILD)/test/failing.so: tools/test/failing.c
	@mkdir -p $(@D)
	$(CC) $(CFLAGS) -D_GNU_SOURCE -Wno-pedantic -fPIC -shared -o $@ $< -ldl

# Signals that come while files are written.
check-signals: $(BUILD)/flow $(BUILD)/test/failing.so
	python3 tools/test/signals.py $(BUILD) $(SEED)

check-round-trips: $(BUILD)/test/round_trips
	$(BUILD)/test/round_trips $(SEED)

# One program in tables of both versions, with the same words.
check-versions: $(BUILD)/test/versions
	$(BUILD)/test/versions $(SEED)

# Refusals in words, against a check of each by brute force.  (A pipe forgets how its first part ended: the check wants a last
# line.)
check-explain: $(BUILD)/test/explain_words
	$< $(SEED) | python3 tools/test/explain_check.py

# Why runs are stuck, against other directives in the place of the one that does not fit.
check-stuck: $(BUILD)/test/stuck_reasons
	$< $(SEED)

costs: $(BUILD)/flow
	python3 tools/test/costs.py $(BUILD)

# With the sanitizers, in a folder of their own: the parsers on any input, and all transcripts again.
SANITIZE = -fsanitize=address,undefined -fno-sanitize-recover=all
SANITIZED = $(BUILD)/sanitized

check-fuzz:
	$(MAKE) BUILD=$(SANITIZED) CFLAGS='$(CFLAGS) $(SANITIZE)' LDFLAGS='$(SANITIZE)' \
		$(SANITIZED)/test/fuzz $(SANITIZED)/flow
	ASAN_OPTIONS=log_path=stdout UBSAN_OPTIONS=log_path=stdout timeout 120 $(SANITIZED)/test/fuzz $(SEED) 2>/dev/null
	python3 tools/test/transcripts.py $(SANITIZED) $(filter-out %/failing_calls.txt,$(wildcard tools/test/*.txt))

# The library comes first: where it cannot be built, nothing is begun.
$(BUILD)/%.o: %.c | $(LIBRARY)
	@mkdir -p $(@D)
	$(CC) $(CFLAGS) $(CPPFLAGS) -MMD -MP -c $< -o $@

# ---- Install ----

# The release stands in include/flow.h alone; the number in the library's name is that of its interface.
RELEASE = $(shell sed -n 's/^.define FLOW_RELEASE "\(.*\)"$$/\1/p' include/flow.h)
SHARED = libflow.so.1
INSTALLED = $(DESTDIR)$(PREFIX)

$(BUILD)/$(SHARED): $(LIBRARY)
	@mkdir -p $(@D)
	$(CC) $(LDFLAGS) -shared -Wl,-soname,$(SHARED) -Wl,--whole-archive $< -Wl,--no-whole-archive -Wl,-z,defs -Wl,-z,text -o $@

# Made anew each time: PREFIX may be another.
$(BUILD)/flow.pc: tools/flow.pc.in include/flow.h always
	@mkdir -p $(@D)
	sed -e 's|@PREFIX@|$(PREFIX)|' -e 's|@RELEASE@|$(RELEASE)|' $< > $@

install: $(BUILD)/flow $(BUILD)/$(SHARED) $(BUILD)/flow.pc
	install -d $(addprefix $(INSTALLED)/,bin include lib/pkgconfig share/man/man1)
	install -m 755 $(BUILD)/flow $(INSTALLED)/bin/flow
	install -m 644 include/flow.h include/flow_words.h $(INSTALLED)/include
	install -m 644 $(LIBRARY) $(INSTALLED)/lib/libflow.a
	install -m 755 $(BUILD)/$(SHARED) $(INSTALLED)/lib/$(SHARED)
	ln -sf $(SHARED) $(INSTALLED)/lib/libflow.so
	install -m 644 $(BUILD)/flow.pc $(INSTALLED)/lib/pkgconfig/flow.pc
	install -m 644 tools/flow.1 $(INSTALLED)/share/man/man1/flow.1

check-install: $(BUILD)/flow $(BUILD)/$(SHARED)
	MAKE='$(MAKE)' BUILD='$(BUILD)' CC='$(CC)' sh tools/test/install.sh

clean:
	rm -rf $(BUILD)

-include $(shell find $(BUILD) -name '*.d' 2>/dev/null)

.PHONY: all demo test edits check check-transcripts check-round-trips check-versions check-explain check-stuck check-signals
.PHONY: check-fuzz check-install costs install clean always
.DELETE_ON_ERROR:
# objects are kept; the library is not among them, since a secondary file that is missing is not made again
.SECONDARY: $(call objects,$(GENERATOR) $(wildcard tools/test/*.c))
