# The proved library, for the Makefiles of the command and of the bench, which give ROOT, the way to this folder.

LIBRARY = $(ROOT)/target/staticlib/libflow.a

# Every source, spec and proof of the crates.  Their folders too: a file that is deleted, or moved in with an old time, makes its
# folder newer and nothing else.  What rt makes stands in crates/NAME/out, and making that makes crates/NAME newer: both are left out.
CRATES := $(ROOT)/crates.txt $(shell find $(ROOT)/crates -mindepth 2 \( -name must-fail -o -name out \) -prune -o \
	\( -type d -o -type f -name '*.rt' -o -type f -name '*.antt' \) -print)

# For the first line of a recipe that calls rt: without it, make stops before it begins anything.
want_rt = $(if $(shell command -v rt 2> /dev/null),,$(error rt is missing on the PATH: the Rattle toolchain has it, \
	and proves and builds libflow.a by it))

# The archive gets the time at which proving began: a file that is changed in the minutes that it takes is then newer.
$(LIBRARY): $(CRATES)
	$(want_rt)
	@echo "libflow.a is missing or older than the crates: proving them takes some minutes (all of it: $(BUILD)/proving.log)"
	@mkdir -p $(BUILD)
	@touch $(BUILD)/proving_began
	@sh $(ROOT)/tools/prove.sh $(ROOT) $(BUILD)/proving.log
	@touch -r $(BUILD)/proving_began $@
