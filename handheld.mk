# The handheld's library: archive, header, example, wrappers, hard use. Included by the repository's Makefile, at whose
# root these run.
#   make archive         target/staticlib/libexports.a, proved and compiled (some minutes after a change)
#   make archive TARGET=aarch64-unknown-linux-gnu
#                        the same for that processor, target/TARGET/libexports.a; with TARGET example, shared, install,
#                        hard, stack and hostile are that processor's too, built in target/TARGET by gcc's cross
#                        compiler, and run under qemu (targets.mk has `make test-target`)
#   make example         the C examples, built and run; the header held to the archive
#   make bindings        the tests of the Rust crates, bofrashem-sys and bofrashem, and their examples (cargo)
#   make python-test     the tests of the Python package, over the shared library (PYTHON, python3)
#   make python-wheel    target/python/bofrashem-*.whl, with the library inside
#   make hard            the C calls on samples, vectors and inputs, each block before a page that may not be touched
#   make asan            the C calls on samples, vectors and inputs, the caller under AddressSanitizer (gcc)
#   make valgrind        the same under valgrind, which sees the archive's code too
#   make fuzz            the libFuzzer target for FUZZ_SECONDS (clang); make fuzz-rounds: that of round files
#   make stack           how much stack each call takes
#   make rounding        what calls answer in other rounding modes, and with subnormals flushed; part of make hard
#   make hostile         how much memory small files can ask for, and what walks take whose numbers are not places
# What a target needs and does not find it names. YND_ARCHIVE names another archive.
# from the command line alone: the word is a common one in environments
TARGET =
TARGETS = x86_64-unknown-linux-gnu aarch64-unknown-linux-gnu
CROSS = $(filter-out x86_64-unknown-linux-gnu,$(TARGET))
$(if $(filter-out $(TARGETS),$(TARGET)),$(error no library for $(TARGET): there is one for $(TARGETS), 64-bit and \
	little-endian all, and make wasm; none for a 32-bit or a big-endian core))
# what is built for the default target stands in target, for another one in its folder
BUILD = $(if $(CROSS),target/$(CROSS),target)
# Debian's names for a target, and how its programs run here: by the least core that the archive is for
GNU = $(subst -unknown,,$(CROSS))
CC_HANDHELD ?= $(if $(CROSS),$(GNU)-gcc,gcc)
CC_PACKAGE = $(if $(CROSS),gcc-$(GNU),gcc)
RUN_HANDHELD ?= $(if $(CROSS),qemu-$(firstword $(subst -, ,$(CROSS))) -cpu cortex-a53 -L /usr/$(GNU))
YND_ARCHIVE ?= $(if $(CROSS),$(BUILD)/libexports.a,target/staticlib/libexports.a)
PYTHON_LIBRARY ?= target/lib/libbofrashem.so
FUZZ_SECONDS ?= 60
C_FLAGS = -std=c11 -g -Wall -Wextra -Wpedantic -Werror -Iinclude
HARD = $(addprefix hard/,lent.c model.c calls.c reach.c rounds.c versions.c paths.c edits.c stores.c input.c) \
	$(addprefix hard/,sets.c members.c member_edits.c)
DRIVE = $(HARD) hard/vectors.c hard/every.c hard/order.c hard/drive.c
HARD_HEADS = $(wildcard hard/*.h) include/bofrashem.h
CORPUS = target/hard/corpus
ROUNDS = target/hard/rounds
INPUTS = -s samples/dock.section -s samples/hall.section -s samples/yard.section -v crates/vectors/stdin \
	$(foreach f,$(wildcard $(CORPUS)/seed*),-i $(f)) $(foreach f,$(wildcard $(ROUNDS)/seed*),-r $(f))
PROVED_CRATES = numbers records cells walks indexed reach rounds paths sets set_rounds exports
# what a check makes lies in crates/NAME/out and is no source
PROVED = $(shell find $(wildcard $(foreach c,$(PROVED_CRATES),$(addprefix crates/$(c)/,src specs proofs))) \
	-name '*.rt' -o -name '*.antt')
need = @command -v $(firstword $(1)) >/dev/null || \
	{ echo '$(firstword $(1)) is missing: apt-get install $(2)'; exit 1; }
need_run = $(if $(RUN_HANDHELD),$(call need,$(RUN_HANDHELD),qemu-user))

.PHONY: archive example test-header bindings python-test hard asan valgrind fuzz fuzz-rounds stack rounding hostile
.PHONY: seeds FORCE

archive: $(YND_ARCHIVE)

target/staticlib/libexports.a: $(PROVED) crates.txt
	@tools/archive $@

target/aarch64-unknown-linux-gnu/libexports.a: $(PROVED) crates.txt
	@tools/archive $@ --target aarch64-unknown-linux-gnu

# Says which archive and which compiler made what is in the folder: with another one it is all made anew, however new.
MADE_WITH = $(BUILD)/made-with
$(MADE_WITH): FORCE
	@mkdir -p $(@D)
	@echo '$(abspath $(YND_ARCHIVE)) $(CC_HANDHELD)' | cmp -s - $@ || echo '$(abspath $(YND_ARCHIVE)) $(CC_HANDHELD)' >$@

$(BUILD)/handheld/%: examples/%.c include/bofrashem.h include/bofrashem_lists.h $(YND_ARCHIVE) $(MADE_WITH)
	$(call need,$(CC_HANDHELD),$(CC_PACKAGE))
	@mkdir -p $(@D)
	$(CC_HANDHELD) $(C_FLAGS) -O2 $< $(YND_ARCHIVE) -o $@

example: $(BUILD)/handheld/handheld $(BUILD)/handheld/crossing $(BUILD)/handheld/lists test-header
	$(need_run)
	@for f in samples/*.section; do echo; $(RUN_HANDHELD) $< $$f || exit 1; done
	@echo; echo 'up the ramp, over place 2:'; $(RUN_HANDHELD) $< samples/dock.section 6 0 1 1 1
	@echo; echo 'a round that crosses two cells:'; $(RUN_HANDHELD) $(BUILD)/handheld/crossing
	@echo; echo 'a yard with its lists as one struct:'; $(RUN_HANDHELD) $(BUILD)/handheld/lists samples/hall.section

# Every symbol of the archive is in the header with its parameters, and the other way round; the checks call each one.
test-header: $(YND_ARCHIVE)
	$(call need,python3,python3)
	$(call need,nm,binutils)
	@tools/header $(YND_ARCHIVE)

bindings: $(YND_ARCHIVE)
	$(call need,cargo,cargo)
	@mkdir -p target && cp -p bindings/rust/Cargo.lock target/bindings.lock
	cd bindings/rust && YND_ARCHIVE=$(call whole,$(YND_ARCHIVE)) cargo test --offline --workspace $(CONTAINER); \
		status=$$?; cp -p ../../target/bindings.lock Cargo.lock; exit $$status

# The wrapper's container takes Debian's flate2; without that an empty crate of its version, which Cargo.lock names, stands in
# its place, and the container is left out. Cargo then writes another lock, which is put back.
FLATE2 = $(wildcard /usr/share/cargo/registry/flate2-*)
CONTAINER = $(if $(FLATE2),--features container --config $(call whole,tools/bofrashem/.cargo/config.toml), \
	--config 'patch.crates-io.flate2.path="$(CURDIR)/judge/shims/flate2"')
PYTHON ?= python3
PYTHON_WORDS = BOFRASHEM_LIBRARY=$(call whole,$(PYTHON_LIBRARY)) PYTHONPATH=$(call whole,bindings/python)

python-test: shared
	$(call need,$(PYTHON),python3)
	@$(PYTHON_WORDS) $(PYTHON) -B -m unittest discover -s bindings/python/tests
	@$(PYTHON_WORDS) $(PYTHON) -B -m unittest discover -s examples/fleet

# A wheel with the library inside, in target/python (Debian: python3-pip, python3-setuptools, python3-wheel).
.PHONY: python-wheel
python-wheel: shared
	$(call need,$(PYTHON),python3)
	$(PYTHON) -m pip -q wheel bindings/python --no-deps --no-build-isolation -w target/python
	@ls target/python/bofrashem-*.whl

seeds:
	@python3 hard/seeds.py $(CORPUS) $(ROUNDS)

$(BUILD)/hard/guard: $(DRIVE) $(HARD_HEADS) $(YND_ARCHIVE) $(MADE_WITH)
	$(call need,$(CC_HANDHELD),$(CC_PACKAGE))
	@mkdir -p $(@D)
	$(CC_HANDHELD) $(C_FLAGS) -O1 $(DRIVE) $(YND_ARCHIVE) -o $@

hard: $(BUILD)/hard/guard seeds rounding
	$(need_run)
	@$(MAKE) --no-print-directory hard-run DRIVER=$<

$(BUILD)/hard/asan: $(DRIVE) $(HARD_HEADS) $(YND_ARCHIVE) $(MADE_WITH)
	$(call need,$(CC_HANDHELD),$(CC_PACKAGE))
	@mkdir -p $(@D)
	$(CC_HANDHELD) $(C_FLAGS) -O1 -DHARD_HEAP -fsanitize=address,undefined -fno-sanitize-recover=all $(DRIVE) \
		$(YND_ARCHIVE) -o $@

$(BUILD)/hard/heap: $(DRIVE) $(HARD_HEADS) $(YND_ARCHIVE) $(MADE_WITH)
	@mkdir -p $(@D)
	$(CC_HANDHELD) $(C_FLAGS) -O1 -DHARD_HEAP $(DRIVE) $(YND_ARCHIVE) -o $@

asan: $(BUILD)/hard/asan seeds
	@$(MAKE) --no-print-directory hard-run DRIVER=$<

valgrind: $(BUILD)/hard/heap seeds
	$(call need,valgrind,valgrind)
	@$(MAKE) --no-print-directory valgrind-run

# In a make of their own, since the inputs are listed once they are there.
.PHONY: hard-run valgrind-run
hard-run:
	@$(RUN_HANDHELD) $(DRIVER) $(INPUTS)

valgrind-run:
	@valgrind -q --error-exitcode=9 --leak-check=full $(BUILD)/hard/heap $(INPUTS)

target/hard/fuzz: $(HARD) hard/fuzz.c $(HARD_HEADS) $(YND_ARCHIVE)
	$(call need,clang,clang libclang-rt-14-dev)
	@mkdir -p $(@D)
	clang $(C_FLAGS) -O1 -fsanitize=fuzzer,address $(HARD) hard/fuzz.c $(YND_ARCHIVE) -o $@

# An hour: make fuzz FUZZ_SECONDS=3600
fuzz: target/hard/fuzz seeds
	cd target/hard && ./fuzz -max_total_time=$(FUZZ_SECONDS) -max_len=6144 -print_final_stats=1 corpus

target/hard/fuzz-rounds: $(HARD) hard/fuzz.c $(HARD_HEADS) $(YND_ARCHIVE)
	$(call need,clang,clang libclang-rt-14-dev)
	@mkdir -p $(@D)
	clang $(C_FLAGS) -DFUZZ_ROUNDS -O1 -fsanitize=fuzzer,address $(HARD) hard/fuzz.c $(YND_ARCHIVE) -o $@

fuzz-rounds: target/hard/fuzz-rounds seeds
	cd target/hard && ./fuzz-rounds -max_total_time=$(FUZZ_SECONDS) -max_len=66000 -print_final_stats=1 rounds

# Bound at the start (-z now): what the loader takes to bind a symbol at its first call is not the archive's stack.
$(BUILD)/hard/stack: hard/stack.c include/bofrashem.h $(YND_ARCHIVE) $(MADE_WITH)
	$(call need,$(CC_HANDHELD),$(CC_PACKAGE))
	@mkdir -p $(@D)
	$(CC_HANDHELD) $(C_FLAGS) -O1 -Wl,-z,now hard/stack.c $(YND_ARCHIVE) -o $@

stack: $(BUILD)/hard/stack
	$(need_run)
	@$(RUN_HANDHELD) $< samples/yard.section

$(BUILD)/hard/rounding: hard/rounding.c include/bofrashem.h $(YND_ARCHIVE) $(MADE_WITH)
	$(call need,$(CC_HANDHELD),$(CC_PACKAGE))
	@mkdir -p $(@D)
	$(CC_HANDHELD) $(C_FLAGS) -O1 hard/rounding.c $(YND_ARCHIVE) -lm -o $@

rounding: $(BUILD)/hard/rounding
	$(need_run)
	@$(RUN_HANDHELD) $<

$(BUILD)/hard/hostile: hard/hostile.c include/bofrashem.h $(YND_ARCHIVE) $(MADE_WITH)
	$(call need,$(CC_HANDHELD),$(CC_PACKAGE))
	@mkdir -p $(@D)
	$(CC_HANDHELD) $(C_FLAGS) -O2 hard/hostile.c $(YND_ARCHIVE) -o $@

hostile: $(BUILD)/hard/hostile
	$(need_run)
	@$(RUN_HANDHELD) $<
