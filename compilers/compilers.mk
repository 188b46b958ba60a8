# Compilers agree: the same calls on the same inputs, whichever compiler made the library. Included by the repository's
# Makefile, at whose root these run.
#   make compilers        10^8 calls with LLVM's archive and with that of Rattle's own compiler, 10^7 with that for
#                         aarch64 under qemu and with both WebAssembly modules in Node: some twenty minutes
#   make test-compilers   10^5 calls with each, as make test runs it; a library changed by hand has to be found
# What is not at hand is left out by name. COMPILERS_SEED names another run.
COMPILERS = target/compilers
COMPILERS_SEED ?= 1
AGREE = $(addprefix compilers/,random.c digest.c world.c given.c call.c blocks.c told.c) $(COMPILERS)/calls.c
AGREE_FLAGS = -std=c11 -O2 -Wall -Wextra -Wpedantic -Werror -Iinclude -Icompilers -I$(COMPILERS)
AGREE_MADE = $(AGREE) $(COMPILERS)/samples.h compilers/agree.h compilers/blocks.h include/bofrashem.h
AARCH64 = target/aarch64-unknown-linux-gnu
# the last LLVM whose modules with 64-bit memories have 32-bit tables, as Node 20 and binaryen take them
WASM_CC = clang-14 --target=wasm64-unknown-unknown -ffreestanding -nostdlibinc -isystem compilers/freestanding \
	-mnontrapping-fptoint -msign-ext -mmutable-globals
WASM_LD = wasm-ld-14 -mwasm64 --no-entry --import-memory --allow-undefined --global-base=4194304 -z stack-size=1048576

.PHONY: compilers test-compilers

compilers:
	@compilers/run 1e8 1e7 $(COMPILERS_SEED)

test-compilers:
	@compilers/run 1e5 1e5 $(COMPILERS_SEED)
	@compilers/run-changed $(COMPILERS_SEED)

target/rattle/libexports.a: $(PROVED) crates.txt
	@tools/archive $@ --backend rattle

$(COMPILERS)/calls.c: compilers/calls include/bofrashem.h
	@mkdir -p $(@D)
	@compilers/calls include/bofrashem.h >$@

$(COMPILERS)/samples.h: compilers/samples samples/dock.section samples/hall.section
	@mkdir -p $(@D)
	@compilers/samples samples/dock.section samples/hall.section >$@

$(COMPILERS)/x86-64: $(AGREE_MADE) compilers/main.c target/staticlib/libexports.a
	gcc $(AGREE_FLAGS) $(AGREE) compilers/main.c target/staticlib/libexports.a -o $@

$(COMPILERS)/x86-64-own: $(AGREE_MADE) compilers/main.c target/rattle/libexports.a
	gcc $(AGREE_FLAGS) $(AGREE) compilers/main.c target/rattle/libexports.a -o $@

$(COMPILERS)/aarch64: $(AGREE_MADE) compilers/main.c $(AARCH64)/libexports.a
	aarch64-linux-gnu-gcc $(AGREE_FLAGS) -static $(AGREE) compilers/main.c $(AARCH64)/libexports.a -o $@

# LLVM's archive with one call changed by hand (compilers/changed.c): the comparison has to find it.
$(COMPILERS)/changed: $(AGREE_MADE) compilers/main.c compilers/changed.c target/staticlib/libexports.a
	gcc $(AGREE_FLAGS) -Wl,--wrap=ynd_length_between $(AGREE) compilers/main.c compilers/changed.c \
		target/staticlib/libexports.a -o $@

$(COMPILERS)/agree.wasm: $(AGREE_MADE) compilers/module.c $(wildcard compilers/freestanding/*)
	@mkdir -p $(COMPILERS)/wasm && rm -f $(COMPILERS)/wasm/*.o
	@for f in $(AGREE) compilers/module.c; do \
	    $(WASM_CC) $(AGREE_FLAGS) -fno-builtin -c $$f -o $(COMPILERS)/wasm/$$(basename $$f .c).o || exit 1; done
	$(WASM_LD) $(COMPILERS)/wasm/*.o -o $@

$(COMPILERS)/agree-lowered.wasm: $(COMPILERS)/agree.wasm
	wasm-opt $(WASM_OPT) --memory64-lowering $< -o $@
