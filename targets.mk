# The library for other targets than x86-64, from the same proved sources. Included by the repository's Makefile, at
# whose root these run. Each target has its folder, target/TARGET.
#   make wasm            target/wasm64-unknown-unknown/bofrashem.wasm, and bofrashem-lowered.wasm for engines without
#                        64-bit memories; both held to the header
#   make test-target TARGET=aarch64-unknown-linux-gnu
#                        that processor's archive held to the header, the examples' texts to this machine's, hard use
#                        with archive and shared library, stack, installing: cross-compiled, run under qemu
# What was proved once is not proved again for another target.
WASM = target/wasm64-unknown-unknown
# where the kit is: its linker makes the module
KIT = $(patsubst %/,%,$(dir $(shell rt doc)))
# what the module uses beside the first WebAssembly: wasm-opt has to be told
WASM_OPT = --enable-memory64 --enable-bulk-memory --enable-mutable-globals --enable-sign-ext \
	--enable-nontrapping-float-to-int --enable-multivalue

.PHONY: wasm test-target same-texts
# what a failed command left half made is no target
.DELETE_ON_ERROR:

wasm: $(WASM)/bofrashem.wasm $(WASM)/bofrashem-lowered.wasm
	$(call need,wasm-objdump,wabt)
	@tools/kinds include/bofrashem.h $(WASM)/bofrashem.wasm
	@tools/kinds include/bofrashem.h $(WASM)/bofrashem-lowered.wasm

$(WASM)/libexports.a: $(PROVED) crates.txt
	@tools/archive $@ --target wasm64-unknown-unknown

$(WASM)/bofrashem.wasm: $(WASM)/libexports.a
	@$(KIT)/bin/rattle-link --target wasm64-unknown-unknown --toolchain $(KIT)/toolchain -o $@ $< 2>$(WASM)/link.log || \
	    { cat $(WASM)/link.log; exit 1; }

# The same with 32-bit addresses inside: pointers stay 64-bit numbers in the calls' types.
$(WASM)/bofrashem-lowered.wasm: $(WASM)/bofrashem.wasm
	$(call need,wasm-opt,binaryen)
	@wasm-opt $(WASM_OPT) --memory64-lowering $< -o $@

test-target: test-header same-texts hard hard-shared stack test-install

# What the examples print on another processor is what they print here, byte for byte.
same-texts: $(BUILD)/handheld/handheld $(BUILD)/handheld/crossing
	$(need_run)
	@$(MAKE) --no-print-directory -s TARGET= target/handheld/handheld target/handheld/crossing
	@for given in samples/dock.section samples/hall.section samples/yard.section 'samples/dock.section 6 0 1 1 1' \
	    README.md; do \
	    $(RUN_HANDHELD) $< $$given >$(BUILD)/said; target/handheld/handheld $$given | cmp - $(BUILD)/said || exit 1; done
	@$(RUN_HANDHELD) $(BUILD)/handheld/crossing >$(BUILD)/said; target/handheld/crossing | cmp - $(BUILD)/said
	@echo 'the examples print the same$(if $(CROSS), on $(CROSS))'
