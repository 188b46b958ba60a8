# What a user downloads. Included by the repository's Makefile, at whose root these run.
#   make release         target/release: Debian packages, a tarball with the prebuilt archives, Python's wheel,
#                        checksums; then make try-release
#   make try-release     installs them into a root of their own (debootstrap, as root), and uses each there
#   make tool-arm64      target/aarch64-unknown-linux-gnu/tool/bofrashem, by Debian's cross compiler for Rust: rustc-web
#                        with libstd-rust-web-dev:arm64, or what `make cross-rust` unpacks of them; RUST_ARM64 names
#                        another
# Debian's debhelper, dh-python and lintian; gcc-aarch64-linux-gnu and qemu-user for arm64.
ARM = aarch64-unknown-linux-gnu
RUST_ARM64 ?= $(firstword $(wildcard target/cross-rust/rustc) /usr/bin/rustc)
# whether that compiler has the standard library for arm64
rust_arm64 = ls "$$($(RUST_ARM64) --print sysroot)"/lib/rustlib/$(ARM)/lib/libstd-*.rlib >/dev/null 2>&1

.PHONY: release try-release tool-arm64 cross-rust

cross-rust:
	@tools/cross-rust

tool-arm64: tool-at-hand target/$(ARM)/libexports.a
	@$(rust_arm64) || { echo 'no Rust for arm64: make cross-rust'; exit 1; }
	@cd $(TOOL) && YND_ARCHIVE='$(abspath target/$(ARM)/libexports.a)' RUSTC='$(abspath $(RUST_ARM64))' \
	    CARGO_TARGET_AARCH64_UNKNOWN_LINUX_GNU_LINKER=aarch64-linux-gnu-gcc \
	    cargo build -q $(TOOL_MAKE) --target $(ARM)
	@mkdir -p target/$(ARM)/tool
	@cp $(TOOL)/target/$(ARM)/release/bofrashem target/$(ARM)/tool/bofrashem
	@echo 'target/$(ARM)/tool/bofrashem'

release: target/staticlib/libexports.a shared tool wasm page
	$(call need,dh,debhelper dh-python lintian)
	@rm -f target/$(ARM)/tool/bofrashem
	@if command -v $(subst -unknown,,$(ARM))-gcc >/dev/null; then \
	    $(MAKE) --no-print-directory TARGET=$(ARM) shared && \
	    if $(rust_arm64); then $(MAKE) --no-print-directory tool-arm64; fi; fi
	@tools/release
	@tools/release-try target/release

try-release:
	@tools/release-try target/release
