# The tool for people, bofrashem. Included by the repository's Makefile, at whose root these run.
#   make tool            target/tool/bofrashem, its man page and completions (cargo, Debian's packages, the archive)
#   make tool-test       its tests: cargo's, through pipes, in a browser, a short run over damaged files
#   make tool-fuzz       damaged files for TOOL_FUZZ_SECONDS
#   make tool-bench      how long it takes on a large yard, and how it uses the cores on many files
#   make tool-pictures   docs/pictures, made anew by a headless Chromium
# `make run` shows it, and `make test` tries it, where it can be built. Nothing here installs anything: what is missing
# is named.
TOOL = tools/bofrashem
TOOL_FUZZ_SECONDS ?= 60
CARGO_FLAGS ?=
TOOL_CARGO = cd $(TOOL) && YND_ARCHIVE=$(call whole,$(YND_ARCHIVE)) cargo
TOOL_MAKE = --offline --release $(CARGO_FLAGS)
BOFRASHEM = target/tool/bofrashem

.PHONY: tool tool-at-hand tool-test tool-fuzz tool-bench tool-pictures tool-shown

# what is missing is said before the archive is proved
tool: tool-at-hand $(YND_ARCHIVE)
	@$(TOOL_CARGO) build -q $(TOOL_MAKE)
	@mkdir -p target/tool/completions
	@cp $(TOOL)/target/release/bofrashem $(BOFRASHEM)
	@$(BOFRASHEM) man >target/tool/bofrashem.1
	@for s in bash zsh fish; do $(BOFRASHEM) completions $$s >target/tool/completions/bofrashem.$$s || exit 1; done
	@echo '$(BOFRASHEM), with bofrashem.1 and completions beside it'

tool-at-hand:
	@$(TOOL)/at-hand

tool-test: tool
	$(TOOL_CARGO) test -q $(TOOL_MAKE)
	$(TOOL)/tests/pipe.sh $(BOFRASHEM) samples crates/printround/out/printround
	$(TOOL)/tests/page.sh $(BOFRASHEM) samples
	$(TOOL)/tests/pictures.sh $(BOFRASHEM) samples docs/pictures

# An hour: make tool-fuzz TOOL_FUZZ_SECONDS=3600
tool-fuzz: tool
	$(TOOL_CARGO) test $(TOOL_MAKE) --test damaged damaged_yards -- --nocapture

tool-fuzz: export BOFRASHEM_FUZZ_SECONDS = $(TOOL_FUZZ_SECONDS)

tool-bench: tool
	$(TOOL_CARGO) test -q $(TOOL_MAKE) --test speed -- --ignored --nocapture --test-threads=1

tool-pictures: tool
	$(TOOL)/pictures $(BOFRASHEM) samples docs/pictures

# What the tool says of a sample, a printed round, and a drawn one.
tool-shown:
	@if $(TOOL)/at-hand; then \
	    $(MAKE) --no-print-directory tool && \
	    $(BOFRASHEM) info samples/hall.section && \
	    $(BOFRASHEM) print samples/hall.section samples/hall.round && \
	    $(BOFRASHEM) draw samples/hall.section --round samples/hall.round --way 0 9 -o target/tool/hall.html && \
	    echo 'open it in a browser: '$(call whole,target/tool/hall.html); \
	else echo 'the tool is left out'; fi

run: tool-shown
