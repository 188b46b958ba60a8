# Two commands do everything on a machine with the kit (`rt`): make run, make test. `make` alone is make help.
#   make help            this list
#   make run             the tool on a sample, what the programs say of the samples; the first time it proves them
#   make test            everything, from nothing: proofs, edits that must fail, programs, wrappers, the tool
#   make check CRATE=numbers   the daily loop: the verdict for a crate and all below it
#   make fmt             the layout of the crates' files
#   make believe         which definitions a reader must believe, in reading order (docs/READING.md)
#   make samples         the sample yards, made again
CRATE ?=

.PHONY: help run test check fmt samples believe
.DEFAULT_GOAL := help

# What the files that make reads say of their targets.
help:
	@sed -n 's/^#   \(make .*\)/\1/p' $(MAKEFILE_LIST)

# a file of this folder, or one named whole, quoted for the shell
whole = '$(if $(filter /%,$(1)),$(1),$(CURDIR)/$(1))'
# what needs the kit asks for it first
kit = @tools/kit

# What the programs say of the sample yards, a printed round, and where the length table comes from.
run:
	@tools/programs cellsum pairs printround thresholds
	@for f in samples/*.section; do printf '%s: ' $$f; crates/cellsum/out/cellsum <$$f || exit 1; done
	@crates/pairs/out/pairs
	@for y in dock hall; do tools/printed samples/$$y.section samples/$$y.round || exit 1; done
	@echo 'thresholds of the length table, the first and the last:'; crates/thresholds/out/thresholds | sed -n '1p;$$p'

test:
	$(kit)
	@tools/test

check:
	$(kit)
	rt ci $(CRATE)

fmt:
	$(kit)
	@for c in crates/*/; do (cd $$c && rt fmt) || exit 1; done

believe:
	$(call need,python3,python3)
	@tools/believe

samples:
	$(call need,python3,python3)
	python3 samples/make_yards.py

-include judge/judge.mk
include handheld.mk
include targets.mk
include compilers/compilers.mk
include install.mk
include tools/bofrashem/tool.mk
include release.mk
include page.mk
