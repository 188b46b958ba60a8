# The page: a yard in a browser, by the proved calls. Included by the repository's Makefile, at whose root these run.
#   make page            target/page/bofrashem.html, one file that is opened by double click (python3; make wasm)
#   make page-test       its tests in a real browser (chromium, chromium-driver, python3-selenium), PAGE_SECONDS of
#                        damaged files among them; screenshots in target/page/shots
#   make page-bench      size, first picture, frames a second, times of calls, for docs/BENCHMARKS.md
# The tool has the page in it where it can be made; what is missing is named.
PAGE = target/page/bofrashem.html
PAGE_MODULE ?= target/wasm64-unknown-unknown/bofrashem-lowered.wasm
PAGE_SOURCES = $(wildcard page/*.py page/page.* page/src/*.mjs page/src/drawing/*.mjs)
PAGE_SECONDS ?= 20

.PHONY: page page-test page-bench page-for-tool

page: $(PAGE)
	@:

$(PAGE): $(PAGE_MODULE) $(PAGE_SOURCES) include/bofrashem.h
	@python3 page/join.py $(PAGE_MODULE) include/bofrashem.h $@

# `draw -o yard.html` puts a yard into this page: it is built into the tool, or lies beside it.
tool: page-for-tool

page-for-tool:
	@if page/at-hand $(PAGE_MODULE); then $(MAKE) --no-print-directory page; else \
	    echo 'the page is left out of the tool: draw -o yard.html then takes a bofrashem.html beside it'; fi

page-test: page
	@page/tests/all $(PAGE) $(PAGE_SECONDS)

page-bench: page
	@/usr/bin/python3 page/tests/bench.py $(PAGE)
