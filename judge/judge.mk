# The Rust as judge. Included by the repository's Makefile, at whose root these run.
#   make diff            both sides on the same inputs, about two minutes
#   make diff FULL=1     with the exhaustive sweeps and a million lists of calls; minutes more on two quiet processors
#   make drop-in         a tenth of it with the wrapper's module `ynd` in the Rust's place, half a minute; part of diff
#   make soak            lists of calls on sound cells, on drawn ones and on sound sets alone
#   make slips           believable wrong programs in the port's place, each to be caught by the family that claims it
#   make bench           times of both sides, as the table of docs/BENCHMARKS.md
#   make vectors         writes the vectors file anew, from the Rust's answers
# YND_RUST_SRC names the folder of the Rust's published text; SEED and SECONDS steer the random inputs.
YND_RUST_SRC ?= $(CURDIR)/../shared/docs/src/src
SEED ?= 1
SECONDS ?= 100
LISTS ?= 1000000
VECTORS = crates/vectors/stdin
JUDGE = judge/target/release/judge
DROP_IN = judge/target/drop-in/release/judge
DROP_IN_SECONDS ?= 12
JUDGE_CARGO = cd judge && YND_ARCHIVE=$(call whole,$(YND_ARCHIVE)) cargo build --offline --release
export YND_RUST_SRC

.PHONY: judge diff drop-in soak slips bench vectors

judge: archive
	$(JUDGE_CARGO)

diff: judge drop-in
	$(JUDGE) diff --seed $(SEED) --seconds $(SECONDS) $(if $(FULL),--full)

# The same test functions, built a second time: what is named `ynd` is the wrapper's.
drop-in: archive
	$(JUDGE_CARGO) --features drop-in --target-dir target/drop-in
	$(DROP_IN) diff --seed $(SEED) --seconds $(DROP_IN_SECONDS) $(if $(FULL),--full)

soak: judge
	$(JUDGE) soak --seed $(SEED) --lists $(LISTS)

# One slip alone: judge/target/release/judge slips --only NAME
slips: judge
	$(JUDGE) slips --seed $(SEED)

bench: judge
	$(JUDGE) bench

vectors: judge
	$(JUDGE) vectors $(VECTORS)
