# make report FLOW=flows/a.flow   the report of a flow
# make bound FLOW=flows/a.flow    how many cells a flow takes at most
# make test                       all that the gate runs; the last line is `N passed, 0 failed`
# make lib                        the static library for C and Rust: target/staticlib/libtilsando.a
# make examples                   builds and runs the makers' programs in C and in Rust
# make outside SEED=1             library and program against a second implementation, on generated texts, tapes and samples
# make inputs                     report, bound and the makers' programs on inputs that come in pieces, have no bytes or cannot be read
# make bench                      the library against plain Rust: the tables of docs/BENCHMARKS.md
# make bench BEFORE=old.a         the same, and against an older library with the same interface

FLOW ?= flows/a.flow
SEED ?=
BEFORE ?=
CC ?= cc
RUSTC ?= rustc
LINKED = $(RUSTC) --edition 2021 -C opt-level=3 -L native=target/staticlib -l static=tilsando

.PHONY: report bound program test lib examples outside inputs bench

report: program
	@target/bin/report < $(FLOW)

bound: program
	@target/bin/bound < $(FLOW)

# The programs report and bound. Only what is proved is built, so the first time takes some minutes.
program:
	@tools/proving run report bound

lib:
	@tools/proving lib tilsando
	@echo target/staticlib/libtilsando.a

inputs: program examples
	@python3 tests/inputs.py target/bin/report target/bin/bound target/examples/c target/examples/rust

examples: lib
	@tools/examples "$(CC)" "$(RUSTC)"

outside: lib program
	@mkdir -p target/rust
	@$(LINKED) -o target/rust/outside tests/outside/src/main.rs
	@REPORT=target/bin/report BOUND=target/bin/bound target/rust/outside $(SEED)

# Of an older library two functions are kept, under other names, so that both are linked.
bench: lib
	@mkdir -p target/rust
	@$(if $(BEFORE),objcopy --redefine-sym tilsando_run=before_run --redefine-sym tilsando_report=before_report \
		--keep-global-symbol before_run --keep-global-symbol before_report $(BEFORE) target/rust/libbefore.a)
	@$(LINKED) $(if $(BEFORE),--cfg before -L native=target/rust -l static=before) -o target/rust/bench bench/src/main.rs
	@target/rust/bench

test:
	@tools/listed
	@tools/limits
	@tools/names
	@python3 tests/readings.py
	@python3 tests/reports.py
	@python3 tests/bounds.py
	@python3 tests/tables.py
	@tests/gate.sh
	@tools/gate
