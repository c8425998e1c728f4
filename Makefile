# `make` proves everything and prints what is proved of the whole; `make show` is a first look; `make test` is the gate.
.PHONY: prove show counts test proofs examples programs compare bench bench-reading format library gateway notice parseaddr rt cc cargo python3

# What fails left of a pipe fails.
SHELL := bash
.SHELLFLAGS := -eu -o pipefail -c

# One rt at a time: the build scripts of rust/ run it too, and link what they compared (rust/cpim/link.rs). It works in a crate's folder, or
# at the top. Standard input is a file, so that the lock never stands in its place, where what is started would not inherit it.
LOCKED := </dev/null flock .rt-lock
RT := $(LOCKED) rt
IN := $(LOCKED) env -C

# What is compared is what was proved here, and on the values that are stored here.
unexport CPIM_LIB_DIR PARSEADDR_VALUES
RUST := --offline --quiet --manifest-path rust/Cargo.toml

prove: rt
	@$(RT) all verdict
	@echo
	@echo "Proved, among the rest (crates/format/specs/Demand3.antt):"
	@echo
	@sed -n '/^pub record Demand3/,$$p' crates/format/specs/Demand3.antt
	@echo
	@echo "And of the second reading (crates/format/specs/SecondReading.antt):"
	@echo
	@sed -n '/^pub record SecondReading/,$$p' crates/format/specs/SecondReading.antt

# rt run proves a program with all that it rests on, leaves it as crates/NAME/out/NAME and runs it, here on no input.
# A first look: the programs that read a notice, then run on one.
show: rt
	@for program in showcpim wholecpim; do $(IN) crates/$$program rt run >/dev/null || exit 1; done
	@echo
	@crates/showcpim/out/showcpim <examples/umbrella.cpim
	@crates/wholecpim/out/wholecpim <examples/umbrella.cpim

# How many strings unescaping accepts and refuses, by length: the program, which reads nothing.
counts: rt
	@$(IN) crates/countcpim rt run

# What needs the Rattle toolchain (and, last, a C compiler), then what needs Rust too. The last line is rt's own once more: 'N passed, 0 failed'.
test: proofs
	@$(MAKE) --no-print-directory compare
	@tail -n 1 target/ci.out

# rt ci proves everything from nothing and keeps no work for other runs of rt but its own; .ci/refused, behind it, proves everything once more with its
# work kept, and what comes then finds it. A must-fail edit that rt ci calls bad fails nothing there.
proofs: rt
	@.ci/refused-test
	@.ci/contracts-test
	@.ci/contracts
	@.ci/gate-test
	@mkdir -p target
	@$(RT) ci | tee target/ci.out
	@[[ $$(tail -n 1 target/ci.out) == *' passed, 0 failed' ]]
	@grep -q '^rt: ok; .*; must-fail edits: [1-9][0-9]* refused' target/ci.out || { echo "gate: rt ci says of no must-fail edit that it is refused"; exit 1; }
	@! grep '^rt: ok; .*, [0-9][0-9]* bad' target/ci.out || { echo "gate: a bad must-fail edit says nothing of a contract: rt ci names it above"; exit 1; }
	@.ci/refused
	@$(MAKE) --no-print-directory programs

# The programs on the notices of examples/, held to what stands beside each, and countcpim, which reads nothing.
examples: rt
	@for program in showcpim wholecpim countcpim; do \
		out=$$($(IN) crates/$$program rt run 2>&1) || { printf '%s\n' "$$out"; exit 1; }; \
	done
	@for notice in examples/*.cpim; do \
		crates/showcpim/out/showcpim <"$$notice" | cmp - "$${notice%.cpim}.show" || exit 1; \
		crates/wholecpim/out/wholecpim <"$$notice" | cmp - "$${notice%.cpim}.whole" || exit 1; \
	done
	@crates/countcpim/out/countcpim | cmp - crates/countcpim/stdout
	@echo "examples: the programs print what stands beside each notice, and countcpim its ten lines"

# The programs on inputs that are slow, late, long or cannot be read.
programs: examples cc
	@.ci/programs-test

# The leaves beside Rust's standard library and the source; how many strings unescaping accepts, by the source and by an automaton; lists of calls, and
# texts read and written, beside the source; the gateway's crate.
compare: cargo library gateway notice
	@cargo run --release $(RUST) --bin compare
	@cargo run --release $(RUST) --bin counts
	@cargo run --release $(RUST) --bin calls
	@cargo run --release $(RUST) --bin texts
	@cargo run --release $(RUST) --bin gateway

# The gateway's crate by itself: its build script, its tests and the examples in its comments; the C header, header lines by both readings, bodies under LFLF, and
# addresses beside a stored list of what Python finds.
gateway: cargo library
	@.ci/build-test
	@for tests in '-p cpim' '-p beside --test c_header --test second_reading --test lf_body --test parseaddr'; do \
	  out=$$(cargo test $(RUST) $$tests 2>&1) || { printf '%s\n' "$$out"; exit 1; }; \
	done

# Addresses beside what Python's email.utils.parseaddr finds in new values, by another seed each time. No part of the gate, which needs no Python.
parseaddr: cargo library python3
	@mkdir -p target
	@seed=$${SEED:-$$(date +%s%N)} count=$${COUNT:-100000} values=$$PWD/target/parseaddr.tsv; \
	echo "parseaddr: $$count values, SEED=$$seed"; \
	python3 rust/beside/parseaddr/values.py "$$seed" "$$count" >"$$values"; \
	out=$$(PARSEADDR_VALUES=$$values cargo test $(RUST) -p beside --test parseaddr 2>&1) || { printf '%s\n' "$$out"; exit 1; }; \
	echo "parseaddr: no difference"

# A program in C on the header and the library, which the crate's build leaves in crates/cpim/out: what it prints is examples/notice.out.
notice: cargo cc library
	@cargo build $(RUST) -p cpim
	@mkdir -p target
	@$(LOCKED) cc -std=c99 -Wall -Wextra -Wpedantic -Werror -Icrates/cpim examples/notice.c crates/cpim/out/libcpim.a -o target/notice
	@target/notice | cmp - examples/notice.out

# What the leaves and the gateway's crate cost, as ratios: writes the tables of docs/BENCHMARKS.md. Nothing else should run beside it.
bench: cargo library
	@cargo run --release $(RUST) --bin bench
	@cargo run --release $(RUST) --bin workloads
	@cargo run --release $(RUST) --bin memory
	@cargo run --release $(RUST) --bin reading -- store

# What reading a body of 10 MB costs, as ratios: prints the tables and fails where one is above 2. No part of the gate: a timed test fails by chance.
bench-reading: cargo library
	@cargo run --release $(RUST) --bin reading

# What the build scripts make libraries of: they prove without a word, this names each crate as it is proved.
library: rt
	@mkdir -p target
	@jobs=$$(.ci/jobs); for crate in cpim leaf_exports; do \
		$(IN) crates/$$crate rt all check --jobs "$$jobs" | tee target/library.out | grep '^== ' || { cat target/library.out; exit 1; }; \
	done

format: rt
	@for crate in crates/*/; do $(IN) "$$crate" rt fmt || exit 1; done

rt:
	@command -v rt >/dev/null || { echo "rt is not on the PATH: install the Rattle toolchain first"; exit 1; }

cc:
	@command -v cc >/dev/null || { echo "cc is not on the PATH: the example in C and the test of the programs need a C compiler"; exit 1; }

python3:
	@command -v python3 >/dev/null || { echo "python3 is not on the PATH: new values for parseaddr need Python"; exit 1; }

cargo:
	@command -v cargo >/dev/null || { echo "cargo is not on the PATH: the comparison with the source and the benchmarks need Rust"; exit 1; }
