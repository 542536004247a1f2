# `make test` is the gate: every proof, every must-fail edit, every program and every test around the library. Its last
# line is `N passed, M failed`.
.PHONY: test run reference examples driver compare soak mutants example

test:
	@host/gate

# Proves the bench program, runs it on the worked example of document 01 and shows both sides in hex.
run:
	@mkdir -p target
	cd crates/bench && rt run <stdin >../../target/bench.stdout
	@echo 'from the host:' && od -An -tx1 crates/bench/stdin
	@echo 'from the panel:' && od -An -tx1 target/bench.stdout

# The library that firmware links.
library = target/staticlib/libpanel.a
$(library): crates.txt $(shell find crates -name out -prune -o -type f -print)
	cd crates/panel_c && rt lib
	@mkdir -p $(@D)
	cp crates/panel_c/out/libpanel_c.a $@

# The tests of the reference, which is the link written a second time.
cargo_words = --quiet --release --locked --target-dir target/cargo --manifest-path
reference:
	cargo test $(cargo_words) host/reference/Cargo.toml

# The worked examples of the documents as the reference prints them, line by line beside those of the five programs
# that run them through the library.
examples:
	@mkdir -p target
	cat crates/vectors/stdout crates/capture_vectors/stdout crates/ascii_vectors/stdout crates/alarm_vectors/stdout crates/point_vectors/stdout >target/examples
	cargo run $(cargo_words) host/reference/Cargo.toml | diff target/examples -

# The programs that make calls of the library and compare what they give.
driver: $(library)
	host/build/program target/host/driver host/tests/driver.c
	cargo build $(cargo_words) host/tests/Cargo.toml

# Library against reference on millions of calls; `make compare SEED=N` makes those of an earlier run again.
seed = $(if $(SEED),--seed $(SEED))
compare: driver
	target/cargo/release/compare $(seed) host/build/run target/host/driver

# The same with other random numbers again and again, until there are 10^8 calls or `make soak CALLS=N`, and for half an
# hour or SECONDS=N at most.
soak: driver
	target/cargo/release/soak $(seed) $(if $(CALLS),--calls $(CALLS)) $(if $(SECONDS),--seconds $(SECONDS)) \
	    host/build/run target/host/driver

# Wrong versions of the reference, the edits of host/mutants: compare must catch each in each of five runs, or RUNS=N.
mutants:
	cargo build $(cargo_words) host/tests/Cargo.toml
	target/cargo/release/mutants $(seed) $(if $(RUNS),--runs $(RUNS)) host/mutants host/reference target/mutants

# The program that firmware can start from.
example: $(library)
	host/build/program target/host/example host/example/example.c
	host/build/run target/host/example >target/host/example.stdout
	diff host/example/stdout target/host/example.stdout

include host/sim.mk
include host/perf.mk
