# run: the program that places points, on the lens sheet of document 01 with its seven points; then a month of samples on that sheet,
# eleven of them on boundaries or off the sheet, by a Rust program over the C ABI. cases: document 01's worked cases.
# test: every proof, every must-fail edit, every program, the Rust tests, the README's examples, the program on every kept page,
# the month that run shows.
# bench: how long opening, reading, searching and the looks for repeated points and for circles take, beside plain Rust and brute force.
.PHONY: run cases test bench

run:
	@mkdir -p target
	@cd crates/place && rt run < stdin 2> ../../target/place.log || { tail -n 20 ../../target/place.log; exit 1; }
	@tests/rust/library
	@CARGO_TARGET_DIR=target/rust cargo run --quiet --offline --release --manifest-path tests/rust/Cargo.toml --bin month

cases:
	@mkdir -p target
	@cd crates/cases && rt run 2> ../../target/cases.log || { tail -n 20 ../../target/cases.log; exit 1; }

test:
	@tests/all

bench:
	@tests/rust/bench
