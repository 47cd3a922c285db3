# demo: build the program and run it on the samples; test: prove and test everything; bench: compare with plain Rust.
.PHONY: demo test bench program

# proves and builds the program, which stays as crates/ternbook/out/ternbook; silent where all is well
program:
	@said=$$(cd crates/ternbook && rt run -- --help 2>&1) || { echo "$$said"; exit 1; }

demo: program
	cd crates/ternbook/data && ../out/ternbook calls

test:
	tests/gate
	$(MAKE) --silent program
	tests/status
	tests/must-not-build/run

bench: program
	bench/run
