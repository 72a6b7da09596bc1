# make run      works one job off and prints every digit (ARGS="radix4 carry-save 10 8 537" chooses another), and runs a vector stream
# make test     proves every crate, tries the edits that must fail, runs the programs, the tests and the C example
# make example  builds and runs the C example
# make verify-singles  compares the singles with MPFR on very many words (wants libmpfr-dev)
# make bench    measures the exported function beside a plain C model

ARGS ?=

.PHONY: run test example bench verify-singles

run:
	@mkdir -p target
	@echo "proving and building trace and twin (some minutes the first time)" >&2
	@for name in trace twin; do (cd crates/$$name && rt run < /dev/null) > target/run.log 2>&1 || { cat target/run.log; exit 1; }; done
	@crates/trace/out/trace $(ARGS)
	@echo; echo "The stream crates/twin/stdin"; od -An -v -tx1 crates/twin/stdin
	@echo "run by twin gives"; crates/twin/out/twin < crates/twin/stdin | od -An -v -tx1

test:
	@tests/gate

example:
	@mkdir -p target
	@(cd crates/c_interface && rt lib) > target/library.log 2>&1 || { cat target/library.log; exit 1; }
	gcc -O2 -Wall -Wextra -Iinclude -o target/simulate examples/c/simulate.c crates/c_interface/out/libc_interface.a
	target/simulate > target/simulate.out
	diff examples/c/expected target/simulate.out

bench:
	bench/run

verify-singles:
	tests/singles/run
