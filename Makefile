# make run: proves, builds and runs the main program on a sample, and gives an account of it.
# make test: the whole gate.
SAMPLE = samples/balance.bin

run:
	cd crates/script_check && rt run < ../../$(SAMPLE)
	cd crates/script_summary && rt run < ../../$(SAMPLE)

test:
	.ci/run

.PHONY: run test
