# `make help` prints what each target does. Times are for two processors.
.PHONY: examples help lib build test faces faults mutants bench

examples:
	@.ci/examples try

help:
	@echo "make         builds raid_bench without proof and answers the examples: 2 to 3 minutes"
	@echo "make lib     builds the library for C without proof, as crates/raid_c/out/quick/libraid_c.a: 1 to 2 minutes"
	@echo "make build   proves and optimises raid_bench, and answers the examples: 20 to 40 minutes"
	@echo "make test    the gate: all proofs, must-fail edits, tests and cases: 79 to 114 minutes on two processors"
	@echo "make faces   a script's drives kept in files, one left out, and all recovered: a second after make test"
	@echo "make faults  the long run of injected faults: half an hour after make test, else 30 to 60 minutes of proofs first"
	@echo "make mutants the must-fail edits that the gate leaves out: over an hour after make test, estimated"
	@echo "make bench   times against plain Rust programs: a quarter of an hour after make test"
	@echo
	@echo "A script of your own, without proof, in 1 to 2 minutes:"
	@echo "    cd crates/raid_bench && rt try -- script < FILE"
	@echo "and proved, after make build:"
	@echo "    crates/raid_bench/out/raid_bench script < FILE"
	@echo "    crates/raid_bench/out/raid_bench storm WORKERS ROUNDS    1 to 8 workers, 1 to 1000 rounds each"
	@echo "raid_bench takes no other words and prints no help: with others it ends with status 2 and no output."
	@echo "A line of a script that means nothing is answered by 'fault LINE KIND': docs/FORMATS.md has the usual causes, and"
	@echo "    cd crates/raid_images && rt try -- explain < FILE"
	@echo "prints the line, the word and what was expected."

lib:
	@.ci/quick_library

build:
	@.ci/examples build

test:
	@.ci/run

faces:
	@.ci/faces story

faults:
	@.ci/faults_long

mutants:
	@.ci/mutants
	@.ci/file_mutants

bench:
	@python3 bench/all.py
