# `make test` is the merge gate. tools/test has its steps.

.PHONY: help demo test steps archive compare outside bench mutants

help:
	@echo 'make demo                prove what a blob needs, build the blob of a pond station, and show it'
	@echo 'make test                the merge gate; if all is well its last line is: N passed, 0 failed'
	@echo 'make archive             write the library for C and Rust: build/libgeirovund.a, geirovund.h and geirovund.rs'
	@echo 'make compare SEEDS=20    run test_replay and the original crate on 20 random lists and all short ones (default: 8);'
	@echo '                         then the exported functions of the writer on the same lists (default: 4);'
	@echo '                         then test_reader and a model of the reading on as many lists of blobs;'
	@echo '                         then test_leaves and a model of the search and the name tests, likewise (default: 64)'
	@echo 'make outside             let dtc and libfdt read finished blobs, and compare the reader with them'
	@echo 'make mutants             find the list that catches each wrong program: docs/COMPARISON.md (takes long)'
	@echo 'make bench ROUNDS=41     time a build beside the original crate, and a reading beside libfdt: docs/PERFORMANCE.md'
	@echo 'tools/fdt-write -h       write the blob of a call list'
	@echo 'tools/fdt-read -h        print the tree of a blob, or what the reader reports'
	@echo 'tools/fdt-show -h        show a blob: its header, and its tree or its bytes'
	@echo 'tools/test-archive -h    test the library for C and Rust'
	@echo 'tools/promises -h        check that everything that docs/PROMISES.md cites exists'
	@echo 'tools/moved -h           list what changed between two git revisions'
	@echo 'tools/twins -h           list functions that differ only in numbers, their types and names'
	@echo 'tools/check-time -h      print how long the gate takes, crate by crate'

demo:
	@tools/demo

# tools/test writes the name of a step that failed to build/failed, and make prints it on its last line.
test: steps
	@$(if $(shell cat build/failed 2>/dev/null),$(error make test: failed: $(shell cat build/failed)),:)

steps:
	@mkdir -p build && : >build/failed
	@tools/test build/failed || test -s build/failed

# The writer for C and Rust.
archive:
	@tools/archive

# SEEDS: how many random lists, or FIRST-LAST.
compare:
	@tools/compare $(SEEDS)
	@tools/compare-face $(SEEDS)
	@tools/compare-reader $(SEEDS)
	@tools/compare-search $(SEEDS)

# RUNS: how many random blobs.
outside:
	@tools/outside $(RUNS)
	@tools/outside-reader $(RUNS)

# ROUNDS: how many rounds.
bench:
	@tools/bench $(ROUNDS)

# Wrong programs, built unproved: would the comparison notice?
mutants:
	@tools/mutants
