# What one does here, by short names; `make` alone lists them.
.PHONY: help try quick check gate bench docs cost
crate = $(if $(CRATE),$(CRATE),$(error name a crate: make $@ CRATE=cache_words))

help:
	@echo 'make try                  builds all without proofs, into out/try'
	@echo 'make cost CRATE=NAME      says what a change in that crate has proved again, in minutes'
	@echo 'make quick CRATE=NAME     checks that crate over the statements of what is below it: no verdict, and soon there'
	@echo 'make check CRATE=NAME     proves that crate, and what changed below it'
	@echo 'make docs                 writes the pages of reference and the tables of the others anew, and checks the pages'
	@echo 'make bench BENCH=NAME     runs a bench; without a name it lists them'
	@echo 'make gate                 the whole test, in hours: docs/gate.md'

try:
	sh scripts/try.sh

quick:
	python3 tools/dev/check.py $(crate)

check:
	cd crates/$(crate) && rt check

gate:
	sh .ci/run

bench:
	python3 tools/dev/bench.py $(BENCH)

docs:
	python3 tools/dev/definition_lines.py --write
	python3 tools/dev/definition_words.py --write
	python3 tools/dev/sizes.py --write
	python3 tools/dev/gate_page.py --write
	python3 tools/dev/contract_pages.py --write
	python3 tools/dev/interface.py --write
	python3 tools/dev/caller_pages.py --write
	python3 tools/dev/program_pages.py --write
	python3 tools/dev/csv_page.py --write
	python3 tools/dev/towers.py --write
	python3 tools/dev/test_pages.py

cost:
	@python3 tools/dev/cost.py $(crate)
