# What developers do here, a line each. `make` alone lists it; CONTRIBUTING.md says more of each step.
.PHONY: help test check proof bench fmt lint ship wheel install uninstall clean

help:      ## list these
	@sed -n 's/^\([a-z]*\):[^#]*## /make \1	/p' Makefile | expand -t 16

test:      ## run all tests on the program that ./bw runs; it needs python3 alone
	./check

check:     ## prove one crate: make check CRATE=bw_sql
	cd crates/$(CRATE) && rt check

proof:     ## run the gate: prove and test everything
	./check --proof

bench:     ## time whole queries beside C; it makes a table of ten million rows
	bench/bench.py compare --only-tuned

fmt:       ## lay out the sources of all crates
	for crate in crates/*; do (cd $$crate && rt fmt) || exit 1; done

lint:      ## check the sources by ruff or flake8, mypy and shellcheck
	./check test_lint

ship:      ## make dist/bw of these sources
	scripts/ship

wheel:     ## pack program and Python package for pip, as out/*.whl
	scripts/wheel

install:   ## copy the program and the tools to PREFIX, by default ~/.local
	./install $(PREFIX)

uninstall: ## take them away again
	./install --uninstall $(PREFIX)

clean:     ## drop what the prover keeps
	rm -rf crates/*/out out
