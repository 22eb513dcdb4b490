# `make dist` makes a release in dist/ of what is built: an archive with the program and the C
# library, and a wheel. `tests/run` builds it with all proofs and tests.
PYTHON ?= python3

help:
	@echo "make dist    makes a release in dist/ of what tests/run has built"
	@echo "make edits   tries the wrong edits that tests/run leaves to a release"

dist:
	$(PYTHON) release/dist.py

edits:
	$(PYTHON) release/try_edits.py

.PHONY: help dist edits
