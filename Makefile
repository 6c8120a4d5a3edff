# make run                   a first look, without proofs: after a minute zarr_shard on example arrays, then shard_tool on a script
# make install PREFIX=DIR    proves zarr_shard and shard_tool, and installs them in DIR/bin
# make library PREFIX=DIR    proves the library for C, and installs header, archives and its module for Python in DIR
# make test                  the merge gate: lint, every proof, the must-fail edits, the tests, the programs, tools/scripts.py, tools/commands.py, tools/arrays.py, tools/texts.py, make refuse, tools/strangers.py, tools/library.py, and tools/packed.py
# make check CRATE=NAME      proves one crate, over what earlier checks kept; ONLY=path::of::a_function proves that one alone
# make lint                  the rules that no compiler checks, in seconds
# make reference             writes docs/REFERENCE.md from the sources
# make readme                runs the commands that README.md shows, and writes what they print into it
# make wrap                  wraps the paragraphs of all pages
# make refuse                refuses each allocation of a program in turn: the answers must stay (no proof)
export PYTHONDONTWRITEBYTECODE := 1
.PHONY: help run install library test check lint reference readme wrap refuse

help:
	@sed -n 's/^# //p' Makefile

run:
	@python3 tools/run.py

PREFIX ?= /usr/local
install:
	@python3 tools/prove.py install $(PREFIX)

library:
	@python3 tools/library.py install $(PREFIX)

test: lint
	@python3 tools/prove.py test

check:
	@test -n "$(CRATE)" || { echo "make check CRATE=NAME [ONLY=path]: the names are those of crates/"; exit 2; }
	@cd crates/$(CRATE) && rt check $(if $(ONLY),--only $(ONLY))

lint:
	@python3 tools/lint.py

reference:
	@python3 tools/reference.py

readme:
	@python3 tools/run.py --readme

wrap:
	@python3 tools/wrap.py

refuse:
	@crates/test_out_of_memory/refuse_each.sh
