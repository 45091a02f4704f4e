# To use the program:
#   try         build ./pairmd-unproved with nothing proved, and run the stored example
#   run         prove and build the program, and run the stored example
#   pairmd      leave the proved program at ./pairmd
#   install     install the proved program, its man page, pages, examples and completions for bash, zsh and fish below
#               PREFIX, and the Python module in PYTHONDIR: a directory below PREFIX that python3 searches, if there is one
#   dist        pack the same for machines without the toolchain
# To check it:
#   test        the CI gate, then the mutants of each crate whose stamp doesn't fit
#   edits       the mutants that the CI gate doesn't try itself; NAMES=.. of some crates
#   guide       the pages: counts, lengths, links, names, recipes, generated parts, and the output of every command; and
#               whether each script starts. The commands need a program: ./pairmd, which `make pairmd` proves and builds, or
#               another with PROGRAM=.., such as ./pairmd-unproved of `make try`. OVER=.. takes pages and program from an
#               unpacked package
#   transcripts run the stored test cases of transcripts/; PROGRAM=.. as above. Test cases of failing memory and
#               outputs need the fault injector that `make test` or `tools/build.py fault_injector` builds, or another with
#               INJECTOR=..; they are skipped without it, and fail if PAIRMD_NEEDS=all
#   second-reading  recompute runs and tables of the test cases in plain Python; with PROGRAM=.. also verdicts on
#               listings and other tables of curve
#   edges       the program on the system's files and streams and at the greatest sizes, and completions in bash;
#               PROGRAM=.. names another program. The unproved one needs more stack than the least that this tries
#   python      test the Python module with the program; PROGRAM=.. as above, PYTHON=.. another Python. Tests that need
#               numpy, ASE, MDAnalysis, Dask or GNU parallel are skipped without them, and fail if PAIRMD_NEEDS=all
#
# PROGRAM=.. sets PAIRMD, which names the program for all scripts.
#
# A program is built only after every crate that it depends on is proved. Proofs are kept in crates/*/out, so the first
# build proves all crates, and later builds prove the crates that changed and those above them, reusing the work of
# `rt check`. Crates are proved side by side, one for each core and each 4 GB of free memory, or JOBS=n of them.

JOBS ?= $(shell tools/build.py --count)
PREFIX ?= /usr/local
PYTHON ?= python3
SEARCHED = import site; print(([it for it in site.getsitepackages() if it.startswith("$(PREFIX)/lib/")] + ["$(PREFIX)/lib/python3"])[0])
PYTHONDIR ?= $(shell python3 -c '$(SEARCHED)')
# Quoted as a whole, since the names of directories may have blanks.
AT = $(DESTDIR)$(PREFIX)
DOC = "$(AT)/share/doc/pairmd"
completions = mkdir -p "$(AT)/share/$2" && PAIRMD=./pairmd tools/completions.py $1 > "$(AT)/share/$2/$3"
PAGES = README.md CHANGELOG.md crates/engine/specs/RunSpecification.antt \
	$(wildcard docs/*.md pictures/*.svg pictures/*.png examples/*.* crates/pairmd/data/* python/pairmd/*.py)
NAMED = $(if $(PROGRAM),PAIRMD=$(abspath $(PROGRAM)))
SOURCES := $(shell find crates -path '*/src/*' -name '*.rt')

.PHONY: try run test edges edits transcripts second-reading pairmd install guide python dist

try: pairmd-unproved
	@cd crates/pairmd/data && ../../../pairmd-unproved $$(cat ../args)
	@echo "./pairmd-unproved printed this. It is not proved: \`make run\` proves the program and builds ./pairmd." >&2

pairmd-unproved: $(SOURCES) crates.txt tools/try.py
	tools/try.py $@

run: pairmd
	@cd crates/pairmd/data && ../../../pairmd $$(cat ../args)

test:
	tools/rt.py ci
	tools/edits.py --stale

edges:
	$(NAMED) tools/edges.py
	$(NAMED) tools/completions.py --test

edits:
	tools/edits.py $(NAMES) --jobs $(JOBS)

transcripts:
	$(NAMED) tools/test_cases.py $(if $(INJECTOR),--injector $(INJECTOR))

second-reading:
	python3 second_reader/citations.py
	python3 second_reader/play.py
	$(if $(PROGRAM),python3 second_reader/verdicts.py $(PROGRAM))
	$(if $(PROGRAM),python3 second_reader/tables.py $(PROGRAM))

pairmd:
	tools/build.py pairmd --jobs $(JOBS)
	cp crates/pairmd/out/pairmd pairmd

install: pairmd
	install -D -m 755 pairmd "$(AT)/bin/pairmd"
	install -D -m 644 docs/pairmd.1 "$(AT)/share/man/man1/pairmd.1"
	$(call completions,bash,bash-completion/completions,pairmd)
	$(call completions,zsh,zsh/site-functions,_pairmd)
	$(call completions,fish,fish/vendor_completions.d,pairmd.fish)
	mkdir -p $(DOC)
	cp --parents --preserve=mode $(PAGES) $(DOC)
	install -D -m 644 -t "$(DESTDIR)$(PYTHONDIR)/pairmd" python/pairmd/*.py python/pairmd/py.typed
	@echo "The Python module is in $(PYTHONDIR). If python3 doesn't search there, set PYTHONPATH='$(PYTHONDIR)'."

guide:
	tools/counts.py
	tools/links.py
	tools/names.py
	tools/explanations.py
	tools/crates.py
	tools/recipes.py
	tools/columns.py
	tools/clauses.py
	tools/scripts.py
	$(NAMED) tools/guide.py $(if $(OVER),--over $(OVER))

python:
	PAIRMD=$(abspath $(or $(PROGRAM),$(PAIRMD),pairmd)) $(PYTHON) -B -m unittest discover -s python/tests -t python

dist: pairmd
	tools/dist.py
