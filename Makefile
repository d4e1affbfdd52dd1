# Proves and builds the programs bwe, bwe-solve and bwe-live, and checks them.
#
## make          proves and builds all, on all processors; what has not changed is left as it is
## make bwe      proves and builds bwe alone; make bwe_solve what a first table needs
## make check    every proof, the mutants that have to be refused, every test, then the cases
## make edits    the slow mutants, which the gate leaves out, of crates whose proof is long
## make plant-main  wrong bodies that proofs let through, each of which has to fail a case
## make cases    the end-to-end cases alone, on the built programs
## make tools    the tests of tools/
## make pages    the tables of docs/PROMISES.md and docs/MUTATIONS.md, made of their data
## make chaos    faults on bwe-control over both stores, judged; SECONDS=60 SEED=1 STORE=both
## make chaos-mutants  broken allocators, each of which the judge of chaos has to find
## make look     a first table in a minute; nothing of it is proved
## make study    tables of ninety demands on networks beside stored optima
## make study-references  the optima of the study anew, and docs/QUALITY.md
## make bench    times of the program on made documents
## make demo     real TCP that keeps to the limits, in five minutes, as root; QUICK=1 in 30 seconds
## make install  installs what stands built below PREFIX, /usr/local, and DESTDIR
## make deb      makes a package for Debian in dist/; make release a tarball that works unpacked
## make clean    removes all that was proved and built
#
# Sources decide what is stale, and of that rt proves again only what has changed. A library counts
# as built by the stamp that rt leaves in its out/rlib, a program by itself.

SHELL := /bin/bash
# Crates that could be proved take turns in tools/build/prove.
ifeq ($(MAKELEVEL),0)
MAKEFLAGS += --jobs --no-print-directory --no-builtin-rules
endif
# For tools/build/prove, which counts what these have still to prove.
export goals := $(filter-out check,$(MAKECMDGOALS))

# What each crate stands on: the lines of crates.txt, here as NAME:DEP,DEP without blanks.
comma    := ,
lines    := $(shell sed -nE 's/^([a-z0-9_]+)[^:]*: */\1:/p' crates.txt | tr -s ' ' ,)
crates   := $(shell tools/build/chains)
programs := $(patsubst crates/%/src/main.rt,%,$(wildcard $(crates:%=crates/%/src/main.rt)))
files    := $(shell find $(crates:%=crates/%) -name out -prune -o -print)
below     = $(filter $(subst $(comma), ,$(patsubst $1:%,%,$(filter $1:%,$(lines)))),$(crates))
sources   = $(filter crates/$1/src% crates/$1/specs% crates/$1/proofs%,$(files))
built     = $(if $(filter $1,$(programs)),crates/$1/out/$1,crates/$1/out/rlib/stamp)

.PHONY: build check edits plant-main cases tools pages look study study-references bench demo install deb release clean help $(programs)
.PHONY: chaos chaos-mutants tests-of-tools tests-of-control
build: $(programs)
$(foreach it,$(programs),$(eval $(it): $(call built,$(it))))

# One target a crate, after those below it.
define target
$(call built,$1): crates.txt $(call sources,$1) $(foreach it,$(call below,$1),$(call built,$(it)))
	@tools/build/prove $1
endef
$(foreach it,$(crates),$(eval $(call target,$(it))))
# A program that is newer than all sources needs no library; an interrupt leaves what is built.
.SECONDARY:
.PRECIOUS: $(foreach it,$(crates),$(call built,$(it)))

check:
	rt ci
	@# The programs are now built of these sources by the gate; libraries of older ones go.
	@chmod +x $(foreach it,$(programs),$(call built,$(it)))
	@$(foreach it,$(programs),tools/build/sources $(it) >$(call built,$(it)).sources;)
	@$(MAKE) -n | sed -n 's|^tools/build/prove \(.*\)|crates/\1/out/rlib/stamp|p' | xargs rm -f
	@tools/build/packages && $(MAKE) tools || [ $$? = 3 ]
	@tools/check/cases.py

edits: $(programs)
	@tools/build/edits

plant-main: $(programs)
	@tools/check/wrong_mains.py

cases: $(programs)
	@tools/check/cases.py

# Those of control/ mostly wait, so both run beside each other. What each prints stands together.
tools:
	@tools/build/packages
	@$(MAKE) --output-sync=target tests-of-tools tests-of-control

tests-of-tools tests-of-control: tests-of-%:
	@/usr/bin/python3 -m pytest -q -p no:cacheprovider $*

pages:
	@tools/build/pages.py

STORE   := both
SECONDS := 60
SEED    := 1
chaos chaos-mutants: export PYTHONPATH := control
chaos:
	@tools/build/packages
	@/usr/bin/python3 -m chaos run --store $(STORE) --seconds $(SECONDS) --seed $(SEED)

chaos-mutants:
	@tools/build/packages
	@/usr/bin/python3 -m chaos mutants

look:
	@echo "bwe: a look before any proof: what follows is compiled, and not proved" >&2
	@cd crates/bwe_solve && rt try <../../examples/shared-link.json

# The study imports the tools.
study study-references: export PYTHONPATH := tools:tools/operator
study: bwe
	@/usr/bin/python3 -m study check

study-references: bwe
	@/usr/bin/python3 -m study references
	@/usr/bin/python3 -m study page

bench: bwe
	@tools/bench/bench.py

install:
	@PREFIX='$(PREFIX)' DESTDIR='$(DESTDIR)' tools/build/install

deb release:
	@tools/build/$@

demo: bwe bwe_live
	@control/demo/run.py $(if $(QUICK),--quick)

clean:
	rm -rf crates/*/out dist

help:
	@sed -n 's/^## //p' Makefile
