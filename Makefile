# `make help` lists the targets, each with the text behind its ##, below the lines that begin with ##.
SHELL := bash
.SHELLFLAGS := -e -o pipefail -c
.DEFAULT_GOAL := help
.PHONY: help run try build agent vectors test edits page-test storm bench install uninstall dist deb cluster cluster-storm postgresql bench-postgresql
.PHONY: check-edits check-rattle check-caught check-program check-tools check-tests

PREFIX ?= /usr/local

help:
	@echo "Begin with make run; README.md says what this is. The targets:"
	@awk -F ':.*## ' '/^## / { printf "\n%s\n", substr($$0, 4) } /^[a-z-]+:.*## / { printf "  %-13s %s\n", $$1, $$2 }' Makefile

## To use it

run: ## shows how a server is emptied: the plan, and what the check says (the first time it builds for two minutes, without proof)
	@[ -x build/smplan ] || scripts/build/unproved smplan >&2
	@scripts/smplan-tools show examples/drain-berlin-1.json

try: ## builds build/smplan-unproved and build/smpland-unproved without any proof, in three minutes: slow programs, for small documents
	@scripts/build/unproved smplan
	@scripts/build/unproved smpland

build: ## proves and builds build/smplan and build/smpland, in up to an hour
	@mkdir -p build
	p=$$(scripts/build/smplan) && cp "$$p" build/smplan
	cd crates/smpland && rt run -- --help 2>&1 >/dev/null </dev/null | tee ../../build/smpland.log
	cp crates/smpland/out/smpland build/smpland
	@scripts/build/keep-verdict build/rt.log build/smpland.log

install: ## installs build/smplan, build/smpland, the tools, manual pages and docs below PREFIX (/usr/local), in the folder DESTDIR if it is given
	scripts/build/install-tree "$(DESTDIR)" "$(PREFIX)"

uninstall: ## removes what install has put there
	scripts/build/install-tree --remove "$(DESTDIR)" "$(PREFIX)"

dist: ## packs both programs with their checksums and verdicts, the tools and the docs into an archive in build/
	scripts/build/make-dist

deb: ## packs them for Debian, with manual pages, completions and units: build/smplan_VERSION_amd64.deb; after make agent also libsm-agent-dev
	scripts/build/make-deb

## To connect your servers (docs/YOUR-SERVERS.md)

agent: ## proves and builds a server's side as a library for C: build/libsm_agent.a and .so (include/sm_agent.h)
	@mkdir -p build
	cd crates/sm_agent_c && rt lib
	cp crates/sm_agent_c/out/libsm_agent_c.a build/libsm_agent.a
	gcc -shared -Wl,--whole-archive build/libsm_agent.a -Wl,--no-whole-archive -o build/libsm_agent.so

vectors: ## writes build/agent-vectors.txt, by which a port to another language is tested (tests/agent/README.md)
	scripts/build/unproved tests_agent_vectors
	build/tests_agent_vectors-unproved 20000 > build/agent-vectors.txt

## To change it (docs/CONTRIBUTING.md)

# (first what takes seconds; the gate leaves the program that it has proved and run beside its crate; of the wrong versions those of
# tests/must-fail, which undo a promise, are tried as far as they are begun within four minutes, crate by crate in turn, and those that only tests
# catch: `make edits` tries all. A check takes no libraries of two builds, and `rt ci` gives back those that stood beside the crates before. So these
# go first, and edits are tried before `make agent` builds the agent's libraries again)
test: ## the gate, in more than an hour: all proofs from nothing, all tests, wrong versions that must be refused; at the end what was left out
	@mkdir -p build && rm -f build/left-out
	scripts/check/layout
	scripts/check/words
	scripts/check/lemmas
	scripts/check/vocabulary
	scripts/build/make-audit --check
	scripts/test scripts
	rm -rf crates/*/out/rlib
	rt ci 2>&1 | tee build/rt.log
	cp crates/smplan/out/smplan build/smplan
	cp crates/smpland/out/smpland build/smpland
	scripts/build/keep-verdict build/rt.log
	$(MAKE) --jobs=2 --output-sync=line check-edits check-rattle
	$(MAKE) --jobs=2 --output-sync=line check-program check-tests check-tools check-caught
	@if [ -s build/left-out ]; then echo "This machine lacks something, so that tests were left out:"; sort -u build/left-out; else echo "No test was left out."; fi

# (the parts run two at a time. Of wrong versions none is begun after four minutes: `make edits` tries all)
check-edits:
	scripts/edits/try-edits --edits tests/must-fail --until "$$(($$(date +%s) + 240))"

check-rattle:
	scripts/check/rattle

check-caught:
	scripts/edits/caught-by-tests --until "$$(($$(date +%s) + 240))"

check-program:
	scripts/test program
	scripts/check/smpland-model build/smplan build/smpland -
	scripts/check/driver-example
	scripts/check/smpland
	scripts/check/smpland-kills
	scripts/check/smpland-faults 10
	scripts/check/early
	scripts/check/command-line
	scripts/check/memory
	scripts/check/threads
	scripts/check/storm 20
	build/trial_storm-unproved looks check

check-tools:
	scripts/check/readme
	scripts/test driving_model data_model
	scripts/test python
	scripts/check/dist
	scripts/check/deb
	scripts/check/pages --or-leave-out
	scripts/check/cluster
	scripts/check/postgresql --brief

check-tests:
	$(MAKE) agent vectors
	scripts/check/agent
	scripts/check/memory-tests
	scripts/check/refused-programs
	scripts/test cluster
	SM_AGENT=build/libsm_agent.so scripts/test python -k NativeTest

edits: ## tries all wrong versions, over what make test has proved: hours of a processor
	@mkdir -p build
	rm -rf crates/*/out/rlib
	rt ci >build/rt-edits.log 2>&1 || { tail -n 20 build/rt-edits.log; exit 1; }
	scripts/edits/check-try-edits
	scripts/edits/try-edits --always tests/must-fail
	scripts/edits/caught-by-tests

cluster: ## a minute of a real cluster of Redis servers, moved and harmed while clients write (it needs Debian's etcd-server and redis-server)
	scripts/cluster run

postgresql: ## a minute of four PostgreSQL servers whose schemas move while they are written (it needs Debian's postgresql-15 and python3-psycopg)
	scripts/postgresql

bench-postgresql: ## drains of PostgreSQL servers with 60 shards of 7 MB and 12 of 100 MB, and for how long writes pause (docs/BENCH.md); on a machine at rest
	scripts/bench/postgresql

RUNS ?= 200
cluster-storm: ## RUNS (200) runs of the cluster of 20 seconds, each with other harm, and in how many each situation came up
	scripts/cluster storm $(RUNS)

page-test: ## loads the tools' pages in Debian's chromium, and writes pictures to build/pages
	scripts/check/pages

# (over the program as it is now, and not as the gate may have built it before)
storm: ## makes 1,000 runs of 64 streams, beside clients, restarts and halts, with lost calls or two plans; kills build/smpland 1,000 times, refuses each of its calls, spoils 100,000 lines; refuses each allocation of build/smplan and of tests
	scripts/check/storm
	scripts/check/smpland-kills 1000
	scripts/check/smpland-faults
	scripts/check/smpland build/smpland 100000
	scripts/check/memory --all
	scripts/check/memory-tests --all

bench: build ## measures the proved program on large documents (docs/BENCH.md)
	scripts/bench/smplan
	scripts/bench/map
	scripts/bench/machine
	scripts/bench/board
	scripts/bench/smpland
