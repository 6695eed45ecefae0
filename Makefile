EXAMPLE ?= demo
PREFIX ?= /usr/local
PYTHON ?= python3
PROVED = crates/kapi/out/kapi
PROGRAM ?= $(PROVED)
TRIED = out/try/kapi
# What has to be there before the program is run: nothing, where another one is named.
READY = $(if $(filter $(PROVED),$(PROGRAM)),kapi)
NEEDS_RT = @command -v rt > /dev/null || { echo 'rt, the Rattle toolchain, is not on the PATH.' >&2; exit 1; }

.PHONY: help demo serve-demo quick test kapi install release library serve checks bench kubectl-demo controller-demo cluster-demo edits proofs-page definitions profile

help: ## try: lists the targets
	@for group in try use change; do echo "To $$group:"; sed -n "s/^\([a-z-]*\):.*## $$group: /\1 /p" Makefile | while read -r name what; do printf '  make %-16s%s\n' "$$name" "$$what"; done; done

demo: ## try: EXAMPLE=demo, audit, compare, replay or rights
	@sh tools/unproved.sh
	@cd examples/$(EXAMPLE) && PATH="$(CURDIR)/out/try:$$PATH" sh -v command

serve-demo: ## try: starts a server for ten minutes; no proofs (README.md)
	@sh tools/unproved.sh
	@echo 'Port 8001 is for root, port 8002 for ann. When it listens go on in another terminal (README.md, docs/USING.md):'
	@echo '  sh examples/serve/tour.sh                                       what README.md shows'
	@echo '  curl -s 127.0.0.1:8002/api/v1/namespaces/default/configmaps     what ann may list'
	@echo '  curl -s 127.0.0.1:8002/api/v1/namespaces/default/secrets        what ann may not'
	@cd examples/serve && PATH="$(CURDIR)/out/try:$$PATH" timeout --foreground 600 $$(cat command) || test $$? = 124
	@echo 'The server has ended, as it does after ten minutes.'

quick: profile ## change: transcripts and quick checks in 4 to 7 minutes; no proofs
	@sh tools/unproved.sh
	@$(PYTHON) -m checks $(TRIED)

test: ## change: the gate; from nothing some 90 minutes on 2 or 4 processors
	$(NEEDS_RT)
	@rm -rf crates/*/out/rlib out/library
	@$(PYTHON) -m tools.gate

kapi: ## use: says where the proved program lies; without one, the gate
	@sh tools/sources.sh | cmp -s - crates/kapi/out/proved && test -x $(PROVED) || $(MAKE) --no-print-directory test
	@ls -l $(PROVED)

install: kapi ## use: the proved program, and kapi-yaml, to PREFIX/bin; proves it first (make test)
	@install -D $(PROVED) $(PREFIX)/bin/kapi
	@install -D tools/policy.py $(PREFIX)/bin/kapi-yaml

release: kapi ## use: an archive and a Debian package of the proved program, in out/release
	@sh tools/release.sh

library: kapi ## use: installs the proved C library to PREFIX (docs/LIBRARY.md)
	@sh tools/library.sh $(PREFIX)

serve: kapi ## use: starts the proved program on ports 8001 and 8002
	@cd examples/serve && PATH="$(CURDIR)/crates/kapi/out:$$PATH" sh -v command

checks: $(READY) ## change: the quick checks, or ONLY=name,name; of PROGRAM=path
	@$(PYTHON) -m checks $(PROGRAM) "$(ONLY)" $(WORDS)

bench: $(READY) ## change: measures the program, or ONLY=name (docs/BENCHMARKS.md)
	@$(PYTHON) -m bench $(PROGRAM) "$(ONLY)" $(WORDS)

kubectl-demo: $(READY) ## try: runs kubectl against a server (docs/USING.md)
	@$(PYTHON) -m checks $(PROGRAM) kubectl

controller-demo: $(READY) ## try: runs a controller of its own kinds (docs/KINDS.md)
	@$(PYTHON) -m checks $(PROGRAM) controller

cluster-demo: $(READY) ## try: an API server that asks Kapi (docs/CLUSTER.md)
	@$(PYTHON) -m checks $(PROGRAM) cluster $(WORDS)

proofs-page: ## change: prints each public call with its proved clauses
	@$(PYTHON) tools/proofs.py

definitions: ## change: what has to be believed, CLAIM=name (docs/PROOFS.md)
	@$(PYTHON) tools/definitions.py $(CLAIM)

profile: ## change: checks numbers and names of docs/PROOFS.md, PROFILE.md
	@$(PYTHON) tools/proofs.py --lines > /dev/null || { echo 'docs/PROOFS.md has other numbers than tools/proofs.py --lines prints'; exit 1; }
	@$(PYTHON) tools/profile_page.py

edits: ## change: hours: bugs that the prover must refuse; CRATES='name ..'
	$(NEEDS_RT)
	@sh tools/edits.sh $(CRATES)
