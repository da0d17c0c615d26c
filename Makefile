SHELL := /bin/bash
.SHELLFLAGS := -euo pipefail -c
.ONESHELL:
.PHONY: run test

# The gate: every proof, from nothing where nothing was kept of an earlier run, the wrong bodies, the
# tests, the programs, the documents.
test:
	@.ci/run

# Proves and builds the program, and backs up the example node of crates/medusa/data in a new folder.
run:
	@room=$$(mktemp -d)
	trap 'rm -rf "$$room"' EXIT
	echo 'proving medusa and the crates below it: from nothing about a quarter of an hour of processor time' >&2
	# Without words the program answers its usage with status 2, and writes no file. Of what rt says the
	# crates are shown, each when it is proved.
	status=0
	(cd crates/medusa && rt run) 2>&1 | tee "$$room/said" |
		sed -un '/^crate /h; /^logic=proved /{g; s/^crate \([^:]*\).*/\1: proved/p}' >&2 || status=$$?
	if [ "$$status" != 2 ] || ! grep -q '^medusa: usage: ' "$$room/said"; then
		cat "$$room/said" >&2
		exit 1
	fi
	medusa=$$PWD/crates/medusa/out/medusa
	mkdir "$$room/example"
	cp -r crates/medusa/data/. "$$room/example"
	cd "$$room/example"
	"$$medusa" --config-file medusa.ini backup --backup-name b1 --mode full
	find bucket -type f | LC_ALL=C sort
	cat bucket/backups/n1/b1/meta/manifest.json
	echo
