# covcollect: run the stored session, test, prove, build, install, package. 'make help' lists the targets.
# What runs, proves and builds is the Rattle toolchain's command rt, with Python 3, which rt itself wants. 'make test' wants gcc to
# link, 'make package' Debian's dpkg-dev.

PREFIX ?= /usr/local

.PHONY: all run e2e test prove check fmt install uninstall package package-check clean help toolchain

## make: proves the crates of the program and builds it, build/covcollect
all: build/covcollect

# One line says what is missing, and no target goes on without it.
toolchain:
	@command -v rt >/dev/null 2>&1 || { echo "covcollect: the Rattle toolchain's command 'rt' isn't on PATH (rattle-kit-13f is wanted)" >&2; exit 1; }

# There is a line for each crate; the prover's own words go to build/log. After 'make prove' has passed, the program is there.
build/covcollect: toolchain
	@scripts/build

## make run: compiles the sources with checks on and runs the stored session; proves nothing, and takes a minute or two
run: toolchain
	@scripts/session

## make e2e: plays whole calls and sessions (e2e/) on build/covcollect
e2e: build/covcollect
	@scripts/e2e build/covcollect

## make test: runs every test, of crates, calls and recipes, without proofs: some minutes
test: toolchain
	@scripts/test

## make prove: proves every crate, and that each edit is refused; what passed on this machine is kept: two to three hours from nothing
prove: toolchain
	@scripts/prove

## make install: installs the program, its manual page and the completions below PREFIX (/usr/local), in DESTDIR if given
install: build/covcollect
	scripts/install build/covcollect "$(DESTDIR)$(PREFIX)"

## make uninstall: removes all files that 'make install' wrote, with the same PREFIX and DESTDIR
uninstall:
	scripts/install --remove "$(DESTDIR)$(PREFIX)"

## make package: builds a tar archive and a Debian package of the program in build/
package: build/covcollect
	@scripts/package

## make package-check: installs, tries and removes both packages in a fresh Debian (as root)
package-check:
	@scripts/package-check

## make check CRATE=covread: proves one crate and those below it
check: toolchain
	@[ -d "crates/$(CRATE)/src" ] || { echo "usage: make check CRATE=NAME, with NAME a folder of crates/" >&2; exit 2; }
	cd crates/$(CRATE) && rt check

## make fmt: formats all sources, definitions and proofs
fmt: toolchain
	@for crate in crates/*/; do (cd "$$crate" && rt fmt) || exit 1; done

## make clean: removes all that was built
clean:
	rm -rf build crates/*/out

## make help: lists the targets
help:
	@sed -n 's/^## \([^:]*\): /\1\t/p' Makefile | expand -t 22
