# Each target has its line of help after two number signs; `make help` prints them.
# LDI is the program that the examples and the checks run, PREFIX where `make install` puts it.

LDI ?= $(CURDIR)/crates/ldi/out/ldi
PREFIX ?= /usr/local
export LDI

.PHONY: help demo ldi self dist dist-test install uninstall check test front test-front test-client soak-client lint \
        rules fmt examples bench check-real check-images check-model check-link check-readers check-session \
        check-counts check-oom-text check-alloc-failures show-row mutants

help: ## this list
	@awk -F ':.*## ' '/^[a-z-]+:.*## / { printf "make %-20s %s\n", $$1, $$2 }' Makefile
	@echo
	@echo "LDI=PATH names another program than crates/ldi/out/ldi, PREFIX=PATH where it is installed."

demo: ## builds ldi without its proofs, links the smallest program and shows the image
	@tools/demo

ldi: ## proves what ldi, readobj and readscript stand on, and builds them: crates/NAME/out/NAME
	@tools/build-ldi

self: ## links `ldi` by `ldi` as one static file, and runs the stored runs and streams with it: examples/self
	@tools/self-test

dist: ## makes the packages: dist/ldi-VERSION-x86_64-linux.tar.gz and dist/ldi_VERSION_amd64.deb
	@tools/dist

dist-test: ## tries the packages in a minimal Debian, as root
	@tools/dist-test

install: ## puts what `make ldi` and `make front` built into PREFIX; PREFIX is /usr/local by default
	@tools/install "$(DESTDIR)$(PREFIX)" $(PROGRAMS)

uninstall: ## removes what `make install` put there
	@tools/install --remove "$(DESTDIR)$(PREFIX)"

check: ## proves every crate, over what earlier runs have proved
	@rt all check

test: ## most of the gate (.ci/run): every proof from nothing, the mutants of must-fail, the stored runs
	@rt ci

front: ## builds the front end, `ld.ldi`, `ldi-watch`, `ldi-adapt` and `ldi-gdb`: front/target/release/ldi-front
	@tools/build-front

test-front: ## rustfmt, clippy and the unit tests of the front end
	@tools/test-front

test-client: ## the tests of the front end's programs from outside (tests/), over the program that `make ldi` built
	@tools/test-client

soak-client: ## runs ldi-watch over 2,000 rounds of random rewrites and ld.ldi over 500, and judges every image
	@python3 -m tests.soak 2000
	@python3 -m tests.soak_server 500

lint: ## looks over the front end by rustfmt and clippy, and the tools in Python by `mypy --strict` and ruff
	@tools/lint

rules: ## writes the tables of the front end and of the documents that are made of the crates' rules, and the pictures
	@tools/rules
	@tools/pictures

fmt: ## lays out every crate; prints what changed, needless names in crates.txt, ways past a face, and dead links
	@tools/fmt
	@tools/check-crates-txt
	@tools/check-faces
	@tools/check-docs

examples: ## builds the examples with gcc and ldi, checks them by readelf, runs linux, boots kernel if QEMU is there
	@tools/examples

bench: ## measures links, sessions, the readers, and how the time grows with the shape of a project
	@tools/bench

check-real: ## compares the object reader with readelf on objects of gcc
	@tools/check-real

check-images: ## links C programs by a session, runs them, and compares them with GNU ld's
	@tools/check-images "$(LDI)"

check-model: ## compares the program with the calculator of links on 2,000 random streams
	@tools/check-model 2000 1 "$(LDI)"

check-link: ## links files by `ldi link`, and compares statuses, lines and files with the calculator's
	@tools/check-link "$(LDI)"

check-readers: ## tries `readobj FILE` and `readscript FILE` on refused files
	@tools/check-readers

check-session: ## compares sessions, also deferred ones, with links from scratch on 4,000 lists of 50 edits
	@test -x crates/trylink/out/trylink || { echo "trylink is not built: run 'rt run' in crates/trylink" >&2; exit 1; }
	@tools/check-session
	@tools/check-session --moving
	@tools/check-session --deferred
	@tools/check-session --moving --deferred

check-counts: ## looks whether work can be done without being counted: rules over the text, code that must not compile
	@tools/check-counts --compile

check-oom-text: ## looks where 'out of memory' is answered without an allocation that failed
	@tools/check-oom-text

check-alloc-failures: ## lets each allocation of a session fail in turn, and compares the answers
	@tools/check-alloc-failures "$(LDI)"

show-row: ## shows one row of trylink's stored run, NAME=.., with its commands and answers; without NAME all names
	@tools/show-row "$(NAME)"

mutants: ## tries the mutants under mutants/, of one crate with CRATE=NAME; all take an hour or more
	@tools/mutants $(CRATE)
