# rt1553: `make help` lists the targets. All proofs, compilers and runs are the toolchain's command `rt`.
PREFIX ?= /usr/local
export PREFIX DESTDIR
# what build, tool, library, dist and deb take besides with TARGET=aarch64, for ARM64
CROSS = $(if $(TARGET),$(TARGET)-linux-gnu-gcc qemu-$(TARGET))

# what tests take besides of what is built, and in the gate: $(call TESTED,BUILT,TOOLS)
TESTED = $(if $(or $(GATE),$(wildcard bin/$(1))),$(2))

build: ## proves and builds bin/rt1553, a line for each crate, and plays the first answer; what is proved is kept
	@bash scripts/need.sh rt python3 gcc $(CROSS)
	@python3 scripts/build.py

tool: ## proves and builds bin/rt1553-tool in the same way
	@bash scripts/need.sh rt python3 gcc $(CROSS)
	@python3 scripts/build.py tool

help: ## lists the targets
	@awk -F ':.*## ' '/^[a-z]+:.*## / { printf "make %-12s %s\n", $$1, $$2 }' Makefile

try: ## plays the first answer, or SCRIPT to the terminal of PROFILE, in a minute: it proves nothing and leaves no program
	@bash scripts/need.sh rt
	@echo 'Nothing is proved by this, and no program is left. It takes a minute.'
	@cd crates/rt1553_program && $(if $(PROFILE)$(SCRIPT), \
	    rt try --data profile="$(abspath $(PROFILE))" --data script="$(abspath $(SCRIPT))" -- run profile script, \
	    printf 'A c 2c02\nA gap\nslot\n' | rt try)

check: ## proves one crate and those below it: make check CRATE=bus_word
	@bash scripts/need.sh rt
	@if [ -z "$(CRATE)" ] || [ ! -d "crates/$(CRATE)" ]; then echo "make check CRATE=NAME, where NAME is one of:" $$(ls crates) >&2; exit 1; fi
	cd "crates/$(CRATE)" && rt check

edits: ## tries all must-fail edits, or those of one crate, CRATE=bus_word, and notes in tests/edits.record which were refused
	@bash scripts/need.sh rt python3
	@python3 scripts/must-fail.py $(CRATE)

library: ## proves and builds the library for C, C++, Python and Rust: bin/library
	@bash scripts/need.sh rt gcc ar ld objcopy objdump python3 $(CROSS)
	@python3 scripts/build.py library

page: ## proves and builds the page, bin/rt1553.html: the terminal in a web browser, in one file
	@bash scripts/need.sh rt python3
	@python3 scripts/build.py page

test: ## tests what is built; GATE=1 proves and tests everything anew; TARGET=aarch64 tests what is for ARM64; the last line is 'N passed, M failed'
	@bash scripts/need.sh rt python3 pytest-3 import:xdist import:jsonschema shellcheck pyflakes3 git script aspell groff mandoc cc \
	    $(call TESTED,rt1553-tool,vim dpkg-deb dpkg-shlibdeps) $(call TESTED,library,pip3 c++ cargo rustc) $(call TESTED,rt1553.html,chromium) \
	    $(if $(GATE),objdump valgrind aarch64-linux-gnu-gcc aarch64-linux-gnu-g++ qemu-aarch64)
	@$(if $(TARGET),pytest-3 -q tests/test_arm64.py,bash scripts/test.sh)

bench: ## the speed beside that of three programs in plain Rust; no test
	@bash scripts/need.sh rt rustc python3
	bash bench/run.sh

install: ## copies programs, pages, completions, schemas and the library, if it is built, to PREFIX, /usr/local
	@bash scripts/install.sh install

uninstall: ## removes what `make install` copied
	@bash scripts/install.sh uninstall

deb: ## makes a Debian package of what is built: bin/rt1553_VERSION_ARCHITECTURE.deb
	@bash scripts/need.sh python3 dpkg-deb dpkg-shlibdeps $(CROSS)
	@bash scripts/deb.sh

dist: tool library ## makes an archive for machines without the toolchain: bin/rt1553-VERSION-linux-x86_64.tar.gz; TARGET=aarch64 makes one for ARM64
	@bash scripts/dist.sh

pages: ## writes the commands of rt1553-tool, man pages and completions, of manual/arguments.toml, docs/script.md and docs/profile.md
	@bash scripts/need.sh python3
	@python3 scripts/manual.py write

clean: ## removes what was built: bin/, out/ and crates/*/out; what was proved is kept
	@du -shc bin out crates/*/out 2>/dev/null | tail -n 1 | sed 's/\ttotal/ are freed/'
	@rm -rf bin out crates/*/out

.PHONY: build tool help try check edits library page test bench install uninstall deb dist pages clean
