# make test     the whole gate: every proof, the edits that must fail, the tests, the runs of tests/, the programs of bench/ on small
#               inputs, and of the wrong bodies those of which nothing is kept and some that are drawn
# make wrong    all wrong bodies anew, and keeps in tests/wrong.kept what refuses them
# make run      runs both programs on the examples, before their proof
# make build    leaves the proved programs at bin/nextest-config and bin/nextest_config_check
# make install  copies them and scripts/check-nextest-config to PREFIX/bin (PREFIX=/usr/local)
# make dist     makes an archive of the three with its checksum, in dist/

SHELL := bash
.SHELLFLAGS := -o pipefail -c
PREFIX ?= /usr/local
CHECK := crates/nextest_config_check
COMMAND := crates/nextest_config_cli
PROGRAM := $(CHECK)/out/nextest_config_check
VECTORS := crates/nextest_config_vectors/out/nextest_config_vectors
BENCH := crates/nextest_config_bench/out/nextest_config_bench
BUILT := bin/nextest-config bin/nextest_config_check
SCRIPT := scripts/check-nextest-config
# Where rt isn't there, what was built before counts.
SOURCES := $(if $(shell command -v rt 2> /dev/null),crates.txt $(shell find crates -name out -prune -o \( -name '*.rt' -o -name '*.antt' \) -print))

.PHONY: help test wrong run run-list run-lint build install dist toolchain

help:
	@sed -n 's/^# //p; /^$$/q' Makefile

test: toolchain
	! command -v shellcheck > /dev/null || shellcheck $(SCRIPT)
	tests/formatted
	scripts/keys | cmp - docs/KEYS.md
	tests/wrong-itself
	rt ci | tests/wrong --behind --unkept
	cd crates/nextest_config_vectors/data && ../out/nextest_config_vectors
	tests/run $(PROGRAM) $(COMMAND)/out/nextest_config_cli
	tests/random $(PROGRAM)
	tests/random-files $(COMMAND)/out/nextest_config_cli
	tests/random-schema $(COMMAND)/out/nextest_config_cli
	tests/positions $(BENCH)
	tests/random-profiles $(BENCH)
	tests/refusals $(VECTORS) $(PROGRAM) $(COMMAND)/out/nextest_config_cli
	bench/measure --small --program $(PROGRAM) --alone $(BENCH)
	bench/measure-durations --small --alone $(BENCH)
	bench/measure-hostile --small --program $(PROGRAM) --alone $(BENCH)
	bench/measure-board --small --alone $(BENCH)
	bench/measure-nothing --small --alone $(BENCH)
	bench/measure-findings --small --alone $(BENCH)
	bench/measure-positions --small --alone $(BENCH)
	bench/measure-check --small $(COMMAND)/out/nextest_config_cli $(BENCH)
	bench/measure-profile --small $(COMMAND)/out/nextest_config_cli $(BENCH)

wrong: toolchain
	rt ci | tests/wrong --behind --keep

run: toolchain
	@$(MAKE) --no-print-directory --jobs=2 --output-sync run-list run-lint
	@echo "These runs came before the proofs. They are of the same sources that make test proves."

run-list:
	@echo "nextest_config_check 0.9.55 --override < examples/sources.txt"
	@cd $(CHECK) && rt try -- 0.9.55 --override < ../../examples/sources.txt

# The status of a lint that finds errors is 1.
run-lint:
	@echo "cd examples/repository && nextest-config lint"
	@cd $(COMMAND) && rt try --data .config/nextest.toml=../../examples/repository/.config/nextest.toml -- lint || [ $$? -eq 1 ]

build: $(BUILT)

# A first run, which asks for little, leaves the program behind.
bin/nextest_config_check: $(SOURCES)
	@$(MAKE) --no-print-directory toolchain
	cd $(CHECK) && rt run -- 0.0.0 < /dev/null > /dev/null
	@mkdir -p bin && cp $(PROGRAM) $@

bin/nextest-config: $(SOURCES) | bin/nextest_config_check
	@$(MAKE) --no-print-directory toolchain
	cd $(COMMAND) && rt run -- --version > /dev/null
	@mkdir -p bin && cp $(COMMAND)/out/nextest_config_cli $@

install: $(BUILT)
	install -d $(DESTDIR)$(PREFIX)/bin
	install -m 755 $(BUILT) $(SCRIPT) $(DESTDIR)$(PREFIX)/bin

dist: $(BUILT)
	@rm -rf dist && mkdir dist
	@archive=nextest-config-$$(bin/nextest-config --version | cut -d ' ' -f 2)-linux-$$(uname -m).tar.gz && \
	tar --create --file=dist/$$archive --use-compress-program='gzip -n' --transform='s,.*/,bin/,' --mode=755 \
		--owner=0 --group=0 --numeric-owner --mtime=@0 $(BUILT) $(SCRIPT) && \
	cd dist && sha256sum $$archive > $$archive.sha256 && cat $$archive.sha256

toolchain:
	@command -v rt > /dev/null || { echo "rt, the command of the Rattle toolchain, isn't on the PATH: put the folder that holds it there" >&2; exit 1; }
