# make run      builds the programs and serves the eight requests of examples/eight.txt
# make programs target/assemble and target/benchrun: each starts the proved program of its name in target/bin and gives its status
# make test     the gate: proofs, must-fail edits, programs, and the tests below tests/
# make lib      target/libpoheldu.a, proved, for C programs with include/poheldu.h
# make fuzz     runs of calls held against the second implementation, for FUZZ_SECONDS (60); wants clang
# make soak     the differential test for SOAK_CALLS (100000000) calls, from a seed that it prints; SEED=N repeats one
# make cases    writes the input of conformance (crates/conformance/stdin) anew, from the cases of tests/conformance/*.txt
# make expected writes what benchrun and conformance must print (crates/*/stdout) anew, by the second implementation, after make cases
# make table    writes the table of classes (crates/sizes/src/table.rt) anew by its rule, programs/table
# make bench    ratios against the second implementation, memcpy, memset, memcmp and malloc
# make instructions  how many instructions a request takes; wants valgrind
.PHONY: run programs test lib fuzz fuzz-tools soak cases expected table bench instructions

FUZZ_SECONDS ?= 60
FUZZ_SOURCES = $(filter-out tests/fuzz/driver.c,$(wildcard tests/fuzz/*.c))
FUZZ_COVERAGE = -Cpasses=sancov-module -Cllvm-args=-sanitizer-coverage-level=4 -Cllvm-args=-sanitizer-coverage-inline-8bit-counters \
	-Cllvm-args=-sanitizer-coverage-pc-table
SOAK_CALLS ?= 100000000

# What the library and the programs are made of, and their proofs. Folders are listed with their files, so that a file taken away is a change.
library_sources := crates.txt $(shell find crates -path 'crates/*/src*' -o -path 'crates/*/specs*' -o -path 'crates/*/proofs*')

run: programs
	@bash -o pipefail -c 'target/assemble < examples/eight.txt | target/benchrun'

programs: target/assemble target/benchrun target/bin/assemble target/bin/benchrun

target/bin/assemble target/bin/benchrun &: $(library_sources)
	@programs/prove programs assemble benchrun

target/assemble target/benchrun: programs/launch.c
	@mkdir -p target && gcc -std=c11 -Wall -Wextra -Werror -O2 $< -o $@

test:
	.ci/run

lib: target/libpoheldu.a

target/libpoheldu.a: target/staticlib/libcapi.a
	cp $< $@

target/staticlib/libcapi.a: $(library_sources)
	@programs/prove staticlib capi

# The search is guided by what runs in the second implementation and the harness, which are built for that; the library is as it is.
fuzz: fuzz-tools lib
	@programs/wanted cargo
	cd tests && cargo rustc --release --offline --quiet --lib --target-dir ../target/tests/fuzz -- $(FUZZ_COVERAGE)
	clang -std=c11 -Wall -Wextra -Werror -g -O1 -fsanitize=fuzzer -Iinclude $(FUZZ_SOURCES) \
		target/tests/fuzz/release/libpoheldu_tests.a target/staticlib/libcapi.a -o target/fuzz
	@mkdir -p target/corpus
	target/fuzz -max_total_time=$(FUZZ_SECONDS) -max_len=1024 -len_control=0 -verbosity=0 -error_exitcode=1 -artifact_prefix=target/ target/corpus

fuzz-tools:
	@echo 'int LLVMFuzzerTestOneInput(void) { return 0; }' | clang -fsanitize=fuzzer -x c - -o /dev/null 2> /dev/null || \
		{ echo "make fuzz: clang and its libFuzzer are wanted (Debian packages clang and libclang-rt-14-dev)"; exit 1; }

soak: lib
	@programs/wanted cargo
	@cd tests && cargo build --release --offline --quiet
	@target/tests/release/differential --calls $(SOAK_CALLS) $(if $(SEED),--seed $(SEED)) --progress

cases: lib
	@programs/wanted cargo
	cd tests && cargo build --release --offline --quiet
	target/tests/release/cases tests/conformance/*.txt > target/cases && cp target/cases crates/conformance/stdin

expected: cases
	target/tests/release/expected < crates/benchrun/stdin > crates/benchrun/stdout
	target/tests/release/conformance < crates/conformance/stdin > crates/conformance/stdout

table:
	@mkdir -p target && programs/table > target/table.rt && cp target/table.rt crates/sizes/src/table.rt

bench: lib target/bin/benchrun
	@programs/wanted cargo
	@cd tests && cargo build --release --offline --quiet
	@target/tests/release/bench target/bin/benchrun

instructions: lib
	@tests/instructions

# make install  the header, the library and poheldu.pc below PREFIX (/usr/local), or below DESTDIR/PREFIX
# make uninstall  removes these three again
# make clean    removes target/
# make help     this list, as plain make does
.PHONY: install uninstall clean help
.DEFAULT_GOAL := help

# poheldu.pc names an absolute folder, and the version that the header's macros say. A folder's name may have spaces in it, so that it is handled by
# the shell alone.
PREFIX ?= /usr/local
export PREFIX DESTDIR
version = $(shell sed -n 's/^.define POHELDU_VERSION_[A-Z]* \([0-9]\)/\1/p' include/poheldu.h | paste -sd .)

install: lib
	@programs/install "$(version)"

uninstall:
	@programs/install --remove

clean:
	rm -rf target

help:
	@sed -n 's/^# make/make/p' $(firstword $(MAKEFILE_LIST))
