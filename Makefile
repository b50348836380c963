# The program, its tests and its benchmark. All that is needed is the toolchain, whose command is `rt`,
# with python3; the memory test takes a C compiler, and the benchmarks a C and a Rust compiler.
# What the prover says goes to bin/prove.log, bin/quick.log and bin/test.log.

PREFIX ?= /usr/local
# Stands before all that is installed, for who makes a package.
DESTDIR ?=
CC ?= cc
# Where the benchmarks are built: outside this repository, so that `rt` here does not meet their copies.
BENCH ?= /tmp/sgb_bench
# What they compare with in plain Rust.
PLAIN = plain_graph plain_make plain_combine plain_text plain_lines

.PHONY: all demo test quick mutants mutants-check examples growths program bench bench_flip bench_graph bench_make bench_lines \
	bench_instructions install clean FORCE

all: bin/sgb

# Proves the program and what it depends on, over what earlier runs kept, builds it, and leaves it as bin/sgb.
bin/sgb: FORCE
	@python3 tests/gate.py prove

# Shows a first script and its transcript, and what else there is to see. It proves nothing.
demo:
	@sh examples/demo.sh

# The merge gate: every proof, every test, the mutants of the gate; then the proved program
# on the examples, with each of its allocations failed, and in its own tests.
test:
	@python3 tests/gate.py test

# For contributors: proves and tests the crates that changed, over what earlier runs kept.
quick:
	@python3 tests/gate.py quick

# Tries the mutants of the crates, those of crates/*/mutants/full too, or of the one crate CRATE, telling what refused each.
mutants:
	@python3 tests/mutants.py $(if $(CRATE),-v $(CRATE))

# Tries the copies of functions on which mutants are laid with the bodies of these functions, which must pass. No part of the gate.
mutants-check:
	@python3 tests/mutants.py --unchanged $(CRATE)

# Compares the transcripts of each example and of each script of tests/corpus, and those of the descriptions; the programs
# that docs/library.md shows with those that are proved; and the clauses that docs/contracts.md names with the sources.
examples: bin/sgb
	sh tests/examples.sh bin/sgb
	python3 tests/documents.py bin/sgb README.md docs/tutorial.md docs/language.md docs/combinations.md
	python3 tests/shown.py docs/library.md crates/sgb_library_tests
	python3 tests/contracts.py docs/contracts.md

# Runs scripts with each allocation failed in its turn.
growths: bin/sgb tests/out/refuse_growth.so
	python3 tests/growths.py bin/sgb tests/out/refuse_growth.so

# Runs the program with right and wrong arguments, files and pipes.
program: bin/sgb
	python3 tests/program.py bin/sgb

.PHONY: pipes

# Imports, exports and facts beside another reading of the same formats, and the lines of docs/pipes.md.
pipes: bin/sgb
	python3 tests/pipes.py bin/sgb
	python3 tests/oneliners.py bin/sgb docs/pipes.md

.PHONY: large

# Runs the program on long sessions and on large graphs.
large: bin/sgb
	python3 tests/large.py bin/sgb

.PHONY: wants ends

# Runs one script of every command, and the programs beside the script, with each allocation failed.
wants: bin/sgb tests/out/refuse_growth.so
	python3 tests/wants.py bin/sgb tests/out/refuse_growth.so

# Runs the program with reads and writes that fail or end at every byte.
ends: bin/sgb tests/out/fail_io.so
	python3 tests/ends.py bin/sgb tests/out/fail_io.so

tests/out/%.so: tests/%.c
	mkdir -p tests/out
	$(CC) -O2 -shared -fPIC -o $@ $<

# Times the generator beside the same one in plain C, graphs, and standard and random ones, beside the same in
# plain Rust, and the program's lines beside those of a shell in plain Rust, in one run on one machine. No part of
# the gate.
bench: bench_flip bench_graph bench_make bench_lines

bench_lines: bin/sgb $(BENCH)/plain_lines
	python3 bench/lines.py bin/sgb $(BENCH)/plain_lines

# The same lines, not timed but counted in instructions, where perf or valgrind counts them.
bench_instructions: bin/sgb $(BENCH)/plain_lines
	python3 bench/lines.py --instructions bin/sgb $(BENCH)/plain_lines

# The combinations and random lengths, and saved texts, beside the same in plain Rust.
bench: bench_combine bench_text

.PHONY: bench_combine bench_text

bench_combine: $(BENCH)/plain_combine
	sh bench/build.sh combine "sgb_flip sgb_graph sgb_plan sgb_induced sgb_combine" $(BENCH)
	python3 bench/compare.py --same --turns 20 $(BENCH)/combine/crates/combine_bench/out/combine_bench $(BENCH)/plain_combine

bench_text: $(BENCH)/plain_text
	sh bench/build.sh text "sgb_graph sgb_grammar sgb_text" $(BENCH)
	python3 bench/compare.py --same --turns 20 $(BENCH)/text/crates/text_bench/out/text_bench $(BENCH)/plain_text

bench: bench_others

.PHONY: bench_others

# What users would take instead, where it is installed: igraph and networkx, beside lines of scripts of the same sizes.
bench_others: bin/sgb
	python3 bench/others.py bin/sgb

bench_flip: $(BENCH)/plain_flip
	sh bench/build.sh flip sgb_flip $(BENCH)
	python3 bench/compare.py --turns 6 $(BENCH)/flip/crates/flip_bench/out/flip_bench $(BENCH)/plain_flip

bench_graph: $(BENCH)/plain_graph
	sh bench/build.sh graph sgb_graph $(BENCH)
	python3 bench/compare.py --turns 20 $(BENCH)/graph/crates/graph_bench/out/graph_bench $(BENCH)/plain_graph

bench_make: $(BENCH)/plain_make
	sh bench/build.sh make "sgb_flip sgb_graph sgb_plan sgb_simplex sgb_perms sgb_binary sgb_random sgb_make" $(BENCH)
	python3 bench/compare.py --same --turns 20 $(BENCH)/make/crates/make_bench/out/make_bench $(BENCH)/plain_make

$(BENCH)/plain_flip: bench/plain_flip.c
	mkdir -p $(BENCH)
	$(CC) -O3 -o $@ $<

# For the processors that `rt` builds for.
$(PLAIN:%=$(BENCH)/%): $(BENCH)/%: bench/%.rs $(wildcard bench/plain/*.rs)
	mkdir -p $(BENCH)
	rustc -O --edition 2021 -C target-cpu=x86-64-v2 -o $@ $<

.PHONY: kept test-original bench_original

# Reads the texts of tests/original, which Knuth's own library saved.
kept: bin/sgb
	sh tests/kept.sh bin/sgb

# The program that is compared with Knuth's own library. It is proved first unless another is named.
PROGRAM ?= bin/sgb

# Fetches Debian's package `sgb` into tests/out/original, and compares the program with it: calls at random, and saved texts both ways. No
# part of the gate.
test-original: $(PROGRAM)
	python3 tests/original.py $(PROGRAM)

# Times whole scripts on the program and on Knuth's own library, which `make test-original` fetches.
bench_original: $(PROGRAM)
	python3 bench/original.py $(PROGRAM)

ifneq ($(wildcard tests/out/original/original),)
bench: bench_original
endif

.PHONY: test-tools pictures

# Exchanges graphs with Graphviz, networkx and nauty, which it installs by apt-get where they are missing. No part of the gate.
test-tools: bin/sgb
	python3 tests/tools.py bin/sgb
	python3 tests/oneliners.py bin/sgb --tools docs/pipes.md

# Draws the pictures of docs/pictures again, by Graphviz.
pictures: bin/sgb
	python3 docs/pictures.py bin/sgb
	dot -Tsvg docs/pictures/path.dot | sed '/^<!--/d; /^ -->/d' > docs/pictures/path.svg

.PHONY: definitions manual uninstall

# Lists the pages of specs/ that a reader has to believe, each after those that it rests on, with their lines.
definitions:
	@python3 tests/definitions.py

# Writes the manual pages from the description of the language.
manual:
	python3 docs/manual.py

BIN_FOLDER = $(DESTDIR)$(PREFIX)/bin
MAN_FOLDER = $(DESTDIR)$(PREFIX)/share/man
DOC_FOLDER = $(DESTDIR)$(PREFIX)/share/doc/nuperako
DOCUMENTS = $(wildcard docs/*.md)
PICTURES = $(wildcard docs/pictures/*.svg docs/pictures/README.md)
EXAMPLES = $(wildcard examples/*.sgb examples/*.out)

# The program, its manual pages, the descriptions with their pictures, and the examples.
install: bin/sgb
	install -d "$(BIN_FOLDER)" "$(MAN_FOLDER)/man1" "$(MAN_FOLDER)/man7" "$(DOC_FOLDER)/examples" "$(DOC_FOLDER)/pictures"
	install -m 755 bin/sgb "$(BIN_FOLDER)"
	install -m 644 sgb.1 "$(MAN_FOLDER)/man1"
	install -m 644 sgb-script.7 "$(MAN_FOLDER)/man7"
	install -m 644 $(DOCUMENTS) "$(DOC_FOLDER)"
	install -m 644 $(EXAMPLES) "$(DOC_FOLDER)/examples"
	install -m 644 $(PICTURES) "$(DOC_FOLDER)/pictures"

# Takes away the files that `make install` puts there, and its own folders where nothing else lies in them.
uninstall:
	rm -f "$(BIN_FOLDER)/sgb" "$(MAN_FOLDER)/man1/sgb.1" "$(MAN_FOLDER)/man7/sgb-script.7"
	cd "$(DOC_FOLDER)" && rm -f $(notdir $(DOCUMENTS)) $(EXAMPLES) $(PICTURES:docs/%=%)
	rmdir --ignore-fail-on-non-empty "$(DOC_FOLDER)/examples" "$(DOC_FOLDER)/pictures" "$(DOC_FOLDER)"

clean:
	rm -rf bin tests/out
	rm -rf crates/*/out

FORCE:
