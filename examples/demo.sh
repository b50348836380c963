#!/bin/sh
# Runs a first script by `rt try`, which proves nothing and keeps nothing, and tells what else there is to see.
set -eu
cd "$(dirname "$0")/.."
echo '--- examples/first.sgb, a script'
cat examples/first.sgb
echo
echo '--- its transcript (the program is compiled for this run alone: about a minute)'
(cd crates/sgb && rt try -- run 2>&1) < examples/first.sgb
cat <<'END'

That run is UNPROVED: `rt try` compiles the code and checks none of its contracts. `make` proves the program
and each function that it stands on, in less than half an hour, and leaves it as bin/sgb. Then try

    bin/sgb queen                           the moves of a queen on a board of 3 by 4
    bin/sgb make board 8 8 0 0 5 0 0        a knight's moves as a saved graph, in one line
    bin/sgb make board 8 8 0 0 5 0 0 | bin/sgb export --as dot | neato -Tsvg
                                            the same as a picture, where Graphviz is installed
    bin/sgb run examples/standard.sgb       a tour of the standard graphs and their combinations
    bin/sgb run examples/saved.sgb          a random graph, saved, loaded and found to be the same
    bin/sgb run examples/byhand.sgb         a house, drawn by edges, with labels
    bin/sgb run examples/cutting.sgb        edits of a graph, undone and redone
    bin/sgb run examples/fields.sgb         utility fields: numbers, texts, vertices and arcs
    bin/sgb run examples/groups.sgb         several commands that count as one
    bin/sgb run examples/uniform.sgb        uniform numbers, drawn and taken back
    bin/sgb run examples/refused.sgb        what is refused, and that it changes nothing

The transcript of each lies beside it, as examples/cutting.out.

    docs/language.md                        the language of scripts
    docs/graphs.md                          the graphs, with pictures
    docs/library.md                         short programs that call the library
    crates/sgb_flip/src/flip.rt             the generator, each function with its contract
    crates/sgb_flip/specs/Generator.antt    the definitions that those contracts name
    docs/architecture.md                    the crates, and which clause keeps which promise
END
