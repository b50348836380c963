#!/bin/sh
# Builds the benchmark NAME over CRATES, words of one argument, in a workspace of its own below PLACE, outside this
# repository, so that neither the gate nor `rt` here meets the copy. For the same reason the benchmark's
# source is no file of Rattle here, and becomes one there. The crates are taken as they were built here, where they
# were, and those that they depend on are among them.
set -eu
name=$1
crates=$2
place=$3/$name
rm -rf "$place"
mkdir -p "$place/crates/${name}_bench/src"
for crate in $crates; do
    mkdir "$place/crates/$crate"
    (cd "crates/$crate" && tar cf - --exclude=./out/incremental .) | (cd "$place/crates/$crate" && tar xf -)
    grep "^$crate:" crates.txt >> "$place/crates.txt"
done
cp "bench/$name.rt.in" "$place/crates/${name}_bench/src/main.rt"
echo "${name}_bench: $crates" >> "$place/crates.txt"
cd "$place/crates/${name}_bench"
rt run > ../../first_run
