#!/usr/bin/env bash
# Compares the programs and the archive with the independent reader on generated labels, runs, picks, faults, raw values and sheets.
#   compare.sh --short          what the gate runs
#   compare.sh [--seed N]       some minutes
set -euo pipefail
cd "$(dirname "$0")/.."
seed=1 relabel=4000 trials=20000 archive=600000
if [ "${1:-}" = --short ]; then relabel=1500 trials=4000 archive=100000; shift; fi
if [ "${1:-}" = --seed ]; then seed=$2; fi

sh tools/build.sh relabel trials
sh tools/shared.sh
compare=tests/independent/compare.py

# the labels that `trials` is kept with, and what it prints, are those of the independent reader
mkdir -p target/trials
python3 tests/independent/trials.py target/trials
cmp target/trials/stdin crates/trials/stdin
cmp target/trials/stdout crates/trials/stdout

# `relabel` asked for its usage prints it on standard output; on any other argument it prints it on standard error; neither reads the input
usage=$(target/bin/relabel --help < /dev/null 2> /dev/null)
[ "${usage%%$'\n'*}" = 'usage: relabel < LABEL' ]
[ "$({ target/bin/relabel --help > /dev/null; cat; } <<< flow)" = flow ]
for word in -h --helpful '' flow; do
    [ "$({ target/bin/relabel "$word" 2> /dev/null; cat; } <<< flow)" = flow ]
    [ "$(target/bin/relabel "$word" <<< flow 2>&1 > /dev/null)" = "$usage" ]
done

# a read or a write that fails ends `relabel` with 1, and what failed is said on standard error alone
status=0; target/bin/relabel < / > target/failed 2> target/said || status=$?
[ "$status" = 1 ] && [ ! -s target/failed ] && [ -s target/said ]
status=0; target/bin/relabel <<< flow > /dev/full 2> target/said || status=$?
[ "$status" = 1 ] && [ -s target/said ]

# the archive's calls run beside the programs
python3 $compare archive target/libglyph_label.so --seed "$seed" --count $archive > target/archive.log & calls=$!
python3 $compare relabel target/bin/relabel --seed "$seed" --count $relabel
python3 $compare trials target/bin/trials --seed "$seed" --count $trials
wait $calls || { cat target/archive.log; exit 1; }
cat target/archive.log
