#!/usr/bin/env bash
# Builds the archive and counts the instructions of a reading and of a writing, a row for each label: the difference of eleven calls and one, by ten.
# Needs valgrind. An archive can be named: instructions.sh ARCHIVE
set -euo pipefail
cd "$(dirname "$0")/.."
archive=${1:-target/staticlib/libglyph_label.a}
[ $# -gt 0 ] || sh tools/build.sh glyph_label
mkdir -p target
"${CC:-cc}" -std=gnu99 -O2 -Wall -Wno-unused-function -pthread -o target/instructions bench/instructions.c "$archive"
counted() { valgrind --tool=callgrind --callgrind-out-file=/dev/null target/instructions "$@" 2>&1 | awk '/Collected/ { print $NF }'; }
row=0
target/instructions | while IFS= read -r name; do
    one=$(counted "$row" 1 0) eleven=$(counted "$row" 11 0) written=$(counted "$row" 1 10)
    printf '%-36s read %9d   write %9d\n' "$name" $(((eleven - one) / 10)) $(((written - one) / 10))
    row=$((row + 1))
done
