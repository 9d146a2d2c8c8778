#!/usr/bin/env bash
# Builds the archive and the benchmark and runs it: times and ratios of one run, the growth with the label, the time a glyph at sizes next to each other,
# resolving, escaped writing, sheets, and the stack of each call.
set -euo pipefail
cd "$(dirname "$0")/.."
sh tools/build.sh glyph_label
"${CC:-cc}" -std=gnu99 -O2 -Wall -pthread -o target/bench bench/bench.c target/staticlib/libglyph_label.a
target/bench
