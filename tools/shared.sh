#!/bin/sh
# Makes target/libglyph_label.so, the shared object that `labels` loads, of the archive, which tools/build.sh makes where it is missing or older
# than the crates.
set -eu
cd "$(dirname "$0")/.."
archive=target/staticlib/libglyph_label.a
shared=target/libglyph_label.so

sh tools/build.sh glyph_label
if [ ! -e "$shared" ] || [ "$archive" -nt "$shared" ]; then
    "${CC:-cc}" -shared -o "$shared.new" -Wl,--whole-archive "$archive" -Wl,--no-whole-archive
    mv "$shared.new" "$shared"
fi
