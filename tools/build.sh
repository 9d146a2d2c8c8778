#!/bin/sh
# Makes what stands outside of Rattle, with rt, where it is missing or older than the crates:
#
#     build.sh glyph_label     target/staticlib/libglyph_label.a, the archive that programs in C link
#     build.sh PROGRAM..       target/bin/PROGRAM, as relabel and trials
#
# These are copies of what `rt lib` and `rt run` leave in the crate's out/, which is made only of proved crates. The first time, all crates below are proved,
# which takes minutes; a program that `rt ci` has made is taken as it is. What rt says is kept in target/NAME.log, and printed where it fails.
set -eu
cd "$(dirname "$0")/.."

# Whether a file is there, and no file of the crates is newer.
is_new() {
    [ -e "$1" ] && [ -z "$(find crates.txt crates -path 'crates/*/out' -prune -o -type f -newer "$1" -print -quit)" ]
}

for name in "$@"; do
    if [ -e "crates/$name/src/main.rt" ]; then
        verb=run made=crates/$name/out/$name to=target/bin/$name
    else
        verb=lib made=crates/$name/out/lib$name.a to=target/staticlib/lib$name.a
    fi
    if is_new "$to"; then continue; fi
    mkdir -p "${to%/*}"
    if ! is_new "$made"; then
        command -v rt > /dev/null || { echo "tools/build.sh: $to is not there or is old, and rt, which makes it, is not there" >&2; exit 2; }
        echo "tools/build.sh: $name is proved and built, with the crates below it" >&2
        log=$PWD/target/$name.log
        (cd "crates/$name" && rt "$verb" < /dev/null > "$log" 2>&1) || { cat "$log" >&2; exit 2; }
    fi
    cp "$made" "$to.new"
    mv -f "$to.new" "$to"
done
