#!/usr/bin/env bash
# install.sh into a folder whose name has blanks, with and without DESTDIR: what is installed runs outside the clone, and nothing is left.
set -euo pipefail
cd "$(dirname "$0")/../.."
root=$PWD
folder=$(mktemp -d)
trap 'rm -rf "$folder"' EXIT

fail() {
    echo "tests/labels/install.sh: $*"
    exit 1
}

# What is installed there, run from a folder that is not the clone.
try() {
    local prefix=$1 status=0
    cp tests/data/scribus.xps "$folder/sheet.xps"
    (cd "$folder" && env -u GLYPH_LABEL_LIBRARY "$prefix/bin/labels" sheet.xps) > "$folder/out" || status=$?
    [ $status = 1 ] || fail "labels ended with $status"
    [ "$(tail -n 1 "$folder/out")" = 'sheet.xps: 12 labels, 11 accepted, 1 refused, 126 values finer than thousandths' ] || fail 'labels: other sums'
    [ "$(printf '{}flow\n(2:1)192;07,+55.50,,0\n' | "$prefix/bin/relabel")" = $'ok 4 3 3\nflow\n(2)192;7,55.5' ] || fail 'relabel: another answer'
    if command -v pkg-config > /dev/null; then
        flags=$(PKG_CONFIG_PATH="$prefix/lib/pkgconfig" pkg-config --cflags --libs glyph_label)
        eval "${CC:-cc} '$root/examples/plotter.c' $flags -o '$folder/plotter'"
        [ "$("$folder/plotter" flow '(2:1)192' | tail -n 1)" = 'indices: (2)192' ] || fail 'the example that pkg-config led to the archive'
    fi
    if command -v man > /dev/null; then
        for page in labels relabel; do
            [ -z "$(LC_ALL=C.UTF-8 MANROFFSEQ='' man --warnings -E UTF-8 -l "$prefix/share/man/man1/$page.1" 2>&1 > /dev/null)" ] || fail "man $page"
        done
    fi
    [ -z "$(find "$prefix" -name '__pycache__')" ] || fail 'byte code is left beside the program'
}

prefix="$folder/a prefix"
./install.sh "$prefix" > /dev/null
touch "$prefix/share/glyph_label/xpslabels/old.py"
./install.sh "$prefix/" > /dev/null                 # once more: as the first time, and what was of an earlier one is gone
[ ! -e "$prefix/share/glyph_label/xpslabels/old.py" ] || fail 'a module of an earlier installation is left'
try "$prefix"
./install.sh --uninstall "$prefix"
[ ! -e "$prefix" ] || fail "left: $(find "$prefix")"

# folders above the prefix stay
./install.sh "$folder/above/below" > /dev/null
./install.sh --uninstall "$folder/above/below"
[ "$(find "$folder/above")" = "$folder/above" ] || fail "not the folder above alone: $(find "$folder/above")"

# folders and files of others stay
mkdir -p "$prefix/bin" "$prefix/lib"
touch "$prefix/bin/other"
DESTDIR="$folder/stage" ./install.sh "$prefix" > /dev/null
[ "$(find "$prefix" -type f)" = "$prefix/bin/other" ] || fail 'with DESTDIR something went to PREFIX itself'
try "$folder/stage$prefix"
mv "$folder/stage$prefix" "$folder/moved"           # and it may move
try "$folder/moved"
mv "$folder/moved" "$folder/stage$prefix"
DESTDIR="$folder/stage" ./install.sh --uninstall "$prefix"
[ -z "$(find "$folder/stage" -type f)" ] || fail "left: $(find "$folder/stage" -type f)"
./install.sh "$prefix" > /dev/null
./install.sh --uninstall "$prefix"
[ "$(find "$prefix" | sort | tr '\n' ' ')" = "$prefix $prefix/bin $prefix/bin/other $prefix/lib " ] || fail "not as before: $(find "$prefix")"

# wrong arguments, and nothing to take away
for arguments in '' '--uninstall' '--help' 'a b'; do
    status=0
    ./install.sh $arguments > /dev/null 2> "$folder/err" || status=$?
    [ $status = 2 ] && grep -q '^usage: ' "$folder/err" || fail "install.sh $arguments: status $status"
done
status=0
./install.sh --uninstall "$folder/nowhere" 2> /dev/null || status=$?
[ $status = 2 ] || fail "uninstalling what is not installed: status $status"
