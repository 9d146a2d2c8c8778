#!/bin/sh
# Builds the archive, then compiles and runs the tests of the calls for C and the example: plainly, and under valgrind.
# The independent reader makes a sheet and its answers for them. Quiet but for failures; the last line says what passed.
# With the argument `large`, raw values and files above 4 GiB as well, which takes about a minute.
set -eu
cd "$(dirname "$0")/../.."
out=target/c
mkdir -p "$out"
archive=target/staticlib/libglyph_label.a

fail() {
    echo "tests/c: $*"
    exit 1
}

sh tools/build.sh glyph_label || exit 1
warnings="-Wall -Wextra -Werror"
flags="-std=c99 $warnings -O1 -g -Iinclude"
${CC:-cc} $flags -Itests/c -pthread tests/c/*.c "$archive" -o "$out/test_calls"
${CC:-cc} $flags examples/plotter.c "$archive" -o "$out/plotter"
echo '#include "glyph_label.h"' > "$out/header.c"
${CC:-cc} -std=c99 -pedantic $warnings -Wconversion -Iinclude -fsyntax-only "$out/header.c"
${CXX:-c++} -x c++ $warnings -Wconversion -Iinclude -fsyntax-only "$out/header.c"

# the causes are the words of the header's table
"$out/test_calls" causes > "$out/causes.out"
python3 tests/c/causes.py | diff - "$out/causes.out"

rm -f "$out/sheet.slb" "$out/sheet.answers"
python3 tests/independent/sheets.py "$out" > "$out/sheets.log"
passed=$("$out/test_calls" "$out/sheet.slb" "$out/sheet.answers")
checked=$(valgrind -q --error-exitcode=9 "$out/test_calls" "$out/sheet.slb" "$out/sheet.answers" 2000)

# The example must end with this status on these arguments; what it prints is compared below.
plotter() {
    wanted=$1 status=0
    shift
    "$out/plotter" "$@" >> "$out/plotter.out" 2> "$out/plotter.err" || status=$?
    [ $status = "$wanted" ] && [ ! -s "$out/plotter.err" ] || fail "plotter $*: status $status, not $wanted, or an error"
}
# Or with 2, nothing printed and something on standard error: the usage, where the arguments are wrong.
trouble() {
    status=0
    "$out/plotter" "$@" > "$out/trouble.out" 2> "$out/trouble.err" || status=$?
    [ $status = 2 ] && [ ! -s "$out/trouble.out" ] && [ -s "$out/trouble.err" ] || fail "plotter $*: status $status, not 2"
}
wrong() {
    trouble "$@"
    cmp -s "$out/usage" "$out/trouble.err" || fail "plotter $*: no usage on standard error"
}

rm -f "$out/plotter.out"
plotter 0 --help
cp "$out/plotter.out" "$out/usage"
plotter 0 '{}flow' '(2:1)192;07,+55.50,,0' 1 2
plotter 0 A '5,.0005,1.5,-.0015'
plotter 1 AB '(2:2)5'
# U+1F600, a pair: left to the font it is one cluster; an entry without a map is refused at it
pair=$(printf '\360\237\230\200')
plotter 0 "A${pair}B$pair" 5 1 2
plotter 1 "A${pair}B$pair" '5;'
plotter 0 --raw "$(printf '&lt;\r\n&#9;&#x42;')" '&#53;;6,1' 0 1
plotter 1 --raw 'a&nbsp;b' '<'
plotter 1 --raw '&amp;' '5;<6'
plotter 1 --raw '&#123;a'
plotter 0 -- --raw 5
plotter 0 --raw -- '--&lt;'
plotter 1 ''
# picks: of a number that no run has, and that is no number
plotter 1 AB '5;6' 2 2
plotter 1 AB '5;6' 0 18446744073709551599
wrong AB '5;6' 0 18446744073709551616
for pick in '' -1 +1 ' 1' 1x 0x1 1.0; do
    wrong AB '5;6' 0 "$pick"
    wrong AB '5;6' "$pick" 2
done
wrong
wrong --raw
wrong AB '5;6' 0
wrong AB '5;6' 0 1 2
wrong --sheet
wrong --sheet examples/soundings.slb 0
wrong --sheets examples/soundings.slb
wrong --raw --sheet examples/soundings.slb
trouble --sheet "$out/no such file"
trouble --sheet "$out"
# the sample sheet is what its script makes
python3 examples/make_sheet.py "$out/soundings.slb"
cmp examples/soundings.slb "$out/soundings.slb"
plotter 1 --sheet examples/soundings.slb
# four labels: accepted, refused, empty, accepted; the same file with its last byte cut off; its first label alone; no label; no byte; a text that is no sheet
sheet='SLB\001\000\001\000\001\000\000\000A5\001\000\005\000\000\000A5,1e7\000\000\000\000\000\000\000\000\003\000\000\0005;6'
printf "$sheet" > "$out/four.slb"
printf "${sheet%?}" > "$out/cut.slb"
printf 'SLB\001\000\001\000\001\000\000\000A5' > "$out/one.slb"
printf 'SLB\001\000' > "$out/none.slb"
: > "$out/empty.slb"
plotter 1 --sheet "$out/four.slb"
plotter 1 --sheet "$out/cut.slb"
plotter 0 --sheet "$out/one.slb"
plotter 0 --sheet "$out/none.slb"
plotter 1 --sheet "$out/empty.slb"
plotter 1 --sheet tests/c/plotter.expected
diff tests/c/plotter.expected "$out/plotter.out"

[ "${1-}" != large ] || "$out/test_calls" large
echo "tests/c: $passed"
echo "tests/c: passed, under valgrind too: ${checked%%;*}; header as C and C++, example"
