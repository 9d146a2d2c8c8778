#!/bin/sh
# Installs what clients and people use, or takes it away again.
#
#     install.sh PREFIX                  bin/labels, bin/relabel, include/glyph_label.h, lib/libglyph_label.a, lib/libglyph_label.so,
#                                        lib/pkgconfig/glyph_label.pc, share/glyph_label/, share/man/man1/labels.1 and relabel.1
#     install.sh --uninstall PREFIX      the same files, and those folders in PREFIX, and PREFIX itself, that the installation made,
#                                        as far as they are empty; folders above PREFIX stay
#
# What is not built yet is built with rt. DESTDIR, where it is set, stands before PREFIX and is known to no installed file.
set -eu
umask 022
root=$(cd "$(dirname "$0")" && pwd)

usage() {
    echo "usage: install.sh [--uninstall] PREFIX" >&2
    exit 2
}

uninstall=no
if [ "${1-}" = --uninstall ]; then uninstall=yes; shift; fi
[ $# = 1 ] || usage
case $1 in
    ''|-*) usage ;;
    /*) prefix=$1 ;;
    *) prefix=$(pwd)/$1 ;;
esac
while [ "${prefix%/}" != "$prefix" ]; do prefix=${prefix%/}; done
to=${DESTDIR-}$prefix
made=$to/share/glyph_label/folders      # the folders that the installation made, one a line

folders='bin include lib lib/pkgconfig share share/glyph_label share/glyph_label/xpslabels share/man share/man/man1'
files='bin/labels bin/relabel include/glyph_label.h lib/libglyph_label.a lib/libglyph_label.so lib/pkgconfig/glyph_label.pc
       share/man/man1/labels.1 share/man/man1/relabel.1'

# Takes away the files, then the folders that are in the list, the inner ones first.
take_away() {
    [ -e "$made" ] || { echo "install.sh: nothing is installed in $to" >&2; exit 2; }
    for file in $files; do rm -f "$to/$file"; done
    rm -f "$to"/share/glyph_label/xpslabels/*.py
    listed=$(cat "$made")
    rm -f "$made"
    for folder in $(echo $folders | tr ' ' '\n' | sort -r); do
        if echo "$listed" | grep -qxF "$folder"; then rmdir "$to/$folder" 2> /dev/null || true; fi
    done
    if echo "$listed" | grep -qxF .; then rmdir "$to" 2> /dev/null || true; fi
}

# Makes the folders that are missing and adds them to the list.
make_folders() {
    new=
    for folder in . $folders; do
        if [ ! -d "$to/$folder" ]; then
            mkdir -p "$to/$folder"
            new="$new $folder"
        fi
    done
    for folder in $new; do echo "$folder" >> "$made"; done
    touch "$made"
}

put() {
    cp "$2" "$to/$3.new"
    chmod "$1" "$to/$3.new"
    mv -f "$to/$3.new" "$to/$3"
}

build() {
    sh "$root/tools/shared.sh"
    sh "$root/tools/build.sh" relabel
}

# The file that pkg-config reads. Paths are found from where it stands, so that the folder may move; pkg-config escapes blanks in them itself.
describe() {
    version=$(sed -n 's/^#define GLYPH_LABEL_VERSION \([0-9]*\)$/\1/p' "$root/include/glyph_label.h")
    cat << END
prefix=\${pcfiledir}/../..

Name: glyph_label
Description: glyph labels of OpenXPS: from the text and the indices of a Glyphs element to a run, and back
Version: $version
Cflags: -I\${prefix}/include
Libs: -L\${prefix}/lib -l:libglyph_label.a
END
}

if [ $uninstall = yes ]; then
    take_away
    exit 0
fi
build
make_folders
put 755 "$root/bin/labels" bin/labels
put 755 "$root/target/bin/relabel" bin/relabel
put 644 "$root/include/glyph_label.h" include/glyph_label.h
put 644 "$root/target/staticlib/libglyph_label.a" lib/libglyph_label.a
put 755 "$root/target/libglyph_label.so" lib/libglyph_label.so
for page in labels relabel; do put 644 "$root/man/$page.1" "share/man/man1/$page.1"; done
rm -f "$to"/share/glyph_label/xpslabels/*.py        # modules of an earlier installation
for module in "$root"/xpslabels/*.py; do put 644 "$module" "share/glyph_label/xpslabels/${module##*/}"; done
describe > "$to/lib/pkgconfig/glyph_label.pc"
chmod 644 "$to/lib/pkgconfig/glyph_label.pc"
echo "installed in $to: labels, relabel, glyph_label.h, libglyph_label.a, libglyph_label.so, glyph_label.pc, man pages"
