#!/bin/sh
# Installs an archive of the library and builds with what was installed: install.sh ARCHIVE
#
# The last line is 'N passed, M failed'.
set -u
if [ $# -ne 1 ]; then
    echo "usage: install.sh ARCHIVE" >&2
    exit 2
fi
case $1 in
/*) archive=$1 ;;
*) archive=$PWD/$1 ;;
esac
cd "$(dirname "$0")/.." || exit 2
tmp=$(mktemp -d) || exit 2
trap 'rm -rf "$tmp"' EXIT
passed=0
failed=0

# one NAME COMMAND...: what the command says is shown if it fails
one() {
    name=$1
    shift
    if "$@" >"$tmp/out" 2>&1; then
        passed=$((passed + 1))
        echo "ok: $name"
    else
        failed=$((failed + 1))
        cat "$tmp/out"
        echo "FAILED: $name"
    fi
}

installed() {
    make --no-print-directory install ARCHIVE="$archive" "$@"
}

# the three files under a folder, and no other
three() {
    (cd "$1" && find . -type f | sort) >"$tmp/found"
    printf './%s\n' include/goldenskep.h lib/libgoldenskep.a lib/pkgconfig/goldenskep.pc | diff - "$tmp/found" &&
        cmp include/goldenskep.h "$1/include/goldenskep.h" && cmp "$archive" "$1/lib/libgoldenskep.a"
}

# make uninstall leaves no file
gone() {
    make --no-print-directory uninstall PREFIX=/opt/goldenskep DESTDIR="$tmp/there" && [ -z "$(find "$tmp/there" -type f)" ]
}

# flags CFLAGS|LIBS of the installed .pc, by pkg-config where it is there
flags() {
    pc=$tmp/here/lib/pkgconfig/goldenskep.pc
    if command -v pkg-config >/dev/null; then
        case $1 in
        Cflags) PKG_CONFIG_PATH=$tmp/here/lib/pkgconfig pkg-config --cflags goldenskep ;;
        Libs) PKG_CONFIG_PATH=$tmp/here/lib/pkgconfig pkg-config --libs goldenskep ;;
        esac
    else
        prefix=$(sed -n 's/^prefix=//p' "$pc")
        sed -n "s/^$1: //p" "$pc" | sed "s,\${includedir},$prefix/include,; s,\${libdir},$prefix/lib,"
    fi
}

built() {
    # not in this folder: header and archive are to be found by the flags alone
    mkdir "$tmp/away" && cp examples/steer.c examples/lines.h "$tmp/away" &&
        sh tools/cc.sh cc -std=c99 $(flags Cflags) -o "$tmp/steer" "$tmp/away/steer.c" $(flags Libs)
}

ran() {
    sh tools/cc.sh run "$tmp/steer" examples/rules.txt examples/messages.hex >"$tmp/written" &&
        diff examples/steer.expected "$tmp/written"
}

if [ ! -f "$archive" ]; then
    echo "FAILED: there is no $archive"
    echo "0 passed, 1 failed"
    exit 1
fi
one "make install PREFIX=.." installed PREFIX="$tmp/here"
one "header, library and pkg-config file are there" three "$tmp/here"
one "make install PREFIX=.. DESTDIR=.." installed PREFIX=/opt/goldenskep DESTDIR="$tmp/there"
one "all is under DESTDIR" three "$tmp/there/opt/goldenskep"
one "the pkg-config file names PREFIX without DESTDIR" \
    grep -q -x 'prefix=/opt/goldenskep' "$tmp/there/opt/goldenskep/lib/pkgconfig/goldenskep.pc"
one "make uninstall DESTDIR=.." gone
one "nothing is left to fill in" sh -c '[ -s "$1" ] && ! grep @ "$1"' sh "$tmp/here/lib/pkgconfig/goldenskep.pc"
if command -v pkg-config >/dev/null; then
    echo "flags by pkg-config"
else
    echo "pkg-config is not installed: flags by the text of the .pc"
fi
one "example steer is built with what is installed" built
one "it steers" ran
echo "$passed passed, $failed failed"
[ "$failed" -eq 0 ]
