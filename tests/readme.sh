#!/bin/sh
# Tries what README.md shows: readme.sh ARCHIVE [LIST]
#
# Its C is built with the archive and must write the text behind it; LIST (else
# target/bin/list) must list the message as shown. The last line is 'N passed, M failed'.
set -u
if [ $# -lt 1 ]; then
    echo "usage: readme.sh ARCHIVE [LIST]" >&2
    exit 2
fi
archive=$1
root=$(cd "$(dirname "$0")/.." && pwd) || exit 2
list=${2:-$root/target/bin/list}
tools=$root/tools/cc.sh
tmp=$(mktemp -d) || exit 2
trap 'rm -rf "$tmp"' EXIT
passed=0
failed=0

# count NAME STATUS: one check, what speaks against it in $tmp/out
count() {
    if [ "$2" -eq 0 ]; then
        passed=$((passed + 1))
        echo "ok: $1"
    else
        failed=$((failed + 1))
        cat "$tmp/out"
        echo "FAILED: $1"
    fi
}

# block WORD: the first block of README.md that is marked so
block() {
    awk -v mark="\`\`\`$1" '$0 == "```" && found { exit } found { print } $0 == mark { found = 1 }' "$root/README.md"
}

block c >"$tmp/host.c"
block text >"$tmp/must"
block console >"$tmp/console"

sh "$tools" cc -std=c99 -Wall -Wextra -Wpedantic -Wconversion -Werror -I"$root/include" -o "$tmp/host" "$tmp/host.c" "$archive" >"$tmp/out" 2>&1
count "the C of README.md is built" $?
[ -s "$tmp/must" ] && sh "$tools" run "$tmp/host" 2>&1 | diff "$tmp/must" - >"$tmp/out"
count "it writes what README.md says" $?

# `$ echo HEX | .. | target/bin/list`, and the listing
hex=$(sed -n 's/^\$ echo \([0-9A-F ]*\) | xxd -r -p | target\/bin\/list$/\1/p' "$tmp/console")
sed 1d "$tmp/console" >"$tmp/must"
if command -v xxd >/dev/null; then
    echo "$hex" | xxd -r -p >"$tmp/message"
else
    python3 -c 'import sys; sys.stdout.buffer.write(bytes.fromhex(sys.argv[1]))' "$hex" >"$tmp/message"
fi
[ -n "$hex" ] && sh "$tools" run "$list" <"$tmp/message" 2>&1 | diff "$tmp/must" - >"$tmp/out"
count "the message of README.md is listed so" $?
echo "$passed passed, $failed failed"
[ "$failed" -eq 0 ]
