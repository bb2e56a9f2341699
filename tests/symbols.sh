#!/bin/sh
# What the library's archive gives and needs: symbols.sh ARCHIVE
#
# It must define the eight functions and no other global name, need nothing but
# memcpy and its kin, hold no data that can be written and ask for no executable
# stack. The last line is 'N passed, M failed'.
set -u
if [ $# -ne 1 ]; then
    echo "usage: symbols.sh ARCHIVE" >&2
    exit 2
fi
archive=$1
tools=$(cd "$(dirname "$0")/../tools" && pwd) || exit 2
tmp=$(mktemp -d) || exit 2
trap 'rm -rf "$tmp"' EXIT
passed=0
failed=0

# one check: its name, and what speaks against it
one() {
    if [ -z "$2" ]; then
        passed=$((passed + 1))
        echo "ok: $1"
    else
        failed=$((failed + 1))
        echo "FAILED: $1:" $2
    fi
}

finish() {
    echo "$passed passed, $failed failed"
    [ "$failed" -eq 0 ]
    exit
}

# lines 'NAME TYPE ...'; the members' names and errors of empty members are left out
sh "$tools/cc.sh" nm -P "$archive" >"$tmp/all" 2>"$tmp/errors"
if [ $? -ne 0 ] || [ ! -s "$tmp/all" ]; then
    one "nm reads $archive" "$(cat "$tmp/errors") no symbols"
    finish
fi
awk 'NF >= 2 && $2 ~ /^[A-TV-Z]$/ { print $1 }' "$tmp/all" | sort -u >"$tmp/defined"
awk '$2 == "U" || $2 == "w" || $2 == "v" { print $1 }' "$tmp/all" | sort -u >"$tmp/needed"

for name in read write steer list layout unitdata_read unitdata_write transaction; do
    one "goldenskep_$name is a function of the archive" \
        "$(awk -v name="goldenskep_$name" '$1 == name && $2 == "T" { found = 1 } END { if (!found) print "it is not" }' "$tmp/all")"
done
one "it has no other global names" \
    "$(grep -v -x -E 'goldenskep_(read|write|steer|list|layout|unitdata_read|unitdata_write|transaction)' "$tmp/defined" | tr '\n' ' ')"
one "nothing else is needed than memcpy, memmove, memset, memcmp, bcmp" \
    "$(comm -13 "$tmp/defined" "$tmp/needed" | grep -v -x -E 'memcpy|memmove|memset|memcmp|bcmp' | tr '\n' ' ')"
one "no symbol is of data that can be written" \
    "$(awk '$2 ~ /^[BbDdCcGgSs]$/ && $1 !~ /^\./ { print $1 }' "$tmp/all" | tr '\n' ' ')"
sh "$tools/cc.sh" size -A "$archive" >"$tmp/sections"
# constants that only the loader writes, .data.rel.ro, are none
one "no section of data that can be written has octets" \
    "$(awk '$1 ~ /^\.(data|bss|tdata|tbss)/ && $1 !~ /^\.data\.rel\.ro/ && $2 > 0 { print $1, $2 }' "$tmp/sections" | tr '\n' ' ')"
members=$(sh "$tools/cc.sh" ar t "$archive" | grep -c .)
one "every member says that its stack is not executable" \
    "$(awk -v members="$members" '$1 == ".note.GNU-stack" { n++ } END { if (n + 0 != members) print members - n, "do not" }' "$tmp/sections")"
finish
