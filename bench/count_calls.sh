#!/bin/sh
# Counts the instructions of a call of read, write and steer, and of those for
# unitdata: the library's beside those of plain C.
#
#   count_calls.sh ARCHIVE CASES
#
# CASES is a case file (tests/c/cases.h); of it the calls are taken whose message
# is readable or was written, by the message's length. A count is the difference
# between a run of n and one of 2n rounds, less the same for functions that only
# return, over n and the calls (counter.sh).
#
# ROUNDS (4), LEVELS (-O2 -O3) of plain C and CALLS may be set.
set -eu

if [ $# -ne 2 ]; then
    echo "usage: count_calls.sh ARCHIVE CASES" >&2
    exit 2
fi
archive=$1
cases=$2
here=$(cd "$(dirname "$0")" && pwd)
root=$(dirname "$here")
rounds=${ROUNDS:-4}
levels=${LEVELS:--O2 -O3}
tmp=$(mktemp -d)
trap 'rm -rf "$tmp"' EXIT
. "$here/counter.sh"

build() {
    sh "$root/tools/cc.sh" cc -std=c99 -Wall -Wextra -I"$root/include" -I"$here" -I"$root/tests/c" "$@"
}

# The loop is the same under every implementation.
build -O2 -DNOTHING -o "$tmp/nothing" "$here/count_calls.c"
build -O2 -DREAD=goldenskep_read -DWRITE=goldenskep_write -DSTEER=goldenskep_steer \
    -DREAD_UNITDATA=goldenskep_unitdata_read -DWRITE_UNITDATA=goldenskep_unitdata_write \
    -o "$tmp/library" "$here/count_calls.c" "$archive"
programs=library
for level in $levels; do
    for name in plain plain_read plain_write plain_steer plain_unitdata; do
        build "$level" -c -o "$tmp/$name$level.o" "$here/$name.c"
    done
    build -O2 -DREAD=plain_read_layout -DWRITE=plain_write_layout -DSTEER=plain_steer_layout \
        -DREAD_UNITDATA=plain_unitdata_read -DWRITE_UNITDATA=plain_unitdata_write \
        -o "$tmp/plain$level" "$here/count_calls.c" "$tmp/plain$level.o" "$tmp/plain_read$level.o" \
        "$tmp/plain_write$level.o" "$tmp/plain_steer$level.o" "$tmp/plain_unitdata$level.o"
    programs="$programs plain$level"
done

printf '%-8s %6s %7s %7s' call octets calls mean
for program in $programs; do
    printf ' %10s' "$program"
done
echo "  library / plain"
for call in ${CALLS:-r:read w:write s:steer u:ud-read v:ud-write}; do
    for class in 20 60 120 250 all; do
        if [ $class = all ]; then
            arguments=${call%%:*}
        else
            arguments="${call%%:*} $class"
        fi
        none=$(difference "$rounds" "$tmp/nothing" "$cases" $arguments)
        set --
        differ=0
        for program in $programs; do
            set -- "$@" "$(difference "$rounds" "$tmp/$program" "$cases" $arguments)"
            read -r count _ octets _ wrong _ <"$tmp/printed"
            differ=$((differ + wrong))
        done
        awk -v call="${call##*:}" -v class=$class -v count="$count" -v octets="$octets" -v differ=$differ \
            -v none="$none" -v rounds="$rounds" -v all="$*" 'BEGIN {
            if (count == 0) {
                printf "%-8s %6s no calls\n", call, class
                exit
            }
            printf "%-8s %6s %7d %7.1f", call, class, count, octets / count
            n = split(all, each, " ")
            for (i = 1; i <= n; i++)
                printf " %10.1f", (each[i] - none) / rounds / count
            printf " "
            for (i = 2; i <= n; i++)
                printf " %.2f", (each[1] - none) / (each[i] - none)
            print (differ > 0 ? "  " differ " DIFFER" : "")
        }'
    done
done
