#!/bin/sh
# Counts the instructions a message of a reader under count_loop.c.
#
#   count.sh VECTORS [FILE...]
#
# FILE... are the sources, objects or libraries that provide run_reader()
# (without any: the plain reader). Each is counted once with -O2 and once with
# -O3 for those of them that are sources. The count is the difference between a
# run of n and one of 2n rounds, less the same for a run_reader() that only
# returns (counter.sh).
#
# CC (gcc), CFLAGS (-Wall -Wextra -std=c99), LEVELS (-O2 -O3), LIBS (none),
# ROUNDS (10) may be set.
set -eu

if [ $# -lt 1 ]; then
    echo "usage: count.sh VECTORS [FILE...]" >&2
    exit 2
fi
here=$(cd "$(dirname "$0")" && pwd)
root=$(dirname "$here")
vectors=$1
shift
if [ $# -eq 0 ]; then
    set -- "$here/count_plain.c" "$here/plain.c"
fi
cc=${CC:-gcc}
cflags=${CFLAGS:--Wall -Wextra -std=c99}
levels=${LEVELS:--O2 -O3}
libs=${LIBS:-}
rounds=${ROUNDS:-10}
tmp=$(mktemp -d)
trap 'rm -rf "$tmp"' EXIT
. "$here/counter.sh"

python3 "$here/messages.py" "$vectors" "$tmp/messages" >/dev/null

# The loop is built once, so that it is the same under every reader.
$cc $cflags -O2 -c -o "$tmp/loop.o" "$here/count_loop.c"
$cc $cflags -O2 -s -o "$tmp/none" "$tmp/loop.o" "$here/count_none.c"

for level in $levels; do
    $cc $cflags $level -s -I"$here" -o "$tmp/reader" "$tmp/loop.o" "$@" $libs
    echo "$cc $level"
    echo "  octets  messages  mean length  instructions  an octet  loop"
    for class in all 20 60 120 250; do
        if [ $class = all ]; then
            arguments=
        else
            arguments=$class
        fi
        none=$(difference "$rounds" "$tmp/none" "$tmp/messages" $arguments)
        reader=$(difference "$rounds" "$tmp/reader" "$tmp/messages" $arguments)
        read -r count _ octets _ refused _ <"$tmp/printed"
        awk -v class=$class -v count="$count" -v octets="$octets" -v refused="$refused" \
            -v none="$none" -v reader="$reader" -v rounds="$rounds" 'BEGIN {
            if (count == 0) {
                printf "%8s  no messages\n", class
                exit
            }
            net = (reader - none) / rounds
            printf "%8s %9d %12.1f %13.1f %9.2f %5.1f%s\n", class, count, octets / count,
                net / count, net / octets, none / rounds / count,
                (refused > 0 ? "  " refused " REFUSED" : "")
        }'
    done
done
