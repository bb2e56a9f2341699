#!/bin/sh
# Counts the instructions of read::read, which hands back a record, and of
# writer::write, which takes one, beside the plain reader and writer:
#
#   count_records.sh PROGRAM VECTORS
#
# PROGRAM is the crate `program_readings`, built. It reads each message once more for every
# octet of its first argument, and writes its record once more for every octet of
# the second: what two octets cost over one is a call, and a turn of the loop around
# it (counter.sh).
set -eu
if [ $# -ne 2 ]; then
    echo "usage: count_records.sh PROGRAM VECTORS" >&2
    exit 2
fi
here=$(cd "$(dirname "$0")" && pwd)
root=$(dirname "$here")
program=$(cd "$(dirname "$1")" && pwd)/$(basename "$1")
vectors=$(cd "$(dirname "$2")" && pwd)/$(basename "$2")
tmp=$(mktemp -d)
trap 'rm -rf "$tmp"' EXIT
. "$here/counter.sh"

build() {
    sh "$root/tools/cc.sh" cc -std=c99 -Wall -Wextra -O2 -I"$here" "$@"
}

# beside each of plain C the same loop around a function that only returns
build -o "$tmp/read" "$here/count_loop.c" "$here/count_plain.c" "$here/plain.c"
build -o "$tmp/no_read" "$here/count_loop.c" "$here/count_none.c"
set -- "$here/count_loop.c" "$here/count_plain_write.c" "$here/plain.c" "$here/plain_read.c"
build -o "$tmp/write" "$@" "$here/plain_write.c"
build -DNOTHING -o "$tmp/no_write" "$@"

# over PROGRAM LESS MORE: what the arguments MORE cost over LESS
over() {
    echo $(($(instructions "$1" $3) - $(instructions "$1" $2)))
}

# the program takes its messages from the folder that it is run in
cd "$tmp"
echo "call   octets   calls  record   plain  record / plain"
for call in read write; do
    if [ $call = read ]; then more=".. ."; else more=". .."; fi
    for class in 20 60 120 250 all; do
        if [ $class = all ]; then wanted=; else wanted=$class; fi
        count=$(python3 "$here/messages.py" "$vectors" "$tmp/messages.bin" $wanted | sed 's/ .*//')
        record=$(over "$program" ". ." "$more")
        plain=$(($(difference 1 "$tmp/$call" messages.bin) - $(difference 1 "$tmp/no_$call" messages.bin)))
        awk -v call=$call -v class=$class -v count="$count" -v record="$record" -v plain="$plain" 'BEGIN {
            printf "%-6s %6s %7d %7.1f %7.1f  %.2f\n", call, class, count, record / count, plain / count, record / plain
        }'
    done
done
