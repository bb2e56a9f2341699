#!/bin/sh
# What calls of the library cost: run.sh ARCHIVE READINGS
#
# Instructions of a call beside plain C, by the size of the message (count_calls.sh);
# those of read::read and writer::write (count_records.sh, with the program READINGS);
# the costliest messages to read that a search finds (worst.py); the deepest stack of
# each call (tests/c/stack.c). SEED (1) and GENERATIONS (60) of the search may be set, and
# what count_calls.sh takes.
set -eu
if [ $# -ne 2 ]; then
    echo "usage: run.sh ARCHIVE READINGS" >&2
    exit 2
fi
archive=$1
readings=$2
here=$(cd "$(dirname "$0")" && pwd)
root=$(dirname "$here")
tools=$root/tools/cc.sh
tmp=$(mktemp -d)
trap 'rm -rf "$tmp"' EXIT

build() {
    sh "$tools" cc -std=gnu99 -Wall -Wextra -O2 -I"$root/include" -I"$here" "$@"
}

python3 "$root/tests/model/vector_cases.py" "$root/tests/vectors" "$tmp/vectors" >/dev/null
python3 "$root/tests/model/cases.py" "${SEED:-1}" 5000 "$tmp/model" >/dev/null

echo "Instructions of a call, on the readable messages of the vectors:"
sh "$here/count_calls.sh" "$archive" "$tmp/vectors"

echo
echo "Instructions of read::read and writer::write, with one record, on the readable messages of the vectors:"
sh "$here/count_records.sh" "$readings" "$root/tests/vectors/read.txt"

echo
echo "Instructions of an event on a table of open transactions:"
sh "$here/count_table.sh" "$archive"

echo
echo "The costliest messages to read of at most 255 octets that were found:"
# bound at the start, or the first call would pay for it
build -Wl,-z,now -o "$tmp/worst" "$here/worst.c" "$archive"
if command -v qemu-x86_64 >/dev/null && ${HOSTCC:-cc} -O2 -shared -fPIC -o "$tmp/icount.so" "$here/icount.c"; then
    python3 "$here/worst.py" "${SEED:-1}" "${GENERATIONS:-60}" sh "$tools" count "$tmp/icount.so,mark=on" "$tmp/worst"
else
    echo "none looked for: that needs qemu-x86_64 with plug-ins"
fi

echo
echo "The deepest stack:"
build -Wl,-z,now -o "$tmp/stack" "$root/tests/c/stack.c" "$archive"
sh "$tools" run "$tmp/stack" "$tmp/vectors" "$tmp/model"
