#!/bin/sh
# The plain C implementation as a library under the same names: stub.sh ARCHIVE
set -eu
if [ $# -ne 1 ]; then
    echo "usage: stub.sh ARCHIVE" >&2
    exit 2
fi
archive=$1
here=$(cd "$(dirname "$0")" && pwd)
root=$(cd "$here/../.." && pwd)
tmp=$(mktemp -d)
trap 'rm -rf "$tmp"' EXIT

for source in bench/plain bench/plain_read bench/plain_write bench/plain_steer bench/plain_list bench/plain_unitdata \
    bench/plain_table tests/c/stub; do
    # -fno-stack-protector: some compilers put in calls of their own
    sh "$root/tools/cc.sh" cc -std=c99 -Wall -Wextra -Wpedantic -Werror -O2 -fPIC -fno-stack-protector \
        -I"$root/include" -I"$root/bench" -c -o "$tmp/$(basename $source).o" "$root/$source.c"
done
# one object, so that its inner names can be made local
sh "$root/tools/cc.sh" joined "$tmp/joined" "$tmp"/*.o
sh "$root/tools/cc.sh" objcopy --wildcard --keep-global-symbol='goldenskep_*' "$tmp/joined" "$tmp/goldenskep.o"
mkdir -p "$(dirname "$archive")"
rm -f "$archive"
sh "$root/tools/cc.sh" ar rcs "$archive" "$tmp/goldenskep.o"
