#!/bin/sh
# Counts the instructions of an event on a table of open transactions: count_table.sh ARCHIVE
#
# The library's beside those of plain C that does the same job (plain_table.c -O2).
#
# A count is the difference between a run of n and one of 2n rounds, less the same
# for a call that only returns (counter.sh); the answers must be the same.
set -eu
if [ $# -ne 1 ]; then
    echo "usage: count_table.sh ARCHIVE" >&2
    exit 2
fi
archive=$1
here=$(cd "$(dirname "$0")" && pwd)
root=$(dirname "$here")
tmp=$(mktemp -d)
trap 'rm -rf "$tmp"' EXIT
. "$here/counter.sh"

build() {
    sh "$root/tools/cc.sh" cc -std=c99 -Wall -Wextra -O2 -I"$root/include" -I"$here" -Wl,-z,now "$@"
}

# The loop is the same under every implementation.
build -DNOTHING -o "$tmp/nothing" "$here/count_table.c"
build -o "$tmp/library" "$here/count_table.c" "$archive"
build -Dgoldenskep_transaction=plain_transaction -o "$tmp/plain" "$here/count_table.c" "$here/plain_table.c"

printf '%-16s %8s %8s\n' event library plain
for name in bad-id activates-first learns-first closes-first closes-last opens-first full; do
    none=$(difference 1000 "$tmp/nothing" $name)
    library=$(difference 1000 "$tmp/library" $name)
    mv "$tmp/printed" "$tmp/answer"
    plain=$(difference 1000 "$tmp/plain" $name)
    printf '%-16s %8d %8d' $name $(((library - none) / 1000)) $(((plain - none) / 1000))
    cmp -s "$tmp/answer" "$tmp/printed" || printf '  DIFFER'
    echo
done
