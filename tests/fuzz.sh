#!/bin/sh
# Compares the library with the model and with plain C, with fresh seeds: fuzz.sh ARCHIVE
#
# A round makes COUNT (2000) cases by the model and calls them, and alters 20
# times as many and compares these with plain C; and it makes as many events on a
# table by the model, for the library and for plain C. Each round has its seed: SEED
# (else one by chance), then the next number. ROUNDS (0) is how many; 0 is no
# end. The first difference ends it, with exit status 1.
set -u
if [ $# -ne 1 ]; then
    echo "usage: fuzz.sh ARCHIVE" >&2
    exit 2
fi
archive=$1
here=$(cd "$(dirname "$0")" && pwd) || exit 2
root=$(dirname "$here")
tools=$root/tools/cc.sh
seed=${SEED:-$(od -An -N4 -tu4 /dev/urandom | tr -d ' ')}
count=${COUNT:-2000}
rounds=${ROUNDS:-0}
tmp=$(mktemp -d) || exit 2
trap 'rm -rf "$tmp"' EXIT
trap 'exit 130' INT TERM

build() {
    sh "$tools" cc -std=gnu99 -Wall -Wextra -O2 -I"$root/include" -I"$root/bench" "$@"
}

plain="$root/bench/plain.c $root/bench/plain_read.c $root/bench/plain_write.c $root/bench/plain_steer.c $root/bench/plain_list.c $root/bench/plain_unitdata.c"
build -o "$tmp/harness" "$here/c/harness.c" "$archive" || exit 2
build -o "$tmp/fuzz" "$here/c/fuzz.c" $plain "$archive" || exit 2
build -Wl,-z,now -o "$tmp/table" "$here/c/table.c" "$archive" || exit 2
build -Wl,-z,now -Dgoldenskep_transaction=plain_transaction -o "$tmp/plain_table" "$here/c/table.c" "$root/bench/plain_table.c" || exit 2

round=0
while [ "$rounds" -eq 0 ] || [ $round -lt "$rounds" ]; do
    if ! python3 "$here/model/cases.py" "$seed" "$count" "$tmp/cases" >"$tmp/out" 2>&1 ||
        ! sh "$tools" run "$tmp/harness" "$tmp/cases" >"$tmp/out" 2>&1 ||
        ! { model=$(tail -n 1 "$tmp/out") &&
            sh "$tools" run "$tmp/fuzz" "$seed" $((20 * count)) "$tmp/cases" >"$tmp/out" 2>&1; } ||
        ! { altered=$(tail -n 1 "$tmp/out") &&
            python3 "$here/model/table_cases.py" "$seed" "$count" - "$tmp/events" >"$tmp/out" 2>&1; } ||
        ! sh "$tools" run "$tmp/plain_table" "$tmp/events" >"$tmp/out" 2>&1 ||
        ! sh "$tools" run "$tmp/table" "$tmp/events" >"$tmp/out" 2>&1; then
        cat "$tmp/out"
        echo "FAILED: seed $seed; again: make fuzz SEED=$seed COUNT=$count ROUNDS=1"
        exit 1
    fi
    echo "seed $seed: $model; $altered; $(tail -n 1 "$tmp/out")"
    seed=$((seed + 1))
    round=$((round + 1))
done
