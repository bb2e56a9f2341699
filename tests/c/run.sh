#!/bin/sh
# Every test in C of an archive of the library: run.sh ARCHIVE [CASES...]
#
# CASES are case files (cases.h). Without any, SEED (1) and COUNT (2000) make one
# by tests/model/cases.py and, if VECTORS names the folder of the vectors, another
# by tests/model/vector_cases.py, of which none may get lost on the way. A program
# that makes many checks counts as one.
# The last line is 'N passed, M failed'.
set -u
if [ $# -lt 1 ]; then
    echo "usage: run.sh ARCHIVE [CASES...]" >&2
    exit 2
fi
archive=$1
shift
here=$(cd "$(dirname "$0")" && pwd) || exit 2
root=$(cd "$here/../.." && pwd) || exit 2
tools=$root/tools/cc.sh
tmp=$(mktemp -d) || exit 2
trap 'rm -rf "$tmp"' EXIT
passed=0
failed=0

finish() {
    echo "$passed passed, $failed failed"
    [ "$failed" -eq 0 ]
    exit
}

# count NAME STATUS: one check, its output in $tmp/out
count() {
    if [ "$2" -eq 0 ]; then
        passed=$((passed + 1))
        echo "ok: $1$(tail -n 1 "$tmp/out" | sed 's/^/: /')"
    else
        failed=$((failed + 1))
        cat "$tmp/out"
        echo "FAILED: $1"
    fi
}

# one NAME COMMAND...
one() {
    name=$1
    shift
    "$@" >"$tmp/out" 2>&1
    count "$name" $?
}

# quiet NAME COMMAND...: the same for a command that says nothing if all is well
quiet() {
    name=$1
    shift
    "$@" >"$tmp/out" 2>&1
    status=$?
    [ $status -eq 0 ] && [ -s "$tmp/out" ] && status=1
    count "$name" $status
}

# builds NAME COMMAND...: no check of its own, but a failure if it fails
builds() {
    name=$1
    shift
    "$@" >"$tmp/out" 2>&1 || count "$name is built" 1
}

warnings="-Wall -Wextra -Wpedantic -Wconversion -Werror"
strict="-std=c99 $warnings -O2"
plus="-std=c++11 $warnings -Wold-style-cast -O2 -fno-exceptions -fno-rtti"
# unsafe-buffer-usage is of later clangs, and is about every C that takes pointers; clang 14 does not know it
everything="-Weverything -Wno-unknown-warning-option -Wno-unsafe-buffer-usage -Werror"
wrap="-Wl,--wrap=goldenskep_read,--wrap=goldenskep_write,--wrap=goldenskep_steer,--wrap=goldenskep_list,--wrap=goldenskep_unitdata_read,--wrap=goldenskep_unitdata_write,--wrap=goldenskep_transaction"

cc() {
    sh "$tools" cc -I"$root/include" -I"$root/bench" "$@"
}

run() {
    sh "$tools" run "$@"
}

missing=$(sh "$tools" missing)
command -v python3 >/dev/null || missing="$missing python3"
if [ -n "$missing" ]; then
    echo "not installed (Debian's names):" $missing
fi
if [ ! -f "$archive" ]; then
    echo "FAILED: there is no $archive"
    failed=1
    finish
fi

# ---- the archive ----

sh "$root/tests/symbols.sh" "$archive" >"$tmp/out" 2>&1
sed '$d' "$tmp/out"
last=$(tail -n 1 "$tmp/out")
p=$(echo "$last" | sed -n 's/^\([0-9]*\) passed, \([0-9]*\) failed$/\1/p')
f=$(echo "$last" | sed -n 's/^\([0-9]*\) passed, \([0-9]*\) failed$/\2/p')
if [ -z "$p" ] || [ -z "$f" ]; then
    echo "FAILED: symbols.sh has no count: $last"
    p=0
    f=1
fi
passed=$((passed + p))
failed=$((failed + f))

quiet "it links into a shared library, without relocations in code" \
    sh "$tools" shared "$archive" -o "$tmp/all.so"

# ---- the header ----

quiet "the header is C99" cc $strict -c -o "$tmp/c.o" "$here/header.c"
quiet "the header is C++11" sh "$tools" c++ $plus -I"$root/include" -c -o "$tmp/cpp.o" "$here/header.cpp"
quiet "the host is C99" cc $strict -c -o "$tmp/host.o" "$here/host.c"
quiet "the host is C++11" sh "$tools" c++ $plus -I"$root/include" -x c++ -fsyntax-only "$here/host.c"

# machine COMPILER FLAGS...: header and host by this machine's compiler, if it is there
machine() {
    compiler=$1
    shift
    if command -v "$compiler" >/dev/null; then
        for source in header host; do
            quiet "$source by this machine's $compiler $1" \
                "$compiler" "$@" -I"$root/include" -fsyntax-only "$here/$source.c"
        done
    fi
}

for standard in c99 c11; do
    machine gcc -std=$standard $warnings
    machine clang -std=$standard $everything
done
for compiler in g++ clang++; do
    machine $compiler $plus -x c++
done

# taken TYPE: are octets of this type taken for a record?
taken() {
    echo "#include <goldenskep.h>
        int kind_of(const $1 *it);
        int kind_of(const $1 *it) { return goldenskep_record_kind(it); }" >"$tmp/taken.c"
    cc $strict -fsyntax-only "$tmp/taken.c"
}

one "a record is taken for a record" taken goldenskep_record
for type in uint8_t goldenskep_rule; do
    ! taken $type 2>/dev/null
    count "$type is not" $?
done
for kind in c cpp; do
    builds "the header's test ($kind)" cc -o "$tmp/header_$kind" "$tmp/$kind.o" "$archive"
    one "the header's test ($kind)" run "$tmp/header_$kind"
done

# ---- examples ----

# example NAME ARGS...: what it writes is held to examples/NAME.expected
example() {
    name=$1
    shift
    run "$tmp/$name" "$@" >"$tmp/written" 2>"$tmp/out" &&
        diff "$root/examples/$name.expected" "$tmp/written" >>"$tmp/out"
    count "example $name" $?
}

for name in steer answer change sccp desk; do
    builds "example $name" cc $strict -o "$tmp/$name" "$root/examples/$name.c" "$archive"
done
example steer "$root/examples/rules.txt" "$root/examples/messages.hex"
example answer "$root/examples/messages.hex"
sed -n 's/^[0-9]* send //p' "$tmp/written" >"$tmp/sent"
run "$tmp/answer" "$tmp/sent" >"$tmp/out" 2>&1 && [ -s "$tmp/out" ] && ! grep -v ' readable$' "$tmp/out" >/dev/null
count "what example answer sends is readable" $?
example change 0 "30 03 04 01 08" "$root/examples/messages.hex"
example sccp "$root/examples/unitdata.hex"
sed -n 's/^.*; send //p' "$tmp/written" >"$tmp/sent"
run "$tmp/sccp" "$tmp/sent" >"$tmp/out" 2>&1 && [ -s "$tmp/out" ] && ! grep -v 'link 9; nothing is sent$' "$tmp/out" >/dev/null
count "what example sccp sends is readable" $?
example desk "$root/examples/desk.txt"
echo "begin 45 3" >"$tmp/rules"
echo "64 0A 49 01 05 6C 05 A2 03 02 01 01" >"$tmp/message"
[ "$(run "$tmp/steer" "$tmp/rules" <"$tmp/message" 2>"$tmp/out")" = "1 no rule" ]
count "example steer says that no rule fits" $?
# which of the unreadable messages are answered, by the one and by the other
awk '$2 == "refused" { n = $1 } /^    answer to / { print n, $3 == "nobody:" ? "nothing" : "send" }' \
    "$root/examples/steer.expected" >"$tmp/steered"
awk '$2 == "nothing" || $2 == "send" { print $1, $2 }' "$root/examples/answer.expected" >"$tmp/answered"
[ -s "$tmp/steered" ] && diff "$tmp/steered" "$tmp/answered" >"$tmp/out"
count "examples steer and answer agree" $?

# ---- a host between guard pages ----

calls="-std=gnu99 -Wall -Wextra -Werror -O2"
builds "the host" cc $calls -I"$root/examples" -o "$tmp/host" "$here/host_guarded.c" "$tmp/host.o" "$archive"
for side in end start; do
    run "$tmp/host" $side "$here/host.hex" >"$tmp/written" 2>"$tmp/out" &&
        diff "$here/host.expected" "$tmp/written" >>"$tmp/out"
    count "the host, all that it is lent at the $side of a page" $?
done

# ---- calls ----

for name in specimens elements; do
    builds $name cc $strict -o "$tmp/$name" "$here/$name.c" "$archive"
    one $name run "$tmp/$name"
done
builds indices cc $calls -o "$tmp/indices" "$here/indices.c" "$archive"
one "components that are none" run "$tmp/indices"

vectors=no
if [ $# -eq 0 ]; then
    builds "a case file by the model" python3 "$root/tests/model/cases.py" "${SEED:-1}" "${COUNT:-2000}" "$tmp/model.cases"
    [ -f "$tmp/model.cases" ] && set -- "$tmp/model.cases"
    if [ -n "${VECTORS:-}" ]; then
        builds "a case file by the vectors" python3 "$root/tests/model/vector_cases.py" "$VECTORS" "$tmp/vector.cases"
        vectors=yes
        [ -f "$tmp/vector.cases" ] && set -- "$@" "$tmp/vector.cases"
    fi
fi
if [ $# -eq 0 ]; then
    echo "FAILED: there are no cases"
    failed=$((failed + 1))
    finish
fi

builds harness cc $calls -o "$tmp/harness" "$here/harness.c" "$archive"
# -z now: looking up a name at its first call needs stack too
builds stack cc $calls -Wl,-z,now -o "$tmp/stack" "$here/stack.c" "$archive"
plain="$root/bench/plain.c $root/bench/plain_read.c $root/bench/plain_write.c $root/bench/plain_steer.c $root/bench/plain_list.c $root/bench/plain_unitdata.c"
builds fuzz cc $calls -o "$tmp/fuzz" "$here/fuzz.c" $plain "$archive"
for cases in "$@"; do
    one "calls between guard pages, $(basename "$cases")" run "$tmp/harness" "$cases"
    grep '^cases of ' "$tmp/out" >"$tmp/compared"
    sed 's/^cases of /    /' "$tmp/compared"
    if [ "$cases" = "$tmp/model.cases" ]; then
        tail -n 1 "$tmp/out" | grep -q "^${COUNT:-2000} cases, "
        count "every case of the model was compared" $?
    fi
done
# Did all of the vectors come through?
if [ $vectors = yes ]; then
    one "the model gives what the vectors give" python3 "$root/tests/model/selfcheck.py" "$VECTORS"
    read=$(cat "$VECTORS/read.txt" "$VECTORS/05-unknown/read.txt" | grep -c '^>')
    write=$(grep -c . "$VECTORS/write.jsonl")
    steer=$(grep -c . "$VECTORS/steer.jsonl")
    unitdata_read=$(grep -c . "$VECTORS/06-unitdata/read.jsonl")
    unitdata_write=$(grep -c . "$VECTORS/06-unitdata/write.jsonl")
    echo "vectors: $read to read, $write to write, $steer to steer, unitdata $unitdata_read to read, $unitdata_write to write"
    cp "$tmp/compared" "$tmp/out"
    [ "$(cat "$tmp/out")" = "cases of read $read, write $write, steer $steer, list $read, unitdata read $unitdata_read, unitdata write $unitdata_write" ]
    count "every vector was compared" $?
fi

# ---- the table of open transactions, between guard pages and on a small stack ----

if [ -n "${VECTORS:-}" ]; then
    builds "events on a table" python3 "$root/tests/model/table_cases.py" "${SEED:-1}" "${COUNT:-2000}" "$VECTORS" "$tmp/table.cases"
    cp "$tmp/out" "$tmp/events"
    sed 's/^/    events: /' "$tmp/events"
    builds table cc $calls -Wl,-z,now -o "$tmp/table" "$here/table.c" "$archive"
    one "events on a table, between guard pages and on a small stack" run "$tmp/table" "$tmp/table.cases"
    events=$(awk '{ n += $2 } END { print n }' "$tmp/events")
    tail -n 1 "$tmp/out" | grep -q "^$events events, "
    count "every event was compared" $?
fi

# ---- all other calls on a small stack, and beside plain C ----

one "calls on a small stack" run "$tmp/stack" "$@"
sed '$d' "$tmp/out"
one "altered calls beside plain C" run "$tmp/fuzz" "${SEED:-1}" "${ROUNDS:-20000}" "$@"

# ---- the baseline of the benchmarks does the same job ----

builds "plain C" sh "$here/stub.sh" "$tmp/plain/libgoldenskep.a"
builds "harness over plain C" cc $calls -o "$tmp/plain_harness" "$here/harness.c" "$tmp/plain/libgoldenskep.a"
one "plain C answers the same" run "$tmp/plain_harness" "$@"
if [ -n "${VECTORS:-}" ]; then
    builds "table over plain C" cc $calls -Wl,-z,now -o "$tmp/plain_table" "$here/table.c" "$tmp/plain/libgoldenskep.a"
    one "plain C answers the same on a table" run "$tmp/plain_table" "$tmp/table.cases"
fi

# ---- do the tests notice? ----

# notices PROGRAM FAULT CASES...: it must run to its end and report, exit status 1
notices() {
    program=$1
    fault=$2
    shift 2
    env FAULT="$fault" sh "$tools" run "$tmp/faulty_$program" "$@" >"$tmp/out" 2>&1
    [ $? -eq 1 ]
    count "$program notices $fault" $?
}

builds "harness with faults" cc $calls $wrap -o "$tmp/faulty_harness" "$here/harness.c" "$here/faulty.c" "$archive"
builds "stack with faults" cc $calls -Wl,-z,now $wrap -o "$tmp/faulty_stack" "$here/stack.c" "$here/faulty.c" "$archive"
one "harness over what faults are laid on, with none" run "$tmp/faulty_harness" "$@"
for fault in place refusal-writes rest-of-room reads-behind reads-before writes-message null past-length unwritten \
    writes-behind writes-before link listing unitdata-place unitdata-order unitdata-behind unitdata-class \
    unitdata-refusal-writes unitdata-calling; do
    notices harness $fault "$@"
done
notices stack deep "$@"
if [ -n "${VECTORS:-}" ]; then
    builds "table with faults" cc $calls -Wl,-z,now $wrap -o "$tmp/faulty_table" "$here/table.c" "$here/faulty.c" "$archive"
    one "table over what faults are laid on, with none" run "$tmp/faulty_table" "$tmp/table.cases"
    for fault in entry refusal-writes reads-behind reads-before writes-behind writes-before deep; do
        notices table $fault "$tmp/table.cases"
    done
fi
builds "host with faults" cc $calls $wrap -I"$root/examples" -o "$tmp/faulty_host" "$here/host_guarded.c" "$tmp/host.o" \
    "$here/faulty.c" "$archive"
notices host reads-behind end "$here/host.hex"
notices host reads-before start "$here/host.hex"
notices host writes-message end "$here/host.hex"
notices host writes-behind start "$here/host.hex"
builds "fuzz with faults" cc $calls $wrap -o "$tmp/faulty_fuzz" "$here/fuzz.c" "$here/faulty.c" $plain "$archive"
for fault in place rest-of-room past-length link listing unitdata-place unitdata-class; do
    notices fuzz $fault 1 2000 "$@"
done

finish
