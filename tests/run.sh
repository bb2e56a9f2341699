#!/bin/sh
# Every test there is. The last line adds up what each of them counted: 'N passed, M failed'.
set -u
cd "$(dirname "$0")/.." || exit 2
log=$(mktemp -d) || exit 2
trap 'rm -rf "$log"' EXIT
passed=0
failed=0

# one check: its name, then the command
one() {
    name=$1
    shift
    if "$@"; then
        passed=$((passed + 1))
        echo "ok: $name"
    else
        failed=$((failed + 1))
        echo "FAILED: $name"
    fi
}

# a command whose last line is 'N passed, M failed'; what it says is shown as it comes
many() {
    name=$1
    shift
    {
        "$@" 2>&1
        echo $? >"$log/status"
    } | tee "$log/out"
    status=$(cat "$log/status")
    last=$(tail -n 1 "$log/out")
    p=$(echo "$last" | sed -n 's/^\([0-9]*\) passed, \([0-9]*\) failed$/\1/p')
    f=$(echo "$last" | sed -n 's/^\([0-9]*\) passed, \([0-9]*\) failed$/\2/p')
    if [ -z "$p" ] || [ -z "$f" ]; then
        p=0
        f=1
    fi
    if [ "$status" -ne 0 ] && [ "$f" -eq 0 ]; then
        f=1
    fi
    passed=$((passed + p))
    failed=$((failed + f))
    echo "$name: $p passed, $f failed"
}

# beside PART COMMAND...: runs a command in the background; after a wait, 'ended PART' says what it said and ends as it did
beside() {
    part=$1
    shift
    {
        "$@" >"$log/$part" 2>&1
        echo $? >"$log/$part.status"
    } &
}

ended() {
    cat "$log/$1"
    return "$(cat "$log/$1.status")"
}

# every folder of crates/ is a crate that crates.txt lists
listed() {
    for d in crates/*/; do
        crate=$(basename "$d")
        grep -qE "^$crate( [a-z]+)?:" crates.txt || {
            echo "crates.txt does not list $crate"
            return 1
        }
    done
}

command -v rt >/dev/null || {
    echo "the Rattle toolchain (rt) is not installed; docs/TOOLCHAIN.md names it"
    echo "0 passed, 1 failed"
    exit 1
}
version=$(rt version)
if grep -qF "\`$version\`" docs/TOOLCHAIN.md; then
    echo "$version"
else
    echo "note: this is $version, and docs/TOOLCHAIN.md names $(sed -n 's/^.*toolchain `\([^`]*\)`.*$/\1/p' docs/TOOLCHAIN.md)"
fi
beside needs sh tests/needs.sh
one "every crate is listed" listed
one "docs/BELIEVED.md names what must be believed" python3 tools/believed.py --check
many "rt ci" sh tools/prove.sh ci
wait
one "what the tests in C need is installed" ended needs

# The library for C, built anew from what was just proved, and its tests. None is left out: without a
# compiler, an emulator or the archive they fail.
archive=target/lib/libgoldenskep.a
rm -rf target/lib target/bin
one "the archive is built" make --no-print-directory archive
one "the listing program is built" make --no-print-directory target/bin/list
echo "C tests, install and README, side by side: a few minutes"
beside c env VECTORS=tests/vectors SEED=1 COUNT=20000 ROUNDS=20000 sh tests/c/run.sh $archive
beside install sh tests/install.sh $archive
beside readme sh tests/readme.sh $archive
wait
many "C tests" ended c
many "install" ended install
many "README" ended readme

echo "$passed passed, $failed failed"
[ "$failed" -eq 0 ]
