#!/bin/sh
# Runs rt and shows how far it is:
#
#   prove.sh ci               the toolchain's gate: proves all, tries the edits that must be refused, runs the programs
#   prove.sh check [CRATE]    proves what has changed: a crate and those below it, or all
#   prove.sh archive OUT      proves the library for C and builds its archive
#   prove.sh program CRATE OUT    proves a program and builds it
#
# Each crate that is proved and each edit that is refused is one line, '[k of n] name', as soon as rt says so. The
# prover's notes on functions and libraries are left out: target/log has them. All else, errors above all, is passed
# on as it stands. The exit status is rt's; of 'ci' it is 1 too where an edit could not be tried.
set -u
cd "$(dirname "$0")/.." || exit 2
root=$PWD
command -v rt >/dev/null || {
    echo "the Rattle toolchain (rt) is not installed; docs/TOOLCHAIN.md names it" >&2
    exit 127
}
mkdir -p target/log
status=$(mktemp) || exit 2
trap 'rm -f "$status"' EXIT

# crates.txt names with each crate all that it stands over; the toolchain's own libraries are not counted
counted() {
    awk -v wanted="$1" '
        /^#/ || !NF { next }
        { name = $1; sub(/:$/, "", name); listed[name] = 1; over[name] = $0; sub(/^[^:]*:/, "", over[name]) }
        END {
            if (wanted == "") { for (c in listed) n++; print n; exit }
            n = split(over[wanted], words, " ")
            for (i = 1; i <= n; i++) if (words[i] in listed) all++
            print all + 1
        }' crates.txt
}
edits=$(find crates -path '*/must-fail/*.edit' | wc -l)

shown() {
    crate=0 edit=0
    while IFS= read -r line; do
        case $line in
        'rt: must-fail '*': refused, as it must be'*)
            edit=$((edit + 1))
            name=${line#rt: must-fail }
            echo "[$edit of $edits edits] ${name%%:*} refused"
            ;;
        'crate '*': modules loaded='*)
            name=${line#crate }
            name=${name%%:*}
            ;;
        'logic=proved'*)
            [ "$what" = ci ] || {
                crate=$((crate + 1))
                echo "[$crate of $crates] ${name:-} is proved"
            }
            ;;
        'rt: '*' proved' | 'rt: '*' is kept: an earlier run on this machine proved '*)
            crate=$((crate + 1))
            name=${line#rt: }
            echo "[$crate of $crates] ${name%% *} is proved"
            ;;
        'logic '* | 'library '* | 'statements '* | 'axioms '* | '== '* | 'empty contracts: 0 found'* | 'checked '* | 'rt: chose '*) ;;
        'fn '*': proved' | 'struct '*': proved' | 'enum '*': proved' | 'const '*': proved' | 'impl '*': proved' | 'trait '*': proved') ;;
        'note: '* | *': note: '* | 'rt: '*': begins with '* | 'rt: rt check --fix-imports '* | 'rt: waiting for '*) ;;
        'rt: '*': trying its must-fail edits '* | 'rt: '*' must-fail edits were tried by an earlier run '*) ;;
        *) echo "$line" ;;
        esac
    done
}

# said NAME COMMAND...: the command's lines, shortened on the screen and whole in target/log; it ends as the command does
said() {
    log=$root/target/log/$1
    shift
    {
        "$@" 2>&1
        echo $? >"$status"
    } | tee "$log" | shown
    return "$(cat "$status")"
}

inside() {
    cd "$root/crates/$1" && shift && "$@"
}

what=${1:-}
case $what in
ci)
    crates=$(counted '')
    said ci rt ci
    code=$?
    if grep -q '^rt: ok.*, [1-9][0-9]* bad' target/log/ci; then
        echo "an edit could not be tried: see 'bad' above"
        code=1
    fi
    exit $code
    ;;
check)
    crates=$(counted "${2:-}")
    if [ $# -gt 1 ]; then
        said "$2" inside "$2" rt check
    else
        said check rt all check
    fi
    ;;
archive)
    crates=$(counted c_calls)
    said c_calls inside c_calls rt lib || exit
    mkdir -p "$(dirname "$2")"
    cp crates/c_calls/out/libc_calls.a "$2"
    ;;
program)
    crates=$(counted "$2")
    said "$2" inside "$2" rt check || exit
    # rt builds a program by running it
    input=$root/crates/$2/stdin
    [ -f "$input" ] || input=/dev/null
    rm -f "crates/$2/out/$2"
    (inside "$2" rt run <"$input") >"target/log/$2.run" 2>&1
    code=$?
    [ -x "crates/$2/out/$2" ] || exit $code
    mkdir -p "$(dirname "$3")"
    cp "crates/$2/out/$2" "$3"
    ;;
*)
    sed -n '2,/^$/s/^#\( \|$\)//p' "$0" >&2
    exit 2
    ;;
esac
