# What the counting scripts share; they set here, root and tmp, and read this file:
#
#   instructions PROGRAM ARGS...        the instructions of one whole run; what it printed is left in $tmp/printed
#   difference N PROGRAM FILE ARGS...   those of N rounds of PROGRAM FILE ROUNDS ARGS...: a run of 2N less one of N
#
# Counted by qemu-x86_64 with the plug-in icount.c, or on an x86-64 machine without that by valgrind.

if command -v qemu-x86_64 >/dev/null && ${HOSTCC:-cc} -O2 -shared -fPIC -o "$tmp/icount.so" "$here/icount.c"; then
    counter=plugin
elif command -v valgrind >/dev/null && [ "$(uname -m)" = x86_64 ]; then
    counter=valgrind
else
    echo "not counted: that needs qemu-x86_64 with plug-ins, or an x86-64 valgrind" >&2
    exit 2
fi

instructions() {
    if [ $counter = plugin ]; then
        sh "$root/tools/cc.sh" count "$tmp/icount.so" "$@" 2>"$tmp/log" >"$tmp/printed" || true
        sed -n 's/^instructions //p' "$tmp/log"
    else
        valgrind --tool=callgrind --callgrind-out-file=/dev/null "$@" 2>"$tmp/log" >"$tmp/printed" || true
        sed -n 's/^==.*Collected : //p' "$tmp/log"
    fi
}

# The number of rounds has always eight digits, so that taking it in costs the same in both runs.
difference() {
    rounds_=$1 program_=$2 file_=$3
    shift 3
    once=$(instructions "$program_" "$file_" "$(printf '%08d' "$rounds_")" "$@")
    twice=$(instructions "$program_" "$file_" "$(printf '%08d' $((2 * rounds_)))" "$@")
    if [ -z "$once" ] || [ -z "$twice" ]; then
        cat "$tmp/log" >&2
        exit 1
    fi
    echo $((twice - once))
}
