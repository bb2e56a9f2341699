#!/bin/sh
# Builds and runs x86-64 programs, on an x86-64 machine or on another one.
#
#   cc.sh cc ARGS...       the C compiler
#   cc.sh c++ ARGS...      the C++ compiler (links nothing of the C++ library)
#   cc.sh shared ARCHIVE ARGS...   all of an archive as a shared library
#   cc.sh joined OUT OBJECTS...    objects as one
#   cc.sh nm|ar|size|objcopy ARGS...
#   cc.sh run PROGRAM ARGS...
#   cc.sh count PLUGIN PROGRAM ARGS...   run; prints "instructions N" on stderr
#   cc.sh missing          what is not installed, by Debian's names; nothing if all is there
#
# CC64, CXX64, NM64, AR64, SIZE64, OBJCOPY64 and RUN64 may name others.
set -eu

if [ "$(uname -m)" = x86_64 ]; then
    native=yes
    prefix=
else
    native=no
    prefix=x86_64-linux-gnu-
fi

have() {
    command -v "$1" >/dev/null 2>&1
}

# the first of these that is there; else the first
first() {
    for name in "$@"; do
        if have "$name"; then
            echo "$name"
            return
        fi
    done
    echo "$1"
}

cc_command() {
    if [ -n "${CC64:-}" ]; then
        echo "$CC64"
    elif [ $native = yes ]; then
        first gcc cc clang
    else
        echo "${prefix}gcc"
    fi
}

# elsewhere programs are static: they need no x86-64 libraries to run
static() {
    [ $native = yes ] || echo -static
}

# clang may lack an x86-64 C++ library, but needs none to compile
cxx_command() {
    if [ -n "${CXX64:-}" ]; then
        echo "$CXX64"
    elif [ $native = yes ]; then
        first g++ c++ clang++
    elif have ${prefix}g++; then
        echo "${prefix}g++"
    elif have clang++; then
        echo "clang++ --target=x86_64-linux-gnu -isystem /usr/x86_64-linux-gnu/include -nostdinc++"
    else
        echo "${prefix}g++"
    fi
}

# for a program that is not static
libraries() {
    [ $native = yes ] || echo -L /usr/x86_64-linux-gnu
}

run_command() {
    if [ -n "${RUN64:-}" ]; then
        echo "$RUN64"
    elif [ $native = no ]; then
        echo qemu-x86_64 $(libraries)
    fi
}

# need COMMAND...: ends with what to install if the command is not there
need() {
    if [ $# -gt 0 ] && ! have "$1"; then
        echo "cc.sh: there is no $1; missing, by Debian's names:" $(sh "$0" missing) >&2
        exit 127
    fi
}

if [ $# -lt 1 ]; then
    sed -n '2,/^$/s/^#\( \|$\)//p' "$0" >&2
    exit 2
fi
what=$1
shift
case $what in
cc)
    need $(cc_command)
    exec $(cc_command) $(static) "$@"
    ;;
shared)
    archive=$1
    shift
    exec $(cc_command) -shared -nostdlib -Wl,-z,text -Wl,--whole-archive "$archive" -Wl,--no-whole-archive "$@"
    ;;
c++)
    exec $(cxx_command) "$@"
    ;;
joined)
    out=$1
    shift
    exec $(cc_command) -r -nostdlib -o "$out" "$@"
    ;;
nm)
    exec "${NM64:-$(first ${prefix}nm llvm-nm nm)}" "$@"
    ;;
ar)
    exec "${AR64:-$(first ${prefix}ar llvm-ar ar)}" "$@"
    ;;
size)
    exec "${SIZE64:-$(first ${prefix}size llvm-size size)}" "$@"
    ;;
objcopy)
    exec "${OBJCOPY64:-$(first ${prefix}objcopy llvm-objcopy objcopy)}" "$@"
    ;;
run)
    need $(run_command)
    exec $(run_command) "$@"
    ;;
count)
    plugin=$1
    shift
    exec qemu-x86_64 $(libraries) -plugin "$plugin" "$@"
    ;;
missing)
    if [ $native = yes ]; then
        have gcc || have cc || have clang || echo gcc
        have g++ || have c++ || have clang++ || echo g++
    else
        have ${prefix}gcc || echo gcc-x86-64-linux-gnu
        [ -f /usr/x86_64-linux-gnu/include/stdio.h ] || echo libc6-dev-amd64-cross
        have ${prefix}g++ || have clang++ || echo g++-x86-64-linux-gnu
        have qemu-x86_64 || echo qemu-user
    fi
    ;;
*)
    echo "cc.sh: no such word: $what" >&2
    exit 2
    ;;
esac
