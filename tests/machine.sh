# shellcheck shell=sh disable=SC2034 # what is set here is used there
# Sourced by the scripts here: how a C or C++ program is built for the archive's machine, x86-64, and run on this one.

has() {
    command -v "$1" >/dev/null 2>&1
}

# The system's emulator; nothing where there is none.
find_emulator() {
    emulator=$(command -v qemu-x86_64) || emulator=
}

# Sets CC and CXX, LIBS (words for the linker of C), RUNNER (what runs a program, nothing on x86-64) and HOST_CC (the compiler for this
# machine), each unless it is set; and the Debian packages that they are in.
find_machine() {
    if [ "$(uname -m)" = x86_64 ]; then
        : "${CC:=cc}" "${CXX:=c++}" "${LIBS=}" "${RUNNER=}" "${HOST_CC:=$CC}"
        c_packages='gcc libc6-dev'
        cxx_packages=g++
    else
        find_emulator
        : "${CC:=x86_64-linux-gnu-gcc}" "${CXX:=x86_64-linux-gnu-g++}" "${LIBS=-static}" "${HOST_CC:=cc}"
        : "${RUNNER=${emulator:-qemu-x86_64}}"
        c_packages='gcc-x86-64-linux-gnu libc6-dev-amd64-cross'
        cxx_packages=g++-x86-64-linux-gnu
    fi
}

# Tells the emulator where the libraries are: around the C library that the compiler names. A C++ program needs it, which isn't linked
# statically, as Debian's cross libm.a names files that aren't there.
find_libraries() {
    # shellcheck disable=SC2086 # a compiler may come with words of its own
    library=$($CXX -print-file-name=libc.so.6 2>/dev/null) || return 0
    case $RUNNER,$library in
    ?*,/*)
        : "${QEMU_LD_PREFIX:=$(dirname "$(dirname "$(readlink -f "$library")")")}"
        export QEMU_LD_PREFIX
        ;;
    esac
}

# works FOLDER SUFFIX RUNNER COMPILER WORDS: whether a small program can be compiled, linked and run, for which it may use the folder. That
# a compiler is there doesn't say so: its C library is a package of its own.
works() {
    small=$1/small
    suffix=$2
    runner=$3
    shift 3
    printf '#include <stdint.h>\n#include <stdio.h>\nint main() { return puts("well") < 0; }\n' >"$small.$suffix"
    # shellcheck disable=SC2068 # a compiler may come with words of its own
    $@ "$small.$suffix" -o "$small" >/dev/null 2>&1 && [ "$(${runner:+"$runner"} "$small" 2>/dev/null)" = well ]
}
