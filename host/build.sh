#!/bin/sh
# host/build.sh [PROGRAM..]: builds C programs over the library (make lib) as target/host/PROGRAM. With no words, recode,
# look, face, plain, replay and damage.
#
#   PROGRAM  recode   a host program to start from: reads a file of slices and writes it back
#            look     one call of the coder, from the command line
#            face     the test of the C face
#            plain    the test of cart_plain.h
#            replay   answers the stored cases, and compares; it needs the archive of probe too
#            damage   what of damage, and of a wrong shape, can be seen: the numbers of docs/HANDBOOK.md
#            first    the program of README.md, by way of make install and pkg-config
#            NAME_checked   the same with the compiler's checks of addresses and of undefined behaviour
#
# CC names another C compiler than cc.
set -eu
unset CDPATH
case ${1:-} in
-h | --help)
    sed -n '2,/^set/s/^# \{0,1\}//p' "$0"
    exit
    ;;
esac
cd "$(dirname "$0")/.."
warnings='-Wall -Wextra -Wpedantic -Werror'

# Compiles and links target/host/RESULT.
link() { # RESULT WORDS..
    result=target/host/$1
    shift
    # a failure must not leave an earlier build behind
    rm -f "$result"
    mkdir -p target/host
    # shellcheck disable=SC2086 # CC may have words
    ${CC:-cc} -o "$result" "$@"
}

build() { # PROGRAM
    program=$1
    case $1 in
    *_checked) set -- "${1%_checked}" -g -O1 -fsanitize=address,undefined -fno-sanitize-recover=all ;;
    *) set -- "$1" -O2 ;;
    esac
    name=$1
    shift
    case $name in
    recode) set -- "$@" host/recode.c host/slices.c host/bytes.c host/program.c ;;
    look) set -- "$@" host/look.c host/program.c ;;
    damage) set -- "$@" host/damage.c host/slices.c host/bytes.c host/program.c ;;
    face) set -- "$@" -pthread host/face/*.c host/guarded/*.c ;;
    plain) set -- "$@" host/plain.c host/guarded/expect.c ;;
    replay)
        make target/native/libprobe.a
        set -- "$@" host/replay/*.c host/guarded/*.c host/bytes.c host/program.c target/native/libprobe.a
        ;;
    first)
        make install DESTDIR= PREFIX=target/stage
        mkdir -p target/host
        sed -n '/^```c$/,/^```$/{/^```/!p;}' README.md >target/host/first.c
        flags=$(PKG_CONFIG_PATH=target/stage/lib/pkgconfig pkg-config --cflags --libs cart)
        # a space in a path has a backslash before it
        eval "link \"\$program\" \"\$@\" target/host/first.c $flags"
        return
        ;;
    *) echo "host: the program is recode, look, face, plain, replay, damage or first, not $name" >&2; exit 2 ;;
    esac
    # shellcheck disable=SC2086
    link "$program" -std=c99 $warnings -Itarget/dist/include "$@" target/dist/lib/libcart.a
}

make lib
[ $# -gt 0 ] || set -- recode look face plain replay damage
for program in "$@"; do
    build "$program"
    echo "host: target/host/$program"
done
