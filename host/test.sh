#!/bin/sh
# host/test.sh: the library as C sees it, over the archive of make lib. It tries
#
#   the headers    under each compiler at hand, as C99 and as C++11; their warnings; and cart.h against the code (tools/face)
#   face           every function of the face at every limit
#   plain          every function of cart_plain.h
#   replay         the stored cases, which the oracle answered; and this program itself
#   recode         the real slices: held to what is known of them, and written back
#   damage         what of damage and of wrong shapes is seen: held to the numbers of docs/HANDBOOK.md
#   programs       what recode, look and the scripts print and say, and how they end; the same of the Makefile
#   install        make install, and a program by way of pkg-config
#   the documents  the examples of docs/HANDBOOK.md and docs/FORMAT.md, and the program of README.md
#
# The programs run again with the compiler's checks. clang and clang++ are tried where they are at hand. The real slices are
# in ../shared/vectors, or where MUONSATREY_VECTORS says. No part needs Rust. A part that cannot run has failed, and so has one
# of host/checks.txt that did not run. The last line is 'N passed, M failed', and the exit status is 0 only where M is 0.
set -u
unset CDPATH
cd "$(dirname "$0")/.." || exit 1
vectors=${MUONSATREY_VECTORS:-../shared/vectors}/real-slices.jsonl
passed=0 failed=0 ran=
mkdir -p target/host

# Counts a part as one, or as its last line says where that is a count. host/checks.txt must say the same.
part() { # LABEL COMMAND..
    label=$1
    shift
    echo "-- $label"
    "$@" >target/host/out 2>&1
    status=$?
    cat target/host/out
    count=$(tail -n 1 target/host/out | sed -n 's/^\([0-9][0-9]*\) passed, \([0-9][0-9]*\) failed$/\1 \2/p')
    known=$(sed -n "s/^${label%%,*}: //p" host/checks.txt) made=one ran="$ran|${label%%,*}|"
    [ -z "$count" ] || made=$((${count% *} + ${count#* }))
    [ -n "$count" ] || { [ "$status" -eq 0 ] && count='1 0' || count='0 1'; }
    if [ "$made" != "$known" ]; then
        echo "host: $label: the checks are $made, and host/checks.txt says ${known:-nothing of it}"
        count="${count% *} $((${count#* } + 1))"
    fi
    # a program that fails after it has counted has failed
    [ "$status" -eq 0 ] || [ "${count#* }" -gt 0 ] || count="${count% *} 1"
    passed=$((passed + ${count% *})) failed=$((failed + ${count#* }))
    [ "${count#* }" -eq 0 ] || echo "host: FAILED: $label"
}

header() { # COMPILER..
    set -- "$@" -Wall -Wextra -Wpedantic -Wconversion -Wsign-conversion -Werror -Itarget/dist/include
    # as a compiler that knows no attributes, too
    "$@" -U__GNUC__ -c -o target/host/header.o host/header.c || return 1
    "$@" -o target/host/header host/header.c -x none target/dist/lib/libcart.a && target/host/header
}

replay() { # PROGRAM
    "$1" cases/stored/cases.txt cases/stored/answers.txt
}

recode() { # PROGRAM
    [ -f "$vectors" ] || { echo "there is no $vectors; name another folder with MUONSATREY_VECTORS"; return 1; }
    host/pack.py "$vectors" target/host/real.slices || return 1
    "$1" target/host/real.slices target/host/lists >target/host/said
    host/check.py "$vectors" target/host/said target/host/lists $?
}

first() {
    host/build.sh first && said=$(target/host/first) && echo "$said" && grep -qxF "    $said" README.md
}

# Fails for each label of host/checks.txt that no part had.
all_ran() {
    while IFS=: read -r label _; do
        case "$ran$label" in
        *"|$label|"* | *'#'*) continue ;;
        esac
        failed=$((failed + 1))
        echo "host: FAILED: $label: it did not run"
    done <host/checks.txt
}

part 'library' make lib
for compiler in gcc clang; do
    [ $compiler = gcc ] || command -v $compiler >/dev/null || continue
    part "header, $compiler" header $compiler -std=c99
    part "warnings, $compiler" host/warned.sh $compiler -std=c99
done
for compiler in g++ clang++; do
    [ $compiler = g++ ] || command -v $compiler >/dev/null || continue
    part "header, $compiler" header $compiler -std=c++11 -x c++
    part "warnings, $compiler" host/warned.sh $compiler -std=c++11 -x c++
done
part 'header and code' tools/face
part 'header and code itself' tools/face --self-test
# Each program as it is, and then with the compiler's checks; memory that it keeps until it ends is no fault.
export ASAN_OPTIONS=detect_leaks=0
for form in '' _checked; do
    as=${form:+, checked}
    part "programs$as" host/build.sh "recode$form" "look$form" "face$form" "plain$form" "replay$form" "damage$form"
    part "face$as" "target/host/face$form"
    part "plain$as" "target/host/plain$form"
    part "replay itself$as" host/replay/test.sh "target/host/replay$form"
    part "stored cases$as" replay "target/host/replay$form"
    part "real slices$as" recode "target/host/recode$form"
    part "damage$as" host/damage.sh "target/host/damage$form"
    part "words and statuses$as" host/programs.py "target/host/recode$form" "target/host/look$form"
done
part 'install' host/install.sh
part 'examples of the handbook' host/examples.py docs/HANDBOOK.md target/host/look
part 'examples of the format' host/examples.py docs/FORMAT.md target/host/look
part 'program of README.md' first
part 'the Makefile' tools/make-test.sh
all_ran

echo "$passed passed, $failed failed"
[ "$failed" -eq 0 ]
