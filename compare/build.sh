#!/bin/sh
# compare/build.sh [PROGRAM FORM]: builds target/compare/PROGRAM, or target/compare/PROGRAM_checked in the checked form,
# with the crates that it stands on (oracle/over.sh). With no words, all of them.
#
#   PROGRAM  driver          compares the proved code with the oracles; links target/native/libNAME.a
#            vectors         tries the proved code on real slices, which needs no oracle; only release
#            oracle_check    tries the oracles alone on document 01's table
#            sample_program  runs the sample program; only release
#   FORM     release, checked (oracle/build.sh)
set -eu
unset CDPATH
cd "$(dirname "$0")/.."

# The crates of the oracles, and what stands on them.
cases() { # FORM
    rlib=target/oracle/$1/liboracle_real.rlib
    if [ ! -f "$rlib" ] || [ -n "$(find oracle -newer "$rlib")" ]; then oracle/build.sh real "$1"; fi
    cases/build.sh "$1"
}

build() { # PROGRAM FORM
    result=target/compare/$1
    [ "$2" = release ] || result=${result}_$2
    mkdir -p target/compare
    # a failure must not leave an earlier build behind
    rm -f "$result"
    case $1 in
    driver)
        cases "$2"
        oracle/over.sh "$2" faces.rlib compare/faces/lib.rs
        oracle/over.sh "$2" "$result" compare/main.rs oracle_plain oracle_real model cases faces static=probe static=cart
        ;;
    vectors)
        oracle/over.sh "$2" faces.rlib compare/faces/lib.rs
        oracle/over.sh "$2" real_slices.rlib compare/real_slices/lib.rs
        oracle/over.sh "$2" "$result" compare/vectors.rs faces real_slices static=cart
        ;;
    oracle_check)
        cases "$2"
        oracle/over.sh "$2" "$result" compare/oracle_check.rs oracle_plain oracle_real model cases
        ;;
    sample_program)
        cases "$2"
        oracle/over.sh "$2" "$result" compare/sample_program.rs oracle_plain model cases
        ;;
    *) echo "compare: the program is driver, vectors, oracle_check or sample_program, not $1" >&2; exit 2 ;;
    esac
}

case $# in
0)
    for program in oracle_check driver; do for form in release checked; do build "$program" "$form"; done; done
    for program in vectors sample_program; do build "$program" release; done
    ;;
2) build "$1" "$2" ;;
*) echo "usage: compare/build.sh [driver|vectors|oracle_check|sample_program release|checked]" >&2; exit 2 ;;
esac
