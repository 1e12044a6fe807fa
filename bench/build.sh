#!/bin/sh
# bench/build.sh PROGRAM WORDS..: compiles the benchmark as target/bench/PROGRAM, over the crates that it shares with
# the comparison. WORDS go to rustc, and tell the archives. Both sides are optimised.
set -eu
unset CDPATH
cd "$(dirname "$0")/.."
program=target/bench/$1
shift
rustc=$(tools/rustc.sh)
for kind in plain real; do oracle/build.sh "$kind" release; done
cases/build.sh release
for name in faces real_slices; do oracle/over.sh release "$name.rlib" "compare/$name/lib.rs"; done
mkdir -p target/bench
for name in oracle_plain oracle_real model cases faces real_slices; do set -- "$@" --extern "$name"; done
"$rustc" --edition 2021 -C opt-level=3 -C codegen-units=1 -L target/oracle/release -L target/crates/release \
    "$@" -o "$program" bench/main.rs
