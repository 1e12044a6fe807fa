#!/bin/sh
# bench/run.sh [ROUNDS]: times the proved code, linked natively and called as C calls it, against the Rust over its own
# bitstream.rs and over the plain bit layer; then counts instructions, where valgrind is there. Proves and builds all
# that it needs first. Times are no verdict, so the gate does not run it.
set -eu
unset CDPATH
cd "$(dirname "$0")/.."
mkdir -p target/bench
for name in probe cart; do compare/native.sh "$name" >target/bench/log 2>&1 || { cat target/bench/log; exit 1; }; done
bench/build.sh bench -L target/native -l static=probe -l static=cart
echo "machine $(uname -m), $("$(tools/rustc.sh 2>/dev/null)" --version)"
target/bench/bench "$@"
bench/count.sh target/bench/bench
