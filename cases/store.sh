#!/bin/sh
# cases/store.sh [--check]: the stored cases, cases/stored/cases.txt, and the oracle's answers to them,
# cases/stored/answers.txt. Writes both; with --check it only compares what it would write with what is stored, and
# fails on a difference. Needs the given Rust (oracle/build.sh).
set -eu
unset CDPATH
cd "$(dirname "$0")/.."
case $#:${1:-} in
0: | 1:--check) ;;
*) echo "usage: cases/store.sh [--check]" >&2; exit 2 ;;
esac

# the checked form, so that an overflow in the oracle cannot pass for an answer
cases/build.sh checked
made=target/stored
rm -rf "$made"
mkdir -p "$made"
# it runs once, and most of its time is the compiler's
OPT=0 oracle/over.sh checked "$made/store" cases/store/main.rs oracle_plain model cases
"$made/store" "$made"

for file in cases.txt answers.txt; do
    if [ $# -eq 0 ]; then
        cp "$made/$file" "cases/stored/$file"
    else
        cmp "$made/$file" "cases/stored/$file" || {
            echo "store: cases/stored/$file is not what the oracle gives; run cases/store.sh to write it anew" >&2
            exit 1
        }
    fi
done
echo "store: $(wc -l <"$made/cases.txt") cases, $(wc -c <"$made/cases.txt") and $(wc -c <"$made/answers.txt") bytes"
