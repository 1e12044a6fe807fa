#!/bin/sh
# bench/count.sh PROGRAM: instructions of the coefficient coder, of slices and of alpha, a line for each race: those of
# a round on each side, and the ratio of the first side to each other. Unlike times they repeat, on a busy machine too;
# they are a machine's own, and not its time. PROGRAM is target/bench/bench or target/bench/against. PROGRAM.counts has
# the same with tabs: race, side, instructions.
#
# valgrind's callgrind counts what runs within the function `counted`, and writes a file when that is left. So the n-th
# file is that of the n-th name which the program prints.
set -eu
unset CDPATH
cd "$(dirname "$0")/.."
[ $# -eq 1 ] || { echo "usage: bench/count.sh PROGRAM" >&2; exit 2; }
rm -rf "$1.counts" "$1.count"
command -v valgrind >/dev/null || { echo "count: valgrind is not here, so no instructions are counted"; exit; }

mkdir "$1.count"
for coder in coefficients slices alpha; do
    files=$1.count/$coder
    valgrind --tool=callgrind --toggle-collect=counted --dump-after=counted --callgrind-out-file="$files" \
        "$1" count "$coder" >"$files.names" 2>"$files.log" || { cat "$files.log" >&2; exit 1; }
    n=0
    while IFS= read -r name; do
        n=$((n + 1))
        counted=$(sed -n 's/^summary: //p' "$files.$n")
        # a round of which nothing was counted is no round
        [ "${counted:-0}" -gt 0 ] || { echo "count: valgrind counted nothing for $name" >&2; exit 1; }
        printf '%s\t%s\n' "$name" "$counted"
    done <"$files.names" >>"$1.counts"
done
echo "instructions a round"
LC_ALL=C awk -F '\t' '
    $1 != race { printf "%s%-44s %s %d", race ? "\n" : "", $1, $2, $3; race = $1; first = $2; of = $3; next }
    { printf ", %s %d, %s / it %.2f", $2, $3, first, of / $3 }
    END { print "" }' "$1.counts"
