#!/bin/sh
# compare/native.sh NAME: proves the static library NAME, and writes target/native/libNAME.a: what ships, by rt lib, and what
# programs here link; make lib takes it. It is for every x86-64, where rt's own choice would be a newer one.
#
# The kit runs on x86-64 alone. There rt can make an archive for aarch64 too, which nothing here runs: README.md, "Install".
set -eu
[ $# -eq 1 ] || { echo "usage: compare/native.sh NAME" >&2; exit 2; }
unset CDPATH
cd "$(dirname "$0")/.."
name=$1
archive=lib$name.a
work=target/native
mkdir -p "$work"
# one rt at a time: two that build the same crates wait for one another, and have no more memory than one
exec 9>"$work/lock"
flock 9
# a failure must not leave an earlier archive behind
rm -f "$work/$archive" "crates/$name/out/$archive"
machine=$(uname -m)
[ "$machine" = x86_64 ] || { echo "native: the Rattle kit has no part for $machine: its programs are for x86-64" >&2; exit 1; }
command -v rt >/dev/null || { echo "native: rt, the command of the Rattle kit, is not on the PATH" >&2; exit 1; }

(cd "crates/$name" && rt lib --cpu x86-64)
[ -f "crates/$name/out/$archive" ] || { echo "native: rt made no $archive; is $name a static library in crates.txt?" >&2; exit 1; }
cp "crates/$name/out/$archive" "$work/$archive"
