#!/bin/sh
# tools/more-edits.sh [CRATE..]: tries the edits of more-edits/CRATE/, as the gate tries those of crates/CRATE/must-fail/;
# with no words, those of every crate. They are further wrong programs: an edit rechecks its whole crate, and the gate's
# time is limited. docs/EDITS.md lists all. Each must be refused: a bad edit, which shows nothing, fails too.
set -eu
unset CDPATH
cd "$(dirname "$0")/.."
room=$(mktemp -d) || room=$(TMPDIR=/tmp mktemp -d)
trap 'rm -rf "$room"' EXIT
cp crates.txt "$room"
for crate in crates/*; do
    mkdir -p "$room/$crate"
    # not out/, which is large: rt begins with what it kept of the same crates on this machine
    for part in src specs proofs; do [ ! -d "$crate/$part" ] || cp -r "$crate/$part" "$room/$crate"; done
done
for folder in more-edits/*; do cp -r "$folder" "$room/crates/$(basename "$folder")/must-fail"; done
cd "$room"
rt must-fail "$@"
