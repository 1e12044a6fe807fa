#!/bin/sh
# cases/build.sh FORM: builds the crate `cases`, and the crate `model` that it stands on (oracle/over.sh).
set -eu
unset CDPATH
cd "$(dirname "$0")/.."
[ $# -eq 1 ] || { echo "usage: cases/build.sh release|checked" >&2; exit 2; }
model/build.sh "$1"
oracle/over.sh "$1" cases.rlib cases/lib.rs oracle_plain model
