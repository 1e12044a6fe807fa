#!/bin/sh
# model/build.sh FORM: builds the crate `model` over the plain oracle, which is built too where it is not up to date
# (oracle/over.sh).
set -eu
unset CDPATH
cd "$(dirname "$0")/.."
[ $# -eq 1 ] || { echo "usage: model/build.sh release|checked" >&2; exit 2; }
rlib=target/oracle/$1/liboracle_plain.rlib
if [ ! -f "$rlib" ] || [ -n "$(find oracle -newer "$rlib")" ]; then oracle/build.sh plain "$1"; fi
oracle/over.sh "$1" model.rlib model/lib.rs oracle_plain
