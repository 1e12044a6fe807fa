#!/bin/sh
# oracle/over.sh FORM RESULT ROOT [NEED..]: compiles the Rust file ROOT, with its modules, over the oracle.
#
#   FORM    release  optimised
#           checked  optimised, and a panic wherever a number overflows or a debug assertion fails
#   RESULT  NAME.rlib is the crate NAME, target/crates/FORM/libNAME.rlib, built only where it is not up to date;
#           any other is a program
#   NEED    a crate of that form which is there already, or static=NAME for the archive target/native/libNAME.a
#
# The environment variable OPT names another level of optimising than 3.
set -eu
unset CDPATH
cd "$(dirname "$0")/.."
rustc=$(tools/rustc.sh)
[ $# -ge 3 ] || { echo "usage: oracle/over.sh FORM RESULT ROOT [NEED..]" >&2; exit 2; }
form=$1 result=$2 root=$3
shift 3
case $form in
release) flags='' ;;
checked) flags='-C overflow-checks=on -C debug-assertions=on' ;;
*) echo "over: the form is release or checked, not $form" >&2; exit 2 ;;
esac
# what the result is made of
from="$(dirname "$root") target/rustc"
for need in "$@"; do
    case $need in
    static=*)
        need=${need#static=}
        [ -f "target/native/lib$need.a" ] || {
            echo "over: target/native/lib$need.a is missing; run compare/native.sh $need" >&2
            exit 1
        }
        flags="$flags -L target/native -l static=$need"
        ;;
    oracle_*) flags="$flags --extern $need" from="$from target/oracle/$form/lib$need.rlib" ;;
    *) flags="$flags --extern $need" from="$from target/crates/$form/lib$need.rlib" ;;
    esac
done
mkdir -p "target/crates/$form"
case $result in
*.rlib)
    name=${result%.rlib} result=target/crates/$form/lib$result
    flags="$flags --crate-type rlib --crate-name $name"
    # programs that are built side by side share their crates: the first to come builds them
    exec 9>"target/crates/$form/$name.lock"
    flock 9
    # shellcheck disable=SC2086
    if [ -f "$result" ] && [ -z "$(find $from -type f -newer "$result")" ]; then exit; fi
    ;;
esac
# a failure must not leave an earlier build behind
rm -f "$result"
# shellcheck disable=SC2086
"$rustc" --edition 2021 -C "opt-level=${OPT:-3}" -L "target/oracle/$form" -L "target/crates/$form" $flags -o "$result" "$root"
echo "over: $result"
