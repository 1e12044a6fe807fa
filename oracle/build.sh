#!/bin/sh
# oracle/build.sh [KIND FORM]: builds the given Rust, unchanged, as the oracle. With no words, all four.
#
#   KIND  plain    crate oracle_plain, over oracle/plain_bitstream.rs: the oracle that decides
#         real     crate oracle_real, over the given bitstream.rs: run beside it
#   FORM  release  optimised, as its users would build it
#         checked  optimised, and a panic wherever a number overflows or a debug assertion fails
#
# Writes target/oracle/FORM/liboracle_KIND.rlib, and nothing that another KIND or FORM uses: the four can be built
# side by side. Plain rustc: no cargo, no other crate.
set -eu
unset CDPATH
cd "$(dirname "$0")/.."
rustc=$(tools/rustc.sh)

given=${MUONSATREY_RUST:-../shared/docs/src}
name_another='name another folder with the environment variable MUONSATREY_RUST'

fail() { echo "oracle: $*" >&2; exit 1; }

# Copies one given file below target/, where rustc finds it beside our root and bit layer.
take() { # NAME FOLDER
    [ -d "$given" ] || fail "the folder $given, which should hold the given Rust, is missing; $name_another"
    [ -f "$given/$1" ] || fail "the file $1 is missing in $given, the folder of the given Rust; $name_another"
    cp "$given/$1" "$2/$1"
    cmp "$given/$1" "$2/$1" || fail "the copy $2/$1 is not the given file byte for byte"
}

build() { # KIND FORM
    kind=$1 form=$2
    case $form in
    release) flags='' ;;
    checked) flags='-C overflow-checks=on -C debug-assertions=on' ;;
    *) fail "the form is release or checked, not $form" ;;
    esac
    source=target/oracle/source/$form/$kind result=target/oracle/$form/liboracle_$kind.rlib
    # a failure must not leave an earlier build behind
    rm -rf "$source" "$result"
    mkdir -p "$source" "target/oracle/$form"
    for file in entropy slice alpha quant frame; do take $file.rs "$source"; done
    case $kind in
    plain) cp oracle/plain_bitstream.rs "$source/bitstream.rs" ;;
    real) take bitstream.rs "$source" ;;
    *) fail "the kind is plain or real, not $kind" ;;
    esac
    cp oracle/lib.rs oracle/asked.rs oracle/layer.rs "$source"
    # the lints are capped because the given files are not ours to tidy
    # shellcheck disable=SC2086
    "$rustc" --edition 2021 --crate-type rlib --crate-name "oracle_$kind" --cap-lints allow \
        -C opt-level=3 -C codegen-units=1 $flags -o "$result" "$source/lib.rs"
    echo "oracle: $result"
}

case $# in
0) for kind in plain real; do for form in release checked; do build "$kind" "$form"; done; done ;;
2) build "$1" "$2" ;;
*) echo "usage: oracle/build.sh [plain|real release|checked]" >&2; exit 2 ;;
esac
