#!/bin/sh
# tools/decode.sh FILE: proves the sample program, builds it and runs it on FILE, or on standard input where that is -. On
# standard error it has a line for each crate that is proved, or the one line that nothing has changed since the last time;
# and on standard output the program's answer. All that rt said is in target/decode.log, and what was read in target/decode.in.
# tools/decode.sh --build: proves it and builds it, crates/decode/out/decode, and no more.
#
# The program's own status is 0 whatever the answer, and 1 where a read or a write failed. This one's is 0 where the payload
# was read, 1 where it was refused, and 2 where there is no answer.
set -u
unset CDPATH

fail() {
    echo "decode: $*" >&2
    exit 2
}

# Of what rt says, a line for each crate that it proved. It names the crate before it says so.
proved() {
    name=
    while IFS= read -r said; do
        case $said in
        'crate '*': '*) name=${said#crate } name=${name%%:*} ;;
        'logic=proved '*) echo "decode: $name is proved" ;;
        'rt: nothing has changed since the last proved build'*) echo "decode: nothing has changed since the last proof" ;;
        esac
    done
}

[ $# -eq 1 ] || fail "the word is FILE, or --build"
# before the folder is another one
case $1 in
--build) ;;
-) exec 3<&0 ;;
*)
    [ -e "$1" ] || fail "$1: there is no such file"
    [ ! -d "$1" ] || fail "$1: this is a folder"
    [ -r "$1" ] || fail "$1: it may not be read"
    exec 3<"$1"
    ;;
esac
cd "$(dirname "$0")/.." || exit 2
command -v rt >/dev/null || fail "rt, the command of the Rattle kit, is not on the PATH"
mkdir -p target/native || exit 2
# one rt at a time, as in compare/native.sh; and one that writes these two files
exec 9>target/native/lock
flock 9 || exit 2
program=crates/decode/out/decode
if [ "$1" != --build ]; then
    # The program gets a copy, so that what cannot be read is told of by its name: a byte, the largest payload, and a byte
    # too many. FILE may be an earlier copy.
    rm -f target/decode.in
    head -c 65538 <&3 >target/decode.in || fail "$1: it cannot be copied to target/decode.in"
fi

# rt builds a program only to run it, so it gets no input here, and its answer to that is dropped. What rt says is on standard
# error. A pipe has the status of its last command, so rt's own goes round it.
status=$({
    { (cd crates/decode && rt run) </dev/null 2>&1 >/dev/null; echo $? >&4; } | tee target/decode.log | proved >&2
} 4>&1)
if [ "$status" != 0 ]; then
    # a failure must not leave an earlier build behind
    rm -f "$program"
    # without what it loaded, and what it did prove
    grep -v -e '^statements ' -e '^library ' -e ': proved$' target/decode.log | tail -n 20 >&2
    fail "rt ended with status $status; all that it said is in target/decode.log"
fi
[ "$1" != --build ] || exit 0
answer=$(tools/run.sh "$program" <target/decode.in) || fail "$program ended with status $?"
printf '%s\n' "$answer" || exit 2
case $answer in
bits\ *) ;;
refused\ *) exit 1 ;;
*) fail "$program gave no answer" ;;
esac
