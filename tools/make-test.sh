#!/bin/sh
# tools/make-test.sh: tries the Makefile: what it says and how it ends, with and without rt, and with spaces in paths.
# It takes for granted that all is proved and built; what is not, rt proves first. The last line is 'N passed, M
# failed', and the exit status is 0 only where M is 0.
set -u
unset CDPATH DESTDIR PREFIX FILE MAKEFLAGS MAKELEVEL MAKEFILES
cd "$(dirname "$0")/.." || exit 1
room=$(mktemp -d) || exit 1
trap 'rm -rf "$room"' EXIT
passed=0 failed=0 path=$PATH

# Runs a command with the PATH in `path`; what it prints is then in the room.
try() { # COMMAND..
    command=$*
    PATH=$path "$@" >"$room/out" 2>"$room/err"
    status=$?
}

# Whether what was tried is so.
expect() { # WHAT COMMAND..
    what=$1
    shift
    if "$@"; then
        passed=$((passed + 1))
    else
        failed=$((failed + 1))
        echo "FAILED: $command: $what; status $status, and it printed"
        head -n 20 "$room/out" "$room/err"
    fi
}

says() { # LINE
    grep -qxF "$1" "$room/err"
}

# The PATH, but with a folder in place of each that has rt: it has the same commands, and STAND_IN for rt, or none.
path_with() { # STAND_IN
    (IFS=: && set -f && for folder in $PATH; do echo "$folder"; done) | while IFS= read -r folder; do
        if [ -e "$folder/rt" ]; then
            other=$(mktemp -d "$room/path.XXXXXX")
            ln -s "$folder"/* "$other"
            rm "$other/rt"
            if [ -n "$1" ]; then ln -s "$1" "$other/rt"; fi
            folder=$other
        fi
        echo "$folder"
    done | paste -s -d : -
}

no_rt='make: rt, the command of the Rattle kit, is not on the PATH; README.md, "Building and proving", says what is needed'

# make alone, and what it can do without rt: all that is built already
try make
expect 'it says where the library is, and for which machine' \
    [ "$(tail -n 1 "$room/out")" = "make: target/dist has libcart.a for $(uname -m), its headers and cart.pc" ]
expect 'it is done' [ "$status" -eq 0 ]
for file in lib/libcart.a include/cart.h include/cart_plain.h lib/pkgconfig/cart.pc; do
    expect "there is $file" [ -f "target/dist/$file" ]
done
path=$(path_with '')
try make lib
expect 'what is built needs no rt' [ "$status" -eq 0 ]

# without rt, nothing else is begun
for target in '-W crates.txt lib' check decode prove test more-edits compare compare-long bench; do
    # shellcheck disable=SC2086 # -W has words
    try timeout 30 make -s $target
    expect 'it says that there is no rt' says "$no_rt"
    expect 'it fails, and begins nothing' [ "$status/$(grep -vc '^make: target/dist has' "$room/out")" = 2/0 ]
done

# the sample program; first with an rt that proves nothing, so that the program has to be proved again behind it
cp crates/decode/stdin "$room/a file"
printf '#!/bin/sh\necho "fn common::f: not proved" >&2\nexit 1\n' >"$room/no-proof"
chmod +x "$room/no-proof"
path=$(path_with "$room/no-proof")
try tools/decode.sh "$room/a file"
expect 'it shows what rt said' says 'fn common::f: not proved'
expect 'it says where all of it is' says 'decode: rt ended with status 1; all that it said is in target/decode.log'
expect 'it gives no answer' [ "$status/$(wc -c <"$room/out")" = 2/0 ]
try flock target/native/lock timeout 1 tools/decode.sh "$room/a file"
expect 'it waits for another rt' [ "$status/$(wc -c <"$room/err")" = 124/0 ]

path=$PATH
try make -s decode
expect 'it has a payload of its own' cmp -s "$room/out" crates/decode/stdout
expect 'a line for each crate that is proved' \
    [ "$(grep -c '^decode: [a-z0-9_]* is proved$' "$room/err")" -eq "$(wc -l <"$room/err")" ]
expect 'the last of them is decode' [ "$(tail -n 1 "$room/err")" = 'decode: decode is proved' ]
expect 'the log has all that rt said' grep -q '^rt: running out/decode;' target/decode.log
try make -s decode FILE="$room/a file"
expect 'it prints the answer alone' cmp -s "$room/out" crates/decode/stdout
expect 'it is done, and proves nothing again' \
    [ "$status/$(cat "$room/err")" = '0/decode: nothing has changed since the last proof' ]
try make -s decode FILE=- <"$room/a file"
expect 'it reads standard input' cmp -s "$room/out" crates/decode/stdout
try make -s decode FILE=/dev/stdin <"$room/a file"
expect 'it reads /dev/stdin' cmp -s "$room/out" crates/decode/stdout
try make -s decode FILE=target/decode.in
expect 'it reads what it read before' cmp -s "$room/out" crates/decode/stdout

printf '\002\200' >"$room/refused"
try make -s decode FILE="$room/refused"
expect 'it shows the refusal' [ "$(cat "$room/out")" = 'refused 5' ]
expect 'it fails' [ "$status" -eq 2 ]
try tools/decode.sh "$room/refused"
expect 'its status is 1' [ "$status" -eq 1 ]
try env FILE="$room/refused" make -s decode
expect 'it reads the FILE of the environment' [ "$(cat "$room/out")" = 'refused 5' ]
try tools/decode.sh /proc/self/mem
expect 'it says what cannot be read' says 'decode: /proc/self/mem: it cannot be copied to target/decode.in'
expect 'it gives no answer' [ "$status/$(wc -c <"$room/out")" = 2/0 ]
try tools/decode.sh "$room/none"
expect 'it says that there is no such file' says "decode: $room/none: there is no such file"
expect 'its status is 2' [ "$status" -eq 2 ]
try tools/decode.sh "$room"
expect 'it says that this is a folder' says "decode: $room: this is a folder"
expect 'its status is 2' [ "$status" -eq 2 ]

# installation
touch "$room/before"
try make install DESTDIR="$room/a package" PREFIX='/a prefix'
expect 'it is done' [ "$status" -eq 0 ]
expect 'it writes nothing beside target/dist' [ -z "$(find target -maxdepth 1 -newer "$room/before")" ]
stage="$room/a package/a prefix"
for file in lib/libcart.a include/cart.h include/cart_plain.h; do
    expect "$file is there" cmp -s "target/dist/$file" "$stage/$file"
done
flags=$(PKG_CONFIG_PATH="$stage/lib/pkgconfig" pkg-config --cflags cart)
expect 'pkg-config gives the folder as a word of a shell' eval "[ $flags = '-I/a prefix/include' ]"
try make install DESTDIR="$room/plain"
expect 'without PREFIX it goes below /usr/local' [ -f "$room/plain/usr/local/lib/pkgconfig/cart.pc" ]
try env DESTDIR="$room/other" PREFIX='/an environment' make install
expect 'it takes PREFIX and DESTDIR from the environment' [ -f "$room/other/an environment/lib/pkgconfig/cart.pc" ]
expect 'all may read cart.pc' [ "$(stat -c %a "$room/other/an environment/lib/pkgconfig/cart.pc")" = 644 ]
try make install PREFIX='target/stage'
expect 'a relative PREFIX is below this folder' \
    grep -qxF "prefix=$(pwd -P | sed 's/ /\\ /g')/target/stage" target/stage/lib/pkgconfig/cart.pc

# every target is told of
try make help
targets=$(sed -n 's/^\.PHONY: //p' Makefile)
for target in $targets; do
    expect "it tells of $target" grep -q "^$target  *[A-Z]" "$room/out"
done
expect 'it tells of each something else' [ -z "$(cut -c 15- "$room/out" | sort | uniq -d)" ]

echo "$passed passed, $failed failed"
[ "$failed" -eq 0 ]
