#!/bin/sh
# host/damage.sh [PROGRAM]: tries the program damage (target/host/damage), and holds docs/HANDBOOK.md to it: the
# handbook has its two commands, and below each the line that the program prints now. The real slices are in
# ../shared/vectors, or where MUONSATREY_VECTORS says. The last line is 'N passed, M failed', and the exit status is 0
# only where M is 0.
set -u
unset CDPATH
cd "$(dirname "$0")/.." || exit 1
program=${1:-target/host/damage}
vectors=${MUONSATREY_VECTORS:-../shared/vectors}/real-slices.jsonl
slices=target/host/real.slices
room=$(mktemp -d) || exit 1
trap 'rm -rf "$room"' EXIT
passed=0 failed=0

expect() { # TEST WORDS..
    if "$@"; then
        passed=$((passed + 1))
    else
        failed=$((failed + 1))
        echo "FAILED: $*"
    fi
}

packed() {
    [ -f "$vectors" ] || { echo "there is no $vectors; name another folder with MUONSATREY_VECTORS"; return 1; }
    host/pack.py "$vectors" $slices
}

# The handbook has this command, and below it what it prints.
in_handbook() { # WORDS..
    said=$("$program" "$@") || return 1
    echo "$said"
    sed 's/^ *//' docs/HANDBOOK.md | grep -A 1 -xF "\$ damage $*" | grep -qxF "$said"
}

# So that none of its commands is left untried.
commands_in_handbook() { # NUMBER
    [ "$(grep -c '^ *\$ damage ' docs/HANDBOOK.md)" -eq "$1" ]
}

prints() { # LINE WORDS..
    line=$1
    shift
    said=$("$program" "$@") || return 1
    [ "$said" = "$line" ] || { echo "$said"; return 1; }
}

ends_with_2() { # WORDS..
    "$program" "$@" >"$room/said" 2>&1
    [ $? -eq 2 ] || { cat "$room/said"; return 1; }
}

# A file of one slice without alpha, of which the payloads are still to come. All numbers are below 256.
slice() { # MACROBLOCKS CHROMA SCAN Y-BYTES CB-BYTES CR-BYTES
    printf 'slices1\n'
    for number in 1 "$1" "$2" "$3" 0 0 "$4" "$5" "$6" 0; do
        # shellcheck disable=SC2059 # the format is the number
        printf "\\$(printf %o "$number")\\0\\0\\0"
    done
}

expect packed
expect in_handbook bits $slices 16
expect in_handbook shapes $slices
expect commands_in_handbook 2

# The slice of the handbook's rule on shapes: `look` reads it in one other shape, with other counts, and refuses it in
# the fourteen that are left.
{
    slice 1 3 1 3 3 3
    printf '\013\002\060\012\002\060\007\037\214'
} >"$room/shown"
expect prints '15 shapes: 14 refused, 1 read; of these 0 seen by the bits left over, 1 by the right count' shapes "$room/shown"

# Of all ones a block list takes 6 bits for the first DC, 4 for each further one and 3 for each other coefficient, so B
# blocks take 193 B + 2. These are two macroblocks of 4:2:2, with 6, 2 and 2 bits left. One macroblock of either format
# leaves half of Y over; in every other shape the bits end within an element.
{
    slice 2 2 0 194 97 97
    head -c 388 /dev/zero | tr '\0' '\377'
} >"$room/ones"
expect prints '15 shapes: 13 refused, 2 read; of these 2 seen by the bits left over, 2 by the right count' shapes "$room/ones"

slice 1 2 0 0 0 0 >"$room/refused"
expect ends_with_2 shapes "$room/refused"
expect ends_with_2 bits "$room/refused" 1
expect ends_with_2 shapes README.md
expect ends_with_2 bits "$room/ones"
expect ends_with_2 bits "$room/ones" 0
expect ends_with_2 bits "$room/ones" 1x
expect ends_with_2

echo "$passed passed, $failed failed"
[ "$failed" -eq 0 ]
