#!/bin/sh
# host/replay/test.sh PROGRAM: tries the program replay itself. Its parser gets lines for which the stored cases leave a
# hole, and its comparison gets files that it must not pass. The last line is 'N passed, M failed', and the exit status
# is 0 only where M is 0.
set -u
[ $# -eq 1 ] || { echo "usage: host/replay/test.sh PROGRAM" >&2; exit 2; }
program=$1
room=$(mktemp -d) || exit 1
trap 'rm -rf "$room"' EXIT
passed=0 failed=0

# Runs the program on the texts in the room: its last line must be this count, and its exit status 0 only where nothing
# failed.
expect() { # PASSED FAILED
    "$program" "$room/cases" "$room/answers" >"$room/said"
    status=$?
    if [ "$(tail -n 1 "$room/said")" = "$1 passed, $2 failed" ] && [ $((status > 0)) -eq $(($2 > 0)) ]; then
        passed=$((passed + 1))
        return
    fi
    failed=$((failed + 1))
    echo "FAILED: must be $1 passed, $2 failed, with an exit status to match, and not $status with these lines:"
    cat "$room/said"
    echo "    of the cases"
    head -n 3 "$room/cases" | cut -c 1-100
}

# A line and its answer; \r and the like are written out. Beside what is refused stands what is not, so that it is
# refused for this and for nothing else.
while IFS='|' read -r line answer; do
    case $line in '##'*) continue ;; esac
    printf '%b\n' "$line" >>"$room/cases"
    echo "$answer" >>"$room/answers"
done <<'EOF'
## a number: digits alone, below 2^64
e 18446744073709551615 80|1
e 18446744073709551616 80|bad line
e 18446744073709551620 80|bad line
e 99999999999999999999 80|bad line
e 36893488147419103232 80|bad line
e 0000000000000000000000000 80|0
e +0 80|bad line
e 0x0 80|bad line
e a 80|bad line
e 0.0 80|bad line
r 0 4294967296 80|refused 6
z 0 4294967296 00|refused 5
p 0 4294967296 1 00|refused 1
## HEX: pairs of small digits, or - alone
e 0 00|1
e 0 0|bad line
e 0 000|bad line
e 0 0-|bad line
e 0 -|1
e 0 -0|bad line
e 0 -00|bad line
e 0 af|0
e 0 aF|bad line
e 0 Af|bad line
e 0 g0|bad line
e 0 0g|bad line
e 0 a`|bad line
e 0 /0|bad line
e 0 :0|bad line
## words: all of them, one space before each, and nothing behind the last
e 0 80|0
e 0 |bad line
e 0|bad line
e |bad line
e|bad line
e 00|bad line
e 0  80|bad line
e 0 80 |bad line
e 0 80 80|bad line
e 0 80\r|bad line
e 0 80\0000|bad line
e\t0 80|bad line
e0 80|bad line
 e 0 80|bad line
ee 0 80|bad line
\0000 0 80|bad line
\0345 0 80|bad line
q 128|128
q 128 |bad line
q  128|bad line
w 6 0|refused 13
w 6 0 |bad line
## entries: each place above the last and in the list, each value one of 32 bits
c 1 64 1|1 6 80
c 1 64 1 |bad line
c 1 64 1 0:1|1 6 88
c 1 64 1 0:-1|1 6 84
c 1 64 1 00:-01|1 6 84
c 1 64 1 0:-0|1 6 80
c 1 64 1 0:1 |bad line
c 1 64 1  0:1|bad line
c 1 64 1 0:1  1:1|bad line
c 1 64 1 0:1 1:1 1|bad line
c 1 64 1 0: 1|bad line
c 1 64 1 0 :1|bad line
c 1 64 1 0:+1|bad line
c 1 64 1 0:--1|bad line
c 1 64 1 0:1:1|bad line
c 1 64 1 0:1,1:1|bad line
c 1 64 1 0:2147483647|refused 4 kept
c 1 64 1 0:-2147483648|refused 4 kept
c 1 64 1 0:18446744073709551617|bad line
c 1 64 1 18446744073709551615:1|bad line
c 1 64 1 18446744073709551616:1|bad line
h 1 16385 0 16384:0|refused 1 kept
h 1 16385 0 16385:0|bad line
## sizes: the largest that the program has room for
c 1 64 4096 0:536870912|refused 4 kept
c 1 64 4097 0:536870912|bad line
d 33 2112 -|refused 1 kept
d 33 2113 -|bad line
u 9 3 0 6912 0 0 -|refused 1 kept
u 9 3 0 6913 0 0 -|bad line
a 1 16385 0 -|refused 1 kept
a 1 16386 0 -|bad line
a 1 1 65537 -|refused 1 kept
a 1 1 65538 -|bad line
EOF
# the longest line, and two that are longer
zeros=$(head -c 65532 /dev/zero | tr '\0' 0)
printf 'e 0 %s\ne 00 %s\ne 0 %s00\n' "$zeros" "$zeros" "$zeros" >>"$room/cases"
printf '1\nbad line\nbad line\n' >>"$room/answers"
expect "$(wc -l <"$room/answers")" 0

# Cases and their answers as texts, and how many pass and fail.
while IFS='|' read -r cases answers count; do
    case $cases in '##'*) continue ;; esac
    printf '%b' "$cases" >"$room/cases"
    printf '%b' "$answers" >"$room/answers"
    expect "${count% *}" "${count#* }"
done <<'EOF'
e 0 80\ne 8 80\n|0\n1\n|2 0
e 0 80\n\nx\n|0\nbad line\nbad line\n|3 0
## another answer: another number, a space more, a word less, nothing, one that is cut short
e 0 80\ne 8 80\n|0\n0\n|1 1
e 0 80\n|0 \n|0 1
r 0 1 80\n|1\n|0 1
e 0 80\n|\n|0 1
x 0 80\n|bad lin\n|0 1
## what cannot be replayed: a letter, a list, a buffer, a line that is cut short or has another end
x 0 80\n|0\n|0 1
d 33 2113 80\n|refused 1 kept\n|0 1
c 1 64 4097 0:536870912\n|refused 4 kept\n|0 1
c 1 64 1 0:\n|1 6 88\n|0 1
e 0 80\r\n|0\n|0 1
## lines that are missing, or have no end
e 0 80\ne 8 80\n|0\n|1 1
e 0 80\n|0\n1\n|1 1
e 0 80\n|0\nbad line\n|1 1
e 0 80\ne 8 80\ne 0 80\n|0\n0\n|1 2
e 0 80|0\n|0 1
e 0 80\n|0|0 1
e 0 80\n||0 1
|0\n|0 1
||0 1
EOF

echo "$passed passed, $failed failed"
[ "$failed" -eq 0 ]
