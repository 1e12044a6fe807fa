#!/bin/sh
# host/warned.sh COMPILER..: what a compiler warns of over the headers that ship (make lib): a result that is not looked at, where a
# call can be refused, and NULL where it may not be. Of right calls it warns of nothing. One of each kind will do here: that the
# header marks every function as the code is, tools/face holds. The last line is 'N passed, M failed', and the exit status is 0
# only where M is 0.
set -u
[ $# -gt 0 ] || { echo "usage: host/warned.sh COMPILER.." >&2; exit 2; }
unset CDPATH
cd "$(dirname "$0")/.." || exit 1
room=$(mktemp -d) || exit 1
trap 'rm -rf "$room"' EXIT
passed=0 failed=0

# A statement, and the warning that it must be refused for; - where it is right.
while IFS='|' read -r statement warning; do
    cat >"$room/one.c" <<END
#include <cart_plain.h>
void one(uint8_t *b, uint8_t *l, uint8_t *c, uint64_t *n, uint32_t *r, struct cart_shape h, struct cart_payloads p);
void one(uint8_t *b, uint8_t *l, uint8_t *c, uint64_t *n, uint32_t *r, struct cart_shape h, struct cart_payloads p)
{
    (void)b, (void)l, (void)c, (void)n, (void)r, (void)h, (void)p;
    $statement
}
END
    if "$@" -Wall -Wextra -Wpedantic -Werror -Itarget/dist/include -c -o "$room/one.o" "$room/one.c" >"$room/said" 2>&1; then
        said=-
    else
        # -Werror=NAME, or -Werror,-WNAME
        said=$(sed -n 's/.*\[-Werror[=,]\(-W\)\{0,1\}\([a-z-]*\)\]$/\2/p' "$room/said" | sort -u | tr '\n' ' ')
        said=${said% }
    fi
    if [ "$said" = "$warning" ]; then
        passed=$((passed + 1))
        continue
    fi
    failed=$((failed + 1))
    echo "FAILED: must be refused for '$warning' and not for '$said' (- is not at all): $statement"
    cat "$room/said"
done <<'EOF_CASES'
*r = cart_encode(1, b, 9, b, 9, n, n + 1);|-
cart_encode(1, b, 9, b, 9, n, n + 1);|unused-result
*r = cart_encode(1, b, 9, b, 9, NULL, n + 1);|nonnull
*r = cart_encode(1, b, 9, b, 9, n, NULL);|nonnull
*r = cart_encode(0, NULL, 0, NULL, 0, n, n + 1);|-
*r = cart_decode_slice(1, 2, 0, NULL, 0, NULL, 0, NULL, 0, NULL, 0, n, n + 1, n + 2, n + 3);|-
cart_decode_slice(1, 2, 0, b, 9, b, 9, b, 9, b, 9, n, n + 1, n + 2, n + 3);|unused-result
*r = cart_decode_slice(1, 2, 0, b, 9, b, 9, b, 9, b, 9, NULL, n + 1, n + 2, n + 3);|nonnull
cart_matrix_flags(l, c, n, n + 1, n + 2);|-
cart_matrix_flags(l, NULL, n, n + 1, n + 2);|nonnull
cart_matrix_flags(l, c, n, n + 1, NULL);|nonnull
cart_blend(1, l, c);|unused-result
*r = cart_blend(1, NULL, c);|nonnull
*r = cart_read_slice(h, p, NULL, 0).refusal;|-
cart_read_slice(h, p, b, 9);|unused-result
*r = cart_write_slice(h, NULL, 0, NULL, 0).refusal;|-
cart_write_slice(h, b, 9, b, 9);|unused-result
EOF_CASES

echo "$passed passed, $failed failed"
[ "$failed" -eq 0 ]
