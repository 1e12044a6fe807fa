#!/bin/sh
# tools/run.sh PROGRAM WORDS..: runs a program that rt built. It is for x86-64; on another machine qemu-x86_64 runs it, over the
# kit's C library.
set -eu
machine=$(uname -m)
[ "$machine" != x86_64 ] || exec "$@"
command -v qemu-x86_64 >/dev/null || {
    echo "run: $1 is for x86-64, and qemu-x86_64, which would run it on $machine, is not on the PATH" >&2
    exit 127
}
library=$(dirname "$(rt doc)")/toolchain/lib
exec qemu-x86_64 "$library/ld-linux-x86-64.so.2" --library-path "$library" "$@"
