#!/bin/sh
# tools/rustc.sh: prints the path of a rustc that works here: it compiles and links a program with div_ceil, which the
# given Rust uses, and the program runs. RUSTC decides, if it is set. Else each rustc on the PATH is tried, then those
# in the places of Debian's packages, then rustup's own, so that a shim in somebody's home that has nothing behind it,
# or a rustc that is too old, does not stand in the way of a good one.
#
# On standard error it says which one it took; where none works, why each does not, and it fails. The answer is kept in
# target/rustc, and holds while that is the same file and tells the same version. That file is as old as the choice.
set -u
# with CDPATH, cd may print, and what is printed here is the answer
unset CDPATH
cd "$(dirname "$0")/.." || exit 1
kept=target/rustc
room=target/rustc.try.$$
trap 'rm -rf "$room"' EXIT

# Every rustc that there is, a line each. Links to one file are one, and the first of them stands for it.
all() {
    {
        (IFS=: && set -f && for folder in $PATH; do echo "${folder:-.}/rustc"; done)
        rustup=${RUSTUP_HOME:-${HOME:-}/.rustup}/toolchains
        printf '%s\n' /usr/bin/rustc /usr/bin/rustc-* /usr/local/bin/rustc /usr/lib/rust-*/bin/rustc \
            "$rustup"/stable*/bin/rustc "$rustup"/*/bin/rustc
    } | while IFS= read -r path; do
        if [ -f "$path" ] && [ -x "$path" ]; then printf '%s\t%s\n' "$(readlink -f "$path")" "$path"; fi
    done | awk -F '\t' '!seen[$1]++ { print $2 }'
}

# A shim may try to fetch what is not there, and for long.
works() { # RUSTC
    echo 'fn main() { std::process::exit(std::env::args().count().div_ceil(2) as i32 - 1) }' >"$room/try.rs" &&
        timeout 60 "$1" --edition 2021 -o "$room/try" "$room/try.rs" || return
    "$room/try" || { echo "what it compiles does not run"; return 1; }
}

# What a rustc is known again by: its place, its file, its version, and whether it was asked for.
known() { # RUSTC
    echo "$1"
    stat -L -c '%d %i %s %Y' "$1"
    timeout 60 "$1" --version
    echo "${RUSTC:+asked for}"
}

take() { # RUSTC
    echo "rustc: $1, $(sed -n 3p "$kept")" >&2
    echo "$1"
    exit
}

asked=
if [ -n "${RUSTC:-}" ]; then
    asked=$(command -v "$RUSTC") || { echo "rustc: RUSTC is $RUSTC, and there is no such program" >&2; exit 1; }
fi
if [ -f "$kept" ]; then
    path=$(sed -n 1p "$kept")
    if [ "${asked:-$path}" = "$path" ] && known "$path" 2>/dev/null </dev/null | cmp -s - "$kept"; then take "$path"; fi
fi

mkdir -p "$room" || exit 1
if [ -n "$asked" ]; then echo "$asked"; else all; fi >"$room/all"
while IFS= read -r path; do
    if works "$path" >"$room/said" 2>&1 </dev/null; then
        known "$path" >"$room/known" 2>/dev/null </dev/null
        mv "$room/known" "$kept"
        take "$path"
    fi
    echo "rustc:   $path: $(grep -m 1 . "$room/said" || echo "it fails, and does not say why")" >>"$room/why"
done <"$room/all"
{
    if [ -n "$asked" ]; then
        echo "rustc: RUSTC is $RUSTC, which does not work:"
    elif [ -s "$room/all" ]; then
        echo "rustc: none works here:"
    else
        echo "rustc: there is none, neither on the PATH nor in the usual places"
    fi
    cat "$room/why" 2>/dev/null
} >&2
exit 1
