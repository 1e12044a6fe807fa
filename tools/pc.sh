#!/bin/sh
# tools/pc.sh [PREFIX]: prints the file for pkg-config of a library that stands under PREFIX; with no word, of one that is found
# from where that file stands. Its version is that of include/cart.h.
set -eu
[ $# -le 1 ] || { echo "usage: tools/pc.sh [PREFIX]" >&2; exit 2; }
unset CDPATH
cd "$(dirname "$0")/.."
version=
for part in MAJOR MINOR PATCH; do
    version=$version.$(sed -n "s/^#define CART_VERSION_$part \([0-9][0-9]*\).*/\1/p" include/cart.h)
done
# such a file has a backslash before what it would not take as it is; not $$ for $, which pkgconf 1.8 takes for two of them
if [ $# -eq 1 ]; then
    prefix=$(printf '%s\n' "$1" | sed 's/[ '\''"\\#${]/\\&/g')
else
    # shellcheck disable=SC2016 # a variable of that file
    prefix='${pcfiledir}/../..'
fi
# and sed wants one before what it would not put in as it is
prefix=$(printf '%s\n' "$prefix" | sed 's/[\\&|]/\\&/g')
sed -e "s|@PREFIX@|$prefix|" -e "s|@VERSION@|${version#.}|" include/cart.pc.in
