#!/bin/sh
# host/install.sh: tries make install, with DESTDIR and with PREFIX, also with spaces and quotes in them, and target/dist as it
# is and moved: which files there are, what cart.pc says, and a program that is built by way of it. And that the archive has
# the header's functions and no others, and needs memcpy and memset and nothing else. The last line is 'N passed, M failed',
# and the exit status is 0 only where M is 0.
set -u
unset CDPATH DESTDIR PKG_CONFIG_SYSROOT_DIR PKG_CONFIG_LIBDIR
cd "$(dirname "$0")/.." || exit 1
room=$(mktemp -d) || exit 1
trap 'rm -rf "$room"' EXIT
passed=0 failed=0

expect() { # WHAT COMMAND..
    what=$1
    shift
    if "$@" >"$room/out" 2>&1; then
        passed=$((passed + 1))
    else
        failed=$((failed + 1))
        echo "FAILED: $what"
        cat "$room/out"
    fi
}

same() { # IS MUST
    [ "$1" = "$2" ] || { printf 'is\n%s\nand must be\n%s\n' "$1" "$2"; return 1; }
}

# These files and no others, as they are in the repository and in target/dist.
files() { # FOLDER
    same "$(cd "$1" && find . ! -type d | LC_ALL=C sort)" './include/cart.h
./include/cart_plain.h
./lib/libcart.a
./lib/pkgconfig/cart.pc' &&
        cmp include/cart.h "$1/include/cart.h" && cmp include/cart_plain.h "$1/include/cart_plain.h" &&
        cmp target/dist/lib/libcart.a "$1/lib/libcart.a"
}

cat >"$room/program.c" <<'END'
#include <cart.h>
#include <cart_plain.h>
#include <stdio.h>
int main(void)
{
    uint64_t scale = 0;
    uint32_t refusal = cart_qscale(255, &scale);
    return printf("%s %d.%d.%d %s %d\n", CART_VERSION_STRING, CART_VERSION_MAJOR, CART_VERSION_MINOR, CART_VERSION_PATCH,
                  cart_refusal_name(refusal), (int)scale) < 0;
}
END

# Builds the program by way of FOLDER/lib/pkgconfig/cart.pc and runs it: it prints the header's version twice, which must be
# cart.pc's, and a result.
program() { # FOLDER
    PKG_CONFIG_PATH=$1/lib/pkgconfig
    export PKG_CONFIG_PATH
    words=$(pkg-config --cflags --libs cart) && version=$(pkg-config --modversion cart) || return 1
    # the words have a backslash before a space, for a shell
    eval "${CC:-cc} -o \"\$room/program\" \"\$room/program.c\" $words" && same "$("$room/program")" "$version $version done 636"
}

# cart.pc names PREFIX, and nothing of DESTDIR.
names_prefix() { # FOLDER PREFIX
    words=$(PKG_CONFIG_PATH=$1/lib/pkgconfig pkg-config --cflags --libs cart) || return 1
    must="-I$2/include -L$2/lib -lcart"
    eval "set -- $words"
    same "$*" "$must" && same $# 3
}

symbols() { # WHICH..
    nm -g "$@" target/dist/lib/libcart.a | sed -n 's/^[0-9a-f ]* [A-Z] \(.*\)/\1/p' | LC_ALL=C sort
}

prototypes() {
    sed -n 's/^.*uint32_t \(cart_[a-z_]*\)(.*/\1/p' include/cart.h | LC_ALL=C sort
}

expect 'make lib' make lib
expect 'target/dist has these files' files target/dist
expect 'a program by way of target/dist' program "$PWD/target/dist"
mkdir "$room/a moved"
cp -R target/dist "$room/a moved/dist"
expect 'a program by way of target/dist, moved to a folder with a space' program "$room/a moved/dist"

for prefix in "$room/prefix" "$room/a prefix with spaces"; do
    expect "make install PREFIX='$prefix'" make install DESTDIR= PREFIX="$prefix"
    expect "below '$prefix' are these files" files "$prefix"
    expect "a program by way of '$prefix'" program "$prefix"
done

for below in "$room/below" "$room/a folder below"; do
    for prefix in /opt/cart '/opt/a cart'; do
        expect "make install DESTDIR='$below' PREFIX='$prefix'" make install DESTDIR="$below" PREFIX="$prefix"
        expect "below '$below$prefix' are these files" files "$below$prefix"
        expect "cart.pc below '$below' names '$prefix'" names_prefix "$below$prefix" "$prefix"
    done
done

# what has a meaning in cart.pc or in a shell; to make, $ is $$
prefix="$room/it's \"one\" \\ #2 \${pcfiledir}"
expect "make install PREFIX='$prefix'" make install DESTDIR= PREFIX="$room/it's \"one\" \\ #2 \$\${pcfiledir}"
expect "below '$prefix' are these files" files "$prefix"
expect "a program by way of '$prefix'" program "$prefix"
# pkgconf 1.8 prints a $ as it is, so a shell must not read these words a second time
prefix="$room/a\$b"
expect "make install PREFIX='$prefix'" make install DESTDIR= PREFIX="$room/a\$\$b"
words=$(PKG_CONFIG_PATH=$prefix/lib/pkgconfig pkg-config --cflags --libs cart | sed 's/ *$//')
expect "cart.pc names '$prefix'" same "$words" "-I$prefix/include -L$prefix/lib -lcart"

expect 'the archive has the functions of the header and no others' same "$(symbols --defined-only)" "$(prototypes)"
expect 'the archive needs memcpy and memset and nothing else' same "$(symbols -u)" 'memcpy
memset'

echo "$passed passed, $failed failed"
[ "$failed" -eq 0 ]
