#!/bin/sh
# tools/install.sh [host]: sees to what the comparison and the host programs need beside the Rattle kit: compilers of C
# and C++, make, pkg-config and python3; and a rustc that works, as tools/rustc.sh finds it, unless the word is host:
# the host programs and their tests need none. What is missing is installed from Debian's packages where this runs as
# root; else it says what to run, and fails. At the end it says which rustc is taken, or why there is none.
set -eu
unset CDPATH
cd "$(dirname "$0")/.."
case $#:${1:-} in
0:) rust=yes ;;
1:host) rust=no ;;
*) echo "usage: tools/install.sh [host]" >&2; exit 2 ;;
esac

# The packages that are missing, one a line.
missing() {
    command -v cc >/dev/null && command -v gcc >/dev/null || printf '%s\n' gcc libc6-dev
    for tool in g++ make pkg-config python3; do
        command -v $tool >/dev/null || echo $tool
    done
    [ $rust = yes ] || return 0
    # without a C compiler no rustc works, whichever is there; and no package makes another of RUSTC
    if command -v cc >/dev/null && [ -z "${RUSTC:-}" ] && ! tools/rustc.sh >/dev/null 2>&1; then
        # Debian 12's own rustc is too old; it has a newer one beside it under this name
        if apt-cache show rustc-web >/dev/null 2>&1; then echo rustc-web; else echo rustc; fi
    fi
}

fail() {
    echo "install: $*" >&2
    # which rustc would be taken, or why none
    [ $rust = no ] || tools/rustc.sh >/dev/null
    exit 1
}

install() { # PACKAGE..
    command -v apt-get >/dev/null || fail "missing, and here is no apt-get to install it: $*"
    [ "$(id -u)" -eq 0 ] || fail "packages are missing; as root, run: apt-get update && apt-get install $*"
    export DEBIAN_FRONTEND=noninteractive
    # the names of the packages are only known once the lists are here
    apt-get update -qq
    # shellcheck disable=SC2046
    apt-get install -y -qq --no-install-recommends $(missing)
}

outcome='nothing is missing'
# twice, since whether a rustc works shows once there is a C compiler
for _ in 1 2; do
    # shellcheck disable=SC2046
    set -- $(missing)
    [ $# -gt 0 ] || break
    install "$@"
    outcome='done'
done
still=$(missing | tr '\n' ' ')
[ -z "$still" ] || fail "still missing after the installation: $still"
[ $rust = no ] || outcome="$outcome, with $(tools/rustc.sh)"
echo "install: $outcome"
