#!/usr/bin/env bash
# Sees to the Debian packages that the steps of .ci/run want beside python3: a bridge to NBD with its client, qemu's log of
# writes, and a C compiler. What is missing is installed where it may be, which is as root and with apt-get. Where it may not be,
# or cannot be fetched, this names the packages and ends with 1. With RECON_WITHOUT_PACKAGES=1 it says so and ends with 0, and
# the steps that want them say that they are left out.
#
# Usage: tests/packages.sh
set -eu
said=$(mktemp)
trap 'rm -f "$said"' EXIT

has_nbd() {
    for python in python3 /usr/bin/python3; do
        "$python" -c 'import nbd' > "$said" 2>&1 && return 0
    done
    return 1
}
has_compiler() { printf '#include <stdlib.h>\n' | cc -E -x c - > "$said" 2>&1; }
missing() {
    command -v nbdkit > "$said" || printf ' nbdkit'
    nbdkit python --dump-plugin > "$said" 2>&1 || printf ' nbdkit-plugin-python'
    has_nbd || printf ' python3-libnbd'
    command -v qemu-io > "$said" || printf ' qemu-utils'
    has_compiler || printf ' gcc libc6-dev'
}
# A mirror that does not answer is given up after some seconds, and all of it after some minutes.
fetch() {
    DEBIAN_FRONTEND=noninteractive timeout "$1" apt-get -q -o Acquire::Retries=1 -o Acquire::http::Timeout=20 "${@:2}" < /dev/null > "$said" 2>&1
}

packages=$(missing)
[ -n "$packages" ] || exit 0
why='they can be installed by root with apt-get alone'
if [ "$(id -u)" = 0 ] && command -v apt-get > "$said"; then
    echo "packages:$packages: are installed"
    # The lists may be old, or not there at all; where they cannot be fetched the ones at hand may still do.
    fetch 120 update || echo 'packages: apt-get update failed'
    # shellcheck disable=SC2086
    fetch 300 install -y --no-install-recommends $packages || why="apt-get install failed: $(grep -E '^(E|W|Err)' "$said" | tail -n 1)"
    packages=$(missing)
    [ -n "$packages" ] || exit 0
fi
echo "packages: NOT THERE:$packages; $why" >&2
[ -z "${RECON_WITHOUT_PACKAGES:-}" ] || { echo 'packages: RECON_WITHOUT_PACKAGES is set, so what wants them is left out' >&2; exit 0; }
echo 'packages: install them, or set RECON_WITHOUT_PACKAGES=1 to leave out what wants them' >&2
exit 1
