#!/usr/bin/env bash
# Makes a small image and a workload of 20 commits on it, checks the image, and replays the workload over it: every
# commit passes. Usage: examples/replay.sh [FOLDER], where the image and the trace are to lie
# (a new one by default).
set -eu
cd "$(dirname "$0")/.."
folder=${1:-$(mktemp -d)}
program=$PWD/crates/recon/out/recon
[ -x "$program" ] || (cd crates/recon && rt run -- --help < /dev/null > /dev/null 2>&1) || true
cd "$folder"
say() { # COMMAND: says it and runs it
    echo "$1" >&2
    local status=0
    eval "${1/#recon/\"$program\"}" || status=$?
    echo "status $status" >&2
}
truncate -s 32M small.img
say 'recon make 7 20 small.img > small.trace'
say 'recon check small.img'
say 'recon replay small.img < small.trace'
