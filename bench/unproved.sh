#!/usr/bin/env bash
# Builds the program in a few minutes without its proof, to measure a change before it is proved. What comes out is for measuring alone: it
# is not the program that the gate builds and tests, though by callgrind it takes as many instructions to some parts in a hundred.
#
# `rt try` lowers the whole program to one LLVM module with checks in it that stop it where its code would not be sound. It is taken here
# before it is compiled. The checks and what they need are left out, and the kit's own compiler makes the program of the rest.
# Hints on inlining have no effect there, so that a profile shows other functions than that of the program of the gate does.
# Usage: bench/unproved.sh PROGRAM    It needs python3. PROGRAM is then given to the other benches: PROGRAM=... bench/commits.sh
set -eu
cd "$(dirname "$0")/.."
case ${1:?usage: bench/unproved.sh PROGRAM} in /*) program=$1 ;; *) program=$OLDPWD/$1 ;; esac
kit=$(dirname "$(dirname "$(readlink -f "$(command -v rt)")")")
scratch=$(mktemp -d)
trap 'rm -rf "$scratch"' EXIT
(cd crates/recon && TMPDIR=$scratch setsid rt try -- check data/short.img < /dev/null > "$scratch/said" 2>&1) &
clang=$kit/toolchain/bin/clang
# The module is whole once it has the program's entry.
until
  sleep 0.5
  module=$(find "$scratch" -name module.bc | head -1)
  [ -n "$module" ] && cp "$module" "$scratch/checked.bc" 2> /dev/null &&
    "$clang" -x ir "$scratch/checked.bc" -S -emit-llvm -O0 -Xclang -disable-llvm-passes -o "$scratch/checked.ll" 2> /dev/null &&
    grep -q '^define .*@main(' "$scratch/checked.ll"
do
  if ! kill -0 $! 2> /dev/null; then
    cat "$scratch/said" >&2
    echo 'unproved.sh: rt try made no module of a program' >&2
    exit 1
  fi
done
pkill -KILL -f -- "$scratch/" || true
python3 - "$scratch/checked.ll" "$scratch/plain.ll" <<'PYTHON'
import re
import sys

LEFT_OUT = ('call void @llvm.trap()', 'call void @"rattle-llvm-checks::Unreachable"')
ATTRIBUTES = re.compile(r' ?(sanitize_address|"frame-pointer"="all"|"probe-stack"="inline-asm"|"stack-probe-size"="3072")')
with open(sys.argv[1]) as checked, open(sys.argv[2], 'w') as plain:
    for line in checked:
        # A block that stops the program is never come to in sound code, and a local is not filled with a sign of its own.
        if any(call in line for call in LEFT_OUT) or ('llvm.memset' in line and 'i8 -86' in line and 'call' in line):
            continue
        if line.startswith('attributes #'):
            line = ATTRIBUTES.sub('', line).replace('{ }', '{ nounwind }')
        plain.write(line)
PYTHON
"$clang" -O3 -c "$scratch/plain.ll" -o "$scratch/plain.o"
"$kit/bin/rattle-link" --target x86_64-unknown-linux-gnu --toolchain "$kit/toolchain" -o "$program" "$scratch/plain.o" "$kit/c/liblibc_c.a" "$kit/c/libos_c.a"
