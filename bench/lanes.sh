#!/usr/bin/env bash
# Times blocks side by side, in one run: the sums of eight blocks at a time beside one at a time, and the comparison of equal blocks beside
# memcmp of C at -O2, also where that is held to vectors of 16 bytes, as the program is (by GLIBC_TUNABLES). Blocks have 16384 bytes. User
# time, the least of five runs of each in turns, without that for making the blocks.
# Prints GB/s (10^9 bytes a second) and the ratios. COUNT blocks are summed ROUNDS times and compared twenty times as often: 16 blocks stay in
# the caches, 16384 do not. Usage: bench/lanes.sh [COUNT [ROUNDS]]. It wants gcc.
set -euo pipefail
top=$(cd "$(dirname "$0")/.." && pwd)
count=${1:-16}
rounds=${2:-20000}
work=$(mktemp -d)
trap 'rm -rf "$work"' EXIT
(cd "$top/crates/benches" && rt run > /dev/null 2>&1) || true

cat > "$work/compare.c" <<'C'
#include <stdio.h>
#include <stdlib.h>
#include <string.h>

int main(int words, char **word) {
    size_t size = 16384, count = words > 1 ? strtoull(word[1], 0, 10) : 0, rounds = words > 2 ? strtoull(word[2], 0, 10) : 0;
    unsigned char *blocks = malloc(size * count + 1);
    int (*volatile compare)(const void *, const void *, size_t) = memcmp;
    unsigned long long equal = 0;
    for (size_t i = 0; i < size * count; i++) blocks[i] = i % size % 251;
    for (size_t round = 0; round < rounds; round++)
        for (size_t k = 0; k < count; k++) equal += compare(blocks, blocks + k * size, size) == 0;
    printf("%llu\n", equal);
}
C
gcc -O2 -o "$work/compare" "$work/compare.c"
python3 - "$top/crates/benches/out/benches" "$work/compare" "$count" "$rounds" <<'PYTHON'
import os
import subprocess
import sys

benches, compare, count, rounds = sys.argv[1:]


def once(command, turns):
    child = subprocess.Popen([*command, count, str(turns)], stdout=subprocess.PIPE)
    told = child.stdout.read().split()
    return os.wait4(child.pid, 0)[2].ru_utime, told


sides = {'eight': ([benches, 'lanes', 'eight'], 1), 'single': ([benches, 'lanes', 'single'], 1),
         'equal': ([benches, 'lanes', 'equal'], 20), 'memcmp': ([compare], 20),
         'held': (['env', 'GLIBC_TUNABLES=glibc.cpu.hwcaps=-AVX2,-AVX2_Usable,-AVX512VL,-EVEX', compare], 20)}
least, making, said = {}, {}, {}
for _ in range(5):
    for side, (command, times) in sides.items():
        (used, said[side]), (made, _) = once(command, times * int(rounds)), once(command, 0)
        least[side] = min(least.get(side, used), used)
        making[side] = min(making.get(side, made), made)
if said['eight'] != said['single'] or not said['equal'] == said['memcmp'] == said['held']:
    sys.exit(f'lanes.sh: the two sides did not do the same: {said}')
speed = {side: 16384 * int(count) * int(rounds) * sides[side][1] / 1e9 / (least[side] - making[side]) for side in sides}
print(f'sums: eight at a time {speed["eight"]:.2f} GB/s, one at a time {speed["single"]:.2f}: {speed["eight"] / speed["single"]:.2f} times')
for side, name in ('memcmp', 'memcmp'), ('held', 'memcmp held to 16 bytes'):
    print(f'equal blocks: {speed["equal"]:.1f} GB/s, {name} {speed[side]:.1f}: {speed["equal"] / speed[side]:.2f} times')
PYTHON
