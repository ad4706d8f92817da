#!/bin/bash
# Times crc32c beside the same loop in C at -O2, in one run: by one table of 256 entries, and by eight
# tables. Takes user time, the least of five runs. Prints the speed of each in MB/s (10^6 bytes a second) and the
# ratios. Usage: bench/crc.sh [MIB] [ROUNDS]
set -euo pipefail
top=$(cd "$(dirname "$0")/.." && pwd)
bytes=$((${1:-64} * 1048576))
rounds=${2:-160}
work=$(mktemp -d)
trap 'rm -rf "$work"' EXIT

cat >"$work/crc.c" <<'C'
#include <stdint.h>
#include <stdio.h>
#include <stdlib.h>
#include <string.h>

static uint32_t table[8][256];

static void fill(void) {
    for (uint32_t i = 0; i < 256; i++) {
        uint32_t x = i;
        for (int step = 0; step < 8; step++) x = x & 1 ? x >> 1 ^ 0x82F63B78 : x >> 1;
        table[0][i] = x;
    }
    for (int k = 1; k < 8; k++)
        for (int i = 0; i < 256; i++)
            table[k][i] = table[k - 1][i] >> 8 ^ table[0][table[k - 1][i] & 255];
}

static uint32_t by_byte(uint32_t r, const uint8_t *s, size_t n) {
    for (size_t i = 0; i < n; i++) r = r >> 8 ^ table[0][(r ^ s[i]) & 255];
    return r;
}

static uint32_t by_eight(uint32_t r, const uint8_t *s, size_t n) {
    for (; n >= 8; s += 8, n -= 8) {
        uint32_t low, high;
        memcpy(&low, s, 4);
        memcpy(&high, s + 4, 4);
        low ^= r;
        r = table[7][low & 255] ^ table[6][low >> 8 & 255] ^ table[5][low >> 16 & 255] ^ table[4][low >> 24]
            ^ table[3][high & 255] ^ table[2][high >> 8 & 255] ^ table[1][high >> 16 & 255] ^ table[0][high >> 24];
    }
    return by_byte(r, s, n);
}

int main(int count, char **words) {
    if (count < 4) return 2;
    size_t bytes = strtoull(words[2], 0, 10), rounds = strtoull(words[3], 0, 10);
    uint32_t (*loop)(uint32_t, const uint8_t *, size_t) = words[1][0] == '1' ? by_byte : by_eight;
    uint8_t *data = malloc(bytes + 1);
    uint32_t sums = 0;
    fill();
    for (size_t i = 0; i < bytes; i++) data[i] = i % 251;
    for (size_t round = 0; round < rounds; round++) {
        if (bytes) data[0] = round % 256;
        sums ^= ~loop(0xFFFFFFFF, data, bytes);
    }
    printf("%08x\n", sums);
    return 0;
}
C

compiler=${CC:-cc}
"$compiler" -O2 -o "$work/crc" "$work/crc.c"
(cd "$top/crates/benches" && rt run >"$work/build.log" 2>&1) || { tail -20 "$work/build.log"; exit 1; }
proved=$work/proved
printf '#!/bin/sh\nexec "%s" sums "$@"\n' "$top/crates/benches/out/benches" >"$proved"
chmod +x "$proved"

# user milliseconds of a program, the least of five runs
least() {
    python3 - "$work/answer" "$@" <<'PYTHON'
import os, subprocess, sys
times = []
for _ in range(5):
    with open(sys.argv[1], 'wb') as out:
        child = subprocess.Popen(sys.argv[2:], stdout=out)
        times.append(os.wait4(child.pid, 0)[2].ru_utime)
print(int(min(times) * 1000))
PYTHON
}

# MB/s of a program at `bytes` and `rounds`: the least of its runs, less the least of runs that only start and fill
speed() {
    local whole empty
    empty=$(least "$@" "$bytes" 0)
    whole=$(least "$@" "$bytes" "$rounds")
    if ((whole - empty < 1000)); then
        echo "too few rounds: only $((whole - empty)) ms of work; give more ROUNDS" >&2
        exit 1
    fi
    echo $((bytes * rounds / 1000 / (whole - empty)))
}

wanted=$("$work/crc" 1 "$bytes" "$rounds")
for answer in "$("$work/crc" 8 "$bytes" "$rounds")" "$("$proved" "$bytes" "$rounds")"; do
    [ "$answer" = "$wanted" ] || { echo "answers differ: $answer, wanted $wanted"; exit 1; }
done

one=$(speed "$work/crc" 1)
eight=$(speed "$work/crc" 8)
ours=$(speed "$proved")
echo "C by one table:    $one MB/s"
echo "C by eight tables: $eight MB/s"
echo "crc32c:            $ours MB/s"
awk -v a="$ours" -v b="$one" -v c="$eight" 'BEGIN {
    printf "crc32c over C by one table:    %.2f\n", a / b
    printf "crc32c over C by eight tables: %.2f\n", a / c
}'
