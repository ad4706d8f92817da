#!/usr/bin/env bash
# Measures what a commit costs beside the size of the volume, and what the index costs, by processor time, user and system (the least of
# nine runs of each in turns; where the system counts by ticks, their sum is right and their parts are not).
# - A settle that rewrites one leaf of the file tree with its own bytes, on a volume of 2,000 small files and on one of 200,000: microseconds
#   each, and the ratio.
# - The start of a replay beside `recon check`: seconds, peak memory, their ratio, and the median of the ratios of a start and the check before
#   it; the bytes of the index beside those of the metadata.
# - Ten made workloads of 200 commits each, replayed, beside a program in C that reads their traces, writes their bytes and flushes as often:
#   the time that passes, which has the waits for flushes in it, and the processor time; the sums of the least of five runs of each in turns.
# Usage: bench/commits.sh [FOLDER]    FOLDER has, or gets, the two volumes few.img and many.img; PROGRAM names a built program that is
# timed in place of that of this repository. It needs btrfs-progs, python3 and gcc.
set -eu
cd "$(dirname "$0")/.."
scratch=$(mktemp -d)
trap 'rm -rf "$scratch"' EXIT
folder=${1:-$scratch}
program=${PROGRAM:-}
if [ -z "$program" ]; then
  echo "commits.sh: builds the program, which takes up to an hour where none of its crates is built" >&2
  (cd crates/recon && rt run -- check data/short.img < /dev/null > /dev/null 2>&1) || true
  program=$PWD/crates/recon/out/recon
fi
if [ ! -e "$folder/few.img" ]; then
  mkdir "$scratch/files"
  for f in 0 1 2 3 4; do
    mkdir "$scratch/files/folder-00$f"
    for n in $(seq 100 499); do echo "$f $n $f $n $f $n" > "$scratch/files/folder-00$f/a-small-file-$n"; done
  done
  bench/volume.sh "$folder/few.img" "$scratch/files"
fi
[ -e "$folder/many.img" ] || bench/volume.sh "$folder/many.img"
cat > "$scratch/plain.c" <<'C'
#include <fcntl.h>
#include <stdint.h>
#include <stdio.h>
#include <stdlib.h>
#include <string.h>
#include <unistd.h>

/* Writes each record of a trace when it comes, and flushes twice at each that touches the superblock. */
int main(int words, char **word) {
    static unsigned char head[16], data[1 << 20];
    int image = words > 1 ? open(word[1], O_WRONLY) : -1, kind;
    if (image < 0 || fread(head, 1, 16, stdin) != 16) return 2;
    while ((kind = getchar()) == 1) {
        uint64_t at;
        uint32_t len;
        if (fread(head, 1, 14, stdin) != 14) return 2;
        memcpy(&at, head + 2, 8);
        memcpy(&len, head + 10, 4);
        if (len > sizeof data || fread(data, 1, len, stdin) != len || pwrite(image, data, len, at) != len) return 2;
        if (at < 69632 && at + len > 65536 && (fdatasync(image) || fdatasync(image))) return 2;
    }
    return kind != 255;
}
C
gcc -O2 -o "$scratch/plain" "$scratch/plain.c"
python3 - "$program" "$folder" "$scratch" <<'PYTHON'
import os
import statistics
import struct
import subprocess
import sys
import time

program, folder, scratch = sys.argv[1:]
HEADER = b'RECONTRC' + struct.pack('<II', 1, 0)
BLOCK = 16384
ROUNDS = 9


def turns(commands):
    """Runs some commands, each with its standard input, in turns. Of each: processor seconds of each run, peak memory in bytes, the lines."""
    runs = [([], [], []) for _ in commands]
    for _ in range(ROUNDS):
        for (words, trace), (spent, peaks, lines) in zip(commands, runs):
            with open(trace, 'rb') as given:
                child = subprocess.Popen([program, *words], stdin=given, stdout=subprocess.PIPE)
                lines[:] = child.stdout.read().decode().splitlines()
                used = os.wait4(child.pid, 0)[2]
            spent.append(used.ru_utime + used.ru_stime)
            peaks.append(used.ru_maxrss * 1024)
    return [(spent, max(peaks), lines) for spent, peaks, lines in runs]


def write(at, data):
    return b'\x01' + struct.pack('<HQI', 0, at, len(data)) + data


def leaves(path):
    """Where the leaves of the file tree may lie, and how many blocks have the volume's id."""
    found, blocks = [], 0
    with open(path, 'rb') as image:
        image.seek(65536 + 32)
        fsid = image.read(16)
        at = 0
        while True:
            try:
                at = os.lseek(image.fileno(), at, os.SEEK_DATA) // BLOCK * BLOCK
            except OSError:
                return found, blocks
            image.seek(at)
            data = image.read(BLOCK)
            if data[32:48] == fsid and at != 65536 and at >> 16 != 1:
                blocks += 1
                if data[100] == 0 and struct.unpack_from('<Q', data, 88)[0] == 5:
                    found.append(at)
            at += BLOCK


def settles(leaf, count):
    """A trace of so many settles, each of which rewrites the leaf with its own bytes."""
    trace = f'{scratch}/settles-{count}'
    with open(trace, 'wb') as out:
        out.write(HEADER)
        for _ in range(count):
            out.write(write(*leaf) + b'\x02')
        out.write(b'\xff')
    return trace


each = {}
for name in ('few', 'many'):
    path = f'{folder}/{name}.img'
    found, blocks = leaves(path)
    with open(path, 'rb') as image:
        image.seek(found[len(found) // 2])
        leaf = found[len(found) // 2], image.read(BLOCK)
    many = 4000
    (check, check_peak, _), (start, peak, _), (some, _, lines) = turns(
        [(['check', path], os.devnull), (['replay', path], settles(leaf, 0)), (['replay', path], settles(leaf, many))])
    each[name] = (min(some) - min(start)) / many * 1e6
    middle = statistics.median(two / max(one, 0.001) for one, two in zip(check, start))
    print(f'{name}: settle of one leaf {each[name]:.1f} us ({lines[1]}); start {min(start):.3f} s beside check {min(check):.3f} s: '
          f'{min(start) / max(min(check), 0.001):.2f} times, the median of the pairs {middle:.2f}; '
          f'index {(peak - check_peak) / 2**20:.1f} MiB more than the check, metadata {blocks * BLOCK / 2**20:.1f} MiB', flush=True)
print(f"a settle of one leaf: {each['many'] / each['few']:.2f} times on the larger volume")
image, trace = f'{scratch}/made.img', f'{scratch}/made.trace'
total, size = {}, 0
for seed in range(1, 11):
    with open(image, 'wb') as out:
        out.truncate(32 << 20)
    with open(trace, 'wb') as out:
        subprocess.run([program, 'make', str(seed), '200', image], stdout=out, check=True)
    with open(image, 'rb') as given:
        first = given.read()
    size += os.path.getsize(trace)
    least = {}
    for _ in range(5):
        for side, words in ('replay', [program, 'replay', image]), ('plain', [f'{scratch}/plain', image]):
            with open(image, 'wb') as out:
                out.write(first)
            with open(trace, 'rb') as given:
                began = time.monotonic()
                child = subprocess.Popen(words, stdin=given, stdout=subprocess.DEVNULL)
                used = os.wait4(child.pid, 0)
                passed = time.monotonic() - began
            if used[1]:
                sys.exit(f'commits.sh: {side} ended with {used[1]}')
            spent = used[2].ru_utime + used[2].ru_stime
            least[side] = min(least.get(side, spent), spent)
            least[side + ' passed'] = min(least.get(side + ' passed', passed), passed)
            with open(image, 'rb') as left:
                least[side + ' left'] = left.read()
    if least['replay left'] != least['plain left']:
        sys.exit('commits.sh: the two sides left other images')
    for side in 'replay', 'plain', 'replay passed', 'plain passed':
        total[side] = total.get(side, 0) + least[side]
print(f'2,000 commits of made workloads: {total["replay passed"]:.3f} s, a plain reader and writer {total["plain passed"]:.3f}: '
      f'{total["replay passed"] / total["plain passed"]:.2f} times; of processor time {total["replay"]:.3f} s and {total["plain"]:.3f}: '
      f'{total["replay"] / total["plain"]:.2f} times; traces of {size / 2**20:.1f} MiB')
PYTHON
