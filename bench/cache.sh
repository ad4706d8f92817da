#!/usr/bin/env bash
# Times the cache of pending writes beside std's ordered map in plain Rust with the same rules: COUNT scattered
# writes of 4096 bytes, RISE writes of 4096 bytes at rising offsets, and ROUNDS buffers of 16384 bytes with the
# scattered writes laid over. Prints the user seconds of each, the least of five runs, and the ratios.
# Then it times SMALL writes of 512 bytes at rising offsets, at falling ones, and in an order that joins two long
# pieces again and again. Prints the user seconds of ten runs, and with those of the system, the least of five times
# each, and the ratios to the rising order.
# Usage: bench/cache.sh [COUNT] [RISE] [ROUNDS] [SMALL]
set -euo pipefail
top=$(cd "$(dirname "$0")/.." && pwd)
count=${1:-100000}
rise=${2:-262144}
rounds=${3:-1000000}
small=${4:-200000}
work=$(mktemp -d)
trap 'rm -rf "$work"' EXIT

cat >"$work/plain.rs" <<'RUST'
use std::collections::BTreeMap;

struct Cache(BTreeMap<u64, Vec<u8>>);

impl Cache {
    fn tail(&self, end: u64) -> &[u8] {
        match self.0.range(..=end).next_back() {
            Some((begin, bytes)) => bytes.get((end - begin) as usize..).unwrap_or(&[]),
            None => &[],
        }
    }

    fn remove_between(&mut self, after: u64, to: u64) {
        while let Some((&begin, _)) = self.0.range(..=to).next_back() {
            if begin <= after {
                return;
            }
            self.0.remove(&begin);
        }
    }

    fn put(&mut self, at: u64, bytes: &[u8]) {
        let end = at + bytes.len() as u64;
        let base = self.0.range(..=at).next_back().filter(|(begin, held)| at - *begin <= held.len() as u64);
        let begin = match base {
            Some((&begin, _)) => {
                let mut piece = std::mem::take(self.0.get_mut(&begin).unwrap());
                let from = (at - begin) as usize;
                let over = bytes.len().min(piece.len() - from);
                piece[from..from + over].copy_from_slice(&bytes[..over]);
                piece.extend_from_slice(&bytes[over..]);
                piece.extend_from_slice(self.tail(end));
                *self.0.get_mut(&begin).unwrap() = piece;
                begin
            }
            None => {
                let mut piece = bytes.to_vec();
                piece.extend_from_slice(self.tail(end));
                self.0.insert(at, piece);
                at
            }
        };
        self.remove_between(begin, end);
    }

    fn overlay(&self, at: u64, into: &mut [u8]) {
        let last = at + into.len() as u64 - 1;
        for (begin, bytes) in self.0.range(..=last).rev() {
            let end = begin + bytes.len() as u64;
            if end <= at {
                return;
            }
            let low = at.max(*begin);
            let high = end.min(at + into.len() as u64);
            into[(low - at) as usize..(high - at) as usize]
                .copy_from_slice(&bytes[(low - begin) as usize..(high - begin) as usize]);
        }
    }
}

fn scattered(index: u64) -> u64 {
    index.wrapping_mul(0x9E37_79B9_7F4A_7C15) % 1_048_576 * 8192
}

fn main() {
    let words: Vec<String> = std::env::args().collect();
    let (count, rounds): (u64, u64) = (words[2].parse().unwrap(), words[3].parse().unwrap());
    let mut cache = Cache(BTreeMap::new());
    for index in 0..count {
        let at = if words[1] == "rising" { index % 1_048_576 * 4096 } else { scattered(index) };
        let mut bytes = [7; 4096];
        bytes[0] = (index % 256) as u8;
        cache.put(at, &bytes);
    }
    let length: usize = cache.0.values().map(|bytes| bytes.len()).sum();
    let mut sum = 0u64;
    for round in 0..rounds {
        let mut block = [0; 16384];
        cache.overlay(scattered(round), &mut block);
        sum = sum.wrapping_add(u64::from(block[0])).wrapping_add(u64::from(block[8192]));
    }
    println!("{} {length} {sum}", cache.0.len());
}
RUST

rustc -O -o "$work/plain" "$work/plain.rs"
(cd "$top/crates/benches" && rt run >"$work/build.log" 2>&1) || { tail -20 "$work/build.log"; exit 1; }
proved=$work/proved
printf '#!/bin/sh\nexec "%s" pending "$@"\n' "$top/crates/benches/out/benches" >"$proved"
chmod +x "$proved"

least() { # PROGRAM WORDS..: the least user time of five runs, in seconds
    python3 - "$@" <<'PYTHON'
import resource, subprocess, sys
least = None
for _ in range(5):
    before = resource.getrusage(resource.RUSAGE_CHILDREN).ru_utime
    subprocess.run(sys.argv[1:], check=True, stdout=subprocess.DEVNULL)
    taken = resource.getrusage(resource.RUSAGE_CHILDREN).ru_utime - before
    least = taken if least is None else min(least, taken)
print(least)
PYTHON
}

compare() { # NAME WORDS..
    local name=$1 ours plain
    shift
    [ "$("$proved" "$@")" = "$("$work/plain" "$@")" ] || { echo "$name: the answers differ"; exit 1; }
    plain=$(least "$work/plain" "$@")
    ours=$(least "$proved" "$@")
    echo "$plain $ours" | awk -v name="$name" '{ printf "%s: plain Rust %.3f s, write_cache %.3f s, ratio %.2f\n", name, $1, $2, $2 / $1 }'
}

compare "$count scattered writes" scattered "$count" 0
compare "$rise rising writes" rising "$rise" 0
compare "$count scattered writes and $rounds buffers" scattered "$count" "$rounds"

ten() { # PROGRAM WORDS..: the least processor time of five times ten runs in seconds, the user's alone and the whole
    python3 - "$@" <<'PYTHON'
import resource, subprocess, sys
least = None
for _ in range(5):
    before = resource.getrusage(resource.RUSAGE_CHILDREN)
    for _ in range(10):
        subprocess.run(sys.argv[1:], check=True, stdout=subprocess.DEVNULL)
    after = resource.getrusage(resource.RUSAGE_CHILDREN)
    user = after.ru_utime - before.ru_utime
    whole = user + after.ru_stime - before.ru_stime
    least = (user, whole) if least is None else (min(least[0], user), min(least[1], whole))
print(*least)
PYTHON
}

rising=$(ten "$proved" rising "$small" 0 512)
made=$("$proved" rising "$small" 0 512)
echo "$rising" | awk -v name="$small small writes, rising" '{ printf "%s: user %.3f s, whole %.3f s\n", name, $1, $2 }'
for order in falling joining; do
    [ "$("$proved" "$order" "$small" 0 512)" = "$made" ] || { echo "$order: the answers differ"; exit 1; }
    echo "$rising $(ten "$proved" "$order" "$small" 0 512)" | awk -v name="$small small writes, $order" \
        '{ printf "%s: user %.3f s, ratio %.2f, whole %.3f s, ratio %.2f\n", name, $3, $3 / $1, $4, $4 / $2 }'
done
