#!/usr/bin/env bash
# Times the pairing of changed items beside the same merge in plain Rust: two lists of COUNT items, inodes and directory
# entries in turn, each of which differs between the lists, are paired ROUNDS times. Prints the user seconds of each
# without those for making the lists, the least of five runs, and the ratio.
# Usage: bench/changes.sh [COUNT] [ROUNDS]
set -euo pipefail
top=$(cd "$(dirname "$0")/.." && pwd)
count=${1:-100000}
rounds=${2:-400}
work=$(mktemp -d)
trap 'rm -rf "$work"' EXIT

cat >"$work/plain.rs" <<'RUST'
#[derive(Clone, Copy, PartialEq, Eq, PartialOrd, Ord)]
struct Key {
    objectid: u64,
    kind: u8,
    offset: u64,
}

#[derive(PartialEq, Eq)]
#[allow(dead_code)]
enum Part {
    Inode { key: Key, size: u64, nbytes: u64, nlink: u32, mode: u32, flags: u64 },
    Extent { key: Key, refs: u64, generation: u64, flags: u64, references: Vec<u8> },
    Dir { key: Key, bytes: Vec<u8> },
}

#[allow(dead_code)]
struct Item {
    tree: u64,
    block: u64,
    key: Key,
    part: Part,
}

#[allow(dead_code)]
enum Change {
    Added(u64),
    Removed(u64),
    Altered(u64, u64),
}

fn pair(old: &[Item], new: &[Item]) -> Vec<Change> {
    let mut changes = Vec::new();
    let (mut i, mut j) = (0, 0);
    while i < old.len() || j < new.len() {
        if j == new.len() || i < old.len() && (old[i].tree, old[i].key) < (new[j].tree, new[j].key) {
            changes.push(Change::Removed(i as u64));
            i += 1;
        } else if i == old.len() || (new[j].tree, new[j].key) < (old[i].tree, old[i].key) {
            changes.push(Change::Added(j as u64));
            j += 1;
        } else {
            if old[i].part != new[j].part {
                changes.push(Change::Altered(i as u64, j as u64));
            }
            i += 1;
            j += 1;
        }
    }
    changes
}

fn item(index: u64, other: u8) -> Item {
    let kind = if index % 2 == 0 { 1 } else { 96 };
    let key = Key { objectid: index, kind, offset: 0 };
    let part = if kind == 1 {
        Part::Inode { key, size: u64::from(other), nbytes: 0, nlink: 1, mode: 0o100644, flags: 0 }
    } else {
        let mut bytes = vec![97; 50];
        bytes[8] = 1;
        bytes[27] = 20;
        bytes[28] = 0;
        bytes[29] = 1;
        bytes[49] = other;
        Part::Dir { key, bytes }
    };
    Item { tree: 5, block: u64::from(other), key, part }
}

fn main() {
    let words: Vec<u64> = std::env::args().skip(1).map(|word| word.parse().unwrap()).collect();
    let (count, rounds) = (words[0], words[1]);
    let old: Vec<Item> = (0..count).map(|index| item(index, 1)).collect();
    let new: Vec<Item> = (0..count).map(|index| item(index, 2)).collect();
    let mut sum = 0;
    for _ in 0..rounds {
        sum += std::hint::black_box(pair(&old, &new)).len();
    }
    println!("{sum}");
}
RUST

rustc -O -o "$work/plain" "$work/plain.rs"
(cd "$top/crates/benches" && rt run >"$work/build.log" 2>&1) || { tail -20 "$work/build.log"; exit 1; }
proved=$work/proved
printf '#!/bin/sh\nexec "%s" changes "$@"\n' "$top/crates/benches/out/benches" >"$proved"
chmod +x "$proved"

seconds() { # WORDS..: the least user time of five runs
    python3 - "$@" <<'PYTHON'
import os, subprocess, sys
seen = []
for _ in range(5):
    child = subprocess.Popen(sys.argv[1:], stdout=subprocess.DEVNULL)
    _, status, used = os.wait4(child.pid, 0)
    assert status == 0
    seen.append(used.ru_utime)
print(min(seen))
PYTHON
}

[ "$("$proved" "$count" 2)" = "$("$work/plain" "$count" 2)" ] || { echo "the answers differ"; exit 1; }
echo "$(seconds "$work/plain" "$count" 0) $(seconds "$work/plain" "$count" "$rounds")" \
    "$(seconds "$proved" "$count" 0) $(seconds "$proved" "$count" "$rounds")" |
    awk '{ printf "plain Rust %.3f s, pair %.3f s, ratio %.2f\n", $2 - $1, $4 - $3, ($4 - $3) / ($2 - $1) }'
