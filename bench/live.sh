#!/usr/bin/env bash
# Times the table of live pairs beside two of std's ordered maps in plain Rust, the pairs by address and tree and their
# places by tree, level and first key: COUNT inserts at scattered addresses, these and ROUNDS look-ups of each pair, and
# these and the removal of each pair. Prints the user seconds of each, the least of five runs, the ratios, and the bytes
# of memory that an entry takes. COUNT is at most 1048576.
# Usage: bench/live.sh [COUNT] [ROUNDS]
set -euo pipefail
top=$(cd "$(dirname "$0")/.." && pwd)
count=${1:-1000000}
rounds=${2:-2}
work=$(mktemp -d)
trap 'rm -rf "$work"' EXIT

cat >"$work/plain.rs" <<'RUST'
use std::collections::BTreeMap;

#[derive(Clone, Copy, PartialEq, Eq, PartialOrd, Ord)]
struct Key {
    objectid: u64,
    kind: u8,
    offset: u64,
}

#[derive(Clone, Copy)]
#[allow(dead_code)]
struct Live {
    tree: u64,
    address: u64,
    level: u8,
    generation: u64,
    first: Key,
    last: Key,
    parent: u64,
    owner: u64,
}

#[derive(Default)]
struct Index {
    by_address: BTreeMap<(u64, u64), Live>,
    by_first: BTreeMap<(u64, u8, Key, u64), ()>,
}

fn first_of(live: &Live) -> (u64, u8, Key, u64) {
    (live.tree, live.level, live.first, live.address)
}

impl Index {
    fn insert(&mut self, live: Live) {
        if let Some(old) = self.by_address.insert((live.address, live.tree), live) {
            self.by_first.remove(&first_of(&old));
        }
        self.by_first.insert(first_of(&live), ());
    }

    fn get(&self, tree: u64, address: u64) -> Option<Live> {
        self.by_address.get(&(address, tree)).copied()
    }

    fn remove(&mut self, tree: u64, address: u64) -> Option<Live> {
        let live = self.by_address.remove(&(address, tree))?;
        self.by_first.remove(&first_of(&live));
        Some(live)
    }
}

fn scattered(index: u64) -> u64 {
    index.wrapping_mul(0x9E37_79B9_7F4A_7C15) % 1_048_576 * 16384
}

fn pair(index: u64) -> Live {
    let first = Key { objectid: scattered(index.wrapping_mul(3)), kind: 1, offset: index };
    let level = if index % 8 == 0 { 1 } else { 0 };
    Live { tree: 5, address: scattered(index), level, generation: index, first, last: first, parent: 0, owner: 5 }
}

fn main() {
    let words: Vec<String> = std::env::args().collect();
    let (count, rounds): (u64, u64) = (words[2].parse().unwrap(), words[3].parse().unwrap());
    let mut index = Index::default();
    for number in 0..count {
        index.insert(pair(number));
    }
    let mut found = 0u64;
    for _ in 0..rounds {
        for number in 0..count {
            if let Some(live) = index.get(5, scattered(number)) {
                found = found.wrapping_add(live.generation);
            }
        }
    }
    let mut taken = 0u64;
    if words[1] == "remove" {
        for number in 0..count {
            if let Some(live) = index.remove(5, scattered(number)) {
                taken = taken.wrapping_add(live.generation);
            }
        }
    }
    println!("{found} {taken}");
}
RUST

rustc -O -o "$work/plain" "$work/plain.rs"
(cd "$top/crates/benches" && rt run >"$work/build.log" 2>&1) || { tail -20 "$work/build.log"; exit 1; }
proved=$work/proved
printf '#!/bin/sh\nexec "%s" pairs "$@"\n' "$top/crates/benches/out/benches" >"$proved"
chmod +x "$proved"

measure() { # WHAT PROGRAM WORDS..: the least user time of five runs in seconds, or the most memory of one in bytes
    python3 - "$@" <<'PYTHON'
import os, subprocess, sys
what, words = sys.argv[1], sys.argv[2:]
seen = []
for _ in range(5 if what == "time" else 1):
    child = subprocess.Popen(words, stdout=subprocess.DEVNULL)
    _, status, used = os.wait4(child.pid, 0)
    assert status == 0
    seen.append(used.ru_utime if what == "time" else used.ru_maxrss * 1024)
print(min(seen))
PYTHON
}

compare() { # NAME WORDS..
    local name=$1 ours plain
    shift
    [ "$("$proved" "$@")" = "$("$work/plain" "$@")" ] || { echo "$name: the answers differ"; exit 1; }
    plain=$(measure time "$work/plain" "$@")
    ours=$(measure time "$proved" "$@")
    echo "$plain $ours" | awk -v name="$name" '{ printf "%s: plain Rust %.3f s, live_index %.3f s, ratio %.2f\n", name, $1, $2, $2 / $1 }'
}

entry() { # NAME PROGRAM
    local none full
    none=$(measure memory "$2" keep 0 0)
    full=$(measure memory "$2" keep "$count" 0)
    echo "$1: $(((full - none) / count)) bytes an entry"
}

compare "$count inserts" keep "$count" 0
compare "$count inserts, each looked up $rounds times" keep "$count" "$rounds"
compare "$count inserts, each removed" remove "$count" 0
entry "plain Rust" "$work/plain"
entry "live_index" "$proved"
