#!/usr/bin/env bash
# Times the table of spans beside one of std's ordered maps in plain Rust, from sort, class and span to how often the
# span stands. COUNT inserts of spans of 1 to 61 sectors at scattered places are timed, then these and ROUNDS questions
# for the span that meets each place, asked of each class that has spans, then these and the removal of each span.
# Prints the user seconds of each, the least of five runs, the ratios, and the bytes of memory that an entry takes.
# COUNT is at most 1048576.
# Usage: bench/spans.sh [COUNT] [ROUNDS]
set -euo pipefail
top=$(cd "$(dirname "$0")/.." && pwd)
count=${1:-1000000}
rounds=${2:-2}
work=$(mktemp -d)
trap 'rm -rf "$work"' EXIT

cat >"$work/plain.rs" <<'RUST'
use std::collections::BTreeMap;

#[derive(Clone, Copy, PartialEq, Eq, PartialOrd, Ord)]
#[allow(dead_code)]
enum Sort {
    Owned { of_data: bool },
    Summed,
    Shown { tree: u64, ino: u64, file_offset: u64, extent: u64, length: u64 },
}

#[derive(Clone, Copy, PartialEq, Eq, PartialOrd, Ord)]
struct Span {
    first: u64,
    sectors: u64,
    sort: Sort,
}

const LEAST: Span = Span { first: 0, sectors: 0, sort: Sort::Owned { of_data: false } };

fn scattered(index: u64) -> u64 {
    index.wrapping_mul(0x9E37_79B9_7F4A_7C15) % 1_048_576 * 262_144
}

fn span(index: u64) -> Span {
    let sort = if index % 2 == 0 { Sort::Owned { of_data: true } } else { Sort::Summed };
    Span { first: scattered(index), sectors: index % 61 + 1, sort }
}

fn rank(span: &Span) -> u8 {
    match span.sort {
        Sort::Owned { .. } => 0,
        Sort::Summed => 1,
        Sort::Shown { .. } => 2,
    }
}

fn key(span: Span) -> (u8, u8, Span) {
    (rank(&span), (span.sectors | 1).ilog2() as u8, span)
}

fn end(span: &Span) -> u128 {
    span.first as u128 + span.sectors as u128 * 4096
}

fn meeting(index: &BTreeMap<(u8, u8, Span), u64>, rank: u8, address: u64) -> Option<Span> {
    let mut least = None;
    let mut from = 0;
    while let Some((&(sort, class, _), _)) = index.range((rank, from, LEAST)..).next() {
        if sort != rank {
            break;
        }
        let low = (address as u128).saturating_sub((2u128 << class) * 4096) as u64;
        let start = (rank, class, Span { first: low, ..LEAST });
        let found = index
            .range(start..)
            .take_while(|((r, c, _), _)| *r == rank && *c == class)
            .find(|((_, _, span), _)| end(span) > address as u128);
        if let Some(((_, _, span), _)) = found {
            least = Some(least.map_or(*span, |other: Span| other.min(*span)));
        }
        from = class + 1;
    }
    least
}

fn main() {
    let words: Vec<String> = std::env::args().collect();
    let (count, rounds): (u64, u64) = (words[2].parse().unwrap(), words[3].parse().unwrap());
    let mut index: BTreeMap<(u8, u8, Span), u64> = BTreeMap::new();
    for number in 0..count {
        let span = span(number);
        *index.entry(key(span)).or_insert(0) += 1;
    }
    let mut found = 0u64;
    for _ in 0..rounds {
        for number in 0..count {
            if let Some(span) = meeting(&index, 0, scattered(number)) {
                found = found.wrapping_add(span.first);
            }
        }
    }
    let mut taken = 0u64;
    if words[1] == "remove" {
        for number in 0..count {
            let span = span(number);
            if let Some(times) = index.get_mut(&key(span)) {
                *times -= 1;
                if *times == 0 {
                    index.remove(&key(span));
                }
                taken += 1;
            }
        }
    }
    println!("{found} {taken}");
}
RUST

rustc -O -o "$work/plain" "$work/plain.rs"
(cd "$top/crates/benches" && rt run >"$work/build.log" 2>&1) || { tail -20 "$work/build.log"; exit 1; }
proved=$work/proved
printf '#!/bin/sh\nexec "%s" spans "$@"\n' "$top/crates/benches/out/benches" >"$proved"
chmod +x "$proved"

measure() { # WHAT PROGRAM WORDS..: the least user time of five runs in seconds, or the most memory of one in bytes
    python3 - "$@" <<'PYTHON'
import os, subprocess, sys
what, words = sys.argv[1], sys.argv[2:]
seen = []
for _ in range(5 if what == "time" else 1):
    child = subprocess.Popen(words, stdout=subprocess.DEVNULL)
    _, status, used = os.wait4(child.pid, 0)
    assert status == 0
    seen.append(used.ru_utime if what == "time" else used.ru_maxrss * 1024)
print(min(seen))
PYTHON
}

compare() { # NAME WORDS..
    local name=$1 ours plain
    shift
    [ "$("$proved" "$@")" = "$("$work/plain" "$@")" ] || { echo "$name: the answers differ"; exit 1; }
    plain=$(measure time "$work/plain" "$@")
    ours=$(measure time "$proved" "$@")
    echo "$plain $ours" | awk -v name="$name" '{ printf "%s: plain Rust %.3f s, span_index %.3f s, ratio %.2f\n", name, $1, $2, $2 / $1 }'
}

entry() { # NAME PROGRAM
    local none full
    none=$(measure memory "$2" keep 0 0)
    full=$(measure memory "$2" keep "$count" 0)
    echo "$1: $(((full - none) / count)) bytes an entry"
}

compare "$count inserts" keep "$count" 0
compare "$count inserts, each met $rounds times" keep "$count" "$rounds"
compare "$count inserts, each removed" remove "$count" 0
entry "plain Rust" "$work/plain"
entry "span_index" "$proved"
