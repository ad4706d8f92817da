#!/usr/bin/env bash
# Times the ledger of accounts beside a hashed map of whole accounts and whole sums in plain Rust: COUNT adds, ROUNDS
# look-ups of each of these accounts, and ROUNDS times taking all away and adding them again. Prints the user seconds of
# each, the least of five runs, the ratios, and the bytes of memory that an entry takes beside the account itself. Then
# times 20000 accounts that collide under a hash with the fixed seed beside as many others: under that seed, and under
# one drawn from the system, as the program draws it.
# Usage: bench/ledger.sh [COUNT] [ROUNDS]
set -euo pipefail
top=$(cd "$(dirname "$0")/.." && pwd)
count=${1:-1000000}
rounds=${2:-5}
work=$(mktemp -d)
trap 'rm -rf "$work"' EXIT

cat >"$work/plain.rs" <<'RUST'
use std::collections::HashMap;
use std::collections::hash_map::DefaultHasher;
use std::hash::Hasher;

#[derive(Clone, PartialEq, Eq, Hash)]
struct Key {
    objectid: u64,
    kind: u8,
    offset: u64,
}

#[derive(Clone, PartialEq, Eq, Hash)]
struct Account {
    kind: u8,
    tree: u64,
    block: u64,
    key: Key,
    detail: u64,
    tail: Vec<u8>,
}

type Ledger = HashMap<Account, [u128; 9]>;

fn scattered(index: u64) -> u64 {
    index.wrapping_mul(0x9E37_79B9_7F4A_7C15) >> 32
}

fn name_of(file: u64) -> Vec<u8> {
    let mut name = Vec::new();
    let mut rest = scattered(file);
    for _ in 0..file % 20 + 4 {
        name.push(97 + (rest % 16) as u8);
        rest = (rest / 16).wrapping_add(file);
    }
    name
}

fn account(kind: u8, place: (u64, u64), key: (u64, u8, u64), detail: u64, tail: Vec<u8>) -> Account {
    let key = Key { objectid: key.0, kind: key.1, offset: key.2 };
    Account { kind, tree: place.0, block: place.1, key, detail, tail }
}

fn one_of(index: u64) -> Account {
    let file = index / 7;
    let address = file.wrapping_mul(4096).wrapping_add(13_631_488);
    let ino = file.wrapping_add(257);
    match index % 7 {
        0 => account(2, (5, address), (ino, 178, 0), 0, Vec::new()),
        1 => account(3, (2, address), (0, 0, 0), 0, Vec::new()),
        2 => account(4, (2, address), (0, 168, 4096), 0, Vec::new()),
        3 => account(9, (5, 0), (ino, 1, 0), 0, Vec::new()),
        4 => account(10, (5, 0), (ino, 1, 0), 1, Vec::new()),
        5 => account(11, (5, 0), (256, 84, scattered(file)), ino, name_of(file)),
        _ => account(12, (5, 0), (ino, 12, 256), file, name_of(file)),
    }
}

fn add(ledger: &mut Ledger, account: &Account, field: usize, amount: u64) {
    if let Some(totals) = ledger.get_mut(account) {
        totals[field] = totals[field].saturating_add(amount.into());
        return;
    }
    let mut totals = [0; 9];
    totals[field] = amount.into();
    ledger.insert(account.clone(), totals);
}

fn take(ledger: &mut Ledger, account: &Account, field: usize, amount: u64) {
    if let Some(totals) = ledger.get_mut(account) {
        totals[field] = totals[field].saturating_sub(amount.into());
        if totals.iter().all(|sum| *sum == 0) {
            ledger.remove(account);
        }
    }
}

fn found(ledger: &Ledger, made: &[Account]) -> u64 {
    let mut sum = 0u64;
    for account in made {
        let totals = ledger.get(account).copied().unwrap_or([0; 9]);
        sum = sum.wrapping_add(totals[1] as u64);
    }
    sum
}

// Numbers of accounts that begin their search at the same place of a small table under the fixed seed.
fn collide() {
    let mut number = 0u64;
    let mut left = 20_000;
    while left > 0 {
        let mut hasher = DefaultHasher::new();
        hasher.write(&[0; 16]);
        for word in [1 + 256 * 176 + 65536 * 5, number, number, 5] {
            hasher.write(&u64::to_le_bytes(word));
        }
        let hash = hasher.finish();
        if (hash ^ (hash >> 32)) & 0xfff == 0 {
            println!("{number}");
            left -= 1;
        }
        number += 1;
    }
}

fn main() {
    let words: Vec<String> = std::env::args().collect();
    if words[1] == "collide" {
        return collide();
    }
    let (count, rounds): (u64, u64) = (words[2].parse().unwrap(), words[3].parse().unwrap());
    let made: Vec<Account> = (0..count).map(one_of).collect();
    let mut ledger = Ledger::new();
    let mut sum = 0u64;
    let mut looks = 0;
    if words[1] != "list" {
        for account in &made {
            add(&mut ledger, account, 1, 100);
        }
        looks += count;
        for _ in 0..rounds {
            if words[1] == "get" {
                sum = sum.wrapping_add(found(&ledger, &made));
                looks += count;
            }
            if words[1] == "turn" {
                for account in &made {
                    take(&mut ledger, account, 1, 100);
                }
                for account in &made {
                    add(&mut ledger, account, 1, 100);
                }
                looks += 2 * count;
            }
        }
        sum = sum.wrapping_add(found(&ledger, &made));
        looks += count;
    }
    println!("{sum} {looks}");
}
RUST

rustc -O -o "$work/plain" "$work/plain.rs"
(cd "$top/crates/benches" && rt run >"$work/build.log" 2>&1) || { tail -20 "$work/build.log"; exit 1; }
proved=$work/proved
printf '#!/bin/sh\nexec "%s" ledger "$@"\n' "$top/crates/benches/out/benches" >"$proved"
chmod +x "$proved"

measure() { # WHAT INPUT PROGRAM WORDS..: the least user time of five runs in seconds, or the most memory of one in bytes
    python3 - "$@" <<'PYTHON'
import os, subprocess, sys
what, given, words = sys.argv[1], sys.argv[2], sys.argv[3:]
seen = []
for _ in range(5 if what == "time" else 1):
    with open(given) as source:
        child = subprocess.Popen(words, stdin=source, stdout=subprocess.DEVNULL)
        _, status, used = os.wait4(child.pid, 0)
    assert status == 0
    seen.append(used.ru_utime if what == "time" else used.ru_maxrss * 1024)
print(min(seen))
PYTHON
}

compare() { # NAME WORDS..
    local name=$1 ours plain
    shift
    [ "$("$proved" "$@")" = "$("$work/plain" "$@")" ] || { echo "$name: the answers differ"; exit 1; }
    plain=$(measure time /dev/null "$work/plain" "$@")
    ours=$(measure time /dev/null "$proved" "$@")
    echo "$plain $ours" | awk -v name="$name" '{ printf "%s: plain Rust %.3f s, ledger_index %.3f s, ratio %.2f\n", name, $1, $2, $2 / $1 }'
}

entry() { # NAME PROGRAM
    local none full
    none=$(measure memory /dev/null "$2" list "$count" 0)
    full=$(measure memory /dev/null "$2" keep "$count" 0)
    echo "$1: $(((full - none) / count)) bytes an entry"
}

compare "$count accounts made, with no ledger" list "$count" 0
compare "$count adds" keep "$count" 0
compare "$count adds, each looked up $rounds times" get "$count" "$rounds"
compare "$count adds, all taken and added again $rounds times" turn "$count" "$rounds"
entry "plain Rust" "$work/plain"
entry "ledger_index" "$proved"

"$work/plain" collide >"$work/hostile"
seq 1 20000 >"$work/others"
hostile=$(measure time "$work/hostile" "$proved" turn 0 20)
others=$(measure time "$work/others" "$proved" turn 0 20)
fixed=$(measure time "$work/hostile" "$proved" turn 0 20 fixed)
echo "$others $hostile $fixed" | awk '{
    printf "20000 accounts, all taken and added again 20 times: others %.3f s; hostile ones, seed drawn, %.3f s, ratio %.2f; seed known %.3f s, ratio %.2f\n", $1, $2, $2 / $1, $3, $3 / $1 }'
