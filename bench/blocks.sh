#!/usr/bin/env bash
# Times the reading of tree blocks beside their checksum alone: COUNT blocks of 16384 bytes, leaves of 200 items and
# nodes of 400 pointers in turn, ROUNDS times. Prints the seconds of each, without those for making the blocks, and
# the ratio. Usage: bench/blocks.sh [COUNT] [ROUNDS]
set -eu
cd "$(dirname "$0")/../crates/benches"
count=${1:-16384}
rounds=${2:-20}
rt run > /dev/null 2>&1 || true

seconds() { # WORDS..: the user time of the program
  python3 - out/benches blocks "$@" <<'PYTHON'
import resource, subprocess, sys
subprocess.run(sys.argv[1:], check=True, stdout=subprocess.DEVNULL)
print(resource.getrusage(resource.RUSAGE_CHILDREN).ru_utime)
PYTHON
}

made=$(seconds sum "$count" 0)
summed=$(seconds sum "$count" "$rounds")
taken=$(seconds read "$count" "$rounds")
echo "$made $summed $taken" | awk '{ printf "sums: %.2f s, reads: %.2f s, ratio: %.2f\n", $2 - $1, $3 - $1, ($3 - $1) / ($2 - $1) }'
