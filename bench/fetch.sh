#!/usr/bin/env bash
# Measures fetches of 64 KiB, as text and as JSON: MIB mebibytes of a made image, whose lines go to /dev/null. Prints
# processor seconds (the least of three runs, without those of a replay of no fetch) and megabytes of fetched bytes a
# second, and checks the bytes of one run. Usage: bench/fetch.sh [MIB]. It wants python3.
set -eu
cd "$(dirname "$0")/.."
folder=$(mktemp -d)
trap 'rm -rf "$folder"' EXIT
program=${RECON:-$PWD/crates/recon/out/recon}
if [ ! -x "$program" ]; then
  echo "fetch.sh: builds the program, which takes up to an hour where none of its crates is built" >&2
  (cd crates/recon && rt run -- check data/short.img < /dev/null > /dev/null 2>&1) || true
fi
python3 examples/base_image.py "$folder/small.img"
python3 - "$folder" "$program" "${1:-2048}" <<'PYTHON'
import os, struct, subprocess, sys
folder, program, mib = sys.argv[1], sys.argv[2], int(sys.argv[3])
image, size = f'{folder}/small.img', 64 << 10
with open(image, 'rb') as f:
    held = f.read()
places = [k * size % (32 << 20) for k in range(mib * 16)]
def trace(name, at):
    with open(f'{folder}/{name}', 'wb') as f:
        f.write(b'RECONTRC' + struct.pack('<II', 1, 0))
        f.write(b''.join(b'\x03' + struct.pack('<QI', a, size) for a in at) + b'\xff')
    return f'{folder}/{name}'
def seconds(words, name):
    least = None
    for _ in range(3):
        with open(name, 'rb') as f:
            child = subprocess.Popen([program, 'replay', *words, image], stdin=f, stdout=subprocess.DEVNULL)
            _, status, used = os.wait4(child.pid, 0)
        if status:
            sys.exit(f'bench/fetch.sh: the replay ended with {status}')
        spent = used.ru_utime + used.ru_stime
        least = spent if least is None else min(least, spent)
    return least
one = subprocess.run([program, 'replay', image], stdin=open(trace('one', places[1:2]), 'rb'), stdout=subprocess.PIPE).stdout
if one.split(b'\n')[1] != b'fetch %d %d %s' % (places[1], size, held[size:2 * size].hex().encode()):
    sys.exit('bench/fetch.sh: other bytes')
for form in [], ['--json']:
    spent = seconds(form, trace('all', places)) - seconds(form, trace('none', []))
    print(f'{"json" if form else "text"}: {mib} MiB of fetches in {spent:.2f} s: {mib * 1.048576 / spent:.0f} MB/s')
PYTHON
