#!/usr/bin/env bash
# Measures the replay of a long trace onto a file: MIB mebibytes in writes of 128 KiB with a commit after each
# 32 MiB, beside `cp` of the same bytes and `sync`. Prints seconds, peak memory and the ratio.
# Usage: bench/replay.sh [MIB]. It wants python3 and three times MIB of room.
#        bench/replay.sh --scattered [FOLDER] measures what pending writes cost the judge: 0, 1,000, 16,000 and 100,000
# scattered writes of 4096 bytes and one commit over a volume with much metadata (bench/volume.sh). Prints the user
# seconds of each, the least of three runs.
set -eu
cd "$(dirname "$0")/.."
folder=$(mktemp -d)
trap 'rm -rf "$folder"' EXIT
(cd crates/recon && rt run -- replay data/short.img < /dev/null > /dev/null 2>&1) || true
program=$PWD/crates/recon/out/recon

if [ "${1:-}" = --scattered ]; then
  shift
  bench/volume.sh "$folder/volume.img" "$@"
  python3 - "$folder" "$program" <<'PYTHON'
import os, struct, subprocess, sys
folder, program = sys.argv[1:]
volume, trace = f'{folder}/volume.img', f'{folder}/trace'
with open(volume, 'rb') as f:
    f.seek(65536)
    superblock = f.read(4096)
for count in (0, 1000, 16000, 100000):
    with open(trace, 'wb') as f:
        f.write(b'RECONTRC' + struct.pack('<II', 1, 0))
        for k in range(count):
            # 64 KiB apart in the volume's unused half, each with its neighbors taken in another order
            at = (8 << 30) + (k * 40503 % count) * 65536
            f.write(b'\x01' + struct.pack('<HQI', 0, at, 4096) + bytes([k % 256]) * 4096)
        f.write(b'\x01' + struct.pack('<HQI', 0, 65536, 4096) + superblock + b'\xff')
    least = None
    for _ in range(3):
        with open(trace, 'rb') as f:
            child = subprocess.Popen([program, 'replay', volume], stdin=f, stdout=subprocess.PIPE)
            lines = child.stdout.read().decode().splitlines()
            used = os.wait4(child.pid, 0)[2].ru_utime
        if lines[-1] != 'end passed 1 rejected 0':
            sys.exit(f'{count} writes: {lines}')
        least = used if least is None else min(least, used)
    print(f'{count} scattered writes and a commit: {least:.2f} s')
PYTHON
  exit
fi

mib=${1:-1024}
python3 examples/base_image.py "$folder/small.img"

python3 - "$folder" "$mib" <<'PYTHON'
import os, struct, sys
folder, mib = sys.argv[1], int(sys.argv[2])
with open(f'{folder}/small.img', 'rb') as f:
    small = f.read()
superblock = small[65536:69632]
with open(f'{folder}/big.img', 'wb') as f:
    f.write(small)
    f.truncate((mib + 40) << 20)
size = 128 << 10
with open(f'{folder}/big.trace', 'wb') as f, open(f'{folder}/bytes', 'wb') as copy:
    f.write(b'RECONTRC' + struct.pack('<II', 1, 0))
    for k in range(mib * 8):
        block = os.urandom(4096) * 32
        f.write(b'\x01' + struct.pack('<HQI', 0, (40 << 20) + k * size, size) + block)
        copy.write(block)
        if k % 256 == 255:
            f.write(b'\x01' + struct.pack('<HQI', 0, 65536, 4096) + superblock)
    f.write(b'\xff')
PYTHON

timed() { # NAME COMMAND..: seconds, and peak memory in MiB
  local name=$1; shift
  python3 - "$name" "$@" <<'PYTHON'
import resource, subprocess, sys, time
name, command = sys.argv[1], ' '.join(sys.argv[2:])
start = time.time()
subprocess.run(['bash', '-c', command], check=False, stdout=subprocess.DEVNULL)
seconds = time.time() - start
peak = resource.getrusage(resource.RUSAGE_CHILDREN).ru_maxrss / 1024
print(f'{name} {seconds:.2f} {peak:.1f}')
PYTHON
}

sync
copy=$(timed cp "cp '$folder/bytes' '$folder/copied' && sync '$folder/copied'")
sync
replay=$(timed replay "'$program' replay '$folder/big.img' < '$folder/big.trace'")
echo "$copy" | awk '{ printf "cp and sync: %s s\n", $2 }'
echo "$replay" | awk '{ printf "replay: %s s, peak memory %s MiB\n", $2, $3 }'
echo "$copy $replay" | awk '{ printf "ratio: %.2f\n", $5 / $2 }'
