#!/usr/bin/env bash
# Times one NBD client at examples/nbd_bridge.py beside the same client at `nbdkit file`:
# - MIB mebibytes written in requests of 128 KiB, with a flush after each 32 MiB;
# - 2048 reads of 1 MiB, and 16384 of 4 KiB, of which nothing is pending; 32 MiB read while they are pending;
# - fsyncs of a small file, as the Linux driver has them: 4 KiB of data, two blocks of the log tree in two copies of 16
#   KiB, a flush, and the superblock with FUA;
# - commits, which are the volume's own superblock with FUA and nothing else;
# - and by itself the disk's own flush of 4 KiB that were just written.
# Elapsed seconds, and processor seconds of client, nbdkit and recon together, each the least of RUNS runs (3) of each
# side in turns; on a busy machine the second are the ones to compare. The volume is made of FOLDER (bench/volume.sh), by
# default of docs/. A flush and a commit at the bridge are judged by the tree blocks that they changed; the start walks all of them.
# TMPDIR names the disk; in memory (/dev/shm) a flush is free. Usage: bench/nbd.sh [MIB [FOLDER [RUNS]]]. RECON names the program, by default the one that `rt run`
# makes. It wants nbdkit with its Python plugin, libnbd's Python module and btrfs-progs.
set -eu
cd "$(dirname "$0")/.."
mib=${1:-1024}
folder=$(mktemp -d)
trap 'rm -rf "$folder"' EXIT
[ -n "${RECON:-}" ] || (cd crates/recon && rt run -- check data/short.img < /dev/null > /dev/null 2>&1) || true
bench/volume.sh "$folder/volume.img" "${2:-docs}" > "$folder/notes" 2>&1
for python in python3 /usr/bin/python3; do
  "$python" -c 'import nbd' 2> /dev/null && break
done
"$python" - "$folder" "$mib" "${RECON:-$PWD/crates/recon/out/recon}" "${3:-3}" <<'PYTHON'
import os, signal, subprocess, sys, time
import nbd
folder, mib, program, runs = sys.argv[1], int(sys.argv[2]), sys.argv[3], int(sys.argv[4])
sides = {'file': ['file', f'file={folder}/file.img'],
         'bridge': ['python', 'examples/nbd_bridge.py', f'recon={program}', f'image={folder}/bridge.img']}
with open(f'{folder}/volume.img', 'rb') as f:
    f.seek(65536)
    superblock = f.read(4096)
size, block = 128 << 10, os.urandom(4096) * 32


def processor():
    """The processor seconds that this client, nbdkit and what it started have used so far."""
    with open(f'/proc/{serving.pid}/task/{serving.pid}/children') as f:
        pids = [os.getpid(), serving.pid, *f.read().split()]
    ticks = 0
    for pid in pids:
        with open(f'/proc/{pid}/stat') as f:
            ticks += sum(map(int, f.read().rpartition(')')[2].split()[11:13]))
    return ticks / os.sysconf('SC_CLK_TCK')


def timed(work, *given):
    before, start = processor(), time.time()
    work(*given)
    return time.time() - start, processor() - before


def writes(server):
    for k in range(mib * 8):
        server.pwrite(k.to_bytes(8, 'little') + block[8:], (8 << 30) + k * size)
        if k % 256 == 255:
            server.flush()
    server.flush()


def reads(server):
    for k in range(2048):
        if server.pread(1 << 20, (8 << 30) + (k % mib << 20))[:8] != (8 * (k % mib)).to_bytes(8, 'little'):
            sys.exit('a read gives other bytes than were written')


def small_reads(server):
    for k in range(16384):
        server.pread(4096, (8 << 30) + (k * 7919 % (mib << 8) << 12))


def pending_reads(server):
    for k in range(256):
        server.pread(size, (8 << 30) + k * size)


def fsyncs(server, count):
    for k in range(count):
        server.pwrite(block[:4096], (10 << 30) + (k << 12))
        for copy in range(4):
            server.pwrite(block[:16384], (11 << 30) + (copy << 28) + (k << 14))
        server.flush()
        server.pwrite(superblock, 65536, nbd.CMD_FLAG_FUA)


def commits(server, count):
    for _ in range(count):
        server.pwrite(superblock, 65536, nbd.CMD_FLAG_FUA)


def measured(server, superblocks):
    """Elapsed and processor seconds of each work; of an fsync and of a commit milliseconds."""
    taken = timed(writes, server) + timed(reads, server) + timed(small_reads, server)
    for k in range(256):
        server.pwrite(block, (8 << 30) + k * size)
    taken += timed(pending_reads, server)
    server.flush()
    for work, count in (fsyncs, 400), (commits, superblocks):
        taken += tuple(seconds * 1000 / count for seconds in timed(work, server, count))
    return taken


def flushes(disk):
    for k in range(400):
        os.pwrite(disk, block[:4096], k << 12)
        os.fdatasync(disk)


least = {}
for run in range(runs):
    for side, words in sides.items():
        subprocess.run(['cp', '--sparse=always', f'{folder}/volume.img', f'{folder}/{side}.img'], check=True)
        serving = subprocess.Popen(['nbdkit', '-f', '-U', f'{folder}/socket', *words], stderr=subprocess.DEVNULL)
        while not os.path.exists(f'{folder}/socket'):
            if serving.poll() is not None:
                sys.exit(f'the server did not start: {serving.args}')
            time.sleep(0.01)
        server = nbd.NBD()
        server.connect_unix(f'{folder}/socket')
        server.pread(512, 0)
        taken = measured(server, 400 if side == 'bridge' else 5000)
        server.shutdown()
        serving.send_signal(signal.SIGTERM)
        serving.wait()
        if os.path.exists(f'{folder}/socket'):
            os.unlink(f'{folder}/socket')
        least[side] = [min(pair) for pair in zip(least.get(side, taken), taken)]
    if subprocess.run(['cmp', f'{folder}/file.img', f'{folder}/bridge.img']).returncode:
        sys.exit('the two images differ')
with open(f'{folder}/flushed', 'wb') as disk:
    start = time.time()
    flushes(disk.fileno())
    print(f"the disk's own flush of 4 KiB: {(time.time() - start) * 1000 / 400:.2f} ms")
names = [f'{what}, {kind}' for what in (f'{mib} MiB written, s', '2048 MiB read by 1 MiB, s', '64 MiB read by 4 KiB, s',
                                        '32 MiB read while pending, s', 'an fsync of a small file, ms', 'a commit, ms')
         for kind in ('elapsed', 'processor')]
for what, plain, ours in zip(names, least['file'], least['bridge']):
    print(f'{what}: nbdkit file {plain:.2f}, the bridge {ours:.2f}, ratio {ours / plain:.2f}')
PYTHON
