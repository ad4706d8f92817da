"""An index that was moved by commits says what one does that is built anew.

Usage: tests/restarts.py [PROGRAM [SEED [COMMITS]]], by default crates/recon/out/recon, the seed 7, 60 commits.
A made workload is replayed in one run, so that each commit is judged by an index that the commits before it moved. Then each commit is
replayed in a run of its own, by an index that is built of the image before it: the line has to be the same, and at the end the image.
Behind each fifth commit come some that are to be rejected, each a byte changed in a block that the commit wrote, and then the commit's
own bytes again. Prints one line, and ends with 1 at the first commit that differs.
"""
import os
import random
import struct
import subprocess
import sys
import tempfile

program = os.path.realpath(sys.argv[1] if len(sys.argv) > 1 else 'crates/recon/out/recon')
seed = sys.argv[2] if len(sys.argv) > 2 else '7'
commits = sys.argv[3] if len(sys.argv) > 3 else '60'
HEADER, END, SUPERBLOCK = b'RECONTRC' + struct.pack('<II', 1, 0), b'\xff', 65536
draw = random.Random(int(seed))


def write(at, data):
    return b'\x01' + struct.pack('<HQI', 0, at, len(data)) + data


def commits_of(trace):
    """The writes of each commit: where and what."""
    found, writes, at = [], [], 16
    while trace[at] == 1:
        _, place, size = struct.unpack_from('<HQI', trace, at + 1)
        at += 15 + size
        writes.append((place, trace[at - size:at]))
        if place == SUPERBLOCK:
            found.append(writes)
            writes = []
    return found


def hurt(writes):
    """The same commit with one byte changed in a block, and its superblock."""
    place, data = draw.choice(writes[:-1])
    at = draw.randrange(len(data))
    return [(place, data[:at] + bytes([data[at] ^ 1 << draw.randrange(8)]) + data[at + 1:]), writes[-1]]


def replay(image, events):
    run = subprocess.run([program, 'replay', image], input=HEADER + b''.join(write(*one) for one in events) + END, stdout=subprocess.PIPE)
    return run.stdout.decode().splitlines()


with tempfile.TemporaryDirectory() as folder:
    image, other = f'{folder}/image', f'{folder}/other'
    with open(image, 'wb') as out:
        out.truncate(32 << 20)
    trace = subprocess.run([program, 'make', seed, commits, image], stdout=subprocess.PIPE, check=True).stdout
    with open(image, 'rb') as first, open(other, 'wb') as out:
        out.write(first.read())
    events = []
    for number, writes in enumerate(commits_of(trace)):
        events.append(writes)
        if number % 5 == 4:
            events += [hurt(writes), hurt(writes), writes]
    whole = replay(image, [write for one in events for write in one])[1:-1]
    if len(whole) != len(events):
        sys.exit(f'tests/restarts.py: {len(whole)} lines for {len(events)} commits: {whole[-1:]}')
    rejected = 0
    for number, (line, writes) in enumerate(zip(whole, events)):
        alone = replay(other, writes)[1]
        if line.split(' ', 2)[2] != alone.split(' ', 2)[2]:
            sys.exit(f'tests/restarts.py: commit {number + 1}: {line}; by a new index: {alone}')
        rejected += ' rejected ' in line
    with open(image, 'rb') as one, open(other, 'rb') as two:
        if one.read() != two.read():
            sys.exit('tests/restarts.py: the images differ')
    if not rejected:
        sys.exit('tests/restarts.py: nothing was rejected')
print(f'restarts: {len(events)} commits, {rejected} of them rejected, are judged alike by an index that was moved and by one that is built anew')
