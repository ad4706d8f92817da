"""What a power cut in the middle of a commit leaves is accepted by the full check, where the commit's line says hot 0.

Usage: tests/stops.py [PROGRAM [STOPS [IMAGE TRACE]]], by default crates/recon/out/recon, 300 stops, a made workload of 60 commits.
IMAGE and TRACE may be those of a real driver: IMAGE is copied and not written. The trace is replayed for its lines. Then commit by
commit the writes are put on the image as a replay would send them, and the disk is stopped before one of its flushes: of each pending
write outside the superblock place nothing is on the disk, or all, or a part of it, or other bytes stand in a part of its range; or all of
them are there, and the superblock is the old one or the new one. `recon check` has to accept each such image, with the generation of its
superblock. The new superblock alone, as a disk would have it that does not flush in between, has to be refused. Prints one line, and ends
with 1 at the first image that is judged otherwise.
"""
import os
import random
import struct
import subprocess
import sys
import tempfile

program = os.path.realpath(sys.argv[1] if len(sys.argv) > 1 else 'crates/recon/out/recon')
stops = int(sys.argv[2]) if len(sys.argv) > 2 else 300
given = sys.argv[3:5]
PLACE, SIZE = 65536, 4096
draw = random.Random(7)


def commits_of(trace):
    """The writes of each judged event: where and what, and None for a settle; a fetch is left out."""
    found, writes, at = [], [], 16
    while trace[at] in (1, 2, 3):
        tag = trace[at]
        if tag == 1:
            _, place, size = struct.unpack_from('<HQI', trace, at + 1)
            at += 15 + size
            writes.append((place, trace[at - size:at]))
            judged = place < PLACE + SIZE and PLACE < place + size
        else:
            at += 1 if tag == 2 else 13
            judged = tag == 2
        if judged:
            found.append(writes)
            writes = []
    return found


def outside(writes):
    """The parts of writes that lie outside the superblock place."""
    for at, data in writes:
        before, behind = data[:max(0, PLACE - at)], data[max(0, PLACE + SIZE - at):]
        if before:
            yield at, before
        if behind:
            yield max(at, PLACE + SIZE), behind


def kept(at, data):
    """What a stop leaves of one pending write: ranges with bytes."""
    first, last = sorted(draw.randrange(len(data) + 1) for _ in range(2))
    kind = draw.randrange(4)
    if kind == 0:
        return []
    if kind == 1:
        return [(at, data)]
    part = data[first:last] if kind == 2 else draw.randbytes(last - first)
    return [(at + first, part)]


def check(path):
    return subprocess.run([program, 'check', path], stdout=subprocess.PIPE).stdout.decode().strip()


def accepted(image, path, ranges):
    """Puts bytes over ranges of the image for one check: whether it is accepted with the superblock's generation, and its line."""
    old = []
    for at, data in ranges:
        image.seek(at)
        old.append((at, image.read(len(data))))
        image.seek(at)
        image.write(data)
    image.flush()
    image.seek(PLACE + 72)
    generation, = struct.unpack('<Q', image.read(8))
    line = check(path)
    for at, data in reversed(old):
        image.seek(at)
        image.write(data)
    image.flush()
    return line == f'image accepted generation {generation}', line


def main(folder):
    path, other = f'{folder}/image', f'{folder}/other'
    if given:
        with open(given[0], 'rb') as source, open(path, 'wb') as out:
            out.write(source.read())
        with open(given[1], 'rb') as source:
            trace = source.read()
    else:
        with open(path, 'wb') as out:
            out.truncate(32 << 20)
        trace = subprocess.run([program, 'make', '7', '60', path], stdout=subprocess.PIPE, check=True).stdout
    with open(path, 'rb') as source, open(other, 'wb') as out:
        out.write(source.read())
    lines = subprocess.run([program, 'replay', other], input=trace, stdout=subprocess.PIPE).stdout.decode().splitlines()[1:-1]
    lines = [line for line in lines if not line.startswith('fetch')]
    commits = commits_of(trace)
    if len(lines) != len(commits):
        sys.exit(f'tests/stops.py: {len(lines)} lines for {len(commits)} judged events')
    each, tried, hot = -(-stops // len(commits)), 0, 0
    with open(path, 'r+b') as image:
        for line, writes in zip(lines, commits):
            if ' rejected ' in line:
                continue
            pieces = list(outside(writes))
            parts = [(max(at, PLACE), data[max(0, PLACE - at):PLACE + SIZE - at]) for at, data in writes]
            place = [(at, data) for at, data in parts if data and at < PLACE + SIZE]
            if line.endswith(' hot 0'):
                for number in range(each):
                    kinds = [lambda: [part for one in pieces for part in kept(*one)], lambda: pieces, lambda: pieces + place]
                    ranges = kinds[0 if number % 8 else draw.randrange(3)]()
                    fine, said = accepted(image, path, ranges)
                    tried += 1
                    if not fine:
                        sys.exit(f'tests/stops.py: a stop in the event with the line "{line}" leaves: {said}')
                if pieces and place and accepted(image, path, place)[0]:
                    sys.exit(f'tests/stops.py: the new superblock alone is accepted in the event with the line "{line}"')
            else:
                hot += 1
            for at, data in writes:
                image.seek(at)
                image.write(data)
            image.flush()
    with open(path, 'rb') as one, open(other, 'rb') as two:
        if one.read() != two.read():
            sys.exit('tests/stops.py: the images differ at the end')
    if not tried:
        sys.exit('tests/stops.py: nothing was tried')
    print(f'stops: {tried} images that a stop leaves are accepted; {hot} events that write over live blocks were left out')


with tempfile.TemporaryDirectory() as folder:
    main(folder)
