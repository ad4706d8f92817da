"""Makes workloads by the built program and replays them: every commit passes with the next generation and the count of the
blocks that only one of both images has, no write is over a tree block or a data extent that is live before its commit, and
data is written by submitter 1 alone.

Usage: tests/workloads.py [PROGRAM [SEEDS [COMMITS]]], by default crates/recon/out/recon, the seeds 0 to 2, 200 commits.
The seeds 0 to 199 take some minutes. Prints one line, and ends with 1 at the first seed that differs.
"""
import os, struct, subprocess, sys, tempfile

NODE, SECOND = 16384, 8388608
program = os.path.realpath(sys.argv[1] if len(sys.argv) > 1 else 'crates/recon/out/recon')
seeds = int(sys.argv[2]) if len(sys.argv) > 2 else 3
commits = int(sys.argv[3]) if len(sys.argv) > 3 else 200


def device(logical):  # where the first copy of a logical address stands: the base image's three chunks
    return logical + (8388608 if logical >= 13631488 else 0)


def entries(image, at, size):
    for k in range(struct.unpack_from('<I', image, at + 0x60)[0]):
        yield struct.unpack_from('<QBQ', image, at + 101 + size * k), at + 101 + size * k + 17


def blocks_of(image, logical):
    """The addresses of the blocks of a tree, and the items of its leaves."""
    at = device(logical)
    if image[at + 0x64] == 0:
        return [logical], [(key, at + 101 + struct.unpack_from('<I', image, head)[0]) for key, head in entries(image, at, 25)]
    blocks, items = [logical], []
    for _, head in entries(image, at, 33):
        more, found = blocks_of(image, struct.unpack_from('<Q', image, head)[0])
        blocks, items = blocks + more, items + found
    return blocks, items


def live(image):
    """The live blocks as pairs of a tree and an address, and the ranges of the device that they and live extents have."""
    root, chunk_root = struct.unpack_from('<QQ', image, 65536 + 0x50)
    blocks, items = blocks_of(image, root)
    pairs, extents = {(1, at) for at in blocks} | {(3, at) for at in blocks_of(image, chunk_root)[0]}, []
    for (tree, kind, _), at in items:
        if kind == 132:
            blocks, found = blocks_of(image, struct.unpack_from('<Q', image, at + 176)[0])
            pairs |= {(tree, block) for block in blocks}
            extents += [(device(key[0]), key[2]) for key, _ in found if key[1] == 168]
    copies = [(device(block), NODE) for _, block in pairs]
    return pairs, sorted(copies + [(at + SECOND, NODE) for at, _ in copies if 5242880 <= at < 13631488] + extents)


def judge(seed, folder):
    image_file, trace_file = f'{folder}/image', f'{folder}/trace'
    with open(image_file, 'wb') as f:
        f.truncate(32 << 20)
    with open(trace_file, 'wb') as f:
        subprocess.run([program, 'make', str(seed), str(commits), image_file], stdout=f, check=True)
    image, trace = bytearray(open(image_file, 'rb').read()), open(trace_file, 'rb').read()
    with open(trace_file, 'rb') as f:
        lines = subprocess.run([program, 'replay', image_file], stdin=f, stdout=subprocess.PIPE).stdout.decode().splitlines()
    wanted = ['image accepted generation 1']
    at, (pairs, taken) = 16, live(image)
    while trace[at] == 1:
        submitter, place, size = struct.unpack_from('<HQI', trace, at + 1)
        at += 15 + size
        image[place:place + size] = trace[at - size:at]
        if place == 65536:
            before, (pairs, taken), count = pairs, live(image), len(wanted)
            wanted.append(f'commit {count} passed generation {count + 1} blocks {len(before ^ pairs)} hot 0')
            continue
        if submitter != (place >= 22020096):
            return f'a write at {place} by submitter {submitter}'
        if any(one < place + size and place < one + length for one, length in taken):
            return f'a write at {place} is over what is live'
    if trace[at] != 255 or image != open(image_file, 'rb').read():
        return 'the replay left another image than the writes do'
    wanted.append(f'end passed {commits} rejected 0')
    return None if lines == wanted else f'replay said {[line for line in lines if line not in wanted][:1]}'


with tempfile.TemporaryDirectory() as folder:
    for seed in range(seeds):
        wrong = judge(seed, folder)
        if wrong:
            sys.exit(f'tests/workloads.py: seed {seed}: {wrong}')
print(f'workloads: {seeds} of {commits} commits pass, over nothing that is live')
