#!/usr/bin/env python3
"""Times the difference of two images beside the size of the volume, by user time of the program `image_diff`.

Usage: bench/difference.py [PROGRAM]    by default crates/image_diff/out/image_diff

Each volume is of nodes of 4096 bytes with one file tree of three levels. Three commits are made over each: the superblock with
its own bytes; one leaf, copied with its path; and half of the leaves, rewritten in place. The program finds the difference many
times over; printed are microseconds for one time, and for one whole walk's worth of blocks where half of them change."""
import os
import resource
import subprocess
import sys
import tempfile

ROOT = os.path.join(os.path.dirname(os.path.abspath(__file__)), '..')
sys.path[:0] = [os.path.join(ROOT, 'tests'), os.path.join(ROOT, 'examples')]
import image_diff  # noqa: E402

WIDTH, ITEMS = 100, 4


class Big(image_diff.Volume):
    """A volume with so many leaves in tree 5. Blocks are taken one behind the other."""

    def take(self, tree):
        at = self.next[tree == 3]
        self.next[tree == 3] += image_diff.NODESIZE
        self.fresh.add(at)
        return at


def volume_of(leaves):
    room = (leaves * 21 // 20 + 200) * image_diff.NODESIZE
    system, metadata = 0x100000, 0x1000000
    chunks = [image_diff.Chunk(system, 0x10000, 2, (0x100000,)), image_diff.Chunk(metadata, room, 4, (0x200000,))]
    image_diff.LENGTH = 0x200000 + room
    Big.next = [metadata, system]
    tops = [[ITEMS] * min(WIDTH, leaves - at) for at in range(0, leaves, WIDTH)]
    return Big({5: [tops[at:at + WIDTH] for at in range(0, len(tops), WIDTH)]}, chunks)


def seconds(program, old, new, times):
    before = resource.getrusage(resource.RUSAGE_CHILDREN).ru_utime
    said = subprocess.run([program, old, new, str(times)], capture_output=True, check=True).stdout.decode().splitlines()[0]
    return resource.getrusage(resource.RUSAGE_CHILDREN).ru_utime - before, said


def one(program, folder, old, new, times):
    """Microseconds of one difference, and what it says."""
    paths = [os.path.join(folder, name) for name in ('old', 'new')]
    for path, data in zip(paths, (old, new)):
        with open(path, 'wb') as out:
            out.write(data)
    alone = min(seconds(program, *paths, 1)[0] for _ in range(3))
    least, said = min(seconds(program, *paths, 1 + times) for _ in range(3))
    return (least - alone) / times * 1e6, said


def main(words):
    program = words[0] if words else os.path.join(ROOT, 'crates', 'changes', 'out', 'changes')
    with tempfile.TemporaryDirectory() as folder:
        for leaves in (200, 2000, 16000):
            volume = volume_of(leaves)
            old = volume.image()
            rows = [('superblock', one(program, folder, old, old, 20000))]
            volume.generation, volume.fresh = 2, set()
            leaf = volume.roots[5].leaves()[leaves // 2]
            volume.copy(leaf)
            image_diff.rewrite(volume, leaf)
            rows.append(('one leaf', one(program, folder, old, volume.image(old), 2000)))
            volume = volume_of(leaves)
            for leaf in volume.roots[5].leaves()[::2]:
                image_diff.rewrite(volume, leaf)
            rows.append(('half', one(program, folder, old, volume.image(old), 4)))
            for name, (micro, said) in rows:
                print(f'{leaves} leaves, {name}: {micro:.1f} us; {said}', flush=True)


main(sys.argv[1:])
