#!/usr/bin/env python3
"""Makes a small Btrfs image of 32 MiB, and a trace that makes a file in it, from the on-disk format alone.

Usage: base_image.py IMAGE [TRACE]
       base_image.py --group-tree IMAGE

The image has one device, nodes of 16384 bytes, and three chunks: system (1 MiB, 4 MiB long, one copy), metadata
(5 MiB, 8 MiB long, two copies) and data (13 MiB, 8 MiB long). Its trees are root, extent, chunk, device, file and
checksum tree, each of one leaf. The trace has two commits: one that writes the three new blocks of a copy on write
and then their superblock, and one whose superblock has lost the first byte of its magic number. With --group-tree the
block groups have a tree of their own, as newer tools make it. The file made_image.py beside this one has the format."""
import sys

from made_image import END, HEADER, LENGTH, SUPERBLOCK, Image, write, writes


def main(image, trace=None, group_tree=False):
    first = Image()
    if group_tree:
        first.group_tree()
    with open(image, 'wb') as out:
        out.truncate(LENGTH)
        for place, data in first.pieces():
            out.seek(place)
            out.write(data)
    if trace:
        second = first.copy()
        second.new_file()
        with open(trace, 'wb') as out:
            out.write(HEADER + b''.join(writes(second, first)) + write(SUPERBLOCK + 0x40, b'\0') + END)


if __name__ == '__main__':
    words = sys.argv[1:]
    if len(words) == 2 and words[0] == '--group-tree':
        main(words[1], group_tree=True)
    elif len(words) in (1, 2) and not words[0].startswith('--'):
        main(*words)
    else:
        sys.exit(__doc__)
