#!/usr/bin/env python3
"""Tries each row of the table `Outside the profile` in docs/format.md on the built program: makes a volume with the
feature from the examples' base image, checksums mended, and compares the line of `recon check` and its status. Each row
of the table has a case here with the finding that it names, or says that it was read and not tried.

Usage: tests/profile.py [PROGRAM], by default crates/recon/out/recon. Prints one line, and ends with 1 at the first that
differs."""
import re
import struct

from rows import (
    BASE, EXTENTS, FILES, ROOTS, SUPERBLOCK, Device, changed, fail, in_repository, leaf, made, metadata_group, put, used,
    write)

DATA_CHUNK = (256, 228, 13631488)
FREE_BLOCK, INCOMPAT = 5324800, 865
BELOW = (1 << 64).__sub__  # an id that counts down from 2^64


def u32(number):
    return made.number(number, 4)


def u64(number):
    return made.number(number)


# Further changes of an image.
def sup(at, data):
    """Bytes of the superblock."""
    return write(SUPERBLOCK + at, data)


def field(tree, key, at, data):
    """Bytes of an item that stands there."""
    def change(image):
        item = image.items(image.root(tree))[key]
        image.put(tree, (key, item[:at] + data + item[at + len(data):]))
    return change


def new_tree(tree, *items):
    """A tree of one block, with its root item and its extent; the group and the superblock count its bytes."""
    return [put(1, made.root(tree, FREE_BLOCK)), leaf(FREE_BLOCK, tree, *items), put(2, made.block(FREE_BLOCK, tree)),
            metadata_group(81920 + 16384), used(98304 + 16384)]


def root_item(tree, address, at=0, byte=0):
    """A root item with one byte changed."""
    item = bytearray(made.root(tree, address)[1])
    item[at] = byte
    return bytes(item)


def of_image(rule, detail):
    return f'refused {rule} tree 0 block 0 key 0 0 0 detail {detail}'


def of_item(rule, tree, key, detail):
    return f'refused {rule} tree {tree} block {made.BLOCKS[tree]} key {key[0]} {key[1]} {key[2]} detail {detail}'


def with_bit(bit):
    """A case of an incompat bit that is not in the profile."""
    return of_image('U2', INCOMPAT | 1 << bit), sup(0xBC, u64(INCOMPAT | 1 << bit))


def with_item(rule, tree, key, data, detail):
    """A case of one more item."""
    return of_item(rule, tree, key, detail), put(tree, (key, data))


def second_superblock(image):
    """A device that is longer than the file system, with bytes that are no superblock where a second one may stand."""
    image.behind = (64 << 20, b'\x55' * 4096)


GOOD = 'accepted generation 1'
# For each row of the table its cases: the line behind `image `, and the changes.
CASES = {
    'Several devices': [(of_image('U5', 2), sup(0x88, u64(2))),
                        (of_item('U5', 3, DATA_CHUNK, 2), field(3, DATA_CHUNK, 48, u64(2))),
                        with_item('U5', 3, (1, 216, 2), u64(2) + bytes(90), 2)],
    'RAID profiles': [(of_item('U6', 3, DATA_CHUNK, 1 | kind), field(3, DATA_CHUNK, 24, u64(1 | kind)))
                      for kind in (8, 16, 64, 128, 256, 512, 1024)] + [with_bit(7), with_bit(11)],
    'Other sector sizes': [(of_image('U4', size), sup(0x90, u32(size))) for size in (8192, 16384, 65536)],
    'Other checksum kinds': [(of_image('U1', kind), sup(0xC4, struct.pack('<H', kind))) for kind in (1, 2, 3)],
    'Node sizes outside the five': [(of_image('S5', size), sup(0x94, u32(size))) for size in (2048, 12288, 131072)],
    'Zoned devices': [with_bit(12)],
    'Extent tree version 2': [with_bit(13)],
    'RAID stripe tree': [with_bit(14)],
    'Simple quotas': [with_bit(16)],
    'Metadata uuid': [with_bit(10)],
    'Verity': [(of_image('U3', 4), sup(0xB4, u64(4)))],
    'Tree block extents that are not skinny': [
        (of_image('U2', INCOMPAT - 256), sup(0xBC, u64(INCOMPAT - 256))),
        with_item('U10', 2, (EXTENTS, 168, 16384), struct.pack('<QQQQBQBQ', 1, 1, 2, 0, 0, 0, 176, 2), 2)],
    'Compression': [with_item('U13', 5, (257, 108, 0), bytes(16) + bytes([kind]) + bytes(36), kind) for kind in (1, 2, 3)]
    + [with_bit(3), with_bit(4)],
    'Encryption': [with_item('U14', 5, (257, 108, 0), bytes(17) + b'\1' + bytes(35), 1),
                   with_item('U14', 5, (257, 108, 0), bytes(18) + b'\2' + bytes(34), 2)],
    'Balance': [with_item('U9', 1, (BELOW(4), 248, 0), bytes(448), 248),
                with_item('U7', 1, (BELOW(8), 132, 5), root_item(5, FILES), BELOW(8))],
    'Blocks with the relocation flag': [(f'refused U12 tree 5 block {FILES} key 0 0 0 detail 0', write(FILES + 0x38, b'\3'))],
    'Deletion of a subvolume': [with_item('U8', 1, (256, 132, 0), root_item(256, FREE_BLOCK, 220, 1), 0),
                                with_item('U9', 1, (BELOW(5), 48, 256), b'', 48)],
    'Device replace': [with_item('U9', 4, (0, 250, 0), bytes(80), 250)],
    'Inode number cache': [with_item('U9', 5, (BELOW(12), 1, 0), made.inode(0, mode=33152)[1], 1)],
    'Free space cache of version 1': [with_item('U9', 1, (BELOW(11), 0, 13631488), bytes(41), 0),
                                      with_item('U9', 1, (256, 108, 0), bytes(53), 108)],
    'Snapshots': [(f'refused N6 tree 256 block {FILES} key 0 0 0 detail 5', put(1, made.root(256, FILES))),
                  (of_item('U11', 2, (FILES, 169, 0), 256), field(2, (FILES, 169, 0), 16, u64(258))),
                  with_item('U11', 2, (FILES, 182, ROOTS), b'', 182),
                  with_item('U11', 2, (13631488, 184, FILES), u32(1), 184)],
    'Log tree': [(GOOD, sup(0x60, u64(FREE_BLOCK)))],
    'Free space tree': [(GOOD, sup(0xB4, u64(3)), *new_tree(10, ((5242880, 198, 8388608), b'not so')))],
    'Quota tree, tree of subvolume uuids': [(GOOD, *new_tree(8, ((0, 242, 5), b'not so'))),
                                            (GOOD, *new_tree(9, ((1, 251, 2), b'not so')))],
    'Backup roots': [(GOOD, sup(0xB2B, b'\xff' * 672))],
    'Copies of the superblock': [(GOOD, second_superblock)],
    'Seed flag': [(GOOD, sup(0x38, u64(1 | 1 << 32)))],
    'Holes that are written as items': [(GOOD, sup(0xBC, u64(INCOMPAT - 512)))],
}


def documented():
    """The rows of the table: the feature, and what the check says."""
    with open(in_repository('docs/format.md')) as document:
        part = document.read().split('\n## Outside the profile\n')[1].split('\n## ')[0]
    rows = [line.strip('|').split('|') for line in part.split('\n') if line.startswith('| ')][1:]
    return {row[0].strip(): row[-1].strip() for row in rows}


def judge(feature, wanted, changes):
    """A check of the base image with changes says what is wanted."""
    image = changed(BASE, changes)
    device.fill(image, more=(32 << 20) + 4096 if hasattr(image, 'behind') else 0)
    if hasattr(image, 'behind'):
        device.write(*image.behind)
    device.must_say(feature, 0 if wanted == GOOD else 1, f'image {wanted}\n', 'check')


table = documented()
for feature, says in table.items():
    if feature not in CASES and 'not tried' not in says:
        fail(feature, 'it has no case')
device = Device()
judge('the base image', GOOD, [])
for feature, cases in CASES.items():
    for wanted, *changes in cases:
        rule = re.match(r'accepted|refused (\w+)', wanted)
        if (rule[1] or rule[0]) not in re.findall(r'\w+', table.get(feature, '')):
            fail(feature, f'docs/format.md does not say {rule[0]} of it')
        judge(feature, wanted, changes)
tried = sum(map(len, CASES.values()))
print(f'profile: {tried} volumes outside the profile, of {len(CASES)} features, are judged as docs/format.md says')
