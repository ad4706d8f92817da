"""Blocks one by one: a leaf or a node of the chunk tree with a few fields changed, and the finding of the first rule that this block
breaks.

Usage: tests/blocks.py [PROGRAM], by default crates/recon/out/recon. Prints one line, and ends with 1 at the first row that differs. A
row: some fields (place, width, value), and the rule and the detail of the finding, or none where the block breaks no rule. Then what comes
behind the block has the first finding: the first item of a leaf, which is of a kind that the chunk tree does not list; the first block
below a node, which no chunk holds; or of an empty leaf the chunk of the system array. The block has 4096 bytes and stands below another
one, between the keys (256, 1, 0) and (300, 1, 0); or it is the root and has any size of a node.
"""
import struct

from rows import Device, SUPERBLOCK, made

ROOT, BELOW, GENERATION = 1048576, 1048576 + 65536, 7
device = Device()


def put(data, *fields):
    for at, width, value in fields:
        data[at:at + width] = made.number(value, width)


def block(size, address, level, count, entries, *changes):
    """A block of the chunk tree with these entries from byte 101 on, and then with fields changed; its checksum is right."""
    data = bytearray(size)
    data[0x20:0x30] = made.FSID
    put(data, (0x30, 8, address), (0x38, 1, 1), (0x3f, 1, 1), (0x50, 8, GENERATION), (0x58, 8, 3), (0x60, 4, count), (0x64, 1, level))
    data[101:101 + len(entries)] = entries
    put(data, *changes)
    return made.mended(data[:size])


def leaf(size, address, count, length, *changes):
    """A leaf with the items (256, 1, 0), (257, 1, 0) and so on of so many bytes each."""
    entries = b''.join(struct.pack('<QBQII', 256 + k, 1, 0, max(0, size - 101 - length * (k + 1)), length) for k in range(count))
    return block(size, address, 0, count, entries, *changes)


def node(size, address, count, *changes):
    """A node of level 1 with the pointers (256, 1, 0), (257, 1, 0) and so on, to 4096, 8192 and so on."""
    entries = b''.join(struct.pack('<QBQQQ', 256 + k, 1, 0, 4096 * (k + 1), GENERATION) for k in range(count))
    return block(size, address, 1, count, entries, *changes)


def above(level):
    """The root above the block, with a pointer to it and one behind it."""
    pointers = struct.pack('<QBQQQ', 256, 1, 0, BELOW, GENERATION) + struct.pack('<QBQQQ', 300, 1, 0, 0, GENERATION)
    return block(4096, ROOT, level + 1, 2, pointers)


def judge(row, size, level, blocks, wanted):
    """A check of the base image with these blocks, places and bytes, as its chunk tree says this."""
    superblock = bytearray(made.superblock(1, made.BLOCKS[1]))
    put(superblock, (0x94, 4, size), (0xa4, 8, GENERATION), (0xc7, 1, level))
    with open(device.path, 'wb') as out:
        out.truncate(made.LENGTH)
        for place, data in [(SUPERBLOCK, made.mended(superblock)), *blocks]:
            out.seek(place)
            out.write(data)
    device.must_say(row, 1, f'image refused {wanted}\n', 'check')


def found(at, rule, detail, key=(0, 0, 0)):
    return f'{rule} tree 3 block {at} key {key[0]} {key[1]} {key[2]} detail {detail}'


LOW = (256, 1, 0)
LEAF = [
    ('',),
    ((0x20, 1, 9), 'N4 0'), ((0x30, 8, 20480), (0x20, 1, 9), 'N4 0'), ((0x30, 8, 20480), (0x38, 1, 3), 'N5 20480'),
    ((0x38, 1, 3), (0x58, 8, 6), 'U12 0'), ((0x58, 8, 6), (0x50, 8, 8), 'N6 6'), ((0x50, 8, 8), (0x64, 1, 1), 'N7 8'),
    ((0x64, 1, 1), (0x60, 4, 0), 'N8 1'), ((0x60, 4, 160), (101, 8, 255), 'N9 160'), ((0x60, 4, 2 ** 32 - 1), 'N9 4294967295'),
    ((0x60, 4, 0), 'N9 0'), ((101, 8, 255), (151, 8, 257), 'N10 0'), ((101, 8, 257), 'N10 0'),
    ((126, 8, 256), (151, 8, 300), 'N11 1'), ((151, 8, 257), 'N11 2'), ((151, 8, 300), (122, 4, 99), 'N12 2'), ((151, 8, 299), ''),
    ((122, 4, 99), 'N14 0'), ((122, 4, 101), 'N14 0'), ((172, 4, 99), 'N14 2'), ((172, 4, 101), 'N14 2'),
    ((168, 4, 3795), (172, 4, 0), ''), ((168, 4, 75), (172, 4, 3720), ''), ((168, 4, 74), (172, 4, 3721), 'N14 2'),
    ((168, 4, 2 ** 32 - 1), (172, 4, 3796), 'N14 2'),
    # Keys go by the first number, then by the kind, then by the last number.
    ((126, 8, 256), (135, 8, 9), (151, 8, 256), (159, 1, 2), ''), ((126, 8, 256), (134, 1, 2), (151, 8, 256), (160, 8, 9), 'N11 2'),
    ((151, 8, 257), (159, 1, 0), (160, 8, 9), 'N11 2'),
]
NODE = [
    ('',), ((0x64, 1, 0), 'N8 0'), ((0x60, 4, 122), 'N9 122'), ((0x60, 4, 0), 'N9 0'),
    ((101, 8, 255), (134, 8, 255), 'N10 0'), ((134, 8, 256), (167, 8, 300), 'N11 1'), ((167, 8, 300), (126, 8, 8), 'N12 2'),
    ((126, 8, 8), (159, 8, 8), 'N13 0'), ((159, 8, 8), (192, 8, 9), 'N13 1'), ((192, 8, 9), 'N13 2'), ((192, 8, 6), ''),
]
ITEM, NO_BLOCK = found(BELOW, 'U9', 1, LOW), found(4096, 'N1', 0, LOW)
for level, rows, make, behind in (0, LEAF, lambda *changes: leaf(4096, BELOW, 3, 100, *changes), ITEM), (
        1, NODE, lambda *changes: node(4096, BELOW, 3, *changes), NO_BLOCK):
    for *fields, finding in rows:
        wanted = found(BELOW, *finding.split(), LOW) if finding else behind
        judge(f'level {level} with {fields}', 4096, level + 1, [(ROOT, above(level)), (BELOW, make(*fields))], wanted)

# Another byte behind the checksum, which stays.
whole = leaf(4096, BELOW, 3, 100)
cut = whole[:0x20] + b'\x09' + whole[0x21:]
judge('a byte under an old checksum', 4096, 1, [(ROOT, above(0)), (BELOW, cut)], found(BELOW, 'N3', made.crc32c(cut[32:]), LOW))

# How many items and pointers a root block takes, by its size.
EMPTY = 'S10 tree 3 block 0 key 256 228 1048576 detail 0'
FIRST, NOWHERE = found(ROOT, 'U9', 1, LOW), found(4096, 'N1', 0, LOW)
FULL = [
    (4096, 0, 0, EMPTY), (4096, 159, 0, FIRST), (4096, 160, 0, found(ROOT, 'N9', 160)), (4096, 17, 210, FIRST),
    (4096, 17, 211, found(ROOT, 'N14', 16)), (8192, 323, 0, FIRST), (8192, 324, 0, found(ROOT, 'N9', 324)),
    (16384, 651, 0, FIRST), (16384, 652, 0, found(ROOT, 'N9', 652)), (32768, 1306, 0, FIRST), (32768, 1307, 0, found(ROOT, 'N9', 1307)),
    (65536, 2617, 0, FIRST), (65536, 2618, 0, found(ROOT, 'N9', 2618)), (65536, 23, 2820, FIRST), (65536, 23, 2821, found(ROOT, 'N14', 22)),
]
FULL_NODES = [
    (4096, 0, found(ROOT, 'N9', 0)), (4096, 121, NOWHERE), (4096, 122, found(ROOT, 'N9', 122)), (8192, 245, NOWHERE),
    (8192, 246, found(ROOT, 'N9', 246)), (16384, 493, NOWHERE), (16384, 494, found(ROOT, 'N9', 494)), (32768, 989, NOWHERE),
    (32768, 990, found(ROOT, 'N9', 990)), (65536, 1982, NOWHERE), (65536, 1983, found(ROOT, 'N9', 1983)),
]
for size, count, length, wanted in FULL:
    judge(f'{count} items of {length} bytes in a block of {size}', size, 0, [(ROOT, leaf(size, ROOT, count, length))], wanted)
for size, count, wanted in FULL_NODES:
    judge(f'{count} pointers in a block of {size}', size, 1, [(ROOT, node(size, ROOT, count))], wanted)
print(f'blocks: {device.runs} blocks have their finding')
