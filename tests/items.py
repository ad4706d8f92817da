"""Checks of items one by one: a leaf that has one item alone, and the finding of the first rule that this item breaks.

Usage: tests/items.py [PROGRAM], by default crates/recon/out/recon. Prints one line, and ends with 1 at the first row
that differs. A row: the item, and the rule and the detail of its finding, or none where the item breaks no rule of its
own. Behind such an item the leaf has one of a kind that no tree lists, which then has the first finding: so the item was
read and passed."""
import struct

from rows import (
    BASE, CHUNKS, DEVICES, EXTENTS, FILES, LEFT, OWN_GROUPS, ROOTS, SUMS, Device, changed, leaf, made, put)

# Each tree: its id and the address of its leaf.
ROOT, EXTENT, CHUNK, DEVICE, FILE, CSUM = (1, ROOTS), (2, EXTENTS), (3, CHUNKS), (4, DEVICES), (5, FILES), (7, SUMS)
GROUP = (11, LEFT)
# The greatest multiple of a sector in 64 bits, the one before it, and the least address from which a block ends at 2^64.
TOP = 2 ** 64 - 4096
BELOW_TOP, LAST_BLOCK = TOP - 4096, 2 ** 64 - 16384
# The greatest id of a file, and the first behind those of subvolumes.
LAST_ID, NO_SUBVOLUME = 2 ** 64 - 256, 2 ** 64 - 255
START = 1048576
# The hash of the name `default`, as published.
DEFAULT_HASH = 2378154706


def bytes_of(size, *fields, fill=0):
    """So many bytes, with numbers put in: their place, their width and their value."""
    data = bytearray([fill] * size)
    for at, width, value in fields:
        data[at:at + width] = made.number(value, width)
    return bytes(data)


def changed_bytes(data, *changes):
    data = bytearray(data)
    for at, byte in changes:
        data[at] = byte
    return bytes(data)


def at(tree, objectid, kind, offset, data, size=None):
    """An item in the leaf of a tree, which may be cut to its first bytes."""
    return tree, (objectid, kind, offset), data if size is None else data[:size]


INODE = bytes_of(160, (16, 8, 10), (24, 8, 4096), (40, 4, 3), (52, 4, 0o100644), (64, 8, 1), fill=0xee)
INODES = [
    (at(FILE, 255, 1, 1, INODE), 'U9 1'), (at(FILE, NO_SUBVOLUME, 1, 0, INODE), 'U9 1'), (at(FILE, made.ORPHANS, 1, 0, INODE), 'U9 1'),
    (at(FILE, 256, 1, 0, INODE), ''), (at(FILE, LAST_ID, 1, 0, INODE), ''),
    (at(FILE, 257, 1, 1, INODE), 'I2 0'), (at(FILE, 257, 1, 1 << 56, INODE, 159), 'I2 0'),
    (at(FILE, 257, 1, 0, INODE, 159), 'I1 159'), (at(FILE, 257, 1, 0, INODE, 0), 'I1 0'), (at(FILE, 257, 1, 0, INODE, 53), 'I1 53'),
    *((at(FILE, 257, 1, 0, changed_bytes(INODE, (53, mode))), finding) for mode, finding in [
        (0x01, 'I3 52'), (0x31, 'I3 52'), (0xf1, 'I3 52'), (0x0a, 'I3 52'),
        (0x41, ''), (0x2f, ''), (0x61, ''), (0x11, ''), (0xc1, ''), (0xa1, '')]),
    (at(CSUM, 257, 1, 0, INODE), 'U9 1'),
]

ATTRIBUTES_AND_ORPHANS = [(at(FILE, objectid, kind, offset, bytes(size)), finding) for objectid, kind, offset, size, finding in [
    (255, 24, 9, 0, 'U9 24'), (made.ORPHANS, 24, 9, 0, 'U9 24'), (256, 24, 9, 0, ''), (LAST_ID, 24, 9, 2, ''),
    (255, 48, 9, 0, 'U9 48'), (made.ORPHANS - 1, 48, 9, 0, 'U9 48'), (NO_SUBVOLUME, 48, 9, 0, 'U9 48'),
    (256, 48, 9, 2, 'I2 0'), (LAST_ID, 48, 9, 0, 'I2 0'), (made.ORPHANS, 48, 257, 1, 'I1 1'),
    (made.ORPHANS, 48, 0, 0, ''), (made.ORPHANS, 48, 2 ** 64 - 1, 0, ''),
]]

# A name of one byte and a name of three; and the first of them with the number of its directory.
TWO_NAMES = struct.pack('<QH', 2, 1) + b'a' + struct.pack('<QH', 263, 3) + b'bcd'
FAR_NAME = struct.pack('<QQH', 256, 2, 1) + b'a'
NAMES = [(at(FILE, objectid, 12, 256, changed_bytes(TWO_NAMES, *changes), size), finding) for objectid, size, changes, finding in [
    (255, 0, [], 'U9 12'), (257, 0, [], 'I1 0'), (257, 9, [], 'I1 0'), (257, 10, [], 'I1 10'), (257, 11, [], ''), (257, 12, [], 'I1 11'),
    (257, 20, [], 'I1 11'), (257, 21, [], 'I1 21'), (257, 23, [], 'I1 21'), (LAST_ID, 24, [], ''),
    (257, 11, [(8, 0)], 'I3 8'), (257, 11, [(8, 2)], 'I1 10'), (257, 24, [(9, 1)], 'I1 10'), (257, 24, [(19, 0)], 'I3 19'),
    (257, 21, [(19, 0)], 'I3 19'), (257, 24, [(19, 2)], 'I1 23'),
]]
NAMES += [(at(FILE, 257, 13, 5, changed_bytes(FAR_NAME, *changes), size), finding) for size, changes, finding in [
    (0, [], 'I1 0'), (17, [], 'I1 0'), (18, [], 'I1 18'), (19, [], ''), (19, [(16, 0)], 'I3 16'), (19, [(17, 1)], 'I1 18'),
]]
NAMES += [(at(FILE, 257, 12, 256, bytes_of(266, (8, 2, length), fill=ord('n')), size), finding) for length, size, finding in [
    (255, 264, 'I1 10'), (255, 265, ''), (256, 265, 'I1 10'), (256, 266, 'I3 8'),
]]

# An entry of the file 257 with the name `default`, one of the subvolume 258 with another name of its hash, and the first
# once more.
FIRST = made.entry(257, 1, b'default', generation=9)
SECOND = made.entry(258, 2, bytes([148, 51, 101, 147]), kind=made.ROOT_ITEM, generation=0)
SECOND = SECOND[:9] + made.number(2 ** 64 - 1) + SECOND[17:]
ALL = FIRST + SECOND + FIRST
ENTRIES = [(at(FILE, objectid, 84, offset, changed_bytes(FIRST, *changes)), finding) for objectid, offset, changes, finding in [
    (255, 5, [], 'U9 84'), (256, 5, [], f'I4 {DEFAULT_HASH}'), (256, 3854364186, [], f'I4 {DEFAULT_HASH}'), (LAST_ID, DEFAULT_HASH, [], ''),
    *((256, DEFAULT_HASH, changes, finding) for changes, finding in [
        ([(8, 0), (25, 1)], 'I3 8'), ([(8, 12)], 'I3 8'), ([(8, 132)], ''), ([(25, 1), (27, 0)], 'I3 25'), ([(26, 1)], 'I3 25'),
        ([(27, 0), (29, 0)], 'I3 27'), ([(28, 1)], 'I3 27'), ([(29, 0), (27, 8)], 'I3 29'), ([(29, 8)], 'I3 29'), ([(29, 7)], '')]),
    (256, 5, [(27, 8)], 'I1 30'), (256, DEFAULT_HASH, [(27, 6)], 'I4 2132762027'),
]]
ENTRIES += [(at(FILE, 256, kind, DEFAULT_HASH, ALL[begin:end]), finding) for begin, end, kind, finding in [
    (0, 0, 84, 'I1 0'), (0, 29, 84, 'I1 0'), (0, 30, 84, 'I1 30'), (0, 36, 84, 'I1 30'), (0, 38, 84, 'I1 37'), (0, 66, 84, 'I1 37'),
    (0, 70, 84, 'I1 67'), (0, 71, 84, ''), (37, 108, 84, ''), (0, 108, 84, 'I5 71'), (0, 0, 96, 'I1 0'), (0, 36, 96, 'I1 30'),
    (0, 37, 96, ''), (37, 71, 96, ''), (0, 38, 96, 'I1 38'), (0, 71, 96, 'I1 71'),
]]
ENTRIES += [
    (at(FILE, 256, 84, DEFAULT_HASH, FIRST + FIRST), 'I5 37'),
    (at(FILE, 256, 84, DEFAULT_HASH, changed_bytes(ALL, (67, 149))), 'I4 1358588010'),
    (at(FILE, 256, 96, 2, changed_bytes(ALL, (67, 149)), 37), ''),
]
LONG = changed_bytes(bytes_of(286, (8, 8, 1), (22, 8, 0), fill=ord('n')), (29, 7))
ENTRIES += [(at(FILE, 256, kind, 3785498463, LONG[:27] + made.number(length, 2) + LONG[29:], size), finding) for length, size, kind, finding in [
    (255, 284, 84, 'I1 30'), (255, 285, 84, ''), (256, 286, 84, 'I3 27'), (256, 286, 96, 'I3 27'), (255, 286, 96, 'I1 286'),
]]


def extent(sort, ram, disk):
    """A range of a file: its type, its length in memory; and of its extent the address, the length, the first byte and
    how many of them."""
    return bytes_of(54, (0, 8, 1), (8, 8, ram), (20, 1, sort), *((21 + 8 * place, 8, value) for place, value in enumerate(disk)))


GOOD = (13631488, 8192, 4096, 4096)
RANGES = [(at(FILE, 257, 108, offset, extent(sort, 4096, disk), size), finding) for offset, size, sort, disk, finding in [
    (0, 53, 1, GOOD, ''), (4096, 53, 2, GOOD, ''), (1, 53, 3, GOOD, 'I3 20'), (1, 52, 1, GOOD, 'I2 0'), (0, 52, 1, (0, 0, 0, 0), 'I1 52'),
    (0, 54, 1, (1, 0, 0, 0), 'I1 54'), (0, 21, 2, GOOD, 'I1 21'), (0, 53, 1, (1, 1, 0, 0), 'I3 21'),
    (0, 53, 1, (4096, 4097, 1, 0), 'I3 29'), (0, 53, 1, (4096, 0, 2048, 1), 'I3 37'), (TOP, 53, 1, (4096, 4096, 0, 512), 'I3 45'),
    (TOP, 53, 2, (0, 4096, 0, 4096), 'I3 45'), (BELOW_TOP, 53, 1, (0, 4096, 0, 4096), ''), (0, 53, 2, (0, 0, 0, 4096), 'I3 21'),
    (0, 53, 1, (0, TOP, TOP, 8192), ''), (0, 53, 1, (4096, 4096, 0, 0), ''), (0, 53, 1, (TOP, 4096, 4096, 4096), 'I3 29'),
    (0, 53, 1, (BELOW_TOP, 4096, 0, 4096), ''), (0, 53, 2, (4096, 8192, 4096, 8192), 'I3 45'), (0, 53, 1, (4096, 8192, 12288, 0), 'I3 45'),
    (0, 53, 1, (4096, 8192, TOP, 8192), 'I3 45'),
]]
RANGES += [(at(FILE, objectid, 108, offset, changed_bytes(extent(0, ram, (1, 1, 1, 1)), *changes), size), finding)
           for objectid, offset, size, ram, changes, finding in [
    (255, 0, 20, 32, [], 'U9 108'), (257, 1, 20, 32, [(16, 1)], 'I1 20'), (257, 1, 53, 32, [(16, 3), (17, 2)], 'U13 3'),
    (257, 1, 53, 32, [(17, 2), (18, 5)], 'U14 2'), (257, 1, 53, 32, [(19, 1), (20, 3)], 'U14 256'), (257, 1, 53, 32, [(20, 3)], 'I3 20'),
    (257, 1, 52, 32, [], 'I2 0'), (257, 4096, 53, 32, [], 'I2 0'), (257, 0, 52, 32, [], 'I1 52'), (257, 0, 54, 32, [], 'I1 54'),
    (257, 0, 53, 53, [], 'I1 53'), (257, 0, 21, 0, [], ''), (257, 0, 22, 0, [], 'I1 22'), (257, 0, 20, 2 ** 64 - 1, [], 'I1 20'),
    (257, 0, 21, 2 ** 64 - 21, [], 'I1 21'),
]]

CHECKSUMS = [(at(CSUM, objectid, 128, offset, bytes(range(1, 9)), size), finding) for objectid, offset, size, finding in [
    (made.SUMS + 1, 1, 3, 'I2 0'), (made.SUMS - 1, 4096, 4, 'I2 0'), (made.SUMS, 2048, 3, 'I2 0'), (made.SUMS, TOP, 0, 'I1 0'),
    (made.SUMS, TOP, 3, 'I1 3'), (made.SUMS, 4096, 6, 'I1 6'), (made.SUMS, 0, 4, ''), (made.SUMS, 4096, 8, ''), (made.SUMS, BELOW_TOP, 4, ''),
    (made.SUMS, BELOW_TOP, 8, 'I1 8'), (made.SUMS, TOP, 4, 'I1 4'),
]]
CHECKSUMS.append((at(FILE, made.SUMS, 128, 4096, bytes(8)), 'U9 128'))


def data_item(flags, first, second):
    """An extent of data with two references as long as those of files, each of a type and a count; read as that of a leaf,
    the first has a count that is 0 exactly where this one is."""
    return bytes_of(82, (0, 8, 2), (8, 8, 8), (16, 8, flags), (24, 1, first[0]), (25, 8, 5), (33, 8, 257 * first[1]), (41, 8, 8192),
                    (49, 4, first[1]), (53, 1, second[0]), (54, 8, 300), (62, 8, 258), (70, 8, TOP), (78, 4, second[1]))


ONE = (178, 1)
EXTENTS_OF_DATA = [(at(tree, objectid, 168, offset, data_item(flags, first, second), size), finding)
                   for tree, objectid, offset, flags, first, second, size, finding in [
    (CHUNK, START, 4096, 1, ONE, ONE, 82, 'U9 168'), (ROOT, 1, 0, 1, ONE, ONE, 82, 'U9 168'), (EXTENT, START + 1, 4096, 1, ONE, ONE, 82, 'I2 0'),
    (EXTENT, START, 4097, 1, ONE, ONE, 82, 'I2 0'), (EXTENT, START, 0, 1, ONE, ONE, 82, 'I2 0'), (EXTENT, TOP, 4096, 1, ONE, ONE, 82, 'I2 0'),
    (EXTENT, START, 0, 1, ONE, ONE, 23, 'I2 0'), (EXTENT, START, 4096, 1, ONE, ONE, 23, 'I1 23'), (EXTENT, START, 4096, 2, ONE, ONE, 0, 'I1 0'),
    (EXTENT, START, 4096, 2, ONE, ONE, 82, 'U10 2'), (EXTENT, START, 4096, 3, ONE, ONE, 82, 'U10 3'),
    (EXTENT, START, 4096, 258, ONE, ONE, 82, 'U10 258'), (EXTENT, START, 4096, 257, ONE, ONE, 82, 'I3 16'),
    (EXTENT, START, 4096, 0, (176, 1), ONE, 82, 'I3 16'), (EXTENT, START, 4096, 1, (176, 1), ONE, 82, 'I3 24'),
    (EXTENT, START, 4096, 1, (182, 1), ONE, 25, 'I3 24'), (EXTENT, START, 4096, 1, ONE, ONE, 25, 'I1 25'),
    (EXTENT, START, 4096, 1, (178, 0), ONE, 52, 'I1 25'), (EXTENT, START, 4096, 1, (184, 0), ONE, 36, 'I1 25'),
    (EXTENT, START, 4096, 1, (178, 0), ONE, 53, 'I3 49'), (EXTENT, START, 4096, 1, (184, 0), ONE, 37, 'I3 33'),
    (EXTENT, START, 4096, 1, (184, 1), ONE, 37, 'U11 184'), (EXTENT, START, 4096, 1, (178, 0), (0, 0), 82, 'I3 49'),
    (EXTENT, START, 4096, 1, ONE, ONE, 24, ''), (EXTENT, BELOW_TOP, 4096, 1, ONE, ONE, 53, ''), (EXTENT, 0, TOP, 1, ONE, (178, 4), 82, ''),
    (EXTENT, START, 4096, 1, ONE, (0, 1), 82, 'I3 53'), (EXTENT, START, 4096, 1, ONE, ONE, 54, 'I1 54'),
    (EXTENT, START, 4096, 1, ONE, (178, 0), 81, 'I1 54'), (EXTENT, START, 4096, 1, ONE, (178, 0), 82, 'I3 78'),
]]


def block_item(flags, first, second):
    """An extent of a tree block with two references as long as those of trees, of these types."""
    return bytes_of(42, (0, 8, 3), (8, 8, 7), (16, 8, flags), (24, 1, first), (25, 8, 5), (33, 1, second), (34, 8, 300))


EXTENTS_OF_BLOCKS = [(at(tree, objectid, 169, offset, block_item(flags, first, second), size), finding)
                     for tree, objectid, offset, flags, first, second, size, finding in [
    (GROUP, START, 0, 2, 176, 176, 42, 'U9 169'), (DEVICE, 1, 8, 2, 176, 176, 42, 'U9 169'), (EXTENT, START + 1, 0, 2, 176, 176, 42, 'I2 0'),
    (EXTENT, LAST_BLOCK - 4096, 0, 2, 176, 176, 24, ''), (EXTENT, 0, 7, 2, 176, 176, 33, ''), (EXTENT, START, 1, 2, 176, 176, 42, ''),
    (EXTENT, START, 8, 2, 176, 176, 42, 'I2 0'), (EXTENT, LAST_BLOCK, 0, 2, 176, 176, 42, 'I2 0'), (EXTENT, START, 8, 2, 176, 176, 23, 'I2 0'),
    (EXTENT, START, 7, 258, 176, 176, 23, 'I1 23'), (EXTENT, START, 7, 258, 176, 176, 42, 'U11 256'),
    (EXTENT, START, 7, 258, 182, 176, 42, 'U11 256'), (EXTENT, START, 7, 3, 182, 176, 42, 'I3 16'),
    (EXTENT, START, 7, 257, 176, 176, 42, 'I3 16'), (EXTENT, START, 7, 2, 182, 176, 42, 'U11 182'),
    (EXTENT, START, 7, 2, 182, 176, 25, 'U11 182'), (EXTENT, START, 7, 2, 184, 176, 42, 'I3 24'), (EXTENT, START, 7, 2, 178, 176, 25, 'I3 24'),
    (EXTENT, START, 7, 2, 176, 176, 25, 'I1 25'), (EXTENT, START, 7, 2, 176, 176, 32, 'I1 25'), (EXTENT, START, 7, 2, 176, 0, 42, 'I3 33'),
    (EXTENT, START, 7, 2, 176, 182, 41, 'U11 182'), (EXTENT, START, 7, 2, 176, 176, 34, 'I1 34'), (EXTENT, START, 7, 2, 176, 176, 41, 'I1 34'),
]]

KEYED = [(at(tree, START, kind, 5308416, bytes_of(29, (0, 8, 5), (8, 8, 257), (16, 8, 8192), (24, 4, count)), size), finding)
         for tree, kind, count, size, finding in [
    (FILE, 176, 1, 0, 'U9 176'), (CHUNK, 182, 1, 0, 'U9 182'), (ROOT, 178, 0, 27, 'U9 178'), (EXTENT, 176, 1, 1, 'I1 1'),
    (EXTENT, 178, 1, 27, 'I1 27'), (EXTENT, 178, 0, 29, 'I1 29'), (EXTENT, 178, 0, 28, 'I3 24'), (EXTENT, 182, 1, 0, 'U11 182'),
    (EXTENT, 176, 1, 0, ''), (EXTENT, 178, 3, 28, ''), (EXTENT, 182, 1, 1, 'U11 182'), (EXTENT, 184, 1, 4, 'U11 184'), (EXTENT, 184, 0, 3, 'U11 184'),
]]

GROUP_ITEMS = [(at(tree, START, 192, length, bytes_of(25, (0, 8, 20480), (8, 8, 256), (16, 8, 36)), size), finding)
               for tree, length, size, finding in [
    (CHUNK, 8388608, 24, 'U9 192'), (CHUNK, 0, 24, 'U9 192'), (EXTENT, 0, 24, 'I2 0'), (EXTENT, 0, 23, 'I2 0'),
    (EXTENT, 8388608, 24, ''), (GROUP, 2 ** 64 - 1, 24, ''), (EXTENT, 8388608, 23, 'I1 23'), (EXTENT, 8388608, 25, 'I1 25'),
]]


def chunk_item(length, kind, stripes, first, other, second):
    """A chunk with room for two stripes, of device 1 and then of another."""
    return bytes_of(112, (0, 8, length), (24, 8, kind), (44, 2, stripes), (48, 8, 1), (56, 8, first), (80, 8, other), (88, 8, second))


DUP = (8388608, 36, 2, 5242880, 1, 13631488)
CHUNK_ITEMS = [(at(tree, objectid, 228, offset, chunk_item(*item), size), finding) for tree, objectid, offset, size, item, finding in [
    (ROOT, 256, 5242880, 112, DUP, 'U9 228'), (DEVICE, 257, 5242880, 112, DUP, 'U9 228'), (CHUNK, 257, 1, 47, DUP, 'I2 0'),
    (CHUNK, 257, 5242880, 112, DUP, 'I2 0'), (CHUNK, 256, 5242881, 47, DUP, 'I2 0'), (CHUNK, 256, 5242880, 47, DUP, 'I1 47'),
    (CHUNK, 256, 5242880, 111, DUP, 'I1 111'), (CHUNK, 256, 5242880, 80, DUP, 'I1 80'),
    (CHUNK, 256, 4096, 81, (0, 64, 1, 1, 1, 0), 'I1 81'), (CHUNK, 256, 4096, 80, (0, 64, 1, 1, 1, 0), 'I3 0'),
    (CHUNK, 256, 4096, 80, (4097, 64, 1, 1, 1, 0), 'I3 0'), (CHUNK, 256, START, 80, (2 ** 64 - 48576, 2, 1, 0, 1, 0), 'I3 0'),
    (CHUNK, 256, 8192, 80, (BELOW_TOP, 2, 1, 0, 1, 0), 'I3 0'), (CHUNK, 256, 4096, 80, (4096, 65, 1, 1, 1, 0), 'U6 65'),
    (CHUNK, 256, 4096, 80, (4096, 35, 1, 1, 1, 0), 'I3 24'), (CHUNK, 256, 4096, 80, (4096, 32, 1, 1, 1, 0), 'I3 24'),
    (CHUNK, 256, 4096, 48, (4096, 1, 0, 1, 1, 0), 'I3 44'), (CHUNK, 256, 4096, 80, (4096, 33, 1, 1, 1, 0), 'I3 44'),
    (CHUNK, 256, 4096, 112, (4096, 1, 2, 1, 1, 0), 'I3 44'), (CHUNK, 256, 4096, 112, (4096, 33, 2, 1, 7, 0), 'I3 56'),
    (CHUNK, 256, 4096, 112, (4096, 33, 2, 0, 7, 1), 'U5 7'), (CHUNK, 256, 4096, 112, (4096, 33, 2, 0, 1, 1), 'I3 88'),
    (CHUNK, 256, 4096, 80, (8192, 1, 1, TOP, 1, 0), 'I3 56'), (CHUNK, 256, 5242880, 112, DUP, ''),
    (CHUNK, 256, 4096, 80, (BELOW_TOP, 5, 1, 0, 0, 0), ''), (CHUNK, 256, BELOW_TOP, 80, (4096, 1, 1, BELOW_TOP, 0, 0), ''),
    (CHUNK, 256, 0, 80, (TOP, 4, 1, 0, 0, 0), ''),
]]


def root_item(generation, progress, level):
    """A root item of 439 bytes, and a byte more: its generation, the end of its progress of removal, its level."""
    return bytes_of(440, (160, 8, generation), (176, 8, 5292032), (216, 2, 1), (229, 8, progress), (238, 1, level))


SOUND, BROKEN = (1, 0, 0), (2, 1, 8)
ROOT_ITEMS = [(at(tree, number, 132, 0, root_item(*item), size), finding) for tree, number, size, item, finding in [
    (CHUNK, 5, 439, SOUND, 'U9 132'), (CHUNK, 3, 438, BROKEN, 'U9 132'), (ROOT, 3, 438, BROKEN, 'U7 3'), (ROOT, 6, 439, SOUND, 'U7 6'),
    (ROOT, 11, 439, SOUND, 'U7 11'), (ROOT, 255, 439, SOUND, 'U7 255'), (ROOT, NO_SUBVOLUME, 439, SOUND, f'U7 {NO_SUBVOLUME}'),
    (ROOT, 5, 438, BROKEN, 'I1 438'), (ROOT, 5, 238, BROKEN, 'I1 238'), (ROOT, 5, 240, SOUND, 'I1 240'), (ROOT, 5, 440, SOUND, 'I1 440'),
    (ROOT, 5, 439, BROKEN, 'I3 160'), (ROOT, 5, 439, (2, 0, 0), 'I3 160'), (ROOT, 5, 439, (1, 1, 8), 'U8 0'), (ROOT, 5, 439, (1, 1 << 56, 0), 'U8 0'),
    (ROOT, 5, 239, (1, 0, 8), 'I3 238'),
    *((ROOT, number, 439, (1, 0, 7), '') for number in (2, 4, 5, 7, 8, 9, 10, 256, LAST_ID, 2 ** 64 - 9)),
]]

LINKS = [(at(tree, 5, kind, 300, bytes_of(274, (0, 8, 256), (8, 8, 9), (16, 2, length), fill=ord('a')), size), finding)
         for tree, kind, length, size, finding in [
    (FILE, 156, 3, 21, 'U9 156'), (CHUNK, 144, 0, 17, 'U9 144'), (ROOT, 156, 3, 17, 'I1 17'), (ROOT, 144, 0, 0, 'I1 0'),
    (ROOT, 156, 0, 18, 'I3 16'), (ROOT, 156, 0, 19, 'I3 16'), (ROOT, 144, 256, 274, 'I3 16'), (ROOT, 144, 256, 273, 'I3 16'),
    (ROOT, 156, 1, 19, ''), (ROOT, 144, 255, 273, ''), (ROOT, 156, 3, 20, 'I1 20'), (ROOT, 156, 3, 22, 'I1 22'), (ROOT, 144, 1, 18, 'I1 18'),
]]

DEVICE_ITEMS = [(at(tree, objectid, 216, offset, bytes_of(99, (0, 8, device), (8, 8, 134217728), (16, 8, 29360128)), size), finding)
                for tree, objectid, offset, device, size, finding in [
    (DEVICE, 1, 1, 1, 98, 'U9 216'), (ROOT, 2, 1, 1, 98, 'U9 216'), (CHUNK, 2, 1, 1, 98, 'I2 0'), (CHUNK, 0, 1, 1, 97, 'I2 0'),
    (CHUNK, 1, 1, 1, 97, 'I1 97'), (CHUNK, 1, 2, 1, 99, 'I1 99'), (CHUNK, 1, 2, 1, 98, 'I3 0'), (CHUNK, 1, 1, 2, 98, 'I3 0'),
    (CHUNK, 1, 1, 1, 98, ''), (CHUNK, 1, 3, 2, 98, 'I3 0'), (CHUNK, 1, 2, 2, 98, 'U5 2'),
]]
DEVICE_ITEMS += [(at(tree, device, 204, START, bytes_of(49, (0, 8, 3), (8, 8, 256), (16, 8, 5242880), (24, 8, 8388608)), size), finding)
                 for tree, device, size, finding in [
    (CHUNK, 1, 48, 'U9 204'), (ROOT, 2, 48, 'U9 204'), (DEVICE, 2, 48, 'U5 2'), (DEVICE, 0, 47, 'U5 0'), (DEVICE, 1, 47, 'I1 47'),
    (DEVICE, 1, 48, ''), (DEVICE, 1, 49, 'I1 49'), (DEVICE, 1, 0, 'I1 0'),
]]

# The last key of all, of a kind that no tree lists.
BEHIND = (2 ** 64 - 1, 255, 2 ** 64 - 1), b''
device = Device()


def judge(row, finding):
    """A check says the finding of this item; or of the one behind it, where this one has none."""
    (tree, address), key, data = row
    items = [(key, data)] if finding else [(key, data), BEHIND]
    changes = [*OWN_GROUPS, *(put(tree, item) for item in items)] if tree == 11 else [leaf(address, tree, *items)]
    device.fill(changed(BASE, changes))
    (rule, detail), found = (finding.split(), key) if finding else (('U9', 255), BEHIND[0])
    device.must_say(f'the item {key} of {len(data)} bytes in the tree {tree}', 1,
                    f'image refused {rule} tree {tree} block {address} key {found[0]} {found[1]} {found[2]} detail {detail}\n', 'check')


tables = [INODES, ATTRIBUTES_AND_ORPHANS, NAMES, ENTRIES, RANGES, CHECKSUMS, EXTENTS_OF_DATA, EXTENTS_OF_BLOCKS, KEYED, GROUP_ITEMS, CHUNK_ITEMS,
          ROOT_ITEMS, LINKS, DEVICE_ITEMS]
for table in tables:
    for row, finding in table:
        judge(row, finding)
print(f'items: {sum(map(len, tables))} items have their finding')
