"""Checks of images that differ from the base image: what a check says of each, and that a replay begins with the same.

Usage: tests/images.py [PROGRAM], by default crates/recon/out/recon. Prints one line, and ends with 1 at the first row
that differs. A row: what it is, the changes of the base image, and the finding, or none where the image is accepted.
"""
from rows import (
    BASE, CHUNKS, CHUNKS_END, DATA_AT, DEVICES, Device, EXTENTS, FILES, GROUPS, GROUP_TREE, HELLO, LEFT, NO_GROUP_TREE, OWN_GROUPS,
    RIGHT, ROOTS, SUMS, SUPERBLOCK, SYSTEM_AT, changed, data_group, drop, leaf, made, metadata_group, node, put, used, write)

MOVED = 2 ** 64 - 9
LATE = write(RIGHT + 0x50, made.number(2))
# An item of a kind that a tree of files alone lists, and two such items that are not right: a range of type 1 that ends
# in its first number, and an inode whose key has an offset.
ATTRIBUTE = made.zeros((1, made.XATTR_ITEM, 0), 1)
SHORT = made.zeros((257, made.EXTENT_DATA, 0), 52, [(20, 1)])
OFFSET = made.zeros((257, made.INODE_ITEM, 1), 160)
DEFAULT = made.entry(257, 1, b'default', generation=0)

SUPERBLOCK_AND_CHUNKS = [
    ('a chunk of the system array that is a sector shorter than in the chunk tree',
     [write(SUPERBLOCK + 0x33c, made.number(4190208))], 'S10 tree 3 block 0 key 256 228 1048576 detail 0'),
    ('the kind of its key', [write(SUPERBLOCK + 0x333, b'\xe3')], 'S9 tree 0 block 0 key 0 0 0 detail 0'),
    ('an array without a pair', [write(SUPERBLOCK + 0xa0, bytes(4))], 'N1 tree 3 block 1048576 key 0 0 0 detail 0'),
    ('an array that is longer than its room', [write(SUPERBLOCK + 0xa0, made.number(2049, 4))], 'S8 tree 0 block 0 key 0 0 0 detail 2049'),
    ('one that ends in its only pair', [write(SUPERBLOCK + 0xa0, made.number(96, 4))], 'S9 tree 0 block 0 key 0 0 0 detail 0'),
    ('one that ends in a second pair', [write(SUPERBLOCK + 0xa0, made.number(98, 4))], 'S9 tree 0 block 0 key 0 0 0 detail 97'),
    ('a chunk of the array that ends at 2^64',
     [write(SUPERBLOCK + 0x33c, made.number(2 ** 64 - 1048576))], 'I3 tree 3 block 0 key 256 228 1048576 detail 0'),
    ('the stripe of the data chunk begins a sector before the end of the device',
     [put(3, made.chunk(DATA_AT, 8388608, 1, [33550336]))], 'M3 tree 3 block 0 key 256 228 13631488 detail 33550336'),
    ('the generation of the superblock', [write(SUPERBLOCK + 0x48, bytes(8))], 'N7 tree 1 block 5242880 key 0 0 0 detail 1'),
    ('its level of the root tree', [write(SUPERBLOCK + 0xc6, b'\1')], 'N8 tree 1 block 5242880 key 0 0 0 detail 0'),
    ('a level of the root tree that no tree has', [write(SUPERBLOCK + 0xc6, b'\x08')], 'S6 tree 0 block 0 key 0 0 0 detail 8'),
    ('an array that ends in its first key', [write(SUPERBLOCK + 0xa0, made.number(16, 4))], 'S9 tree 0 block 0 key 0 0 0 detail 0'),
    ('the id of the file system', [write(SUPERBLOCK + 0x20, b'\2')], 'N4 tree 3 block 1048576 key 0 0 0 detail 0'),
    ('the generation of the chunk tree', [write(SUPERBLOCK + 0xa4, made.number(2))], 'N7 tree 3 block 1048576 key 0 0 0 detail 1'),
    ('its level', [write(SUPERBLOCK + 0xc7, b'\1')], 'N8 tree 3 block 1048576 key 0 0 0 detail 0'),
    ('the device of the superblock', [write(SUPERBLOCK + 0xc9, made.number(2))], 'U5 tree 3 block 0 key 256 228 1048576 detail 1'),
]

# The checksum of a block of zeros, as a program in another language computed it.
ZEROS = 3840130486
# Where a root block may stand: whole in one chunk. There it has zeros.
PLACES = [(f'the root tree at {at}', [write(SUPERBLOCK + 0x50, made.number(at))],
           f'{"N3" if stands else "N1"} tree 1 block {at} key 0 0 0 detail {ZEROS if stands else 0}')
          for at, stands in [
              (0, False), (1032192, False), (1044480, False), (1064960, True), (5226496, True), (5230592, False), (5238784, False),
              (13615104, True), (13619200, False), (13627392, False), (13631488, True), (22003712, True), (22007808, False), (22020096, False),
              (30408704, False), (2 ** 64 - 16384, False), (2 ** 64 - 4096, False)]]
PLACES.append(('the chunk tree at another block of the system chunk', [write(SUPERBLOCK + 0x58, made.number(1064960))],
               f'N3 tree 3 block 1064960 key 0 0 0 detail {ZEROS}'))
PLACES.append(('the chunk tree in a chunk that the array does not say', [write(SUPERBLOCK + 0x58, made.number(5242880))],
               'N1 tree 3 block 5242880 key 0 0 0 detail 0'))


def byte(at, value):
    """A byte of the superblock, with a right checksum."""
    return write(SUPERBLOCK + at, bytes([value]))


def old_sum(at, value):
    """A byte of the superblock under the checksum that stands there."""
    def change(image):
        image.superblock = image.superblock[:at] + bytes([value]) + image.superblock[at + 1:]
    return change


# Of two broken rules the first in their order is found, whichever field comes first.
SUPERBLOCK_RULES = [
    (' and '.join(f'byte {at:#x} as {value:#x}' for at, value in fields), [byte(*one) for one in fields],
     f'{rule} tree 0 block 0 key 0 0 0 detail {detail}')
    for rule, detail, *fields in [
        ('S2', 0, (0x40, 0x5e)), ('U1', 1, (0xc4, 1)), ('S4', 65537, (0x30, 1)), ('U2', 864, (0xbc, 0x60)), ('U2', 609, (0xbd, 2)),
        ('U2', 1889, (0xbd, 7)), ('U2', 2 ** 63 + 865, (0xc3, 0x80)), ('U3', 4, (0xb4, 4)), ('U4', 8192, (0x91, 0x20)),
        ('S5', 16640, (0x95, 0x41)), ('U5', 2, (0x88, 2)), ('S6', 8, (0xc6, 8)), ('S6', 9, (0xc7, 9)), ('S8', 2049, (0xa0, 1), (0xa1, 8)),
        ('S2', 0, (0xc4, 1), (0x40, 0x5e)), ('S4', 65537, (0xbc, 0x60), (0x30, 1)), ('U2', 864, (0xb4, 4), (0xbc, 0x60)),
        ('U3', 4, (0x91, 0x20), (0xb4, 4)), ('U4', 8192, (0x95, 0x41), (0x91, 0x20)), ('S5', 16640, (0x88, 2), (0x95, 0x41)),
        ('U5', 2, (0xc6, 8), (0x88, 2)), ('S6', 8, (0xc7, 9), (0xc6, 8)), ('S6', 9, (0xa1, 9), (0xc7, 9)),
    ]
] + [
    ('another checksum', [old_sum(0, 0)], 'S3 tree 0 block 0 key 0 0 0 detail 2481755831'),
    ('another generation under the old checksum', [old_sum(0x48, 2)], 'S3 tree 0 block 0 key 0 0 0 detail 4274492710'),
    ('another kind of checksum and another checksum', [byte(0xc4, 1), old_sum(0, 0)], 'U1 tree 0 block 0 key 0 0 0 detail 1'),
    ('the bytes of the checksum that are not used', [old_sum(4, 0xff)], ''),
    ('all incompat words that may be set', [byte(0xbc, 0x67)], ''),
    # What the field says is not so, and that is found behind the superblock.
    ('all words of compat_ro that may be set', [byte(0xb4, 11)], 'X2 tree 1 block 0 key 11 132 0 detail 0'),
    ('the greatest level of the root tree', [byte(0xc6, 7)], 'N8 tree 1 block 5242880 key 0 0 0 detail 0'),
    ('the greatest level of the chunk tree', [byte(0xc7, 7)], 'N8 tree 3 block 1048576 key 0 0 0 detail 0'),
    ('the least size of a node', [byte(0x95, 0x10)],
     f'N3 tree 3 block 1048576 key 0 0 0 detail {made.crc32c(BASE.blocks[CHUNKS][32:4096])}'),
]

CHUNK_MAP = [
    ('a chunk of the system array of another class than in the chunk tree',
     [write(SUPERBLOCK + 0x354, made.number(4))], 'S10 tree 3 block 0 key 256 228 1048576 detail 0'),
    ('a chunk that starts a sector before the end of the one before it',
     [drop(3, 256, made.CHUNK_ITEM, DATA_AT), put(3, made.chunk(DATA_AT - 4096, 8388608, 1, [22020096]))],
     'M1 tree 3 block 0 key 256 228 13627392 detail 5242880'),
    ('a second copy that meets the first', [put(3, made.chunk(5242880, 8388608, 36, [5242880, 13627392]))],
     'M2 tree 3 block 0 key 256 228 5242880 detail 13627392'),
    ('a copy that meets one of an earlier chunk', [put(3, made.chunk(DATA_AT, 8388608, 1, [13631488]))],
     'M2 tree 3 block 0 key 256 228 13631488 detail 13631488'),
]

ROOT_TREE = [
    ('too many items', [write(ROOTS + 0x60, b'\xff' * 4)], 'N9 tree 1 block 5242880 key 0 0 0 detail 4294967295'),
    ('the second item begins at 15,406 in place of 15,405',
     [write(ROOTS + 143, made.number(15406, 4))], 'N14 tree 1 block 5242880 key 0 0 0 detail 1'),
    ('a node that points to itself', [write(SUPERBLOCK + 0xc6, b'\1'), node(ROOTS, 1, ((2, made.ROOT_ITEM, 0), ROOTS))],
     'N8 tree 1 block 5242880 key 2 132 0 detail 1'),
    ('a root item of a later generation than its leaf',
     [put(1, made.root(5, FILES, 2))], 'I3 tree 1 block 5242880 key 5 132 0 detail 160'),
    ('another generation than the block has', [put(1, made.root(5, FILES, 0))], 'N7 tree 5 block 5292032 key 0 0 0 detail 1'),
    ('another level', [put(1, made.root(5, FILES, level=1))], 'N8 tree 5 block 5292032 key 0 0 0 detail 0'),
    ('a kind that the root tree does not list', [put(1, made.zeros((5, made.XATTR_ITEM, 0), 1))], 'U9 tree 1 block 5242880 key 5 24 0 detail 24'),
    ('a root item of the chunk tree', [put(1, made.root(3, CHUNKS))], 'U7 tree 1 block 5242880 key 3 132 0 detail 3'),
    ('one of tree 6', [put(1, made.root(6, 0))], 'U7 tree 1 block 5242880 key 6 132 0 detail 6'),
    ('one of tree 11', [put(1, made.root(11, 0))], 'U7 tree 1 block 5242880 key 11 132 0 detail 11'),
    ('two of one id come before a missing one',
     [drop(1, 4, made.ROOT_ITEM, 0), put(1, made.root(5, FILES, offset=9))], 'X1 tree 1 block 0 key 5 132 9 detail 0'),
    ('no root item: the least is missing', [leaf(ROOTS, 1)], 'X2 tree 1 block 0 key 2 132 0 detail 0'),
    ('no root item of the tree of checksums', [drop(1, 7, made.ROOT_ITEM, 0)], 'X2 tree 1 block 0 key 7 132 0 detail 0'),
    ('of two broken trees the one with the lower id as an unsigned number',
     [put(1, made.root(300, 1)), put(1, made.root(MOVED, 2))], 'N1 tree 300 block 1 key 0 0 0 detail 0'),
    ('a tree whose block is another tree\'s',
     [put(1, made.root(MOVED, FILES))], 'N6 tree 18446744073709551607 block 5292032 key 0 0 0 detail 5'),
]

ITEMS = [
    ('an entry with another hash than that of its name',
     [leaf(FILES, 5, made.hashed(256, DEFAULT, key=5))], 'I4 tree 5 block 5292032 key 256 84 5 detail 2378154706'),
    ('the right hash, in a directory without an inode',
     [leaf(FILES, 5, made.hashed(256, DEFAULT, key=2378154706))], 'A9 tree 5 block 0 key 256 1 0 detail 0'),
    ('a range that is too short', [leaf(FILES, 5, SHORT)], 'I1 tree 5 block 5292032 key 257 108 0 detail 52'),
    ('of two bad items the first', [leaf(FILES, 5, OFFSET, SHORT)], 'I2 tree 5 block 5292032 key 257 1 1 detail 0'),
    ('an inode below 256', [leaf(FILES, 5, made.zeros((255, made.INODE_ITEM, 0), 160))], 'U9 tree 5 block 5292032 key 255 1 0 detail 1'),
    ('a kind that the extent tree does not list', [leaf(EXTENTS, 2, ATTRIBUTE)], 'U9 tree 2 block 5259264 key 1 24 0 detail 24'),
    ('the chunk tree', [leaf(CHUNKS, 3, ATTRIBUTE)], 'U9 tree 3 block 1048576 key 1 24 0 detail 24'),
    ('the device tree', [leaf(DEVICES, 4, ATTRIBUTE)], 'U9 tree 4 block 5275648 key 1 24 0 detail 24'),
    ('the tree of checksums', [leaf(SUMS, 7, ATTRIBUTE)], 'U9 tree 7 block 5308416 key 1 24 0 detail 24'),
    ('the items of the tree 9 stay unread; its block has no extent',
     [put(1, made.root(9, LEFT)), leaf(LEFT, 9, ATTRIBUTE)], 'A1 tree 9 block 5324800 key 5324800 176 9 detail 0'),
]

# Trees 9 and 10 with an empty leaf each, tree -9 with a copy of the file tree's items, and items that stay unread.
UNREAD = [((5, made.INODE_REF, 6), 160), ((6, made.INODE_ITEM, 0), 160), ((6, made.INODE_REF, 6), 160), ((6, made.DIR_ITEM, 2378154706), 160)]
FURTHER_TREES = [('further trees, items of the root tree and the device tree that stay unread, and words of the free space tree', [
    write(SUPERBLOCK + 0xb4, made.number(3)), leaf(LEFT, 9), leaf(RIGHT, 10), leaf(5357568, MOVED, made.top(0), made.name(256, 256, 0, b'..')),
    *(put(1, made.root(tree, at)) for tree, at in [(9, LEFT), (10, RIGHT), (MOVED, 5357568)]), *(put(1, made.zeros(*one)) for one in UNREAD),
    put(4, made.zeros((0, 249, 1), 40)), *(put(2, made.block(at, tree)) for tree, at in [(9, LEFT), (10, RIGHT), (MOVED, 5357568)]),
    metadata_group(131072), used(147456)], None)]

# The file tree as a node over two leaves of one item, and an item that is not right.
A, B = made.zeros((256, made.XATTR_ITEM, 0), 1), made.zeros((257, made.XATTR_ITEM, 0), 1)
BAD = made.zeros((256, made.EXTENT_DATA, 0), 52, [(20, 1)])
TWO_LEAVES = [put(1, made.root(5, FILES, level=1)), node(FILES, 5, (A[0], LEFT), (B[0], RIGHT)), leaf(LEFT, 5, A), leaf(RIGHT, 5, B)]

WALKS = [(what, TWO_LEAVES + changes, finding) for what, changes, finding in [
    ('the blocks are right, but have no extents', [], 'A1 tree 5 block 5324800 key 5324800 176 5 detail 0'),
    ('an item of the left leaf comes before the header of the right one',
     [leaf(LEFT, 5, A, BAD), LATE], 'I1 tree 5 block 5324800 key 256 108 0 detail 52'),
    ('a generation that is not that of the pointer', [LATE], 'N7 tree 5 block 5341184 key 257 24 0 detail 2'),
    ('another owner', [write(RIGHT + 0x58, made.number(7))], 'N6 tree 5 block 5341184 key 257 24 0 detail 7'),
    ('another level', [write(RIGHT + 0x64, b'\1')], 'N8 tree 5 block 5341184 key 257 24 0 detail 1'),
    ('another first key than the pointer says',
     [leaf(RIGHT, 5, made.zeros((258, made.XATTR_ITEM, 0), 1))], 'N10 tree 5 block 5341184 key 257 24 0 detail 0'),
    ('a key that belongs into the next leaf', [leaf(LEFT, 5, A, B)], 'N12 tree 5 block 5324800 key 256 24 0 detail 1'),
    ('the generation of a pointer comes before any leaf',
     [write(FILES + 159, made.number(2)), write(LEFT + 0x50, made.number(2))], 'N13 tree 5 block 5292032 key 0 0 0 detail 1'),
    ('a leaf outside every chunk', [write(FILES + 118, made.number(22020096))], 'N1 tree 5 block 22020096 key 256 24 0 detail 0'),
    ('a leaf without items', [leaf(RIGHT, 5)], 'N9 tree 5 block 5341184 key 257 24 0 detail 0'),
    ('a leaf at no multiple of a sector',
     [write(FILES + 118, made.number(5324801))], 'N1 tree 5 block 5324801 key 256 24 0 detail 0'),
]]

# The file `hello`: of one sector; of three, whose middle one was written again, so that one reference counts both ranges
# of the first extent; and of the second sector of an extent of two.
ONE_INODE = put(5, made.inode(257, 4096))
FILE_OF_ONE = [*HELLO, ONE_INODE, put(5, made.file_range(0, DATA_AT, 4096))]
FILE_OF_TWO = [*HELLO, ONE_INODE, put(5, made.file_range(0, DATA_AT, 8192))]
EXTENT_OF_ONE = [put(2, made.extent(DATA_AT, 4096)), data_group(4096)]
EXTENT_OF_TWO = [put(2, made.extent(DATA_AT, 8192)), data_group(8192)]
ONE_SUM, TWO_SUMS, ONE_USED, TWO_USED = put(7, made.sums(DATA_AT, 1)), put(7, made.sums(DATA_AT, 2)), used(102400), used(106496)
FILE_OF_THREE = [*HELLO, put(5, made.inode(257, 12288)), put(5, made.file_range(0, DATA_AT, 12288)),
                 put(5, made.file_range(4096, 13643776, 4096)), put(5, made.file_range(8192, DATA_AT, 12288, 8192)),
                 put(2, made.extent(13643776, 4096, origin=4096)), data_group(16384), put(7, made.sums(DATA_AT, 4)), used(114688)]
SECOND_OF_TWO = [*HELLO, ONE_INODE, put(5, made.file_range(0, DATA_AT, 8192, 4096)), data_group(8192), TWO_SUMS, TWO_USED]

REFERENCES = [
    ('an extent that says one use more than there are',
     [put(2, made.block(FILES, 5, references=2))], 'A3 tree 2 block 5292032 key 0 0 0 detail 0'),
    ('a block without its extent', [drop(2, FILES, made.METADATA_ITEM, 0)], 'A1 tree 5 block 5292032 key 5292032 176 5 detail 0'),
    ('two of them: the one of the lesser tree',
     [drop(2, FILES, made.METADATA_ITEM, 0), drop(2, SUMS, made.METADATA_ITEM, 0)], 'A1 tree 5 block 5292032 key 5292032 176 5 detail 0'),
    ('accounts of two kinds: that of the lesser kind',
     [drop(2, SUMS, made.METADATA_ITEM, 0), put(2, made.block(FILES, 5, references=2))], 'A1 tree 7 block 5308416 key 5308416 176 7 detail 0'),
    ('a file of one sector', FILE_OF_ONE + EXTENT_OF_ONE + [ONE_SUM, ONE_USED], ''),
    ('the file says a longer extent', FILE_OF_TWO + EXTENT_OF_ONE + [ONE_SUM, ONE_USED], 'A4 tree 2 block 13631488 key 0 168 8192 detail 0'),
    ('and a shorter one', FILE_OF_ONE + EXTENT_OF_TWO + [ONE_SUM, TWO_USED], 'A4 tree 2 block 13631488 key 0 168 4096 detail 0'),
    ('a file whose middle sector was written again counts one reference of two',
     FILE_OF_THREE + [put(2, made.extent(DATA_AT, 12288, references=2))], 'A2 tree 5 block 13631488 key 257 178 0 detail 0'),
    ('and one with an item of its own counts the other',
     FILE_OF_THREE + [put(2, made.extent(DATA_AT, 12288, references=2)), put(2, made.reference(DATA_AT, 9))], ''),
    ('the extent would begin before the file: the offset is below zero, modulo 2^64',
     SECOND_OF_TWO + [put(2, made.extent(DATA_AT, 8192, origin=-4096))], ''),
    ('the extent would begin with the file',
     SECOND_OF_TWO + [put(2, made.extent(DATA_AT, 8192))], 'A2 tree 5 block 13631488 key 257 178 0 detail 0'),
]


def reference_as(at, width, value):
    """The extent of one sector, where a field of its reference says something else."""
    key, item = made.extent(DATA_AT, 4096)
    return put(2, (key, item[:at] + made.number(value, width) + item[at + width:]))


# What each field of a reference says: the tree, the file, where in it the extent begins, and how often. The account that the file's
# own range has is the least that does not hold.
NOT_REFERRED = 'A2 tree 5 block 13631488 key 257 178 0 detail 0'
REFERENCES += [(what, FILE_OF_ONE + [reference_as(at, width, value), data_group(4096), ONE_SUM, ONE_USED], NOT_REFERRED)
               for what, at, width, value in [('the file is one of another tree', 25, 8, 256), ('or another file', 33, 8, 258),
                                              ('or begins elsewhere in the extent', 41, 8, 4096)]]
# The file of one sector shows it once more behind it: the extent would begin there a sector later.
SHOWN_TWICE = [*FILE_OF_ONE, put(5, made.inode(257, 8192)), put(5, made.file_range(4096, DATA_AT, 4096)), data_group(4096), ONE_USED,
               put(2, ((DATA_AT, made.EXTENT_ITEM, 4096),
                       made.extent(DATA_AT, 4096, references=2)[1] + made.extent(DATA_AT, 4096, origin=4096)[1][24:]))]
REFERENCES += [
    ('an extent without a reference', FILE_OF_ONE + [put(2, ((DATA_AT, made.EXTENT_ITEM, 4096), made.extent(DATA_AT, 4096)[1][:24])),
                                                      data_group(4096), ONE_SUM, ONE_USED], NOT_REFERRED),
    ('a reference that counts two', FILE_OF_ONE + [put(2, made.extent(DATA_AT, 4096, references=2, count=2)), data_group(4096), ONE_SUM,
                                                   ONE_USED], NOT_REFERRED),
    ('a file that shows the sector twice, with two references in the extent', SHOWN_TWICE + [ONE_SUM], ''),
    ('a block whose reference has an item of its own',
     [put(2, ((FILES, made.METADATA_ITEM, 0), made.block(FILES, 5)[1][:24])), put(2, ((FILES, made.TREE_BLOCK_REF, 5), b''))], ''),
    ('a block that is another tree\'s', [put(2, made.block(FILES, 7))], 'A1 tree 5 block 5292032 key 5292032 176 5 detail 0'),
    ('a block of another level', [put(2, made.block(FILES, 5, level=1)), drop(2, FILES, made.METADATA_ITEM, 0)],
     'A4 tree 2 block 5292032 key 0 169 0 detail 0'),
]

DEVICE_EXTENTS = [
    ('a stripe without its device extent', [drop(4, 1, made.DEV_EXTENT, 22020096)], 'A15 tree 4 block 13631488 key 1 204 22020096 detail 8388608'),
    ('that of a second copy: the account is that of the chunk',
     [drop(4, 1, made.DEV_EXTENT, 13631488)], 'A15 tree 4 block 5242880 key 1 204 13631488 detail 8388608'),
    ('a device extent of another length',
     [put(4, made.device_extent(22020096, DATA_AT, 4096))], 'A15 tree 4 block 13631488 key 1 204 22020096 detail 4096'),
    ('one without a stripe', [put(4, made.device_extent(30408704, DATA_AT, 4096))], 'A15 tree 4 block 13631488 key 1 204 30408704 detail 4096'),
    ('the used bytes of the device item in the chunk tree', [put(3, made.device(29360127))], 'A18 tree 3 block 0 key 1 216 1 detail 0'),
    ('with them those of the superblock', [put(3, made.device(29360127)), used(94208)], 'A16 tree 0 block 0 key 0 0 0 detail 0'),
]

GROUP_ITEMS = [
    ('a chunk without its group', [drop(2, DATA_AT, made.BLOCK_GROUP_ITEM, 8388608)], 'A6 tree 0 block 0 key 13631488 192 8388608 detail 1'),
    ('a group without its chunk', [put(2, made.group(CHUNKS_END, 4096, 1, 0))], 'A6 tree 0 block 0 key 22020096 192 4096 detail 1'),
    ('a group of another length', [drop(2, DATA_AT, made.BLOCK_GROUP_ITEM, 8388608), put(2, made.group(DATA_AT, 4096, 1, 0))],
     'A6 tree 0 block 0 key 13631488 192 4096 detail 1'),
    ('a group of another type', [data_group(0, kind=4)], 'A6 tree 0 block 0 key 13631488 192 8388608 detail 1'),
    ('the greatest number as the used bytes of the system group',
     [put(2, made.group(SYSTEM_AT, 4194304, 2, 2 ** 64 - 1))], 'A6 tree 0 block 0 key 1048576 192 4194304 detail 2'),
    ('the used bytes of the metadata group', [metadata_group(77824)], 'A6 tree 0 block 0 key 5242880 192 8388608 detail 36'),
    ('which agree with the superblock, and not with what is used',
     [metadata_group(77824), used(94208)], 'A6 tree 0 block 0 key 5242880 192 8388608 detail 36'),
    ('the used bytes of the superblock', [used(94208)], 'A16 tree 0 block 0 key 0 0 0 detail 0'),
]

# Block groups in a tree of their own.
GROUPS_APART = [(what, OWN_GROUPS + changes, finding) for what, changes, finding in [
    ('block groups in a tree of their own', [], None),
    ('one of them in the extent tree too', [put(2, GROUPS[0])], 'U9 tree 2 block 5259264 key 1048576 192 4194304 detail 192'),
    ('no root item of their tree', [drop(1, 11, made.ROOT_ITEM, 0)], 'X2 tree 1 block 0 key 11 132 0 detail 0'),
    ('their tree without the feature', [NO_GROUP_TREE], 'U7 tree 1 block 5242880 key 11 132 0 detail 11'),
    ('a group that is missing', [leaf(LEFT, 11, *GROUPS[:2])], 'A6 tree 0 block 0 key 13631488 192 8388608 detail 1'),
    ('a second group at the system chunk\'s beginning',
     [leaf(LEFT, 11, *GROUPS, made.group(SYSTEM_AT, 4096, 2, 0))], 'A6 tree 0 block 0 key 1048576 192 4096 detail 2'),
    ('a kind that their tree does not list', [put(11, ATTRIBUTE)], 'U9 tree 11 block 5324800 key 1 24 0 detail 24'),
    ('an extent among them', [put(11, made.extent(DATA_AT, 4096))], 'U9 tree 11 block 5324800 key 13631488 168 4096 detail 168'),
    ('a group of length 0', [put(11, made.group(DATA_AT, 0, 1, 0))], 'I2 tree 11 block 5324800 key 13631488 192 0 detail 0'),
]] + [('the feature alone', [GROUP_TREE], 'X2 tree 1 block 0 key 11 132 0 detail 0')]

# A range that is reserved, in place of the file's one sector.
RESERVED = put(5, made.file_range(0, DATA_AT, 4096, sort=2))
SECOND_SUM = put(7, made.sums(DATA_AT + 4096, 1))

SECTORS = [
    ('a checksum of a sector of a tree block', [put(7, made.sums(ROOTS, 1))], 'A5 tree 0 block 5242880 key 0 0 0 detail 0'),
    ('of no extent', [ONE_SUM], 'A5 tree 0 block 13631488 key 0 0 0 detail 0'),
    ('of no chunk', [put(7, made.sums(CHUNKS_END, 1))], 'A5 tree 0 block 22020096 key 0 0 0 detail 0'),
    ('checksums that go on behind the one sector of the file',
     FILE_OF_ONE + EXTENT_OF_ONE + [TWO_SUMS, ONE_USED], 'A5 tree 0 block 13635584 key 0 0 0 detail 0'),
    ('a sector of a file without its checksum', FILE_OF_ONE + EXTENT_OF_ONE + [ONE_USED], 'A5 tree 0 block 13631488 key 0 0 0 detail 0'),
    ('of a file that is to have none', FILE_OF_ONE + EXTENT_OF_ONE + [put(5, made.inode(257, 4096, flags=1)), ONE_USED], ''),
    ('a reserved range without checksums', FILE_OF_ONE + EXTENT_OF_ONE + [RESERVED, ONE_USED], ''),
    ('a reserved range with them', FILE_OF_ONE + EXTENT_OF_ONE + [RESERVED, ONE_SUM, ONE_USED], ''),
    ('a sector of the extent that is not shown has a checksum', FILE_OF_TWO + EXTENT_OF_TWO + [TWO_SUMS, TWO_USED], ''),
    ('or has none', FILE_OF_TWO + EXTENT_OF_TWO + [ONE_SUM, TWO_USED], ''),
    ('or has two', FILE_OF_TWO + EXTENT_OF_TWO + [TWO_SUMS, SECOND_SUM, TWO_USED], 'A5 tree 0 block 13635584 key 0 0 0 detail 0'),
    ('or has the only one', FILE_OF_TWO + EXTENT_OF_TWO + [SECOND_SUM, TWO_USED], 'A5 tree 0 block 13631488 key 0 0 0 detail 0'),
    ('two extents that have a sector in common',
     FILE_OF_TWO + EXTENT_OF_TWO + [
         put(5, made.inode(257, 8192)), put(5, made.file_range(4096, DATA_AT + 4096, 4096)),
         put(2, made.extent(DATA_AT + 4096, 4096, origin=4096)), data_group(12288), TWO_SUMS, used(110592)],
     'A5 tree 0 block 13635584 key 0 0 0 detail 0'),
    ('a sector that is shown twice has no checksum', SHOWN_TWICE, 'A5 tree 0 block 13631488 key 0 0 0 detail 0'),
    ('a range of no bytes at the end of the extent', FILE_OF_ONE + [
        put(5, made.file_range(4096, DATA_AT, 4096, offset=4096, length=0)), put(2, made.extent(DATA_AT, 4096, references=2, count=2)),
        data_group(4096), ONE_SUM, ONE_USED], ''),
    ('checksums in two items, of two extents that touch', FILE_OF_THREE + [
        put(2, made.extent(DATA_AT, 12288, references=2)), put(2, made.reference(DATA_AT, 9)), drop(7, *made.sums(DATA_AT, 4)[0]), ONE_SUM,
        put(7, made.sums(DATA_AT + 4096, 3))], ''),
    ('an extent that begins in the last sector of a tree block', [
        *HELLO, ONE_INODE, put(5, made.file_range(0, FILES + 12288, 4096)), put(2, made.extent(FILES + 12288, 4096))],
     'A5 tree 0 block 5304320 key 0 0 0 detail 0'),
    ('of two sectors without checksums the first', FILE_OF_THREE + [
        put(2, made.extent(DATA_AT, 12288, references=2)), put(2, made.reference(DATA_AT, 9)), drop(7, *made.sums(DATA_AT, 4)[0])],
     'A5 tree 0 block 13631488 key 0 0 0 detail 0'),
]


def file_at(address, length=4096):
    """The file of one sector whose extent is elsewhere, without its group, its checksum and the used bytes."""
    return [*HELLO, ONE_INODE, put(5, made.file_range(0, address, length)), put(2, made.extent(address, length))]


# The tree of checksums with its block elsewhere, without its group.
def sums_at(address, *items):
    return [put(1, made.root(7, address)), leaf(address, 7, *items), drop(2, SUMS, made.METADATA_ITEM, 0), put(2, made.block(address, 7)), metadata_group(65536)]


HOMES = [
    ('a data extent among metadata',
     file_at(LEFT) + [metadata_group(86016), put(7, made.sums(LEFT, 1)), ONE_USED], 'A7 tree 2 block 5324800 key 0 0 0 detail 0'),
    ('a tree block among data', sums_at(DATA_AT) + [data_group(16384)], 'A7 tree 2 block 13631488 key 0 0 0 detail 0'),
    ('a tree block in the system chunk', sums_at(1064960) + [put(2, made.group(SYSTEM_AT, 4194304, 2, 32768))], ''),
    ('a tree block and data in a mixed group',
     sums_at(DATA_AT, made.sums(13647872, 1)) + file_at(13647872) + [
         put(3, made.chunk(DATA_AT, 8388608, 5, [22020096])), data_group(20480, kind=5), ONE_USED], ''),
    ('an extent that no chunk holds', file_at(CHUNKS_END), 'A8 tree 2 block 22020096 key 0 0 0 detail 0'),
    ('with its checksum, which is one of no extent',
     file_at(CHUNKS_END) + [put(7, made.sums(CHUNKS_END, 1))], 'A5 tree 0 block 22020096 key 0 0 0 detail 0'),
    ('an extent that begins in one chunk and ends in the next', file_at(13627392, 8192), 'A8 tree 2 block 13627392 key 0 0 0 detail 0'),
]

# Devices that have the first bytes of the base image.
CUT = [
    (0, 'S1 tree 0 block 0 key 0 0 0 detail 0'),
    (16, 'S1 tree 0 block 0 key 0 0 0 detail 16'),
    (69631, 'S1 tree 0 block 0 key 0 0 0 detail 69631'),
    (69632, 'N1 tree 3 block 1048576 key 0 0 0 detail 0'),
]

device = Device()


def judge(row, finding):
    """A check says this finding, and a replay of no trace begins with it."""
    line = f'image refused {finding}\n' if finding else 'image accepted generation 1\n'
    more = '' if finding else 'trace fault 4 Truncated record 0\n'
    device.must_say(row, 1 if finding else 0, line, 'check')
    device.must_say(row, 1 if finding else 3, line + more, 'replay')


tables = [SUPERBLOCK_AND_CHUNKS, PLACES, SUPERBLOCK_RULES, CHUNK_MAP, ROOT_TREE, ITEMS, FURTHER_TREES, WALKS, REFERENCES, DEVICE_EXTENTS,
          GROUP_ITEMS, GROUPS_APART, SECTORS, HOMES]
for table in tables:
    for row, changes, finding in table:
        device.fill(changed(BASE, changes))
        judge(row, finding)
for cut, finding in CUT:
    device.fill(BASE, cut)
    judge(f'the first {cut} bytes', finding)
print(f'images: {sum(map(len, tables)) + len(CUT)} images have their finding, by check and by replay')
