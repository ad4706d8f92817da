"""Commits over the base image that change what its directories, its files and its subvolumes say, replayed.

Usage: tests/commits.py [PROGRAM], by default crates/recon/out/recon. Prints one line, and ends with 1 at the first row
that differs. A row: what it is, the changes that the commit makes, and how the line of the commit goes on, up to its end.
Each commit has the generation 2 and copies on write the file tree, the extent tree and the root tree. Further rows are
commits of one image over another, in place. What passes then stands on the device; what is rejected leaves it as it was.

The numbers of a line that passes are reckoned by hand: each tree has one block, so that a commit has three old blocks and
three new ones that the images do not share, and one more where it brings a tree. Where a feature word changes, all blocks
of both count. Each is also what the model of tests/image_diff.py counts, which walks both images whole.
"""
from image_diff import Difference, Image
from rows import (
    BASE, CHUNKS, DATA_AT, Device, ENTRY, EXTENTS, FILES, GROUPS, GROUP_TREE, HELLO, LEFT, NO_GROUP_TREE, OWN_GROUPS, RIGHT, ROOTS,
    SUPERBLOCK, changed, data_group, drop, fail, leaf, made, metadata_group, put, used, write)

PASSES, ONE_TREE_MORE = 'passed generation 2 blocks 6 hot 0', 'passed generation 2 blocks 7 hot 0'
BELOW = 5373952
inode, name, hashed, indexed, entry = made.inode, made.name, made.hashed, made.indexed, made.entry


def files(size, *items):
    """The file tree with a top directory of this size and these items behind its own."""
    return [put(5, made.top(size)), *(put(5, item) for item in items)]


H, I = hashed(256, ENTRY), indexed(256, 2, ENTRY)
FILE, NAME_OF_FILE = inode(257), name(257, 256, 2, b'hello')
LINKED, D = entry(257, 1, b'link'), entry(258, 2, b'd')
# Two names of one hash.
ONE, OTHER = entry(257, 1, b'aiyifwg'), entry(258, 1, b'dlpjrry')

NAMES = [
    ('nothing', [], PASSES),
    ('the size that the directory had', files(0, H, I, FILE, NAME_OF_FILE), 'rejected A9 tree 5 block 0 key 256 1 0 detail 0'),
    ('a file without a name, which is no orphan', files(0, inode(257, links=0)), 'rejected A9 tree 5 block 0 key 257 1 0 detail 0'),
    ('a second name in another directory',
     files(12, H, hashed(256, D), I, indexed(256, 3, D), inode(257, links=2), NAME_OF_FILE, name(257, 258, 2, b'link'),
           inode(258, 8, 0, made.DIRECTORY), name(258, 256, 3, b'd'), hashed(258, LINKED), indexed(258, 2, LINKED)), PASSES),
    ('both names of a file in one item', files(18, H, hashed(256, LINKED), I, indexed(256, 3, LINKED), inode(257, links=2),
                                              ((257, made.INODE_REF, 256), NAME_OF_FILE[1] + name(257, 256, 3, b'link')[1])), PASSES),
    ('a file without a name, which is an orphan', files(0, inode(257, links=0), made.orphan(257)), PASSES),
    ('a FIFO, whose bytes no item counts', files(10, hashed(256, entry(257, 5, b'hello')), indexed(256, 2, entry(257, 5, b'hello')),
                                                inode(257, 7, 4096, 0o010644), NAME_OF_FILE), PASSES),
    ('a name in an INODE_EXTREF', files(10, H, I, FILE, made.far_name(257, 256, 2, b'hello')), PASSES),
    ('a name that has another index in the directory',
     files(10, H, I, FILE, name(257, 256, 3, b'hello')), 'rejected A12 tree 5 block 0 key 257 12 256 detail 2'),
    ('a name that has other bytes', files(10, H, I, FILE, name(257, 256, 2, b'hullo')), 'rejected A12 tree 5 block 0 key 257 12 256 detail 2'),
    ('a name in another directory', files(10, H, I, FILE, name(257, 258, 2, b'hello')), 'rejected A12 tree 5 block 0 key 257 12 256 detail 2'),
    ('an entry by its index that has no entry by its hash', files(5, I, FILE, NAME_OF_FILE), 'rejected A11 tree 5 block 0 key 256 84 {} detail 257'
     .format(made.name_hash(b'hello'))),
    ('two names of one hash',
     files(28, hashed(256, ONE, OTHER), indexed(256, 2, ONE), indexed(256, 3, OTHER), FILE, name(257, 256, 2, b'aiyifwg'),
           inode(258), name(258, 256, 3, b'dlpjrry')), PASSES),
    ('an entry by its hash that says a directory',
     files(10, hashed(256, entry(257, 2, b'hello')), I, FILE, NAME_OF_FILE), 'rejected A10 tree 5 block 0 key 257 1 0 detail 2'),
    ('the name `..` of a directory that is no root',
     files(0, inode(258, 0, 0, made.DIRECTORY), name(258, 258, 0, b'..')), 'rejected A12 tree 5 block 0 key 258 12 258 detail 0'),
    ('no entry by its index, and the size that goes with that',
     files(5, H, FILE, NAME_OF_FILE), 'rejected A11 tree 5 block 0 key 256 84 1570712351 detail 257'),
    ('and the size that goes with both', files(10, H, FILE, NAME_OF_FILE), 'rejected A9 tree 5 block 0 key 256 1 0 detail 0'),
    ('an entry that leads to no inode', files(10, H, I), 'rejected A9 tree 5 block 0 key 257 1 0 detail 0'),
    ('two links and one name', files(10, H, I, inode(257, links=2), NAME_OF_FILE), 'rejected A9 tree 5 block 0 key 257 1 0 detail 0'),
    ('the second name of an item says another index',
     files(18, H, hashed(256, LINKED), I, indexed(256, 3, LINKED), inode(257, links=2),
           ((257, made.INODE_REF, 256), NAME_OF_FILE[1] + name(257, 256, 4, b'link')[1])), 'rejected A12 tree 5 block 0 key 257 12 256 detail 3'),
    ('an attribute of no inode', files(0, made.zeros((300, made.XATTR_ITEM, 7), 30)), 'rejected A9 tree 5 block 0 key 300 1 0 detail 0'),
]

# The entries of a symbolic link `hello`.
LINK = entry(257, 7, b'hello')
LINK_H, LINK_I = hashed(256, LINK), indexed(256, 2, LINK)
# A hole of 4096 bytes, and 8192 bytes that are reserved behind it.
HOLE, RESERVED = made.file_range(0, 0, 0), made.file_range(4096, DATA_AT, 8192, length=8192, sort=2)
DATA = [put(2, made.extent(DATA_AT, 8192, origin=4096, generation=2)), data_group(8192), used(106496)]
WRONG_BYTES = 'rejected A9 tree 5 block 0 key 257 1 0 detail 0'

BYTES = [
    ('a symbolic link', files(10, LINK_H, LINK_I, inode(257, 4, mode=made.LINK), NAME_OF_FILE, made.inline_data(257, 4)), PASSES),
    ('one without its bytes', files(10, LINK_H, LINK_I, inode(257, 4, 0, made.LINK), NAME_OF_FILE, made.inline_data(257, 4)), WRONG_BYTES),
    ('a hole and a reserved range', files(10, H, I, inode(257, 0, 8192), NAME_OF_FILE, HOLE, RESERVED) + DATA, PASSES),
    ('the bytes of the reserved range left out', files(10, H, I, inode(257, 0, 0), NAME_OF_FILE, HOLE, RESERVED) + DATA, WRONG_BYTES),
    ('those of the hole counted', files(10, H, I, inode(257, 0, 12288), NAME_OF_FILE, HOLE, RESERVED) + DATA, WRONG_BYTES),
    ('a range that is compressed', files(10, H, I, FILE, NAME_OF_FILE, made.file_range(0, DATA_AT, 4096, compression=1)),
     'rejected U13 tree 5 block 5324800 key 257 108 0 detail 1'),
    ('the used bytes of the metadata group', files(10, H, I, FILE, NAME_OF_FILE) + [metadata_group(77824)],
     'rejected A6 tree 0 block 0 key 5242880 192 8388608 detail 36'),
    ('those of a hole alone counted', files(10, H, I, inode(257, 0, 4096), NAME_OF_FILE, HOLE), WRONG_BYTES),
]

# The subvolume `s1`: its entries, its names in the root tree, its root item, and its tree, with its block.
S1 = entry(256, 2, b's1', kind=made.ROOT_ITEM)
S1_ENTRIES = files(4, hashed(256, S1), indexed(256, 2, S1))
ROOT_REF, ROOT_BACKREF = put(1, made.root_name(5, made.ROOT_REF, 256, b's1')), put(1, made.root_name(256, made.ROOT_BACKREF, 5, b's1'))
NO_ROOT_REF = 'rejected A14 tree 5 block 0 key 256 144 256 detail 2'
F = entry(257, 1, b'f')


def tree_below(*items, size=0):
    """The tree of the subvolume, whose top directory has this size."""
    items = dict([made.top(size), name(256, 256, 0, b'..'), *items])
    return [lambda image: image.put_leaf(BELOW, 256, items, 2), put(2, made.block(BELOW, 256, generation=2)), metadata_group(98304), used(114688)]


def root_below(references=1):
    return put(1, made.root(256, BELOW, 2, references=references))


SUBVOLUMES = [
    ('a subvolume', S1_ENTRIES + [ROOT_REF, root_below(), ROOT_BACKREF] + tree_below(), ONE_TREE_MORE),
    ('without its ROOT_BACKREF', S1_ENTRIES + [ROOT_REF, root_below()] + tree_below(), NO_ROOT_REF),
    ('a ROOT_BACKREF with another name',
     S1_ENTRIES + [ROOT_REF, root_below(), put(1, made.root_name(256, made.ROOT_BACKREF, 5, b's2'))] + tree_below(), NO_ROOT_REF),
    ('an entry that leads to another subvolume',
     files(4, hashed(256, entry(257, 2, b's1', kind=made.ROOT_ITEM)), indexed(256, 2, entry(257, 2, b's1', kind=made.ROOT_ITEM)))
     + [ROOT_REF, root_below(), ROOT_BACKREF] + tree_below(), 'rejected A13 tree 5 block 0 key 256 156 256 detail 2'),
    ('two references of its root item',
     S1_ENTRIES + [ROOT_REF, root_below(2), ROOT_BACKREF] + tree_below(), 'rejected A17 tree 1 block 0 key 256 132 0 detail 0'),
    ('the root tree does not know the name from the side of the parent',
     S1_ENTRIES + [root_below(), ROOT_BACKREF] + tree_below(), NO_ROOT_REF),
    ('or from no side, which is lawful', S1_ENTRIES, PASSES),
    ('the parent has no entry', [ROOT_REF, root_below(), ROOT_BACKREF] + tree_below(), 'rejected A13 tree 5 block 0 key 256 156 256 detail 2'),
    ('the two entries say two types',
     files(4, hashed(256, S1), indexed(256, 2, entry(256, 1, b's1', kind=made.ROOT_ITEM))) + [ROOT_REF, root_below(), ROOT_BACKREF] + tree_below(),
     'rejected A11 tree 5 block 0 key 256 84 1409984246 detail 256'),
    ('a file of the same number in both trees',
     files(14, hashed(256, S1), H, indexed(256, 2, S1), indexed(256, 3, ENTRY), FILE, name(257, 256, 3, b'hello'))
     + [ROOT_REF, root_below(), ROOT_BACKREF]
     + tree_below(hashed(256, F), indexed(256, 2, F), FILE, name(257, 256, 2, b'f'), size=2), ONE_TREE_MORE),
]

device = Device()
NEXT = changed(BASE, [made.Image.copy_on_write])


def groups_apart(image):
    """A commit of generation 2 that moves the block groups to a tree of their own: its leaf, the extent tree's and the root
    tree's are new blocks."""
    extents = {key: item for key, item in image.items(EXTENTS).items() if key[1] != made.BLOCK_GROUP_ITEM}
    roots = image.items(ROOTS)
    for tree, old, at in (2, EXTENTS, LEFT), (11, None, RIGHT), (1, ROOTS, made.NEXT_BLOCKS[1]):
        extents.pop((old, made.METADATA_ITEM, 0), None)
        extents.update([made.block(at, tree, generation=2)])
    roots.update([made.root(2, LEFT, 2), made.root(11, RIGHT, 2)])
    image.put_leaf(LEFT, 2, extents, 2)
    image.put_leaf(RIGHT, 11, dict(GROUPS), 2)
    image.put_leaf(made.NEXT_BLOCKS[1], 1, roots, 2)
    image.superblock = made.superblock(2, made.NEXT_BLOCKS[1])
    GROUP_TREE(image)
    used(114688)(image)


# Commits over another image than the base image: the image before, and the one that the commit makes. The leaf of a tree that
# went away stays where it was, as a free block.
APART = changed(BASE, OWN_GROUPS)
BACK = changed(BASE, [lambda image: image.blocks.update({LEFT: APART.blocks[LEFT]})])
MOVES = [
    ('block groups to a tree of their own: six old blocks and seven new ones', BASE, changed(BASE, [groups_apart]),
     'passed generation 2 blocks 13 hot 0'),
    ('without the feature', BASE, changed(BASE, [groups_apart, NO_GROUP_TREE]), 'rejected U7 tree 1 block 5357568 key 11 132 0 detail 11'),
    ('back, with the feature and without their tree',
     APART, changed(BASE, [GROUP_TREE]), 'rejected X2 tree 1 block 0 key 11 132 0 detail 0'),
    ('back, with the feature and with their tree', APART, changed(APART, [leaf(LEFT, 11), *(put(2, item) for item in GROUPS)]),
     'rejected U9 tree 2 block 5259264 key 1048576 192 4194304 detail 192'),
    ('back, without both: seven and six, and the leaves of the root tree and the extent tree are written over', APART, BACK,
     'passed generation 1 blocks 13 hot 2'),
]


def counted(before, image):
    """The end of the line of a commit that passes, as the model counts."""
    written = [False] * (made.LENGTH // 512)
    for at, data in image.pieces(before):
        written[at // 512:(at + len(data)) // 512] = [True] * (len(data) // 512)
    return 'blocks {} hot {}'.format(*Difference(Image(before.bytes()), Image(image.bytes()), written).counts())


def commit(row, before, image, line):
    """A commit that makes an image of another is answered so, and the device holds what it is to hold."""
    if line.startswith('passed') and not line.endswith(counted(before, image)):
        fail(row, f'the model counts {counted(before, image)}, not {line}')
    device.fill(before)
    status, lines = device.run('replay', trace=made.HEADER + b''.join(made.writes(image, before)) + made.END)
    passes = line.startswith('passed')
    wanted = ['image accepted generation 1', f'commit 1 {line}', 'end passed 1 rejected 0' if passes else 'end passed 0 rejected 1', '']
    got = lines.split('\n')
    if (status, got) != (0 if passes else 1, wanted):
        fail(row, f'status {status}, and {got}, not {wanted}')
    device.must_hold(row, (image if passes else before).bytes())


def as_checked(row, before, image, line):
    """A commit that makes an image of another is answered so, and as a check of that image is."""
    device.fill(image)
    finding = line.removeprefix('rejected ')
    wanted = f'image accepted {line[7:].split(" blocks ")[0]}\n' if finding == line else f'image refused {finding}\n'
    device.must_say(row, int(finding != line), wanted, 'check')
    commit(row, before, image, line)


# A file of one sector; one of three, whose middle sector was written again, so that one reference counts both ranges of the first
# extent; and the first without checksums, whose inode stands in another leaf than its range: the root of the file tree is a node.
TOP_AND_NAME = [*HELLO, put(5, inode(257, 4096)), put(5, made.file_range(0, DATA_AT, 4096))]
ONE_EXTENT = [put(2, made.extent(DATA_AT, 4096)), data_group(4096), used(102400)]
ONE_FILE = changed(BASE, TOP_AND_NAME + ONE_EXTENT + [put(7, made.sums(DATA_AT, 1))])
THREE_SECTORS = changed(BASE, [
    *HELLO, put(5, inode(257, 12288)), put(5, made.file_range(0, DATA_AT, 12288)), put(5, made.file_range(4096, 13643776, 4096)),
    put(5, made.file_range(8192, DATA_AT, 12288, 8192)), put(2, made.extent(DATA_AT, 12288, references=2, count=2)),
    put(2, made.extent(13643776, 4096, origin=4096)), data_group(16384), put(7, made.sums(DATA_AT, 4)), used(114688)])


def split(image):
    """The leaf of the file tree becomes two, the second of which begins with the file's range."""
    items = image.items(FILES)
    first, behind = min(items), (257, made.EXTENT_DATA, 0)
    image.put_leaf(LEFT, 5, {key: item for key, item in items.items() if key < behind})
    image.put_leaf(RIGHT, 5, {key: item for key, item in items.items() if key >= behind})
    image.blocks[FILES] = made.node(FILES, 5, [(first, LEFT), (behind, RIGHT)])


SPLIT = [split, put(1, made.root(5, FILES, level=1)), drop(2, FILES, made.METADATA_ITEM, 0), put(2, made.block(FILES, 5, 1)),
         put(2, made.block(LEFT, 5)), put(2, made.block(RIGHT, 5)), metadata_group(114688), used(135168)]
WITHOUT_SUMS = changed(BASE, TOP_AND_NAME + ONE_EXTENT + [put(5, inode(257, 4096, flags=1))] + SPLIT)
FLAG_GONE = put(5, inode(257, 4096))
MOVES += [
    ('a file of one sector, in place', BASE, ONE_FILE, 'passed generation 1 blocks 6 hot 3'),
    ('a file of three sectors, in place', BASE, THREE_SECTORS, 'passed generation 1 blocks 6 hot 3'),
    ('a file is to have checksums, and its range stands in a leaf that stays', WITHOUT_SUMS, changed(WITHOUT_SUMS, [FLAG_GONE]),
     'rejected A5 tree 0 block 13631488 key 0 0 0 detail 0'),
    # The leaf with the inode, the root above it and the leaf of checksums, before and after; the root stays as it is on the device.
    ('and it has one', WITHOUT_SUMS, changed(WITHOUT_SUMS, [FLAG_GONE, put(7, made.sums(DATA_AT, 1))]), 'passed generation 1 blocks 6 hot 2'),
]

# What no item that changed says: kept items whose chunk is another or went, the flag of an inode whose ranges are kept, and words of
# the superblock by which all blocks are read. Each line is also that of a check of the image.
DATA_CHUNK = made.CHUNKS[-1]
FREE_FILE = changed(WITHOUT_SUMS, [put(5, inode(257, 5000, 4096, flags=1))])


def data_chunk(start=DATA_AT, length=8388608, kind=1, place=22020096):
    return put(3, made.chunk(start, length, kind, [place]))


KEPT = [
    ('the chunk of a kept extent is of another class', ONE_FILE, changed(ONE_FILE, [data_chunk(kind=4), data_group(4096, 4)]),
     'rejected A7 tree 2 block 13631488 key 0 0 0 detail 0'),
    ('it is longer by 16 sectors', ONE_FILE, changed(ONE_FILE, [data_chunk(length=8388608 + 65536)]),
     'rejected A6 tree 0 block 0 key 13631488 192 8388608 detail 1'),
    ('it ends before the second of two extents', THREE_SECTORS, changed(THREE_SECTORS, [data_chunk(length=12288)]),
     'rejected A5 tree 0 block 13643776 key 0 0 0 detail 0'),
    ('which has no checksum then, and the group and the place are as long', THREE_SECTORS, changed(THREE_SECTORS, [
        drop(7, *made.sums(DATA_AT, 4)[0]), put(7, made.sums(DATA_AT, 3)),
        data_chunk(length=12288), drop(2, DATA_AT, made.BLOCK_GROUP_ITEM, 8388608), put(2, made.group(DATA_AT, 12288, 1, 12288)),
        put(4, made.device_extent(22020096, DATA_AT, 12288)), put(3, made.device(29360128 - 8388608 + 12288))]),
     'rejected A8 tree 2 block 13643776 key 0 0 0 detail 0'),
    ('it went', ONE_FILE, changed(ONE_FILE, [drop(3, 256, made.CHUNK_ITEM, DATA_AT)]),
     'rejected A5 tree 0 block 13631488 key 0 0 0 detail 0'),
    ('its place is another', ONE_FILE, changed(ONE_FILE, [
        data_chunk(place=22024192), drop(4, 1, made.DEV_EXTENT, 22020096), put(4, made.device_extent(22024192, DATA_AT, 8388608))]),
     'passed generation 1 blocks 4 hot 2'),
    ('the classes of two chunks are exchanged', ONE_FILE, changed(ONE_FILE, [
        data_chunk(kind=4), put(3, made.chunk(5242880, 8388608, 33, [5242880, 13631488])), data_group(4096, 4),
        put(2, made.group(5242880, 8388608, 33, 81920))]), 'rejected A7 tree 2 block 5242880 key 0 0 0 detail 0'),
    ('another size of a tree block', ONE_FILE, changed(ONE_FILE, [write(SUPERBLOCK + 0x94, made.number(4096, 4))]),
     f'rejected N3 tree 3 block 1048576 key 0 0 0 detail {made.crc32c(ONE_FILE.blocks[CHUNKS][32:4096])}'),
    ('a word of features that none has', ONE_FILE, changed(ONE_FILE, [write(SUPERBLOCK + 0xbc, made.number(1 << 40))]),
     'rejected U2 tree 0 block 0 key 0 0 0 detail 1099511627776'),
    ('a sector of the file has no checksum any more', ONE_FILE, changed(ONE_FILE, [drop(7, *made.sums(DATA_AT, 1)[0])]),
     'rejected A5 tree 0 block 13631488 key 0 0 0 detail 0'),
    ('the file is to have none', ONE_FILE, changed(ONE_FILE, [put(5, inode(257, 4096, flags=1))]), 'passed generation 1 blocks 2 hot 1'),
    ('a file without checksums grows', WITHOUT_SUMS, FREE_FILE, 'passed generation 1 blocks 4 hot 1'),
    ('its inode goes, and its range stands in a leaf that stays', WITHOUT_SUMS, changed(WITHOUT_SUMS, [drop(5, 257, made.INODE_ITEM, 0)]),
     'rejected A5 tree 0 block 13631488 key 0 0 0 detail 0'),
    ('another generation in an entry, which no rule reads', ONE_FILE, changed(ONE_FILE, [
        put(5, indexed(256, 2, entry(257, 1, b'hello', generation=9)))]), 'passed generation 1 blocks 2 hot 1'),
    ('another last byte of a name', ONE_FILE, changed(ONE_FILE, [put(5, indexed(256, 2, entry(257, 1, b'hellp')))]),
     'rejected A11 tree 5 block 0 key 256 84 332582996 detail 257'),
]

rows = [(row, BASE, changed(NEXT, changes), line) for table in (NAMES, BYTES, SUBVOLUMES) for row, changes, line in table] + MOVES
for row in rows:
    commit(*row)
for row in KEPT:
    as_checked(*row)
# Two commits in one run: the second is judged by an index that the first one moved.
GONE = changed(ONE_FILE, [drop(2, DATA_AT, made.EXTENT_ITEM, 4096), data_group(0), drop(7, *made.sums(DATA_AT, 1)[0]), used(98304)])
device.fill(BASE)
device.must_say('a file of one sector, and then without its extent', 1, 'image accepted generation 1\ncommit 1 passed generation 1 blocks 6 hot 3\n'
                'commit 2 rejected A2 tree 5 block 13631488 key 257 178 0 detail 0\nend passed 1 rejected 1\n', 'replay',
                trace=made.HEADER + b''.join(made.writes(ONE_FILE, BASE) + made.writes(GONE, ONE_FILE)) + made.END)
device.must_hold('a file of one sector, and then without its extent', ONE_FILE.bytes())
print(f'commits: {len(rows) + len(KEPT) + 2} commits pass or are rejected as they are to be')
