"""Small Btrfs images of 32 MiB, from the on-disk format alone: the base image, and what changes make of it.

An image is changed item by item: `put` puts an item into a tree, `drop` takes one away, and `write` puts bytes over a
block or the superblock. The checksums and the second copies of metadata blocks follow by themselves. An item is its
key, three numbers, and its bytes. Addresses, places on the device, lengths and sizes are in bytes."""
import struct

NODESIZE, SUPERBLOCK, LENGTH = 16384, 65536, 33554432
FSID = bytes(range(1, 17))
CHUNK_UUID, DEVICE_UUID = b'\x22' * 16, b'\x33' * 16
# start, length, type, the places of the copies on the device
CHUNKS = [(1048576, 4194304, 2, [1048576]), (5242880, 8388608, 36, [5242880, 13631488]), (13631488, 8388608, 1, [22020096])]
# tree and address of each first block
BLOCKS = {1: 5242880, 2: 5259264, 3: 1048576, 4: 5275648, 5: 5292032, 7: 5308416}
# tree and address of each block of a commit that copies on write
NEXT_BLOCKS = {5: 5324800, 2: 5341184, 1: 5357568}
SUMS = 2 ** 64 - 10
ORPHANS = 2 ** 64 - 5
# The kinds of items.
INODE_ITEM, INODE_REF, INODE_EXTREF, XATTR_ITEM, ORPHAN_ITEM, DIR_ITEM, DIR_INDEX = 1, 12, 13, 24, 48, 84, 96
EXTENT_DATA, EXTENT_CSUM, ROOT_ITEM, ROOT_BACKREF, ROOT_REF, EXTENT_ITEM, METADATA_ITEM = 108, 128, 132, 144, 156, 168, 169
TREE_BLOCK_REF, EXTENT_DATA_REF, BLOCK_GROUP_ITEM, DEV_EXTENT, DEV_ITEM, CHUNK_ITEM = 176, 178, 192, 204, 216, 228
REGULAR, DIRECTORY, LINK = 0o100644, 0o040755, 0o120777


def table_entry(byte):
    for _ in range(8):
        byte = byte >> 1 ^ (0x82F63B78 if byte & 1 else 0)
    return byte


TABLE = [table_entry(byte) for byte in range(256)]


def register(start, data):
    for byte in data:
        start = start >> 8 ^ TABLE[(start ^ byte) & 255]
    return start


def crc32c(data):
    return register(0xFFFFFFFF, data) ^ 0xFFFFFFFF


def name_hash(name):
    return register(0xFFFFFFFE, name)


def number(value, width=8):
    return value.to_bytes(width, 'little')


# Items.

def root(tree, address, generation=1, offset=0, level=0, references=1):
    item = bytearray(439)
    struct.pack_into('<QQQ', item, 160, generation, 256 if tree == 5 or 256 <= tree < 2 ** 63 else 0, address)
    struct.pack_into('<I', item, 216, references)
    item[238] = level
    return (tree, ROOT_ITEM, offset), bytes(item)


def chunk(start, length, kind, places):
    item = struct.pack('<QQQQIIIHH', length, 2, 65536, kind, 65536, 65536, 4096, len(places), 0)
    return (256, CHUNK_ITEM, start), item + b''.join(struct.pack('<QQ', 1, place) + DEVICE_UUID for place in places)


def device(used=29360128):
    item = bytearray(98)
    struct.pack_into('<QQQ', item, 0, 1, LENGTH, used)
    item[66:82], item[82:98] = DEVICE_UUID, FSID
    return (1, DEV_ITEM, 1), bytes(item)


def device_extent(place, start, length):
    return (1, DEV_EXTENT, place), struct.pack('<QQQQ', 3, 256, start, length) + CHUNK_UUID


def block(address, tree, level=0, references=1, generation=1):
    return (address, METADATA_ITEM, level), struct.pack('<QQQBQ', references, generation, 2, TREE_BLOCK_REF, tree)


def group(start, length, kind, used):
    return (start, BLOCK_GROUP_ITEM, length), struct.pack('<QQQ', used, 256, kind)


def extent(at, length, references=1, origin=0, count=1, generation=1):
    """An extent that the file 257 of tree 5 refers to, so often from the byte `origin` of the file on."""
    inline = struct.pack('<BQQQI', EXTENT_DATA_REF, 5, 257, origin % 2 ** 64, count)
    return (at, EXTENT_ITEM, length), struct.pack('<QQQ', references, generation, 1) + inline


def reference(at, offset, count=1):
    """A reference of the file 257 with an item of its own, whose key ends in this number."""
    return (at, EXTENT_DATA_REF, offset), struct.pack('<QQQI', 5, 257, 0, count)


def sums(at, sectors):
    return (SUMS, EXTENT_CSUM, at), bytes(4 * sectors)


def inode(ino, size=0, taken=None, mode=REGULAR, links=1, flags=0, generation=1):
    taken = size if taken is None else taken
    front = struct.pack('<QQQQQIIIIQQ', generation, 0, size, taken, 0, links, 0, 0, mode, 0, flags)
    return (ino, INODE_ITEM, 0), front.ljust(160, b'\0')


def top(size, mode=DIRECTORY):
    """The inode of the top directory. Each name in it counts twice."""
    return inode(256, size, NODESIZE, mode)


def name(ino, directory, index, text):
    return (ino, INODE_REF, directory), struct.pack('<QH', index, len(text)) + text


def far_name(ino, directory, index, text):
    return (ino, INODE_EXTREF, 7), struct.pack('<QQH', directory, index, len(text)) + text


def entry(ino, sort, text, kind=INODE_ITEM, generation=1):
    """An entry of a directory: what it leads to, its type, and its name."""
    return struct.pack('<QBQQHHB', ino, kind, 0, generation, 0, len(text), sort) + text


def hashed(directory, *entries, key=None):
    """The entries of a directory whose names have one hash."""
    return (directory, DIR_ITEM, name_hash(entries[0][30:]) if key is None else key), b''.join(entries)


def indexed(directory, index, one):
    return (directory, DIR_INDEX, index), one


def file_range(at, address, taken, offset=0, length=4096, sort=1, compression=0, ino=257):
    """A range of a file from a byte on, of an extent and its length, from a byte of that on; address 0 is a hole."""
    front = struct.pack('<QQBBHB', 1, length, compression, 0, 0, sort)
    return (ino, EXTENT_DATA, at), front + struct.pack('<QQQQ', address, taken, offset, length)


def inline_data(ino, length):
    return (ino, EXTENT_DATA, 0), struct.pack('<QQBBHB', 0, length, 0, 0, 0, 0) + bytes(length)


def orphan(ino):
    return (ORPHANS, ORPHAN_ITEM, ino), b''


def root_name(objectid, kind, offset, text):
    """The name of a subvolume in the directory 256 at index 2, as the root tree says it."""
    return (objectid, kind, offset), struct.pack('<QQH', 256, 2, len(text)) + text


def zeros(key, size, bytes_at=()):
    """An item of so many bytes, which are 0 but for these: pairs of a place and a byte."""
    item = bytearray(size)
    for place, byte in bytes_at:
        item[place] = byte
    return key, bytes(item)


# Blocks.

def mended(data):
    return struct.pack('<I', crc32c(data[32:])) + bytes(data[4:])


def header(address, tree, generation, count, level):
    data = bytearray(NODESIZE)
    data[0x20:0x30], data[0x40:0x50] = FSID, CHUNK_UUID
    struct.pack_into('<Q', data, 0x30, address)
    data[0x38] = data[0x3F] = 1
    struct.pack_into('<QQIB', data, 0x50, generation, tree, count, level)
    return data


def leaf(address, tree, generation, items):
    data, end = header(address, tree, generation, len(items), 0), NODESIZE - 101
    for place, (key, item) in enumerate(items):
        end -= len(item)
        struct.pack_into('<QBQII', data, 101 + 25 * place, *key, end, len(item))
        data[101 + end:101 + end + len(item)] = item
    return mended(data)


def node(address, tree, pointers):
    """A node of level 1 with pointers of these keys and addresses, all of generation 1."""
    data = header(address, tree, 1, len(pointers), 1)
    for place, (key, below) in enumerate(pointers):
        struct.pack_into('<QBQQQ', data, 101 + 33 * place, *key, below, 1)
    return mended(data)


def superblock(generation, root_block):
    data = bytearray(4096)
    data[0x20:0x30], data[0x40:0x48] = FSID, b'_BHRfS_M'
    struct.pack_into('<QQ', data, 0x30, SUPERBLOCK, 1)
    struct.pack_into('<QQQ', data, 0x48, generation, root_block, 1048576)
    struct.pack_into('<QQQQII', data, 0x70, LENGTH, 98304, 6, 1, 4096, NODESIZE)
    struct.pack_into('<IQ', data, 0xA0, 97, 1)
    struct.pack_into('<Q', data, 0xBC, 865)
    data[0xC9:0x12B] = device()[1]
    key, item = chunk(*CHUNKS[0])
    data[0x32B:0x38C] = struct.pack('<QBQ', *key) + item
    return mended(data)


def places(address):
    """The places on the device of all copies of what stands at an address."""
    for start, length, _, copies in CHUNKS:
        if start <= address < start + length:
            return [address - start + copy for copy in copies]


def base_items():
    """The items of each tree of the base image."""
    blocks = [block(at, tree) for tree, at in BLOCKS.items()]
    groups = [group(start, length, kind, used) for (start, length, kind, _), used in zip(CHUNKS, (16384, 81920, 0))]
    return {
        1: [root(tree, BLOCKS[tree]) for tree in (2, 4, 5, 7)],
        2: sorted(blocks + groups),
        3: [device()] + [chunk(*one) for one in CHUNKS],
        4: [device_extent(place, one[0], one[1]) for one in CHUNKS for place in one[3]],
        5: [top(0), name(256, 256, 0, b'..')],
        7: [],
    }


class Image:
    """An image as its superblock and its blocks: the base image, until it is changed."""

    def __init__(self):
        self.blocks = {BLOCKS[tree]: leaf(BLOCKS[tree], tree, 1, items) for tree, items in base_items().items()}
        self.superblock = superblock(1, BLOCKS[1])

    def copy(self):
        other = Image.__new__(Image)
        other.blocks, other.superblock = dict(self.blocks), self.superblock
        return other

    def items(self, address):
        """The items of the leaf at an address."""
        data, items = self.blocks[address], {}
        for place in range(struct.unpack_from('<I', data, 0x60)[0]):
            *key, start, size = struct.unpack_from('<QBQII', data, 101 + 25 * place)
            items[tuple(key)] = data[101 + start:101 + start + size]
        return items

    def root(self, tree):
        """The address of the root block of a tree."""
        if tree in (1, 3):
            return struct.unpack_from('<Q', self.superblock, 0x50 if tree == 1 else 0x58)[0]
        return struct.unpack_from('<Q', self.items(self.root(1))[tree, ROOT_ITEM, 0], 176)[0]

    def leaf_for(self, tree, key):
        """The address of the leaf of a tree that has or would have this key; a tree has at most two levels."""
        at = self.root(tree)
        data = self.blocks[at]
        if data[0x64]:
            heads = [101 + 33 * place for place in range(struct.unpack_from('<I', data, 0x60)[0])]
            below = [head for head in heads if struct.unpack_from('<QBQ', data, head) <= key] or heads
            at = struct.unpack_from('<Q', data, below[-1] + 17)[0]
        return at

    def put_leaf(self, address, tree, items, generation=1):
        self.blocks[address] = leaf(address, tree, generation, sorted(items.items()))

    def change(self, tree, key, item):
        at = self.leaf_for(tree, key)
        items = self.items(at)
        items.pop(key, None)
        if item is not None:
            items[key] = item
        self.put_leaf(at, tree, items, struct.unpack_from('<Q', self.blocks[at], 0x50)[0])

    def put(self, tree, item):
        """Puts an item into a tree, in the place of one with its key."""
        self.change(tree, *item)

    def drop(self, tree, key):
        """Takes the item with a key from a tree."""
        if key not in self.items(self.leaf_for(tree, key)):
            raise KeyError(key)
        self.change(tree, key, None)

    def write(self, at, data):
        """Puts bytes over the superblock or over a block, with a right checksum."""
        first = SUPERBLOCK if at < CHUNKS[0][0] else at - at % NODESIZE
        old = self.superblock if first == SUPERBLOCK else self.blocks[first]
        new = mended(old[:at - first] + data + old[at - first + len(data):])
        if first == SUPERBLOCK:
            self.superblock = new
        else:
            self.blocks[first] = new

    def copy_on_write(self):
        """Begins a commit of generation 2: the file tree, the extent tree and the root tree stand in new blocks."""
        for tree in NEXT_BLOCKS:
            self.drop(2, (BLOCKS[tree], METADATA_ITEM, 0))
            self.put(2, block(NEXT_BLOCKS[tree], tree, generation=2))
        items = {tree: self.items(BLOCKS[tree]) for tree in NEXT_BLOCKS}
        items[1].update(root(tree, NEXT_BLOCKS[tree], 2) for tree in (2, 5))
        for tree, address in NEXT_BLOCKS.items():
            self.blocks[BLOCKS[tree]] = leaf(BLOCKS[tree], tree, 1, base_items()[tree])
            self.put_leaf(address, tree, items[tree], 2)
        self.superblock = superblock(2, NEXT_BLOCKS[1])

    def group_tree(self, address=5324800):
        """Moves the block groups to a tree of their own, 11, whose leaf is a block that was free: they leave the extent tree, the
        root tree names theirs, the superblock has the feature, and the sums have one block more."""
        groups = [group(start, length, kind, used) for (start, length, kind, _), used in zip(CHUNKS, (16384, 98304, 0))]
        for key, _ in groups:
            self.drop(2, key)
        self.put_leaf(address, 11, dict(groups))
        self.put(1, root(11, address))
        self.put(2, block(address, 11))
        self.write(SUPERBLOCK + 0xB4, number(8))
        self.write(SUPERBLOCK + 0x78, number(114688))

    def new_file(self):
        """A commit of generation 2 that makes the empty file `hello`."""
        self.copy_on_write()
        one = entry(257, 1, b'hello', generation=2)
        for item in top(10), hashed(256, one), indexed(256, 2, one), inode(257, generation=2), name(257, 256, 2, b'hello'):
            self.put(5, item)

    def pieces(self, before=None):
        """What stands on the device and where: all copies of the blocks, those alone that another image has not, and
        the superblock at the end."""
        for address, data in sorted(self.blocks.items()):
            if before is None or before.blocks.get(address) != data:
                for place in places(address):
                    yield place, data
        yield SUPERBLOCK, self.superblock

    def bytes(self):
        data = bytearray(LENGTH)
        for place, piece in self.pieces():
            data[place:place + len(piece)] = piece
        return data


# Traces.

HEADER, SETTLE, END = b'RECONTRC' + struct.pack('<II', 1, 0), b'\2', b'\xff'


def write(at, data, size=None):
    """The record of a write, which may say another size than its data has."""
    return struct.pack('<BHQI', 1, 0, at, len(data) if size is None else size) + data


def fetch(at, size):
    return struct.pack('<BQI', 3, at, size)


def writes(image, before):
    """The records of the writes that make an image of one before it, the superblock's at the end."""
    return [write(place, data) for place, data in image.pieces(before)]
