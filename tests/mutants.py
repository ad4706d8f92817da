"""Mutants for tests/hostile.py: volumes with changed fields, items, pointers and bytes, and traces with changed records.

A volume is a sound image in a file, as its pages that are not zero. It knows its superblock and its tree blocks. What is
changed is drawn from a `random.Random`. Checksums are mended and both copies changed, but for some. Addresses, places on
the device and lengths are in bytes."""
import os
import re
import struct

from rows import made

PAGE = 4096
ZEROS = bytes(PAGE)
SUPERBLOCK = made.SUPERBLOCK


# Checksums. Two sums differ by what the bytes differ in, so that a block of many equal bytes is summed fast.

def times(one, other):
    """The product of two polynomials modulo that of CRC-32C; bit 31 is the power 0."""
    product = 0
    for bit in range(31, -1, -1):
        if one >> bit & 1:
            product ^= other
        other = other >> 1 ^ (0x82F63B78 if other & 1 else 0)
    return product


POWERS = [1 << 23]
while len(POWERS) < 24:
    POWERS.append(times(POWERS[-1], POWERS[-1]))


def over_zeros(state, count):
    """What a register is after so many bytes of 0."""
    for bit, power in enumerate(POWERS):
        if count >> bit & 1:
            state = times(power, state)
    return state


def mended(new, old=None):
    """A block with its right checksum, from a block of that length whose checksum is right, or from none."""
    front, size = 32, len(new) - 32
    if old is None:
        total, differs = over_zeros(0xFFFFFFFF, size) ^ 0xFFFFFFFF, bytes(new[front:])
    else:
        total = struct.unpack_from('<I', old)[0]
        differs = (int.from_bytes(new[front:], 'big') ^ int.from_bytes(old[front:], 'big')).to_bytes(size, 'big')
    for part in re.finditer(rb'[^\0]+(?:\0{1,40}[^\0]+)*', differs):
        total ^= over_zeros(made.register(0, part[0]), size - part.end())
    return struct.pack('<I', total) + bytes(new[4:])


# Volumes.

def pages_of(file, length):
    """The pages of a file that are not zero: their places and their bytes."""
    at = 0
    while at < length:
        try:
            at = os.lseek(file, at, os.SEEK_DATA)
        except OSError:  # no data from here on
            return
        end, at = os.lseek(file, at, os.SEEK_HOLE), at - at % PAGE
        while at < end:
            data = os.pread(file, min(1 << 20, end - at), at)
            for place in range(0, len(data), PAGE):
                page = data[place:place + PAGE]
                if page != ZEROS[:len(page)]:
                    yield at + place, page
            at += len(data)


class Image:
    """A device as its pages that are not zero."""

    def __init__(self, pages, length):
        self.pages, self.length = pages, length

    def copy(self):
        return Image(dict(self.pages), self.length)

    def page(self, place):
        return self.pages.get(place, ZEROS)

    def read(self, at, size):
        first = at - at % PAGE
        data = b''.join(self.page(place).ljust(PAGE, b'\0') for place in range(first, at + size, PAGE))
        return data[at - first:at - first + size]

    def write(self, at, data):
        """Puts bytes at a place, and gives the pages that they touch."""
        first, end = at - at % PAGE, at + len(data)
        end += -end % PAGE
        whole = bytearray(self.read(first, end - first))
        whole[at - first:at - first + len(data)] = data
        for place in range(first, end, PAGE):
            page = bytes(whole[place - first:place - first + PAGE])[:self.length - place]
            if page == ZEROS[:len(page)]:
                self.pages.pop(place, None)
            else:
                self.pages[place] = page
        return range(first, end, PAGE)

    def cut(self, length):
        """Makes the device so long."""
        self.length = length
        for place in [place for place in self.pages if place + PAGE > length]:
            page = self.pages.pop(place)[:max(length - place, 0)]
            if page.strip(b'\0'):
                self.pages[place] = page


class Volume(Image):
    """A sound image, with its superblock and its blocks: their addresses, the superblock's as the first."""

    def __init__(self, file, length):
        super().__init__(dict(pages_of(file, length)), length)
        sup = self.read(SUPERBLOCK, PAGE)
        self.nodesize, = struct.unpack_from('<I', sup, 0x94)
        self.chunks, at, end = [], 0x32B, 0x32B + struct.unpack_from('<I', sup, 0xA0)[0]
        while at < end:
            at += 17 + self.add_chunk(struct.unpack_from('<Q', sup, at + 9)[0], sup[at + 17:])
        self.blocks, self.trees, roots = [SUPERBLOCK], {}, struct.unpack_from('<QQ', sup, 0x50)
        for tree, root in (3, roots[1]), (1, roots[0]):
            self.walk(tree, root)
        # Numbers that fields may be drawn from.
        self.known = [self.nodesize, PAGE, length, *self.blocks, *self.trees, *(one[0] for one in self.chunks)]

    def add_chunk(self, start, item):
        size, stripes = 48, struct.unpack_from('<H', item, 44)[0]
        places = [struct.unpack_from('<Q', item, size + 32 * k + 8)[0] for k in range(stripes)]
        self.chunks.append((start, struct.unpack_from('<Q', item)[0], places))
        return size + 32 * stripes

    def places(self, address):
        """The places on the device of all copies of what stands at an address; none where no chunk has it."""
        if address == SUPERBLOCK:
            return [SUPERBLOCK]
        return next(([address - start + copy for copy in copies] for start, length, copies in self.chunks
                     if start <= address < start + length), [])

    def block(self, address):
        return self.read(self.places(address)[0], PAGE if address == SUPERBLOCK else self.nodesize)

    def walk(self, tree, address):
        data = self.block(address)
        self.blocks.append(address)
        self.trees.setdefault(tree, []).append(address)
        if data[0x64]:
            for pointer in entries(data):
                self.walk(tree, struct.unpack_from('<Q', pointer, 17)[0])
            return
        for key, item in items(data):
            objectid, kind, offset = struct.unpack('<QBQ', key)
            if tree == 3 and kind == made.CHUNK_ITEM and all(one[0] != offset for one in self.chunks):
                self.add_chunk(offset, item)
            elif tree == 1 and kind == made.ROOT_ITEM:
                self.walk(objectid, struct.unpack_from('<Q', item, 176)[0])

    def free_address(self, draw):
        """The address of a block in the metadata chunk that is not live."""
        start, length, _ = next(one for one in self.chunks if one[0] <= self.trees[1][0] < one[0] + one[1])
        while True:
            address = start + self.nodesize * draw.randrange(length // self.nodesize)
            if address not in self.blocks:
                return address


# Blocks. Each reader takes what it finds, since a block may be changed twice.

def entries(data):
    """The pointers of a node or the heads of a leaf's items."""
    size = 33 if data[0x64] else 25
    count = min(struct.unpack_from('<I', data, 0x60)[0], (len(data) - 101) // size)
    return [bytes(data[101 + size * k:101 + size * k + size]) for k in range(count)]


def items(data):
    """The keys and the bytes of a leaf's items."""
    found = []
    for head in entries(data):
        start, size = struct.unpack_from('<II', head, 17)
        found.append((head[:17], bytes(data[101 + start:101 + start + size])))
    return found


def with_entries(data, pointers):
    """A node with these pointers, as many as fit."""
    pointers = pointers[:(len(data) - 101) // 33]
    body = b''.join(pointers)
    data[101:] = body.ljust(len(data) - 101, b'\0')
    struct.pack_into('<I', data, 0x60, len(pointers))


def with_items(data, listed):
    """A leaf with these items, as many as fit."""
    end, count = len(data) - 101, 0
    data[101:] = bytes(end)
    for key, item in listed:
        if end - len(item) < 25 * (count + 1):
            break
        end -= len(item)
        struct.pack_into('<17sII', data, 101 + 25 * count, key, end, len(item))
        data[101 + end:101 + end + len(item)] = item
        count += 1
    struct.pack_into('<I', data, 0x60, count)


# Fields: places and widths. Those of the superblock, with its device item and the first chunk of its array; of a block's
# header; of a pointer; of an item's head; and of items, by their kinds.
SUPER = [(at, 8) for at in (0x20, 0x28, 0x30, 0x38, 0x40, 0x48, 0x50, 0x58, 0x60, 0x70, 0x78, 0x80, 0x88, 0xA4, 0xAC, 0xB4, 0xBC)]
SUPER += [(at, 4) for at in (0x90, 0x94, 0x98, 0x9C, 0xA0)] + [(0xC4, 2), (0xC6, 1), (0xC7, 1), (0xC8, 1)]
SUPER += [(0xC9, 8), (0xD1, 8), (0xD9, 8), (0x32B, 8), (0x333, 1), (0x334, 8), (0x33C, 8), (0x354, 8), (0x368, 2), (0x36C, 8), (0x374, 8)]
HEADER = [(0, 4), (0x20, 8), (0x28, 8), (0x30, 8), (0x38, 8), (0x50, 8), (0x58, 8), (0x60, 4), (0x64, 1)]
POINTER = [(0, 8), (8, 1), (9, 8), (17, 8), (25, 8)]
HEAD = [(0, 8), (8, 1), (9, 8), (17, 4), (21, 4)]
IN_ITEM = {
    made.INODE_ITEM: [(16, 8), (24, 8), (40, 4), (52, 4), (64, 8)],
    made.INODE_REF: [(0, 8), (8, 2)],
    made.INODE_EXTREF: [(0, 8), (8, 8), (16, 2)],
    made.DIR_ITEM: [(0, 8), (8, 1), (9, 8), (25, 2), (27, 2), (29, 1)],
    made.DIR_INDEX: [(0, 8), (8, 1), (9, 8), (25, 2), (27, 2), (29, 1)],
    made.EXTENT_DATA: [(8, 8), (16, 1), (17, 1), (18, 2), (20, 1), (21, 8), (29, 8), (37, 8), (45, 8)],
    made.ROOT_ITEM: [(160, 8), (176, 8), (216, 4), (220, 8), (238, 1)],
    made.ROOT_REF: [(0, 8), (8, 8), (16, 2)],
    made.ROOT_BACKREF: [(0, 8), (8, 8), (16, 2)],
    made.EXTENT_ITEM: [(0, 8), (8, 8), (16, 8), (24, 1), (25, 8), (33, 8), (41, 8), (49, 4)],
    made.METADATA_ITEM: [(0, 8), (8, 8), (16, 8), (24, 1), (25, 8)],
    made.EXTENT_DATA_REF: [(0, 8), (8, 8), (16, 8), (24, 4)],
    made.BLOCK_GROUP_ITEM: [(0, 8), (8, 8), (16, 8)],
    made.DEV_EXTENT: [(0, 8), (8, 8), (16, 8), (24, 8)],
    made.DEV_ITEM: [(0, 8), (8, 8), (16, 8)],
    made.CHUNK_ITEM: [(0, 8), (16, 8), (24, 8), (44, 2), (48, 8), (56, 8), (80, 8), (88, 8)],
}
KINDS = [*IN_ITEM, made.XATTR_ITEM, made.ORPHAN_ITEM, made.EXTENT_CSUM, made.TREE_BLOCK_REF, 182, 184, 248, 249]


def draw_field(draw, data, is_super):
    """The place and the width of a field of a block."""
    listed, part = [] if is_super else entries(data), draw.random()
    if is_super or not listed or part < 0.25:
        return draw.choice(SUPER if is_super else HEADER)
    place = draw.randrange(len(listed))
    if data[0x64]:
        at, width = draw.choice(POINTER)
        return 101 + 33 * place + at, width
    start, size = struct.unpack_from('<II', listed[place], 17)
    if part < 0.5 or not size or 101 + start + size > len(data):
        at, width = draw.choice(HEAD)
        return 101 + 25 * place + at, width
    fields = [(at, width) for at, width in IN_ITEM.get(listed[place][8], []) if at + width <= size]
    if not fields or draw.random() < 0.2:
        width = draw.choice([it for it in (1, 2, 4, 8) if it <= size])
        fields = [(draw.randrange(size - width + 1), width)]
    at, width = draw.choice(fields)
    return 101 + start + at, width


def draw_number(draw, old, width, known):
    """A number for a field: an extreme, one near the old, or one that stands elsewhere."""
    top = 256 ** width - 1
    return draw.choice([
        0, 1, 2, top, top - 1, top // 2, top // 2 + 1, old + 1, old - 1, old ^ 1 << draw.randrange(8 * width),
        draw.getrandbits(8 * width), 2 * old, old + PAGE, old - PAGE, top - PAGE + 1, top // 2 - PAGE + 1,
        PAGE * draw.getrandbits(8 * width), draw.choice(known)]) & top


# Changes of a block, in place. Each says what it did.

def flip(draw, data, volume, is_super):
    places = [draw.randrange(0x3A0 if is_super else len(data)) for _ in range(draw.choice((1, 1, 2, 8)))]
    for at in places:
        data[at] ^= 1 << draw.randrange(8)
    return f'bits at {places}'


def set_field(draw, data, volume, is_super):
    at, width = draw_field(draw, data, is_super)
    at = min(at, len(data) - width)
    value = draw_number(draw, int.from_bytes(data[at:at + width], 'little'), width, volume.known)
    data[at:at + width] = made.number(value, width)
    return f'{width} bytes at {at:#x} say {value}'


def change_list(draw, data, volume, is_super):
    if is_super:
        return set_field(draw, data, volume, is_super)
    return (change_pointers if data[0x64] else change_items)(draw, data, volume)


def rearrange(draw, listed):
    """Cuts, repeats or swaps entries of a list."""
    one, other = draw.randrange(len(listed)), draw.randrange(len(listed))
    how = draw.choice(('cut', 'repeat', 'swap', 'cut from', 'repeat all'))
    if how == 'cut':
        del listed[one]
    elif how == 'repeat':
        listed.insert(other, listed[one])
    elif how == 'swap':
        listed[one], listed[other] = listed[other], listed[one]
    elif how == 'cut from':
        del listed[one:]
    else:
        listed += listed
    return f'{how} {one} {other}'


def draw_key(draw, key, volume):
    """A key with one number changed."""
    objectid, kind, offset = struct.unpack('<QBQ', key)
    part = draw.randrange(3)
    if part == 0:
        objectid = draw_number(draw, objectid, 8, volume.known)
    elif part == 1:
        kind = draw.choice(KINDS)
    else:
        offset = draw_number(draw, offset, 8, volume.known)
    return struct.pack('<QBQ', objectid, kind, offset)


def change_items(draw, data, volume):
    listed = items(data)
    how = draw.choice(('rearrange', 'shorter', 'longer', 'key', 'key', 'other', 'other', 'many')) if listed else 'other'
    place = draw.randrange(len(listed)) if listed else 0
    if how == 'rearrange':
        how = rearrange(draw, listed)
    elif how == 'shorter':
        key, item = listed[place]
        listed[place] = key, item[:draw.randrange(len(item) + 1)]
    elif how == 'longer':
        key, item = listed[place]
        listed[place] = key, item + draw.choice((item, item * 3, bytes(draw.randrange(1, 64)), draw.randbytes(4)))
    elif how == 'key':
        listed[place] = draw_key(draw, listed[place][0], volume), listed[place][1]
    elif how == 'other':
        leaf = volume.block(draw.choice(volume.blocks[1:]))
        more = [] if leaf[0x64] else items(leaf)
        if more:
            key, item = draw.choice(more)
            listed.append((key if draw.random() < 0.5 else draw_key(draw, key, volume), item))
    else:
        key, item = listed[place]
        objectid, kind, offset = struct.unpack('<QBQ', key)
        step = draw.choice((1, PAGE, volume.nodesize, 1 << 32))
        by_objectid = draw.random() < 0.5
        for k in range(1, (len(data) - 101) // (25 + len(item))):
            first, last = (objectid + step * k, offset) if by_objectid else (objectid, offset + step * k)
            listed.append((struct.pack('<QBQ', first % 2 ** 64, kind, last % 2 ** 64), item))
    if draw.random() < 0.8:
        listed.sort(key=lambda one: struct.unpack('<QBQ', one[0]))
        if draw.random() < 0.8:
            listed = list(dict(listed).items())
    with_items(data, listed)
    return f'items: {how} at {place}'


def change_pointers(draw, data, volume):
    listed = entries(data)
    how = draw.choice(('rearrange', 'other', 'key')) if listed else 'other'
    place = draw.randrange(len(listed)) if listed else 0
    if how == 'rearrange':
        how = rearrange(draw, listed)
    elif how == 'key':
        listed[place] = draw_key(draw, listed[place][:17], volume) + listed[place][17:]
    elif listed:
        own = struct.unpack_from('<Q', data, 0x30)[0]
        to = draw.choice((own, draw.choice(volume.blocks), draw_number(draw, own, 8, volume.known)))
        listed[place] = listed[place][:17] + made.number(to) + listed[place][25:]
    with_entries(data, listed)
    return f'pointers: {how} at {place}'


def replace(draw, data, volume, is_super):
    """Another block, with or without its own address and tree, or no block."""
    if is_super:
        return set_field(draw, data, volume, is_super)
    own, how = bytes(data), draw.choice(('other', 'other', 'zeros', 'noise', 'level'))
    if how == 'other':
        data[:] = volume.block(draw.choice(volume.blocks[1:]))
        for at, width in (0x30, 8), (0x50, 8), (0x58, 8), (0x64, 1):
            if draw.random() < 0.8:
                data[at:at + width] = own[at:at + width]
    elif how == 'level':
        data[0x64] = draw.choice((1, 7, 8, 255)) if not data[0x64] else 0
    else:
        data[101:] = bytes(len(data) - 101) if how == 'zeros' else draw.randbytes(len(data) - 101)
    return f'the block: {how}'


CHANGES = [flip, set_field, set_field, set_field, set_field, change_list, change_list, replace]


class Mutant:
    """A changed volume: what was changed, in words, the pieces that differ and where, and its length."""

    def __init__(self, draw, volume):
        self.said, self.length, self.pieces, changed = [], volume.length, [], {}
        for _ in range(draw.choice((1, 1, 1, 1, 2, 2, 3, 6))):
            if draw.random() < 0.04:
                self.raise_root(draw, volume, changed)
                continue
            # The superblock, a tree's root and any other block are drawn alike often.
            address = draw.choice((SUPERBLOCK, draw.choice(list(volume.trees.values()))[0], draw.choice(volume.blocks[1:]),
                                   draw.choice(volume.blocks[1:])))
            data = changed.setdefault(address, bytearray(volume.block(address)))
            said = draw.choice(CHANGES)(draw, data, volume, address == SUPERBLOCK)
            self.said.append(f'{"superblock" if address == SUPERBLOCK else f"block {address}"}: {said}')
        for address, data in changed.items():
            is_live = address in volume.blocks
            if draw.random() < 0.93:
                data = mended(data, volume.block(address) if is_live else None)
            else:
                self.said.append(f'{address}: checksum as it was')
            places = volume.places(address)
            if len(places) > 1 and draw.random() < 0.06:
                places = [draw.choice(places)]
                self.said.append(f'{address}: one copy, at {places[0]}')
            self.pieces += [(place, bytes(data)) for place in places]
        if draw.random() < 0.02:
            self.length = draw.choice((0, 1, SUPERBLOCK, SUPERBLOCK + PAGE - 1, SUPERBLOCK + PAGE, draw.randrange(volume.length), volume.length - 1))
            self.said.append(f'the device has {self.length} bytes')

    def raise_root(self, draw, volume, changed):
        """A node over the root tree's root, at a free address: with one pointer, with as many as fit to one block, or one
        of a chain of nodes."""
        sup = changed.setdefault(SUPERBLOCK, bytearray(volume.block(SUPERBLOCK)))
        generation, root = struct.unpack_from('<QQ', sup, 0x48)
        below = volume.trees[1][0]
        level, key = volume.block(below)[0x64], volume.block(below)[101:118]
        how = draw.choice(('one', 'fan', 'chain', 'circle'))
        addresses = [volume.free_address(draw) for _ in range(7 - level if how in ('chain', 'circle') else 1)]
        for step, address in enumerate(addresses):
            data = bytearray(volume.block(below))
            struct.pack_into('<Q', data, 0x30, address)
            struct.pack_into('<Q', data, 0x50, generation)
            data[0x64] = level + step + 1
            to = below if step == 0 else addresses[step - 1]
            if how == 'circle' and step == 0:
                to = addresses[-1]
            pointers = [key + struct.pack('<QQ', to, generation)]
            if how == 'fan':
                objectid, kind, offset = struct.unpack('<QBQ', key)
                pointers += [struct.pack('<QBQQQ', objectid + k, kind, offset, to, generation) for k in range(1, 2000)]
            with_entries(data, pointers)
            changed[address] = data
        struct.pack_into('<Q', sup, 0x50, addresses[-1])
        sup[0xC6] = level + len(addresses)
        self.said.append(f'nodes over the root tree: {how} at {addresses}')


# Traces.

FETCH_LENGTHS = (0, 1, 4, 65535, 65536, 65537, 2 ** 31, 2 ** 32 - 1)
WRITE_LENGTHS = (0, 1, 2, 2 ** 20, 2 ** 20 + 1, 2 ** 31, 2 ** 32 - 1)


def records(trace):
    """The header and the records of a sound trace."""
    found, at = [trace[:16]], 16
    while at < len(trace):
        size = {1: 15, 2: 1, 3: 13, 255: 1}[trace[at]]
        if trace[at] == 1:
            size += struct.unpack_from('<I', trace, at + 11)[0]
        found.append(trace[at:at + size])
        at += size
    return found


def drawn_record(draw, volume):
    """A record that the trace had not."""
    at = draw_number(draw, draw.choice((SUPERBLOCK, volume.length, *volume.blocks)), 8, volume.known)
    if draw.random() < 0.5:
        at %= volume.length
    how = draw.randrange(6)
    if how == 0:
        return made.SETTLE
    if how == 1:
        return made.fetch(at, draw.choice(FETCH_LENGTHS))
    if how == 2:
        return made.write(at, draw.randbytes(draw.choice((1, 2, 4096, 70000))))
    if how == 3:
        return made.write(at, draw.randbytes(8), draw.choice(WRITE_LENGTHS))
    if how == 4:
        return bytes([draw.randrange(256)])
    return b''.join(made.write(draw.randrange(volume.length), draw.randbytes(draw.choice((1, 1, 3, 100)))) for _ in range(draw.choice((3, 50, 1000))))


def change_written(draw, listed, volume):
    """Changes a block that a trace writes, or the superblock, in each write of these bytes; mended, but for some."""
    writes = [k for k, one in enumerate(listed) if k and one[:1] == b'\1' and len(one) - 15 in (PAGE, volume.nodesize)]
    if not writes:
        return 'nothing'
    place = draw.choice(writes)
    old = listed[place][15:]
    data, is_super = bytearray(old), struct.unpack_from('<Q', listed[place], 3)[0] == SUPERBLOCK
    if is_super or old[0x20:0x30] == volume.read(SUPERBLOCK + 0x20, 16):
        said = draw.choice(CHANGES)(draw, data, volume, is_super)
        if draw.random() < 0.95:
            data = mended(data, old)
    else:
        said = flip(draw, data, volume, False)
    both = draw.random() < 0.9
    for k in writes:
        if k == place or both and listed[k][15:] == old:
            listed[k] = listed[k][:15] + bytes(data)
    return f'what record {place} writes: {said}'


def mutant_trace(draw, volume, trace):
    """A changed trace, and what was changed, in words."""
    listed, said = records(trace), []
    for _ in range(draw.choice((1, 1, 1, 2, 2, 3, 6))):
        how = draw.choice(('written', 'written', 'written', 'list', 'list', 'new', 'new', 'field', 'field', 'bits', 'cut', 'garbage'))
        place = draw.randrange(1, len(listed)) if len(listed) > 1 else 0
        if how == 'written':
            how = change_written(draw, listed, volume)
        elif how == 'list' and len(listed) > 1:
            body = listed[1:]
            how, listed = rearrange(draw, body), [listed[0], *body]
        elif how == 'new':
            for _ in range(draw.choice((1, 1, 3))):
                listed.insert(place or 1, drawn_record(draw, volume))
        elif how == 'field':
            one = bytearray(listed[place])
            at, width = draw.choice([it for it in ((0, 1), (1, 2), (3, 8), (11, 4), (1, 8), (9, 4)) if sum(it) <= len(one)] or [(0, 0)])
            if width:
                one[at:at + width] = made.number(draw_number(draw, int.from_bytes(one[at:at + width], 'little'), width, volume.known), width)
            listed[place], how = bytes(one), f'{width} bytes at {at}'
        elif how == 'bits':
            place = draw.choice((0, place))
            one = bytearray(listed[place])
            if one:
                one[draw.randrange(len(one))] ^= 1 << draw.randrange(8)
            listed[place] = bytes(one)
        elif how == 'cut':
            listed = listed[:place] + [listed[place][:draw.randrange(len(listed[place]) + 1)]]
        else:
            listed.append(draw.randbytes(draw.choice((1, 16, 300))))
        said.append(f'record {place}: {how}')
    return b''.join(listed), said
