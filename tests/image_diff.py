#!/usr/bin/env python3
"""What changes between two images, as the program `image_diff` prints it, beside a model that walks both images whole.

Usage: tests/image_diff.py [PROGRAM]                 by default crates/image_diff/out/image_diff
       tests/image_diff.py [PROGRAM] --random COUNT  the random cases alone, this many
       tests/image_diff.py [PROGRAM] --real DIRECTORY

Prints one line, and ends with 1 at the first case that differs. The model reads every block of both images. It says by
the definitions which live pairs the images share and what of the rest they hold, or the first finding of the new image.
Compared are the finding, or the blocks, items and chunks; and the program reads at most once for each old block that is
written or moves, and twice for each new one: those above it that stay as they are cost no read. The rows are small images
of 4096-byte nodes that are made tree by tree; the random cases are drawn from fixed seeds. With --real each commit of each
trace of a directory is a case: NAME.img.xz with NAME.trace.xz."""
import collections
import copy
import functools
import glob
import lzma
import os
import random
import re
import struct
import subprocess
import sys
import tempfile

ROOT = os.path.join(os.path.dirname(os.path.abspath(__file__)), '..')
sys.path.insert(0, os.path.join(ROOT, 'examples'))
import made_image as made  # noqa: E402

SUPERBLOCK, SECTOR, GREATEST = made.SUPERBLOCK, 512, (2 ** 64 - 1, 255, 2 ** 64 - 1)
NO_KEY = (0, 0, 0)
# Behind 1, 2, 4, .. 2^15 bytes of 0, what each bit of a checksum's register becomes.
BEHIND = [[made.register(1 << bit, b'\0') for bit in range(32)]]


def combined(rows, register):
    """The register that rows give, one for each of its bits."""
    total = 0
    for bit, row in enumerate(rows):
        total ^= row if register >> bit & 1 else 0
    return total


for _ in range(15):
    BEHIND.append([combined(BEHIND[-1], row) for row in BEHIND[-1]])


@functools.lru_cache(None)
def crc32c(data):
    """The checksum of at most 65536 bytes. Long runs of 0, of which most blocks consist, are not taken byte by byte."""
    register, at = 0xFFFFFFFF, 0
    for run in re.finditer(rb'\0{64,}', data):
        register, at = made.register(register, data[at:run.start()]), run.end()
        for power, rows in enumerate(BEHIND):
            register = combined(rows, register) if at - run.start() >> power & 1 else register
    return made.register(register, data[at:]) ^ 0xFFFFFFFF


# The model.

class Found(Exception):
    """The first finding of an image, as the line that says it."""

    def __init__(self, rule, tree=0, block=0, key=NO_KEY, detail=0):
        super().__init__(f'found {rule} tree {tree} block {block} key {key[0]} {key[1]} {key[2]} detail {detail}')


Chunk = collections.namedtuple('Chunk', 'start length kind places')
Super = collections.namedtuple('Super', 'fsid generation root chunk_root incompat compat_ro nodesize chunk_generation level chunk_level devid array')
Expect = collections.namedtuple('Expect', 'tree address generation level low high parent')
Live = collections.namedtuple('Live', 'tree address level generation first last parent owner')
# A block with what stands in it and below it: its live pair, its items, and the blocks below it.
Block = collections.namedtuple('Block', 'live items below')


def number(data, at, size=8):
    return int.from_bytes(data[at:at + size], 'little')


def superblock(image):
    if len(image) < SUPERBLOCK + 4096:
        raise Found('S1', detail=len(image))
    data = bytes(image[SUPERBLOCK:SUPERBLOCK + 4096])
    incompat, compat_ro = number(data, 0xBC), number(data, 0xB4)
    for rule, passes, detail in [
            ('S2', data[0x40:0x48] == b'_BHRfS_M', 0), ('U1', number(data, 0xC4, 2) == 0, number(data, 0xC4, 2)),
            ('S3', crc32c(data[32:]) == number(data, 0, 4), crc32c(data[32:])), ('S4', number(data, 0x30) == SUPERBLOCK, number(data, 0x30)),
            ('U2', incompat & 0x101 == 0x101 and not incompat & ~0x367, incompat), ('U3', not compat_ro & ~11, compat_ro),
            ('U4', number(data, 0x90, 4) == 4096, number(data, 0x90, 4)),
            ('S5', number(data, 0x94, 4) in (4096, 8192, 16384, 32768, 65536), number(data, 0x94, 4)),
            ('U5', number(data, 0x88) == 1, number(data, 0x88)), ('S6', data[0xC6] < 8, data[0xC6]), ('S6', data[0xC7] < 8, data[0xC7]),
            ('S8', number(data, 0xA0, 4) <= 2048, number(data, 0xA0, 4))]:
        if not passes:
            raise Found(rule, detail=detail)
    return Super(data[0x20:0x30], number(data, 0x48), number(data, 0x50), number(data, 0x58), incompat, compat_ro, number(data, 0x94, 4),
                 number(data, 0xA4), data[0xC6], data[0xC7], number(data, 0xC9), data[0x32B:0x32B + number(data, 0xA0, 4)])


def chunk_of(key, item):
    return Chunk(key[2], number(item, 0), number(item, 24), tuple(number(item, 56 + 32 * k) for k in range(number(item, 44, 2))))


def array_chunks(array):
    """The chunks of the system array, whose pairs are taken to be whole."""
    chunks, at = [], 0
    while at < len(array):
        size = 48 + 32 * number(array, at + 61, 2)
        chunks.append(chunk_of(struct.unpack_from('<QBQ', array, at), array[at + 17:at + 17 + size]))
        at += 17 + size
    return chunks


def places(chunks, address, size, end):
    """The places of the copies of a block, none where it has no place."""
    for start, length, _, copies in chunks:
        if start <= address and address + size <= start + length:
            found = tuple(address - start + place for place in copies)
            return found if all(place + size <= end for place in found) else ()
    return ()


def check_map(chunks, array, end):
    def meets(place, length, other):
        return any(max(place, at) < min(place + length, at + other.length) for at in other.places)

    for one in array:
        if one not in chunks:
            raise Found('S10', 3, 0, (256, 228, one.start))
    before = []
    for one in sorted(chunks, key=lambda chunk: chunk.start):
        key = 256, 228, one.start
        if before and one.start < before[-1].start + before[-1].length:
            raise Found('M1', 3, 0, key, before[-1].start)
        for count, place in enumerate(one.places):
            if place + one.length > end:
                raise Found('M3', 3, 0, key, place)
            if any(meets(place, one.length, other) for other in before + [one._replace(places=one.places[:count])]):
                raise Found('M2', 3, 0, key, place)
        before.append(one)


def check_roots(compat_ro, roots):
    ids = set()
    for key, _ in roots:
        if key[0] in ids:
            raise Found('X1', 1, 0, key)
        ids.add(key[0])
    for tree in [2, 4, 5, 7] + [11] * (compat_ro >> 3 & 1):
        if tree not in ids:
            raise Found('X2', 1, 0, (tree, 132, 0))


class Image:
    """What an image holds: its superblock, its chunks, and its trees as blocks."""

    def __init__(self, data):
        self.data, self.sup = data, superblock(data)
        array = array_chunks(self.sup.array)
        top = self.walk(array, Expect(3, self.sup.chunk_root, self.sup.chunk_generation, self.sup.chunk_level, None, None, 0))
        self.chunks = [chunk_of(key, item) for key, item in all_items(top) if key[1] == 228]
        check_map(self.chunks, array, len(data))
        trees = [self.walk(self.chunks, Expect(1, self.sup.root, self.sup.generation, self.sup.level, None, None, 0))]
        roots = [(key, item) for key, item in all_items(trees[0]) if key[1] == 132]
        check_roots(self.sup.compat_ro, roots)
        for key, item in roots:
            trees.append(self.walk(self.chunks, Expect(key[0], number(item, 176), number(item, 160), item[238], None, None, 0)))
        self.blocks = {(one.live.tree, one.live.address): one for tree in [top] + trees for one in all_blocks(tree)}

    def bytes_of(self, chunks, e):
        found = () if e.address % 4096 else places(chunks, e.address, self.sup.nodesize, len(self.data))
        if not found:
            raise Found('N1', e.tree, e.address, e.low or NO_KEY)
        copies = [bytes(self.data[place:place + self.sup.nodesize]) for place in found]
        if copies[0] != copies[-1]:
            raise Found('N2', e.tree, e.address, e.low or NO_KEY, next(at for at, pair in enumerate(zip(*copies)) if pair[0] != pair[1]))
        return copies[0]

    def walk(self, chunks, e):
        data = self.bytes_of(chunks, e)
        count, size = number(data, 0x60, 4), 33 if e.level else 25
        self.check_header(e, data, count, size)
        keys = [struct.unpack_from('<QBQ', data, 101 + size * place) for place in range(count)]
        fields = [struct.unpack_from('<QQ' if e.level else '<II', data, 118 + size * place) for place in range(count)]
        self.check_entries(e, data, keys, fields)
        items, below = [], []
        if e.level:
            for place, (address, generation) in enumerate(fields):
                high = keys[place + 1] if place + 1 < count else e.high
                below.append(self.walk(chunks, Expect(e.tree, address, generation, e.level - 1, keys[place], high, e.address)))
        else:
            items = [(key, data[101 + at:101 + at + length]) for key, (at, length) in zip(keys, fields)]
            self.check_items(e, items)
        last = max([key for key, _ in items] + [one.live.last for one in below], default=NO_KEY)
        live = Live(e.tree, e.address, e.level, e.generation, keys[0] if keys else GREATEST, last, e.parent, number(data, 0x58))
        return Block(live, items, below)

    def check_header(self, e, data, count, size):
        for rule, passes, detail in [
                ('N3', crc32c(data[32:]) == number(data, 0, 4), crc32c(data[32:])), ('N4', data[0x20:0x30] == self.sup.fsid, 0),
                ('N5', number(data, 0x30) == e.address, number(data, 0x30)), ('U12', not data[0x38] & 2, 0),
                ('N6', number(data, 0x58) == e.tree, number(data, 0x58)), ('N7', number(data, 0x50) == e.generation, number(data, 0x50)),
                ('N8', data[0x64] == e.level, data[0x64]),
                ('N9', count <= (len(data) - 101) // size and (count or not e.level and e.low is None), count)]:
            if not passes:
                raise Found(rule, e.tree, e.address, e.low or NO_KEY, detail)

    @staticmethod
    def check_entries(e, data, keys, fields):
        low = e.low or NO_KEY
        if e.low is not None and keys[0] != e.low:
            raise Found('N10', e.tree, e.address, low)
        for place in range(1, len(keys)):
            if keys[place] <= keys[place - 1]:
                raise Found('N11', e.tree, e.address, low, place)
        if e.high is not None and keys and keys[-1] >= e.high:
            raise Found('N12', e.tree, e.address, low, len(keys) - 1)
        end = len(data) - 101
        for place, (first, second) in enumerate(fields):
            if e.level and second > number(data, 0x50):
                raise Found('N13', e.tree, e.address, low, place)
            if not e.level and (first + second != end or first < 25 * len(keys)):
                raise Found('N14', e.tree, e.address, low, place)
            end = first

    @staticmethod
    def check_items(e, items):
        """Of the rules on items, that alone which a new generation breaks: a root item is not newer than its leaf."""
        for key, item in items:
            if e.tree == 1 and key[1] == 132 and number(item, 160) > e.generation:
                raise Found('I3', 1, e.address, key, 160)


def all_blocks(block):
    yield block
    for one in block.below:
        yield from all_blocks(one)


def all_items(block):
    return [item for one in all_blocks(block) for item in one.items]


def same_first(a, b):
    return (a.level, a.generation, a.first) == (b.level, b.generation, b.first)


def place_above(live):
    return live.parent, live.last


def differing(old, new):
    """Of each sector, whether an image has it otherwise than one before."""
    return [old[at:at + SECTOR] != new[at:at + SECTOR] for at in range(0, len(old), SECTOR)]


class Difference:
    """What changes from an accepted image to a new one, by the sectors that are written between them."""

    def __init__(self, old, new, written):
        self.old, self.new, self.written = old, new, written
        self.end, size = len(new.data), old.sup.nodesize
        a, b = self.old.sup, self.new.sup
        alike = (a.fsid, size, a.incompat, a.compat_ro, a.devid) == (b.fsid, b.nodesize, b.incompat, b.compat_ro, b.devid)
        self.shared, self.same = set(), set()
        for pair, block in self.old.blocks.items():
            other = self.new.blocks.get(pair)
            if (alike and other and same_first(block.live, other.live) and not self.is_touched(block)
                    and places(self.old.chunks, pair[1], size, self.end) == places(self.new.chunks, pair[1], size, self.end)):
                self.same.add(pair)
                if not any(map(self.is_touched, all_blocks(block))):
                    self.shared.add(pair)

    def is_touched(self, block):
        size = self.old.sup.nodesize
        found = places(self.old.chunks, block.live.address, size, self.end)
        return any(any(self.written[at // SECTOR:(at + size) // SECTOR]) for at in found)

    def counts(self):
        """How many live pairs of both images are not shared; and how many old ones are written over, or stand at other places now."""
        apart = sum(pair not in self.shared for image in (self.old, self.new) for pair in image.blocks)
        size = self.old.sup.nodesize
        return apart, sum(self.is_touched(block)
                          or places(self.old.chunks, pair[1], size, self.end) != places(self.new.chunks, pair[1], size, self.end)
                          for pair, block in self.old.blocks.items())

    def lines(self):
        """The lines behind the first: blocks in any order, then the pairs that moved, items and chunks in theirs."""
        old = [one for pair, one in self.old.blocks.items() if pair not in self.shared]
        new = [one for pair, one in self.new.blocks.items() if pair not in self.shared]
        moved = [self.new.blocks[pair].live for pair in sorted(self.shared, key=lambda pair: pair[::-1])
                 if place_above(self.new.blocks[pair].live) != place_above(self.old.blocks[pair].live)]
        self.count = f'change old {len(old)} new {len(new)} moved {len(moved)}'
        read = [sum(pair not in self.same for pair in image.blocks) for image in (self.old, self.new)]
        self.limit, self.blocks = read[0] + 2 * read[1], len(old) + len(new)
        lives = [sorted(line(name, *one.live) for one in blocks) for name, blocks in (('old', old), ('new', new))]
        items = [[line(name, tree, address, key) for tree, key, address in sorted(
            (one.live.tree, key, one.live.address) for one in blocks for key, _ in one.items)]
            for name, blocks in (('old_item', old), ('new_item', new))]
        chunks = [line('chunk', one.start, one.length, one.places[0], one.places[1] if len(one.places) == 2 else '-') for one in self.new.chunks]
        self.count += f' old_items {len(items[0])} new_items {len(items[1])}'
        return lives[0] + lives[1] + [line('moved', *one) for one in moved] + items[0] + items[1] + chunks


def line(*words):
    return ' '.join(' '.join(map(str, word)) if isinstance(word, tuple) else str(word) for word in words)


# The images that are made.

NODESIZE, LENGTH, ROOM = 4096, 0xC0000, 0x14000
# The copies of a chunk stand in parts of the device of so many bytes, those of the system chunk in smaller ones.
SLOTS, SYSTEM_SLOTS, SYSTEM_ROOM = [0x22000 + ROOM * k for k in range(7)], [0x12000, 0x1A000, 0, 0x8000], 0x8000
SYSTEM = Chunk(0x100000, SYSTEM_ROOM, 2, (SYSTEM_SLOTS[0],))
METADATA = [Chunk(0x200000, ROOM, 36, (SLOTS[0], SLOTS[1])), Chunk(0x200000 + ROOM, ROOM, 4, (SLOTS[2],)),
            Chunk(0x300000, ROOM, 36, (SLOTS[3], SLOTS[4]))]
ADDED, OTHER_SYSTEM = Chunk(0x400000, ROOM, 4, (SLOTS[5],)), Chunk(0x180000, SYSTEM_ROOM, 2, (SYSTEM_SLOTS[1],))


def item(tree, count, salt=0):
    """The item of a tree with a number, whose bytes are of some more numbers."""
    salted = made.number(salt)
    if tree == 2:
        return made.block(4096 * count, 5, references=1 + salt % 2 ** 32)
    if tree == 4:
        return (0, 249, count), salted
    if tree == 7:
        return (made.SUMS, made.EXTENT_CSUM, 4096 * count), salted[:4]
    if tree in (8, 9, 10):
        return (count, 1, 0), salted
    return (256 + count, made.XATTR_ITEM, 0), salted * (1 + salt % 3)


class Node:
    """A block of a tree that is made: a leaf with items, or a node with blocks below it."""

    def __init__(self, tree, address, generation, level, entries):
        self.tree, self.address, self.generation, self.level, self.entries = tree, address, generation, level, entries
        # Pointers that say something else, by their places: key, address, generation.
        self.lies = {}

    def first(self):
        if self.level:
            return self.entries[0].first()
        return min(self.entries, default=GREATEST)

    def blocks(self):
        yield self
        if self.level:
            for one in self.entries:
                yield from one.blocks()

    def leaves(self):
        return [one for one in self.blocks() if not one.level]

    def path(self, node):
        """The blocks from this one down to another, or nothing."""
        if self is node:
            return [self]
        for one in self.entries if self.level else []:
            found = one.path(node)
            if found:
                return [self] + found
        return []

    def data(self, volume):
        if not self.level:
            items = [(key, volume.root_item(self, key) if data is None else data) for key, data in sorted(self.entries.items())]
            return made_block(self, items)
        pointers = [self.lies.get(place, (one.first(), one.address, one.generation)) for place, one in enumerate(self.entries)]
        return made_block(self, pointers)


def made_block(node, entries):
    data, end = bytearray(NODESIZE), NODESIZE - 101
    data[0x20:0x30] = made.FSID
    struct.pack_into('<Q', data, 0x30, node.address)
    struct.pack_into('<QQIB', data, 0x50, node.generation, node.tree, len(entries), node.level)
    for place, entry in enumerate(entries):
        if node.level:
            struct.pack_into('<QBQQQ', data, 101 + 33 * place, *entry[0], *entry[1:])
        else:
            end -= len(entry[1])
            struct.pack_into('<QBQII', data, 101 + 25 * place, *entry[0], end, len(entry[1]))
            data[101 + end:101 + end + len(entry[1])] = entry[1]
    struct.pack_into('<I', data, 0, crc32c(bytes(data[32:])))
    return data


class Volume:
    """A volume that is made: its chunks, and the root blocks of its trees by their ids."""

    def __init__(self, shapes, chunks=(SYSTEM, *METADATA)):
        self.chunks, self.generation, self.roots = list(chunks), 1, {}
        self.array = [one for one in chunks if one.kind & 2]
        self.incompat, self.compat_ro, self.label, self.stays = 865, 0, 0, False
        # Where a commit takes no block, where it has taken blocks, and where it takes them first.
        self.avoided, self.fresh, self.again = set(), set(), set()
        for tree, shape in sorted({2: 1, 4: 1, 5: 1, 7: 0, **shapes}.items()):
            self.add_tree(tree, shape)
        self.roots[3] = self.leaf(3, dict([made.device()] + [made.chunk(*one) for one in chunks]))
        named = [(tree, 132, 0) for tree in sorted(self.roots) if tree not in (1, 3)]
        tops = [self.leaf(1, dict.fromkeys(named[at:at + 4])) for at in range(0, len(named), 4)]
        self.roots[1] = tops[0] if len(tops) == 1 else self.node(tops)

    # Where blocks stand.

    def used(self):
        return {one.address for root in self.roots.values() for one in root.blocks()}

    def free(self, tree):
        """The addresses that a new block of a tree may take."""
        taken = self.used() | self.avoided | self.fresh
        chunks = [one for one in self.chunks if (one.kind & 2 != 0) == (tree == 3)]
        return [at for one in chunks for at in range(one.start, one.start + one.length, NODESIZE) if at not in taken]

    # Which of the free addresses a block takes.
    pick = staticmethod(min)

    def take(self, tree):
        free = self.free(tree)
        address = self.pick([at for at in free if at in self.again] or free)
        self.fresh.add(address)
        return address

    # What trees are made of.

    def leaf(self, tree, items):
        return Node(tree, self.take(tree), self.generation, 0, items)

    def node(self, below):
        return Node(below[0].tree, self.take(below[0].tree), self.generation, below[0].level + 1, below)

    def grown(self, tree, shape, counts):
        if isinstance(shape, int):
            return self.leaf(tree, dict(item(tree, next(counts)) for _ in range(shape)))
        return self.node([self.grown(tree, one, counts) for one in shape])

    def add_tree(self, tree, shape):
        """A tree of a shape: how many items a leaf has, or a list of the shapes below a node. Item numbers go by ten."""
        self.roots[tree] = self.grown(tree, shape, iter(range(10, 10 ** 6, 10)))
        if 1 in self.roots:
            leaf = self.leaf_for(1, (tree, 132, 0))
            self.copy(leaf)
            leaf.entries[tree, 132, 0] = None

    def drop_tree(self, tree):
        leaf = self.root_leaf(tree)
        self.copy(leaf)
        del leaf.entries[tree, 132, 0], self.roots[tree]
        if not leaf.entries:
            self.take_out(leaf)

    def leaf_for(self, tree, key):
        """The leaf of a tree in which a key stands or would stand."""
        first, *others = self.roots[tree].leaves()
        return [first, *(one for one in others if one.first() <= key)][-1]

    def root_leaf(self, tree):
        return next(one for one in self.roots[1].leaves() if (tree, 132, 0) in one.entries)

    def root_item(self, leaf, key):
        root = self.roots[key[0]]
        return made.root(key[0], root.address, root.generation, level=root.level)[1]

    # What a commit does.

    def commit(self):
        """A copy of the volume, in which a commit begins. It takes no block of this one."""
        new = copy.deepcopy(self)
        new.generation, new.avoided, new.fresh, new.again = self.generation + 1, self.used(), set(), set()
        return new

    def copy(self, node):
        """Copies a block on write, with those above it in its tree and the way to its root item, where blocks do not stay."""
        for one in [] if self.stays else self.roots[node.tree].path(node):
            if one.address not in self.fresh or one.generation != self.generation:
                one.address, one.generation = self.take(one.tree), self.generation
        self.name(node.tree)

    def take_out(self, node):
        """Takes a block out of its tree, and those above it that have no other below; not the root."""
        *above, last = self.roots[node.tree].path(node)
        while above and len(above[-1].entries) == 1:
            last = above.pop()
        if above:
            self.copy(above[-1])
            above[-1].entries.remove(last)

    def name(self, tree):
        """Copies the way to the root item of a tree."""
        if tree not in (1, 3):
            self.copy(self.root_leaf(tree))

    def put_root(self, root):
        self.roots[root.tree] = root
        self.name(root.tree)

    def put_chunk(self, one, old=None):
        """Adds a chunk, or puts it in the place of another."""
        if old:
            self.chunks[self.chunks.index(old)] = one
            self.array = [one if each == old else each for each in self.array]
        else:
            self.chunks.append(one)
        key, data = made.chunk(*one)
        leaf = self.leaf_for(3, key)
        self.copy(leaf)
        leaf.entries[key] = data

    # Its bytes.

    def superblock(self):
        data, top, chunks = bytearray(made.superblock(self.roots[1].generation, self.roots[1].address)), self.roots[1], self.roots[3]
        struct.pack_into('<Q', data, 0x58, chunks.address)
        struct.pack_into('<QQ', data, 0x70, LENGTH, self.label)
        struct.pack_into('<I', data, 0x94, NODESIZE)
        struct.pack_into('<Q', data, 0xA4, chunks.generation)
        data[0xC6], data[0xC7] = top.level, chunks.level
        struct.pack_into('<Q', data, 0xB4, self.compat_ro)
        struct.pack_into('<Q', data, 0xBC, self.incompat)
        pairs = b''.join(struct.pack('<QBQ', *key) + data for key, data in (made.chunk(*one) for one in self.array))
        struct.pack_into('<I', data, 0xA0, len(pairs))
        data[0x32B:0x32B + len(pairs)] = pairs
        struct.pack_into('<I', data, 0, crc32c(bytes(data[32:])))
        return data

    def image(self, before=None):
        """The bytes of the volume, over those of the one before it."""
        data = bytearray(LENGTH if before is None else before)
        for root in self.roots.values():
            for one in root.blocks():
                block = one.data(self)
                for place in places(self.chunks, one.address, NODESIZE, LENGTH):
                    data[place:place + NODESIZE] = block
        data[SUPERBLOCK:SUPERBLOCK + 4096] = self.superblock()
        return data


# The runs.

class Runs:
    """Runs of the program over two images in files."""

    def __init__(self, program):
        self.program, self.folder, self.count, self.reads, self.blocks = program, tempfile.TemporaryDirectory(), 0, 0, 0
        self.paths = [os.path.join(self.folder.name, name) for name in ('old', 'new')]
        self.found = collections.Counter()

    def fail(self, row, why):
        keep = os.environ.get('CHANGES_KEEP')
        for path in self.paths if keep else []:
            os.replace(path, os.path.join(keep, os.path.basename(path)))
        sys.exit(f'tests/image_diff.py: {row}: {why}')

    def check(self, row, old, new, says=''):
        """Compares what the program prints with the model, and with how its first line begins."""
        for path, data in zip(self.paths, (old, new)):
            with open(path, 'wb') as out:
                out.write(data)
        ended = subprocess.run([self.program, *self.paths], capture_output=True, timeout=600)
        if ended.returncode or ended.stderr:
            self.fail(row, f'the program ended with {ended.returncode}: {ended.stderr.decode().strip()}')
        first, *got = ended.stdout.decode().splitlines()
        self.count += 1
        if not first.startswith(says):
            self.fail(row, f'the program says {first!r}, not {says!r}')
        try:
            difference = Difference(Image(old), Image(new), differing(old, new))
        except Found as found:
            self.found[first.split()[1]] += 1
            if (first, got) != (str(found), []):
                self.fail(row, f'the program says {first!r}, and the model {found}')
            return
        self.compare(row, first, got, difference)

    def compare(self, row, first, got, difference):
        wanted = difference.lines()
        head, _, reads = first.rpartition(' reads ')
        if head != difference.count:
            self.fail(row, f'the program says {first!r}, and the model {difference.count}')
        blocks = [one for one in got if one.startswith(('old ', 'new '))]
        rest = [one for one in got if not one.startswith(('old ', 'new '))]
        got = sorted(one for one in blocks if one.startswith('old ')) + sorted(one for one in blocks if one.startswith('new ')) + rest
        for one, other in zip(got, wanted):
            if one != other:
                self.fail(row, f'the program says {one!r}, and the model {other!r}')
        if len(got) != len(wanted):
            self.fail(row, f'the program has {len(got)} lines, and the model {len(wanted)}')
        if int(reads) > difference.limit:
            self.fail(row, f'{reads} reads are more than {difference.limit}')
        self.reads, self.blocks = self.reads + int(reads), self.blocks + difference.blocks


def rewrite(volume, leaf, salt=77):
    """Other bytes in each item of a leaf."""
    for count, key in enumerate(sorted(leaf.entries)):
        if leaf.entries[key] is not None:
            leaf.entries[key] = other_bytes(leaf.tree, salt + count)


def other_bytes(tree, salt):
    return item(tree, 1, salt)[1]


# Rows: what a commit does to a volume. Each is a call that takes the volume in which the commit has begun.

def leaf_of(volume, tree=5, place=0):
    return volume.roots[tree].leaves()[place]


def in_place(tree, place=0):
    return lambda volume: rewrite(volume, leaf_of(volume, tree, place))


def copied(tree, place=0):
    def change(volume):
        volume.copy(leaf_of(volume, tree, place))
        rewrite(volume, leaf_of(volume, tree, place))
    return change


def put_items(tree, place, *counts):
    """Copies a leaf, and puts items of these numbers into it."""
    def change(volume):
        volume.copy(leaf_of(volume, tree, place))
        leaf_of(volume, tree, place).entries.update(item(tree, count, 5) for count in counts)
    return change


def split_root(volume):
    """The root, a leaf, is split, and a new root stands above."""
    leaf = volume.roots[5]
    volume.copy(leaf)
    keys = sorted(leaf.entries)
    right = volume.leaf(5, {key: leaf.entries.pop(key) for key in keys[len(keys) // 2:]})
    volume.put_root(volume.node([leaf, right]))


def root_below(volume):
    """The root becomes the first child of a new root, and is itself as it was."""
    root = volume.roots[5]
    right = volume.leaf(5, dict([item(5, 900)]))
    while right.level < root.level:
        right = volume.node([right])
    volume.put_root(volume.node([root, right]))


def first_child(volume):
    """The first child of the root becomes the root, and is itself as it was."""
    volume.put_root(volume.roots[5].entries[0])


def wrong_pointer(place, **other):
    """Copies a root, in which a pointer says something else."""
    def change(volume):
        root = volume.roots[5]
        below = root.entries[place]
        volume.copy(root)
        root.lies[place] = (other.get('key', below.first()), other.get('address', below.address), other.get('generation', below.generation))
    return change


def to_other_tree(volume):
    """A leaf of tree 5 goes, and tree 2 takes its block for a new leaf."""
    root = volume.roots[5]
    volume.copy(root)
    gone = root.entries.pop()
    top = volume.roots[2]
    volume.copy(top)
    new = volume.leaf(2, dict([item(2, 500)]))
    new.address, new.generation = gone.address, volume.generation
    top.entries.append(new)


def between_parents(volume):
    """The last leaf of a node becomes the first of the next, and is itself as it was."""
    left, right = volume.roots[5].entries[:2]
    volume.copy(left)
    volume.copy(right)
    right.entries.insert(0, left.entries.pop())


def chunk_moves(old, *slots):
    return lambda volume: volume.put_chunk(old._replace(places=slots), old)


def in_added(volume):
    """A chunk is added, and a leaf is copied into it."""
    volume.put_chunk(ADDED)
    copied(5)(volume)
    leaf_of(volume).address = ADDED.start


def features(**fields):
    return lambda volume: volume.__dict__.update(fields)


def both(*changes):
    def change(volume):
        for one in changes:
            one(volume)
    return change


def away(leaves, chunk):
    """Of a volume before a commit: these leaves of tree 5 stand in another chunk."""
    def change(volume):
        addresses = [at for at in volume.free(5) if chunk.start <= at < chunk.start + chunk.length]
        for address, place in zip(addresses, leaves):
            leaf_of(volume, 5, place).address = address
    return change


def below_other(volume):
    """Of a volume before a commit: there is a second system chunk, where the last leaf of a chunk tree of three levels stands."""
    volume.put_chunk(OTHER_SYSTEM)
    volume.array.append(OTHER_SYSTEM)
    leaf = volume.roots[3]
    right = volume.leaf(3, {key: leaf.entries.pop(key) for key in sorted(leaf.entries) if key[2] >= METADATA[0].start})
    right.address = min(at for at in volume.free(3) if at >= OTHER_SYSTEM.start)
    volume.fresh.add(right.address)
    volume.roots[3] = volume.node([volume.node([leaf]), volume.node([right])])


def last_key(place, count):
    """A leaf gets an item behind its last one, in place."""
    return lambda volume: leaf_of(volume, 5, place).entries.update([item(5, count)])


def loses_last(place):
    """A leaf loses its last item, in place."""
    return lambda volume: leaf_of(volume, 5, place).entries.pop(max(leaf_of(volume, 5, place).entries))


FLAT, WIDE, DEEP = {5: 3}, {5: [3, 3], 2: [2, 2]}, {5: [[2, 2], [2, 1, 2], [1, 2]], 7: [[1, 1], [2]], 256: 2}
NEXT, LAST = METADATA[1], METADATA[2]
NOTHING = 'change old 0 new 0 moved 0 old_items 0 new_items 0 reads 0'
# What a row is, the shapes of its trees, what is done before the commit, what the commit does, and how the first line begins.
ROWS = [
    ('nothing', WIDE, None, None, NOTHING),
    ('the superblock alone', WIDE, None, features(label=7), NOTHING),
    ('a leaf in place', WIDE, None, in_place(5), 'change old 2 new 2 moved 0 old_items 3 new_items 3 '),
    ('a root that is a leaf in place', FLAT, None, in_place(5), 'change old 1 new 1 moved 0 old_items 3 new_items 3 '),
    ('a leaf of three levels in place', DEEP, None, in_place(5, 3), 'change old 3 new 3 moved 0 old_items 1 new_items 1 '),
    ('a leaf copied', WIDE, None, copied(5), 'change old 3 new 3 moved 1 old_items 7 new_items 7 '),
    ('a leaf of three levels copied', DEEP, None, copied(5, 3), 'change old 5 new 5 moved 5 '),
    ('two leaves of one tree, and one of another', DEEP, None, both(copied(5), copied(5, 6), copied(7, 1)), 'change old '),
    ('a leaf copied, another in place', WIDE, None, both(copied(5), in_place(5, 1)), 'change old 4 new 4 moved 0 old_items 10 new_items 10 '),
    ('a root grows a level', FLAT, None, split_root, 'change old 2 new 4 moved 0 old_items 7 new_items 7 '),
    ('a root becomes a child, itself a leaf', FLAT, None, root_below, 'change old 1 new 3 moved 1 old_items 4 new_items 5 '),
    ('a root becomes a child', WIDE, None, root_below, 'change old 1 new 4 moved 1 old_items 4 new_items 5 '),
    ('a root shrinks to its first child', WIDE, None, first_child, 'change old 3 new 1 moved 1 old_items 7 new_items 4 '),
    ('a root shrinks to a child that is rewritten', WIDE, None, both(first_child, copied(5)), 'change old 4 new 2 moved 0 old_items 10 new_items 7 '),
    ('a root of three levels shrinks', DEEP, None, first_child, 'change old '),
    ('the low key of the next leaf falls below the last one of a leaf that is kept', WIDE, None, put_items(5, 1, 25), 'found N12 tree 5 '),
    ('it falls, but not so low', WIDE, None, put_items(5, 1, 35), 'change old 3 new 3 moved 1 '),
    ('the same of a node that is kept', DEEP, None, put_items(5, 2, 35), 'found N12 tree 5 '),
    ('the last key of a node rises', DEEP, None, put_items(5, 6, 990), 'change old 5 new 5 moved 4 '),
    ('a pointer with an old address and another generation', WIDE, None, wrong_pointer(0, generation=2), 'found N7 tree 5 '),
    ('with another key', WIDE, None, wrong_pointer(1, key=item(5, 35)[0]), 'found N10 tree 5 '),
    ('with another address', WIDE, None, wrong_pointer(1, address=0x600000), 'found N1 tree 5 '),
    ('with the address of a block of another tree', WIDE, None, wrong_pointer(1, address=0x200000), 'found N6 tree 5 '),
    ('with a generation that is to come', WIDE, None, wrong_pointer(1, generation=3), 'found N13 tree 5 '),
    ('a block goes to another tree', WIDE, None, to_other_tree, 'change old 4 new 4 moved 3 '),
    ('a tree removed', DEEP, None, lambda volume: volume.drop_tree(256), 'change old '),
    ('a tree added', WIDE, None, lambda volume: volume.add_tree(256, [2, 1]), 'change old 1 new 4 moved 0 old_items 4 new_items 8 '),
    ('a tree removed that each image has', WIDE, None, lambda volume: volume.drop_tree(4), 'found X2 tree 1 '),
    ('a tree removed, and its block used again', DEEP, None, both(
        lambda volume: volume.avoided.discard(volume.roots[256].address), lambda volume: volume.drop_tree(256), copied(5)), 'change old '),
    ('a leaf goes to another parent', DEEP, None, between_parents, 'change old 5 new 5 moved 7 '),
    ('a chunk moves without a block', WIDE, None, chunk_moves(LAST, SLOTS[5], SLOTS[6]), 'change old 1 new 1 moved 0 old_items 5 new_items 5 '),
    ('a chunk moves under parents that are shared', WIDE, away([0], NEXT), chunk_moves(NEXT, SLOTS[5]),
     'change old 2 new 2 moved 0 old_items 8 new_items 8 '),
    ('a chunk moves under parents that are not shared', WIDE, away([0], NEXT), both(chunk_moves(NEXT, SLOTS[5]), copied(5, 1)),
     'change old 5 new 5 moved 0 '),
    ('a chunk moves, of leaves of shared and other parents', DEEP, away([0, 2, 3, 5], NEXT), both(chunk_moves(NEXT, SLOTS[5]), copied(5, 4)),
     'change old '),
    ('a leaf is copied out of a chunk that moves', DEEP, away([0, 3], NEXT), both(chunk_moves(NEXT, SLOTS[5]), copied(5, 3)), 'change old '),
    ('a chunk moves, and a leaf there has another last key', WIDE, away([1], NEXT),
     both(chunk_moves(NEXT, SLOTS[5]), last_key(1, 65)), 'change old 2 new 2 moved 1 old_items 8 new_items 9 '),
    ('the same of three levels', DEEP, away([6], NEXT), both(chunk_moves(NEXT, SLOTS[5]), last_key(6, 200)), 'change old 5 new 5 moved 2 '),
    ('it has its last key from the next leaf', DEEP, away([1], NEXT), both(chunk_moves(NEXT, SLOTS[5]), last_key(1, 55)), 'found N12 tree 5 '),
    ('a node is kept above a leaf that has lost its last key, and the next node begins before it', DEEP, away([1], NEXT),
     both(chunk_moves(NEXT, SLOTS[5]), loses_last(1), put_items(5, 2, 35)), 'change old '),
    ('a node is kept above a leaf that has another last key, and the next node begins before it', DEEP, away([1], NEXT),
     both(chunk_moves(NEXT, SLOTS[5]), last_key(1, 45), put_items(5, 2, 42)), 'found N12 tree 5 '),
    ('one of two system chunks moves', WIDE, below_other, chunk_moves(OTHER_SYSTEM, SYSTEM_SLOTS[2]), 'change old 4 new 4 moved 1 '),
    ('a second copy moves', WIDE, away([1], LAST), chunk_moves(LAST, SLOTS[3], SLOTS[6]), 'change old 2 new 2 moved 0 '),
    ('all blocks move but the chunk tree', DEEP, None, chunk_moves(METADATA[0], SLOTS[5], SLOTS[6]), 'change old '),
    ('the system chunk moves', WIDE, None, chunk_moves(SYSTEM, SYSTEM_SLOTS[1]), 'change old 1 new 1 moved 0 old_items 5 new_items 5 '),
    ('a chunk added with a leaf in it', WIDE, None, in_added, 'change old 4 new 4 moved 1 '),
    ('an empty leaf gets items', {7: 0}, None, put_items(7, 0, 3, 4), 'change old 2 new 2 moved 0 old_items 4 new_items 6 '),
    ('an empty leaf gets one in place', {7: 0}, None, lambda volume: leaf_of(volume, 7).entries.update([item(7, 3)]),
     'change old 1 new 1 moved 0 old_items 0 new_items 1 '),
    ('a leaf loses its items', {7: 2}, None, both(copied(7), lambda volume: leaf_of(volume, 7).entries.clear()),
     'change old 2 new 2 moved 0 old_items 6 new_items 4 '),
    ('another word of features', FLAT, None, features(compat_ro=1), 'change old 6 new 6 moved 0 '),
    ('another word of features, and a leaf copied', DEEP, None, both(features(compat_ro=3), copied(5, 2)), 'change old '),
    ('a feature that wants a tree', WIDE, None, features(compat_ro=8), 'found X2 tree 1 block 0 key 11 132 0 '),
    ('a feature with its tree', WIDE, None, both(features(compat_ro=8), lambda volume: volume.add_tree(11, 0)), 'change old '),
    ('an incompat feature', WIDE, None, features(incompat=867), 'change old '),
    ('the chunk root alone', WIDE, None, lambda volume: volume.copy(volume.roots[3]), 'change old 1 new 1 moved 0 old_items 5 new_items 5 '),
    ('the chunk root in place', WIDE, None, lambda volume: volume.roots[3].entries.update([made.device(5)]), 'change old 1 new 1 moved 0 '),
    ('the root tree alone', WIDE, None, lambda volume: volume.copy(volume.roots[1]), 'change old 1 new 1 moved 0 old_items 4 new_items 4 '),
    ('a second chunk of the array that the chunk tree lacks', WIDE, None, lambda volume: volume.array.append(ADDED), 'found S10 tree 3 '),
    ('a chunk of the array twice', WIDE, None, lambda volume: volume.array.append(SYSTEM), NOTHING),
    ('a chunk of the array that overlaps another', WIDE, None,
     lambda volume: volume.array.append(SYSTEM._replace(length=4096, places=(SYSTEM_SLOTS[2],))), 'found S10 tree 3 '),
    ('two chunks that overlap', WIDE, None, lambda volume: volume.put_chunk(ADDED._replace(start=0x310000)), 'found M1 tree 3 '),
    ('two chunks that meet on the device', WIDE, None, lambda volume: volume.put_chunk(ADDED._replace(places=(SLOTS[2],))), 'found M2 tree 3 '),
]


def spoil(data, address, copy=0, at=200):
    """Another byte in one copy of a block."""
    data[places(METADATA, address, NODESIZE, LENGTH)[copy] + at] ^= 1


def rows(runs):
    for row, shapes, before, change, says in ROWS:
        old = Volume(shapes)
        if before:
            before(old)
        new = old.commit()
        if change:
            change(new)
        data = old.image()
        runs.check(row, data, new.image(data), says)
    old = Volume(WIDE)
    new = old.commit()
    in_place(5)(new)
    for row, volume, place in [('a copy that was rewritten wrongly', new, 1), ('a copy that changed', old, 1), ('the first copy alone', old, 0)]:
        image = volume.image(old.image())
        spoil(image, leaf_of(old).address, place)
        runs.check(row, old.image(), image, 'found N2 tree 5 ')
    image = old.image()
    for copy in 0, 1:
        spoil(image, leaf_of(old).address, copy)
    runs.check('both copies changed', old.image(), image, 'found N3 tree 5 ')
    for row, at, value, says in [('another size of nodes', 0x94, made.number(8192, 4), 'found N3 tree 3 '),
                                 ('another file system', 0x20, b'\7', 'found N4 tree 3 '),
                                 ('another generation', 0x48, b'\2', 'found N7 tree 1 '), ('another level', 0xC6, b'\1', 'found N8 tree 1 '),
                                 ('a chunk root that is none', 0x58, made.number(0x101000), 'found N3 tree 3 ')]:
        image = old.image()
        image[SUPERBLOCK + at:SUPERBLOCK + at + len(value)] = value
        struct.pack_into('<I', image, SUPERBLOCK, crc32c(bytes(image[SUPERBLOCK + 32:SUPERBLOCK + 4096])))
        runs.check(row, old.image(), image, says)
    base = made.Image()
    files = base.copy()
    files.new_file()
    runs.check('the base image', base.bytes(), base.bytes(), NOTHING)
    runs.check('the base image and a new file', base.bytes(), files.bytes(), 'change old 3 new 3 moved 0 ')


# Random volumes, and commits on them. Each step takes the volume and the draws.

def any_node(volume, draw, least=0):
    """A block of any tree, of a level or above it, or nothing."""
    found = [one for tree in sorted(volume.roots) for one in volume.roots[tree].blocks() if one.level >= least]
    return draw.choice(found) if found else None


def any_leaf(volume, draw):
    """A leaf of a tree other than those of chunks and roots."""
    root = volume.roots[draw.choice([tree for tree in volume.roots if tree not in (1, 3)])]
    return draw.choice(root.leaves())


def behind(volume, leaf):
    """The first key of the next leaf, or the greatest key."""
    leaves = volume.roots[leaf.tree].leaves()
    place = leaves.index(leaf) + 1
    return leaves[place].first() if place < len(leaves) else GREATEST


def next_key(tree, key):
    return (key[0] + 4096, *key[1:]) if tree == 2 else (*key[:2], key[2] + (4096 if tree == 7 else 1))


def rewrites(volume, draw):
    leaf = any_leaf(volume, draw)
    volume.copy(leaf)
    rewrite(volume, leaf, draw.randrange(2 ** 31))


def rewrites_in_place(volume, draw):
    rewrite(volume, any_leaf(volume, draw), draw.randrange(2 ** 31))


def inserts(volume, draw):
    leaf = any_leaf(volume, draw)
    key = next_key(leaf.tree, draw.choice(sorted(leaf.entries))) if leaf.entries else item(leaf.tree, 10)[0]
    if key < behind(volume, leaf) and key not in leaf.entries and len(leaf.entries) < 9:
        volume.copy(leaf)
        leaf.entries[key] = other_bytes(leaf.tree, draw.randrange(2 ** 31))


def removes(volume, draw):
    leaf = any_leaf(volume, draw)
    if leaf.entries and (len(leaf.entries) > 1 or leaf is volume.roots[leaf.tree] or len(volume.roots[leaf.tree].leaves()) > 1):
        volume.copy(leaf)
        del leaf.entries[draw.choice(sorted(leaf.entries))]
        if not leaf.entries and leaf is not volume.roots[leaf.tree]:
            volume.take_out(leaf)


def splits(volume, draw):
    leaf = any_leaf(volume, draw)
    path = volume.roots[leaf.tree].path(leaf)
    if len(leaf.entries) > 1 and len(path) > 1:
        volume.copy(leaf)
        keys = sorted(leaf.entries)
        right = volume.leaf(leaf.tree, {key: leaf.entries.pop(key) for key in keys[draw.randrange(1, len(keys)):]})
        path[-2].entries.insert(path[-2].entries.index(leaf) + 1, right)


def joins(volume, draw):
    node = any_node(volume, draw, 1)
    if node and node.level == 1 and len(node.entries) > 1 and node.tree not in (1, 3):
        place = draw.randrange(len(node.entries) - 1)
        left, right = node.entries[place:place + 2]
        if len(left.entries) + len(right.entries) < 9:
            volume.copy(left)
            left.entries.update(right.entries)
            node.entries.remove(right)


def shifts(volume, draw):
    """A child goes to the node beside its own."""
    node = any_node(volume, draw, 2)
    if node and len(node.entries) > 1:
        place = draw.randrange(len(node.entries) - 1)
        left, right = node.entries[place:place + 2]
        volume.copy(left)
        volume.copy(right)
        if draw.random() < 0.5 and len(left.entries) > 1:
            right.entries.insert(0, left.entries.pop())
        elif len(right.entries) > 1:
            left.entries.append(right.entries.pop(0))


def rises(volume, draw):
    """A new root above one that stays as it is, with or without a leaf beside it."""
    root = volume.roots[draw.choice(sorted(volume.roots))]
    if root.level < 3 and (root.level or root.entries):
        below = [root]
        if draw.random() < 0.5 and root.tree not in (1, 3):
            right = volume.leaf(root.tree, dict([item(root.tree, draw.randrange(10 ** 6, 2 * 10 ** 6))]))
            while right.level < root.level:
                right = volume.node([right])
            below = [root, right] if root.leaves()[-1].first() < right.first() and max(root.leaves()[-1].entries) < right.first() else below
        volume.put_root(volume.node(below))


def falls(volume, draw):
    """A child of a root takes its place."""
    root = volume.roots[draw.choice([tree for tree in volume.roots if tree not in (1, 3)])]
    if root.level:
        volume.put_root(draw.choice(root.entries))


def adds_tree(volume, draw):
    tree = draw.choice([8, 9, 10, 256, 257, 300])
    if tree not in volume.roots:
        volume.add_tree(tree, draw.choice([0, 1, 2, [1, 2], [2], [[1], [1, 1]]]))


def drops_tree(volume, draw):
    others = [tree for tree in volume.roots if tree > 7]
    if others:
        volume.drop_tree(draw.choice(others))


def takes_again(volume, draw):
    """Some blocks are copied, and others take the places that these have left."""
    copies(volume, draw)
    volume.again |= volume.avoided - volume.used()
    volume.avoided &= volume.used()
    copies(volume, draw)


def copies(volume, draw):
    volume.copy(any_node(volume, draw))


def free_slots(volume, draw, slots):
    taken = {place for one in volume.chunks for place in one.places}
    found = [slot for slot in slots if slot not in taken]
    draw.shuffle(found)
    return found


def moves_chunk(volume, draw):
    one = draw.choice(volume.chunks)
    free = free_slots(volume, draw, SYSTEM_SLOTS if one.kind & 2 else SLOTS)
    places = [free.pop() if free and draw.random() < 0.6 else place for place in one.places]
    if places != list(one.places):
        volume.put_chunk(one._replace(places=tuple(places)), one)


def adds_chunk(volume, draw):
    free = free_slots(volume, draw, SLOTS)
    if free and all(one.start != ADDED.start for one in volume.chunks):
        volume.put_chunk(ADDED._replace(places=tuple(free[:1])))


def drops_chunk(volume, draw):
    used = volume.used()
    idle = [one for one in volume.chunks[1:] if not any(one.start <= at < one.start + one.length for at in used)]
    if idle:
        one = draw.choice(idle)
        leaf = volume.leaf_for(3, (256, 228, one.start))
        volume.copy(leaf)
        volume.chunks.remove(one)
        volume.array = [other for other in volume.array if other != one]
        del leaf.entries[256, 228, one.start]
        if not leaf.entries:
            volume.take_out(leaf)


def moves_leaf(volume, draw):
    """A chunk moves, and a leaf there gets an item in place."""
    leaf = any_leaf(volume, draw)
    one = next(one for one in volume.chunks if one.start <= leaf.address < one.start + one.length)
    free = free_slots(volume, draw, SLOTS)
    key = next_key(leaf.tree, max(leaf.entries, default=item(leaf.tree, 10)[0]))
    if len(free) >= len(one.places) and key < behind(volume, leaf) and len(leaf.entries) < 9:
        volume.put_chunk(one._replace(places=tuple(free[:len(one.places)])), one)
        leaf.entries[key] = other_bytes(leaf.tree, 9)


def names(volume, draw):
    volume.label += 1


SOUND = ([rewrites, inserts, removes] * 5 + [copies, moves_leaf] * 3 + [shifts, takes_again, drops_tree, moves_chunk] * 2
         + [splits, joins, rises, falls, adds_tree, adds_chunk, drops_chunk, names])


def lies(volume, draw):
    """A pointer says something else."""
    node = any_node(volume, draw, 1)
    if node:
        if draw.random() < 0.7:
            volume.copy(node)
        place = draw.randrange(len(node.entries))
        one = node.entries[place]
        key, address, generation = one.first(), one.address, one.generation
        other = any_node(volume, draw)
        node.lies[place] = draw.choice([
            (key, address, generation + 1), (key, address, generation - 1), (next_key(node.tree, key), address, generation),
            (other.first(), address, generation), (key, other.address, generation), (key, other.address, other.generation),
            (key, address + 512, generation), (key, 0x700000, generation), (other.first(), other.address, other.generation)])


def falls_low(volume, draw):
    """The first key of a leaf falls to or below the last one of the leaf before."""
    leaves = volume.roots[draw.choice(sorted(volume.roots))].leaves()
    if len(leaves) > 1 and leaves[0].tree not in (1, 3):
        place = draw.randrange(len(leaves) - 1)
        key = draw.choice(sorted(leaves[place].entries))
        volume.copy(leaves[place + 1])
        leaves[place + 1].entries[key] = other_bytes(leaves[0].tree, 3)


def misnames(volume, draw):
    """A block has another generation or owner than is expected of it."""
    root = volume.roots[draw.choice(sorted(volume.roots))]
    node = any_node(volume, draw)
    if root is not node:
        node.tree, node.address = (root.tree, node.address) if draw.random() < 0.5 else (node.tree, root.address)


def other_features(volume, draw):
    volume.compat_ro = draw.choice([0, 1, 2, 3, 8])
    volume.incompat = draw.choice([865, 865, 867, 353])


def other_array(volume, draw):
    one = draw.choice(volume.chunks)
    volume.array.insert(draw.randrange(2), draw.choice([one, one._replace(length=4096), one._replace(places=one.places[::-1]), ADDED]))


UNSOUND = [lies] * 6 + [falls_low] * 3 + [misnames, other_features, other_features, other_array]


def spoils(data, volume, draw):
    """A byte of a block's header is another one, in one copy, or in all of them with a right checksum or not."""
    node = any_node(volume, draw)
    found = places(volume.chunks, node.address, NODESIZE, LENGTH)
    at, bit = draw.randrange(0x20, 0x65), 1 << draw.randrange(8)
    is_mended = draw.random() < 0.7
    for place in found if is_mended else found[draw.randrange(2):][:draw.randrange(1, 3)]:
        data[place + at] ^= bit
        if is_mended:
            struct.pack_into('<I', data, place, crc32c(bytes(data[place + 32:place + NODESIZE])))


def random_shape(draw, level):
    return draw.randrange(1, 4) if level == 0 else [random_shape(draw, level - 1) for _ in range(draw.randrange(1, 4))]


def random_volume(draw):
    shapes = {5: random_shape(draw, draw.choice([1, 2, 2])), 2: random_shape(draw, draw.randrange(2)), 4: draw.randrange(3),
              7: random_shape(draw, draw.randrange(2)) if draw.random() < 0.7 else 0}
    for tree in draw.sample([8, 256, 257], draw.randrange(3)):
        shapes[tree] = random_shape(draw, draw.randrange(2))
    volume = Volume(shapes)
    leaf = volume.roots[3]
    if draw.random() < 0.3:
        below_other(volume)
    elif draw.random() < 0.5:
        keys = sorted(leaf.entries)
        volume.roots[3] = volume.node([leaf, volume.leaf(3, {key: leaf.entries.pop(key) for key in keys[draw.randrange(2, len(keys)):]})])
    return volume


def steps(volume, draw, choices, count):
    for _ in range(count):
        if len(volume.free(5)) < 12 or len(volume.free(3)) < 3:
            return
        draw.choice(choices)(volume, draw)


def random_case(runs, seed):
    draw = random.Random(seed)
    Volume.pick = staticmethod(draw.choice)
    old = random_volume(draw)
    data = old.image()
    for _ in range(draw.randrange(3)):
        old = old.commit()
        steps(old, draw, SOUND, draw.randrange(1, 4))
        data = old.image(data)
    new = old.commit()
    steps(new, draw, SOUND, draw.choice([0, 1, 1, 2, 3, 5]))
    if draw.random() < 0.3:
        new.stays = True
        steps(new, draw, SOUND, 1)
        new.stays = False
    steps(new, draw, [rewrites_in_place], draw.choice([0, 0, 1]))
    if draw.random() < 0.25:
        steps(new, draw, UNSOUND, 1)
    image = new.image(data)
    if draw.random() < 0.12:
        spoils(image, new, draw)
    try:
        Image(data)
    except Found as found:
        runs.fail(f'case {seed}', f'the old image is none: {found}')
    runs.check(f'case {seed}', data, image)


def randoms(runs, count, first=0):
    for seed in range(first, first + count):
        random_case(runs, seed)


# Recorded commits.

def records_of(trace):
    """The records of a trace: their tags, and the places on the device and the bytes of writes."""
    at = len(made.HEADER)
    while trace[at] != 255:
        tag, place, data = trace[at], 0, b''
        if tag == 1:
            place, size = struct.unpack_from('<QI', trace, at + 3)
            data = trace[at + 15:at + 15 + size]
        yield tag, place, data
        at += {1: 15, 2: 1, 3: 13}[tag] + len(data)


def recorded(directory):
    """The names, images and traces of a directory: NAME.img.xz with NAME.trace.xz."""
    for path in sorted(glob.glob(os.path.join(glob.escape(directory), '*.trace.xz'))):
        with lzma.open(path) as trace, lzma.open(path[:-len('.trace.xz')] + '.img.xz') as image:
            yield os.path.basename(path)[:-len('.trace.xz')], image.read(), trace.read()


def real(runs, directory):
    for name, old, trace in recorded(directory):
        new, commits = bytearray(old), 0
        for tag, place, data in records_of(trace):
            new[place:place + len(data)] = data
            if tag == 1 and place < SUPERBLOCK + 4096 and place + len(data) > SUPERBLOCK:
                commits += 1
                runs.check(f'commit {commits} of {name}', old, new)
                old = bytes(new)


def main(words):
    program = words.pop(0) if words and not words[0].startswith('--') else os.path.join(ROOT, 'crates/image_diff/out/image_diff')
    if not os.access(program, os.X_OK):
        sys.exit(f'{program} is not built')
    runs = Runs(os.path.realpath(program))
    if words[:1] == ['--real'] and len(words) == 2:
        real(runs, words[1])
    elif words[:1] == ['--random'] and len(words) == 2:
        randoms(runs, int(words[1]))
    elif not words:
        rows(runs)
        randoms(runs, 400)
    else:
        sys.exit(__doc__)
    found = ', '.join(f'{count} {rule}' for rule, count in sorted(runs.found.items())) or 'no finding'
    print(f'changes: {runs.count} cases as the model has them ({found}), {runs.blocks} blocks in {runs.reads} reads')


if __name__ == '__main__':
    main(sys.argv[1:])
