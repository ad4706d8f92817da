#!/usr/bin/env python3
"""Gives the inodes of a volume's trees of files other numbers, in place. Usage: renumber.py VOLUME shuffled|sparse

shuffled: the same numbers in an order drawn by a fixed seed. sparse: each number times 4096, so that all have the same low
bits. Each leaf of these trees gets new items and each node above it new keys; no block moves. The references in the items of
extents and in the names of subvolumes are changed too; a volume whose references have items of their own, or with orphans, is not
taken. With gcc the checksums are some hundred times as fast."""
import ctypes
import os
import random
import shutil
import struct
import subprocess
import sys
import tempfile

CRC = r'''
#include <stdint.h>
#include <stddef.h>
uint32_t crc32c(const unsigned char *bytes, size_t length) {
    static uint32_t table[256];
    if (!table[1])
        for (uint32_t i = 0; i < 256; i++) {
            uint32_t c = i;
            for (int k = 0; k < 8; k++) c = c & 1 ? c >> 1 ^ 0x82F63B78 : c >> 1;
            table[i] = c;
        }
    uint32_t crc = 0xFFFFFFFF;
    while (length--) crc = table[(crc ^ *bytes++) & 255] ^ crc >> 8;
    return ~crc;
}
'''
KEY = struct.Struct('<QBQ')
HEADER, ITEM, POINTER = 101, 25, 33
FIRST, EXTENT_TREE, FILE_TREE = 256, 2, 5
INODE_ITEM, INODE_REF, INODE_EXTREF, ORPHAN, DIR_ITEM, DIR_INDEX = 1, 12, 13, 48, 84, 96
ROOT_ITEM, ROOT_BACKREF, ROOT_REF, EXTENT_ITEM, DATA_REF = 132, 144, 156, 168, 178


def crc32c(data, length):
    """Without gcc."""
    crc = 0xFFFFFFFF
    for byte in data:
        crc = TABLE[(crc ^ byte) & 255] ^ crc >> 8
    return crc ^ 0xFFFFFFFF


def entry(byte):
    for _ in range(8):
        byte = byte >> 1 ^ 0x82F63B78 if byte & 1 else byte >> 1
    return byte


TABLE = [entry(byte) for byte in range(256)]


def checksum():
    if not shutil.which('gcc'):
        return crc32c
    with tempfile.TemporaryDirectory() as folder:
        source, library = os.path.join(folder, 'crc.c'), os.path.join(folder, 'crc.so')
        with open(source, 'w') as out:
            out.write(CRC)
        subprocess.run(['gcc', '-O2', '-shared', '-fPIC', '-o', library, source], check=True)
        call = ctypes.CDLL(library).crc32c
    call.restype, call.argtypes = ctypes.c_uint32, [ctypes.c_char_p, ctypes.c_size_t]
    return call


class Volume:
    def __init__(self, file):
        self.file, self.crc = file, checksum()
        sup = os.pread(file, 4096, 65536)
        self.root, self.chunk_root = struct.unpack_from('<QQ', sup, 80)
        self.nodesize, = struct.unpack_from('<I', sup, 148)
        size, = struct.unpack_from('<I', sup, 160)
        self.chunks, at = [], 811
        while at < 811 + size:
            at += 17 + self.chunk(KEY.unpack_from(sup, at)[2], sup[at + 17:])
        for _, key, data in self.items(self.chunk_root):
            if key[1] == 228:
                self.chunk(key[2], data)

    def chunk(self, start, data):
        length, = struct.unpack_from('<Q', data, 0)
        stripes, = struct.unpack_from('<H', data, 44)
        self.chunks.append((start, length, [struct.unpack_from('<Q', data, 56 + 32 * i)[0] for i in range(stripes)]))
        return 48 + 32 * stripes

    def places(self, address):
        start, _, stripes = next(c for c in self.chunks if c[0] <= address < c[0] + c[1])
        return [address - start + stripe for stripe in stripes]

    def block(self, address):
        return os.pread(self.file, self.nodesize, self.places(address)[0])

    def put(self, address, block):
        block = struct.pack('<I', self.crc(bytes(block[32:]), self.nodesize - 32)) + block[4:]
        for place in self.places(address):
            os.pwrite(self.file, block, place)

    def blocks(self, address):
        """The blocks of a tree in preorder: address, bytes, level."""
        block = self.block(address)
        yield address, block, block[100]
        if block[100]:
            for i in range(struct.unpack_from('<I', block, 96)[0]):
                yield from self.blocks(struct.unpack_from('<Q', block, HEADER + POINTER * i + 17)[0])

    def items(self, root):
        for address, block, level in self.blocks(root):
            if level == 0:
                for i in range(struct.unpack_from('<I', block, 96)[0]):
                    at, size = struct.unpack_from('<II', block, HEADER + ITEM * i + 17)
                    yield address, KEY.unpack_from(block, HEADER + ITEM * i), block[HEADER + at:HEADER + at + size]


def renumbered(key, data, number):
    objectid, kind, offset = key
    if kind in (INODE_EXTREF, ORPHAN):
        sys.exit(f'an item of the kind {kind}')
    if kind in (DIR_ITEM, DIR_INDEX):
        data, at = bytearray(data), 0
        while at < len(data):
            ino, sort, _ = KEY.unpack_from(data, at)
            if sort == INODE_ITEM:
                struct.pack_into('<Q', data, at, number.get(ino, ino))
            at += 30 + struct.unpack_from('<H', data, at + 27)[0]
    elif kind == INODE_REF:
        offset = number.get(offset, offset)
    return (number.get(objectid, objectid), kind, offset), bytes(data)


def change(volume, top, kinds, one):
    """Lets `one` change the bytes of the items of some kinds in a tree, in place: it has the block, the key and where they are."""
    for address, before, level in list(volume.blocks(top)):
        if level:
            continue
        block = bytearray(before)
        for i in range(struct.unpack_from('<I', block, 96)[0]):
            key = KEY.unpack_from(block, HEADER + ITEM * i)
            at, size = struct.unpack_from('<II', block, HEADER + ITEM * i + 17)
            if key[1] in kinds:
                one(block, key, HEADER + at, HEADER + at + size)
        if block != before:
            volume.put(address, bytes(block))


def refer(volume, top, numbers):
    """Changes the references to inodes in the items of the extent tree."""
    def one(block, key, at, end):
        if key[1] != EXTENT_ITEM:
            sys.exit(f'an item of the kind {key[1]}')
        at += 24
        while at < end:
            if block[at] != DATA_REF:
                sys.exit(f'a reference of the kind {block[at]}')
            tree, ino = struct.unpack_from('<QQ', block, at + 1)
            struct.pack_into('<Q', block, at + 9, numbers.get(tree, {}).get(ino, ino))
            at += 29

    change(volume, top, {EXTENT_ITEM, *range(DATA_REF, 185)}, one)


def name(volume, top, numbers):
    """Changes the directories in the names of subvolumes."""
    def one(block, key, at, end):
        folder, = struct.unpack_from('<Q', block, at)
        parent = key[0] if key[1] == ROOT_REF else key[2]
        struct.pack_into('<Q', block, at, numbers.get(parent, {}).get(folder, folder))

    change(volume, top, {ROOT_BACKREF, ROOT_REF}, one)


def renumber(volume, top, how):
    """Gives the inodes of a tree of files other numbers, which it answers by the old ones."""
    items = [(key, data) for _, key, data in volume.items(top)]
    old = [key[0] for key, _ in items if key[1] == INODE_ITEM and key[0] > FIRST]
    new = old[:]
    if how == 'shuffled':
        random.Random(1).shuffle(new)
    else:
        new = [ino * 4096 for ino in old]
    number = dict(zip(old, new))
    items = sorted(renumbered(key, data, number) for key, data in items)
    leaves = [(address, block) for address, block, level in volume.blocks(top) if level == 0]
    total, taken, at, first = sum(ITEM + len(data) for _, data in items), 0, 0, {}
    for i, (address, block) in enumerate(leaves):
        part, size = [], 0
        while at < len(items) and (taken < total * (i + 1) // len(leaves) or i + 1 == len(leaves)):
            part.append(items[at])
            size += ITEM + len(items[at][1])
            taken += ITEM + len(items[at][1])
            at += 1
        if size > volume.nodesize - HEADER:
            sys.exit('the items do not fit into as many leaves')
        heads, datas, end = [], [], volume.nodesize - HEADER
        for key, data in part:
            end -= len(data)
            heads.append(KEY.pack(*key) + struct.pack('<II', end, len(data)))
            datas.append(data)
        body = b''.join(heads)
        body += bytes(end - len(body)) + b''.join(reversed(datas))
        volume.put(address, block[:96] + struct.pack('<I', len(part)) + block[100:101] + body)
        first[address] = part[0][0] if part else None
    for address, block, level in reversed(list(volume.blocks(top))):
        if level:
            block = bytearray(block)
            for i in range(struct.unpack_from('<I', block, 96)[0]):
                child, = struct.unpack_from('<Q', block, HEADER + POINTER * i + 17)
                KEY.pack_into(block, HEADER + POINTER * i, *first[child])
            first[address] = KEY.unpack_from(block, HEADER)
            volume.put(address, bytes(block))
    return number


def main(path, how):
    volume = Volume(os.open(path, os.O_RDWR))
    tops = {key[0]: struct.unpack_from('<Q', data, 176)[0] for _, key, data in volume.items(volume.root) if key[1] == ROOT_ITEM}
    numbers = {tree: renumber(volume, top, how) for tree, top in tops.items() if tree == FILE_TREE or FIRST <= tree < 2 ** 63}
    refer(volume, tops[EXTENT_TREE], numbers)
    name(volume, volume.root, numbers)


if __name__ == '__main__':
    if len(sys.argv) != 3 or sys.argv[2] not in ('shuffled', 'sparse'):
        sys.exit(__doc__)
    main(*sys.argv[1:])
