#!/usr/bin/env python3
"""Makes the files of a volume for the benches. Usage: files.py KIND FOLDER

many: 200,000 small files in 500 folders. one: 100,000 small files in one folder. eight: 50,000 files of 8 KiB in 100 folders.
collide: 200,000 small files in 800 folders, whose names all have one hash (CRC-32C). giga: one file of 1 GiB."""
import itertools
import os
import sys


def table():
    for byte in range(256):
        for _ in range(8):
            byte = byte >> 1 ^ 0x82F63B78 if byte & 1 else byte >> 1
        yield byte


def colliding():
    """Names of one hash: four last bytes bring the register to one state."""
    crc_of = list(table())
    for number in itertools.count():
        name, crc = b'%010x' % number, 0xFFFFFFFE
        for byte in name:
            crc = crc_of[(crc ^ byte) & 255] ^ crc >> 8
        tail = (crc ^ 0x12345678).to_bytes(4, 'little')
        if not set(tail) & {0, ord('/')}:
            yield name + tail


def make(kind, top):
    def put(folder, name, data):
        with open(os.path.join(top, folder, name), 'wb') as out:
            out.write(data)

    def folders(count):
        for number in range(count):
            folder = b'folder-%03d' % number
            os.mkdir(os.path.join(top, folder))
            yield number, folder

    if kind == 'many':
        for number, folder in folders(500):
            for file in range(400):
                put(folder, b'a-small-file-%03d' % file, b'%d %d\n' % (number, file) * 30)
    elif kind == 'one':
        for _, folder in folders(1):
            for file in range(100000):
                put(folder, b'file-number-%06d' % file, b'%d\n' % file * 20)
    elif kind == 'eight':
        for _, folder in folders(100):
            for file in range(500):
                put(folder, b'file-%03d' % file, os.urandom(8192))
    elif kind == 'collide':
        names = colliding()
        for number, folder in folders(800):
            for file in range(250):
                put(folder, next(names), b'%d %d\n' % (number, file) * 30)
    else:
        with open(os.path.join(top, b'file'), 'wb') as out:
            for _ in range(1024):
                out.write(os.urandom(1 << 20))


if __name__ == '__main__':
    if len(sys.argv) != 3 or sys.argv[1] not in ('many', 'one', 'eight', 'collide', 'giga'):
        sys.exit(__doc__)
    make(sys.argv[1], os.fsencode(sys.argv[2]))
