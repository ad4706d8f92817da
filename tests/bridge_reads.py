#!/usr/bin/env python3
"""Reads and writes at random through the bridge, beside a plain copy of the bytes, and compares each byte that is read.

Usage: bridge_reads.py URI IMAGE COUNT [reject]. IMAGE is what the bridge serves as it was at the start; 21 MiB to its
end are free or file data, so that what is written there passes. There are COUNT requests, then eight writes in flight
at once, then so many small writes that the bridge merges their ranges. With `reject` a live block is written over too:
the flush has to fail, and then the bytes are those of the flush before. Ends with 1 at the first byte that differs. It
wants libnbd's Python module."""
import random
import sys

import nbd

FREE = 21 << 20
LIVE = 5 << 20
draw = random.Random(20)


class Twin:
    """A server, and what each of its bytes has to be: the newest, and as they were when all was judged last."""

    def __init__(self, uri, image):
        self.server = nbd.NBD()
        self.server.connect_uri(uri)
        with open(image, 'rb') as f:
            self.newest = bytearray(f.read())
        self.judged = bytes(self.newest)

    def write(self, data, at, flags=0):
        self.server.pwrite(data, at, flags)
        self.newest[at:at + len(data)] = data
        if flags:
            self.judged = bytes(self.newest)

    def flush(self):
        self.server.flush()
        self.judged = bytes(self.newest)

    def compare(self, at, size):
        got = self.server.pread(size, at)
        if got != self.newest[at:at + size]:
            first = next(k for k in range(size) if got[k] != self.newest[at + k])
            sys.exit(f'a read at {at} of {size} bytes: byte {at + first} is {got[first]}, not {self.newest[at + first]}')

    def compare_all(self):
        self.compare(0, len(self.newest))


def a_range(least, end):
    """Where some bytes start, and how many: mostly few, at times more than a fetch or a record takes."""
    size = draw.choice((1, 512, 4096, 5000, 70000, 200000, 1500000))
    at = draw.randrange(least, end - 1)
    return at, min(draw.randint(1, size), end - at)


def mixed(twin, count):
    for _ in range(count):
        what = draw.randrange(100)
        if what < 45:
            at, size = a_range(FREE, len(twin.newest))
            twin.write(draw.randbytes(size), at, nbd.CMD_FLAG_FUA if what == 0 else 0)
        elif what < 97:
            twin.compare(*a_range(0 if what < 60 else FREE, len(twin.newest)))
        elif what < 99:
            twin.flush()
        else:
            twin.compare_all()


def in_flight(twin):
    """Writes apart from each other, sent before the first is answered."""
    waiting = []
    for at in range(FREE, FREE + (8 << 17), 1 << 17):
        data = draw.randbytes(100000)
        twin.newest[at:at + len(data)] = data
        waiting.append(twin.server.aio_pwrite(nbd.Buffer.from_bytearray(bytearray(data)), at))
    while waiting:
        twin.server.poll(-1)
        waiting = [cookie for cookie in waiting if not twin.server.aio_command_completed(cookie)]


def many(twin):
    twin.flush()
    for at in range(FREE, FREE + 60000, 3):
        twin.write(b'x', at)


def rejected(twin):
    twin.write(b'a' * 512, LIVE)
    twin.write(b'b' * 5000, FREE + 100)
    twin.compare_all()
    try:
        twin.flush()
    except nbd.Error:
        twin.newest[:] = twin.judged
        return
    sys.exit('a live block that was written over passed')


def main(words):
    twin = Twin(*words[:2])
    mixed(twin, int(words[2]))
    in_flight(twin)
    twin.compare_all()
    many(twin)
    twin.compare_all()
    if words[3:] == ['reject']:
        rejected(twin)
    else:
        twin.flush()
    twin.compare_all()
    twin.server.shutdown()


main(sys.argv[1:])
