#!/usr/bin/env python3
"""Turns a log of writes into a trace for `recon replay`.

The log is one of the kernel's dm-log-writes target, or of qemu's blklogwrites driver, which writes the same format.
Usage: log_to_trace.py [--settle] LOG > TRACE

A log has one sector with its header (magic, version, number of entries, size of a sector) and then entries. An entry is
one sector (device sector, number of sectors, flags, length of a mark; each u64) and, unless it is a discard or a mark,
so many sectors of data. Numbers are little-endian. The number of entries in the header may be stale, so the log is read
to its end, or to an entry of zeros. Writes become records of at most 1 MiB, in order; discards and marks are left out.
With --settle each flush at which writes are pending becomes a settle, which judges them all, and so does the end of
the log: without it only the superblock is judged, as a commit, and what is pending behind the last one is discarded.
"""
import struct
import sys

MAGIC, VERSION = 0x6A736677736872, 1
FLUSH, DISCARD, MARK = 1, 4, 8
MOST = 1 << 20
PLACE = range(65536, 69632)


def read(log, size, what):
    """So many bytes of the log, or none where it ends before the first of them."""
    got = log.read(size)
    if got and len(got) < size:
        raise ValueError(f'the log is cut in {what}, at byte {log.tell()}')
    return got


def entries(log):
    """The entries of a log: device offset in bytes, flags, data."""
    head = log.read(28)
    if len(head) < 28 or struct.unpack('<QQ', head[:16]) != (MAGIC, VERSION):
        raise ValueError('this is no log of writes: its header is another')
    sector = struct.unpack('<I', head[24:])[0]
    if sector not in (512, 1024, 2048, 4096):
        raise ValueError(f'the log has sectors of {sector} bytes')
    read(log, sector - 28, 'its header')
    while entry := read(log, sector, 'an entry'):
        if not any(entry):
            return
        at, count, flags, _ = struct.unpack('<QQQQ', entry[:32])
        data = b''
        if count and not flags & (DISCARD | MARK):
            data = read(log, count * sector, 'the data of an entry')
            if not data:
                raise ValueError(f'the log is cut before the data of an entry, at byte {log.tell()}')
        yield at * sector, flags, data


def convert(log, out, settle):
    """Writes the trace of a log."""
    pending = False
    out.write(b'RECONTRC' + struct.pack('<II', 1, 0))
    for at, flags, data in entries(log):
        if settle and flags & FLUSH and pending:
            out.write(b'\2')
            pending = False
        for start in range(0, len(data), MOST):
            piece = data[start:start + MOST]
            out.write(struct.pack('<BHQI', 1, 0, at + start, len(piece)) + piece)
            commit = at + start < PLACE.stop and PLACE.start < at + start + len(piece)
            pending = not commit
    out.write(b'\2\xff' if settle and pending else b'\xff')
    out.flush()


def main(words):
    settle = words[:1] == ['--settle']
    if len(words) != 1 + settle:
        sys.exit('usage: log_to_trace.py [--settle] LOG > TRACE')
    try:
        with open(words[-1], 'rb') as log:
            convert(log, sys.stdout.buffer, settle)
    except (OSError, ValueError) as why:
        sys.exit(f'log_to_trace: {why}')


main(sys.argv[1:])
