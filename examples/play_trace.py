#!/usr/bin/env python3
"""Plays a trace to an NBD server, as a driver would: writes as writes, settles as flushes, fetches as reads.

Usage: play_trace.py URI < TRACE

It wants libnbd's Python module. What a read gives is printed as the line of its fetch. At the first request that is
refused it stops with one line on standard error and status 1, and with status 2 at what is no trace or no server.
"""
import struct
import sys

import nbd


def read(trace, size):
    got = trace.read(size)
    if len(got) < size:
        raise ValueError('the trace is cut')
    return got


def records(trace):
    """The records of a trace up to its end tag: tag, device offset, length in bytes, data."""
    if read(trace, 16) != b'RECONTRC' + struct.pack('<II', 1, 0):
        raise ValueError('this is no trace: its header is another')
    while (tag := read(trace, 1)[0]) != 255:
        if tag == 1:
            at, size = struct.unpack('<2xQI', read(trace, 14))
            yield tag, at, size, read(trace, size)
        elif tag == 2:
            yield tag, 0, 0, b''
        elif tag == 3:
            yield tag, *struct.unpack('<QI', read(trace, 12)), b''
        else:
            raise ValueError(f'{tag} is no tag')


def play(server, trace):
    """Plays a trace, and answers what was refused, or nothing."""
    for number, (tag, at, size, data) in enumerate(records(trace), 1):
        what = ('write', 'flush', 'read')[tag - 1]
        try:
            if tag == 1:
                server.pwrite(data, at)
            elif tag == 2:
                server.flush()
            else:
                print('fetch', at, size, server.pread(size, at).hex())
        except nbd.Error as why:
            return f'record {number}, {what} at {at} of {size} bytes, was refused: {why.string} ({why.errno})'


def main(words):
    if len(words) != 1:
        sys.exit('usage: play_trace.py URI < TRACE')
    server = nbd.NBD()
    try:
        server.connect_uri(words[0])
        refused = play(server, sys.stdin.buffer)
        server.shutdown()
    except (ValueError, nbd.Error) as why:
        print(f'play_trace: {why}', file=sys.stderr)
        sys.exit(2)
    if refused:
        sys.exit(f'play_trace: {refused}')


main(sys.argv[1:])
