"""Serves IMAGE by NBD with `recon replay` between the client and IMAGE: a plugin for nbdkit's Python.

Usage: nbdkit -f -U SOCKET python examples/nbd_bridge.py image=IMAGE [recon=PROGRAM] [waiting=SIZE] [log=FILE]

A write becomes write records of at most 1 MiB, one request after the other, so that the trace has them in the order in
which the client sent them. A write that meets the superblock place (bytes 65536 to 69631) is a commit and waits for
its line. The place lies in the first MiB of such a write, so no cut parts it, and this piece is sent last: the commit
is judged with all of its write. A flush is a settle where writes are pending; so are the end of another write with FUA,
or after which `waiting` bytes are pending (64M unless given), and a client's leaving. So what was flushed is on the
disk, and a live block overwritten in place is found before its superblock. Trim is not offered, and zeros come as
writes.

A read comes from IMAGE itself where no pending write meets it, and as fetches of at most 64 KiB where one does. The
ranges of the pending writes are forgotten when the line of a commit or a settle came: what passed is on IMAGE by then,
and what was rejected never will be. A read is answered only while `recon` runs, which keeps IMAGE locked.

After a rejection each later write and flush fails until the bridge is started anew: else what follows, as the copy of
its superblock at 64 MiB, would pass with the next settle. Reads go on. The client sees an I/O error; the finding and
what it means are on standard error (without -f or --run, in the system's log). An image that is refused, or that
another `recon` has open, ends the bridge before it serves.

With log=FILE each judged event appends a line of JSON to FILE, as those of `recon replay --json` and with its time and
how many milliseconds it took. FILE has to open before the bridge serves. A line that cannot be appended later is said
on standard error and left out, and no write, flush or read waits for it or fails.
"""
import binascii
import json
import os
import re
import select
import socket
import stat
import struct
import sys
import time
from bisect import bisect_left, bisect_right
from ctypes import pythonapi
from datetime import datetime, timezone
from pathlib import Path
from subprocess import PIPE, Popen
from threading import get_ident

import nbdkit

API_VERSION = 2
MOST_WRITE, MOST_FETCH, MOST_RANGES = 1 << 20, 1 << 16, 1 << 14
PLACE = range(65536, 69632)
PASSED = re.compile(r'(commit|settle) (\d+) passed generation (\d+) blocks (\d+) hot (\d+)')
REJECTED = re.compile(r'(commit|settle) (\d+) rejected (\w+) tree (\d+) block (\d+) key (\d+) (\d+) (\d+) detail (\d+)')
FINDINGS = Path(__file__).resolve().parent.parent / 'docs' / 'findings.md'
words = {'image': None, 'recon': 'recon', 'waiting': '64M', 'log': None}
sys.tracebacklimit = 0  # The client sees an I/O error for each exception, and nbdkit says it in one line.


class Pending:
    """The ranges of the device that pending writes meet, sorted and apart. They may cover more than was written, never
    less: where there are too many, each takes the one behind it, so that adding never takes long."""

    def __init__(self):
        self.forget()

    def forget(self):
        self.starts, self.ends = [], []

    def add(self, start, end):
        first, last = bisect_left(self.ends, start), bisect_right(self.starts, end)
        if first < last:
            start, end = min(start, self.starts[first]), max(end, self.ends[last - 1])
        self.starts[first:last], self.ends[first:last] = [start], [end]
        if len(self.starts) > MOST_RANGES:
            self.ends = self.ends[1::2] + self.ends[len(self.ends) & ~1:]
            self.starts = self.starts[::2]

    def meet(self, start, end):
        at = bisect_right(self.ends, start)
        return at < len(self.starts) and self.starts[at] < end

    def parts(self, start, end):
        """The parts of a range in their order: where each starts and ends, and whether it is pending."""
        parts, at = [], bisect_right(self.ends, start)
        while at < len(self.starts) and self.starts[at] < end:
            if start < self.starts[at]:
                parts.append((start, self.starts[at], False))
            parts.append((max(start, self.starts[at]), min(end, self.ends[at]), True))
            start, at = self.ends[at], at + 1
        return parts + [(start, end, False)] if start < end else parts


class Log:
    """The file of judged events. What cannot be appended is said once, and so is that it can again."""

    def __init__(self, name, image):
        # Not to wait for a pipe's other side, neither now nor at an append.
        self.name, self.missing, self.cut = name, 0, False
        self.file = os.open(name, os.O_WRONLY | os.O_APPEND | os.O_CREAT | os.O_NONBLOCK, 0o644)
        if os.path.sameopenfile(self.file, image) or stat.S_ISBLK(os.fstat(self.file).st_mode):
            raise ValueError(f'log={name} is IMAGE or another disk; give it a file of its own')

    def append(self, event):
        data = b'\n' * self.cut + json.dumps(event, sort_keys=True, separators=(',', ':')).encode() + b'\n'
        why = 'it took a part of a line'
        try:
            done = os.write(self.file, data)
        except OSError as error:
            done, why = 0, error.strerror
        self.cut = done < len(data) and (self.cut or done > 0)
        if done == len(data) and self.missing:
            say(f'{self.name} takes lines again; {self.missing} are missing')
            self.missing = 0
        elif done < len(data):
            self.missing += 1
            if self.missing == 1:
                say(f'{self.name} cannot be appended to: {why}. Its lines are left out, and the bridge goes on')


class Bridge:
    """A running `recon replay`, the writes pending in it, and why it takes no more writes, or nothing more."""

    def __init__(self, recon, image, most, log):
        self.pending, self.size, self.most = Pending(), 0, most
        self.judged, self.stopped, self.ended = 0, None, False
        self.image = os.open(image, os.O_RDONLY)
        self.log = None if log is None else Log(log, self.image)
        # In its own session: an interrupt ends nbdkit, which ends the trace. What is freed is kept for what comes next, in large
        # pages. A socket takes a tenth less than a pipe.
        tunables = [os.environ.get('GLIBC_TUNABLES'), 'glibc.malloc.mmap_max=0', f'glibc.malloc.trim_threshold={1 << 30}',
                    f'glibc.malloc.top_pad={1 << 26}', 'glibc.malloc.hugetlb=1']
        kept = dict(os.environ, GLIBC_TUNABLES=':'.join(filter(None, tunables)))
        self.trace, theirs = socket.socketpair()
        self.trace.setsockopt(socket.SOL_SOCKET, socket.SO_SNDBUF, MOST_WRITE)
        self.child = Popen([recon, 'replay', image], MOST_FETCH, None, theirs, PIPE, start_new_session=True, env=kept)
        theirs.close()
        self.unasked = select.poll()
        self.unasked.register(self.child.stdout, select.POLLIN)
        self.line(b'image accepted ')
        if not os.path.samestat(os.fstat(self.image), os.stat(image)):
            raise ValueError(f'{image} was replaced while the bridge opened it')
        self.send(b'RECONTRC' + struct.pack('<II', 1, 0))

    def end(self, line):
        """Fails, as each later request will: `recon` ended, or said what it was not asked."""
        self.stopped, self.ended = line.decode(errors='replace').strip() or 'recon ended without a line', True
        raise OSError(self.stopped + meaning(self.stopped)) from None

    def send(self, *parts):
        try:
            done = os.writev(self.trace.fileno(), parts)
            rest = memoryview(b''.join(parts))[done:] if done < sum(map(len, parts)) else b''  # A signal cut it.
            while rest:
                rest = rest[os.write(self.trace.fileno(), rest):]
        except OSError:
            self.end(self.child.stdout.readline())

    def line(self, head):
        """The next line, which is to begin so."""
        line = self.child.stdout.readline()
        if not line.endswith(b'\n') or not line.startswith(head):
            self.end(line)
        return line[:-1]

    def judge(self, event):
        """Takes the line of a commit or a settle, and forgets what was pending. Unless it passed, there are no more
        writes."""
        start = time.monotonic()
        self.judged += 1
        line = self.line(b'%b %d ' % (event, self.judged)).decode(errors='replace')
        if not (found := PASSED.fullmatch(line) or REJECTED.fullmatch(line)):
            self.end(line.encode())
        self.pending.forget()
        self.size = 0
        if found.re is REJECTED:
            self.stopped = line
        if self.log:
            self.log.append(logged(found, (time.monotonic() - start) * 1000))
        if self.stopped:
            raise OSError(f'{line}{meaning(line)}. IMAGE is as before this {found[1]} and takes no more writes: unmount '
                          f'it, stop the bridge, and see {found[3]} in docs/findings.md before it is served again')

    def settle(self):
        self.takes_writes()
        if self.size:
            self.send(b'\2')
            self.judge(b'settle')

    def takes_writes(self):
        if self.stopped:
            raise OSError(f'no more is written since: {self.stopped}')

    def write(self, data, offset, through):
        self.takes_writes()
        pieces = [(offset + at, data[at:at + MOST_WRITE]) for at in range(0, len(data), MOST_WRITE)]
        commit = offset < PLACE.stop and PLACE.start < offset + len(data)
        self.pending.add(offset, offset + len(data))
        self.size += len(data)
        for at, piece in pieces[1:] + pieces[:1] if commit else pieces:
            self.send(struct.pack('<BHQI', 1, 0, at, len(piece)), piece)
        if commit:
            self.judge(b'commit')
        elif through or self.size >= self.most:
            self.settle()

    def read(self, into, offset):
        if self.ended:
            raise OSError(f'no more is read since: {self.stopped}')
        if not self.pending.meet(offset, offset + len(into)):
            self.read_image(into, offset)
        else:
            for start, end, pending in self.pending.parts(offset, offset + len(into)):
                part = into[start - offset:end - offset]
                if not pending:
                    self.read_image(part, start)
                else:
                    for at in range(0, len(part), MOST_WRITE):
                        self.fetch(part[at:at + MOST_WRITE], start + at)
        # Only now: where `recon` still runs, it had IMAGE locked while the bytes were read.
        if self.unasked.poll(0):
            self.end(os.read(self.child.stdout.fileno(), 200))

    def read_image(self, into, offset):
        while (got := os.preadv(self.image, (into,), offset)) < len(into):
            if not got:
                raise OSError('IMAGE is shorter than it was')
            into, offset = into[got:], offset + got

    def fetch(self, into, offset):
        parts = [(at, min(MOST_FETCH, len(into) - at)) for at in range(0, len(into), MOST_FETCH)]
        self.send(*(struct.pack('<BQI', 3, offset + at, size) for at, size in parts))
        for at, size in parts:
            head = b'fetch %d %d ' % (offset + at, size)
            line = self.child.stdout.read(len(head) + 2 * size + 1)
            if not line.startswith(head) or not line.endswith(b'\n'):
                self.end(line[:200])
            into[at:at + size] = binascii.unhexlify(memoryview(line)[len(head):-1])


def say(message):
    print('nbd_bridge:', message, file=sys.stderr, flush=True)


def logged(found, milliseconds):
    """The object of a judged event: the members of its line, when it came and how long it took."""
    event = {'event': found[1], 'number': int(found[2]), 'milliseconds': round(milliseconds, 3),
             'time': datetime.now(timezone.utc).isoformat(timespec='milliseconds')}
    numbers = [int(word) for word in found.groups()[3 if found.re is REJECTED else 2:]]
    if found.re is PASSED:
        return event | {'result': 'passed', 'generation': numbers[0], 'blocks': numbers[1], 'hot': numbers[2]}
    finding = {'rule': found[3], 'tree': numbers[0], 'block': numbers[1], 'key': numbers[2:5], 'detail': numbers[5]}
    return event | {'result': 'rejected', 'finding': finding}


def meaning(line):
    """What docs/findings.md says of the rule of a finding, to stand behind its line."""
    rule = re.search(r'(?:refused|rejected) (\w+) ', line)
    if not rule:
        return ''
    try:
        rows = re.findall(r'^\| ([A-Z]\d+(?:, [A-Z]\d+)*) \| (.+?) \|', FINDINGS.read_text('utf-8'), re.M)
    except (OSError, ValueError) as why:
        return f' (what it means: {why})'
    return next((f' ({rules}: {says})' for rules, says in rows if rule[1] in rules.split(', ')), '')


def config(key, value):
    if key not in words:
        raise ValueError(f'{key}= is no parameter; they are image=IMAGE, recon=PROGRAM, waiting=SIZE, log=FILE')
    words[key] = value


def get_ready():  # Before there is a socket, so that no client waits at an image that is refused.
    global bridge
    if not words['image']:
        raise ValueError('image=IMAGE is missing')
    bridge = Bridge(words['recon'], words['image'], nbdkit.parse_size(words['waiting']), words['log'])


def open(readonly):
    """Holds the state that Python has of this connection's thread. Else nbdkit has it made and dropped for each request, which
    took a third of the time of a read of 4 KiB. The handle is the thread's number."""
    pythonapi.PyGILState_Ensure()
    return get_ident()


def close(handle):
    if handle == get_ident():
        pythonapi.PyGILState_Release(0)  # As it was held, and never in another thread.
    if not bridge.stopped:
        bridge.settle()


def cleanup():  # Also where a client was cut off.
    try:
        close(None)
    finally:
        if not bridge.ended:
            bridge.send(b'\xff')
            say(bridge.line(b'end ').decode())


def pread(handle, buf, offset, flags):
    bridge.read(memoryview(buf), offset)


def pwrite(handle, buf, offset, flags):
    bridge.write(memoryview(buf), offset, flags & nbdkit.FLAG_FUA)


def get_size(handle):
    return os.lseek(bridge.image, 0, os.SEEK_END)


flush = lambda handle, flags: bridge.settle()
can_fua = lambda handle: nbdkit.FUA_NATIVE
thread_model = lambda: nbdkit.THREAD_MODEL_SERIALIZE_ALL_REQUESTS
