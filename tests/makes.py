"""Command lines, and workloads that the program makes: the image that a make leaves, what its commits are to leave by the plan of the
workload, and that each passes.

Usage: tests/makes.py [PROGRAM], by default crates/recon/out/recon. Prints one line, and ends with 1 at the first row that differs. The
plan is drawn here anew from the seed, and the files of each commit are read from the writes of the trace.
"""
import itertools
import os
import struct
import subprocess

from rows import BASE, Device, SUPERBLOCK, fail, made, program

device = Device()
IMAGE = os.path.basename(device.path)


# Command lines that are none of the forms. Nothing is read, and no line is written.
INVALID = [line.split(' ') if line else [] for line in [
    '', 'replay', 'replay a b', 'replay a --json', 'replay --JSON a', 'replay --json a b', 'check --json a', 'Replay x', 'check', 'check a b',
    'Check x', 'make 7 1', 'make 7 1 x y', 'make 7 0 x', 'make 7 201 x', 'make 18446744073709551616 1 x', 'make +7 1 x', 'make 7 +1 x',
    'make -7 1 x', 'make 7 1a x']] + [['make', '', '1', 'x'], ['make', '7 ', '1', 'x']]
for words in INVALID:
    names = [os.path.join(device.folder.name, word) for word in 'abxy']
    for name in names:
        with open(name, 'wb') as out:
            out.write(b'bytes')
    with open(device.path, 'w+b') as trace:
        trace.write(made.HEADER + made.END)
        trace.seek(0)
        ended = subprocess.run([program, *words], stdin=trace, capture_output=True, cwd=device.folder.name, timeout=60)
        device.runs += 1
        if (ended.returncode, ended.stdout, os.lseek(trace.fileno(), 0, os.SEEK_CUR)) != (2, b'', 0):
            fail(words, f'status {ended.returncode}, {ended.stdout!r}, or the trace was read')
    if not ended.stderr.startswith(b'recon: ') or any(open(name, 'rb').read() != b'bytes' for name in names):
        fail(words, f'{ended.stderr!r} on standard error, or a file was written')

# A make over an image that is too short. Zeros in front leave a number as it is.
SHORT = [['make', '7', '1'], ['make', '007', '0200'], ['make', '18446744073709551615', '1'], ['make', '0', '0' * 24 + '200']]
for words in SHORT:
    for bytes_there in bytes(BASE.bytes()[1:]), b'image', b'':
        for name in IMAGE, '--json':
            path = os.path.join(device.folder.name, name)
            with open(path, 'wb') as out:
                out.write(bytes_there)
            device.must_say(f'over {len(bytes_there)} bytes', 8, '', *words, name, folder=device.folder.name)
            if open(path, 'rb').read() != bytes_there:
                fail(words, 'the image was written')
os.remove(os.path.join(device.folder.name, '--json'))


# The plan of a workload.

def draws(seed):
    while True:
        seed = (seed + 0x9E3779B97F4A7C15) % 2 ** 64
        drawn = (seed ^ seed >> 30) * 0xBF58476D1CE4E5B9 % 2 ** 64
        drawn = (drawn ^ drawn >> 27) * 0x94D049BB133111EB % 2 ** 64
        yield drawn ^ drawn >> 31


FIRST = [0xE220A8397B1DCDAF, 0x6E789E6AA1B965F4, 0x06C45D188009454F, 0xF88BB8A8724C81EC]
if list(itertools.islice(draws(0), 4)) != FIRST:
    fail('the first draws of seed 0', 'are others')


def plan(seed):
    """The operations of a workload, one after the other: what it is, and its numbers."""
    drawn, directories, files, subvolumes = draws(seed), [256], [], 0

    def pick(count):
        return next(drawn) % count

    for ino in itertools.count(257):
        sort = pick(8)
        if sort == 0:
            yield 'subvolume', 256 + subvolumes
            subvolumes += 1
        elif sort == 1:
            directories.append(ino)
            yield 'directory', ino
        elif sort == 7 and files:
            yield 'removed', files.pop(pick(len(files)))[0]
        else:
            directory = directories[pick(len(directories))]
            sharers = [file for file, shares in files if shares]
            if sort in (3, 4, 5):
                operation = 'filled', ino, directory, 1 + pick(8), sort
            elif sort == 6 and sharers:
                operation = 'shared', ino, directory, sharers[pick(len(sharers))]
            else:
                operation = 'file', ino, directory
            files.append((ino, operation[0] == 'shared' or operation[0] == 'filled' and sort == 3))
            yield operation


# The first operations of seed 7, as a program in another language drew them, and those of seed 0.
SEVEN = [('file', 257, 256), ('file', 258, 256), ('file', 259, 256), ('file', 260, 256), ('directory', 261), ('directory', 262),
         ('filled', 263, 261, 7, 3), ('subvolume', 256), ('shared', 265, 256, 263), ('removed', 265), ('subvolume', 257), ('removed', 263),
         ('filled', 269, 261, 1, 5), ('directory', 270)]
for seed, first in (7, SEVEN), (0, [('file', 257, 256), ('removed', 257)]):
    if list(itertools.islice(plan(seed), len(first))) != first:
        fail(f'the plan of seed {seed}', 'is another')


class Files:
    """The files of an image: of each inode whether it is a directory, its bytes, its kind of data and the commit that wrote it; of each
    name its index and its text; and of each subvolume its number in the directory and its name."""

    def __init__(self):
        self.inodes, self.names, self.subvolumes = {256: ('directory', 0, None)}, {(256, 256): (0, b'..')}, {}

    def carry_out(self, commit, operation):
        what, number, *more = operation
        if what == 'subvolume':
            self.subvolumes[number] = commit + 1, b's%d' % commit
        elif what == 'removed':
            del self.inodes[number]
            self.names = {name: text for name, text in self.names.items() if name[0] != number}
        else:
            directory = 256 if what == 'directory' else more[0]
            kind, size, data = 'directory' if what == 'directory' else 'file', 0, None
            if what == 'filled':
                size, data = 4096 * more[1], (more[2], commit % 256)
            elif what == 'shared':
                _, size, data = self.inodes[more[1]]
            self.inodes[number] = kind, size, data
            self.names[number, directory] = commit + 1, b'%s%d' % (b'd' if what == 'directory' else b'f', commit)

    def __eq__(self, other):
        return (self.inodes, self.names, self.subvolumes) == (other.inodes, other.names, other.subvolumes)


def number_at(image, at, width=8):
    return int.from_bytes(image[at:at + width], 'little')


def items(image, address):
    """The items of a tree below the block at an address, from the first copy of each block."""
    at = made.places(address)[0]
    for place in range(number_at(image, at + 0x60, 4)):
        if image[at + 0x64]:
            yield from items(image, number_at(image, at + 101 + 33 * place + 17))
        else:
            head = at + 101 + 25 * place
            start = at + 101 + number_at(image, head + 17, 4)
            yield struct.unpack_from('<QBQ', image, head), bytes(image[start:start + number_at(image, head + 21, 4)])


def files_in(image):
    files = Files()
    files.inodes, files.names, ranges = {}, {}, {}
    roots = dict(items(image, number_at(image, SUPERBLOCK + 0x50)))
    for (objectid, kind, offset), item in roots.items():
        if kind == made.ROOT_REF:
            files.subvolumes[offset] = struct.unpack_from('<Q', item, 8)[0], item[18:]
    for (ino, kind, offset), item in items(image, number_at(roots[5, made.ROOT_ITEM, 0], 176)):
        if kind == made.INODE_REF:
            files.names[ino, offset] = struct.unpack_from('<Q', item)[0], item[10:]
        elif kind == made.EXTENT_DATA:
            ranges[ino] = item
        elif kind == made.INODE_ITEM:
            directory = struct.unpack_from('<I', item, 52)[0] & 0o170000 == 0o040000
            flags = struct.unpack_from('<Q', item, 64)[0]
            files.inodes[ino] = 'directory' if directory else 'file', 0 if directory else struct.unpack_from('<Q', item, 16)[0], flags
    for ino, (kind, size, flags) in files.inodes.items():
        data = None
        if ino in ranges:
            address, length = struct.unpack_from('<QQ', ranges[ino], 21)
            sort = 5 if ranges[ino][20] == 2 else 4 if flags & 1 else 3
            place = made.places(address)[0]
            written = set(image[place:place + length])
            data = sort, written.pop() if len(written) == 1 and length == size else None
        files.inodes[ino] = kind, size, data
    return files


def commits_of(trace):
    """The writes of each commit of a trace: where and what."""
    writes, at = [], len(made.HEADER)
    while trace[at] == 1:
        _, place, size = struct.unpack_from('<HQI', trace, at + 1)
        at += 15 + size
        writes.append((place, trace[at - size:at]))
        if place == SUPERBLOCK:
            yield writes
            writes = []
    if trace[at:] != made.END or writes:
        fail('a made trace', 'it has another end')


def workload(seed, words, commits, step=1):
    """A make of so many commits: its image is the base image, each commit passes, and each so many leave the files of the plan. Its trace."""
    row = ' '.join(['make', *words])
    with open(device.path, 'wb') as out:
        out.write(b'\xa5' * made.LENGTH + b'\x3c' * 700)
    with open(device.path + '.trace', 'w+b') as out:
        status = subprocess.run([program, 'make', *words, device.path], stdout=out, timeout=60).returncode
        out.seek(0)
        trace = out.read()
    device.runs += 1
    if status != 0 or not trace.startswith(made.HEADER):
        fail(row, f'status {status}, or another header')
    device.must_hold(row, BASE.bytes() + b'\x3c' * 700)
    image, planned, wanted = BASE.bytes(), Files(), ['image accepted generation 1\n']
    made_commits = list(commits_of(trace))
    if len(made_commits) != commits:
        fail(row, f'{len(made_commits)} commits')
    for commit, operation, writes in zip(itertools.count(1), plan(seed), made_commits):
        planned.carry_out(commit, operation)
        for place, data in writes:
            image[place:place + len(data)] = data
        if len(writes[-1][1]) != 4096 or number_at(image, SUPERBLOCK + 0x48) != commit + 1:
            fail(row, f'the superblock of commit {commit}')
        if commit % step == 0 and files_in(image) != planned:
            fail(row, f'commit {commit}, {operation}: other files')
        wanted.append(f'commit {commit} passed generation {commit + 1} blocks ')
    status, lines = device.run('replay', trace=trace)
    *lines, end = lines.splitlines(keepends=True)
    passes = [line.rsplit(' ', 3) for line in lines[1:]]
    if status != 0 or end != f'end passed {commits} rejected 0\n' or lines[0] != wanted[0]:
        fail(row, f'a replay ends with {status} and {end!r}')
    if [front[0] + ' ' for front in passes] != wanted[1:] or any(front[2:] != ['hot', '0\n'] for front in passes):
        fail(row, 'a commit has another line')
    device.must_hold(row, image + b'\x3c' * 700)
    if commits == 200 and not (len(planned.inodes) > 10 and planned.subvolumes):
        fail(row, 'the plan has too few files, so it shows nothing')
    return trace


for seed, step in (0, 10), (7, 1), (2 ** 64 - 1, 10):
    workload(seed, [str(seed), '200'], 200, step)
one = workload(7, ['7', '1'], 1)
if workload(7, ['007', '01'], 1) != one:
    fail('make 007 01', 'it has another trace than make 7 1')
print(f'makes: {device.runs} runs read their words, and each commit of a workload passes and leaves the files of its plan')
