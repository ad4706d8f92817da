"""Hostile images and traces on the built program: mutants of made volumes and of their traces, drawn by a seed.

Usage: tests/hostile.py [PROGRAM [CASES [SEED [FIRST [IMAGE TRACE]..]]]], by default crates/recon/out/recon, 2,000 cases of
the seed 0 from the case 0 on. Each IMAGE, a sound volume, and TRACE over it are mutated too; neither is written to. 100,000
cases take about twenty minutes. Prints one line, and ends with 1 at the first case that fails, whose image and trace it keeps.

What must hold of each run:
- it ends by itself with 0 or 1, of a replay also 3, with nothing on standard error and only lines of the known forms;
- it takes, the first time or once of two more, at most ten times the time of the sound volume or half a second, and at most twice its
  memory and 64 MiB;
- a check leaves the image as it was, and so does a replay that refuses it;
- a replay's lines and its status follow from the records and from which commits passed, and the image then holds the
  writes of what passed and nothing else.
Of each 20th case also: the same run says the same once more, a replay as JSON; a check accepts what a replay leaves, and
refuses what its last rejected commit would have made with that commit's finding.
"""
import collections
import json
import os
import random
import re
import shutil
import signal
import struct
import subprocess
import sys
import tempfile

from mutants import PAGE, SUPERBLOCK, Mutant, Volume, mutant_trace, pages_of, records
from rows import SCRIPT, in_repository, made, program

CASES, SEED, FIRST = (int(word) for word in (sys.argv[2:5] + ['2000', '0', '0'][len(sys.argv[2:5]):]))
GIVEN = list(zip(sys.argv[5::2], sys.argv[6::2]))
# Made volumes: a seed, the commits that are replayed first, and those of the trace. The inodes of the last one then get numbers that
# all have the same low bits, so that what is kept of them meets in one place.
MADE = [(1, 0, 3), (2, 40, 3), (3, 150, 2), (4, 100, 0, 'sparse')]
SAMPLE, LIMIT = 20, 120
MIB = 1 << 20

N = '(0|[1-9][0-9]*)'
FINDING = f'[A-Z]{N} tree {N} block {N} key {N} {N} {N} detail {N}'
IMAGE_LINE = re.compile(f'image (?:accepted generation {N}|refused ({FINDING}))')
JUDGED = f'passed generation {N} blocks {N} hot {N}'
PASSED = '{event} {number} passed generation {generation} blocks {blocks} hot {hot}'


class Wrong(Exception):
    """Why a run is not as it must be."""


def must(holds, why):
    if not holds:
        raise Wrong(why)


class Timed(Exception):
    """The time of a run is over."""


def on_alarm(number, frame):
    raise Timed


signal.signal(signal.SIGALRM, on_alarm)
Run = collections.namedtuple('Run', 'status out seconds memory')


class Base:
    """A sound volume in a file, which is mended after each run, and its trace."""

    def __init__(self, name, folder):
        self.path = name + '.image'
        with open(name + '.trace', 'rb') as file:
            self.trace = file.read()
        self.trace_path, self.out, self.errors = (os.path.join(folder, name) for name in ('trace', 'out', 'errors'))
        self.file = os.open(self.path, os.O_RDWR)
        self.volume = Volume(self.file, os.fstat(self.file).st_size)
        self.image, self.touched = self.volume.copy(), set()
        self.most = {'check': None, 'replay': None}
        for command in 'check', 'replay':
            sound = []
            for _ in range(3):
                sound.append(self.run(command, self.trace))
                must(sound[-1].status == 0, f'{command} of a sound volume says {sound[-1].out[-200:]!r}')
                self.restore(anew=True)
            self.most[command] = min(run.seconds for run in sound), max(run.memory for run in sound)

    def write(self, at, data):
        """Puts bytes on the device and on what it is to hold."""
        os.pwrite(self.file, data, at)
        self.touched.update(self.image.write(at, data))

    def cut(self, length):
        """Makes the device so long."""
        os.ftruncate(self.file, length)
        self.image.cut(length)
        self.touched = None

    def restore(self, anew=False):
        """Puts the sound volume back."""
        if anew or self.touched is None or len(self.touched) > 3000:
            os.ftruncate(self.file, 0)
            os.ftruncate(self.file, self.volume.length)
            for place, page in self.volume.pages.items():
                os.pwrite(self.file, page, place)
        else:
            for place in self.touched:
                os.pwrite(self.file, self.volume.page(place)[:self.volume.length - place], place)
        self.image, self.touched = self.volume.copy(), set()

    def must_hold(self, why):
        """The device holds what it is to hold."""
        must(dict(pages_of(self.file, self.image.length)) == self.image.pages, why)
        must(os.fstat(self.file).st_size == self.image.length, 'the image has another length')

    def run(self, command, trace=b'', *more, again=2):
        """A run of a command, which ends as each must. One that takes too long is run up to twice again, since a machine may halt in one;
        what a replay wrote is taken back before."""
        self.before = self.image
        with open(self.trace_path, 'wb') as out:
            out.write(trace)
        actions = [(os.POSIX_SPAWN_OPEN, 0, self.trace_path, os.O_RDONLY, 0)]
        actions += [(os.POSIX_SPAWN_OPEN, number, path, os.O_WRONLY | os.O_CREAT | os.O_TRUNC, 0o600)
                    for number, path in ((1, self.out), (2, self.errors))]
        child = os.posix_spawn(program, [program, command, *more, self.path], {}, file_actions=actions)
        signal.alarm(LIMIT)
        try:
            _, status, used = os.wait4(child, 0)
        except Timed:
            os.kill(child, signal.SIGKILL)
            os.wait4(child, 0)
            raise Wrong(f'{command} has not ended after {LIMIT} seconds') from None
        finally:
            signal.alarm(0)
        must(os.WIFEXITED(status), f'{command} was ended by a signal: {status}')
        with open(self.out, 'rb') as out, open(self.errors, 'rb') as errors:
            run = Run(os.WEXITSTATUS(status), out.read().decode('ascii', 'backslashreplace'), used.ru_utime + used.ru_stime, used.ru_maxrss << 10)
            said = errors.read()
        must(run.status in ((0, 1) if command == 'check' else (0, 1, 3)), f'{command} ended with {run.status}: {said!r}')
        must(not said, f'{command} says {said!r} on standard error')
        if self.most[command]:
            seconds, memory = self.most[command]
            if again and run.seconds > max(10 * seconds, 0.5):
                self.take_back(trace)
                return self.run(command, trace, *more, again=again - 1)
            must(run.seconds <= max(10 * seconds, 0.5), f'{command} took {run.seconds:.2f} s, the sound volume {seconds:.2f} s')
            must(run.memory <= 2 * memory + 64 * MIB, f'{command} took {run.memory} bytes, the sound volume {memory}')
            worst['seconds'] = max(worst['seconds'], run.seconds)
            worst['memory'] = max(worst['memory'], run.memory)
        counts[command, run.status] += 1
        return run

    def take_back(self, trace):
        """Puts what the device is to hold where a replay of a trace may have written."""
        for event, *said in events(trace, self.image.length):
            if event == 'write':
                for place in self.image.copy().write(*said):
                    os.pwrite(self.file, self.image.page(place)[:self.image.length - place], place)

    def check(self):
        """A check of the image: its line, whose form and status are right, and which leaves the image."""
        run = self.run('check')
        line = IMAGE_LINE.fullmatch(run.out.removesuffix('\n'))
        must(line and run.out.endswith('\n'), f'check says {run.out!r}')
        must(run.status == (1 if line[2] else 0), f'check ended with {run.status} and {run.out!r}')
        self.must_hold('check has written to the image')
        return run.out

    def replay(self, trace):
        """A replay over the image, whose lines, status and writes are right; the last rejected image and its finding."""
        run = self.run('replay', trace)
        must(run.out.endswith('\n'), f'replay ends with {run.out[-100:]!r}')
        lines = run.out.split('\n')[:-1]
        line = IMAGE_LINE.fullmatch(lines[0])
        must(line, f'replay says {lines[0]!r}')
        if line[2]:
            must((run.status, len(lines)) == (1, 1), f'replay of a refused image ended with {run.status} and {lines[1:2]}')
            self.must_hold('replay has written to an image that it refused')
            return run.out, None
        rejected = self.follow(trace, lines, run.status)
        self.must_hold('replay leaves other bytes than the writes of what passed')
        return run.out, rejected

    def follow(self, trace, lines, status):
        """Puts the writes of what passed on what the device is to hold, and gives the last rejected image and its finding."""
        pending, number, passed, last, at = [], 0, 0, None, 1

        def must_say(wanted, matches=str.__eq__):
            nonlocal at
            line = lines[at] if at < len(lines) else 'nothing'
            said = matches(wanted, line)
            must(said, f'line {at + 1} of replay is {line[:300]!r}, not {wanted[:300]!r}')
            at += 1
            return said

        def judge(event):
            nonlocal pending, number, passed, last
            number += 1
            said = must_say(f'{event} {number} (?:{JUDGED}|rejected ({FINDING}))', re.fullmatch)
            judged = self.image.copy()
            touched = [place for where, data in pending for place in judged.write(where, data)]
            pending = []
            if said[4]:
                last = judged, said[4]
                return
            generation, = struct.unpack_from('<Q', judged.read(SUPERBLOCK + 0x48, 8))
            must(int(said[1]) == generation, f'{said[0]!r}, and the superblock has {generation}')
            self.image, passed = judged, passed + 1
            self.touched = self.touched if self.touched is None else self.touched.union(touched)

        for event, *said in events(trace, self.image.length):
            if event == 'write':
                pending.append(said)
                if said[0] < SUPERBLOCK + PAGE and said[0] + len(said[1]) > SUPERBLOCK:
                    judge('commit')
            elif event == 'settle':
                must(pending or lines[at:at + 1] and ' passed ' in lines[at], 'a settle with nothing pending does not pass')
                judge('settle')
            elif event == 'fetch':
                data = bytearray(self.image.read(*said))
                for where, written in pending:
                    lay_over(data, said[0], where, written)
                must_say(f'fetch {said[0]} {said[1]} {data.hex()}')
            elif event == 'end':
                must_say(f'end passed {passed} rejected {number - passed}')
            else:
                must_say(f'trace {event}')
        must(len(lines) == at, f'replay says {lines[at:at + 1]} behind the end')
        must(status == (min(number - passed, 1) if event == 'end' else 3), f'replay ended with {status} and {lines[-1]!r}')
        return last


def lay_over(data, start, at, written):
    """Puts what was written at a place over the bytes that begin at another."""
    first, end = max(at, start), min(at + len(written), start + len(data))
    if first < end:
        data[first - start:end - start] = written[first - at:end - at]


def events(trace, length):
    """What the records of a trace ask for, up to the end tag or to the record at which a replay ends."""
    if len(trace) < 16 or trace[:16] != made.HEADER:
        yield ('fault 4 Truncated record 0' if len(trace) < 16 else 'fault 1 BadHeader record 0'),
        return
    at, record = 16, 0
    while True:
        record += 1
        tag, left = trace[at:at + 1], trace[at + 1:at + 15]
        if tag == made.END:
            yield 'end',
            return
        if tag == made.SETTLE:
            yield 'settle',
            at += 1
            continue
        size = {b'\1': 14, b'\3': 12}.get(tag)
        if size is None or len(left) < size:
            yield (f'fault 2 BadTag record {record}' if tag and size is None else f'fault 4 Truncated record {record}'),
            return
        place, asked = struct.unpack_from('<QI', left, size - 12)
        if not 1 <= asked <= (MIB if size == 14 else 65536):
            yield f'fault 3 BadLength record {record}',
            return
        at += 1 + size
        data = trace[at:at + asked] if size == 14 else None
        if data is not None and len(data) < asked:
            yield f'fault 4 Truncated record {record}',
            return
        if place + asked > length:
            yield f'past end record {record} at {place} len {asked} end {length}',
            return
        yield ('fetch', place, asked) if data is None else ('write', place, data)
        at += asked if data is not None else 0


def text_of(line):
    """The line of text that says what a line of JSON says."""
    said = json.loads(line)
    must(json.dumps(said, separators=(',', ':'), sort_keys=True) == line, f'{line!r} is another JSON text than the lines are')
    event = said['event']
    if 'finding' in said:
        of = said['finding']
        said['finding'] = ('{rule} tree {tree} block {block} key {0} {1} {2} detail {detail}').format(*of['key'], **of)
    form = {
        'image': 'image accepted generation {generation}' if 'generation' in said else 'image refused {finding}',
        'fetch': 'fetch {at} {len} {bytes}',
        'end': 'end passed {passed} rejected {rejected}',
        'trace fault': 'trace fault {number} {fault} record {record}',
        'past end': 'trace past end record {record} at {at} len {len} end {end}',
    }.get(event, '{event} {number} rejected {finding}' if 'finding' in said else PASSED)
    return form.format(**said) + '\n'


def try_image(base, draw, said, is_sample):
    """A mutant of the volume is checked and, of some, its trace is replayed over it."""
    mutant = Mutant(draw, base.volume)
    said += mutant.said
    for place, data in mutant.pieces:
        base.write(place, data)
    if mutant.length != base.volume.length:
        base.cut(mutant.length)
    line = base.check()
    if is_sample:
        must(base.check() == line, 'a second check says something else')
    if is_sample or draw.random() < 0.2:
        out, _ = base.replay(base.trace)
        must(out.startswith(line), f'check says {line!r}, replay {out[:200]!r}')


def try_trace(base, draw, said, is_sample):
    """A mutant of the trace is replayed over the sound volume."""
    trace, changed = mutant_trace(draw, base.volume, base.trace)
    said += changed
    out, rejected = base.replay(trace)
    if is_sample:
        left = base.check()
        must(left.startswith('image accepted '), f'a replay leaves an image of which check says {left!r}')
        if rejected:
            for place in {*rejected[0].pages, *base.image.pages}:
                if rejected[0].page(place) != base.image.page(place):
                    base.write(place, rejected[0].page(place)[:base.image.length - place])
            line = base.check()
            must(line == f'image refused {rejected[1]}\n', f'a commit is rejected {rejected[1]}, and check says {line!r}')
        base.restore()
        as_json = base.run('replay', trace, '--json').out
        must(''.join(text_of(line) for line in as_json.splitlines()) == out, f'as JSON a replay says {as_json!r}, else {out!r}')
        base.touched = None


def make(folder, name, seed, before, after, how=None):
    """Makes a volume with so many commits on it, and a trace of the next ones. A process of its own does it, since the
    memory of this one counts as that of each run that it starts."""
    child = os.fork()
    if child:
        must(os.waitpid(child, 0)[1] == 0, 'a volume cannot be made')
        return
    path, trace = (os.path.join(folder, f'{name}.{end}') for end in ('image', 'trace'))
    with open(path, 'wb') as out:
        out.truncate(made.LENGTH)
    with open(trace, 'wb') as out:
        ended = subprocess.run([program, 'make', str(seed), str(before + after), path], stdout=out)
    with open(trace, 'rb') as file:
        header, *listed = records(file.read())
    ends = [k + 1 for k, one in enumerate(listed) if one[0] == 1 and struct.unpack_from('<Q', one, 3)[0] == SUPERBLOCK]
    split = ends[before - 1] if before else 0
    with open(path, 'r+b') as file:
        for one in listed[:split]:
            file.seek(struct.unpack_from('<Q', one, 3)[0])
            file.write(one[15:])
    with open(trace, 'wb') as out:
        out.write(header + b''.join(listed[split:]))
    status = ended.returncode
    if how and not status:
        status = subprocess.run([sys.executable, in_repository('bench/renumber.py'), path, how]).returncode
    os._exit(status)


def keep(base):
    """Keeps the image and the trace of the run that failed, and gives their folder."""
    folder = tempfile.mkdtemp(prefix='hostile-')
    shutil.copy(base.trace_path, folder)
    with open(os.path.join(folder, 'image'), 'wb') as out:
        out.truncate(base.before.length)
        for place, page in base.before.pages.items():
            out.seek(place)
            out.write(page)
    return folder


counts, worst = collections.Counter(), {'seconds': 0, 'memory': 0}


def main(folder):
    for place, what in enumerate(MADE):
        make(folder, place, *what)
    for place, files in enumerate(GIVEN, len(MADE)):
        for file, end in zip(files, ('image', 'trace')):
            subprocess.run(['cp', '--sparse=always', file, os.path.join(folder, f'{place}.{end}')], check=True)
    bases = [Base(os.path.join(folder, str(place)), folder) for place in range(len(MADE) + len(GIVEN))]
    counts.clear()
    for case in range(FIRST, FIRST + CASES):
        draw, said = random.Random(f'{SEED} {case}'), []
        base, is_sample = draw.choice(bases), case % SAMPLE == 0
        try:
            (try_image if draw.random() < 0.65 else try_trace)(base, draw, said, is_sample)
        except Exception as why:
            sys.exit(f'{SCRIPT}: seed {SEED}, case {case}: {why!r}\n  changed: {"; ".join(said)}\n  kept in {keep(base)}')
        # A place that was written once is data of the file from then on, also where it is zero again.
        base.restore(anew=case % 400 == 0)
    ended = ', '.join(f'{command} {status}: {count}' for (command, status), count in sorted(counts.items()))
    print(f'hostile: {CASES} cases, by status {ended}; at most {worst["seconds"]:.2f} s, {worst["memory"] / MIB:.0f} MiB')


with tempfile.TemporaryDirectory(dir='/dev/shm' if os.access('/dev/shm', os.W_OK) else None) as folder:
    try:
        main(folder)
    except Wrong as why:
        sys.exit(f'{SCRIPT}: {why}')
