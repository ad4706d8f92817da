"""Refused memory on the built program: a check, replays and a make in which one request for memory is refused, and in which
that and each later one are.

Usage: tests/refused_memory.py [PROGRAM [RUNS]], by default crates/recon/out/recon and 200 runs of each kind: the requests 1 to
200, and of more runs as many in equal steps up to the last. A small library in C stands between the program and the system's
malloc. It wants cc; without it nothing is tried, and it ends with 1 unless RECON_WITHOUT_PACKAGES is set. Prints one line, and
ends with 1 at the first run that is not as it must be. Each ends as it does with ample memory, or with 7. At 7 standard error
says so, standard output has the front of what it has else, of whole lines but for a make, and the image is as before, or of a
replay as some of its commits leave it: those whose lines are there, and at most one more. Of a make it is as before or has the
made volume.
"""
import os
import subprocess
import sys
import tempfile

from mutants import Image, pages_of, records
from rows import BASE, SUPERBLOCK, changed, fail, made, program, used

RUNS = int(sys.argv[2]) if len(sys.argv) > 2 else 200
LIBRARY = r'''
#include <errno.h>
#include <stdio.h>
#include <stdlib.h>
extern void *__libc_malloc(size_t), *__libc_realloc(void *, size_t);
static unsigned long requests, first, last;
__attribute__((constructor)) static void begin(void) {
    first = strtoul(getenv("REFUSED_FROM"), 0, 10);
    last = strtoul(getenv("REFUSED_TO"), 0, 10);
    requests = 0;
}
__attribute__((destructor)) static void end(void) {
    if (getenv("REQUESTS")) dprintf(2, "%lu\n", requests);
}
static int refused(void) {
    requests++;
    if (requests < first || requests > last) return 0;
    errno = ENOMEM;
    return 1;
}
void *malloc(size_t size) { return refused() ? 0 : __libc_malloc(size); }
void *realloc(void *old, size_t size) { return refused() ? 0 : __libc_realloc(old, size); }
'''


def write_image(path, pages, length):
    with open(path, 'wb') as out:
        out.truncate(length)
        for place, page in pages.items():
            out.seek(place)
            out.write(page)


def read_image(path):
    with open(path, 'rb') as file:
        length = os.fstat(file.fileno()).st_size
        return Image(dict(pages_of(file.fileno(), length)), length)


def states(image, trace):
    """What the device holds at first and after each commit, where all pass."""
    held, pending = [image], []
    for one in records(trace)[1:-1]:
        at = int.from_bytes(one[3:11], 'little')
        pending.append((at, one[15:]))
        if at == SUPERBLOCK:
            image = image.copy()
            for where, data in pending:
                image.write(where, data)
            held.append(image)
            pending = []
    return [one.pages for one in held]


class Case:
    """A command line over an image, and what it leaves with ample memory."""

    def __init__(self, folder, what, words, image, trace=b''):
        self.what, self.words, self.image, self.folder = what, words, image, folder
        self.path, self.trace, self.out = (os.path.join(folder, name) for name in ('image', 'trace', 'out'))
        with open(self.trace, 'wb') as out:
            out.write(trace)
        self.status, self.lines, errors, self.left = self.run(0, 0, REQUESTS='1')
        self.requests = int(errors)
        self.held = states(image, trace) if trace and self.status == 0 else [image.pages]
        if words[0] == 'make':
            self.held.append(self.left)

    def run(self, first, last, **more):
        write_image(self.path, self.image.pages, self.image.length)
        names = {'LD_PRELOAD': f'{self.folder}/refuse.so', 'REFUSED_FROM': str(first), 'REFUSED_TO': str(last), **more}
        with open(self.trace, 'rb') as trace, open(self.out, 'wb') as out:
            ended = subprocess.run([program, *self.words, self.path], stdin=trace, stdout=out, stderr=subprocess.PIPE, timeout=60, env=names)
        with open(self.out, 'rb') as out:
            return ended.returncode, out.read(), ended.stderr, read_image(self.path).pages

    def refuse(self, first, last):
        row = f'{self.what}, requests {first} to {last} refused'
        status, lines, errors, left = self.run(first, last)
        if status != 7:
            if (status, lines, errors, left) != (self.status, self.lines, b'', self.left):
                fail(row, f'it ended with {status}, {lines[-200:]!r} and {errors!r}, or has left another image')
            return 0
        if errors != b'recon: out of memory\n':
            fail(row, f'standard error has {errors!r}')
        if not self.lines.startswith(lines) or self.words[0] != 'make' and lines and not lines.endswith(b'\n'):
            fail(row, f'standard output has {lines[-200:]!r}')
        passed = lines.count(b' passed generation ') + lines.count(b'"result":"passed"')
        allowed = self.held if self.words[0] == 'make' else self.held[passed:passed + 2]
        if left not in allowed:
            fail(row, f'the image is left in another state; its lines are {lines[-200:]!r}')
        return 1


if subprocess.run(['sh', '-c', 'command -v cc'], stdout=subprocess.DEVNULL).returncode:
    print('refused memory: left out, since there is no cc (tests/packages.sh)')
    sys.exit(0 if os.environ.get('RECON_WITHOUT_PACKAGES') else 1)
with tempfile.TemporaryDirectory(dir='/dev/shm' if os.access('/dev/shm', os.W_OK) else None) as folder:
    subprocess.run(['cc', '-shared', '-fPIC', '-O1', '-w', '-x', 'c', '-', '-o', f'{folder}/refuse.so'], input=LIBRARY.encode(), check=True)
    empty = Image({}, made.LENGTH)
    base, refused = empty.copy(), empty.copy()
    for image, blocks in (base, BASE), (refused, changed(BASE, [used(94208)])):
        for place, data in blocks.pieces():
            image.write(place, data)
    write_image(f'{folder}/image', {}, made.LENGTH)
    trace = subprocess.run([program, 'make', '2', '12', f'{folder}/image'], stdout=subprocess.PIPE, check=True).stdout
    cases = [
        ('a check', ['check'], base), ('a check of a refused image', ['check'], refused), ('a replay', ['replay'], base, trace),
        ('a replay with lines of JSON', ['replay', '--json'], base, trace), ('a make', ['make', '1', '3'], empty),
    ]
    said = []
    for what in cases:
        case = Case(folder, *what)
        numbers = list(range(1, min(case.requests, 200) + 1))
        step = max(1, (case.requests - 200) // max(1, RUNS - 200))
        numbers += range(201, case.requests + 1, step)
        ended = sum(case.refuse(number, last) for number in numbers for last in (number, 2 ** 63))
        said.append(f'{what[0]} {2 * len(numbers)} runs of {case.requests} requests, {ended} with 7')
print('refused memory: ' + '; '.join(said))
