"""What the tables of whole runs share: changes of an image, which examples/made_image.py makes, and runs of the built
program over a device in a file, whose status, lines and device are compared."""
import os
import subprocess
import sys
import tempfile
import time


def in_repository(file):
    """The path of a file of the repository, from wherever a script is run."""
    return os.path.join(os.path.dirname(os.path.abspath(__file__)), '..', file)


sys.path.insert(0, in_repository('examples'))
import made_image as made  # noqa: E402

program = os.path.realpath(sys.argv[1] if len(sys.argv) > 1 else in_repository('crates/recon/out/recon'))
if not os.access(program, os.X_OK):
    sys.exit(f'{program} is not built')
SCRIPT = 'tests/' + os.path.basename(sys.argv[0])

# The addresses of the base image's blocks, and of two blocks that are free.
ROOTS, EXTENTS, CHUNKS, DEVICES, FILES, SUMS = (made.BLOCKS[tree] for tree in (1, 2, 3, 4, 5, 7))
LEFT, RIGHT = 5324800, 5341184
SUPERBLOCK = made.SUPERBLOCK
SYSTEM_AT, METADATA_AT, DATA_AT = (chunk[0] for chunk in made.CHUNKS)
CHUNKS_END = 22020096


# Changes of an image: each is a call on it.
def put(tree, item):
    """An item into a tree, in the place of one with its key."""
    return lambda image: image.put(tree, item)


def drop(tree, *key):
    """The item with a key away from a tree."""
    return lambda image: image.drop(tree, key)


def write(at, data):
    """Bytes over a block or the superblock, at an address."""
    return lambda image: image.write(at, data)


def leaf(address, tree, *items):
    """A block that is a leaf of a tree with these items alone."""
    return lambda image: image.put_leaf(address, tree, dict(items))


def node(address, tree, *pointers):
    """A block that is a node of a tree with these pointers: keys and addresses."""
    return lambda image: image.blocks.update({address: made.node(address, tree, pointers)})


def used(total):
    """The used bytes that the superblock says."""
    return write(SUPERBLOCK + 0x78, made.number(total))


def data_group(total, kind=1):
    """The used bytes that the group of the data chunk says, and its type."""
    return put(2, made.group(DATA_AT, 8388608, kind, total))


def metadata_group(total):
    """The used bytes that the group of the metadata chunk says."""
    return put(2, made.group(METADATA_AT, 8388608, 36, total))


def changed(image, changes):
    image = image.copy()
    for change in changes:
        change(image)
    return image


BASE = made.Image()
# The block groups in a tree of their own.
GROUP_TREE = write(SUPERBLOCK + 0xb4, made.number(8))
NO_GROUP_TREE = write(SUPERBLOCK + 0xb4, made.number(0))
GROUPS = [made.group(start, length, kind, total) for (start, length, kind, _), total in zip(made.CHUNKS, (16384, 98304, 0))]
OWN_GROUPS = [made.Image.group_tree]
ENTRY = made.entry(257, 1, b'hello')
# The names of a file `hello`, 257, in the top directory.
HELLO = [put(5, made.top(10)), put(5, made.hashed(256, ENTRY)), put(5, made.indexed(256, 2, ENTRY)),
         put(5, made.name(257, 256, 2, b'hello'))]


def fail(row, why):
    sys.exit(f'{SCRIPT}: {row}: {why}')


class Device:
    """A device in a file, over which the program runs."""

    def __init__(self):
        self.folder = tempfile.TemporaryDirectory()
        self.path = os.path.join(self.folder.name, 'image')
        self.runs = 0

    def fill(self, image, cut=None, more=0):
        """Puts an image on the device, or its first bytes, or with more bytes of 0 behind it."""
        with open(self.path, 'wb') as out:
            out.truncate(made.LENGTH)
            for place, data in image.pieces():
                out.seek(place)
                out.write(data)
            out.truncate(made.LENGTH + more if cut is None else cut)

    def write(self, at, data):
        """Puts bytes at a place of the device as they are."""
        with open(self.path, 'r+b') as out:
            out.seek(at)
            out.write(data)

    def bytes(self):
        with open(self.path, 'rb') as out:
            return out.read()

    def run(self, *words, trace=b'', folder=None, step=None):
        """The status and the lines of a run over the device. With a step the trace comes so many bytes at a time."""
        self.runs += 1
        words = [program, *words, self.path] if folder is None else [program, *words]
        if step is None:
            ended = subprocess.run(words, input=trace, stdout=subprocess.PIPE, stderr=subprocess.PIPE, timeout=60, cwd=folder)
            return ended.returncode, ended.stdout.decode()
        running = subprocess.Popen(words, stdin=subprocess.PIPE, stdout=subprocess.PIPE, stderr=subprocess.PIPE, bufsize=0, cwd=folder)
        for at in range(0, len(trace), step):
            running.stdin.write(trace[at:at + step])
            time.sleep(0.005)
        lines, _ = running.communicate(timeout=60)
        return running.returncode, lines.decode()

    def must_say(self, row, status, lines, *words, **more):
        """Runs, and ends the script where the run has another status or other lines."""
        got = self.run(*words, **more)
        if got != (status, lines):
            fail(row, f'{" ".join(words)} ended with {got[0]} and {got[1]!r}, not {status} and {lines!r}')

    def must_hold(self, row, data):
        if self.bytes() != data:
            fail(row, 'the device holds other bytes')
