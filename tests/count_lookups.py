#!/usr/bin/env python3
"""How often the start and each judged event look into the index, as the program `count_lookups` counts, beside their bounds.

Usage: tests/count_lookups.py [PROGRAM]                  by default crates/count_lookups/out/count_lookups
       tests/count_lookups.py [PROGRAM] --real DIRECTORY

Prints a table: a case, an event, its looks, the bound, which is 64 times the work, and the looks in per cent of it. It ends
with 1 where there are more looks than the bound. The work is counted by a model that reads all blocks of both images: the
pairs of a tree and a block that the two do not share, what stands in these blocks, what it posts to accounts, the spans with
a sector that it posts to, and a few more. A rejected event has no bound. Some events are to have as many looks as others.
The workloads are made by crates/recon/out/recon.
With --real each commit of each trace of a directory is a case: NAME.img.xz with NAME.trace.xz."""
import collections
import os
import subprocess
import sys
import tempfile

import image_diff
from image_diff import made, number

FACTOR, SECTOR, PLACE = 64, 4096, made.SUPERBLOCK


# What an item posts, in the context of an image: how many postings there are, and the sectors to which some of them go.

def is_subvolume(tree):
    return 256 <= tree <= 2 ** 64 - 256


def is_file_tree(tree):
    return tree == 5 or is_subvolume(tree) or tree == 2 ** 64 - 9


def sectors(at, length):
    """The numbers of the sectors of a range."""
    return range(at // SECTOR, at // SECTOR + length // SECTOR)


def home(chunks, at, length):
    """The first chunk that holds a range whole, or nothing."""
    return next((one for one in chunks if one.start <= at and at + length <= one.start + one.length), None)


class Context:
    """What the postings of an item rest on beside the item: the chunks, the size of a tree block, and the inodes whose data has no
    checksums."""

    def __init__(self, image, items):
        self.chunks, self.nodesize = image.chunks, image.sup.nodesize
        self.free = {(tree, key[0]) for tree, key, item, _ in items
                     if is_file_tree(tree) and key[1] == made.INODE_ITEM and item[64] & 1}

    def extent(self, key):
        """The range of an extent or of a tree block."""
        return key[0], key[2] if key[1] == made.EXTENT_ITEM else self.nodesize


def is_extent(tree, key):
    return tree == 2 and key[1] in (made.EXTENT_ITEM, made.METADATA_ITEM)


def is_written(tree, key, item):
    """Whether an item is a range of a file that was written."""
    return is_file_tree(tree) and key[1] == made.EXTENT_DATA and item[20] == 1 and number(item, 21) > 0


def shown(item):
    """The sectors that a range of a file shows of its extent."""
    return sectors(number(item, 21) + number(item, 37), number(item, 45))


def summed(item, key):
    return sectors(key[2], SECTOR * (len(item) // 4))


def place(tree, key, item, context):
    """Of the postings of an item what the context decides: the home of an extent, or the sectors that a range of a file posts to."""
    if is_extent(tree, key):
        one = home(context.chunks, *context.extent(key))
        return one and one[:3]
    if is_written(tree, key, item):
        has_sums = (tree, key[0]) not in context.free and home(context.chunks, number(item, 21), number(item, 29))
        return shown(item) if has_sums else range(0)
    return None


def fronts(item, length, name_at):
    """The entries of an item: each has so many bytes and a name, whose length stands at such a place of them."""
    at, found = 0, []
    while at < len(item):
        found.append(item[at:at + length])
        at += length + number(item, at + name_at, 2)
    return found


def references(item):
    count, at = 0, 24
    while at < len(item):
        count, at = count + 1, at + (29 if item[at] == made.EXTENT_DATA_REF else 9)
    return count


def extent_posts(key, item, context):
    is_data, one = key[1] == made.EXTENT_ITEM, place(2, key, item, context)
    count = 3 + 2 * references(item)
    if one is None:
        return count + 1, range(0)
    found = sectors(*context.extent(key))
    return count + 1 + len(found) * (2 if is_data else 1) + (not one[2] & (1 if is_data else 6)), found


def file_posts(tree, key, item, context):
    kind = key[1]
    if kind == made.INODE_ITEM:
        return 3 + (number(item, 52, 4) & 0xF000 in (0x4000, 0x8000, 0xA000)), range(0)
    if kind in (made.INODE_REF, made.INODE_EXTREF):
        names = fronts(item, 10, 8) if kind == made.INODE_REF else fronts(item, 18, 16)
        return len(names) * (2 if key == (256, made.INODE_REF, 256) else 3), range(0)
    if kind in (made.DIR_ITEM, made.DIR_INDEX):
        more = {made.INODE_ITEM: (5, 6), made.ROOT_ITEM: (3, 4)}
        return sum(more[one[8]][kind == made.DIR_INDEX] for one in fronts(item, 30, 27)), range(0)
    if kind != made.EXTENT_DATA:
        return 1, range(0)
    if item[20] == 0:
        return 2, range(0)
    found = place(tree, key, item, context) if is_written(tree, key, item) else range(0)
    return (4 if number(item, 21) else 1) + len(found), found


def posts(tree, key, item, context):
    kind = key[1]
    if is_extent(tree, key):
        return extent_posts(key, item, context)
    if is_file_tree(tree):
        return file_posts(tree, key, item, context)
    if tree == 7:
        return len(summed(item, key)), summed(item, key)
    if tree == 1:
        return {made.ROOT_ITEM: int(is_subvolume(key[0])), made.ROOT_REF: 3, made.ROOT_BACKREF: 1}.get(kind, 0), range(0)
    if tree in (2, 11):
        return 3 if kind == made.BLOCK_GROUP_ITEM else 2, range(0)
    if tree == 3:
        return 1 + (number(item, 44, 2) if kind == made.CHUNK_ITEM else 0), range(0)
    return 2 * (kind == made.DEV_EXTENT), range(0)


def span(tree, key, item, context):
    """The first byte of an item's span, its sectors, and the inode that shows it; or nothing."""
    if is_extent(tree, key):
        return key[0], sectors(*context.extent(key)), None
    if is_written(tree, key, item):
        return number(item, 21) + number(item, 37), shown(item), (tree, key[0])
    if tree == 7:
        return key[2], summed(item, key), None
    return None


# The work.

class Side:
    """An image with its items, which know their blocks, its context, and the spans of its items with what they are of."""

    def __init__(self, data):
        self.image = image_diff.Image(data)
        self.items = [(pair[0], key, item, pair) for pair, one in self.image.blocks.items() for key, item in one.items]
        self.context = Context(self.image, self.items)
        found = [span(tree, key, item, self.context) for tree, key, item, _ in self.items]
        self.spans = [one for one in found if one]

    def start(self):
        """The work of a start."""
        posted = sum(posts(tree, key, item, self.context)[0] for tree, key, item, _ in self.items)
        return entries(self.image.blocks.values()) + len(self.image.blocks) + posted + len(self.spans) + len(self.image.chunks) + 1


def entries(blocks):
    """How many pointers and items are in blocks."""
    return sum(len(one.items) + len(one.below) for one in blocks)


def maximal_runs(ranges):
    """How many maximal runs there are of the bytes in ranges."""
    count, end = 0, -1
    for at, behind in sorted(ranges):
        count, end = count + (at > end), max(end, behind)
    return count


def work(old, new, difference, pending):
    """The work between two images, with these pending ranges."""
    total, met = maximal_runs(pending) + len(old.image.chunks) + len(new.image.chunks) + 1, set()
    before, after = old.context, new.context
    alike = (before.chunks, before.nodesize, before.free) == (after.chunks, after.nodesize, after.free)
    for side in old, new:
        apart = [one for pair, one in side.image.blocks.items() if pair not in difference.shared]
        total += len(apart) + entries(apart)
        for tree, key, item, pair in side.items:
            if pair not in difference.shared or not alike and place(tree, key, item, before) != place(tree, key, item, after):
                count, found = posts(tree, key, item, side.context)
                total += count
                met.update(found)
    turned = before.free ^ after.free
    for side in old, new:
        total += sum(not met.isdisjoint(found) for _, found, _ in side.spans) + sum(ino in turned for _, _, ino in side.spans)
    return total


# The runs.

# The line of the start or of a judged event, its looks and their bound, which a rejected one does not have.
Judged = collections.namedtuple('Judged', 'line looks bound')


def share(one):
    """The looks in per cent of their bound."""
    return 100 * one.looks / one.bound


def pending_at_events(trace):
    """The places and the bytes of the writes that are pending at each judged event of a trace, its own at the end."""
    pending = []
    for tag, at, piece in image_diff.records_of(trace):
        if tag == 1:
            pending.append((at, piece))
        if tag == 2 or tag == 1 and at < PLACE + 4096 and at + len(piece) > PLACE:
            yield pending
            pending = []


class Runs:
    """Runs of the program over an image and a trace in files, beside the model."""

    def __init__(self, program):
        self.program, self.folder, self.count = program, tempfile.TemporaryDirectory(), 0
        self.image, self.trace = (os.path.join(self.folder.name, name) for name in ('image', 'trace'))

    def lines(self, case, image, trace):
        """The lines of a run without their looks, and these."""
        for path, data in (self.image, image), (self.trace, trace):
            with open(path, 'wb') as out:
                out.write(data)
        ended = subprocess.run([self.program, self.image, self.trace], capture_output=True, timeout=600)
        if ended.returncode or ended.stderr:
            fail(case, f'the program ended with {ended.returncode}: {ended.stderr.decode().strip()}')
        return [(line, int(looks)) for line, _, looks in (one.rpartition(' looks ') for one in ended.stdout.decode().splitlines())]

    def judged(self, case, image, trace):
        """Replays a trace over an image: the start, the judged events, and the last image."""
        (line, looks), *lines = self.lines(case, image, trace)
        events, data, old = list(pending_at_events(trace)), bytearray(image), Side(image)
        found = [self.within(case, Judged(line, looks, FACTOR * old.start()))]
        if len(lines) != len(events):
            fail(case, f'the program has {len(lines)} lines, and the trace {len(events)} judged events')
        for (line, looks), pending in zip(lines, events):
            old, bound = self.bound(case, line, data, pending, old)
            found.append(self.within(case, Judged(line, looks, bound)))
        return found, data

    def bound(self, case, line, data, pending, old):
        """Puts what an event lets through over the image, and gives what then stands there and the bound of its looks."""
        if ' passed ' not in line:
            return old, None
        written = bytearray(len(data) // image_diff.SECTOR + 1)
        for at, piece in pending:
            data[at:at + len(piece)] = piece
            first, behind = at // image_diff.SECTOR, (at + len(piece) - 1) // image_diff.SECTOR + 1
            written[first:behind] = b'\1' * (behind - first)
        new = Side(data) if pending else old
        difference = image_diff.Difference(old.image, new.image, written)
        apart = sum(pair not in difference.shared for side in (old, new) for pair in side.image.blocks)
        if f' blocks {apart} ' not in line:
            fail(case, f'the program says {line!r}, and the model has {apart} blocks')
        return new, FACTOR * work(old, new, difference, [(at, at + len(piece)) for at, piece in pending])

    def within(self, case, one):
        self.count += 1
        if one.bound is not None and one.looks > one.bound:
            fail(case, f'{one.line!r} has {one.looks} looks, and the bound is {one.bound}')
        return one

    def show(self, case, image, trace, most=None):
        """A line of the table for each event, and the last image. The last event has such a bound, where it is said."""
        found, data = self.judged(case, image, trace)
        for one in found:
            put(case, one.line, one)
        if most not in (None, found[-1].bound):
            fail(case, f'the bound is {found[-1].bound}, and not {most}')
        return data

    def looks_of_last(self, case, image, trace):
        """How often the last event looks, which is to pass."""
        last = self.judged(case, image, trace)[0][-1]
        if last.bound is None:
            fail(case, f'{last.line!r} is not to come')
        return last.looks

    def sum_up(self, case, image, trace):
        """A line of the table for the start, and one for all events together, with the greatest share of the bound. The last image."""
        (start, *events), data = self.judged(case, image, trace)
        put(case, start.line, start)
        bounded = [one for one in events if one.bound]
        total = Judged('', sum(one.looks for one in bounded), sum(one.bound for one in bounded))
        most = max(bounded, key=share)
        put(case, f'{len(bounded)} that passed', total)
        put(case, f'of these {" ".join(most.line.split()[:2])}', most)
        return data


def put(case, event, one):
    bound = f'{one.bound:9} {share(one):6.1f} %' if one.bound else '     none'
    print(f'{case:44} {event:52} {one.looks:7} {bound}')


def fail(case, why):
    sys.exit(f'tests/count_lookups.py: {case}: {why}')


# The cases.

BASE = made.Image()
(METADATA_AT, METADATA_LENGTH), (DATA_AT, DATA_LENGTH) = (one[:2] for one in made.CHUNKS[1:])
# Blocks that are free in the base image.
LEFT, RIGHT = 5324800, 5341184


def changed(image, *items):
    """An image with items in their trees, and without those that are said to be nothing."""
    image = image.copy()
    for tree, (key, item) in items:
        image.change(tree, key, item)
    return image


def split(image, tree, key, data):
    """An image with a node as the root of a tree, above two leaves, the second from a key on. So many bytes are used for data."""
    image, top = image.copy(), image.root(tree)
    image.drop(2, (top, made.METADATA_ITEM, 0))
    for item in made.block(top, tree, 1), made.block(LEFT, tree), made.block(RIGHT, tree), made.group(METADATA_AT, METADATA_LENGTH, 36, 114688):
        image.put(2, item)
    image.put(1, made.root(tree, top, level=1))
    items = image.items(top)
    image.put_leaf(LEFT, tree, {one: item for one, item in items.items() if one < key})
    image.put_leaf(RIGHT, tree, {one: item for one, item in items.items() if one >= key})
    image.blocks[top] = made.node(top, tree, [(min(items), LEFT), (key, RIGHT)])
    image.write(PLACE + 0x78, made.number(131072 + data))
    return image


def with_file(count, flags):
    """The base image with a file of so many sectors, each an extent of its own."""
    one, length = made.entry(257, 1, b'hello'), SECTOR * count
    items = [made.top(10), made.hashed(256, one), made.indexed(256, 2, one), made.inode(257, length, flags=flags), made.name(257, 256, 2, b'hello')]
    ranges = [made.file_range(SECTOR * k, DATA_AT + SECTOR * k, SECTOR) for k in range(count)]
    extents = [made.extent(DATA_AT + SECTOR * k, SECTOR, origin=SECTOR * k) for k in range(count)]
    return changed(BASE, *((5, item) for item in items + ranges), *((2, item) for item in extents + [made.group(DATA_AT, DATA_LENGTH, 1, length)]))


def chunk_grows(image, sectors):
    """The image with a data chunk that is 16 sectors longer, of which so many are used."""
    length = DATA_LENGTH + 65536
    return changed(image, (3, made.device(29360128 + 65536)), (3, made.chunk(DATA_AT, length, 1, [22020096])),
                   (4, made.device_extent(22020096, DATA_AT, length)), (2, ((DATA_AT, made.BLOCK_GROUP_ITEM, DATA_LENGTH), None)),
                   (2, made.group(DATA_AT, length, 1, SECTOR * sectors)))


def with_empty_ranges(offsets):
    """A file of four sectors, which also has ranges of no bytes at these bytes of its extent."""
    taken, one = 4 * SECTOR, made.entry(257, 1, b'hello')
    places = [(taken + SECTOR * k, offset) for k, offset in enumerate(offsets)]
    items = [made.top(10), made.hashed(256, one), made.indexed(256, 2, one), made.inode(257, taken), made.name(257, 256, 2, b'hello'),
             made.file_range(0, DATA_AT, taken, length=taken), *(made.file_range(at, DATA_AT, taken, offset, 0) for at, offset in places)]
    references = [((DATA_AT, made.EXTENT_DATA_REF, at), made.struct.pack('<QQQI', 5, 257, at - offset, 1)) for at, offset in places]
    image = changed(BASE, *((5, item) for item in items), *((2, item) for item in references), (7, made.sums(DATA_AT, 4)),
                    (2, made.extent(DATA_AT, taken, references=1 + len(places))), (2, made.group(DATA_AT, DATA_LENGTH, 1, taken)))
    image.write(PLACE + 0x78, made.number(98304 + taken))
    return image


def trace(*records):
    return made.HEADER + b''.join(records) + made.END


def rows(runs):
    base = BASE.bytes()
    runs.show('nothing pending over the base image', base, trace(made.SETTLE), FACTOR * (2 * len(made.CHUNKS) + 1))
    new_file = BASE.copy()
    new_file.new_file()
    runs.show('a new file in the base image', base, trace(*made.writes(new_file, BASE)))
    mode = changed(BASE, (5, made.top(0, 0o40700)))
    runs.show('another mode, in place', base, trace(*made.writes(mode, BASE)[:-1], made.SETTLE))
    # The flag of an inode goes, and its ranges stand in a leaf that stays: the commit is rejected. With checksums it passes.
    count = 40
    before = split(with_file(count, 1), 5, (257, made.EXTENT_DATA, 0), SECTOR * count)
    flag = changed(before, (5, made.inode(257, SECTOR * count)))
    sums = changed(flag, (7, made.sums(DATA_AT, count)))
    runs.show('a file of 40 extents is to have checksums', before.bytes(), trace(*made.writes(flag, before), *made.writes(sums, before)))
    # The chunk of 40 extents grows, of which all but one stand in a leaf that stays.
    before = changed(with_file(count, 0), (7, made.sums(DATA_AT, count)))
    before = split(before, 2, (DATA_AT + SECTOR, made.EXTENT_ITEM, SECTOR), SECTOR * count)
    runs.show('the chunk of 40 extents grows', before.bytes(), trace(*made.writes(chunk_grows(before, count), before)))
    same_looks(runs, new_file)


def same_looks(runs, new_file):
    """Events that look as often as others do."""
    # The chunk grows of an extent that ranges of no bytes show: all that are at one place cost as many looks as one.
    def looks(offsets):
        before = with_empty_ranges(offsets)
        return runs.looks_of_last(f'ranges of no bytes at {offsets}', before.bytes(), trace(*made.writes(chunk_grows(before, 4), before)))

    none, one, five, three_places = map(looks, ([], [SECTOR], [SECTOR] * 5, [SECTOR, 2 * SECTOR, 3 * SECTOR, SECTOR]))
    if not none < one == five < three_places or three_places - none != 3 * (one - none):
        fail('ranges of no bytes', f'none {none} looks, one {one}, five at a place {five}, at three places {three_places}')
    # An entry whose generation is another, which no rule reads, is no change: as many looks as for the block with its own bytes.
    entry = changed(new_file, (5, made.indexed(256, 2, made.entry(257, 1, b'hello', generation=1))))
    own, other = ([made.write(place, image.blocks[LEFT]) for place in made.places(LEFT)] for image in (new_file, entry))
    own, other = (runs.looks_of_last('an entry', new_file.bytes(), trace(*writes, made.SETTLE)) for writes in (own, other))
    if own != other or entry.blocks[LEFT] == new_file.blocks[LEFT]:
        fail('an entry of another generation', f'{other} looks, and {own} with the same bytes')


def workload(runs, seed, commits):
    """A made workload, and a settle with nothing pending over its last image."""
    recon = os.path.join(image_diff.ROOT, 'crates/recon/out/recon')
    with open(runs.image, 'wb') as out:
        out.truncate(made.LENGTH)
    made_trace = subprocess.run([recon, 'make', str(seed), str(commits), runs.image], capture_output=True, check=True).stdout
    with open(runs.image, 'rb') as image:
        last = runs.sum_up(f'the workload {seed} of {commits} commits', image.read(), made_trace)
    runs.show('nothing pending over its last image', last, trace(made.SETTLE), FACTOR * (2 * len(image_diff.Image(last).chunks) + 1))


def main(words):
    program = words.pop(0) if words and not words[0].startswith('--') else os.path.join(image_diff.ROOT, 'crates/count_lookups/out/count_lookups')
    if not os.access(program, os.X_OK):
        sys.exit(f'{program} is not built')
    runs = Runs(os.path.realpath(program))
    print(f'{"case":44} {"event":52} {"looks":>7} {"bound":>9} {"share":>8}')
    if words[:1] == ['--real'] and len(words) == 2:
        for name, image, trace_of in image_diff.recorded(words[1]):
            runs.sum_up(name, image, trace_of)
    elif not words:
        rows(runs)
        workload(runs, 7, 200)
    else:
        sys.exit(__doc__)
    print(f'looks: {runs.count} starts and events look no more often than their bounds allow')


if __name__ == '__main__':
    main(sys.argv[1:])
