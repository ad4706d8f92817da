"""Traces over the base image: their lines as text and as JSON, and what they leave on the device; and who has the device.

Usage: tests/traces.py [PROGRAM], by default crates/recon/out/recon. Prints one line, and ends with 1 at the first row
that differs. A row: what it is, the records behind the header, the status, the lines behind the image's as text, those
as JSON or none where they are not compared, and the writes that then stand on the device: places and bytes.
"""
import fcntl
import itertools
import os
import subprocess

from rows import BASE, Device, SUMS, SUPERBLOCK, changed, fail, made, metadata_group, program, put, used

write, fetch, SETTLE, END = made.write, made.fetch, made.SETTLE, made.END
PLACE = BASE.superblock
AT_PLACE = write(SUPERBLOCK, PLACE)
# The superblock with its first magic byte 0 under the old checksum, and one that says 4096 used bytes less.
NO_MAGIC = write(SUPERBLOCK, PLACE[:64] + b'\0' + PLACE[65:])
LESS_USED = write(SUPERBLOCK, changed(BASE, [used(94208)]).superblock)
# Another generation under the old checksum. The finding's detail is the checksum of the bytes.
NEXT = write(SUPERBLOCK + 0x48, b'\2')
# A write that makes the second copy of a block differ in its last byte.
DIFFERS = write(13697023, b'\xff')
AT, ABCD = 30408704, b'ABCD'
WRITE_ABCD, FETCH_ABCD = write(AT, ABCD), fetch(AT, 4)
LAST = 33554424
AT_LAST, PAST_LAST = write(LAST, b'abcdefgh'), write(LAST + 1, b'abcdefgh')
NEW_FILE = changed(BASE, [made.Image.new_file])
NEW_FILE_WRITES = made.writes(NEW_FILE, BASE)
NEW_FILE_LEFT = list(NEW_FILE.pieces(BASE))

PASSED = 'commit 1 passed generation 1 blocks 0 hot 0'
NO_MAGIC_LINE = 'commit 1 rejected S2 tree 0 block 0 key 0 0 0 detail 0'
NO_MAGIC_JSON = '{"event":"commit","finding":{"block":0,"detail":0,"key":[0,0,0],"rule":"S2","tree":0},"number":1,"result":"rejected"}'
LESS_LINE = 'commit 1 rejected A16 tree 0 block 0 key 0 0 0 detail 0'

BROKEN = [
    ('a commit, and then a write past the end', [AT_PLACE, PAST_LAST, END], 3,
     [PASSED, 'trace past end record 2 at 33554425 len 8 end 33554432'], None, []),
    ('a record with the tag 9', [b'\x09', END], 3, ['trace fault 2 BadTag record 1'], None, []),
    ('with the tag 4', [b'\x04', END], 3, ['trace fault 2 BadTag record 1'], None, []),
    ('with the tag 0', [b'\0', END], 3, ['trace fault 2 BadTag record 1'], None, []),
    ('a write that is longer than 1 MiB', [write(0, bytes(1048576), 1048577), END], 3, ['trace fault 3 BadLength record 1'], None, []),
    ('an empty write', [write(0, b''), END], 3, ['trace fault 3 BadLength record 1'], None, []),
    ('a fetch that is longer than 64 KiB', [fetch(0, 65537), END], 3, ['trace fault 3 BadLength record 1'], None, []),
    ('a write that is cut off', [write(0, b'123456789', 10)], 3, ['trace fault 4 Truncated record 1'], None, []),
    ('a trace of its header alone', [], 3, ['trace fault 4 Truncated record 1'],
     ['{"event":"trace fault","fault":"Truncated","number":4,"record":1}'], []),
    ('a bad tag behind a settle', [SETTLE, b'\x09', END], 3,
     ['settle 1 passed generation 1 blocks 0 hot 0', 'trace fault 2 BadTag record 2'],
     ['{"blocks":0,"event":"settle","generation":1,"hot":0,"number":1,"result":"passed"}',
      '{"event":"trace fault","fault":"BadTag","number":2,"record":2}'], []),
    ('a fetch of 65,537 bytes', [FETCH_ABCD, fetch(0, 65537), END], 3,
     ['fetch 30408704 4 00000000', 'trace fault 3 BadLength record 2'],
     ['{"at":30408704,"bytes":"00000000","event":"fetch","len":4}',
      '{"event":"trace fault","fault":"BadLength","number":3,"record":2}'], []),
    ('a fetch that passes the end', [fetch(LAST + 1, 8), END], 3,
     ['trace past end record 1 at 33554425 len 8 end 33554432'],
     ['{"at":33554425,"end":33554432,"event":"past end","len":8,"record":1}'], []),
    ('a fetch behind the end', [write(33554431, b'Z'), fetch(33554432, 1), END], 3,
     ['trace past end record 2 at 33554432 len 1 end 33554432'], None, []),
    ('a fetch of the last byte and the next', [fetch(33554431, 2), END], 3,
     ['trace past end record 1 at 33554431 len 2 end 33554432'], None, []),
    *((f'a bad tag {tag:#x} behind another record', [before, bytes([tag]), END], 3, [*line, 'trace fault 2 BadTag record 2'], None, [])
      for tag, before, line in [(0, WRITE_ABCD, []), (4, SETTLE, ['settle 1 passed generation 1 blocks 0 hot 0']),
                                (0xfe, FETCH_ABCD, ['fetch 30408704 4 00000000'])]),
    *((f'a length of {size:#x} in a record of kind {kind}', [before, record, END], 3,
       [*line, f'trace fault 3 BadLength record {1 + len(line)}'], None, [])
      for size, kind, before, record, line in [
          (2 ** 31 + 2, 1, b'', write(0, b'hi', 2 ** 31 + 2), []), (0, 3, b'', fetch(0, 0), []),
          (2 ** 31 + 1, 3, b'', fetch(0, 2 ** 31 + 1), []),
          (65537, 3, SETTLE, fetch(0, 65537), ['settle 1 passed generation 1 blocks 0 hot 0'])]),
    ('a trace that is cut behind a settle', [SETTLE], 3, ['settle 1 passed generation 1 blocks 0 hot 0', 'trace fault 4 Truncated record 2'],
     ['{"blocks":0,"event":"settle","generation":1,"hot":0,"number":1,"result":"passed"}',
      '{"event":"trace fault","fault":"Truncated","number":4,"record":2}'], []),
    ('a fetch of the last byte of all', [SETTLE, fetch(2 ** 64 - 1, 1), END], 3,
     ['settle 1 passed generation 1 blocks 0 hot 0', 'trace past end record 2 at 18446744073709551615 len 1 end 33554432'], None, []),
]

# The superblock of a new file before its blocks, which a settle then lets through; its root tree's block has only zeros yet.
EARLY_SUPERBLOCK = [NEW_FILE_WRITES[-1], *NEW_FILE_WRITES[:-1], SETTLE, END]

REJECTED = [
    ('the superblock of a new file before its blocks', EARLY_SUPERBLOCK, 1,
     ['commit 1 rejected N3 tree 1 block 5357568 key 0 0 0 detail 3840130486', 'settle 2 passed generation 1 blocks 0 hot 0',
      'end passed 1 rejected 1'],
     ['{"event":"commit","finding":{"block":5357568,"detail":3840130486,"key":[0,0,0],"rule":"N3","tree":1},"number":1,"result":"rejected"}',
      '{"blocks":0,"event":"settle","generation":1,"hot":0,"number":2,"result":"passed"}', '{"event":"end","passed":1,"rejected":1}'],
     NEW_FILE_LEFT[:-1]),
    ('a superblock without its magic number', [NO_MAGIC, END], 1, [NO_MAGIC_LINE, 'end passed 0 rejected 1'], None, []),
    ('another generation under the old checksum, and then a right superblock', [NEXT, AT_PLACE, END], 1,
     ['commit 1 rejected S3 tree 0 block 0 key 0 0 0 detail 4274492710', 'commit 2 passed generation 1 blocks 0 hot 0',
      'end passed 1 rejected 1'], None, []),
    ('a write that is pending with it', [AT_LAST, NO_MAGIC, END], 1, [NO_MAGIC_LINE, 'end passed 0 rejected 1'], None, []),
    ('a block whose copies differ, at a commit', [DIFFERS, AT_PLACE, END], 1,
     ['commit 1 rejected N2 tree 5 block 5292032 key 0 0 0 detail 16383', 'end passed 0 rejected 1'], None, []),
    ('a new file from its last write to its first', [*reversed(NEW_FILE_WRITES), END], 1,
     ['commit 1 rejected N3 tree 1 block 5357568 key 0 0 0 detail 3840130486', 'end passed 0 rejected 1'], None, []),
]

# The block of the tree of checksums once more, as it is, over both copies.
SAME_BLOCK = [write(place, BASE.blocks[SUMS]) for place in made.places(SUMS)]
FROM_23_MIB = bytes(range(256)) * 4096
# The top directory with another mode, in the block where it stands.
MODE = changed(BASE, [put(5, made.top(0, 0o40700))])
LAWFUL = [
    ('nothing', [END], 0, ['end passed 0 rejected 0'], ['{"event":"end","passed":0,"rejected":0}'], []),
    ('a write up to the end of the device, which no commit lets through', [AT_LAST, END], 0, ['end passed 0 rejected 0'], None, []),
    ('and with one that does', [AT_LAST, AT_PLACE, END], 0, [PASSED, 'end passed 1 rejected 0'], None, [(LAST, b'abcdefgh')]),
    ('the first mebibyte of the device as it is', [write(0, bytes(BASE.bytes()[:1 << 20])), END], 0, [PASSED, 'end passed 1 rejected 0'], None, []),
    ('a new file', [*NEW_FILE_WRITES, END], 0, ['commit 1 passed generation 2 blocks 6 hot 0', 'end passed 1 rejected 0'],
     ['{"blocks":6,"event":"commit","generation":2,"hot":0,"number":1,"result":"passed"}', '{"event":"end","passed":1,"rejected":0}'],
     NEW_FILE_LEFT),
    ('a live block written over, with a settle', [*made.writes(MODE, BASE)[:-1], SETTLE, END], 0,
     ['settle 1 passed generation 1 blocks 2 hot 1', 'end passed 1 rejected 0'], None, list(MODE.pieces(BASE))),
    ('the last byte of the second copy of a block, with a settle', [DIFFERS, SETTLE, END], 1,
     ['settle 1 rejected N2 tree 5 block 5292032 key 0 0 0 detail 16383', 'end passed 0 rejected 1'],
     ['{"event":"settle","finding":{"block":5292032,"detail":16383,"key":[0,0,0],"rule":"N2","tree":5},"number":1,"result":"rejected"}',
      '{"event":"end","passed":0,"rejected":1}'], []),
    ('what stands behind the end', [WRITE_ABCD, END, WRITE_ABCD, b'\x09'], 0, ['end passed 0 rejected 0'], None, []),
    ('the longest write and the longest fetch', [write(23 << 20, FROM_23_MIB), fetch(0, 65536), SETTLE, END], 0,
     [f'fetch 0 65536 {"00" * 65536}', 'settle 1 passed generation 1 blocks 0 hot 0', 'end passed 1 rejected 0'], None,
     [(23 << 20, FROM_23_MIB)]),
    ('bytes of a fetch', [write(AT, b'ABCD\0\xff'), fetch(AT, 6), END], 0, ['fetch 30408704 6 4142434400ff', 'end passed 0 rejected 0'],
     ['{"at":30408704,"bytes":"4142434400ff","event":"fetch","len":6}', '{"event":"end","passed":0,"rejected":0}'], []),
    # The pair of this block is not shared, before and after: two blocks, and one that is written over.
    ('a live block written over by its own bytes', [*SAME_BLOCK, SETTLE, *SAME_BLOCK, AT_PLACE, END], 0,
     ['settle 1 passed generation 1 blocks 2 hot 1', 'commit 2 passed generation 1 blocks 2 hot 1', 'end passed 2 rejected 0'],
     ['{"blocks":2,"event":"settle","generation":1,"hot":1,"number":1,"result":"passed"}',
      '{"blocks":2,"event":"commit","generation":1,"hot":1,"number":2,"result":"passed"}', '{"event":"end","passed":2,"rejected":0}'], []),
    ('a settle that is rejected, and an account that is', [DIFFERS, SETTLE, LESS_USED, END], 1,
     ['settle 1 rejected N2 tree 5 block 5292032 key 0 0 0 detail 16383', 'commit 2 rejected A16 tree 0 block 0 key 0 0 0 detail 0',
      'end passed 0 rejected 2'],
     ['{"event":"settle","finding":{"block":5292032,"detail":16383,"key":[0,0,0],"rule":"N2","tree":5},"number":1,"result":"rejected"}',
      '{"event":"commit","finding":{"block":0,"detail":0,"key":[0,0,0],"rule":"A16","tree":0},"number":2,"result":"rejected"}',
      '{"event":"end","passed":0,"rejected":2}'], []),
]

FETCHED = [
    ('the last bytes', [fetch(LAST, 8), END], 0,
     ['fetch 33554424 8 0000000000000000', 'end passed 0 rejected 0'],
     ['{"at":33554424,"bytes":"0000000000000000","event":"fetch","len":8}', '{"event":"end","passed":0,"rejected":0}'], []),
    ('a pending write before and after its commit is rejected', [WRITE_ABCD, FETCH_ABCD, NO_MAGIC, FETCH_ABCD, END], 1,
     ['fetch 30408704 4 41424344', NO_MAGIC_LINE, 'fetch 30408704 4 00000000', 'end passed 0 rejected 1'],
     ['{"at":30408704,"bytes":"41424344","event":"fetch","len":4}', NO_MAGIC_JSON,
      '{"at":30408704,"bytes":"00000000","event":"fetch","len":4}', '{"event":"end","passed":0,"rejected":1}'], []),
    ('and then a new file', [WRITE_ABCD, FETCH_ABCD, NO_MAGIC, FETCH_ABCD, *NEW_FILE_WRITES, END], 1,
     ['fetch 30408704 4 41424344', NO_MAGIC_LINE, 'fetch 30408704 4 00000000', 'commit 2 passed generation 2 blocks 6 hot 0',
      'end passed 1 rejected 1'],
     ['{"at":30408704,"bytes":"41424344","event":"fetch","len":4}', NO_MAGIC_JSON,
      '{"at":30408704,"bytes":"00000000","event":"fetch","len":4}',
      '{"blocks":6,"event":"commit","generation":2,"hot":0,"number":2,"result":"passed"}',
      '{"event":"end","passed":1,"rejected":1}'], NEW_FILE_LEFT),
    ('over the start of a pending write, and over its end', [WRITE_ABCD, fetch(AT - 2, 8), fetch(AT + 2, 8), END], 0,
     ['fetch 30408702 8 0000414243440000', 'fetch 30408706 8 4344000000000000', 'end passed 0 rejected 0'], None, []),
    ('over the start of the superblock, and in it over its magic number', [write(65532, b'WXYZ'), fetch(65532, 8), fetch(65598, 12), END], 0,
     ['fetch 65532 8 5758595ab796ec93', 'fetch 65598 12 00005f42485266535f4d0100', 'end passed 0 rejected 0'], None, []),
    ('over the end of the superblock', [write(69632, b'KLMN'), fetch(69628, 8), END], 0,
     ['fetch 69628 8 000000004b4c4d4e', 'end passed 0 rejected 0'], None, []),
    ('the last byte, before and after a write of it', [fetch(33554431, 1), write(33554431, b'Z'), fetch(33554431, 1), END], 0,
     ['fetch 33554431 1 00', 'fetch 33554431 1 5a', 'end passed 0 rejected 0'], None, []),
    ('after two settles', [SETTLE, SETTLE, FETCH_ABCD, END], 0,
     ['settle 1 passed generation 1 blocks 0 hot 0', 'settle 2 passed generation 1 blocks 0 hot 0', 'fetch 30408704 4 00000000',
      'end passed 2 rejected 0'], None, []),
    ('a write over a pending one, gone with a rejected commit and not there for the next',
     [WRITE_ABCD, write(AT + 1, b'EF'), FETCH_ABCD, LESS_USED, FETCH_ABCD, AT_PLACE, FETCH_ABCD, END], 1,
     ['fetch 30408704 4 41454644', LESS_LINE, 'fetch 30408704 4 00000000', 'commit 2 passed generation 1 blocks 0 hot 0',
      'fetch 30408704 4 00000000', 'end passed 1 rejected 1'], None, []),
    ('before a settle and after it', [WRITE_ABCD, SETTLE, FETCH_ABCD, SETTLE, END], 0,
     ['settle 1 passed generation 1 blocks 0 hot 0', 'fetch 30408704 4 41424344', 'settle 2 passed generation 1 blocks 0 hot 0',
      'end passed 2 rejected 0'],
     ['{"blocks":0,"event":"settle","generation":1,"hot":0,"number":1,"result":"passed"}',
      '{"at":30408704,"bytes":"41424344","event":"fetch","len":4}',
      '{"blocks":0,"event":"settle","generation":1,"hot":0,"number":2,"result":"passed"}',
      '{"event":"end","passed":2,"rejected":0}'], [(AT, ABCD)]),
]

# The superblock with a label, and 4,096 sevens before it.
LABELLED = changed(BASE, [lambda image: image.write(SUPERBLOCK + 0x12b, b'label')]).superblock
EARLY = b'\7' * 4096 + LABELLED
HELD, BAD_BYTE = write(8192, b'held'), write(65600, b'\0')
PASSES = ['commit 1 passed generation 1 blocks 0 hot 0']

# Each row begins with the base image.
PENDING = [
    ('a write is pending until a superblock lets it through', [HELD, fetch(8191, 5), fetch(65608, 1), END], 0,
     ['fetch 8191 5 0068656c64', 'fetch 65608 1 01', 'end passed 0 rejected 0'], None, []),
    ('after a rejection nothing is pending', [HELD, BAD_BYTE, fetch(8192, 4), END], 1,
     [NO_MAGIC_LINE, 'fetch 8192 4 00000000', 'end passed 0 rejected 1'], None, []),
    ('nor for the next superblock', [HELD, BAD_BYTE, write(SUPERBLOCK, LABELLED), END], 1,
     [NO_MAGIC_LINE, 'commit 2 passed generation 1 blocks 0 hot 0', 'end passed 1 rejected 1'], None, [(SUPERBLOCK, LABELLED)]),
    ('a pending write goes out with a superblock', [HELD, AT_PLACE, fetch(8192, 5), END], 0,
     PASSES + ['fetch 8192 5 68656c6400', 'end passed 1 rejected 0'], None, [(8192, b'held')]),
    ('the last byte of the superblock decides too', [HELD, write(8194, b're'), write(69631, b'\0'), SETTLE, END], 0,
     PASSES + ['settle 2 passed generation 1 blocks 0 hot 0', 'end passed 2 rejected 0'], None, [(8192, b'here')]),
    ('the bytes before the superblock are a part of its commit', [SETTLE, write(61440, EARLY), fetch(65533, 3), END], 0,
     ['settle 1 passed generation 1 blocks 0 hot 0', 'commit 2 passed generation 1 blocks 0 hot 0', 'fetch 65533 3 070707',
      'end passed 2 rejected 0'], None, [(61440, EARLY)]),
    ('where two writes meet the newer stands', [write(70000, b'aaaa'), write(70002, b'bbbb'), SETTLE, END], 0,
     ['settle 1 passed generation 1 blocks 0 hot 0', 'end passed 1 rejected 0'], None, [(70000, b'aabbbb')]),
    ('also where it begins before the older', [write(70102, b'bbbb'), write(70100, b'aaaa'), SETTLE, END], 0,
     ['settle 1 passed generation 1 blocks 0 hot 0', 'end passed 1 rejected 0'], None, [(70100, b'aaaabb')]),
]

TEXT, JSON = 'image accepted generation 1', '{"event":"image","generation":1,"result":"accepted"}'
device = Device()


def try_row(row, records, status, text, json, left, header=made.HEADER, more=0):
    """Replays a trace as text and, where its lines are there, as JSON."""
    wanted = BASE.bytes() + bytes(more)
    for at, data in left:
        wanted[at:at + len(data)] = data
    for words, first, lines in (['replay'], TEXT, text), (['replay', '--json'], JSON, json):
        if lines is not None:
            device.fill(BASE, more=more)
            device.must_say(row, status, ''.join(f'{line}\n' for line in [first, *lines]), *words, trace=header + b''.join(records))
            device.must_hold(row, wanted)


tables = [BROKEN, REJECTED, LAWFUL, FETCHED, PENDING]
for table in tables:
    for row in table:
        try_row(*row)
for other in b'RECONTRC' + bytes([1, 0, 0, 0, 0, 0, 0, 1]), b'recontrc' + made.HEADER[8:]:
    try_row(f'the header {other}', [END], 3, ['trace fault 1 BadHeader record 0'], None, [], other)
try_row('a header of version 2', [END], 3, ['trace fault 1 BadHeader record 0'],
        ['{"event":"trace fault","fault":"BadHeader","number":1,"record":0}'], [], b'RECONTRC' + bytes([2, 0, 0, 0, 0, 0, 0, 0]))
# The end is that of the device, and not of the file system.
longer = made.LENGTH + 4096
try_row('a write up to the end of a longer device', [write(longer - 8, b'abcdefgh'), END], 0, ['end passed 0 rejected 0'], None, [], more=4096)
try_row('a write past its end', [write(longer - 7, b'abcdefgh'), END], 3,
        ['trace past end record 1 at 33558521 len 8 end 33558528'], None, [], more=4096)
# The writes of two submitters, of which each sends one copy of each block in its order, may come in any order of the two.
first, second, superblock = NEW_FILE_LEFT[0::2][:3], NEW_FILE_LEFT[1::2][:3], NEW_FILE_LEFT[-1]
orders = list(itertools.combinations(range(6), 3))
for order in orders:
    sent = [(1, *first[order.index(at)]) if at in order else (2, *second[at - sum(one < at for one in order)]) for at in range(6)]
    records = [made.struct.pack('<BHQI', 1, submitter, place, len(data)) + data for submitter, place, data in [*sent, (0, *superblock)]]
    try_row(f'a new file in the order {order}', [*records, END], 0, ['commit 1 passed generation 2 blocks 6 hot 0', 'end passed 1 rejected 0'],
            None, NEW_FILE_LEFT)
# An image that is refused, as JSON.
device.fill(BASE, 16)
device.must_say('an image of 16 bytes', 1, '{"event":"image","finding":{"block":0,"detail":16,"key":[0,0,0],"rule":"S1","tree":0},'
                '"result":"refused"}\n', 'replay', '--json', trace=made.HEADER + END)
device.fill(changed(BASE, [metadata_group(77824)]))
device.must_say('an image that is refused', 1, '{"event":"image","finding":{"block":0,"detail":36,"key":[5242880,192,8388608],"rule":"A6",'
                '"tree":0},"result":"refused"}\n', 'replay', '--json', trace=made.HEADER + END)
# A trace of a record of each kind, cut at each place, at once and in pieces of one byte and of three; and each of its ends whole.
WHOLE = made.HEADER + WRITE_ABCD + SETTLE + FETCH_ABCD + END
LINES = ['settle 1 passed generation 1 blocks 0 hot 0', 'fetch 30408704 4 41424344']
device.fill(BASE)
for cut in range(len(WHOLE)):
    taken = sum(cut >= end for end in (35, 36, 49))
    fault = f'trace fault 4 Truncated record {taken + 1 if cut >= 16 else 0}'
    device.must_say(f'a trace that is cut to {cut} bytes', 3, ''.join(f'{line}\n' for line in [TEXT, *LINES[:max(0, taken - 1)], fault]),
                    'replay', trace=WHOLE[:cut])
# At the ends of the header and of each record, also in pieces of one byte.
for cut, taken in (15, 0), (16, 0), (34, 0), (35, 1), (36, 2), (48, 2), (49, 3):
    fault = f'trace fault 4 Truncated record {taken + 1 if cut >= 16 else 0}'
    device.must_say(f'a trace that is cut to {cut} bytes, in pieces of one', 3,
                    ''.join(f'{line}\n' for line in [TEXT, *LINES[:max(0, taken - 1)], fault]), 'replay', trace=WHOLE[:cut], step=1)
for step in 1, 3:
    device.fill(BASE)
    for trace, status, last in (WHOLE, 0, 'end passed 1 rejected 0'), (WHOLE[:-1] + b'\xfe', 3, 'trace fault 2 BadTag record 4'):
        device.must_say(f'a trace in pieces of {step} bytes', status, ''.join(f'{line}\n' for line in [TEXT, *LINES, last]), 'replay',
                        trace=trace, step=step)
# Two words are the form with text, whatever the image is called.
device.fill(BASE)
device.path, called = os.path.join(device.folder.name, '--json'), device.path
os.rename(called, device.path)
end, end_json = 'end passed 0 rejected 0', '{"event":"end","passed":0,"rejected":0}'
for words, lines in (('replay', '--json'), f'{TEXT}\n{end}\n'), (('replay', '--json', '--json'), f'{JSON}\n{end_json}\n'):
    device.must_say('an image that is called --json', 0, lines, *words, trace=made.HEADER + END, folder=device.folder.name)


def locks():
    """A check shares the image with other checks, and a replay and a make have it for themselves."""
    device.path = called
    os.rename(os.path.join(device.folder.name, '--json'), called)
    device.fill(BASE)
    forms = ('check',), ('replay',), ('make', '7', '1')
    for how, statuses in (fcntl.LOCK_SH, (0, 4, 4)), (fcntl.LOCK_EX, (4, 4, 4)):
        with open(called, 'rb') as other:
            fcntl.flock(other, how)
            for words, wanted in zip(forms, statuses):
                device.must_say(f'an image that another has by the lock {how}', wanted, TEXT + '\n' if wanted == 0 else '', *words)
                device.must_hold(f'an image that another has by the lock {how}', BASE.bytes())
    # A replay that waits for its trace.
    running = subprocess.Popen([program, 'replay', called], stdin=subprocess.PIPE, stdout=subprocess.PIPE, bufsize=0)
    if running.stdout.readline().decode() != TEXT + '\n':
        fail('a replay that waits', 'another line')
    for words in forms:
        device.must_say('an image over which a replay runs', 4, '', *words)
    device.must_hold('an image over which a replay runs', BASE.bytes())
    if running.communicate(made.HEADER + END, timeout=60)[0] != b'end passed 0 rejected 0\n' or running.returncode:
        fail('a replay that waits', 'another line or status')


locks()
print(f'traces: {device.runs} runs have their lines and leave their device')
