#!/usr/bin/env bash
# Shows Recon between a client and a disk, live: a volume is served by NBD through examples/nbd_bridge.py, and a client
# writes what a driver wrote. Its commits pass, and the image is then what `recon replay` of the same trace makes. Then
# the last commit comes with one byte of a tree block changed and its checksum mended: the client sees an I/O error, as
# at all that it writes afterwards, and the image is the one before that commit.
#
# Usage: examples/live.sh [IMAGE TRACE]. A trace of commits that all pass; by default `recon make 7 20 IMAGE > TRACE`
# makes both. IMAGE is not changed. RECON names the program, by default crates/recon/out/recon. It wants nbdkit with
# its Python plugin and libnbd's Python module, and ends with status 0 and a plain word where they are missing; with 1
# and one line where the image differs, the changed commit reaches it or the client sees no error.
set -eu
here=$PWD
cd "$(dirname "$0")/.."
program=${RECON:-$PWD/crates/recon/out/recon}
fail() { echo "live: FAILED: $1"; exit 1; }
leave() { echo "live: left out: $1"; exit 0; }

nbdkit python --dump-plugin > /dev/null 2>&1 || leave 'nbdkit with its Python plugin is not here'
for python in python3 /usr/bin/python3 none; do
    "$python" -c 'import nbd' 2> /dev/null && break
done
[ "$python" != none ] || leave "libnbd's Python module is not here"
[ -x "$program" ] || fail "$program is not built"

folder=$(mktemp -d)
trap 'rm -rf "$folder"' EXIT
cd "$folder"
if [ $# = 2 ]; then
    (cd "$here" && cp --sparse=always "$1" "$folder/start" && cp "$2" "$folder/trace")
else
    truncate -s 32M start
    "$program" make 7 20 start > trace || fail 'recon make 7 20 did not make an image and its trace'
fi

# Of the trace: `whole` ends with a settle, as a client that leaves does; `before` ends before the last commit; `hurt`
# is `before` and that commit, where a leaf of the extent tree says one use more of an extent; and two ways to go on.
"$python" - "$OLDPWD/examples" 2> errors <<'PYTHON' || fail "the trace is cut, or its last commit has no such leaf: $(tail -n 1 errors)"
import struct, sys
sys.path.insert(0, sys.argv[1])
from made_image import crc32c

trace = bytearray(open('trace', 'rb').read())
writes, commits, at = [], [], 16
while trace[at] != 255:
    length = struct.unpack_from('<I', trace, at + 11)[0] if trace[at] == 1 else 0
    if trace[at] == 1:
        offset = struct.unpack_from('<Q', trace, at + 3)[0]
        if offset < 69632 and 65536 < offset + length:
            commits.append(at)
        writes.append((at + 15, length))
    at += {1: 15 + length, 2: 1, 3: 13}[trace[at]]
first, last = ([0] + commits)[-2:]
end = last + 15 + 4096
superblock = trace[last + 15:end]
size = struct.unpack_from('<I', superblock, 0x94)[0]

def is_leaf(block):
    owner, level = struct.unpack_from('<Q', block, 0x58)[0], block[0x64]
    return block[0x20:0x30] == superblock[0x20:0x30] and owner == 2 and level == 0

leaves = [k for start, length in writes if first < start < last for k in range(start, start + length - size + 1, size)
          if is_leaf(trace[k:k + size])]
address = trace[leaves[-1] + 0x30:leaves[-1] + 0x38]
hurt = trace[:end] + b'\xff'
for k in leaves:
    block = hurt[k:k + size]
    if block[0x30:0x38] == address:
        count = struct.unpack_from('<I', block, 0x60)[0]
        items = [struct.unpack_from('<QBQII', block, 101 + 25 * n) for n in range(count)]
        data = next(101 + offset for _, kind, _, offset, _ in items if kind in (168, 169))
        block[data] += 1
        struct.pack_into('<I', block, 0, crc32c(block[32:]))
        hurt[k:k + size] = block
for name, data in {'whole': trace[:at] + b'\2\xff', 'before': trace[:last] + b'\xff', 'hurt': hurt,
                   'write': trace[:16] + trace[writes[0][0] - 15:sum(writes[0])] + b'\xff',
                   'flush': trace[:16] + b'\2\xff'}.items():
    open(name, 'wb').write(data)
PYTHON

play="$python $OLDPWD/examples/play_trace.py"
serve() { # IMAGE COMMAND: the bridge over an image, while a command runs. In it $uri names the server.
    nbdkit -U - python "$OLDPWD/examples/nbd_bridge.py" image="$1" recon="$program" --run "$2" 2> errors
}

# The driver's commits.
cp --sparse=always start live
cp --sparse=always start replayed
"$program" replay replayed < whole > lines ||
    fail "not all of the trace passes: $(grep -m 1 -E 'refused|rejected|fault|past end' lines)"
serve live "$play \"\$uri\" < trace > fetched" || fail "a commit of the driver is refused: $(cat errors)"
cmp -s live replayed || fail 'the image is not the one that recon replay makes'
grep '^fetch ' lines | cmp -s - fetched || fail 'the client reads other bytes than recon replay fetches'
passed=$(grep -c '^commit ' lines)

# The last one with a byte changed, then a write and a flush.
cp --sparse=always start live
cp --sparse=always start replayed
"$program" replay replayed < before > lines
"$program" replay start < hurt > lines && fail "recon replay passes the changed commit: $(tail -n 1 lines)"
finding=$(grep ' rejected ' lines | head -n 1)
serve live "for trace in hurt write flush; do $play \"\$uri\" < \$trace 2>> refused; echo \$? >> statuses; done"
[ "$(tr '\n' ' ' < statuses)" = '1 1 1 ' ] || fail "the client sees no error: $(tr '\n' ' ' < statuses)"
[ "$(grep -c 'Input/output error' refused)" = 3 ] || fail "the client sees another error: $(head -n 1 refused)"
grep -qF "pwrite: error: OSError: $finding" errors || fail "the finding is not on standard error: $finding"
cmp -s live replayed || fail 'the changed commit, or what came after it, reached the image'

echo "live: $passed commits of a driver passed, and the image is as replayed; then $finding"
echo "live: the client saw an I/O error there and afterwards, and the image is the one before"
