#!/usr/bin/env bash
# Tries examples/log_to_trace.py on a log that is made here entry by entry, and on one that qemu-io makes: the trace is the
# wanted one, and logs that are cut or are none end with one line and status 1. Where qemu-io is not there it ends with 1,
# unless RECON_WITHOUT_PACKAGES is set.
set -eu
cd "$(dirname "$0")/.."
folder=$(mktemp -d)
trap 'rm -rf "$folder"' EXIT
fail() { echo "tests/log_to_trace.sh: $1" >&2; exit 1; }

python3 - "$folder" <<'PYTHON'
import struct, sys
folder = sys.argv[1]
def sector(*numbers): return struct.pack('<%dQ' % len(numbers), *numbers).ljust(512, b'\0')
def entry(at, data, flags): return sector(at // 512, len(data) // 512, flags, 0) + data
def record(at, data): return struct.pack('<BHQI', 1, 0, at, len(data)) + data
long, place = bytes(range(256)) * 6144, b'p' * 4096
log = sector(0x6a736677736872, 1, 2, 512)          # the header counts two entries, and there are more
log += entry(8192, b'a' * 512, 0) + entry(0, b'', 1)
log += sector(9, 8, 4, 0)                           # a discard, which has no data
log += sector(0, 0, 8, 4)                           # a mark
log += entry(1 << 20, long, 16) + entry(65536, place, 2) + entry(0, b'', 1)
log += entry(4 << 20, b'b' * 512, 0)                # and no flush behind it
head, first = struct.pack('<8sII', b'RECONTRC', 1, 0), record(8192, b'a' * 512)
rest = record(1 << 20, long[:1 << 20]) + record(2 << 20, long[1 << 20:]) + record(65536, place)
rest += record(4 << 20, b'b' * 512)
for name, data in {'log': log + bytes(4096), 'cut': log[:1300], 'none': b'no log' * 200,
                   'plain': head + first + rest + b'\xff', 'settled': head + first + b'\2' + rest + b'\2\xff'}.items():
    open(f'{folder}/{name}', 'wb').write(data)
PYTHON
examples/log_to_trace.py "$folder/log" | cmp - "$folder/plain" || fail 'another trace'
examples/log_to_trace.py --settle "$folder/log" | cmp - "$folder/settled" || fail 'another trace with settles'
for log in cut none missing; do
  status=0
  examples/log_to_trace.py "$folder/$log" > "$folder/out" 2> "$folder/why" || status=$?
  [ "$status" = 1 ] && [ "$(wc -l < "$folder/why")" = 1 ] || fail "$log: status $status"
done

if ! command -v qemu-io > "$folder/out"; then
  [ -n "${RECON_WITHOUT_PACKAGES:-}" ] || fail 'qemu-io is not there (tests/packages.sh)'
  echo 'log to trace: the traces are as wanted; left out: a log of qemu, since qemu-io is not there'
  exit 0
fi
python3 examples/base_image.py "$folder/image" "$folder/trace"
cp "$folder/image" "$folder/start"
dd if="$folder/image" of="$folder/place" bs=4096 skip=16 count=1 2> "$folder/out"
truncate -s 1M "$folder/qemu"
drive="driver=blklogwrites,file.driver=raw,file.file.driver=file,file.file.filename=$folder/image"
drive="$drive,log.driver=raw,log.file.driver=file,log.file.filename=$folder/qemu"
qemu-io --image-opts "$drive" -c 'write -P 7 8192 4096' -c flush -c 'write -P 9 20480 512' \
  -c "write -s $folder/place 65536 4096" -c flush > "$folder/out"
examples/log_to_trace.py --settle "$folder/qemu" > "$folder/trace"
"${RECON:-crates/recon/out/recon}" replay "$folder/start" < "$folder/trace" > "$folder/lines" || fail 'the log of qemu is rejected'
cmp "$folder/start" "$folder/image" || fail 'the image after the replay is not the one that qemu wrote'
echo "log to trace: the traces are as wanted; of qemu's log $(tail -n 1 "$folder/lines")"
