#!/usr/bin/env bash
# Tries that `recon replay` answers each record before the next one is written, by a pipe. Then examples/live.sh, and
# where nbdkit is there what a client reads at random (tests/bridge_reads.py), what the log of judged events has, and what
# the bridge does where something goes wrong: an image, a program, a log or a parameter that is no good, a program that is
# killed or whose lines end early or are others, a client that is cut off, SIGTERM. Prints one line at the end, and ends
# with 1 at the first that differs, and where the bridge cannot be tried unless RECON_WITHOUT_PACKAGES is set.
#
# Usage: tests/live.sh [PROGRAM]. By default the program is the one that `rt ci` or `rt run` left.
set -eu
cd "$(dirname "$0")/.."
export RECON=$(realpath "${1:-crates/recon/out/recon}")
folder=$(mktemp -d)
trap 'rm -rf "$folder"' EXIT
fail() { echo "live: FAILED: $1"; exit 1; }
[ -x "$RECON" ] || fail "$RECON is not built"

python3 examples/base_image.py "$folder/start" "$folder/trace"
cp "$folder/start" "$folder/image"
python3 - "$folder" <<'PYTHON' || fail 'recon replay does not answer a record before it wants the next'
import os, select, struct, subprocess, sys
folder = sys.argv[1]
trace = open(f'{folder}/trace', 'rb').read()
fetch, settle, records, at = struct.pack('<BQI', 3, 65536, 16), b'\2', [], 16
while trace[at] == 1:
    offset, length = struct.unpack_from('<QI', trace, at + 3)
    records.append((offset, trace[at:at + 15 + length]))
    at += 15 + length
child = subprocess.Popen([os.environ['RECON'], 'replay', f'{folder}/image'], bufsize=0,
                         stdin=subprocess.PIPE, stdout=subprocess.PIPE)

def answers(data, wanted):
    """Writes some bytes, and takes the line that has to come before anything else is written."""
    child.stdin.write(data)
    if not select.select([child.stdout], [], [], 60)[0]:
        sys.exit(f'no line after {len(data)} bytes')
    line = child.stdout.readline().decode()
    if not line.startswith(wanted):
        sys.exit(f'{line} is not {wanted}')

answers(b'', 'image accepted ')
child.stdin.write(trace[:16])
judged = 0
for offset, record in records[:-1]:
    if offset == 65536:
        answers(record, 'commit 3 passed ')
    elif judged < 2:
        judged += 1
        child.stdin.write(record)
        answers(settle, f'settle {judged} passed ')
    else:
        child.stdin.write(record)
    answers(fetch, 'fetch 65536 16 ')
answers(records[-1][1], 'commit 4 rejected ')
answers(b'\xff', 'end passed 3 rejected 1')
PYTHON

examples/live.sh > "$folder/lines" || { tail -n 1 "$folder/lines"; exit 1; }
if grep -q 'live: left out' "$folder/lines"; then
    cat "$folder/lines"
    [ -n "${RECON_WITHOUT_PACKAGES:-}" ] || fail 'the bridge was not tried (tests/packages.sh)'
    exit 0
fi

for python in python3 /usr/bin/python3; do
    "$python" -c 'import nbd' 2> "$folder/why" && break
done
runs=0
bridge="nbdkit -U - python examples/nbd_bridge.py"
play="'$python' examples/play_trace.py \"\$uri\" < '$folder/trace'"
serve() { # STATUS MESSAGE COMMAND PARAMETER..: a command while the bridge serves, its status, a part of what is said
    local status=0 wanted=$1 message=$2 command=$3
    shift 3
    cp "$folder/start" "$folder/image"
    timeout 120 $bridge "$@" --run "$command" > "$folder/out" 2> "$folder/errors" || status=$?
    [ "$status" = "$wanted" ] || fail "status $status, not $wanted, with $*: $(head -n 1 "$folder/errors")"
    grep -qF "$message" "$folder/errors" || fail "no '$message' with $*, but $(head -n 1 "$folder/errors")"
    runs=$((runs + 1))
}
client() { # SCRIPT: the command of a client that runs a little Python, without single quotes; h is the server
    printf "'%s' -m nbd -u \"\$uri\" -c '%s'" "$python" "$1"
}
stand_in() { # LINE..: a program in recon's place that writes these lines and no more, and takes what it is given
    { echo '#!/bin/sh'; printf "echo '%s'\n" "$@"; echo 'exec cat > /dev/null'; } > "$folder/stand-in"
    chmod +x "$folder/stand-in"
}
image="image=$folder/image" ours="recon=$RECON" stand_in="recon=$folder/stand-in"

# A commit that passes and one that does not; what is pending is passed in between where little may be.
serve 1 'commit 2 rejected S2 ' "$play" "$image" "$ours"
grep -qxF 'nbd_bridge: end passed 1 rejected 1' "$folder/errors" || fail 'other commits or settles than the two commits'
cp "$folder/image" "$folder/after"
cmp -s "$folder/after" "$folder/start" && fail 'the commit that passed did not reach the image'
serve 1 'nbd_bridge: end passed 7 rejected 1' "$play" "$image" "$ours" waiting=1
# A commit in one request, the superblock in its first MiB: it is judged with all of it.
serve 0 'nbd_bridge: end passed 1 rejected 0' \
    "$(client "h.pwrite(open(\"$folder/after\", \"rb\").read(16 << 20), 0)")" "$image" "$ours"
cmp -s "$folder/image" "$folder/after" || fail 'a commit in one request left another image'
# With FUA a write is judged at once, and a client that leaves settles.
serve 0 'nbd_bridge: end passed 2 rejected 0' \
    "$(client 'h.pwrite(b"a" * 512, 31 << 20, nbd.CMD_FLAG_FUA); h.pwrite(b"a" * 512, 30 << 20)')" "$image" "$ours"
# Reads, of all the disk and of the pending writes.
read="open(\"$folder/read\", \"wb\").write(h.pread(32 << 20, 0))"
serve 0 'nbd_bridge: end passed 1 rejected 0' "$(client "h.pwrite(b\"a\" * 512, 31 << 20); $read")" "$image" "$ours"
cmp -s "$folder/image" "$folder/start" && fail 'what was pending did not reach the image'
cmp -s "$folder/image" "$folder/read" || fail 'a client reads other bytes than it leaves on the image'
reads="'$python' tests/bridge_reads.py \"\$uri\" '$folder/start'"
serve 0 ' rejected 0' "$reads 1000" "$image" "$ours" waiting=8M
serve 0 ' rejected 1' "$reads 100 reject" "$image" "$ours"
# A live block that is written over in place.
serve 1 'settle 1 rejected N' "$(client 'h.pwrite(b"a" * 512, 5 << 20); h.flush()')" "$image" "$ours"
cmp -s "$folder/image" "$folder/start" || fail 'a live block that was written over reached the image'

# The log has the members of `recon replay --json` with a time and milliseconds; what a finding means is said.
serve 1 'commit 2 rejected S2 ' "$play" "$image" "$ours" log="$folder/log"
grep -qF '(S2, S3, S4: the superblock has no magic' "$folder/errors" || fail 'what the finding means is not said'
grep -qF 'IMAGE is as before this commit' "$folder/errors" || fail 'that the image is as before is not said'
cp "$folder/start" "$folder/image"
"$RECON" replay --json "$folder/image" < "$folder/trace" | grep '"event":"commit"' > "$folder/json" || true
sed -E 's/"milliseconds":[0-9.]+,//; s/,"time":"[-0-9T:.]+\+00:00"//' "$folder/log" | cmp -s - "$folder/json" ||
    fail "the log has other lines: $(head -n 1 "$folder/log")"
serve 1 '/dev/full cannot be appended to: No space left on device' "$play" "$image" "$ours" log=/dev/full
grep -qxF 'nbd_bridge: end passed 1 rejected 1' "$folder/errors" || fail 'a full disk under the log changed a verdict'
cmp -s "$folder/image" "$folder/after" || fail 'a full disk under the log changed what reached the image'
serve 1 "No such file or directory: '$folder/none/log'" true "$image" "$ours" log="$folder/none/log"
serve 1 'is IMAGE or another disk' true "$image" "$ours" log="$folder/image"
cmp -s "$folder/image" "$folder/start" || fail 'a log that is the image changed it'

# What ends the bridge before it serves.
serve 1 'image=IMAGE is missing' true "$ours"
serve 1 "No such file or directory: '$folder/none'" true image="$folder/none" "$ours"
serve 1 "No such file or directory: '$folder/none'" true "$image" recon="$folder/none"
serve 1 'size= is no parameter' true "$image" "$ours" size=1
serve 1 'could not parse size string (much)' true "$image" "$ours" waiting=much
serve 1 'image refused S2 ' true image="$folder/trace" "$ours"
serve 1 'recon ended without a line' true "$image" recon=true
serve 1 'is in use by another program' "$bridge $image $ours --run true" "$image" "$ours"

# A program whose lines end early, or are others.
stand_in 'image accepted generation 1'
serve 1 'pwrite: error: OSError: recon ended without a line' "$play" "$image" "$stand_in"
stand_in 'image accepted generation 1' 'commit 2 passed generation 2 blocks 0 hot 0'
serve 1 'pwrite: error: OSError: commit 2 passed ' "$play" "$image" "$stand_in"
stand_in 'image accepted generation 1' "fetch 1 512 $(printf '%01024d' 0)"
serve 1 'pread: error: ' "$(client 'h.pwrite(b"a" * 512, 0); h.pread(512, 0)')" "$image" "$stand_in"
serve 1 'flush: error: OSError: fetch 1 512 00' "$(client 'h.pwrite(b"a" * 512, 0); h.flush()')" "$image" "$stand_in"

# A program that is killed: no read is answered afterwards, neither of what is pending nor of the rest.
printf '#!/bin/sh\necho $$ > "%s"\nexec "%s" "$@"\n' "$folder/pid" "$RECON" > "$folder/stand-in"
killed='import os
h.pwrite(b"a" * 512, 31 << 20)
os.kill(int(open("'"$folder/pid"'").read()), 9)
failed = 0
for request in (lambda: h.pread(512, 31 << 20), lambda: h.pread(512, 0), lambda: h.pwrite(b"a", 0), h.flush):
    try:
        request()
    except nbd.Error:
        failed += 1
print(failed)'
serve 0 'pread: error: OSError: recon ended without a line' "$(client "$killed")" "$image" "$stand_in"
[ "$(cat "$folder/out")" = 4 ] || fail "of 4 requests after recon was killed $(cat "$folder/out") failed"
cmp -s "$folder/image" "$folder/start" || fail 'a write without a verdict reached the image'

# A client that is cut off in a write: none of it arrives, what it wrote before is judged.
cut='import os
h.pwrite(b"a" * 512, 31 << 20)
h.aio_pwrite(nbd.Buffer.from_bytearray(bytearray(8 << 20)), 22 << 20)
os._exit(0)'
serve 0 'nbd_bridge: end passed 1 rejected 0' "$(client "$cut")" "$image" "$ours"
cmp -s "$folder/image" "$folder/read" || fail 'a client that was cut off left another image'

# SIGTERM while a client is there: what is pending is judged before the bridge ends.
cp "$folder/start" "$folder/image"
nbdkit -f -P "$folder/pid" -U "$folder/socket" python examples/nbd_bridge.py "$image" "$ours" 2> "$folder/errors" &
serving=$!
for _ in $(seq 600); do [ -S "$folder/socket" ] && break; sleep 0.1; done
uri="nbd+unix:///?socket=$folder/socket"
"$python" -m nbd -u "$uri" -c 'import os
h.pwrite(b"a" * 512, 31 << 20)
os.kill(int(open("'"$folder/pid"'").read()), 15)
h.poll(300)'
wait $serving || fail "after SIGTERM status $?: $(head -n 1 "$folder/errors")"
grep -qxF 'nbd_bridge: end passed 1 rejected 0' "$folder/errors" || fail "after SIGTERM: $(cat "$folder/errors")"
cmp -s "$folder/image" "$folder/read" || fail 'what was pending at SIGTERM did not reach the image'
runs=$((runs + 1))

shown=$(head -n 1 "$folder/lines")
echo "live: as wanted: ${shown#live: }; and so are $runs further runs of the bridge"
