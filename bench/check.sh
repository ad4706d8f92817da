#!/usr/bin/env bash
# Times the check of volumes beside `btrfs check --readonly`: user time, the least of five runs of each in turns, and peak memory.
# - Three usual ones: 200,000 small files in 500 folders, 100,000 in one folder, 50,000 files of 8 KiB.
# - Three that somebody may make to be slow: the first one with its inodes renumbered, in no order (shuffled) or all with the same
#   low bits (sparse), and 200,000 small files whose names all have one hash.
# - One file of 1 GiB.
# Usage: bench/check.sh [FOLDER]    FOLDER has, or gets and keeps, the volumes many.img, one.img, eight.img, shuffled.img, sparse.img,
# collide.img and giga.img; PROGRAM names a built program that is timed in place of that of this repository. It wants btrfs-progs,
# python3, gcc and GNU time (in /usr/bin/time), and 5 GB of room.
set -eu
cd "$(dirname "$0")/.."
scratch=$(mktemp -d)
trap 'rm -rf "$scratch"' EXIT
folder=${1:-$scratch}
program=${PROGRAM:-}
if [ -z "$program" ]; then
  echo "check.sh: builds the program, which takes up to an hour where none of its crates is built" >&2
  (cd crates/recon && rt run -- check data/short.img < /dev/null > /dev/null 2>&1) || true
  program=$PWD/crates/recon/out/recon
fi

for kind in many one eight shuffled sparse collide giga; do
  volume=$folder/$kind.img
  if [ ! -e "$volume" ]; then
    case $kind in
      shuffled | sparse)
        cp --sparse=always "$folder/many.img" "$volume"
        python3 bench/renumber.py "$volume" "$kind" ;;
      *)
        mkdir "$scratch/files"
        python3 bench/files.py "$kind" "$scratch/files"
        bench/volume.sh "$volume" "$scratch/files" > /dev/null 2>&1
        rm -r "$scratch/files" ;;
    esac
  fi
  python3 - "$program" "$volume" <<'PYTHON'
import os, subprocess, sys
program, volume = sys.argv[1:]
commands = [program, 'check', volume], ['btrfs', 'check', '--readonly', volume]
times, peaks = [[], []], [0, 0]
for _ in range(5):
    for i, command in enumerate(commands):
        done = subprocess.run(['/usr/bin/time', '-f', '%U %M', *command], stdout=subprocess.DEVNULL, stderr=subprocess.PIPE, text=True)
        if done.returncode:
            sys.exit(f'{command} ended with {done.returncode}')
        seconds, kilobytes = done.stderr.split()[-2:]
        times[i].append(float(seconds))
        peaks[i] = max(peaks[i], int(kilobytes) / 1024)
ours, theirs = map(min, times)
print(f'{os.path.basename(volume):13} recon check {ours:.2f} s, {peaks[0]:.1f} MiB; btrfs check {theirs:.2f} s, {peaks[1]:.1f} MiB; '
      f'ratios {ours / max(theirs, 0.01):.2f} and {peaks[0] / peaks[1]:.2f}')
PYTHON
done
