#!/usr/bin/env bash
# Makes a volume with much metadata for the other benches: of FOLDER, or of 200,000 small files in 500 folders, which
# give some 240 MB of it. Usage: bench/volume.sh VOLUME [FOLDER]. It wants btrfs-progs and python3.
set -eu
volume=$1
from=${2:-}
if [ -z "$from" ]; then
  from=$(mktemp -d)
  trap 'rm -rf "$from"' EXIT
  python3 "$(dirname "$0")/files.py" many "$from"
fi
truncate -s 16G "$volume"
mkfs.btrfs -q --rootdir "$from" "$volume"
