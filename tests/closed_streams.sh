#!/usr/bin/env bash
# Runs the built program with closed standard streams, a full disk, a pipe that has ended and an IMAGE that cannot be
# opened. The image must then hold the bytes that it holds after the same run with open streams or, where the run
# ends with 5 or 6, those that it held before; and the status and the lines must be those that are wanted. Prints
# one line and ends with 1 at the first that differs.
#
# Usage: tests/closed_streams.sh [PROGRAM]. By default the program is the one that `rt ci` or `rt run` left; where
# there is none, it is built first.
set -u
cd "$(dirname "$0")/.."
program=${1:-crates/recon/out/recon}
if [ ! -x "$program" ]; then
    echo "closed streams: $program is built first" >&2
    (cd crates/recon && rt run -- --help < /dev/null > /dev/null 2>&1)
    if [ ! -x "$program" ]; then
        echo "closed streams: FAILED: $program is not there and cannot be built"
        exit 1
    fi
fi
folder=$(mktemp -d)
trap 'rm -rf "$folder"' EXIT
first=$folder/first.img image=$folder/image trace=$folder/trace out=$folder/out errors=$folder/errors
runs=0

fail() {
    echo "closed streams: FAILED: $1"
    exit 1
}

sum_of() { sha256sum < "$1" | cut -c 1-64; }

# Runs a form over a fresh image: run FORM REDIRECTIONS. The redirections are given as text, to be read by the shell.
run() {
    cp --sparse=always "$first" "$image"
    : > "$out"
    status=0
    eval "\"\$program\" $1 \"\$image\" < \"\$trace\" > \"\$out\" 2> \"\$errors\" $2" || status=$?
    runs=$((runs + 1))
}

# What the last run left is to be: wants WHAT STATUS SUM LINES, the sum of the image, and the lines as a file.
wants() {
    [ "$status" = "$2" ] || fail "$1: status $status, not $2"
    [ "$(sum_of "$image")" = "$3" ] || fail "$1: the image holds other bytes"
    cmp -s "$out" "$4" || fail "$1: other lines on standard output"
}

# The line on standard error: none at 0, 1 and 3, else one that begins with `recon: `.
says_why() {
    case $status in
        0 | 1 | 3) [ ! -s "$errors" ] || fail "$1: a line on standard error at status $status" ;;
        *) [ "$(wc -l < "$errors")" = 1 ] && grep -q '^recon: ' "$errors" || fail "$1: no one line 'recon: ..' on standard error" ;;
    esac
}

python3 examples/base_image.py "$first" "$trace" || fail "the image could not be made"
before=$(sum_of "$first")
: > "$folder/none"

# With open streams: the image that each form leaves, its lines and its status.
run check ''
[ "$status" = 0 ] || fail "check of a good image: status $status"
cp "$out" "$folder/check.lines"
wants 'check with open streams' 0 "$before" "$folder/check.lines"
says_why 'check with open streams'
run replay ''
open_status=$status
[ "$open_status" = 0 ] || [ "$open_status" = 1 ] || fail "replay of a good trace: status $open_status"
cp "$out" "$folder/replay.lines"
replayed=$(sum_of "$image")
[ "$replayed" != "$before" ] || fail 'the replay writes nothing, so it shows nothing'
says_why 'replay with open streams'

# Each combination of closed streams: a bit each for 0, 1 and 2.
for closed in 1 2 3 4 5 6 7; do
    streams=''
    [ $((closed & 1)) = 0 ] || streams+=' <&-'
    [ $((closed & 2)) = 0 ] || streams+=' >&-'
    [ $((closed & 4)) = 0 ] || streams+=' 2>&-'
    for form in check replay; do
        run $form "$streams"
        what="$form with $streams"
        if [ $((closed & 2)) != 0 ]; then
            wants "$what" 6 "$before" "$folder/none"
        elif [ $form = check ]; then
            wants "$what" 0 "$before" "$folder/check.lines"
        elif [ $((closed & 1)) != 0 ]; then
            head -n 1 "$folder/replay.lines" > "$folder/one.line"
            wants "$what" 5 "$before" "$folder/one.line"
        else
            wants "$what" "$open_status" "$replayed" "$folder/replay.lines"
        fi
        [ $((closed & 4)) != 0 ] || says_why "$what"
    done
done

# Lines that cannot be written: on a full disk, into a pipe that nobody reads, to a stream open for reading alone.
mkfifo "$folder/pipe"
for form in check replay; do
    run $form '> /dev/full'
    wants "$form on a full disk" 6 "$before" "$folder/none"
    says_why "$form on a full disk"
    cat "$folder/pipe" > /dev/null &
    reader=$!
    exec 3> "$folder/pipe"
    kill "$reader"
    wait "$reader" 2> /dev/null
    run $form '>&3 3>&-'
    exec 3>&-
    wants "$form into a pipe that has ended" 6 "$before" "$folder/none"
    says_why "$form into a pipe that has ended"
    run $form '1< /dev/null'
    wants "$form with standard output open for reading" 6 "$before" "$folder/none"
    says_why "$form with standard output open for reading"
    run $form '2> /dev/full'
    [ $form = check ] && wants "$form with errors on a full disk" 0 "$before" "$folder/check.lines"
    [ $form = replay ] && wants "$form with errors on a full disk" "$open_status" "$replayed" "$folder/replay.lines"
done

# A trace that cannot be read: a folder.
run replay "< \"\$folder\""
head -n 1 "$folder/replay.lines" > "$folder/one.line"
wants 'replay of a folder as the trace' 5 "$before" "$folder/one.line"
says_why 'replay of a folder as the trace'

# An IMAGE that cannot be opened: a folder, one that is missing, one that must not be written.
mkdir "$folder/folder"
for wrong in "$folder/folder" "$folder/missing"; do
    for form in check replay; do
        status=0
        "$program" $form "$wrong" < "$trace" > "$out" 2> "$errors" || status=$?
        runs=$((runs + 1))
        [ "$status" = 4 ] && [ ! -s "$out" ] || fail "$form of $wrong: status $status, not 4, or a line"
        grep -qF "$wrong" "$errors" || fail "$form of $wrong: standard error does not name it"
        says_why "$form of $wrong"
    done
done
[ ! -e "$folder/missing" ] || fail 'a missing IMAGE was made'
chmod a-w "$first"
# Root may write what nobody may, until that right is taken from it.
lesser=
if [ -w "$first" ]; then
    lesser='setpriv --bounding-set=-dac_override,-dac_read_search'
    $lesser test ! -w "$first" || fail 'the user may write everything, and this right could not be taken away'
fi
for form in check replay; do
    status=0
    $lesser "$program" $form "$first" < "$trace" > "$out" 2> "$errors" || status=$?
    runs=$((runs + 1))
    [ "$status" = 4 ] && [ ! -s "$out" ] || fail "$form of an image that must not be written: status $status, not 4, or a line"
    says_why "$form of an image that must not be written"
    [ "$(sum_of "$first")" = "$before" ] || fail "$form of an image that must not be written wrote to it"
done

# The words: none of the forms, and a call for help.
for words in 'check' 'make it' 'check a b'; do
    status=0
    "$program" $words < "$trace" > "$out" 2> "$errors" || status=$?
    [ "$status" = 2 ] && [ ! -s "$out" ] || fail "recon $words: status $status, not 2, or a line"
    says_why "recon $words"
done
for words in '' '--help'; do
    status=0
    "$program" $words < "$trace" > "$out" 2> "$errors" || status=$?
    [ "$status" = 2 ] && [ ! -s "$out" ] || fail "recon $words: status $status, not 2, or a line"
    head -n 1 "$errors" | grep -q '^recon: ' || fail "recon $words: standard error does not begin with 'recon: '"
    [ "$(grep -c '^  recon ' "$errors")" -ge 2 ] || fail "recon $words: the forms are not shown"
done
echo "closed streams: $runs runs are as they are with open streams"
