#!/usr/bin/env python3
"""Tries examples/watch.py on files of judged events: whole, empty, missing, cut, with other lines in it, growing; on an
interrupt, a closed pipe and a full disk. Prints one line, and ends with 1 at the first that differs."""
import os
import re
import signal
import subprocess
import sys
import tempfile
import xml.etree.ElementTree as tree

# A shell that starts this in the background lets it ignore interrupts, and its children too.
signal.signal(signal.SIGINT, signal.default_int_handler)
WATCH = os.path.join(os.path.dirname(os.path.abspath(__file__)), '..', 'examples', 'watch.py')
runs = 0


def passed(number, minute, event='commit', blocks=3, milliseconds=2):
    return (f'{{"blocks":{blocks},"event":"{event}","generation":{number},"hot":0,"milliseconds":{milliseconds},'
            f'"number":{number},"result":"passed","time":"2026-03-01T10:{minute:02}:30.250+00:00"}}\n')


def rejected(number, minute):
    return (f'{{"event":"settle","finding":{{"block":5324800,"detail":0,"key":[257,1,0],"rule":"A9","tree":5}},'
            f'"milliseconds":8,"number":{number},"result":"rejected","time":"2026-03-01T10:{minute:02}:31.000+00:00"}}\n')


def fail(why):
    sys.exit(f'watch: FAILED: {why}')


def watch(status, wanted, *words, say=''):
    """Runs it to its end; what it prints has these rows, runs of spaces taken as one, and on standard error a word."""
    global runs
    done = subprocess.run([sys.executable, WATCH, *words], capture_output=True, text=True, timeout=60)
    rows = [re.sub(' +', ' ', line).strip() for line in done.stdout.splitlines() if not line.startswith('minute (UTC)')]
    if done.returncode != status or rows != wanted or say not in done.stderr or bool(say) != bool(done.stderr):
        fail(f'{words}: status {done.returncode}, {rows}, {done.stderr.strip()}')
    runs += 1


def started(name, **streams):
    return subprocess.Popen([sys.executable, WATCH, name], text=True, stderr=subprocess.PIPE, **streams)


def whole(folder):
    name, picture = f'{folder}/events', f'{folder}/picture.svg'
    with open(name, 'w') as file:
        file.write(passed(1, 5) + passed(2, 5, 'settle', 5, 4.5) + 'no event\n{"event":"commit"}\n\n[]\n7\n')
        file.write(passed(3, 7) + rejected(4, 7) + passed(5, 7)[:50])
    rows = ['2026-03-01 10:05 1 1 8 3.2 4.5 0',
            '10:07:31 settle 4 rejected A9 tree 5 block 5324800 key 257 1 0 detail 0',
            '2026-03-01 10:07 1 1 3 5.0 8.0 1', 'all 2 2 11 4.1 8.0 1',
            'watch: 4 lines are no events of the bridge and are left out',
            'watch: the last line is not whole and is left out']
    watch(0, rows, name, '--once')
    watch(0, rows, name, '--once', '--plot', picture)
    drawn = tree.parse(picture).getroot()
    titles = [title.text for title in drawn.iter('{http://www.w3.org/2000/svg}title')]
    bars = [bar for bar in drawn.iter('{http://www.w3.org/2000/svg}rect') if float(bar.get('height').rstrip('%')) > 0]
    if titles != ['A9 tree 5 block 5324800 key 257 1 0 detail 0'] or len(bars) != 1 + 4 + 2 + 4:
        fail(f'the picture has {len(bars)} bars and the rejections {titles}')
    watch(1, [], name, '--once', '--plot', name, say=f'{name} is the file of the events itself')
    watch(1, rows[:2], name, '--once', '--plot', f'{folder}/none/picture.svg', say='No such file or directory')


def little(folder):
    name = f'{folder}/little'
    watch(1, [], f'{folder}/none', '--once', say=f'watch: {folder}/none: No such file or directory')
    watch(1, [], folder, '--once', say=f'watch: {folder}: Is a directory')
    watch(2, [], say='the following arguments are required: FILE')
    for text, rows in (('', []), (passed(1, 5)[:-1], ['watch: the last line is not whole and is left out'])):
        with open(name, 'w') as file:
            file.write(text)
        watch(0, [f'watch: {name} has no judged event yet', *rows], name, '--once', '--plot', f'{folder}/empty.svg')
        tree.parse(f'{folder}/empty.svg')


def growing(folder):
    """A minute is shown when the next one comes, a file that was emptied is read anew; then an interrupt."""
    global runs
    name = f'{folder}/growing'
    with open(name, 'w') as file:
        file.write(passed(1, 5) + passed(2, 6)[:40])
    watching = started(name, stdout=subprocess.PIPE)
    lines = [watching.stdout.readline()]
    with open(name, 'a') as file:
        file.write(passed(2, 6)[40:])
    lines.append(watching.stdout.readline())
    with open(name, 'w') as file:
        file.write(passed(3, 7))
    lines.append(watching.stdout.readline())
    watching.send_signal(signal.SIGINT)
    rest, errors = watching.communicate(timeout=60)
    minutes = [line[:16] for line in lines[1:] + rest.splitlines() if line.strip()]
    if watching.returncode or errors or minutes != [f'2026-03-01 10:0{k}' for k in (5, 6, 7)] + ['all'.ljust(16)]:
        fail(f'of a file that grows: status {watching.returncode}, {minutes}, {errors}')
    runs += 1


def nobody_reads(folder):
    global runs
    name = f'{folder}/events'
    read, write = os.pipe()
    os.close(read)
    with open('/dev/full', 'wb') as full:
        for out, status, say in ((write, 0, ''), (full, 1, 'watch: standard output: No space left on device\n')):
            watching = started(name, stdout=out)
            errors = watching.communicate(timeout=60)[1]
            if (watching.returncode, errors) != (status, say):
                fail(f'with an output that takes nothing: status {watching.returncode}, {errors}')
            runs += 1


with tempfile.TemporaryDirectory() as folder:
    whole(folder)
    little(folder)
    growing(folder)
    nobody_reads(folder)
print(f'watch: as wanted in {runs} runs')
