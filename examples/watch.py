#!/usr/bin/env python3
"""Shows what the bridge judged, from the file that its log=FILE names: a row for each minute, and each rejection.

Usage: watch.py FILE [--plot OUT.svg] [--once]

A row has the minute (UTC), the commits and settles, their blocks, the milliseconds of one in the mean and of the
slowest, and the rejections. It follows FILE until an interrupt; with --once it ends at the end of FILE. With --plot the
same is drawn to OUT.svg too, anew whenever FILE grew. Lines that are no event of the bridge are left out and counted,
and a last line is waited for until it is whole. Ends with 1 where FILE or OUT.svg is no good, with 2 at a wrong command
line, else with 0.
"""
import argparse
import json
import os
import signal
import sys
import threading
from datetime import datetime, timedelta
from html import escape

HEAD = f'{"minute (UTC)":16} {"commits":>8} {"settles":>8} {"blocks":>9} {"ms mean":>9} {"ms most":>9} {"rejected":>8}'
FINDING = '{rule} tree {tree} block {block} key {key[0]} {key[1]} {key[2]} detail {detail}'
WIDTH, HEIGHT, LEFT, TOP = 900, 120, 70, 30


class Minute:
    """The sums of the events of one minute, or of all."""

    def __init__(self):
        self.commits = self.settles = self.blocks = self.rejected = 0
        self.total = self.most = 0.0

    def add(self, event):
        self.commits += event['event'] == 'commit'
        self.settles += event['event'] == 'settle'
        self.blocks += event.get('blocks', 0)
        self.rejected += event['result'] == 'rejected'
        self.total += event['milliseconds']
        self.most = max(self.most, event['milliseconds'])

    def mean(self):
        return self.total / max(1, self.commits + self.settles)

    def row(self, name):
        return (f'{name:16} {self.commits:8} {self.settles:8} {self.blocks:9} {self.mean():9.1f} {self.most:9.1f}'
                f' {self.rejected:8}')


class Events:
    """The events of a file that grows. Where it became shorter, it is read from its start."""

    def __init__(self, name):
        self.file, self.rest, self.strange = open(name, 'rb'), b'', 0

    def more(self):
        """The events of the lines that came since the last call."""
        if self.file.seekable() and os.fstat(self.file.fileno()).st_size < self.file.tell():
            self.file.seek(0)
            self.rest = b''
        *lines, self.rest = (self.rest + self.file.read()).split(b'\n')
        for line in lines:
            if event := parsed(line):
                yield event
            elif line.strip():
                self.strange += 1


def parsed(line):
    """The event of a line, with the start of its minute; none where the line is no event."""
    try:
        event = json.loads(line)
        event['minute'] = datetime.fromisoformat(event['time']).replace(second=0, microsecond=0)
        if event['result'] == 'rejected':
            event['finding'] = FINDING.format(**event['finding'])
        Minute().add(event)
        event['event'] + f"{event['number']:d}{event['result']}"
    except (ValueError, TypeError, KeyError, AttributeError, IndexError):
        return None
    return event


class Watch:
    """What was seen so far, and how it is shown. The row of a minute is whole when a later one comes or at the end; on
    a terminal it is shown before, too, and written over."""

    def __init__(self):
        self.all, self.minutes, self.rejections, self.last = Minute(), {}, [], None
        self.live = sys.stdout.isatty()

    def add(self, event):
        minute = event['minute']
        if not self.last:
            print(HEAD)
        if self.last and minute != self.last:
            self.close_row()
        self.last = minute
        self.minutes.setdefault(minute, Minute()).add(event)
        self.all.add(event)
        if event['result'] == 'rejected':
            self.rejections.append((minute, event['finding']))
            clear = '\r\x1b[K' * self.live
            print(f'{clear}  {event["time"][11:19]} {event["event"]} {event["number"]} rejected {event["finding"]}')

    def row(self):
        return self.minutes[self.last].row(self.last.strftime('%Y-%m-%d %H:%M'))

    def close_row(self):
        print('\r' * self.live + self.row())

    def show_live(self):
        if self.last and self.live:
            print('\r' + self.row(), end='')
        sys.stdout.flush()

    def close(self, events, name):
        if not self.last:
            print(f'watch: {name} has no judged event yet')
        else:
            self.close_row()
            print(self.all.row('all'))
        if events.strange:
            print(f'watch: {events.strange} lines are no events of the bridge and are left out')
        if events.rest.strip():
            print('watch: the last line is not whole and is left out')


def panel(top, title, marks, minutes, first, scale):
    """A picture of one amount by minutes: bars of each of its marks (color, the amount of a minute)."""
    most = max([amount(minute) for minute in minutes.values() for _, amount in marks], default=0) or 1
    lines = [f'<text x="{LEFT}" y="{top - 6}">{title}</text>',
             f'<text x="{LEFT - 6}" y="{top + 10}" text-anchor="end">{most:.4g}</text>',
             f'<text x="{LEFT - 6}" y="{top + HEIGHT}" text-anchor="end">0</text>',
             f'<path d="M{LEFT} {top}V{top + HEIGHT}H{LEFT + WIDTH}" fill="none" stroke="black"/>']
    for start, minute in sorted(minutes.items()):
        x = LEFT + scale * ((start - first) / timedelta(minutes=1))
        for color, amount in marks:
            height = HEIGHT * amount(minute) / most
            lines.append(f'<rect x="{x:.2f}" y="{top + HEIGHT - height:.2f}" width="{max(scale * 0.9, 0.3):.2f}" '
                         f'height="{height:.2f}" fill="{color}"/>')
    return lines


def picture(minutes, rejections):
    """The text of an SVG picture: three panels over one axis of time, with a red line at each rejection."""
    first, last = (min(minutes), max(minutes)) if minutes else (None, None)
    scale = WIDTH / ((last - first) / timedelta(minutes=1) + 1) if minutes else 1
    panels = [('commits (dark) and settles a minute', [('#a8c4e0', lambda m: m.commits + m.settles),
                                                       ('#2b5c8a', lambda m: m.commits)]),
              ('blocks a minute', [('#5a8a4a', lambda m: m.blocks)]),
              ('milliseconds of the slowest, and in the mean (dark)', [('#e0c4a8', lambda m: m.most),
                                                                     ('#a0622d', lambda m: m.mean())])]
    bottom = TOP + len(panels) * (HEIGHT + TOP)
    lines = []
    for number, (title, marks) in enumerate(panels):
        lines += panel(TOP + number * (HEIGHT + TOP), title, marks, minutes, first, scale)
    for minute, finding in rejections:
        x = LEFT + scale * ((minute - first) / timedelta(minutes=1) + 0.45)
        lines.append(f'<path d="M{x:.2f} {TOP}V{bottom - TOP}" stroke="red"><title>{escape(finding)}</title></path>')
    if minutes:
        lines.append(f'<text x="{LEFT}" y="{bottom}">{first:%Y-%m-%d %H:%M}</text>')
        lines.append(f'<text x="{LEFT + WIDTH}" y="{bottom}" text-anchor="end">{last:%Y-%m-%d %H:%M} UTC, '
                     f'{len(rejections)} rejected (red)</text>')
    else:
        lines.append(f'<text x="{LEFT}" y="{bottom}">no judged event yet</text>')
    size = f'width="{LEFT + WIDTH + 20}" height="{bottom + 10}"'
    return '\n'.join([f'<svg xmlns="http://www.w3.org/2000/svg" {size} font-family="sans-serif" font-size="12">',
                      '<rect width="100%" height="100%" fill="white"/>', *lines, '</svg>', ''])


def draw(name, watch):
    with open(name, 'w', encoding='utf-8') as out:
        out.write(picture(watch.minutes, watch.rejections))


def interrupted():
    """What an interrupt sets. A row that is being printed is finished first; a second interrupt ends the program at once."""
    stop = threading.Event()

    def at_once(number, frame):
        signal.signal(signal.SIGINT, signal.SIG_DFL)
        stop.set()

    signal.signal(signal.SIGINT, at_once)
    return stop


def follow(events, watch, words, stop):
    """Shows and draws the events that are there, and until an interrupt those that come."""
    drawn = None
    while True:
        for event in events.more():
            watch.add(event)
        watch.show_live()
        now = watch.all.commits + watch.all.settles
        if words.plot and now != drawn:
            draw(words.plot, watch)
            drawn = now
        if words.once or stop.wait(1):
            return


def main():
    parser = argparse.ArgumentParser(description='Shows what the bridge judged, from the file of its log=FILE.')
    parser.add_argument('file', metavar='FILE')
    parser.add_argument('--plot', metavar='OUT.svg', help='draw the same as a picture')
    parser.add_argument('--once', action='store_true', help='end at the end of FILE')
    words = parser.parse_args()
    try:
        events, watch = Events(words.file), Watch()
        if words.plot and os.path.exists(words.plot) and os.path.samefile(words.file, words.plot):
            sys.exit(f'watch: {words.plot} is the file of the events itself')
        stop = interrupted()
        follow(events, watch, words, stop)
        if stop.is_set():
            print()
        watch.close(events, words.file)
        sys.stdout.flush()
    except OSError as why:
        # What is left in the buffer goes nowhere, also when Python ends.
        os.dup2(os.open(os.devnull, os.O_WRONLY), sys.stdout.fileno())
        if not isinstance(why, BrokenPipeError):
            sys.exit(f'watch: {why.filename or "standard output"}: {why.strerror}')


main()
