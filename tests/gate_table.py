#!/usr/bin/env python3
"""Prints the table of docs/gate.md: of each crate its lines, tests and edits, with the seconds of a run where they are
given. It is no part of the gate.

Usage: gate_table.py [SECONDS]. SECONDS is a file with a line for each crate that was timed: its name, and the seconds of
its proof, of its tests and of its edits, or - where there are none. Ends with 1 where a crate has more edits than it may."""
import glob
import os
import sys

# The crates that decide verdicts may have eight edits, each other four.
DECIDE = {'recon_core', 'plain_check', 'write_cache', 'account_tally', 'records', 'recon_cli', 'chunk_map', 'node_reader',
          'extent_rules', 'tree_change', 'commit_judge', 'change_records', 'ledger_index', 'span_index'}


def texts(pattern):
    for file in sorted(glob.glob(pattern, recursive=True)):
        with open(file) as source:
            yield source.read()


def counts(crate):
    """Lines of code (tests among them), of definitions, of proofs; tests; edits."""
    code, definitions, proofs = (list(texts(f'crates/{crate}/{part}'))
                                 for part in ('src/**/*.rt', 'specs/**/*.antt', 'proofs/**/*.antt'))
    lines = [sum(text.count('\n') for text in part) for part in (code, definitions, proofs)]
    return [*lines, sum(text.count('#[test]') for text in code), len(glob.glob(f'crates/{crate}/must-fail/*.edit'))]


def row(name, cells):
    return f'| {name} | ' + ' | '.join(f'{cell:,}' if isinstance(cell, int) else cell for cell in cells) + ' |'


def main(words):
    if len(words) > 1:
        sys.exit(__doc__)
    seconds = {}
    for file in words:
        with open(file) as source:
            seconds = {line.split()[0]: line.split()[1:] for line in source if line.strip()}
    os.chdir(os.path.dirname(os.path.abspath(__file__)) + '/..')
    with open('crates.txt') as source:
        crates = [line.split(':')[0] for line in source if line.strip() and not line.startswith('#')]
    print('| Crate | Code | Definitions | Proofs | Tests | Edits | Proof, s | Tests, s | Edits, s |')
    print('|---|---|---|---|---|---|---|---|---|')
    table = {crate: counts(crate) for crate in crates}
    for crate, cells in table.items():
        print(row(f'`{crate}`', cells + seconds.get(crate, ['-', '-', '-'])))
    sums = [sum(cells[column] for cells in table.values()) for column in range(5)]
    timed = [sum(float(times[column]) for times in seconds.values() if times[column] != '-') for column in range(3)]
    print(row('together', sums + [f'{total:,.0f}' if seconds else '-' for total in timed]))
    over = [f'{crate} has {cells[4]}' for crate, cells in table.items() if cells[4] > (8 if crate in DECIDE else 4)]
    if over:
        sys.exit(f'gate_table.py: more edits than the rule allows: {", ".join(over)}')


main(sys.argv[1:])
