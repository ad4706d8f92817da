#!/usr/bin/env python3
"""Lists the definitions that the headline rests on, as docs/proof.md gives them, from the imports.

Usage: definitions.py            prints the list
       definitions.py --check    ends with status 1 where the list in docs/proof.md is another
       definitions.py --write    puts the list into docs/proof.md

It begins at the imports of crates/recon_cli/src/run.rt, where `recon_run` and its contract stand, and follows each
`use Rattle.CRATE.specs.FILE` into crates/CRATE/specs/FILE.antt, whose imports it follows too. A type of the code, which
is imported as `specs.declared.FILE.TYPE`, is listed by its name. What no crate of the repository has, as `std`, comes
with the toolchain. What only `make` needs is listed apart, and so is what only the clauses `looks` and `stops` of a
replay need."""
import collections
import os
import re
import sys
import textwrap

DOCUMENT, ROOT_FILE = 'docs/proof.md', 'crates/recon_cli/src/run.rt'
APART = [('For `make` besides', ('recon_cli', ('Making',))), ('For the clause `looks` of a replay besides', ('recon_cli', ('Looks',))),
         ('For the clause `stops` of a replay besides', ('recon_cli', ('Moments',)))]
BEGIN, END = '<!-- made by tests/definitions.py --write -->', '<!-- end of what is made -->'
IMPORT = re.compile(r'use Rattle\.(\w+)\.specs\.(\w+(?:\.\w+)*)')


def imports(text):
    """What a text imports: crate, the parts of the path behind `specs`."""
    return [(crate, tuple(path.split('.'))) for crate, path in IMPORT.findall(text)]


def file_of(crate, parts):
    """The file of the longest front of a path that has one, and that front."""
    for count in range(len(parts), 0, -1):
        file = f'crates/{crate}/specs/{"/".join(parts[:count])}.antt'
        if os.path.exists(file):
            return file, parts[:count]
    raise SystemExit(f'tests/definitions.py: no file for Rattle.{crate}.specs.{".".join(parts)}')


def reached(begin):
    """Of some imports and all that follow from them: the lines of each file, the types, the crates of the toolchain."""
    files, types, others, todo = {}, set(), set(), list(begin)
    while todo:
        crate, parts = todo.pop()
        if not os.path.isdir(f'crates/{crate}'):
            others.add(crate)
        elif parts[0] == 'declared':
            types.add((crate, next(part for part in parts[1:] if part[0].isupper())))
        else:
            file, front = file_of(crate, parts)
            if (crate, '/'.join(front)) not in files:
                with open(file) as source:
                    text = source.read()
                files[crate, '/'.join(front)] = text.count('\n')
                todo += imports(text)
    return files, types, others


def counted(number, what):
    return f'{number:,} {what}' + ('' if number == 1 else 's')


def by_crate(pairs):
    groups = collections.defaultdict(list)
    for crate, name in sorted(pairs):
        groups[crate].append(name)
    return groups


def listed(title, files, types, order):
    """The list: crates from the program's call downward, their files and the types of their code by name."""
    groups, named = by_crate(files), by_crate(types)
    lines = ['', f'{title}: {counted(len(files), "file")}, {counted(sum(files.values()), "line")}, in '
             f'{counted(len(groups), "crate")}; and {counted(len(types), "type")} of the code.', '']
    for crate in sorted({*groups, *named}, key=order.index, reverse=True):
        names = ', '.join(f'{name} {files[crate, name]}' for name in groups.get(crate, []))
        total = counted(sum(files[crate, name] for name in groups.get(crate, [])), 'line')
        text = f'- `{crate}`' + (f', {total}: {names}.' if names else '.')
        lines += wrapped(text + (f' Types: {", ".join(named[crate])}.' if crate in named else ''))
    return lines


def wrapped(text):
    return textwrap.wrap(text, 118, subsequent_indent='  ' if text.startswith('-') else '', break_long_words=False,
                         break_on_hyphens=False)


def made():
    with open('crates.txt') as crates:
        order = [line.split(':')[0] for line in crates if not line.startswith('#')]
    with open(ROOT_FILE) as source:
        begin = imports(source.read())
    for _, one in APART:
        if one not in begin:
            raise SystemExit(f'tests/definitions.py: {ROOT_FILE} no longer imports {one[0]}.specs.{one[1][0]}')
    begin = [one for one in begin if one not in {one for _, one in APART}]
    files, types, others = reached(begin)
    lines = listed('For `check` and `replay`', files, types, order)
    for title, one in APART:
        begin.append(one)
        all_files, all_types, others = reached(begin)
        more = {name: lines for name, lines in all_files.items() if name not in files}
        lines += listed(title, more, all_types - types, order)
        files, types = all_files, all_types
    lines += ['', *wrapped(f'Of the toolchain: {", ".join(f"`{crate}`" for crate in sorted(others))}.'), '']
    return '\n'.join(lines)


def main(words):
    os.chdir(os.path.dirname(os.path.abspath(__file__)) + '/..')
    text = made()
    if not words:
        print(text)
        return
    if words not in (['--check'], ['--write']):
        sys.exit(__doc__)
    with open(DOCUMENT) as document:
        before, rest = document.read().split(BEGIN + '\n')
        stands, after = rest.split(END)
    if words == ['--write']:
        with open(DOCUMENT, 'w') as document:
            document.write(f'{before}{BEGIN}\n{text}{END}{after}')
    elif stands != text:
        new = [line for line in text.split('\n') if line not in stands.split('\n')]
        sys.exit(f'tests/definitions.py: {DOCUMENT} has another list; --write puts this into it, as {new[:1]}')
    else:
        files = [line for line in text.split('\n') if line.startswith('For ')]
        print('definitions: as listed. ' + ' '.join(files))


main(sys.argv[1:])
