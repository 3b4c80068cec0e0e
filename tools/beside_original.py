#!/usr/bin/env python3
"""Programs of rust/minus/examples over the original crate and over rust/minus: beside_original.py ORIGINAL WORK [measure]

ORIGINAL is a folder with the original crate minus 5.8.0, built; WORK is a folder for what is made. The programs are built
twice in release mode, with one line of Cargo.toml changed, and are given the same keys in a pseudo terminal. A line says
where the pages, or the statuses, differ. With the word measure they page 10 MB instead, and a table has times and sizes.
"""
import os
import statistics
import subprocess
import sys
import tempfile
import time

from rust_terminal import Program

TOP = os.path.dirname(os.path.dirname(os.path.abspath(__file__)))
CRATES = os.path.join(TOP, 'tools', 'debian_crates.toml')
RUNS = 9  # of each program that is measured: the table has their medians
NAMES = ('static_text', 'fed_by_a_thread', 'less_like', 'own_keys', 'hooks', 'file_at_once')
MANIFEST = '''[package]
name = "programs"
version = "0.1.0"
edition = "2024"

[dependencies]
minus = {{ path = "{path}", features = ["static_output", "dynamic_output", "search"] }}
'''


def build(work, name, path):
    """Builds the programs over the crate at a path, and answers the folder that they are in."""
    folder = os.path.join(work, name)
    os.makedirs(os.path.join(folder, 'src', 'bin'), exist_ok=True)
    with open(os.path.join(folder, 'Cargo.toml'), 'w') as file:
        file.write(MANIFEST.format(path=path))
    for program in NAMES:
        link = os.path.join(folder, 'src', 'bin', f'{program}.rs')
        if not os.path.islink(link):
            os.symlink(os.path.join(TOP, 'rust', 'minus', 'examples', f'{program}.rs'), link)
    environment = dict(os.environ, CARGO_TARGET_DIR=os.path.join(folder, 'target'))
    words = ['cargo', 'build', '--config', CRATES, '--release', '--quiet', '-j2']
    subprocess.run(words, cwd=folder, env=environment, check=True)
    return os.path.join(folder, 'target', 'release')


def text_of_file():
    """A file's text: long and short lines, styles, wide characters, tabs, an empty line at its end."""
    lines = [f'line {n} of the file' for n in range(1, 301)]
    lines[4] = 'a line that is longer than a row of the terminal, so that it takes more than one of them to be shown'
    lines[9] = '\x1b[31mred words\x1b[0m and \x1b[1mbold ones\x1b[0m'
    lines[14] = 'wide: 漢字 and é'
    lines[19] = ''
    return '\n'.join(lines) + '\n'


def copied(program):
    """The displayed cells, which the player goes on writing to."""
    return [list(row) for row in program.player.cells]


class Pages:
    """What a program showed after each of its keys, and its status."""

    def __init__(self, words, cols, rows, first, keys):
        program = Program(words, cols, rows)
        try:
            program.wait_for(first)
            program.settle()
            self.shown = [('the first page', copied(program))]
            for key in keys:
                if isinstance(key, tuple):
                    program.resize(*key)
                else:
                    program.press(key)
                self.shown.append((key, copied(program)))
            self.status = program.end()
            self.shown.append(('the end', copied(program)))
            self.is_handed_back = program.is_handed_back()
        finally:
            program.close()


def texts(cells):
    return [''.join(c for c, _ in row).rstrip() for row in cells]


def compare(name, theirs, ours):
    """Says where two differ, and answers how many pages were the same in texts, and in styles too."""
    same = styled = 0
    for (key, their_cells), (_, our_cells) in zip(theirs.shown, ours.shown):
        is_same = texts(their_cells) == texts(our_cells)
        same += is_same
        styled += their_cells == our_cells
        if not is_same:
            print(f'{name}, after {key!r}:')
            for row, (one, other) in enumerate(zip(texts(their_cells), texts(our_cells))):
                if one != other:
                    print(f'  row {row}: original {one!r}, here {other!r}')
        elif their_cells != our_cells:
            rows = [row for row, (one, other) in enumerate(zip(their_cells, our_cells)) if one != other]
            print(f'{name}, after {key!r}: the styles of rows {rows} differ')
            if '-v' in sys.argv:
                for row in rows:
                    print('   original', their_cells[row])
                    print('   here    ', our_cells[row])
    print(f'{name}: {len(ours.shown)} pages, {same} with the same texts, {styled} with the same styles too; '
          f'statuses {theirs.status} and {ours.status}; handed back {theirs.is_handed_back} and {ours.is_handed_back}')


# Each key goes alone, and each query matches: at one that does not the original panics.
# The original decides about a key in the thread that reads it, by a state that may be older.
KEYS = [
    *'jjj', *'5j', *'kdu ', '\x1b[5~', '\x1b[6~', 'G', 'g', *'30G', '\x0c', 'j', '\x0c', *'12', 'x', '\r',
    *'/12', '\r', *'nnp', *'?20', '\x1b', 'g', '\x08', *'lllh', '\x08', '\x06', '\x06', 'g', (50, 12), (30, 8),
    '\x1b[<65;5;3M', '\x1b[<64;5;3M', '\x1b[<0;3;2M', '\x1b[<32;6;3M',
]


def milliseconds(program, keys, shown):
    """How long it takes from these keys until the program shows this."""
    begun = time.perf_counter()
    os.write(program.master, keys.encode())
    program.wait(shown, keys)
    return (time.perf_counter() - begun) * 1000


def top_row(program):
    return ''.join(c for c, _ in program.player.cells[0]).rstrip()


def measured(folder, name, path, last):
    """The times of a program that pages a file, in milliseconds, its peak of memory and its size, in bytes."""
    program = Program([os.path.join(folder, name), path], 80, 24)
    try:
        program.wait(lambda: program.player.cells[22][0][0] == 't', 'the first page')
        times = {'first page': (time.perf_counter() - program.begun) * 1000}
        program.settle()
        if name == 'less_like':  # (the file is read on behind the first page)
            program.wait(lambda: milliseconds(program, 'G', lambda: True) and settled(program) == last, 'the last line')
            program.press('g')
        moves = [milliseconds(program, 'j', lambda: top_row(program) == f'this is line {n}') for n in range(2, 52)]
        times['key j'] = statistics.median(moves)
        program.settle()
        times['key G'] = milliseconds(program, 'G', lambda: program.player.cells[22] and last in program.rows())
        program.press('g')
        program.press('/')
        program.press(f'{last}$')
        times['search of the last line'] = milliseconds(program, '\r', lambda: last in program.rows())
        program.settle()
        program.press('q')
        program.end()
    finally:
        program.close()
    sizes = {'peak of memory': program.peak * 1024, 'program, stripped': stripped_size(os.path.join(folder, name))}
    return times, sizes


def settled(program):
    program.settle()
    return program.rows()[22]


def stripped_size(path):
    with tempfile.NamedTemporaryFile() as file:
        subprocess.run(['strip', '-o', file.name, path], check=True)
        return os.path.getsize(file.name)


def measure(folders, work):
    """Prints a table: each row is of a program and what was measured, with the original, here, and the ratio."""
    count = 10_000_000 // len('this is line 123456\n')
    last = f'this is line {count}'
    path = os.path.join(work, 'lines.txt')
    with open(path, 'w') as file:
        file.writelines(f'this is line {n}\n' for n in range(1, count + 1))
    print('| program | measured | original | here | here / original |\n|---|---|---|---|---|')
    for name in ('file_at_once', 'less_like'):
        # (by turns, so that both have the same of what else the machine does)
        turns = [[measured(folder, name, path, last) for folder in folders] for _ in range(RUNS)]
        runs = list(zip(*turns))
        for place, unit in ((0, 'ms'), (1, 'MB')):
            for what in runs[0][0][place]:
                scale = 1 if unit == 'ms' else 1e6
                theirs, ours = (statistics.median(run[place][what] for run in crate) / scale for crate in runs)
                print(f'| {name} | {what} | {theirs:.2f} {unit} | {ours:.2f} {unit} | {ours / theirs:.2f} |')

OWN_KEYS = [*'xxj', *'3x', 'e', 'g', *'/row 7', '\r', *'nxp']


def main():
    original, work = (os.path.abspath(word) for word in sys.argv[1:3])
    folders = [build(work, 'original', original), build(work, 'here', os.path.join(TOP, 'rust', 'minus'))]
    if 'measure' in sys.argv[3:]:
        return measure(folders, work)
    with tempfile.NamedTemporaryFile('w', suffix='.txt', dir=work) as file:
        file.write(text_of_file())
        file.flush()
        for name, arguments, first, keys in (
                ('static_text', ['200'], 'numbers', KEYS),
                ('fed_by_a_thread', [], 'all was read', KEYS),
                ('less_like', [file.name], 'line 1', KEYS),
                ('own_keys', [], 'own keys', OWN_KEYS),
                ('hooks', [], 'hooks', ['j', 'G', 'k'])):
            pages = [Pages([os.path.join(folder, name), *arguments], 40, 10, first, keys + ['q']) for folder in folders]
            compare(name, *pages)


if __name__ == '__main__':
    main()
