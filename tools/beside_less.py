#!/usr/bin/env python3
"""The pager beside less, in tmux: beside_less.py FOLDER [NAME ..]

FOLDER has minus, minus-run and minus_pager. Each case is typed to both, in a pane of 80 columns and 24 rows, and the
rows of text are compared, where `top` is said the first one alone, where `begins` its beginning, where `numbered` all
without the blanks and the dot of line numbers, and where `colours` the first one with its colours; what is expected of
the pager alone is said by a pattern for its last row.
"""
import os
import re
import subprocess
import sys
import tempfile
import time

LINES = ''.join(f'line {n} of the text\n' for n in range(1, 1001))
FEW = ''.join(f'line {n} of few\n' for n in range(1, 101))
# Lines of two rows, without a blank at which one of the pagers may wrap them.
ROWS = ('a' * 77 + 'end' + 'begin' + 'b' * 20 + '\n') * 30 + 'begin of a line\n' + FEW + 'a line at its end\n' + FEW
LONG = ''.join(f'{n} ' + 'a word and another ' * 12 + '\n' for n in range(1, 200))
TEXTS = {
    'lines': LINES,
    'long': LONG,
    'even': ''.join(f'line {n:04} of the text\n' for n in range(1, 1001)),
    'rows': ROWS,
    'words': FEW + 'x' * 75 + ' two words and more\n' + FEW,
    'cut': 'a' * 70 + 'NEEDLEINHAY' + 'b' * 60 + '\n' + LINES,
    'case': FEW + 'an ERROR\n' + FEW + 'an Error\n' + FEW + 'an error\n' + FEW,
    'latin': b'gr\xfc\xdfe aus K\xf6ln \x01 x\n',
    'colons': '\x1b[38:5:196mred\x1b[m \x1b[48:5:21mon blue\x1b[m plain\n',
    'short': 'a\nb\nc\n',
}
# A name; the words; the keys, each sent by itself; what the pager's last row says, or nothing. Where `beside` is said,
# both show the same rows.
CASES = (
    ('a match over the end of a row', 'cut', ['/', 'NEEDLEINHAY', 'Enter'], r' 1/1 *$', True),
    ('a pattern over two words', 'words', ['/', 'two words', 'Enter'], r' 1/1 *$', True),
    ('^ is the start of a line', 'rows', ['/', '^begin', 'Enter'], r' 1/1 *$', True),
    ('$ is the end of a line', 'rows', ['/', 'end$', 'Enter'], r' 1/1 *$', True),
    ('n goes on', 'lines', ['/', 'line 50', 'Enter', 'n'], r' 2/', True),
    ('N from the page', 'lines', ['/', '50', 'Enter', '900G', 'N'], None, True),
    ('n of a search back', 'lines', ['900G', '?', '50', 'Enter', 'n'], None, True),
    ('n from a page with the match', 'lines', ['/', 'line 8. of', 'Enter', 'kkk', 'n'], None, True),
    ('n of a search back from such a page', 'lines', ['90G', '?', 'line 8. of', 'Enter', 'kkk', 'n'], None, True),
    ('a line by its number', 'long', ['50G'], r' 50-\d+/199 ', 'top'),
    ('g with a number', 'lines', ['10g'], r' 10-32/1000', True),
    ('per cent', 'even', ['50%'], r' 501-523/1000', True),
    ('p is per cent', 'even', ['33p'], r' 331-353/1000', True),
    ('a page by rows', 'lines', ['10 ', '5f', '3b'], None, True),
    ('half a page', 'lines', ['d', 'd', 'u'], None, True),
    ('Ctrl-D and Ctrl-U', 'lines', ['C-d', 'C-d', 'C-u'], None, True),
    ('half a page by rows', 'lines', ['7d'], None, True),
    ('the rows of half a page hold', 'lines', ['7d', 'd', 'u', 'd'], None, True),
    ('Ctrl-F and Ctrl-B', 'lines', ['C-f', 'C-f', 'C-b'], None, True),
    ('Ctrl-V', 'lines', ['C-v'], None, True),
    ('z and w', 'lines', ['z', 'z', 'w'], None, True),
    ('e and y', 'lines', ['e', 'e', 'e', 'y'], None, True),
    ('Ctrl-E and Ctrl-Y', 'lines', ['C-e', 'C-e', 'C-y'], None, True),
    ('Ctrl-J and Ctrl-K', 'lines', ['C-j', 'C-j', 'C-k'], None, True),
    ('Ctrl-N and Ctrl-P', 'lines', ['C-n', 'C-n', 'C-p'], None, True),
    ('Enter and k', 'lines', ['5', 'Enter', 'k'], None, True),
    ('< and >', 'lines', ['>', '<', '>'], None, True),
    ('marks', 'lines', ['100G', 'm', 'a', 'G', "'", 'a'], None, True),
    ('back to before a jump', 'lines', ['100G', '500G', "'", "'"], None, True),
    ('the ends as marks', 'lines', ['100G', "'", '$', "'", '^'], None, True),
    ('following ends by Ctrl-C', 'lines', ['F', 'C-c', 'k', 'k'], None, True),
    ('-N', '-N lines', ['100G'], r' 100-122/1000', 'numbered'),
    ('-N as typed', 'lines', ['100G', '-', 'N', 'Enter'], r' 100-122/1000', 'numbered'),
    ('-S as typed', 'long', ['50G', '-', 'S', 'Enter'], r' 50-72/199', 'begins'),
    # (less marks a line that goes on with `>`)
    ('half a page to the side', 'long', ['-', 'S', 'Enter', 'Right', 'Right', 'Left'], r' 1-23/', 'begins'),
    ('the columns to the side hold', 'long', ['-', 'S', 'Enter', '3', 'Right', 'Right'], None, 'begins'),
    ('-i', '-i case', ['/', 'error', 'Enter', 'n'], r' 2/3 *$', True),
    # (the page is where the first search led, and the row counts the matches of the second)
    ('-i with a capital', '-i case', ['/', 'error', 'Enter', '/', 'Error', 'Enter', "'", "'"], r' 1/1 *$', True),
    ('-I', '-I case', ['/', 'Error', 'Enter', 'n'], r' 2/3 *$', True),
    ('-i as typed', 'case', ['-', 'i', 'Enter', '/', 'error', 'Enter'], r' 1/3 *$', True),
    ('-i as typed, and n', 'case', ['/', 'error', 'Enter', '-', 'i', 'Enter', 'g', 'n'], r' 1/3 *$', True),
    ('-I as typed', 'case', ['-', 'I', 'Enter', '/', 'Error', 'Enter'], r' 1/3 *$', True),
    ('capitals count', 'case', ['/', 'error', 'Enter'], r' 1/1 *$', True),
    ('bytes that are no UTF-8', 'latin', [], None, 'top'),
    ('colours with colons', '-R colons', [], None, 'colours'),
    ('-p', '-p "line 77" lines', [], r' 77-99/', True),
    ('+G', '+G lines', [], r' 978-1000/', True),
    ('+/', '"+/line 42" lines', [], r' 42-64/', True),
    ('several files', 'lines short', [':', 'n'], r'file 2 of 2', 'top'),
    ('the file before', 'lines short', [':', 'n', ':', 'p'], r'file 1 of 2', True),
    ('a resize', 'long', ['20G', 'narrow', 'wide'], r' 20-', 'top'),
    ('a narrow page', 'rows', ['20G', 'narrow'], r' 20-27/232', True),
    ('Q ends', 'lines', ['Q'], r'^\$ *$', False),
    ('ZZ ends', 'lines', ['Z', 'Z'], r'^\$ *$', False),
    (':q ends', 'lines', [':', 'q'], r'^\$ *$', False),
)


def tmux(*words):
    return subprocess.run(['tmux', '-L', 'beside', *words], capture_output=True, text=True).stdout


def shown():
    return tmux('capture-pane', '-p').split('\n')[:24]


def settled():
    """The rows once they have stayed for a while."""
    before, end = shown(), time.time() + 5
    while time.time() < end:
        time.sleep(0.12)
        now = shown()
        if now == before:
            return now
        before = now
    return before


def send(key):
    if key == 'narrow':
        tmux('resize-window', '-x', '37', '-y', '24')
    elif key == 'wide':
        tmux('resize-window', '-x', '80', '-y', '24')
    else:
        tmux('send-keys', key)
    settled()


def page(command, keys, colours=False):
    tmux('new-session', '-d', '-x', '80', '-y', '24', 'env', '-u', 'LESS', '-u', 'MINUS', 'PS1=$ ', 'sh')
    settled()
    tmux('send-keys', f'clear; {command}', 'Enter')
    time.sleep(0.6)
    settled()
    for key in keys:
        send(key)
    time.sleep(0.1)
    rows = settled()
    if colours:
        rows = tmux('capture-pane', '-e', '-p').split('\n')[:24]
    tmux('kill-server')
    time.sleep(0.1)
    return rows


def compared(rows, beside):
    """What is compared of the rows."""
    if beside == 'begins':
        return [rows[0][:70]]
    if beside == 'numbered':
        # (less has no dot behind a number, and fewer blanks before it)
        return [re.sub(r'^ +(\d+)\.? ', r'\1 ', row) for row in rows[:23]]
    return rows[:1] if beside in ('top', 'colours') else rows[:23]


def last_row(rows):
    return [row for row in rows if row.strip()][-1] if any(row.strip() for row in rows) else ''


def main():
    program = os.path.abspath(sys.argv[1])
    failed = 0
    with tempfile.TemporaryDirectory() as folder:
        os.chdir(folder)
        for name, text in TEXTS.items():
            with open(name, 'wb') as file:
                file.write(text if isinstance(text, bytes) else text.encode())
        for name, words, keys, said, beside in CASES:
            if sys.argv[2:] and not any(part in name for part in sys.argv[2:]):
                continue
            ours = page(f'{program}/minus {words}', keys, beside == 'colours')
            theirs = page(f'less {words}', keys, beside == 'colours') if beside else None
            faults = []
            if said and not re.search(said, last_row(ours)):
                faults.append(f'says {last_row(ours)!r}')
            if theirs:
                for at, (row, other) in enumerate(zip(compared(ours, beside), compared(theirs, beside))):
                    if row != other:
                        faults.append(f'row {at + 1}: {row!r}, less {other!r}')
                        break
            failed += bool(faults)
            print('FAIL' if faults else 'ok  ', name, *faults, flush=True)
    print(f'{failed} failed')
    sys.exit(bool(failed))


main()
