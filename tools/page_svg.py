#!/usr/bin/env python3
"""Draws docs/page.svg, the picture of a page in docs/PAGER.md: tools/page_svg.py [PROGRAM]

Runs `bin/minus -N +38 server.log` over a log of its own in a pseudo terminal, plays what the terminal is sent, and
draws the cells. PROGRAM is the built crates/minus_pager/out/minus_pager. Each run writes the same file.
"""
import fcntl
import html
import itertools
import os
import pty
import select
import shutil
import struct
import sys
import tempfile
import termios

from player import Player
from programs import TOP

COLS, ROWS = 84, 18
WIDTH, HEIGHT, MARGIN = 8.4, 18, 12  # of a cell, and around the page, in pixels
LINES = 120
SILENCE = 1  # seconds after which no more comes

# What the service of the log says in turn: a level, a part, and a text with a number.
EVENTS = (
    ('INFO', 'http', 'GET /reports/{} answered 200 in 12 ms'),
    ('DEBUG', 'store', 'page {} was in the cache'),
    ('INFO', 'http', 'GET /reports/{}/rows answered 200 in 31 ms'),
    ('WARN', 'queue', '{} jobs wait, the oldest for 9 s'),
    ('INFO', 'jobs', 'report {} was written, 1,204 rows'),
    ('DEBUG', 'store', '{} pages were dropped from the cache'),
    ('ERROR', 'mail', 'report {} was not sent: the server mail.example.org closed the connection; tried again in 60 s'),
    ('INFO', 'http', 'POST /reports answered 201 in 8 ms, report {} waits'),
    ('INFO', 'jobs', 'report {} begins'),
)
LEVELS = {'DEBUG': '36', 'INFO': '32', 'WARN': '1;33', 'ERROR': '1;31'}

BACKGROUND, TEXT, EDGE = '#1c2128', '#d5dbe3', '#57606a'
COLOURS = ('#0b0e12', '#ff7b72', '#6fdd8b', '#e3b341', '#79b8ff', '#d2a8ff', '#56d4dd', '#eef1f5')


def log():
    """The lines of the log, with their colours."""
    for n, (level, part, text) in zip(range(LINES), itertools.cycle(EVENTS)):
        seconds = 8 * 3600 + 7 * n
        time = f'{seconds // 3600:02}:{seconds // 60 % 60:02}:{seconds % 60:02}'
        head = f'\x1b[2m{time}\x1b[0m \x1b[{LEVELS[level]}m{level:5}\x1b[0m \x1b[1m{part:5}\x1b[0m'
        yield f'{head} {text.format(100 + n * 37 % 89)}\n'


def page(program):
    """The cells of the page that the pager shows."""
    player = Player(COLS, ROWS)
    with tempfile.TemporaryDirectory() as folder:
        for file in (*(os.path.join(TOP, 'bin', script) for script in ('minus', 'minus-run')), program):
            shutil.copy(file, folder)
        with open(os.path.join(folder, 'server.log'), 'w') as file:
            file.writelines(log())
        pid, terminal = pty.fork()
        if pid == 0:
            fcntl.ioctl(0, termios.TIOCSWINSZ, struct.pack('HHHH', ROWS, COLS, 0, 0))
            os.chdir(folder)
            os.execv('./minus', ['minus', '-N', '+38', 'server.log'])
        while select.select([terminal], [], [], SILENCE)[0]:
            player.play(os.read(terminal, 65536))
        cells = player.cells
        os.write(terminal, b'q')
        os.waitpid(pid, 0)
    return cells


def look(styles):
    """The colour of the text, that behind it or none, and whether the text is bold and dim, of SGR parameters."""
    front, back, bold, dim = TEXT, None, False, False
    for value in (int(v or 0) for style in styles for v in style.split(';')):
        if value == 1:
            bold = True
        elif value == 2:
            dim = True
        elif value == 7:
            front, back = back or BACKGROUND, front
        elif 30 <= value <= 37:
            front = COLOURS[value - 30]
        elif 40 <= value <= 47:
            back = COLOURS[value - 40]
    return front, back, bold, dim


def draw_row(y, cells):
    """The elements of a row: of each run of cells in one style what stands behind it, and its text."""
    x = 0
    for styles, run in itertools.groupby(cells, key=lambda cell: cell[1]):
        run = [text for text, _ in run]
        front, back, bold, dim = look(styles)
        left, top, width = MARGIN + x * WIDTH, MARGIN + y * HEIGHT, len(run) * WIDTH
        if back:
            yield f'<rect x="{left:.1f}" y="{top}" width="{width:.1f}" height="{HEIGHT}" fill="{back}"/>'
        text = ''.join(run).rstrip()
        blanks = len(text) - len(text.lstrip())
        if text:
            how = ' font-weight="bold"' * bold + ' opacity="0.7"' * dim
            place = f'x="{left + blanks * WIDTH:.1f}" y="{top + 13.5}" textLength="{(len(text) - blanks) * WIDTH:.1f}"'
            yield f'<text {place} fill="{front}"{how}>{html.escape(text[blanks:], quote=False)}</text>'
        x += len(run)


def picture(cells):
    width, height = COLS * WIDTH + 2 * MARGIN, ROWS * HEIGHT + 2 * MARGIN
    elements = [element for y, row in enumerate(cells) for element in draw_row(y, row)]
    return '\n'.join([
        f'<svg xmlns="http://www.w3.org/2000/svg" width="{width:.1f}" height="{height}"',
        f' viewBox="0 0 {width:.1f} {height}"',
        ' font-family="ui-monospace, SFMono-Regular, Menlo, Consolas, \'DejaVu Sans Mono\', monospace" font-size="14"',
        ' role="img" xml:space="preserve">',
        '<title>A page of a log: numbers of lines, coloured levels, and the prompt row</title>',
        f'<rect x="0.5" y="0.5" width="{width - 1:.1f}" height="{height - 1}" rx="8"',
        f' fill="{BACKGROUND}" stroke="{EDGE}"/>',
        *elements,
        '</svg>\n',
    ])


def main():
    program = sys.argv[1] if len(sys.argv) > 1 else os.path.join(TOP, 'crates', 'minus_pager', 'out', 'minus_pager')
    if not os.path.isfile(program):
        sys.exit(__doc__)
    with open(os.path.join(TOP, 'docs', 'page.svg'), 'w') as file:
        file.write(picture(page(program)))


if __name__ == '__main__':
    main()
