"""A screen that plays what a terminal is sent, and the pages that the library defines."""
import base64
import re
import subprocess
import unicodedata

import programs

UNIT = re.compile(r'\x1b\[([?<]?)([0-9:;]*)([@-~])|\x1b\]([^\x07\x1b]*)(?:\x07|\x1b\\)|[\s\S]')
BEGUN = re.compile(r'\x1b(\[[?<]?[0-9:;]*|\][^\x07\x1b]*\x1b?)?\Z')


def columns(c):
    """How many columns a character takes."""
    if unicodedata.combining(c) or c == '\u200d':
        return 0
    return 2 if unicodedata.east_asian_width(c) in 'WF' else 1


class Player:
    """A screen of cells, each a text and its styles, a link among them, that plays what a terminal is sent."""

    def __init__(self, cols, rows):
        self.cols, self.rows = cols, rows
        self.modes, self.copied, self.rest = {}, [], ''
        self.decode = __import__('codecs').getincrementaldecoder('utf-8')('replace').decode
        self.clear()

    def clear(self):
        self.cells = [self.blank() for _ in range(self.rows)]
        self.x = self.y = 0
        self.style, self.link = (), ()

    def blank(self):
        return [(' ', ())] * self.cols

    def resize(self, cols, rows):
        """What stands on the screen after a resize is the terminal's matter: here nothing."""
        self.cols, self.rows = cols, rows
        self.clear()

    def play(self, data):
        text = self.rest + self.decode(data)
        begun = BEGUN.search(text)
        self.rest = begun.group() if begun else ''
        for unit in UNIT.finditer(text[:len(text) - len(self.rest)]):
            mark, numbers, final, command = unit.groups()
            if command is not None:
                self.command(command)
            elif final:
                self.sequence(mark, numbers, final)
            else:
                self.put(unit.group())

    def command(self, command):
        if command.startswith('52;c;'):
            self.copied.append(base64.b64decode(command[5:]).decode())
        elif command.startswith('8;'):
            link = command.split(';', 2)[2]
            self.link = (link,) if link else ()

    def sequence(self, mark, numbers, final):
        values = [int(n.split(':')[0] or 0) for n in numbers.split(';')]
        first = max(values[0], 1)
        if mark == '?':
            self.modes.update((n, final == 'h') for n in values)
            if 1049 in values:
                self.clear()
        elif final == 'H':
            self.y = min(first, self.rows) - 1
            self.x = min(max((values + [1])[1], 1), self.cols) - 1
        elif final == 'J':
            self.cells = [self.blank() for _ in range(self.rows)]
        elif final == 'K':
            self.cells[self.y] = self.blank()
        elif final == 'S':
            self.cells = (self.cells + [self.blank() for _ in range(first)])[-self.rows:]
        elif final == 'T':
            self.cells = ([self.blank() for _ in range(first)] + self.cells)[:self.rows]
        elif final == 'm':
            # (a marked match ends by 27, which takes 7 back)
            kept = () if values == [0] else tuple(style for style in self.style if style != '7' or numbers != '27')
            self.style = kept if values in ([0], [27]) else kept + (numbers,)

    def put(self, c):
        if c == '\r':
            self.x = 0
        elif c == '\n':
            if self.y == self.rows - 1:
                self.cells = self.cells[1:] + [self.blank()]
            self.y = min(self.y + 1, self.rows - 1)
        elif c >= ' ':
            width = columns(c)
            if width == 0 and self.x:
                text, style = self.cells[self.y][self.x - 1]
                self.cells[self.y][self.x - 1] = (text + c, style)
            elif self.x + width <= self.cols:
                style = self.style + self.link
                self.cells[self.y][self.x:self.x + width] = [(c, style)] + [('', style)] * (width - 1)
                self.x += width

    def texts(self):
        """The rows without their styles and the blanks at their ends."""
        return [''.join(c for c, _ in row).rstrip() for row in self.cells]


def moves(text):
    """Whether a text has a sequence that moves the cursor or clears, so that it stands on no row by itself."""
    return any(unit.group(3) in tuple('HJKST') for unit in UNIT.finditer(text))


class PlainScreen:
    """A screen that plays what is drawn on rows that are long enough. A style is a part of its row. The column is known
    where a sequence has set it alone."""

    def __init__(self, rows):
        self.rows, self.y, self.x, self.is_cursor_shown = rows, 0, None, True

    def play(self, text):
        for unit in UNIT.finditer(text):
            mark, numbers, final = unit.group(1, 2, 3)
            if mark and numbers == '25':
                self.is_cursor_shown = final == 'h'
            elif final in tuple('HJKST'):
                self.sequence(numbers, final)
            elif not mark:
                self.put(unit.group())

    def sequence(self, numbers, final):
        first, *more = [int(number or 1) for number in numbers.split(';')]
        if final == 'H':
            self.y, self.x = min(first, len(self.rows)) - 1, (more[0] if more else 1) - 1
        elif final == 'S':
            self.rows = (self.rows + [''] * first)[-len(self.rows):]
        elif final == 'T':
            self.rows = ([''] * first + self.rows)[:len(self.rows)]
        elif final == 'J':
            self.rows = [''] * len(self.rows)
        else:
            self.rows[self.y] = ''

    def put(self, text):
        if text == '\r':
            self.x = 0
        elif text == '\n':
            self.rows = self.rows[1:] + [''] if self.y == len(self.rows) - 1 else self.rows
            self.y = min(self.y + 1, len(self.rows) - 1)
        else:
            self.rows[self.y] += text
            self.x = None


def played_rows(rows, text):
    """The rows that what is drawn leaves on a plain screen of so many."""
    screen = PlainScreen([''] * rows)
    screen.play(text)
    return screen.rows


def defined_page(cols, rows, script):
    """The cells of the page that the library defines for a script."""
    words = [programs.SHOW, 'page', str(cols), str(rows)]
    run = subprocess.run(words, input=script.encode(), stdout=subprocess.PIPE, check=True)
    page = Player(cols, rows)
    for y, row in enumerate(run.stdout.decode().split('\n')[:rows]):
        row = re.sub(r'\\(.)', lambda m: {'e': '\x1b', 'n': '\n', 'r': '\r'}.get(m.group(1), m.group(1)), row)
        page.play(f'\x1b[0m\x1b[{y + 1};1H{row}'.encode())
    return page.cells


def push(text):
    """The line of a script that pushes a text."""
    for plain, escape in (('\\', '\\\\'), ('\n', '\\n'), ('\r', '\\r'), ('\x1b', '\\e')):
        text = text.replace(plain, escape)
    return f'push {text}\n'
