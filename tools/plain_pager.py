"""A pager kept in the plainest way: a text, its rows, which are formed again at each change, and what is set beside it.

Its texts are of characters that take a column each, and have no escape sequences. Pages are those of docs/DEFINITIONS.md.
"""
import dataclasses

import plain_keys
from plain_rows import MAX, ShownRow, TextRows, count_above, marks_of, nth_of, rows_with

HELP = 'keys\n  q  leave\nand a word that-is-long\n\nend\n'
HELP_PROMPT = 'HELP -- Press q or Shift-m to return to pager'
SAVED = ('text', 'wraps', 'mark', 'left', 'prompt', 'follow', 'numbers')


@dataclasses.dataclass
class Query:
    """What is typed at an open search prompt; the cursor counts from 1."""
    text: str = ''
    cursor: int = 1
    is_edited: bool = False


@dataclasses.dataclass
class Led:
    """What a step has led to beside the page."""
    copied: str = None
    exited: str = None
    refused: list = dataclasses.field(default_factory=list)
    is_resized: bool = False


class PlainPager:
    """The pager. A step is a tuple: the word of a script's line, and its arguments."""

    def __init__(self, cols, height):
        self.cols, self.height = cols, height
        self.text, self.formed, self.marks, self.found = '', TextRows(), [], []
        self.mark = self.left = self.search_mark = 0
        self.wraps, self.in_lines, self.is_styled, self.numbers = True, False, False, 'off'
        self.follow, self.is_shown, self.prompt, self.message, self.prefix = False, True, 'minus', None, ''
        self.term, self.direction, self.query = None, 'unknown', None
        self.anchor = self.selection = self.help = None
        self.waiting, self.hooks, self.at_exit, self.calls = [], [], 0, 0
        self.preview, self.help_text, self.exit = 2, HELP, 'exit 0'
        self.led = Led()

    # The text and its rows.

    def is_numbered(self):
        return self.numbers in ('on', 'always-on')

    def prefix_columns(self):
        return len(str(self.formed.lines)) + 7 if self.is_numbered() else 0

    def top(self):
        """The last row that the page may begin with."""
        return max(len(self.formed.rows) - (self.height - 1), 0)

    def form(self):
        lines = len(self.text.splitlines())
        width = self.cols - len(str(lines)) - 8 if self.is_numbered() else self.cols
        self.formed = TextRows(self.text, max(width, 0), self.wraps)
        self.find()

    def marks_of(self, word):
        return marks_of(self.text, self.formed.rows, word, self.in_lines)

    def find(self):
        self.marks = [] if self.term is None else self.marks_of(self.term)
        self.found = rows_with(self.marks)

    def reform(self):
        """Forms all again; the prompt row reports the match at the mark then."""
        self.form()
        self.search_mark = nth_of(self.found, self.mark, 0)

    def move_to(self, row):
        """Lets the page begin with this row, and calls what is called at the end of the text."""
        self.mark = min(row, self.top())
        if self.mark == self.top() and len(self.formed.rows) > self.height:
            self.calls += len(self.hooks)

    def append(self, text):
        if self.help:
            self.help['text'] += text
            return
        digits = len(str(self.formed.lines))
        self.text += text
        self.form()
        is_wider = self.is_numbered() and len(str(self.formed.lines)) != digits
        last = max(len(self.found) - 1, 0)
        self.search_mark = nth_of(self.found, self.mark, 0) if is_wider else min(self.search_mark, last)
        if self.follow:
            self.move_to(self.top())

    def set_text(self, text):
        if self.help:
            self.help['text'] = text
            return
        self.text = text
        self.reform()

    # Help, which is shown in the place of the text.

    def open_help(self):
        self.help = {name: getattr(self, name) for name in SAVED}
        self.text, self.wraps, self.mark, self.left, self.prompt = self.help_text, False, 0, 0, HELP_PROMPT
        self.follow, self.numbers, self.message = False, 'off', None
        self.reform()

    def leave_help(self):
        if self.help:
            for name, value in self.help.items():
                setattr(self, name, value)
            self.help, self.message = None, None
            self.reform()

    # What is selected, and copied.

    def place_at(self, x, y):
        if not self.formed.rows or self.term is not None or y + 1 >= self.height:
            return None
        left = 0 if self.wraps else self.left
        return min(self.mark + y, len(self.formed.rows) - 1), max(x - self.prefix_columns(), 0) + left

    def select(self, x, y):
        place = self.place_at(x, y)
        if place:
            self.anchor = self.selection = place

    def extend(self, x, y):
        """Drags the selection to a place of the page, and the mark with it at the edges."""
        if self.term is not None or not self.anchor or self.height == 1:
            return
        last = self.height - 2
        if y == 0:
            self.mark = max(self.mark - 1, 0)
        elif y > last:
            self.mark = min(self.mark + 1, self.top())
            y = last
        self.selection = self.place_at(x, y) or self.selection

    def ends(self):
        return sorted((self.anchor, self.selection)) if self.anchor and self.selection else None

    def copy(self):
        ends = self.ends()
        if ends:
            self.anchor = self.selection = None
        if ends and self.formed.rows:
            (first, start), (last, end) = ends
            self.led.copied = self.text[self.place_in_text(first, start):self.place_in_text(last, end + 1)]

    def place_in_text(self, row, col):
        """Where a column of a row stands in the text; past the end of the row, or of all rows, that end."""
        if row < len(self.formed.rows):
            return min(self.formed.rows[row].start + col, self.formed.rows[row].end)
        return len(self.text.removesuffix('\n'))

    # Searches.

    def open_prompt(self, direction):
        if direction != 'unknown':
            self.direction, self.search_mark, self.query = direction, 0, Query()

    def confirm(self):
        """Takes the query, if it was edited, and goes to its first match from the mark on."""
        query, self.query = self.query, None
        if query.is_edited:
            self.term = query.text
            self.find()
            self.search_mark = nth_of(self.found, self.mark, 0)
            if self.found:
                self.mark = min(self.found[self.search_mark], self.top())

    def jump_on(self, jump):
        if self.found:
            self.search_mark = nth_of(self.found, self.mark, jump)
            self.move_to(self.found[self.search_mark])

    def jump_back(self, jump):
        if self.found:
            self.search_mark = max(self.search_mark - jump, 0)
            row = self.found[self.search_mark] if self.search_mark < len(self.found) else MAX
            if row < self.mark:
                self.move_to(row)

    # What each command and each event changes.

    def move_left_mark(self, left):
        is_past = min(left + self.cols, MAX) > self.formed.longest + self.prefix_columns() and left > self.left
        if not self.wraps and not is_past:
            self.left = left

    def set_follow(self, follow):
        self.follow = follow
        self.move_to(self.top())

    def resize(self, cols, rows):
        self.cols, self.height, self.led.is_resized = cols, rows, True
        self.reform()

    def set(self, name, value):
        setattr(self, name, value)
        self.reform()

    def leave_or_exit(self):
        if self.help:
            self.leave_help()
        else:
            self.calls += self.at_exit
            self.led.exited = self.exit

    def restore(self):
        if self.help:
            self.leave_help()
        else:
            self.message = None

    def do(self, word, *arguments):
        """Does what an event asks for."""
        does = {
            'mark': self.move_to, 'left': self.move_left_mark, 'select': self.select, 'extend': self.extend, 'copy': self.copy,
            'search': self.open_prompt, 'follow': self.set_follow, 'resize': self.resize, 'exit': self.leave_or_exit,
            'restore': self.restore, 'help': lambda: self.leave_help() if self.help else self.open_help(),
            'next': lambda jump=1: self.jump_on(jump), 'previous': lambda jump=1: self.jump_back(jump),
            'numbers': lambda numbers: self.set('numbers', numbers), 'wrap': lambda wraps: self.set('wraps', wraps),
            'clear': lambda: vars(self).update(anchor=None, selection=None),
            'digit': lambda digit: vars(self).update(prefix=self.prefix + digit), 'ignore': lambda: None,
        }
        does[word](*arguments)

    def command(self, word, *arguments):
        """Does a command, which keeps the typed prefix."""
        first = arguments[0]
        if word in ('do', 'follow', 'numbers'):
            self.do(*arguments if word == 'do' else (word, first))
        elif word in ('push', 'set'):
            (self.append if word == 'push' else self.set_text)(first)
        elif word == 'prompt':
            self.prompt = self.prompt if self.help else first
        elif word in ('wrap', 'matchlines', 'carrystyle'):
            self.set({'wrap': 'wraps', 'matchlines': 'in_lines', 'carrystyle': 'is_styled'}[word], first)
        elif word in ('message', 'showprompt'):
            setattr(self, {'message': 'message', 'showprompt': 'is_shown'}[word], first)
        elif word == 'draw' and first == 'mark':
            self.move_to(arguments[1])
        elif word == 'draw' and first == 'query':
            self.open_prompt(self.direction)
        elif word == 'strategy' or arguments == ('after-exit', 1):
            self.exit = 'exit 1' if first == 'process' else 'exit 0, and the program goes on'
        elif word == 'unhook' and first == 'end':
            self.hooks = [held for held in self.hooks if held != arguments[1]]

    def event(self, word, *arguments):
        """Does what an event asks for; the typed prefix goes unless it is typed to."""
        self.prefix = self.prefix if word == 'digit' else ''
        self.do(word, *arguments)

    def add_hook(self, held):
        """Holds a callback at the end of the text under an id, or under the next free one."""
        if held in self.hooks:
            return 3
        self.hooks.append(held or max([1, *self.hooks]) + 1)
        return 0

    def perform(self, word, *arguments):
        """Does a step, with no search prompt open, and answers the number by which it is refused, or 0."""
        refused = 0
        if word == 'event':
            self.event(*arguments if arguments[0] == 'resize' else ('ignore',))
        elif word == 'key':
            self.event(*plain_keys.bound_to(self, *arguments))
        elif word == 'mouse':
            self.event(*plain_keys.told_by(self, *arguments))
        elif word == 'hook':
            refused = self.add_hook(arguments[1])
        elif word == 'atexit':
            self.at_exit += 1
        elif word in ('preview', 'helptext'):
            setattr(self, {'preview': 'preview', 'helptext': 'help_text'}[word], *arguments)
        else:
            self.command(word, *arguments)
        self.mark = min(self.mark, self.top())
        return refused

    @staticmethod
    def refusal(step):
        """The number by which a step is refused before anything else, or 0."""
        if step[0] in ('prompt', 'message') and '\n' in step[1]:
            return 2
        if step[:2] in (('do', 'resize'), ('event', 'resize')) and not all(0 < side < 65_536 for side in step[2:]):
            return 5
        return 0

    def step(self, step):
        """Takes a step, and answers the number by which it is refused, or 0."""
        self.led = Led()
        refused = self.refusal(step)
        if refused or not self.query:
            return refused or self.perform(*step)
        if step[0] == 'key':
            plain_keys.feed(self, step[1])
        elif step[0] != 'mouse' and step[:2] != ('event', 'focus'):
            self.waiting.append(step)
        for _ in range(len(self.waiting)):
            if self.query or self.led.exited:
                break
            refused = self.perform(*self.waiting.pop(0))
            self.led.refused += [refused] if refused else []
        return 0

    # What the page shows.

    def range_in(self, row):
        """The characters of a row that are selected, from one up to another."""
        ends = self.ends()
        if not ends or not ends[0][0] <= row <= ends[1][0]:
            return 0, 0
        (first, start), (last, end) = ends
        left, prefix = 0 if self.wraps else self.left, self.prefix_columns()
        start = start if row == first else 0
        end = end + 1 if row == last else MAX
        return max(start - left, 0) + prefix, max(end - left, 0) + prefix

    def row(self, at, marks):
        """What a row of the text shows with these marks, if a word is searched for; nothing past the last one."""
        if at >= len(self.formed.rows):
            return ''
        row, shown = self.formed.rows[at], ShownRow(self.range_in(at))
        if self.is_numbered() and row.is_first:
            shown.show(' ' * (len(str(self.formed.lines)) + 5 - len(str(row.line + 1))))
            shown.text += '\x1b[1m'
            shown.show(f'{row.line + 1}.')
            shown.text += '\x1b[0m'
            shown.show(' ')
        else:
            shown.show(' ' * self.prefix_columns())
        end = None if self.wraps else self.left + max(self.cols - self.prefix_columns(), 0)
        shown.show_part(self.text[row.start:row.end], [mark for mark in marks or [] if mark.row == at], self.left, end)
        shown.close()
        # (the texts have no styles of their own, and nothing is selected under a term)
        is_closed = self.is_styled and marks is not None and '\x1b[7m' in shown.text
        return shown.text + ('\x1b[0m' if is_closed else '')

    def indicators(self):
        """The indicators of the prompt row, each its style and its text."""
        if self.prefix:
            yield '\x1b[30;43m', f' {self.prefix} '
        if self.found:
            place, count = self.search_mark + 1, len(self.found)
            if self.in_lines:
                row = self.found[self.search_mark] if self.search_mark < count else 0
                place, count = count_above(self.marks, row) + 1, count_above(self.marks, MAX)
            yield '\x1b[30;44m', f' {place}/{count} '
        if self.follow:
            yield '\x1b[1m', '[F]'

    def prompt_row(self):
        if self.query:
            return ('?' if self.direction == 'reverse' else '/') + self.query.text
        if not self.is_shown:
            return ''
        style, said = ('\x1b[2;40;37m', self.prompt) if self.message is None else ('\x1b[30;1;41m', self.message)
        indicators = list(self.indicators())
        left = max(self.cols - sum(len(text) for _, text in indicators), 0)
        return style + said[:left].ljust(left) + ''.join(map(''.join, indicators)) + '\x1b[0m'

    def page(self):
        """The rows of the page."""
        mark, marks = self.mark, None if self.term is None else self.marks
        if self.query and self.query.is_edited and len(self.query.text) >= self.preview:
            previewed = self.marks_of(self.query.text)
            found = rows_with(previewed)
            if found:
                mark, marks = min(found[nth_of(found, self.mark, 0)], self.top()), previewed
        return [self.row(mark + at, marks) for at in range(self.height - 1)] + [self.prompt_row()]
