"""The rows of a text by the rule for rows, for characters that take a column each, and what they show of a word."""
import dataclasses

MAX = 2 ** 64 - 1


@dataclasses.dataclass
class Row:
    """A row: its line, from 0, whether it is the first one there, and the characters of the text that it shows."""
    line: int
    is_first: bool
    start: int
    end: int


@dataclasses.dataclass
class Mark:
    """What a row shows of a match, from one character of the row up to another, and whether the match begins there."""
    row: int
    start: int
    end: int
    begins: bool


def lines_of(text):
    """Where the lines of a text begin and end."""
    start = 0
    for line in text.split('\n'):
        end = start + len(line)
        if end < len(text) or line:
            yield start, end
        start = end + 1


def is_joined(line, at):
    return at >= 0 and line[at].isascii() and line[at].isalnum()


def is_cut(line, at):
    """Whether a piece of a line ends before this character: a word begins there, or a hyphen stands before it between
    letters or digits."""
    before, here = line[at - 1], line[at]
    return (before == ' ' and here != ' ') or (before == '-' and is_joined(line, at - 2) and is_joined(line, at))


class TextRows:
    """The rows of a text on some columns."""

    def __init__(self, text='', width=0, wraps=True):
        self.text, self.width, self.rows, self.open = text, width, [], None
        self.lines, self.longest = 0, 0
        for start, end in lines_of(text):
            self.is_first = True
            if wraps:
                self.add_words(start, end)
            else:
                self.open = (start, end)
            self.end_row()
            self.lines += 1
            self.longest = max(self.longest, end - start)

    def end_row(self):
        if self.open:
            self.rows.append(Row(self.lines, self.is_first, *self.open))
            self.is_first, self.open = False, None

    def add_piece(self, start, end):
        """Adds a piece to the row, or begins a new one with it where it does not fit."""
        if self.open and end - self.open[0] <= self.width:
            self.open = (self.open[0], end)
            return
        self.end_row()
        self.open = (start, end)

    def add_word(self, start, behind):
        """Adds what stands between two places, the spaces at its end aside; what is too wide comes in parts."""
        body = len(self.text[start:behind].rstrip(' '))
        if body <= self.width:
            self.add_piece(start, start + body)
            return
        front = max(self.width, 1)
        for at in range(start, start + body, front):
            self.add_piece(at, min(at + front, start + body))

    def add_words(self, start, end):
        line, begin = self.text[start:end], 0
        for at in range(1, len(line)):
            if is_cut(line, at):
                self.add_word(start + begin, start + at)
                begin = at
        self.add_word(start + begin, end)


def matches_in(text, word, start, end):
    """Where a word stands in a part of a text, one match behind another."""
    matches, free = [], start
    for at in range(start, end + 1):
        if at >= free and at + len(word) <= end and text[at:at + len(word)] == word:
            matches.append((at, at + len(word)))
            free = at + len(word)
    return matches


def marks_of_row(matches, at, row, behind):
    """What a row shows of matches, where the next row begins there: of those that begin in it, or in the spaces behind it
    that are left out, and of those that go on from above."""
    for start, end in matches:
        begins = start >= row.start
        if start < behind and (begins or end > row.start):
            yield Mark(at, max(min(start, row.end) - row.start, 0), max(min(end, row.end) - row.start, 0), begins)


def marks_of(text, rows, word, in_lines):
    """What rows show of a word that is searched for in lines, or in each row by itself."""
    if not in_lines:
        return [mark for at, row in enumerate(rows)
                for mark in marks_of_row(matches_in(text, word, row.start, row.end), at, row, MAX)]
    matches = [match for start, end in lines_of(text) for match in matches_in(text, word, start, end)]
    behind = [row.start for row in rows[1:]] + [MAX]
    return [mark for at, row in enumerate(rows) for mark in marks_of_row(matches, at, row, behind[at])]


def rows_with(marks):
    """The rows in which matches begin, each once."""
    return list(dict.fromkeys(mark.row for mark in marks if mark.begins))


def count_above(marks, row):
    return sum(mark.begins and mark.row < row for mark in marks)


def nth_of(found, start, jump):
    """The place, in a list of rows, that a jump by this many from a row goes to."""
    nearest = next((place for place, row in enumerate(found) if row > start or (jump == 0 and row == start)), 0)
    return (nearest + max(jump - 1, 0)) % len(found) if found else 0


class ShownRow:
    """A row as it is put together, with the characters of a range in reverse."""

    def __init__(self, selected):
        self.text, self.count, self.is_open = '', 0, False
        self.start, self.end = selected

    def show(self, text):
        for character in text:
            if self.count == self.start < self.end:
                self.text += '\x1b[7m'
                self.is_open = True
            if self.count == self.end:
                self.close()
            self.text += character
            self.count += 1

    def close(self):
        if self.is_open:
            self.text += '\x1b[27m'
            self.is_open = False

    def show_part(self, text, marks, start, end):
        """Shows the characters of a text from one up to another, and of each match what is shown of it, in reverse. With no
        end all is shown, and matches of no characters too."""
        for at in range(len(text) + 1):
            for mark in marks:
                is_marked = end is None or max(mark.start, start) < min(mark.end, end)
                self.text += '\x1b[7m' if is_marked and mark.start == at else ''
                self.text += '\x1b[27m' if is_marked and mark.end == at else ''
            if at < len(text) and (end is None or start <= at < end):
                self.show(text[at])
