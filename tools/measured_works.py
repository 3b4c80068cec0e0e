"""The works that measure.py counts: their texts, their sizes, and the words that the programs are given."""
import functools
import itertools
import re
from dataclasses import dataclass, field, replace
from typing import Callable

# between two pushes of a text
SEPARATOR = "\x1e"


class Words:
    """Made-up words, the same on each run."""

    def __init__(self):
        self.state = 42

    def number(self, below):
        self.state = (self.state * 6364136223846793005 + 1442695040888963407) % 2**64
        return (self.state >> 33) % below

    def line(self, start=""):
        """A line of 60 to 100 bytes that ends with a letter."""
        size, text = 60 + self.number(41), start
        while len(text) < size:
            text += "".join(chr(97 + self.number(26)) for _ in range(2 + self.number(8))) + " "
        return text[: size - 1] + "x" if text[size - 1] == " " else text[:size]


@functools.lru_cache(maxsize=8)
def lines(count):
    """Lines of made-up words; each tenth begins with `needle`."""
    words = Words()
    return [words.line("" if line % 10 else "needle ") for line in range(count)]


def text(count):
    return "".join(line + "\n" for line in lines(count))


def block(size):
    return text(size // 70 + 200)[:size]


def changed(size, change):
    """This number of bytes of a changed text, or a little fewer."""
    return change(block(size)).encode()[:size].decode(errors="ignore")


def wide(size):
    """A wide character in the place of each second letter, and nothing in the place of the others."""
    letters = itertools.count()
    letter = lambda m: chr(0x4E00 + 31 * ord(m[0]) % 5000) if next(letters) % 2 else ""
    return changed(size, lambda it: re.sub("[a-z]", letter, it))


def accents(size):
    return changed(size, lambda it: it.replace("e", "é").replace("a", "à"))


def coloured(size):
    """Each word in a colour."""
    return changed(size, lambda it: re.sub("[a-z]+", lambda m: f"\x1b[3{len(m[0]) % 8}m{m[0]}\x1b[0m", it))


def dates(size):
    """Each line begins with a date, and each seventh blank is a hyphen."""
    dated = changed(size, lambda it: re.sub("^", "2026-11-27 09:15:42 ", it, flags=re.M))
    return re.sub("((?: [^ ]*){6}) ", r"\1-", dated)


def trailing(size):
    return changed(size, lambda it: it.replace("\n", " \n"))


def short(size):
    """The first five letters of each line."""
    return "".join(line[:5] + "\n" for line in block(size).split("\n"))


def one_line(size):
    return block(size).replace("\n", " ")


def long_rows(size):
    """A page of 23 lines of this number of bytes."""
    line = one_line(size)
    return (line + "\n") * 23


def pushes(parts):
    return SEPARATOR.join(parts)


def pieces(it, size=10):
    return [it[at : at + size] for at in range(0, len(it), size)]


def line_pushes(count):
    return pushes(line + "\n" for line in lines(count))


def line_pieces(count):
    return pushes(piece for line in lines(count) for piece in pieces(line + "\n"))


def keys(query, end=()):
    """The acts that type a query at the search prompt."""
    return [f"key={key}" for key in ["/", *query, *end]]


TAKEN = keys("needle", ["enter"])
FREQUENT = keys("e", ["enter"])
SELECTED = ["select=3,2", "lead=40,20"]
MIDDLE = ["mark=2000"]


@dataclass
class Work:
    """A work: what it is called, its sizes, the text at a size, and what is done; `each` is what its count is shared
    by. One of our own the original cannot do."""

    what: str
    sizes: list
    text: Callable
    coming: str = "shown"
    before: list = field(default_factory=list)
    acts: list = field(default_factory=list)
    turns: int = 0
    each: str = "size"
    own: bool = False

    def words(self):
        return [self.coming, str(self.turns), *self.before, "--", *self.acts]

    def shares(self, size, given):
        return {"size": size, "turns": self.turns, "bytes": len(given)}[self.each]


def of_pushes(what, sizes, made, before=()):
    return Work(what, sizes, made, "pushed", list(before))


def of_bytes(what, made, size=150_000, before=(), coming="pushed"):
    return Work(what, [size // 2, size], made, coming, list(before), each="bytes")


def of_lines(what, acts, before=(), sizes=(5000, 10_000)):
    return Work(what, list(sizes), text, before=list(before), acts=acts, turns=len(acts))


def of_acts(what, acts, before=(), turns=100, sizes=(5000, 10_000), made=text):
    return Work(what, list(sizes), made, before=list(before), acts=acts, turns=turns, each="turns")


def of_long_rows(what, before=()):
    return of_acts(what, ["redraw"], ["unwrapped", *before], 10, (130_000, 260_000), long_rows)


def of_edits(what, query):
    """A letter typed to a query and removed again; the last line alone begins with a figure."""
    made = lambda count: text(count - 1) + "4999\n"
    return of_acts(what, ["key=9", "key=backspace"], keys(query), 40, (2500, 5000), made)


WORKS = {
    "push": of_pushes("push of a line", [5000, 10_000], line_pushes),
    "push-numbers": of_pushes("push of a line, numbers", [2500, 5000], line_pushes, ["numbers"]),
    "push-nowrap": of_pushes("push of a line, no wrapping", [2500, 5000], line_pushes, ["unwrapped"]),
    "push-follow": of_pushes("push of a line, followed", [2500, 5000], line_pushes, ["following"]),
    "push-term": of_pushes("push of a line, under a term", [5000, 10_000], line_pushes, TAKEN),
    "pieces": of_pushes("line in pieces of 10 bytes", [1000, 2000], line_pieces),
    "tiny": of_pushes("push of 10 bytes, no newline", [400, 800], lambda n: pushes(pieces(one_line(10 * n)))),
    "start": Work("push that waits for a start", [5000, 10_000], line_pushes, "waiting"),
    "block": of_bytes("byte of one push", block, 1_000_000),
    "set": of_bytes("byte of a text set", block, 1_000_000, coming="set"),
    "dates": of_bytes("byte of one push, dates and hyphens", dates),
    "trailing": of_bytes("byte of one push, blanks at line ends", trailing),
    "wide": of_bytes("byte of one push, wide characters", wide),
    "accents": of_bytes("byte of one push, accents", accents),
    "coloured": of_bytes("byte of one push, coloured words", coloured),
    "short": of_bytes("byte of one push, 5 letters a line", short),
    "oneline": of_bytes("byte of one push, one line", one_line, 1_000_000),
    "scroll-cmd": of_acts("scroll by a row, by a command", ["next"], turns=1000),
    "scroll": of_acts("scroll by a row, by the key `j`", ["key=j"], turns=1000),
    "scroll-up": of_acts("scroll by a row, by the key `k`", ["key=k"], ["mark=1000"], turns=1000),
    "pages": of_acts("page down or up", ["key=pagedown", "key=pageup"], MIDDLE),
    "redraw": of_acts("page drawn", ["redraw"], MIDDLE),
    "redraw-numbers": of_acts("page drawn, numbers", ["redraw"], ["numbers", *MIDDLE], sizes=(2500, 5000)),
    "redraw-term": of_acts(
        "page drawn, a term in nearly each row", ["redraw"], [*FREQUENT, *MIDDLE], sizes=(2500, 5000)
    ),
    "redraw-sel": of_acts("page drawn, a selection", ["redraw"], [*MIDDLE, *SELECTED], sizes=(2500, 5000)),
    "redraw-nowrap": of_acts("page drawn, no wrapping", ["redraw"], ["unwrapped", *MIDDLE], sizes=(2500, 5000)),
    "redraw-long": of_long_rows("page drawn, no wrapping, lines of that number of bytes"),
    "redraw-long-term": of_long_rows("the same, a term many times in each", FREQUENT),
    "hscroll": of_acts("a column right or left", ["key=l", "key=h"], ["unwrapped"]),
    "resize": of_lines("line, resized twice", ["size=100,24", "size=80,24"]),
    "numbers-on": of_lines("line, numbers turned on", ["numbers"]),
    "wrap-off": of_lines("line, wrapping turned off", ["unwrapped"]),
    "help": of_acts("help opened or left", ["help"], turns=10),
    "term": of_lines("line, a term taken", ["key=enter"], keys("needle")),
    "next": of_acts("next match", ["key=n"], TAKEN, turns=500),
    # (a text of 5,000 lines has no 500 matches behind the first)
    "prev": of_acts(
        "previous match", ["key=p"], [*TAKEN, "key=5", "key=0", "key=0", "key=n"], turns=500, sizes=(10_000, 20_000)
    ),
    "edits": of_edits("edit of a query, match in the last line", "499"),
    "edits-none": of_edits("edit of a query, no match", "zq"),
    "drag": of_acts("selection dragged", ["drag"], ["select=3,2"]),
    "copy": of_acts("10 rows copied", ["copy"], ["select=3,2", "lead=20,12"], 1, (10_000, 20_000)),
}
# what the original cannot do
OWN = {
    "push-term-lines": of_pushes(
        "push of a line, under a term searched for in lines", [5000, 10_000], line_pushes, ["matchlines", *TAKEN]
    ),
    "term-lines": of_lines(
        "line, a term taken and searched for in lines", ["key=enter"], ["matchlines", *keys("needle")]
    ),
    "redraw-styles": of_acts("page drawn, styles carried", ["redraw"], ["carrystyle", *MIDDLE]),
    "scroll-styles": of_acts("scroll by a row, by the key `j`, styles carried", ["key=j"], ["carrystyle"], turns=1000),
}
WORKS |= {name: replace(work, own=True) for name, work in OWN.items()}
# greatest sizes of processes: a work, and its size
MEMORY = {"push": 100_000, "block": 10_000_000, "set": 10_000_000, "tiny": 8000, "pieces": 20_000, "resize": 100_000}
