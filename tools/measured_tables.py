"""The tables that measure.py makes and docs/MEASURING.md has: their rows, and what a document's table says."""
import os
import re
import subprocess
from dataclasses import dataclass

from measured_works import MEMORY, WORKS

HEAD = ["work", "size", "here, each", "original, each", "here / original", "growth"]
MEMORY_HEAD = ["work", "size", "here, MB", "original, MB", "here / original"]
# by how many in 100 a work may cost more than the table says
MARGIN = 5
FIGURES = re.compile(r"\| .*\(`([\w-]+)`\) \| ([\d,]+) \| ([\d,.]+) \|")
MADE = "Made at commit "
TOP = os.path.dirname(os.path.dirname(os.path.abspath(__file__)))


class NoTable(Exception):
    """A document that has no table with a head, or a row of it that has no figures."""


@dataclass
class Measured:
    """What was measured of a work: the size, the instructions of each by program, and their growth."""

    size: int
    each: dict
    growth: float | None


@dataclass
class Figure:
    """What a table says of a work: the size, and the instructions of each."""

    size: int
    each: float


def commit():
    """The last commit that changed the crates, and whether they have changed since."""
    told = lambda *words: subprocess.run(["git", "-C", TOP, *words], capture_output=True, text=True, check=True).stdout
    changed = " and a change" if told("status", "--porcelain", "--", "crates") else ""
    return told("log", "-1", "--format=%h", "--", "crates").strip() + changed


def grouped(number):
    """A figure with commas, and with decimals where it is small."""
    places = 0 if number >= 1000 else 1 if number >= 10 else 2
    return f"{number:,.{places}f}"


def ratio(here, original):
    """One by the other, where both are known."""
    return f"{here / original:.2f}" if here and original else ""


def row(name, work, measured):
    """A row of the table."""
    here, original = measured.each["here"], measured.each.get("original")
    figures = [grouped(each) if each else "" for each in (here, original)]
    growth = f"{measured.growth:.2f}" if measured.growth else ""
    return in_row([f"{work.what} (`{name}`)", f"{measured.size:,}", *figures, ratio(here, original), growth])


def memory_row(name, taken):
    """A row of the table of memory."""
    sizes = [f"{taken[side] / 1e6:.1f}" if side in taken else "" for side in ("here", "original")]
    share = ratio(taken["here"], taken.get("original"))
    return in_row([f"{WORKS[name].what} (`{name}`)", f"{MEMORY[name]:,}", *sizes, share])


def head_rows(head):
    return [in_row(head), "|" + "---|" * len(head)]


def in_row(cells):
    """A row of a table in Markdown."""
    return "|" + "".join(f" {cell} |" if cell else " |" for cell in cells)


def place_of(rows, head):
    """Where the table with this head begins and ends in the rows of a document."""
    if head not in rows:
        raise NoTable(f"no table has the head {head}")
    first = rows.index(head)
    return first, next((at for at in range(first, len(rows)) if not rows[at].startswith("|")), len(rows))


def with_table(document, table, made):
    """The document with a table in the place of the one that has the same head, and above it how it was made."""
    rows = document.split("\n")
    first, end = place_of(rows, table[0])
    if rows[first - 2].startswith(MADE):
        first -= 2
    return "\n".join([*rows[:first], made, "", *table, *rows[end:]])


def figures_of(document):
    """The figures of the table of works in a document, by name."""
    rows = document.split("\n")
    first, end = place_of(rows, in_row(HEAD))
    figures = {}
    for line in rows[first + 2 : end]:
        found = FIGURES.match(line)
        if not found:
            raise NoTable(f"no figures stand in the row {line}")
        name, size, each = found.groups()
        figures[name] = Figure(int(size.replace(",", "")), float(each.replace(",", "")))
    return figures


def apart(figures, names):
    """Which works the table alone has, and which of these names the tool alone."""
    unknown = [f"{name}: the tool has no such work" for name in figures if name not in WORKS]
    return unknown + [f"{name}: the table has no such work" for name in names if name not in figures]


def is_above(each, figure):
    """Whether a work costs more than the table lets it."""
    return each > figure.each * (1 + MARGIN / 100)


def is_below(each, figure):
    """Whether a work costs so much less that the table no longer guards it."""
    return each < figure.each * (1 - MARGIN / 100)
