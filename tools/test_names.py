#!/usr/bin/env python3
"""Tests that every public name of the crates below `minus`, and of its own modules, stands at the root of `minus`, or, if
it is a law, in its module `laws`."""
import re
import unittest
from pathlib import Path

CRATES = Path(__file__).resolve().parent.parent / "crates"
BELOW = ["minus_term", "minus_text", "minus_state", "minus_input", "minus_draw", "minus_commands"]

# Names that are public for the crates above alone: the parts of a drawing's bytes, which `minus_draw` puts together, what is read of a
# text or a state with a change that was formed for it, which digits are typed, how that is drawn, what commands ask for, and what is
# done with the parts of a session, a page and a pager.
PARTS = {
    "write_closing_start", "write_down_start", "write_page", "write_page_start", "write_prompt_row", "write_row",
    "write_row_end", "write_row_start", "write_up_start",
    "bytes_len", "view_after", "view_of", "count_after", "shown_after", "shown_between", "write_after", "write_between",
    "typed_digit",
    "Drawing", "LastRow", "WholePage", "draw_page", "page_of", "push_step",
    "Handed", "Outcome", "Request", "alloc_of", "call_due", "call_hook", "check_command", "check_size", "end_hook", "exit_of",
    "keep_handed", "keep_waiting", "leave", "outcome_of", "reserve", "set_help", "unmoved",
}

ITEM = re.compile(r"^pub (?:const )?(?:fn|struct|enum|trait|type|const|static) (\w+)|^pub const (\w+):", re.MULTILINE)
MODULE = re.compile(r"^pub mod (\w+);", re.MULTILINE)
USE = re.compile(r"^pub use ([^;]*);", re.MULTILINE)


def used(tree):
    """Returns the names that the tree of a `use` brings: `a::{b, c::D, e as F}` brings b, D and F."""
    return re.findall(r"(\w+)\s*(?=[,}]|$)", tree)


def names(text):
    """Returns the public names of a module, without its modules."""
    items = [item or const for item, const in ITEM.findall(text)]
    return items + [name for tree in USE.findall(text) for name in used(tree)]


def public(file, below):
    """Returns the public names of a module, and those of its public modules, which stand in the folder `below`."""
    text = file.read_text()
    inner = [name for module in MODULE.findall(text) for name in public(below / f"{module}.rt", below / module)]
    return set(names(text) + inner)


def below_root(crate):
    """Returns the public names of a crate."""
    return public(CRATES / crate / "src" / "lib.rt", CRATES / crate / "src")


class Reading(unittest.TestCase):
    def test_what_a_use_brings(self):
        self.assertEqual(used("a::b::C"), ["C"])
        self.assertEqual(used("a::{b, c::D, e as F}"), ["b", "D", "F"])
        self.assertEqual(used("a::{\n    b, c,\n    D,\n}"), ["b", "c", "D"])

    def test_what_a_module_has(self):
        text = "pub fn f<T>() {}\npub(crate) fn g() {}\n    pub fn h() {}\npub const C: u8 = 1;\npub const fn i() {}\npub mod m;\nmod n;\npub use n::{O, p};\n"
        self.assertEqual(names(text), ["f", "C", "i", "O", "p"])


class Names(unittest.TestCase):
    def setUp(self):
        files = [CRATES / "minus" / "src" / name for name in ("lib.rt", "laws.rt")]
        self.root = {name for file in files for name in names(file.read_text())}

    def test_those_below_stand_at_the_root(self):
        for crate in BELOW:
            with self.subTest(crate):
                self.assertEqual(sorted(below_root(crate) - PARTS - self.root), [])

    def test_those_of_its_modules_stand_there(self):
        for file in sorted((CRATES / "minus" / "src").rglob("*.rt")):
            with self.subTest(file.name):
                self.assertEqual(sorted(set(names(file.read_text())) - self.root), [])

    def test_the_parts_stand_below_and_nowhere_else(self):
        self.assertEqual(sorted(PARTS - set().union(*map(below_root, BELOW))), [])
        self.assertEqual(sorted(PARTS & self.root), [])


if __name__ == "__main__":
    unittest.main()
