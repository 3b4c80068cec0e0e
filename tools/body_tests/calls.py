"""Which crates are tried when, and what the words of a call name."""
import os
import tempfile
import unittest
from types import SimpleNamespace

from wrong_bodies import given_by, in_turn, told_by


class Turns(unittest.TestCase):
    low, high = SimpleNamespace(name="low"), SimpleNamespace(name="high")

    def told(self, text):
        with tempfile.NamedTemporaryFile("w") as file:
            file.write(text)
            file.flush()
            return told_by(file.name)

    def test_a_proved_or_kept_crate_is_told(self):
        said = "== low\nrt: low proved\nrt: mid is kept: an earlier run\nrt: high NOT PROVED\nrt: low: its tests are proved\n"
        self.assertEqual(self.told(said), ({"low", "mid"}, False))
        self.assertEqual(self.told("rt ci: ended\n"), (set(), True))
        self.assertEqual(told_by("no such file"), (set(), False))

    def test_a_crate_waits_for_the_one_below_it(self):
        begun = []

        def call(crate):
            begun.append(crate)
            return [f"{crate.name}/a: FAILED"]

        lines = in_turn([self.high, self.low], lambda: 2, lambda it: it is self.low or self.low in begun, lambda: False, call)
        self.assertEqual(begun, [self.low, self.high])
        self.assertEqual(lines, ["low/a: FAILED", "high/a: FAILED"])

    def test_a_crate_that_cannot_begin_is_said_at_the_end(self):
        lines = in_turn([self.high, self.low], lambda: 1, lambda it: it is self.low, lambda: True, lambda it: [])
        self.assertEqual(lines, ["high: no body was tried: a crate below it is not proved"])


class Calls(unittest.TestCase):
    def setUp(self):
        held = tempfile.TemporaryDirectory()
        self.addCleanup(held.cleanup)
        self.top = held.name
        for file in ("one/wrong-bodies/a.edit", "one/wrong-bodies/b.edit", "one/wrong-bodies/notes", "one/must-fail/c.edit", "two/src/lib.rt"):
            os.makedirs(os.path.dirname(f"{self.top}/crates/{file}"), exist_ok=True)
            with open(f"{self.top}/crates/{file}", "w", encoding="utf-8"):
                pass
        with open(f"{self.top}/crates.txt", "w", encoding="utf-8") as out:
            out.write("# Each crate: lowest first.\none: regex\ntwo staticlib: one\n")

    def files(self, *names):
        return {"one": [f"{self.top}/crates/one/{it}" for it in names]}

    def refused(self, *words):
        with self.assertRaises(SystemExit) as ended:
            given_by(words, self.top)
        # (a text is printed, and ends with 1)
        return ended.exception.code

    def test_no_name_is_each_crate_with_bodies(self):
        for words in ([], ["one"]):
            self.assertEqual(given_by(words, self.top), self.files("wrong-bodies/a.edit", "wrong-bodies/b.edit"))

    def test_a_file_is_a_path_or_stands_among_the_crates_bodies(self):
        words = ["one", "b.edit", "c.edit", f"{self.top}/crates/one/wrong-bodies/a.edit"]
        self.assertEqual(given_by(words, self.top), self.files("wrong-bodies/b.edit", "must-fail/c.edit", "wrong-bodies/a.edit"))

    def test_an_unknown_name_is_said(self):
        self.assertIn("no crate 'on'", self.refused("on"))
        self.assertIn("no crate '--prove'", self.refused("--prove"))
        self.assertIn("no file 'd.edit'", self.refused("one", "a.edit", "d.edit"))
        self.assertIn("no file 'two'", self.refused("one", "two"))

    def test_nothing_to_try_is_said(self):
        self.assertIn("nothing to try", self.refused("two"))
        for it in ("a", "b"):
            os.remove(f"{self.top}/crates/one/wrong-bodies/{it}.edit")
        self.assertIn("nothing to try", self.refused())
