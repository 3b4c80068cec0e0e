"""What is kept and recorded of bodies that were refused, over stand-ins for a kit and for what rt keeps."""
import contextlib
import io
import os
import tempfile
import unittest
from types import SimpleNamespace
from unittest import mock

from body_places import read
from body_record import RECORD, names_no_body, recorded, write_record
from body_tests.source import SOURCE, body, write
from wrong_bodies import bodies_of, untried

TOP = os.path.dirname(os.path.dirname(os.path.dirname(os.path.abspath(__file__))))


class Keeping(unittest.TestCase):
    def setUp(self):
        held = tempfile.TemporaryDirectory()
        self.addCleanup(held.cleanup)
        self.top = held.name
        self.low = self.crate_of("low", [])
        self.crate = self.crate_of("k", [self.low])
        self.kit = self.kit_of("kit", "a compiler")
        write(self.top, "a.edit", "file: src/m.rt\nold: 1\nnew: 9\n")

    def crate_of(self, name, below):
        write(self.top, f"{name}/src/m.rt", SOURCE)
        folder = f"{self.top}/{name}"
        return SimpleNamespace(name=name, folder=folder, said={}, deps=below, of_kit=[], below=lambda: below)

    def kit_of(self, name, compiler):
        files = ("KIT-ID", "WHAT", "bin/rt", "bin/rtlib.py", "rlibs/std.rlib/format")
        for file, text in {**dict.fromkeys(files, "a text"), "bin/rattle": compiler}.items():
            write(self.top, f"{name}/{file}", text)
        return f"{self.top}/{name}"

    def change(self, crate, old, new):
        write(crate.folder, "src/m.rt", read(f"{crate.folder}/src/m.rt").replace(old, new))

    def name(self):
        kept = SimpleNamespace(of_edit=lambda file, sum: repr((sum, read(file))))
        return bodies_of(SimpleNamespace(KIT=self.kit), kept, self.crate, [f"{self.top}/a.edit"], {})[0].kept_as

    def test_a_name_is_made_of_all_that_a_try_reads(self):
        changes = [
            lambda: self.change(self.crate, "        2", "        3"),
            lambda: self.change(self.crate, "fn put(&mut self) -> usize", "fn put(&mut self) -> u8"),
            lambda: self.change(self.crate, "LIMIT: usize = 3", "LIMIT: usize = 4"),
            lambda: self.change(self.low, "LIMIT: usize = 3", "LIMIT: usize = 4"),
            lambda: self.change(self.low, "pub fn free(n: usize)", "pub fn free(n: u8)"),
            lambda: write(self.crate.folder, "proofs/m/free/Answers.antt", "pub returns : goal.returns\n"),
            lambda: write(self.crate.folder, "proofs/Laws.antt", "a law"),
            lambda: write(self.low.folder, "specs/Low.antt", "a definition"),
            lambda: write(self.top, "a.edit", "file: src/m.rt\nold: 1\nnew: 8\n"),
            lambda: setattr(self, "kit", self.kit_of("other", "another compiler")),
        ]
        names = [self.name()]
        for change in changes:
            change()
            names.append(self.name())
        self.assertEqual(len(set(names)), 1 + len(changes))
        for function in ("bodies_of", "place_of", "read_body", "read_by", "judge"):
            self.assertTrue(all(f"def {function}(" in it for it in names))

    def test_a_name_stays_where_another_function_has_another_body(self):
        name = self.name()
        for crate in (self.crate, self.low):
            self.change(crate, "        5", "        6")
            self.change(crate, "pub trait Named", "// A comment.\npub trait Named")
            write(crate.folder, "proofs/m/FaultFromFmtError/from/Answers.antt", "pub returns : goal.returns\n")
        self.change(self.low, "        1", "        9")
        self.assertEqual(self.name(), name)

    def test_a_body_that_makes_a_constant_is_read_by_each(self):
        self.change(self.low, "pub fn free", "pub const fn free")
        name = self.name()
        self.change(self.low, "        2", "        3")
        self.assertNotEqual(self.name(), name)

    def test_a_body_outside_a_function_reads_all_of_its_crate(self):
        write(self.top, "a.edit", "file: src/m.rt\nold: 3\nnew: 9\n")
        names = [self.name()]
        for crate in (self.crate, self.low):
            self.change(crate, "        5", "        6")
            names.append(self.name())
        self.assertEqual([it == names[1] for it in names], [False, True, True])

    def test_a_name_is_that_of_another_machine(self):
        name = self.name()
        with tempfile.TemporaryDirectory() as elsewhere:
            os.rename(f"{self.top}/k", f"{elsewhere}/k")
            os.utime(f"{elsewhere}/k/src/m.rt", (0, 0))
            self.crate.folder = f"{elsewhere}/k"
            self.kit = self.kit_of("moved", "a compiler")
            self.assertEqual(self.name(), name)
            os.rename(f"{elsewhere}/k", f"{self.top}/k")

    def test_where_the_kit_keeps_nothing_every_body_is_tried(self):
        bodies = bodies_of(None, None, self.crate, [f"{self.top}/a.edit"], {})
        self.assertEqual([it.kept_as for it in bodies], [""])
        self.assertEqual(untried(None, self.crate, bodies, {"k/a.edit": "1"}), bodies)


class Recording(unittest.TestCase):
    crate = SimpleNamespace(name="k")

    def untried(self, bodies, record, earlier=(), is_anew=False):
        """Returns the bodies that are tried, where chance takes none of the record, and what is said of the others."""
        kept = SimpleNamespace(tried={it: ("refused", "why") for it in earlier}.get, anew=is_anew)
        with contextlib.redirect_stdout(io.StringIO()) as said, mock.patch("wrong_bodies.is_sampled", lambda: False):
            left = untried(kept, self.crate, bodies, record)
        return left, said.getvalue()

    def bodies(self, *names):
        found = [body(it, "f") for it in names]
        for it in found:
            it.kept_as = f"sum-of-{it.label}"
        return found

    def test_who_was_refused_in_an_earlier_run_is_not_tried(self):
        earlier, other = self.bodies("a", "b")
        left, said = self.untried([earlier, other], {}, earlier=["sum-of-a"])
        self.assertEqual((left, said), ([other], "k/a: refused, in an earlier run: why\n"))

    def test_who_stands_in_the_record_is_not_tried(self):
        recorded, other = self.bodies("a", "b")
        left, said = self.untried([recorded, other], {"k/a": "sum-of-a"})
        self.assertEqual((left, said), ([other], f"k/a: refused, by {RECORD}\n"))

    def test_a_body_whose_recorded_sum_was_altered_is_tried(self):
        bodies = self.bodies("a", "b")
        # (a sum counts for its own body alone)
        for altered in ("sum-of-A", "sum-of-b"):
            left, said = self.untried(bodies, {"k/a": altered, "k/b": "sum-of-b"})
            self.assertEqual(left, bodies[:1])
            self.assertIn(f"k/a: tried, since {RECORD} has another sum\n", said)

    def test_one_in_ten_of_the_record_is_tried(self):
        bodies = self.bodies(*map(str, range(2000)))
        record = {f"k/{it.label}": it.kept_as for it in bodies}
        with contextlib.redirect_stdout(io.StringIO()) as said:
            left = untried(SimpleNamespace(tried={}.get, anew=False), self.crate, bodies, record)
        self.assertTrue(100 < len(left) < 300)
        self.assertEqual(said.getvalue().count(f": refused, by {RECORD}\n"), len(bodies) - len(left))

    def test_anew_tries_all(self):
        bodies = self.bodies("a", "b")
        record = {f"k/{it.label}": it.kept_as for it in bodies}
        self.assertEqual(self.untried(bodies, record, is_anew=True)[0], bodies)

    def test_a_record_is_read_as_it_was_written(self):
        with tempfile.TemporaryDirectory() as top:
            self.assertEqual(recorded(top), {})
            write(top, "tools/README", "")
            write_record(top, {"b/two.edit": "2", "a/one.edit": "1"})
            self.assertEqual(read(f"{top}/{RECORD}"), "a/one.edit 1\nb/two.edit 2\n")
            self.assertEqual(recorded(top), {"a/one.edit": "1", "b/two.edit": "2"})
            write(top, "crates/a/wrong-bodies/one.edit", "")
            self.assertEqual(names_no_body(top), ["b/two.edit"])

    def test_each_line_of_the_record_names_a_body(self):
        lines = read(f"{TOP}/{RECORD}").splitlines() if recorded(TOP) else []
        self.assertEqual(names_no_body(TOP), [])
        self.assertEqual(lines, [f"{name} {sum}" for name, sum in sorted(recorded(TOP).items())])
