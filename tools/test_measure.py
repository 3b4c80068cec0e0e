#!/usr/bin/env python3
"""Tests of measure.py: the texts and words of works, what callgrind tells, the tables, and what a check says."""
import contextlib
import io
import os
import sys
import unittest

sys.path.insert(0, os.path.dirname(os.path.abspath(__file__)))
from measure import NotCounted, Run, alike, checked, each_of, parse_collected
from measured_tables import HEAD, Figure, Measured, NoTable
from measured_tables import apart, figures_of, grouped, head_rows, memory_row, row, with_table
from measured_works import SEPARATOR, WORKS, Work
from measured_works import block, coloured, dates, keys, line_pieces, line_pushes, lines, long_rows, text, wide

WORK = Work("scroll", [10, 20], text, acts=["next"], turns=50, each="turns")


class Texts(unittest.TestCase):
    def test_lines_are_the_same_on_each_run(self):
        self.assertEqual(lines(3), lines(30)[:3])
        self.assertTrue(all(60 <= len(line) <= 100 and line[-1] != " " for line in lines(200)))
        self.assertEqual([at for at, line in enumerate(lines(30)) if line.startswith("needle ")], [0, 10, 20])

    def test_texts_have_their_sizes(self):
        self.assertEqual(len(block(12_345)), 12_345)
        self.assertLessEqual(3000 - len(wide(3000).encode()), 3)
        self.assertEqual(len(dates(3000).encode()), 3000)
        self.assertEqual([len(line) for line in long_rows(500).splitlines()], [500] * 23)

    def test_changes(self):
        self.assertEqual(coloured(40)[:15], "\x1b[36mneedle\x1b[0m")
        self.assertTrue(all(line.startswith("2026-11-27") for line in dates(3000).splitlines()[:-1]))
        self.assertLess(dates(3000).count(" "), block(3000).count(" "))

    def test_pushes_make_the_text(self):
        self.assertEqual(line_pushes(5).replace(SEPARATOR, ""), text(5))
        self.assertEqual(line_pieces(5).replace(SEPARATOR, ""), text(5))
        self.assertEqual({len(piece) for piece in line_pieces(5).split(SEPARATOR) if not piece.endswith("\n")}, {10})


class Words(unittest.TestCase):
    def test_words_of_a_work(self):
        self.assertEqual(WORK.words(), ["shown", "50", "--", "next"])
        self.assertEqual(keys("ab", ["enter"]), ["key=/", "key=a", "key=b", "key=enter"])
        self.assertEqual(WORKS["push-numbers"].words(), ["pushed", "0", "numbers", "--"])

    def test_what_a_count_is_shared_by(self):
        self.assertEqual(WORK.shares(20, b"abc"), 50)
        self.assertEqual(WORKS["push"].shares(20, b"abc"), 20)
        self.assertEqual(WORKS["accents"].shares(20, "é".encode()), 2)
        self.assertEqual(each_of("pages", 10, {"here": 500, "original": 250}), {"here": 5, "original": 2.5})


class Told(unittest.TestCase):
    def test_callgrind(self):
        self.assertEqual(parse_collected("==7== Events    : Ir\n==7== Collected : 1234567\n"), 1_234_567)
        self.assertEqual(parse_collected("valgrind: no such file"), 0)

    def test_ends(self):
        here, same, other = Run(3, "rows 1\n"), Run(4, "rows 1\n"), Run(5, "rows 2\n")
        self.assertEqual(alike("push", {"here": here, "original": same}), {"here": 3, "original": 4})
        with contextlib.redirect_stderr(io.StringIO()) as told:
            self.assertEqual(alike("push", {"here": here, "original": other}), {"here": 3})
        self.assertIn("push: the programs ended differently: rows 1, rows 2", told.getvalue())


class Rows(unittest.TestCase):
    def test_a_figure(self):
        self.assertEqual([grouped(it) for it in (8.04, 24.23, 999.9, 8431.2)], ["8.04", "24.2", "999.9", "8,431"])

    def test_all_columns(self):
        measured = Measured(20, {"here": 3000, "original": 2000}, 1.0)
        self.assertEqual(row("scroll", WORK, measured), "| scroll (`scroll`) | 20 | 3,000 | 2,000 | 1.50 | 1.00 |")

    def test_this_program_alone(self):
        measured = Measured(20, {"here": 3000}, None)
        self.assertEqual(row("scroll", WORK, measured), "| scroll (`scroll`) | 20 | 3,000 | | | |")

    def test_memory(self):
        first = "| push of a line (`push`) | 100,000 | 3.0 |"
        self.assertEqual(memory_row("push", {"here": 3e6, "original": 6e6}), f"{first} 6.0 | 0.50 |")
        self.assertEqual(memory_row("push", {"here": 3e6}), f"{first} | |")

    def test_a_table_takes_the_place_of_that_with_its_head(self):
        document = "# A\n\n| a | b |\n|---|---|\n| 1 | 2 |\n\ntext | b\n"
        table = ["| a | b |", "|---|---|", "| 3 | 4 |", "| 5 | 6 |"]
        first = with_table(document, table, "Made at commit 1.")
        self.assertEqual(first, "# A\n\nMade at commit 1.\n\n| a | b |\n|---|---|\n| 3 | 4 |\n| 5 | 6 |\n\ntext | b\n")
        self.assertEqual(with_table(first, table, "Made at commit 2."), first.replace("1.", "2."))
        with self.assertRaises(NoTable):
            with_table("# A\n", table, "Made at commit 1.")


class Counted:
    """Stands for the runs of all works: what each takes is said before, but for those that cannot be counted."""

    def __init__(self, takes):
        self.takes = takes

    def runs(self, measure, name, size):
        return name

    def taken(self, runs, name):
        if runs not in self.takes:
            raise NotCounted("status 1")
        return {"here": self.takes[runs]}


class Checks(unittest.TestCase):
    def test_a_document_is_read_as_it_was_made(self):
        measured = [row("push", WORKS["push"], Measured(10_000, {"here": 5812.4, "original": 10_985}, 1.0))]
        measured += [row("block", WORKS["block"], Measured(1_000_000, {"here": 8.04}, None))]
        document = "\n".join(["# A", "", *head_rows(HEAD), *measured, "", "| a | b |", "|---|---|", "| 1 | 2 |"])
        self.assertEqual(figures_of(document), {"push": Figure(10_000, 5812), "block": Figure(1_000_000, 8.04)})

    def test_no_table_and_no_figures(self):
        for document in ("# A\n", "\n".join([*head_rows(HEAD), "| push of a line | 10 | 7 |"])):
            with self.assertRaises(NoTable):
                figures_of(document)

    def test_works_of_the_table_or_the_tool_alone(self):
        figures = {name: Figure(1, 1) for name in WORKS if name != "push"} | {"gone": Figure(1, 1)}
        self.assertEqual(apart(figures, WORKS), ["gone: the tool has no such work", "push: the table has no such work"])

    def test_a_work_may_cost_5_in_100_more(self):
        figures = {"push": Figure(10, 1000), "pages": Figure(10, 1000), "redraw": Figure(10, 1000)}
        self.assertEqual(checked(Counted({"push": 10_500, "pages": 100_000, "redraw": 95_000}), figures), ([], []))
        faults, notes = checked(Counted({"push": 10_510, "pages": 94_000}), figures)
        above = "push takes 1,051, and 1,000 in the table: 5.1 in 100 more"
        self.assertEqual(faults, [above, "redraw: not counted: status 1"])
        self.assertEqual(notes, ["pages takes 940.0, and 1,000 in the table: make the table again"])


if __name__ == "__main__":
    unittest.main()
