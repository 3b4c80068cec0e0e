#!/usr/bin/env python3
"""Tests of cases.py: the form of cases, rows that differ, the plain screen, and what is written into a file."""
import contextlib
import io
import os
import pathlib
import sys
import tempfile
import types
import unittest

sys.path.insert(0, os.path.dirname(os.path.abspath(__file__)))
import case_files
import case_programs
import cases
from plain_rows import TextRows, marks_of
from player import played_rows
import test_all

FILE = r'''# A theme.
let two push a\nb

== a push is displayed
6 x 3
> $two
> push c
page
|a|
|bc|
drawn
|\e[2;1H|
|bc|
9 x 3
fails 2 script line 1

== another one
6 x 3
> push x
exit 1
'''


class Printed:
    """A program that prints the same rows, whatever is asked for."""

    def __init__(self, rows):
        self.given = rows

    def rows(self, run, place, kind):
        if kind == 'fails':
            raise case_files.Fault('fails 3 refused 5')
        return self.given


class WithFile(unittest.TestCase):
    def setUp(self):
        folder = tempfile.TemporaryDirectory()
        self.addCleanup(folder.cleanup)
        self.path = pathlib.Path(folder.name, 'theme.txt')

    def read(self, text=FILE):
        self.path.write_text(text)
        return case_files.read(self.path)

    def fault(self, text):
        with self.assertRaises(case_files.Fault) as told:
            self.read(text)
        return str(told.exception).removeprefix(str(self.path))


class Form(WithFile):
    def test_cases_are_read(self):
        first, second = self.read()
        self.assertEqual([first.title, second.title], ['a push is displayed', 'another one'])
        self.assertEqual([first.count(), second.count()], [2, 1])
        self.assertEqual([run.size for run in first.runs], [('6', '3'), ('9', '3')])
        self.assertEqual(first.runs[0].script(3), (r'push a\nb', 'push c'))
        self.assertEqual([block.rows for block in first.runs[0].steps[2].blocks], [['a', 'bc'], [r'\e[2;1H', 'bc']])
        self.assertEqual(first.runs[1].steps[0].blocks[0].rows, ['2 script line 1'])

    def test_calls_are_read(self):
        [case] = self.read('== sums\ncalls\n> add 1 2\n|3|\n> nothing\n')
        self.assertEqual([block.rows for step in case.runs[0].steps[1:] for block in step.blocks], [['3'], []])
        self.assertEqual(case.count(), 1)

    def test_faulty_lines_are_named(self):
        self.assertEqual(self.fault('== a\n1 x 1\npage\n|a\n'), ':4: no line of a case: |a')
        self.assertEqual(self.fault('== a\n1 x 1\n> $b\n'), ':3: no line of a case: > $b')
        self.assertEqual(self.fault('> a\n'), ':1: no line of a case: > a')
        self.assertEqual(self.fault('== a\n1 x 1\n> b\n'), ':1: no size, or nothing that a script comes to: a')

    def test_rows_are_written(self):
        [first, _] = self.read()
        page, drawn = first.runs[0].steps[2].blocks
        case_files.write(self.path, [(page, ['new']), (drawn, []), (first.runs[1].steps[0].blocks[0], ['3 said'])])
        page, drawn = self.read(self.path.read_text())[0].runs[0].steps[2].blocks
        self.assertEqual([page.rows, drawn.rows], [['new'], []])
        self.assertIn('\nfails 3 said\n', self.path.read_text())


class Differences(WithFile):
    def test_the_rows_that_differ_are_marked(self):
        [_, case] = self.read('== a\n1 x 1\nfails 1\n== b\n6 x 3\n> x\npage\n|a|\n|b|\n')
        wrong, found = cases.differences(Printed(['a', 'c']), case)
        self.assertEqual(wrong, ['  line 7, behind: x', '    page 0: |a|', '  ! page 1: |b|, but it is |c|'])
        self.assertEqual([rows for _, rows in found], [['a', 'c']])
        self.assertEqual(cases.differences(Printed(['a', 'b']), case), ([], []))

    def test_a_fault_is_told(self):
        wrong, found = cases.differences(Printed([]), self.read('== a\n1 x 1\nfails 1\n')[0])
        self.assertEqual((wrong, found), (['  ! line 3, fails: fails 3 refused 5'], []))

    def test_blocks_are_compared_by_their_kind(self):
        self.assertTrue(cases.are_alike('drawn', ['ab', 'c'], ['a', 'bc']))
        self.assertFalse(cases.are_alike('page', ['ab', 'c'], ['a', 'bc']))
        self.assertTrue(cases.are_alike('state', ['mark 1'], ['rows 2', 'mark 1']))
        self.assertFalse(cases.are_alike('state', [], ['mark 1']))

    def test_too_few_cases_fail(self):
        self.path.write_text('# nothing\n')
        with contextlib.redirect_stdout(io.StringIO()) as told:
            sys.argv = ['cases.py', '--least', '2', str(self.path)]
            self.assertTrue(cases.main())
        self.assertEqual(told.getvalue(), 'cases: 0 passed, 0 failed\ncases: at least 2 are to be run\n')


PRINTED = r'''> pager 6 3
> start
d \e[1;1H\e[2J\ra\n
s 4
p a
p 
p 
m mark 0
> push \nb
d \e[2;1H\e[2Kb
s 1
o drawn
p a
p b
p 
m mark 0
> resize 0 1
r 5
> pull
faulty
> calls
> add 1 2
= 3
'''


class Steps(WithFile):
    """Records of minus_cases, and the rows that they hold for the blocks of a file."""

    def stepped(self, text):
        cases_of = self.read(text)
        program = types.SimpleNamespace(run_all=lambda keys: None, printed=lambda words, script: PRINTED)
        stepped = case_programs.Stepped(program)
        stepped.load(cases_of)
        return stepped, cases_of

    def test_blocks_are_compared_with_the_records_of_their_lines(self):
        text = ('== a push\n6 x 3\n> push \\nb\npage\n|a|\n|b|\n||\ndrawn\n|\\e[2;1H\\e[2Kb|\nsettled 1\norder\n|drawn|\nstate\n'
                '|mark 0|\n> resize 0 1\nrefused 5\n> pull\n== a sum\ncalls\n> add 1 2\n|3|\n')
        stepped, [first, second] = self.stepped(text)
        self.assertEqual(cases.differences(stepped, first), ([], []))
        self.assertEqual(cases.differences(stepped, second), ([], []))

    def test_what_is_refused_or_faulty_is_told(self):
        text = '== a push\n6 x 3\n> push \\nb\n> resize 0 1\npage\n> pull\npage\n== a sum\ncalls\n> add 1 2\n|4|\n'
        stepped, [first, second] = self.stepped(text)
        self.assertEqual(cases.differences(stepped, first)[0],
                         ['  ! line 5, page: refused 5', '  ! line 7, page: minus_cases has no such line'])
        self.assertEqual(cases.differences(stepped, second)[0][1], '  ! answer 0: |4|, but it is |3|')

    def test_a_pager_waits_where_a_line_starts_it(self):
        [case] = self.read('== a start\n6 x 3\n> push a\n> start\npage\n6 x 3\n> push a\npage\n')
        self.assertEqual([case_programs.Stepped.lines(run) for run in case.runs],
                         [['pager 6 3', 'push a', 'start'], ['pager 6 3', 'start', 'push a']])

    def test_a_program_that_does_not_end_is_told(self):
        program = case_programs.Program('minus_cases')
        program.path, program.SECONDS = 'sleep', 0.01
        with self.assertRaises(case_files.Fault) as told:
            program.run((('60',), ()))
        self.assertEqual(str(told.exception), 'minus_cases has not ended within 0.01 seconds')


class Rows(unittest.TestCase):
    """The rule for rows, by which the plain pager of random_steps.py goes."""

    def test_a_text_fills_rows(self):
        def rows(text, width):
            return [text[row.start:row.end] for row in TextRows(text, width).rows]
        self.assertEqual(rows('     ab', 4), ['', 'ab'])
        self.assertEqual(rows('well-known fact', 6), ['well-', 'known', 'fact'])
        self.assertEqual(rows('one\n\ntwo three\n', 5), ['one', '', 'two', 'three'])
        self.assertEqual(rows('99-9-', 2), ['99', '-', '9-'])

    def test_a_word_is_found_in_rows_and_in_lines(self):
        text = 'aaaabbbbcccc'
        rows = TextRows(text, 4).rows
        self.assertEqual(marks_of(text, rows, 'ab', False), [])
        self.assertEqual([(mark.row, mark.start, mark.end, mark.begins) for mark in marks_of(text, rows, 'ab', True)],
                         [(0, 3, 4, True), (1, 0, 1, False)])


class Screens(unittest.TestCase):
    def test_a_page_is_played(self):
        drawn = '\x1b[1;1H\x1b[2J\rone\n\rtwo\n\x1b[4;1H\r\x1b[2Kp'
        self.assertEqual(played_rows(4, drawn), ['one', 'two', '', 'p'])
        self.assertEqual(played_rows(4, drawn + '\x1b[1S\x1b[3;1H\x1b[2Knew\x1b[4;1H\x1b[2Kq'), ['two', '', 'new', 'q'])
        self.assertEqual(played_rows(4, drawn + '\x1b[1T'), ['', 'one', 'two', ''])

    def test_a_page_that_is_not_left_fails(self):
        case_programs.check_played([r'\e[1ma', 'b'], '\x1b[1;1H\x1b[1ma\n\rb')
        with self.assertRaises(case_files.Fault):
            case_programs.check_played(['a', 'b'], '\x1b[1;1Ha\n\rc')
        # (a text that clears the screen stands on no row by itself)
        case_programs.check_played([r'a\e[2J'], 'c')

    def test_what_is_drawn_is_cut(self):
        self.assertEqual(case_programs.pieces('\x1b[1;1Ha\n\rb\x1b[2S'), [r'\e[1;1Ha\n', r'\rb', r'\e[2S'])


class Count(unittest.TestCase):
    def test_as_many_cases_are_asked_for_as_there_are(self):
        """A case that is lost fails, and so does one that test_all.py does not count yet."""
        count = sum(case.count() for path in cases.files_of([cases.FOLDER]) for case in case_files.read(path))
        self.assertEqual(test_all.CASES[-1], str(count))


if __name__ == '__main__':
    unittest.main()
