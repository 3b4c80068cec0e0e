#!/usr/bin/env python3
"""Tests of programs over rust/minus in a pseudo terminal: test_rust.py FOLDER

FOLDER has the built examples of rust/minus, such as target/debug/examples. test_rust.sh runs this.
"""
import os
import sys
import tempfile
import unittest

from rust_terminal import Program

FOLDER = None


class ProgramTests(unittest.TestCase):
    def run_example(self, name, *words, **size):
        program = Program([os.path.join(FOLDER, name), *words], **size)
        self.addCleanup(program.close)
        return program

    def assert_rows(self, program, rows, first=0):
        """The screen comes to show these rows, from this one on."""
        program.wait(lambda: program.rows()[first:first + len(rows)] == rows, rows)

    def assert_end(self, program, status):
        self.assertEqual(program.end(), status)
        self.assertTrue(program.is_handed_back())

    def test_a_long_text_is_paged(self):
        program = self.run_example('static_text', '200', cols=30, rows=6)
        program.wait_for('numbers')
        self.assertTrue(program.has_terminal())
        self.assert_rows(program, [f'this is line {n}' for n in range(1, 6)] + ['numbers'])
        program.press('jj')
        self.assert_rows(program, ['this is line 3', 'this is line 4', 'this is line 5'])
        program.press('G')
        self.assert_rows(program, ['this is line 200'], 4)
        program.press('50G')
        self.assert_rows(program, ['this is line 50'])
        program.press('/line 12.\r')
        self.assert_rows(program, ['this is line 120'])
        program.press('n')
        self.assert_rows(program, ['this is line 121'])
        program.press('q')
        self.assert_end(program, 0)

    def test_a_text_that_fits_is_written(self):
        program = self.run_example('static_text', '3', cols=30, rows=6)
        self.assert_end(program, 0)
        self.assert_rows(program, [f'this is line {n}' for n in range(1, 4)])
        self.assertNotIn(1049, program.player.modes)

    def test_a_thread_feeds_a_pager(self):
        program = self.run_example('fed_by_a_thread', cols=40, rows=8)
        program.wait_for('reading 0')
        program.press('G')
        program.wait_for('all was read')
        program.press('G')
        program.wait(lambda: program.rows()[6].split() == ['101.', 'reading', '100:', '10000'], 'the last line')
        # Enter lets the message go.
        program.press('\r')
        self.assert_rows(program, ['a feed'], 7)
        program.press('q')
        self.assert_end(program, 0)

    def test_a_file_is_read(self):
        with tempfile.NamedTemporaryFile('w', suffix='.txt') as file:
            file.write(''.join(f'row {n} of a file\n' for n in range(1000)))
            file.flush()
            program = self.run_example('less_like', file.name, cols=60, rows=8)
            program.wait_for('row 6')
            def is_at_end():
                # (a thread reads the file on)
                program.press('G')
                return program.rows()[6] == 'row 999 of a file'
            program.wait(is_at_end, 'the last row')
            program.resize(50, 5)
            self.assert_rows(program, ['row 993 of a file'])
            program.press('q')
            self.assert_end(program, 0)

    def test_no_file_has_a_status(self):
        program = self.run_example('less_like')
        self.assertEqual(program.end(), 2)

    def test_closures_decide_about_keys(self):
        program = self.run_example('own_keys', cols=30, rows=6)
        program.wait_for('own keys')
        program.press('xx')
        self.assert_rows(program, ['row 6'])
        program.press('5j')
        self.assert_rows(program, ['row 11'])
        program.press('e')
        self.assert_rows(program, ['row 99'], 4)
        program.press('g/row')
        self.assert_rows(program, ['row 0'])
        program.press(' 7')
        self.assert_rows(program, ['row 7'])
        program.press('\r')
        self.assert_rows(program, ['row 7'])
        program.press('q')
        self.assert_end(program, 0)

    def test_the_help_is_that_of_the_register(self):
        program = self.run_example('own_keys', cols=60, rows=40)
        program.wait_for('own keys')
        program.press('M')
        program.wait_for('COMMAND SUMMARY')
        program.wait_for('three rows down')
        program.press('q')
        self.assert_rows(program, ['row 0'])
        program.press('q')
        self.assert_end(program, 0)

    def test_hooks_are_called(self):
        program = self.run_example('hooks', cols=30, rows=11)
        program.wait_for('row 9')
        program.press('jGq')
        self.assert_end(program, 0)
        self.assert_rows(program, [
            'PrePagerStart at 0', 'PostPagerStart at 0', 'EofReached at 20', 'PrePagerExit at 20', 'exit callback',
            'PostPagerExit at 20'])

    def test_a_panic_of_a_callback_hands_the_terminal_back(self):
        program = self.run_example('panics', cols=60, rows=8)
        program.wait_for('press p')
        program.press('p')
        self.assert_end(program, 101)
        program.wait_for('a callback gives up')

    def test_a_panic_of_a_thread_hands_the_terminal_back(self):
        program = self.run_example('panics', 'thread', cols=60, rows=8)
        program.wait_for('a thread gives up')
        program.wait_for('the pager has ended')
        self.assert_end(program, 0)


if __name__ == '__main__':
    FOLDER = os.path.abspath(sys.argv.pop(1))
    unittest.main()
