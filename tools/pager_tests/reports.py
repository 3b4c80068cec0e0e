"""Tests of minus_report."""
import os
import shutil
import subprocess

import programs
from terminal import TerminalTests


class ReportTests(TerminalTests):
    """A program with a key of its own, run by minus-run."""

    TEXT = ''.join(f'error {n}\n' if n % 20 == 7 else f'line {n}\n' for n in range(100))

    def setUp(self):
        super().setUp()
        shutil.copy(programs.REPORT, self.folder)

    def test_a_key_of_its_own(self):
        self.write('report', self.TEXT)
        self.page('./minus-run minus_report <report', cols=60)
        self.assert_page(self.TEXT, 'report  94-100/100  ', 'follow on')
        # (the first error of all, since none is behind the last page: a move up, which ends following)
        for keys, mark in (('e', 7), ('e', 27), ('12j', 39), ('e', 47), ('G', 93), ('e', 7)):
            self.press(keys)
            self.assert_page(self.TEXT, f'report  {mark + 1}-{mark + 7}/100  {mark + 7}%', f'mark {mark}')
        # (while the search prompt is open the key is a letter of the query)
        self.press('/error 4\r')
        self.assert_page(self.TEXT, 'report  48-54/100  ', 'mark 7', 'type /error 4', 'key enter')
        self.press('M')
        self.terminal.wait_for('COMMAND SUMMARY')
        self.press('G')
        self.terminal.wait_for('go to the next error')
        self.press('e')
        self.terminal.program = 'minus_report'
        self.terminal.wait_for_turns()
        self.terminal.wait_for('go to the next error')
        self.press('q')
        self.terminal.wait_for('48-54/100')
        self.quit()

    def test_a_report_is_followed(self):
        writer = self.open_pipe()
        self.page('(seq 20; cat to_come) | ./minus-run minus_report')
        self.wait_for_reader()
        self.terminal.wait_for('14-20/20')
        os.write(writer, b'error: late\n')
        self.terminal.wait_for('15-21/21')
        self.press('g')
        self.terminal.wait_for('1-7/21')
        self.suspend()
        self.terminal.resize(30, 12)
        self.resume()
        self.terminal.wait_for('1-11/21')
        self.press('e')
        self.terminal.wait_for('11-21/21')
        self.end_pipe(writer)

    def test_its_words_are_its_own(self):
        report = os.path.join(self.folder, 'minus-run'), 'minus_report', '-x', 'two words'
        run = subprocess.run(report, input=b'a\tb\n', capture_output=True)
        self.assertEqual((run.returncode, run.stdout, run.stderr), (0, b'a       b\n', b''))

    def test_no_such_program(self):
        run = subprocess.run([os.path.join(self.folder, 'minus-run'), 'none'], capture_output=True)
        self.assertEqual((run.returncode, run.stderr.count(b'\n')), (127, 1))
