#!/usr/bin/env python3
"""Tests of the pager from C and from Python, in a pseudo terminal: test_c.py [LIBRARY]

LIBRARY is the static library, or the one that `rt lib` makes in crates/minus_c/out. The examples in examples/c are built
over it, each pages a text, and the pages that keys lead to are compared with the rows of the text.
"""
import os
import shutil
import subprocess
import sys
import tempfile
import unittest

from programs import TOP
from terminal import Terminal

LIBRARY = os.path.join(TOP, 'crates', 'minus_c', 'out', 'libminus_c.a')
EXAMPLES = os.path.join(TOP, 'examples', 'c')
INCLUDE = os.path.join(TOP, 'include')
LINES = [f'line {n}' for n in range(1, 31)]


def cc(*words):
    subprocess.run(['cc', '-std=gnu11', '-Wall', '-Wextra', '-Wpedantic', '-Werror', '-I', INCLUDE, *words], check=True)


def build(folder):
    """Builds the program and the shared object."""
    page, heap = (os.path.join(EXAMPLES, name) for name in ('page.c', 'heap.c'))
    cc('-o', os.path.join(folder, 'page'), page, heap, LIBRARY)
    cc('-shared', '-fPIC', '-o', os.path.join(folder, 'libminus.so'), heap, '-Wl,--whole-archive', LIBRARY, '-Wl,--no-whole-archive')
    shutil.copy(os.path.join(EXAMPLES, 'page.py'), folder)


class Pages:
    """What each example does."""

    def setUp(self):
        self.folder = tempfile.mkdtemp(prefix='test_c.')
        self.addCleanup(shutil.rmtree, self.folder, True)
        build(self.folder)
        with open(os.path.join(self.folder, 'text'), 'w') as file:
            file.write('\n'.join(LINES) + '\n')
        self.terminal = Terminal(self.folder, 40, 8)
        self.addCleanup(self.terminal.close)

    def page(self):
        self.terminal.send(self.COMMAND + '\n')
        self.terminal.wait(lambda: self.terminal.player.modes.get(1049), 'the first page')

    def assert_rows(self, first, prompt='minus'):
        """The page shows seven rows of the text, from this one on, and the prompt."""
        wanted = LINES[first:first + 7]
        wanted += [''] * (7 - len(wanted)) + [prompt]
        self.terminal.wait(lambda: [row.strip() for row in self.terminal.player.texts()] == wanted, wanted)

    def test_pages(self):
        self.page()
        self.assert_rows(0)
        for keys, first, prompt in (('j', 1, 'minus'), ('3j', 4, 'minus'), ('k', 3, 'minus'), ('G', 23, 'minus'), ('g', 0, 'minus'),
                                    ('12', 0, 'minus'), ('\r', 12, 'minus')):
            self.terminal.send(keys)
            if keys != '12':
                self.assert_rows(first, prompt)

    def test_reads_a_terminal(self):
        self.page()
        for keys, first in (('\x1b[B', 1), ('\x1bOB', 2), ('\x1b[A', 1), ('\x1b[6~', 8), ('\x1b[<65;3;3M', 13), ('\x1b[<64;3;3M', 8),
                            ('\x1b[<35;10;5Mj', 9), ('\x1b[I\x1bzj', 10)):
            self.terminal.send(keys)
            self.assert_rows(first)
        # Esc alone leaves the search prompt, and a query may have any character.
        self.terminal.send('/\xe9')
        self.terminal.wait(lambda: self.terminal.player.texts()[7] == '/\xe9', 'a query')
        self.terminal.send('\x1b')
        self.assert_rows(10)

    def test_takes_another_size(self):
        self.page()
        self.assert_rows(0)
        self.terminal.resize(30, 5)
        self.terminal.wait(lambda: [row.strip() for row in self.terminal.player.texts()] == [*LINES[:4], 'minus'], 'a page of four rows')
        self.terminal.send('j')
        self.terminal.wait(lambda: self.terminal.player.texts()[0] == 'line 2', 'the second line')

    def test_reads_a_long_text(self):
        with open(os.path.join(self.folder, 'text'), 'a') as file:
            file.writelines(f'a longer line of number {n}\n' for n in range(100_000))
        self.page()
        self.terminal.send('G')
        self.terminal.wait_for('a longer line of number 99999')

    def test_writes_a_text_to_no_terminal(self):
        ran = subprocess.run(self.COMMAND.split(), cwd=self.folder, stdin=subprocess.DEVNULL, capture_output=True, text=True)
        self.assertEqual((ran.stdout.splitlines(), ran.stderr, ran.returncode), ([*LINES, ''], '', 0))

    def test_says_what_is_refused(self):
        with open(os.path.join(self.folder, 'text'), 'wb') as file:
            file.write(b'\xff')
        self.terminal.send(self.COMMAND + '\n')
        self.terminal.wait_for('page: the text is not UTF-8')

    def test_searches(self):
        self.page()
        self.terminal.send('/line 2\r')
        self.terminal.wait(lambda: self.terminal.player.texts()[0] == 'line 2', 'the first match')

    def test_gives_the_terminal_back(self):
        self.page()
        self.terminal.send('q')
        self.terminal.wait(lambda: self.terminal.ends_with('ready> '), 'the shell')
        self.assertEqual(self.terminal.mode(), self.terminal.before)
        for mode in (1049, 1000, 1002, 1003, 1006):
            self.assertFalse(self.terminal.player.modes.get(mode), mode)
        self.assertTrue(self.terminal.player.modes.get(25))
        self.terminal.send('echo status=$?\n')
        self.terminal.wait(lambda: self.terminal.bytes.count(b'status=') > 1 and self.terminal.ends_with('ready> '), 'a status')
        self.assertIn(b'status=0\r', self.terminal.bytes)

    def test_writes_a_text_that_fits(self):
        with open(os.path.join(self.folder, 'text'), 'w') as file:
            file.write('one\ntwo\n')
        self.terminal.send(self.COMMAND + '\n')
        self.terminal.wait(lambda: self.terminal.ends_with('ready> ') and b'two' in self.terminal.bytes, 'the text')
        self.assertNotIn(b'1049', self.terminal.bytes)


class FromC(Pages, unittest.TestCase):
    COMMAND = './page text'


class FromPython(Pages, unittest.TestCase):
    COMMAND = f'{sys.executable} page.py libminus.so text'


if __name__ == '__main__':
    if len(sys.argv) > 1:
        LIBRARY = os.path.abspath(sys.argv.pop(1))
    if not os.path.exists(LIBRARY):
        sys.exit(f'{LIBRARY} is missing: run `rt lib` in crates/minus_c')
    unittest.main()
