"""A pseudo terminal with a shell in it, and what tests of programs on it have in common."""
import fcntl
import glob
import os
import pty
import re
import select
import shutil
import signal
import struct
import subprocess
import tempfile
import termios
import time
import unittest

import programs
from player import Player, defined_page, push
from programs import TOP

PATIENCE = float(os.environ.get('PATIENCE', 60))  # seconds: what has to come may take so long; no test waits without need


def contents(path):
    with open(path, 'rb') as file:
        return file.read()


def take_terminal(slave):
    """Makes a terminal that of this process, which was forked for it and has no other file then."""
    os.setsid()
    fcntl.ioctl(slave, termios.TIOCSCTTY, 0)
    for fd in range(3):
        os.dup2(slave, fd)
    os.closerange(3, 64)


class Terminal:
    """A shell with job control in a pseudo terminal."""

    def __init__(self, folder, cols=40, rows=8, shell=shutil.which('dash')):
        words = [shell, '-i'] if shell else ['bash', '--noediting', '--norc', '--noprofile', '-i']
        self.player = Player(cols, rows)
        self.program = 'minus_pager'  # whose reads are counted
        self.bytes = b''
        master, slave = pty.openpty()
        self.master, self.slave = master, slave
        self.set_size(cols, rows)
        self.pid = os.fork()
        if self.pid == 0:
            take_terminal(slave)
            os.chdir(folder)
            os.environ.update(PS1='ready> ', TERM='xterm', TMPDIR=folder)
            os.environ.pop('ENV', None)
            os.execvp(words[0], words)
        self.wait(lambda: self.ends_with('ready> '), 'a shell')
        self.before = self.mode()

    def set_size(self, cols, rows):
        fcntl.ioctl(self.master, termios.TIOCSWINSZ, struct.pack('HHHH', rows, cols, 0, 0))

    def resize(self, cols, rows):
        self.player.resize(cols, rows)
        self.set_size(cols, rows)

    def mode(self):
        """What `stty -a` says of the terminal, but its size."""
        said = subprocess.run(['stty', '-a'], stdin=self.slave, stdout=subprocess.PIPE, check=True).stdout
        return re.sub(rb'rows \d+; columns \d+; ', b'', said)

    def send(self, keys):
        os.write(self.master, keys if isinstance(keys, bytes) else keys.encode())

    def read(self, seconds):
        """Plays what comes within this time, and answers whether anything came."""
        if not select.select([self.master], [], [], seconds)[0]:
            return False
        try:
            data = os.read(self.master, 65536)
        except OSError:
            return False
        self.bytes += data
        self.player.play(data)
        return True

    def wait(self, condition, what):
        end = time.time() + PATIENCE
        while not condition():
            if time.time() > end:
                shown = self.player.texts()
                raise AssertionError(f'waited for {what}; displayed: {shown}; bytes end with {self.bytes[-200:]}')
            self.read(0.02)

    def ends_with(self, text):
        return self.bytes.endswith(text.encode())

    def wait_for_prompts(self, told):
        """Types empty lines until the shell says this before a prompt: it knows how a job ended some time after that."""
        def is_told():
            if self.ends_with('ready> ') and told not in self.bytes:
                self.send('\n')
                self.read(1)
            return told in self.bytes and self.ends_with('ready> ')
        self.wait(is_told, told)

    def wait_for(self, text):
        self.wait(lambda: any(text in row for row in self.player.texts()), text)

    def processes(self, name):
        """The processes below the shell whose command names this, each before those that it started."""
        found, left = [], [self.pid]
        while left:
            pid = left.pop()
            try:
                left += [int(p) for p in contents(f'/proc/{pid}/task/{pid}/children').split()]
                words = contents(f'/proc/{pid}/cmdline').split(b'\0')
            except OSError:
                continue
            # (a script stands behind its shell, and the program that it runs behind the script)
            if any(os.path.basename(w).decode(errors='replace') == name for w in words[:2]):
                found.append(pid)
        return found

    def counted(self, name):
        """What the system has counted of the program's reads: how many (syscr), or of how many bytes (rchar)."""
        counts = contents(f'/proc/{self.processes(self.program)[0]}/io').decode()
        return int(re.search(f'{name}: (\\d+)', counts).group(1))

    def send_some(self, keys):
        """Sends what the terminal takes of the keys without a wait, and answers how many these are."""
        try:
            return os.write(self.master, keys)
        except BlockingIOError:
            return 0

    def wait_for_turns(self, count=2):
        """Waits until the program has taken all keys, and has gone through its loop this many times since."""
        unread = lambda: struct.unpack('i', fcntl.ioctl(self.slave, termios.FIONREAD, bytes(4)))[0]
        self.wait(lambda: not unread(), 'the keys to be read')
        # (a turn reads the keys, the size and the text: three times at most)
        end = self.counted('syscr') + 3 * (count + 1)
        self.wait(lambda: self.counted('syscr') >= end, 'turns of the loop')

    def close(self):
        for fd in (self.master, self.slave):
            os.close(fd)
        try:
            os.kill(self.pid, signal.SIGKILL)
        except OSError:
            pass
        os.waitpid(self.pid, 0)


class TerminalTests(unittest.TestCase):
    """What the tests on a terminal share."""
    LINES = ''.join(f'line {n} of the text\n' for n in range(1, 101))

    def setUp(self):
        self.folder = tempfile.mkdtemp(prefix='test_pager.')
        self.addCleanup(shutil.rmtree, self.folder, True)
        for script in ('minus', 'minus-run'):
            shutil.copy(os.path.join(TOP, 'bin', script), self.folder)
        shutil.copy(programs.PAGER, self.folder)
        self.terminal = None

    def tearDown(self):
        if self.terminal:
            self.terminal.close()
            self.terminal = None

    def write(self, name, text):
        path = os.path.join(self.folder, os.fsdecode(name))
        with open(path, 'wb') as file:
            file.write(text if isinstance(text, bytes) else text.encode())
        return path

    def command(self, name, script):
        """Makes a command of a line for `sh`."""
        path = self.write(name, f'#!/bin/sh\n{script}\n')
        os.chmod(path, 0o755)
        return path

    def page(self, command, cols=40, rows=8, **shell):
        """Types a command in a new terminal, and waits for its page."""
        self.tearDown()
        self.terminal = Terminal(self.folder, cols, rows, **shell)
        self.terminal.send(command + '\n')
        # (a pager that ends by itself may have left its screen by then)
        self.terminal.wait(lambda: b'\x1b[?1049h' in self.terminal.bytes, 'the first page')
        return self.terminal

    def press(self, keys):
        self.terminal.send(keys)

    def press_escape(self):
        """Presses Esc alone: the program takes it so in a turn 50 ms after its byte."""
        self.terminal.send('\x1b')
        self.terminal.wait_for_turns()
        time.sleep(0.1)
        self.terminal.wait_for_turns()

    def assert_page(self, text, prompt, *lines):
        """The page is that of the library, for a text, a prompt, and lines of a script. The prompt's last number is the
        part of the text, in bytes, up to its last displayed line."""
        player = self.terminal.player
        place = re.search(r'-(\d+)/\d+  ', prompt)
        if place:
            above = ''.join(text.splitlines(True)[:int(place.group(1))])
            prompt = f'{prompt[:place.end()]}{len(above.encode()) * 100 // len(text.encode())}%'
        script = push(text) + ''.join(line + '\n' for line in lines) + f'prompt {prompt}\n'
        cells = defined_page(player.cols, player.rows, script)
        end = time.time() + PATIENCE
        while player.cells != cells and time.time() < end:
            self.terminal.read(0.05)
        self.assertEqual(player.cells, cells, player.texts())

    def assert_back(self, status):
        """The shell has its terminal back, and the program's status."""
        terminal = self.terminal
        terminal.wait(lambda: terminal.ends_with('ready> '), 'the shell')
        self.assertEqual(terminal.mode(), terminal.before)
        modes = terminal.player.modes
        self.assertTrue(modes.get(25))
        for mode in (1049, 1000, 1002, 1003, 1006):
            self.assertFalse(modes.get(mode), mode)
        terminal.send('echo status=$?\n')
        terminal.wait(lambda: terminal.bytes.count(b'status=') > 1 and terminal.ends_with('ready> '), 'a status')
        self.assertIn(f'status={status}\r'.encode(), terminal.bytes)
        self.assertEqual([n for n in os.listdir(self.folder) if n.startswith('minus.')], [])
        self.assertEqual([p for name in ('minus_pager', 'minus_report') for p in terminal.processes(name)], [])

    def quit(self):
        """Ends the pager by its key."""
        self.press('q')
        self.assert_back(0)

    def open_pipe(self):
        """Makes a pipe that `cat to_come` reads, and answers its other end."""
        path = os.path.join(self.folder, 'to_come')
        os.mkfifo(path)
        return os.open(path, os.O_RDWR)

    def wait_for_reader(self):
        """Waits until `cat` has the pipe open: what is written before that is lost where this end is closed too early."""
        path = os.path.realpath(os.path.join(self.folder, 'to_come'))
        has_it = lambda pid: path in map(os.path.realpath, glob.glob(f'/proc/{pid}/fd/*'))
        self.terminal.wait(lambda: any(map(has_it, self.terminal.processes('cat'))), 'the reader of the pipe')

    def end_pipe(self, writer):
        """The pager ends before the pipe's producer does, and then the shell goes on."""
        self.press('q')
        self.terminal.wait(lambda: not self.terminal.player.modes[1049], 'the main screen')
        os.close(writer)
        self.assert_back(0)

    def suspend(self, keys='\x1a'):
        """Presses Ctrl-Z: the shell has its terminal back."""
        terminal = self.terminal
        terminal.send(keys)
        terminal.wait(lambda: terminal.ends_with('ready> '), 'the shell')
        self.assertEqual(terminal.mode(), terminal.before)
        for mode in (1049, 1000, 1002, 1003, 1006):
            self.assertFalse(terminal.player.modes[mode], mode)

    def resume(self):
        self.terminal.send('fg\n')
        self.terminal.wait(lambda: self.terminal.player.modes[1049], 'the page')

    def page_lines(self):
        """Pages a file of a hundred lines, and waits for its first page."""
        self.write('notes', self.LINES)
        self.page('./minus notes')
        self.terminal.wait_for('1-7/100')
        return self.terminal

    def assert_pages(self, steps):
        """Presses the keys of each step: the page is that of the library for the lines of a script so far, and this
        is the text of the prompt, which is not seen while the search prompt is open."""
        script = []
        for keys, lines, prompt in steps:
            self.press(keys)
            script += lines
            self.assert_page(self.LINES, prompt, *script)

    def assert_printed(self, command, rows):
        """The command prints these rows, below what was typed, and touches nothing else of the terminal."""
        self.tearDown()
        self.terminal = terminal = Terminal(self.folder, 40, 8)
        terminal.send(command + '\n')
        terminal.wait(lambda: terminal.bytes.count(b'ready> ') > 1 and terminal.ends_with('ready> '), 'the shell')
        self.assertNotIn(b'\x1b[?', terminal.bytes)
        shown = [row.rstrip() for row in terminal.player.texts()]
        self.assertEqual(shown[1:len(rows) + 1], rows)
        self.assertEqual(shown[len(rows) + 1], 'ready>')
        self.assertEqual(terminal.mode(), terminal.before)

    def told_size(self):
        """What the launcher tells the program of the terminal's size, once it does."""
        found = glob.glob(os.path.join(self.folder, 'minus.*', 'size'))
        return contents(found[0]).decode() if found else ''

    def page_pipe(self, begin, options=''):
        """Pages a pipe whose producer writes what a command says and then what this test writes: to this descriptor."""
        writer = self.open_pipe()
        self.page(f'({begin}; cat to_come) | ./minus {options}')
        self.wait_for_reader()
        return writer

    def select(self, first, last):
        """Selects with the mouse from one column and row to another, and answers what is copied."""
        before = len(self.terminal.player.copied)
        to = f'{last[0]};{last[1]}'
        self.press(f'\x1b[<0;{first[0]};{first[1]}M\x1b[<32;{to}M\x1b[<0;{to}m')
        self.terminal.wait(lambda: len(self.terminal.player.copied) > before, 'a copied text')
        return self.terminal.player.copied[-1]

    TABS = 'a\tb\t\tc  d\n\t\x1b[31me\tf\x1b[m\tg\n1234567\t  9\n\tend\t\n'

    def end_by(self, name, number, status):
        self.page_lines()
        os.kill(self.terminal.processes(name)[0], number)
        self.assert_back(status)
