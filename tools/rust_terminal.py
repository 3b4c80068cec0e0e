"""A program in a pseudo terminal of its own, and what its screen shows: for test_rust.py and beside_original.py."""
import fcntl
import os
import pty
import select
import signal
import struct
import termios
import time

from player import Player
from terminal import take_terminal

PATIENCE = float(os.environ.get('PATIENCE', 30))  # seconds: what has to come may take so long
QUIET = 0.15  # seconds: so long nothing comes before a screen counts as drawn


class Program:
    """A program in a terminal of this number of columns and rows."""

    def __init__(self, words, cols=40, rows=10, folder=None):
        self.player = Player(cols, rows)
        self.bytes = b''
        self.status = self.peak = None
        master, slave = pty.openpty()
        self.master = master
        fcntl.ioctl(master, termios.TIOCSWINSZ, struct.pack('HHHH', rows, cols, 0, 0))
        self.before = termios.tcgetattr(slave)
        self.slave = slave
        self.begun = time.perf_counter()
        self.pid = os.fork()
        if self.pid == 0:
            take_terminal(slave)
            os.environ['TERM'] = 'xterm'
            os.environ.pop('RUST_BACKTRACE', None)
            if folder:
                os.chdir(folder)
            os.execv(words[0], words)

    def read(self, seconds):
        """Plays what comes within this time, and answers whether anything came."""
        if not select.select([self.master], [], [], seconds)[0]:
            return False
        data = os.read(self.master, 65536)
        self.bytes += data
        self.player.play(data)
        return True

    def has_ended(self):
        if self.status is None:
            pid, status, usage = os.wait4(self.pid, os.WNOHANG)
            if pid:
                self.status, self.peak = os.waitstatus_to_exitcode(status), usage.ru_maxrss
        return self.status is not None

    def settle(self):
        """Waits until nothing more is drawn."""
        while self.read(QUIET):
            pass

    def wait(self, condition, what):
        end = time.time() + PATIENCE
        while not condition():
            if time.time() > end:
                raise AssertionError(f'waited for {what}; displayed: {self.player.texts()}; {self.bytes[-300:]}')
            self.read(0.01)

    def wait_for(self, text):
        """Waits until a row has this text."""
        self.wait(lambda: any(text in row for row in self.player.texts()), text)

    def press(self, keys):
        """Sends keys, and waits until what they lead to is drawn."""
        os.write(self.master, keys.encode())
        self.settle()

    def resize(self, cols, rows):
        self.player.resize(cols, rows)
        fcntl.ioctl(self.master, termios.TIOCSWINSZ, struct.pack('HHHH', rows, cols, 0, 0))
        self.settle()

    def rows(self):
        """The displayed rows, the last one without the blanks at its end."""
        return self.player.texts()

    def has_terminal(self):
        """Whether the pager has the terminal: its alternate screen, no cursor, no echo."""
        return bool(self.player.modes.get(1049)) and termios.tcgetattr(self.slave)[3] != self.before[3]

    def is_handed_back(self):
        modes = self.player.modes
        off = not any(modes.get(mode) for mode in (1049, 1000, 1002, 1003, 1006))
        return off and modes.get(25, True) and termios.tcgetattr(self.slave) == self.before

    def end(self):
        """Waits for the end of the program, and answers its status."""
        self.wait(self.has_ended, 'the end')
        self.settle()
        return self.status

    def close(self):
        if not self.has_ended():
            os.kill(self.pid, signal.SIGKILL)
            os.waitpid(self.pid, 0)
        os.close(self.slave)
        os.close(self.master)
