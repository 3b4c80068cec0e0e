#!/usr/bin/env python3
"""Measures the pager program beside `less`: tools/measure_pager.py [--runs N] [PROGRAM]

PROGRAM is the built crates/minus_pager/out/minus_pager; bin/minus runs it, in a pseudo terminal of 80 columns and 24
rows. The texts are logs of 1, 10 and 100 MB, lines of 87 bytes on the average, the same in each run. Standard output
gets the tables of docs/MEASURING.md; a run takes a minute. A time ends where the bytes came that it waits for.
"""
import argparse
import fcntl
import os
import platform
import pty
import random
import re
import select
import shutil
import statistics
import string
import struct
import subprocess
import sys
import tempfile
import termios
import time

from measured_tables import commit

TOP = os.path.dirname(os.path.dirname(os.path.abspath(__file__)))
COLS, ROWS = 80, 24
MB = 1_000_000
SIZES = (1, 10, 100)  # of the texts, in MB
PATIENCE = 60  # seconds
QUIET = 0.6  # seconds without a byte, after which a page is whole: a notice may stand before it
RESIZES = ((100, 40), (80, 24)) * 3 + ((100, 40),)  # columns and rows, one after another
KEYS = 40  # keys that are pressed when all of a text was read
# By what a program scrolls by a row: this one by a sequence, less by a new row, down or up.
SCROLLED = re.compile(rb'\x1b\[1[ST]|\x1b\[K|\x1bM')
LEVELS = ('INFO ', 'DEBUG', 'WARN ', 'ERROR')


def line(number, chance):
    """A line of a log, which begins with its number."""
    count = chance.randint(3, 13)
    words = ' '.join(''.join(chance.choices(string.ascii_lowercase, k=chance.randint(2, 9))) for _ in range(count))
    return f'{number:08} 2026-03-02 08:14:07 {chance.choice(LEVELS)} {words}\n'


def make_text(path, size):
    """Writes a log of this many MB: 10,000 lines over and over, each with its own number."""
    chance = random.Random(42)
    lines = [line(0, chance)[8:] for _ in range(10_000)]
    written = number = 0
    with open(path, 'w') as file:
        while written < size * MB:
            text = f'{number:08}{lines[number % len(lines)]}'
            file.write(text)
            written += len(text)
            number += 1
    return number


class Run:
    """A program on a pseudo terminal."""

    def __init__(self, words, raw=False):
        self.bytes = b''
        self.begun = time.perf_counter()
        self.pid, self.terminal = pty.fork()
        if self.pid == 0:
            self.set_size(COLS, ROWS, 0)
            if raw:
                set_raw()
            os.environ['TERM'] = 'xterm-256color'
            os.execvp(words[0], words)

    def set_size(self, cols, rows, terminal=None):
        terminal = self.terminal if terminal is None else terminal
        fcntl.ioctl(terminal, termios.TIOCSWINSZ, struct.pack('HHHH', rows, cols, 0, 0))

    def read(self, seconds):
        """Whether bytes came within this time."""
        if not select.select([self.terminal], [], [], seconds)[0]:
            return False
        try:
            self.bytes += os.read(self.terminal, 65536)
        except OSError:
            return False
        return True

    def wait_for(self, text):
        """The seconds since the start, when this text came."""
        while text not in self.bytes:
            if not self.read(PATIENCE):
                sys.exit(f'measure_pager.py: waited for {text}; what came ends with {self.bytes[-200:]}')
        return time.perf_counter() - self.begun

    def settle(self):
        """The time of the last byte, when no more come."""
        last = time.perf_counter()
        while self.read(QUIET):
            last = time.perf_counter()
        return last

    def press(self, key):
        """The seconds from a key to what it does: the page is scrolled."""
        self.bytes = b''
        pressed = time.perf_counter()
        os.write(self.terminal, key)
        while not SCROLLED.search(self.bytes):
            if not self.read(PATIENCE):
                sys.exit(f'measure_pager.py: no answer to {key}; what came is {self.bytes}')
        return time.perf_counter() - pressed

    def rest(self, seconds):
        """Takes what comes in this time."""
        end = time.perf_counter() + seconds
        while time.perf_counter() < end:
            self.read(max(end - time.perf_counter(), 0))

    def resize(self, cols, rows):
        """The seconds from a new size to the last byte of the new page."""
        begun = time.perf_counter()
        self.set_size(cols, rows)
        self.read(PATIENCE)
        return self.settle() - begun

    def ask(self, keys, answer):
        """The seconds from keys to bytes that have this."""
        self.bytes = b''
        begun = time.perf_counter()
        os.write(self.terminal, keys)
        while answer not in self.bytes:
            if not self.read(PATIENCE):
                sys.exit(f'measure_pager.py: no answer to {keys}; what came ends with {self.bytes[-200:]}')
        return time.perf_counter() - begun

    def reader(self, path):
        """The process that has read of a file, of this one and those below it."""
        end = time.perf_counter() + PATIENCE
        while time.perf_counter() < end:
            left = [self.pid]
            while left:
                pid = left.pop()
                left += [int(child) for child in said(f'/proc/{pid}/task/{pid}/children').split()]
                if how_far(pid, path):
                    return pid
        sys.exit(f'measure_pager.py: nothing reads {path}')

    def end(self):
        """Presses q, and waits for the end."""
        os.write(self.terminal, b'q')
        self.wait_for_end()

    def wait_for_end(self):
        while self.read(PATIENCE):
            pass
        os.waitpid(self.pid, 0)
        os.close(self.terminal)


def set_raw():
    """What bin/minus-run asks `stty` for."""
    mode = termios.tcgetattr(0)
    mode[0] = mode[1] = mode[3] = 0
    mode[6][termios.VMIN] = mode[6][termios.VTIME] = 0
    termios.tcsetattr(0, termios.TCSANOW, mode)


def said(path):
    """What a file of /proc says; nothing where it is gone."""
    try:
        with open(path) as file:
            return file.read()
    except OSError:
        return ''


def number_of(path, name):
    """The number behind a name in a file of /proc; 0 where there is none."""
    return next((int(row.split()[1]) for row in said(path).splitlines() if row.startswith(name)), 0)


def how_far(pid, path):
    """How many bytes of a file a process has read."""
    try:
        fds = [fd for fd in os.listdir(f'/proc/{pid}/fd') if os.path.realpath(f'/proc/{pid}/fd/{fd}') == path]
    except OSError:
        return 0
    return max((number_of(f'/proc/{pid}/fdinfo/{fd}', 'pos:') for fd in fds), default=0)


def first_page(begin, text, runs):
    """The times to the tenth line of the first page."""
    times = []
    for _ in range(runs):
        run = begin(text)
        times.append(run.wait_for(b'00000009 '))
        run.end()
    return times


def last_page(begin, word, text, last, runs):
    """The times to the last line of a text, for a program that begins there."""
    times = []
    for _ in range(runs):
        run = begin(word, text)
        times.append(run.wait_for(f'{last:08} '.encode()))
        run.end()
    return times


def while_loading(begin, text):
    """The seconds until all of a text was read, and those of each key that was pressed meanwhile."""
    run, chance, waits = begin(text), random.Random(7), []
    run.wait_for(b'00000009 ')
    pid, size = run.reader(text), os.path.getsize(text)
    loaded = None
    while not loaded:
        waits.append(run.press(b'jk'[len(waits) % 2:][:1]))
        run.rest(chance.uniform(0.002, 0.012))
        if how_far(pid, text) == size:
            loaded = time.perf_counter() - run.begun
    run.end()
    return loaded, waits


def at_rest(begin, text, loads):
    """The seconds of each key and of each resize, and the memory at rest, its peak, and its peak after the resizes.

    A program that loads a text has read all of it before; after the keys each goes to the end of the text.
    """
    run, chance, waits = begin(text), random.Random(7), []
    run.wait_for(b'00000009 ')
    pid, size = run.reader(text), os.path.getsize(text)
    while loads and how_far(pid, text) < size:
        run.read(0.01)
    run.settle()
    for number in range(KEYS):
        waits.append(run.press(b'jk'[number % 2:][:1]))
        run.rest(chance.uniform(0.02, 0.04))
    os.write(run.terminal, b'G')
    run.settle()
    memory = [number_of(f'/proc/{pid}/status', name) * 1024 for name in ('VmRSS:', 'VmHWM:')]
    resizes = [run.resize(*size) for size in RESIZES]
    memory.append(number_of(f'/proc/{pid}/status', 'VmHWM:') * 1024)
    run.end()
    return waits, resizes, memory


def searches(begin, text, last):
    """The seconds of a search for the last line, for what is in no line, of the next match, and from q to the end."""
    run = begin(text)
    run.wait_for(b'00000009 ')
    run.ask(b'G', f'{last:08} '.encode())
    run.settle()
    run.ask(b'g', b'00000000 ')
    found = run.ask(f'/{last:08}\r'.encode(), f'{last:08}'.encode() + b'\x1b[27m')
    run.settle()
    run.ask(b'g', b'00000000 ')
    missed = run.ask(b'/no such words\r', b'not found')
    os.write(run.terminal, b'\r')
    run.settle()
    run.ask(b'/WARN\r', b'WARN')
    run.settle()
    on = run.ask(b'n', b'WARN')
    run.settle()
    begun = time.perf_counter()
    run.end()
    return found, missed, on, time.perf_counter() - begun


def milliseconds(times):
    """The median, and the least and the greatest where there are more than one."""
    if len(times) == 1:
        return f'{1000 * times[0]:.1f} ms'
    return f'{1000 * statistics.median(times):.1f} ms ({1000 * min(times):.1f} to {1000 * max(times):.1f})'


def row(*cells):
    print('| ' + ' | '.join(cells) + ' |', flush=True)


def print_first_pages(programs, texts, runs):
    row('first page of', *programs, *(f'{name} / `less`' for name in list(programs)[1:]))
    row(*['---'] * (2 * len(programs)))
    for size, (text, _) in texts.items():
        times = [first_page(begin, text, runs) for begin in programs.values()]
        medians = [statistics.median(of) for of in times]
        row(f'{size} MB', *map(milliseconds, times), *(f'{median / medians[0]:.1f}' for median in medians[1:]))
    empty = statistics.median(empty_starts(runs))
    print(f'\n{milliseconds([empty])} of each is the making of a process and its terminal.')


def empty_starts(runs):
    """The times of a process that says at once what a first page is known by."""
    times = []
    for _ in range(runs):
        run = Run(['echo', '00000009 '])
        times.append(run.wait_for(b'00000009 '))
        run.wait_for_end()
    return times


def print_large(programs, text, last, runs):
    """What is measured of one large text, for `less` and for the launcher with the program."""
    size = os.path.getsize(text)
    less, minus = programs['`less`'], programs['`bin/minus`']
    loaded, loading = while_loading(minus, text)
    keys, resizes, memories = zip(at_rest(less, text, False), at_rest(minus, text, True))
    row(f'of {size / MB:.0f} MB', '`less`', '`bin/minus`')
    row('---', '---', '---')
    row('all of it is read after', 'it reads what it shows', f'{loaded:.2f} s')
    last_pages = last_page(less, '+G', text, last, runs), last_page(minus, '+F', text, last, runs)
    row('the last page, from the start, by `+G` and `+F`', *map(milliseconds, last_pages))
    row(f'a key while it is read, of {len(loading)}', '', milliseconds(loading))
    row(f'a key after, of {KEYS}', *map(milliseconds, keys))
    row(f'a resize, of {len(RESIZES)}', *map(milliseconds, resizes))
    done = zip(searches(less, text, last), searches(minus, text, last))
    names = ('a search for the last line', 'for what is in no line', 'the next match', 'from q to the end')
    for name, times in zip(names, done):
        row(name, *(milliseconds([seconds]) for seconds in times))
    for name, number in (('memory at rest', 0), ('its peak', 1), ('its peak after the resizes', 2)):
        of_less, of_minus = memories[0][number], memories[1][number]
        row(name, f'{of_less / MB:.1f} MB', f'{of_minus / MB:.1f} MB, {of_minus / size:.2f} for each byte')


def machine():
    models = (row.split(': ')[1] for row in said('/proc/cpuinfo').splitlines() if row.startswith('model name'))
    model = next(models, 'unknown')
    less = subprocess.run(['less', '--version'], stdout=subprocess.PIPE, text=True).stdout.split('\n')[0]
    shell = os.path.basename(os.path.realpath('/bin/sh'))
    system = f'Linux {platform.release()}; {os.cpu_count()} x {model}; load {os.getloadavg()[0]:.2f}'
    return f'commit {commit()}; {less}; {shell}; {system}'


def main():
    parser = argparse.ArgumentParser(description=__doc__, formatter_class=argparse.RawDescriptionHelpFormatter)
    parser.add_argument('program', nargs='?', default=os.path.join(TOP, 'crates', 'minus_pager', 'out', 'minus_pager'))
    parser.add_argument('--runs', type=int, default=11)
    given = parser.parse_args()
    for name in ('LESS', 'LESSOPEN'):
        os.environ.pop(name, None)
    print(machine() + '\n')
    with tempfile.TemporaryDirectory() as folder:
        launcher = shutil.copy(os.path.join(TOP, 'bin', 'minus'), folder)
        shutil.copy(os.path.join(TOP, 'bin', 'minus-run'), folder)
        program = shutil.copy(given.program, os.path.join(folder, 'minus_pager'))
        # (for the program alone; no window changes its size)
        os.environ['MINUS_TTY'] = f'{COLS} {ROWS}'
        programs = {
            '`less`': lambda *words: Run(['less', *words]),
            'the program alone': lambda *words: Run([program, *words], raw=True),
            '`bin/minus`': lambda *words: Run([launcher, *words]),
        }
        texts = {}
        for size in SIZES:
            text = os.path.join(folder, f'{size}.log')
            texts[size] = text, make_text(text, size) - 1
        print_first_pages(programs, texts, given.runs)
        for size in SIZES[1:]:
            print()
            print_large(programs, *texts[size], given.runs)


if __name__ == '__main__':
    main()
