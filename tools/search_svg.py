#!/usr/bin/env python3
"""Draws docs/search.svg, the picture of a search while it is typed: tools/search_svg.py [PROGRAM]

Runs `bin/minus -N server.log` over the log of tools/page_svg.py in a pseudo terminal, types a query without Enter, plays
what the terminal is sent, and draws the cells, the one under the cursor in reverse. PROGRAM is the built
crates/minus_pager/out/minus_pager. Each run writes the same file.
"""
import fcntl
import os
import pty
import select
import shutil
import struct
import sys
import tempfile
import termios

from page_svg import COLS, ROWS, SILENCE, TOP, log, picture
from player import Player

WORDS = ['./minus', '-N', '+20', 'server.log']
TYPED = '/not sen'
TITLE = 'A search while its query is typed: the page goes to the match, and each match on it is marked'


def play_all(player, terminal):
    """Plays what the terminal is sent, until no more comes."""
    try:
        while select.select([terminal], [], [], SILENCE)[0]:
            player.play(os.read(terminal, 65536))
    except OSError:  # (the program has ended)
        pass


def page(words, folder):
    """The cells of the page that a program shows in a folder once the query is typed."""
    player = Player(COLS, ROWS)
    pid, terminal = pty.fork()
    if pid == 0:
        fcntl.ioctl(0, termios.TIOCSWINSZ, struct.pack('HHHH', ROWS, COLS, 0, 0))
        os.chdir(folder)
        os.execv(words[0], words)
    play_all(player, terminal)
    for key in TYPED:
        os.write(terminal, key.encode())
        play_all(player, terminal)
    text, styles = player.cells[player.y][player.x]
    player.cells[player.y][player.x] = (text, styles + ('7',))
    cells = [list(row) for row in player.cells]
    os.write(terminal, b'\x03q')
    play_all(player, terminal)
    os.close(terminal)
    os.waitpid(pid, 0)
    return cells


def main():
    program = sys.argv[1] if len(sys.argv) > 1 else os.path.join(TOP, 'crates', 'minus_pager', 'out', 'minus_pager')
    if not os.path.isfile(program):
        sys.exit(__doc__)
    with tempfile.TemporaryDirectory() as folder:
        for file in (*(os.path.join(TOP, 'bin', script) for script in ('minus', 'minus-run')), program):
            shutil.copy(file, folder)
        with open(os.path.join(folder, 'server.log'), 'w') as file:
            file.writelines(log())
        drawn = picture(page(WORDS, folder))
    head, rest = drawn.split('<title>', 1)
    with open(os.path.join(TOP, 'docs', 'search.svg'), 'w') as file:
        file.write(head + '<title>' + TITLE + rest[rest.index('</title>'):])


if __name__ == '__main__':
    main()
