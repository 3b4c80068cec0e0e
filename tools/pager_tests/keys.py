"""Tests of what keys do."""
import os
import re
import subprocess
import time

from programs import TOP
from terminal import Terminal, TerminalTests, contents


class KeyTests(TerminalTests):

    def test_keys_do_what_the_library_says(self):
        self.write('notes', self.LINES)
        self.page('./minus notes')
        self.assert_page(self.LINES, 'notes  1-7/100  ')
        for keys, lines, place in (
            ('jj', ['key j', 'key j'], '3-9/100  '),
            ('5k', ['mark 0'], '1-7/100  '),
            ('f', ['key pagedown'], '8-14/100  '),
            (' ', ['mark 14'], '15-21/100  '),
            ('b', ['mark 7'], '8-14/100  '),
            ('\x1b[B', ['mark 8'], '9-15/100  '),
            ('>', ['mark 93'], '94-100/100  '),
            ('<', ['mark 0'], '1-7/100  '),
            ('30G', ['mark 29'], '30-36/100  '),
            ('-N\r', ['mark 29', 'numbers on'], '30-36/100  '),
        ):
            self.press(keys)
            self.assert_page(self.LINES, f'notes  {place}', *lines)
        # (a key that comes in two pieces)
        self.press('\x1b[')
        self.terminal.wait_for_turns()
        self.press('B')
        self.assert_page(self.LINES, 'notes  31-37/100  ', 'mark 30', 'numbers on')
        self.press('k')
        self.assert_page(self.LINES, 'notes  30-36/100  ', 'mark 29', 'numbers on')
        self.press('M')
        self.terminal.wait_for('COMMAND SUMMARY')
        self.press('q')
        self.assert_page(self.LINES, 'notes  30-36/100  ', 'mark 29', 'numbers on')
        self.press('M')
        self.terminal.wait_for('COMMAND SUMMARY')
        self.press_escape()
        self.press('q')
        self.assert_page(self.LINES, 'notes  30-36/100  ', 'mark 29', 'numbers on')
        self.quit()

    def test_a_key_is_heard_before_a_pipe_ends(self):
        writer = self.open_pipe()
        self.terminal = Terminal(self.folder, 40, 8)
        self.terminal.send('(seq 3; cat to_come) | ./minus -F\n')
        self.terminal.wait(lambda: self.terminal.processes('minus_pager'), 'the program')
        self.wait_for_reader()
        self.terminal.wait_for_turns()
        self.assertFalse(self.terminal.player.modes.get(1049))
        self.press('j')
        self.terminal.wait_for('1-3/3')
        self.end_pipe(writer)

    def test_a_resize(self):
        self.page_lines()
        self.press('3j')
        self.terminal.wait_for('4-10/100')
        # (a terminal without rows is none that can be paged on)
        self.terminal.set_size(0, 0)
        self.terminal.wait(lambda: self.told_size() == '0 0 0\n', 'the size of no terminal')
        self.terminal.wait_for_turns()
        self.terminal.resize(30, 12)
        self.assert_page(self.LINES, 'notes  4-14/100  ', 'mark 3')
        self.quit()

    def test_a_slow_pipe_leaves_the_keys_awake(self):
        writer = self.page_pipe('seq 20')
        self.terminal.wait_for('1-7/20')
        self.press('j')
        self.terminal.wait_for('2-8/20')
        os.write(writer, b'end\n')
        self.terminal.wait_for('2-8/21')
        self.press('G')
        self.terminal.wait_for('end')
        self.end_pipe(writer)

    def test_hostile_bytes_as_keys(self):
        self.page_lines()
        hostile = bytes(range(128, 256)) * 8 + b'\x1b' * 100 + b'\x1b[' + b'9' * 300 + b'~'
        hostile += b'\x1b[<1;2' + b'\x1b]x' + b'\x00' * 50
        self.press(hostile)
        self.press('\x1b[999;999;999m\x1b[<0;70000;70000M')
        self.press('\x1b[<64;1;1M\x1b[<65;1;1M')
        self.press('G')
        self.terminal.wait_for('94-100/100')
        self.press('g')
        self.terminal.wait_for('1-7/100')
        self.quit()

    def test_a_selection_goes_to_the_clipboard(self):
        self.page_lines()
        self.press('\x1b[<0;1;2M\x1b[<32;6;2M\x1b[<0;6;2m')
        self.terminal.wait(lambda: self.terminal.player.copied, 'a copied text')
        self.assertEqual(self.terminal.player.copied, ['line 2'])
        self.quit()

    def test_a_click_copies_nothing_and_a_selection_no_styles(self):
        self.write('red', 'a \x1b[31mred\x1b[m word\n')
        self.page('./minus --mouse red')
        self.press('\x1b[<0;1;1M\x1b[<0;1;1m\x1b[<0;1;1M\x1b[<32;10;1M\x1b[<0;10;1m')
        self.terminal.wait(lambda: self.terminal.player.copied, 'a copied text')
        self.assertEqual(self.terminal.player.copied, ['a red word'])
        self.quit()
        self.page('./minus red')
        self.terminal.wait(lambda: not self.terminal.player.modes.get(1000), "the mouse of the terminal")
        self.quit()

    def test_what_is_copied_has_its_tabs(self):
        path = self.write('tabs', self.TABS)
        self.write('more', 'x\ty\n')
        plain = self.TABS.replace('\x1b[31m', '').replace('\x1b[m', '')
        terminal = self.page('./minus --mouse tabs more')
        terminal.wait_for('1-4/4')
        self.assertEqual([row.rstrip() for row in terminal.player.texts()[:4]], [
            'a       b               c  d', '        e       f       g', '1234567   9', '        end'])
        self.assertNotIn(b'a\x1b[m', terminal.bytes)
        self.assertNotIn(b'\x1b[:m', terminal.bytes)
        for first, last, copied in (
            ((1, 1), (40, 4), plain.rstrip()), ((9, 1), (25, 1), 'b\t\tc'), ((1, 2), (9, 2), '\te'),
            ((17, 2), (25, 2), 'f\tg'), ((1, 3), (11, 3), '1234567\t  9'), ((1, 4), (8, 4), '\t'), ((10, 1), (16, 1), '\t'),
            # where it begins or ends in a tab
            ((3, 1), (9, 1), '      b'), ((1, 1), (5, 1), 'a    '), ((13, 1), (25, 1), '    \tc'), ((1, 1), (4, 2), 'a\tb\t\tc  d\n    '),
        ):
            self.assertEqual(self.select(first, last), copied)
        # behind help, in a text that has grown, and in the next one
        self.press('hq')
        self.assertEqual(self.select((9, 1), (25, 1)), 'b\t\tc')
        with open(path, 'a') as file:
            file.write('behind\t\tit\n')
        terminal.wait_for('/5')
        self.assertEqual(self.select((1, 5), (40, 5)), 'behind\t\tit')
        self.press(':n')
        terminal.wait_for('more (file 2 of 2)')
        self.assertEqual(self.select((1, 1), (9, 1)), 'x\ty')
        self.quit()

    def test_tabs_of_cut_and_wrapped_lines_are_copied(self):
        line = 'one\ttwo\t' * 12 + 'end'
        self.write('long', line + '\n')
        for options in ('', '-N', '-x4'):
            terminal = self.page(f'./minus --mouse {options} long')
            terminal.wait_for('1/1')
            last = sum(bool(row) for row in terminal.player.texts()[:-1])
            self.assertEqual(self.select((1, 1), (40, last)), line)
            self.quit()
        terminal = self.page('./minus --mouse -S long')
        self.press('\x1b[C')
        terminal.wait(lambda: terminal.player.texts()[0].startswith('    two     one'), 'the columns behind')
        self.assertEqual(self.select((5, 1), (13, 1)), 'two\to')
        self.quit()

    def test_ctrl_c_ends_following_first(self):
        self.page_lines()
        self.press('F')
        self.terminal.wait_for('[F]')
        self.press('\x03')
        self.terminal.wait(lambda: '[F]' not in self.terminal.player.texts()[-1], 'the end of following')
        self.press('k')
        self.terminal.wait_for('93-99/100')
        self.press('\x03')
        self.assert_back(0)

    LONG = ''.join(f'{n} begins, and goes on for more than one row of the screen.\n' for n in range(1, 101))

    def test_the_place_stays(self):
        self.write('long', self.LONG)
        terminal = self.page('./minus long')
        self.press('20G')
        terminal.wait_for('20-23/100')
        for cols, rows in ((15, 8), (100, 12), (23, 6), (40, 8)):
            terminal.resize(cols, rows)
            terminal.wait(lambda: terminal.player.texts()[0].startswith('20 begins'), f'line 20 at {cols} columns')
        for keys in ('-N\r', '-S\r', '-S\r', '-N\r', 'hq'):
            self.press(keys)
            terminal.wait_for_turns()
            terminal.wait(lambda: '20 begins' in terminal.player.texts()[0], f'line 20 after {keys!r}')
        # (within a line, too)
        def wait_for_row(begins, after):
            terminal.wait(lambda: terminal.player.texts()[0].startswith(begins), f'{begins} after {after}')
        self.press('j')
        wait_for_row('row of the', 'a row down')
        terminal.resize(100, 8)
        wait_for_row('20 begins', 'a resize')
        terminal.resize(40, 8)
        wait_for_row('row of the', 'a resize back')
        for key in ('-N\r', '-S\r'):
            self.press(key)
            terminal.wait(lambda: not terminal.player.texts()[0].startswith('row of the'), f'other rows by {key!r}')
            self.press(key)
            wait_for_row('row of the', f'{key!r} twice')
        self.press('h')
        terminal.wait_for('COMMAND SUMMARY')
        self.press('q')
        wait_for_row('row of the', 'help')
        for cols, begins in ((100, '20 begins'), (40, 'row of the')):
            self.suspend()
            terminal.resize(cols, 8)
            self.resume()
            wait_for_row(begins, f'fg with {cols} columns')
        # (that of the last page is where it begins)
        for keys in ('G', "'$"):
            self.press(f'g{keys}')
            terminal.wait_for('97-100/100')
            terminal.resize(40, 6)
            terminal.wait_for('97-99/100')
            terminal.resize(40, 8)
            terminal.wait_for('97-100/100')
        self.quit()

    def test_a_rest_takes_few_turns(self):
        self.page_lines()
        def rests():
            before = self.terminal.counted('syscr')
            time.sleep(2)
            # (a turn reads the keys, the size and the text, and is taken 12 times a second at most)
            return self.terminal.counted('syscr') - before < 2 * 12 * 3
        self.terminal.wait(rests, 'the program to rest')
        self.press('j')
        self.terminal.wait_for('2-8/100')
        self.quit()

    def test_ctrl_c_ends(self):
        self.page_lines()
        self.press('\x03')
        self.assert_back(0)

    def test_ctrl_c_ends_what_writes_a_pipe(self):
        self.command('writer', 'trap "echo ended >told; exit" INT; echo one; echo two; while :; do sleep 0.1; done')
        terminal = self.page('./writer | ./minus')
        terminal.wait_for('1-2/2')
        # (a number that is typed goes first)
        self.press('12\x03')
        terminal.wait_for_turns()
        self.assertFalse(os.path.exists(os.path.join(self.folder, 'told')))
        self.press('\x03')
        terminal.wait(lambda: os.path.exists(os.path.join(self.folder, 'told')), 'the end of the writer')
        terminal.wait_for_turns(4)
        terminal.wait_for('1-2/2')
        self.press('\x03')
        self.assert_back(0)

    def test_keys_wait_while_a_file_is_read_on(self):
        self.write('long', ''.join(f'line {n}\n' for n in range(1, 2000001)))
        terminal = self.page('./minus long')
        self.press('Gk')
        terminal.wait(lambda: terminal.player.texts()[0] == 'line 1999993', 'the row above the last page')
        self.quit()
        # (a letter of a query that is typed ahead ends nothing)
        terminal = self.page('./minus long')
        self.press('Gg/qu|1234567$\r')
        terminal.wait(lambda: terminal.player.texts()[0] == 'line 1234567', 'the match')
        self.quit()

    def test_a_number_holds_for_the_next_half_page_too(self):
        terminal = self.page_lines()
        for keys, place in (('5d', '6-12/100'), ('d', '11-17/100'), ('u', '6-12/100'), ('2u', '4-10/100'), ('d', '6-12/100')):
            self.press(keys)
            terminal.wait_for(place)
        self.quit()
        terminal = self.page('seq -w -s "" 100 | ./minus -S')
        terminal.wait(lambda: terminal.player.texts()[0].startswith('0010'), 'the text')
        for keys, begin in (('3\x1b[C', '0020'), ('\x1b[C', '0030'), ('\x1b[D', '0020')):
            self.press(keys)
            terminal.wait(lambda: terminal.player.texts()[0].startswith(begin), begin)
        self.quit()

    def test_a_command_that_is_none_here_takes_its_line(self):
        terminal = self.page_lines()
        for keys in ('&quit', '!ls -q', 'sqQ', ':eq q', '|aq'):
            self.press(keys)
            terminal.wait_for('not done here')
            self.press('\r')
            terminal.wait_for('1-7/100')
        self.press('j')
        terminal.wait_for('2-8/100')
        self.quit()

    def test_a_terminal_that_takes_no_copied_text(self):
        self.write('notes', 'a word\n')
        self.command('tmux', 'echo external')
        self.page('TMUX=x PATH=.:$PATH ./minus --mouse notes', cols=60)
        self.press('\x1b[<0;1;1M\x1b[<32;7;1M\x1b[<0;7;1m')
        self.terminal.wait_for('(nothing copied: tmux)')
        self.assertEqual(self.terminal.player.copied, [])
        self.quit()

    def test_what_takes_long_is_said_before(self):
        self.write('long', 'a line of some length, so that there are not too many of these\n' * 700000)
        terminal = self.page('./minus long')
        self.press('G')
        terminal.wait_for('-700000/700000')
        for keys, said in (
            ('/so that\r', b'(searching)'), ('-S', b'(laying out)'), ('-N', b'(laying out)'), (None, b'(laying out)'),
        ):
            before = len(terminal.bytes)
            # (or a new size)
            self.press(keys) if keys else terminal.resize(60, 8)
            terminal.wait(lambda: said in terminal.bytes[before:], said)
        self.press('\r')
        self.quit()

    def test_help_on_a_terminal(self):
        self.terminal = terminal = Terminal(self.folder, 120, 24)
        terminal.send('./minus --help\n')
        terminal.wait(lambda: terminal.bytes.count(b'ready> ') > 1 and terminal.ends_with('ready> '), 'the shell')
        shown = terminal.player.texts()
        self.assertTrue(shown[1].startswith('usage: minus '), shown)
        self.assertTrue(shown[3].startswith('Pages files on the terminal, or standard input.'), shown)
        self.assertEqual(terminal.mode(), terminal.before)

    def test_the_page_is_drawn_again_over_what_others_wrote(self):
        terminal = self.page_lines()
        self.press('3j')
        self.assert_page(self.LINES, 'notes  4-10/100  ', 'mark 3')
        for key in ('r', '\x12', '\x0c'):
            with open(os.ttyname(terminal.slave), 'wb') as tty:
                subprocess.run(['printf', r'\033[5;3Hwritten by another\033[8;1H\n\nprogram'], stdout=tty, check=True)
            terminal.wait_for('written by another')
            terminal.wait_for('program')
            self.press(key)
            self.assert_page(self.LINES, 'notes  4-10/100  ', 'mark 3')
        self.quit()

    def keys_of_the_table(self):
        """The keys that docs/PAGER.md lists, as help names them: of several that make one command the first."""
        page = contents(os.path.join(TOP, 'docs', 'PAGER.md')).decode()
        table = page.split('| Key | |\n|---|---|\n')[1].split('\n\n')[0]
        names = {'Space': '<Space>', '`Esc u`': 'Alt-u', '`\\|`': '|'}
        keys = set()
        for row in table.splitlines():
            for key in re.findall(r'`[^`]+`|[A-Z][-A-Za-z]+', row.split(' | ')[0]):
                if key not in names and key[0] == '`':
                    key = f'Shift-{key[1].lower()}' if key[1].isupper() else key[1]
                elif key.startswith('Ctrl-'):
                    key = key[:-1] + key[-1].lower()
                keys.add(names.get(key, key))
        return keys

    def test_help_lists_the_keys(self):
        self.write('notes', self.LINES)
        terminal = self.page('./minus notes', cols=100, rows=50)
        for key in 'hH':
            terminal.wait_for('1-49/100')
            self.press(key)
            terminal.wait_for('-- Press q to return to pager --')
            listed = set()
            for row in terminal.player.texts():
                # (each key but the last has a comma behind it)
                words = row.split()
                while len(words) > 1 and words[0].endswith(','):
                    listed.add(words.pop(0)[:-1])
                listed.update(words[:1])
            # (as the document says)
            self.assertEqual(self.keys_of_the_table() - listed, {'Ctrl-z'})
            # (a terminal sends one byte for these and for Backspace)
            self.assertFalse(listed & {'Ctrl-h', 'Ctrl-Shift-h'})
            self.press('q')
        terminal.wait_for('1-49/100')
        self.quit()
