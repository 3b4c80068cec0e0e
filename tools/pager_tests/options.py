"""Tests of options and words."""
import os
import re
import shlex
import subprocess

from programs import TOP
from terminal import Terminal, TerminalTests, contents


class OptionTests(TerminalTests):

    def test_options(self):
        long = 'a long line that takes more than one row of the screen\n' + self.LINES
        self.write('notes', long)
        self.page('./minus -NS +12 --no-mouse notes')
        page = (long, 'notes  12-18/101  ', 'numbers on', 'wrap off', 'mark 11')
        self.assert_page(*page)
        self.terminal.wait(lambda: not self.terminal.player.modes.get(1000), "the mouse of the terminal")
        self.suspend()
        # (from a terminal that tells no size it comes back as it was)
        self.terminal.set_size(0, 0)
        self.resume()
        self.assert_page(*page)
        self.assertFalse(self.terminal.player.modes[1000])
        self.quit()

    def test_a_text_that_fits_is_printed(self):
        self.write('short', 'a\n\tb\n')
        self.assert_printed('./minus -F short', ['a', '        b'])
        self.assert_printed('(echo a; sleep 0.1; echo b) | ./minus -FS -', ['a', 'b'])
        self.write('notes', self.LINES)
        self.page('./minus -F notes')
        self.assert_page(self.LINES, 'notes  1-7/100  ')
        self.quit()
        self.page('./minus -F +F short')
        self.assert_page('a\n        b\n', 'short  1-2/2  ', 'follow on')
        self.quit()

    def test_a_first_line_beyond_a_file_shows_the_last_page(self):
        self.write('notes', self.LINES)
        self.page('./minus +200 notes')
        self.assert_page(self.LINES, 'notes  94-100/100  ', 'mark 93')
        self.quit()

    def test_a_first_line_is_waited_for_until_a_pipe_ends(self):
        writer = self.page_pipe('seq 20', '+25')
        self.terminal.wait_for('1-7/20')
        self.terminal.wait_for_turns()
        os.write(writer, b'21\n')
        self.terminal.wait_for('1-7/21')
        os.close(writer)
        self.assert_page(''.join(f'{n}\n' for n in range(1, 22)), 'standard input  15-21/21  ', 'mark 14')
        self.quit()

    def test_a_first_line_of_a_pipe(self):
        writer = self.page_pipe('seq 20', '+25')
        self.terminal.wait_for('1-7/20')
        os.write(writer, ''.join(f'{n}\n' for n in range(21, 41)).encode())
        self.terminal.wait_for('25-31/40')
        self.end_pipe(writer)

    def test_a_name_that_is_no_utf_8(self):
        self.write(b'caf\xe9\tnotes', self.LINES)
        self.page('./minus caf*')
        self.assert_page(self.LINES, 'caf??notes  1-7/100  ')
        self.quit()

    def test_several_files_and_their_names(self):
        self.write('notes', self.LINES)
        self.write('other', 'one\ntwo\n')
        terminal = self.page('./minus notes missing other')
        terminal.wait_for('notes (file 1 of 3)')
        # (one that is not there is skipped)
        self.press(':n')
        terminal.wait_for('other (file 3 of 3)')
        terminal.wait(lambda: terminal.player.texts()[0] == 'one', 'its text')
        self.press(':n')
        terminal.wait_for('no such file')
        self.press('\r:p')
        terminal.wait_for('notes (file 1 of 3)')
        self.quit()
        name = 'a-name-that-is-longer-than-the-row-of-the-screen'
        self.write(name, self.LINES)
        self.page(f'./minus {name}')
        self.terminal.wait_for('..han-the-row-of-the-screen  1-7/100  6%')
        self.quit()
        for call, shown in (('MAN_PN="bash(1)" ./minus', 'bash(1)'), ('./minus "-PmThe log?e (END)"', 'The log')):
            self.page(f'seq 20 | {call}')
            self.terminal.wait_for(f'{shown}  1-7/20')
            self.quit()

    def test_options_of_less(self):
        self.write('notes', self.LINES + 'An Error\n')
        for call, there in (
            ('LESS=-i ./minus +/error notes', '95-101/101'), ('LESS="IR" ./minus -p ERROR notes', '95-101/101'),
            ('LESS=i MINUS=R ./minus +G notes', '95-101/101'), ('./minus -i +/Line notes', '(pattern not found)'),
            ('LESS=-no-such-R ./minus +12 notes', '12-18/101'),
        ):
            self.page(call)
            self.terminal.wait_for(there)
            self.quit()
        # (the page is left, and the end ends, with no key)
        terminal = self.page('./minus -X notes')
        self.press('q')
        self.assert_back(0)
        self.assertIn('line 7 of the text', terminal.player.texts())
        self.page('./minus -E +G notes')
        self.assert_back(0)
        self.write('seven', 'x' * 60 + '\n' + 'y\n' * 5)
        # (its first line takes two rows of a terminal, which wraps it, as the player does not)
        self.assert_printed('./minus -F seven', ['x' * 40] + ['y'] * 5)
        self.page('(cat seven; echo y) | ./minus -F')
        self.quit()

    def test_a_file_goes_on_where_it_was_left(self):
        self.write('one', self.LINES)
        self.write('two', self.LINES.replace('line', 'row'))
        terminal = self.page('./minus none one two', cols=70)
        terminal.wait_for('one (file 2 of 3)')
        self.press('50g')
        terminal.wait(lambda: terminal.player.texts()[0] == 'line 50 of the text', 'line 50')
        self.press(':n')
        terminal.wait(lambda: terminal.player.texts()[0] == 'row 1 of the text', 'the next file')
        self.press('20g:p')
        terminal.wait(lambda: terminal.player.texts()[0] == 'line 50 of the text', 'line 50 again')
        self.press(':n')
        terminal.wait(lambda: terminal.player.texts()[0] == 'row 20 of the text', 'row 20 again')
        self.quit()
        self.assertIn(b'minus: none: no such file', terminal.bytes)

    def test_several_files_are_all_paged(self):
        self.write('one', 'one\n')
        self.write('two', self.LINES)
        terminal = self.page('./minus -FE one two', cols=70)
        terminal.wait_for('one (file 1 of 2)')
        terminal.wait_for_turns(4)
        self.press(' ')
        terminal.wait_for('two (file 2 of 2)')
        terminal.wait_for_turns(4)
        self.press('G')
        self.assert_back(0)

    def test_refusals_before_the_terminal_is_touched(self):
        os.mkdir(os.path.join(self.folder, 'folder'))
        self.write('notes', self.LINES)
        self.terminal = Terminal(self.folder)
        said = lambda: self.terminal.bytes.count(b'status=') > 1 and self.terminal.ends_with('ready> ')
        for words, status in (
            ('missing', 1), ('folder', 1), ('--no-such notes', 2), ('+0 notes', 2), ('', 2),
        ):
            self.terminal.bytes = b''
            self.terminal.send(f'./minus {words}; echo status=$?\n')
            self.terminal.wait(said, words)
            lines = self.terminal.bytes.split(b'\r\n')
            self.assertEqual(len(lines), 4, lines)
            self.assertTrue(lines[1].startswith(b'minus: '), lines)
            self.assertEqual(lines[2], f'status={status}'.encode())
            self.assertNotIn(b'\x1b', self.terminal.bytes)

    # Words, and what they ask for: a page of the file or of standard input, or something else; or they are refused.
    WORDS = (
        ('', 'page'), ('-', 'page'), ('notes', 'page'), ('-N -S notes', 'page'), ('-FRX notes', 'page'),
        ('-ix4 notes', 'page'), ('-p line notes', 'page'), ('+/line notes', 'page'), ('+G notes', 'page'),
        ('+F +12 --no-mouse -F notes', 'page'), ('+9999999999999 notes', 'page'), ('-- notes', 'page'),
        ('--RAW-CONTROL-CHARS --chop-long-lines notes', 'page'),
        ('-h', 'other'), ('-N --help', 'other'), ('--version', 'other'), ('--help --no-such', 'other'),
        ('--no-such --help', 'refused'), ('--no-such notes', 'refused'), ('-NZ notes', 'refused'),
        ('--nomouse notes', 'refused'), ('-p', 'refused'),
        ('+0 notes', 'refused'), ('+1x notes', 'refused'), ('+10000000000000 notes', 'refused'),
    )

    def test_the_words(self):
        self.write('notes', self.LINES)
        launcher, how = os.path.join(self.folder, 'minus'), dict(cwd=self.folder, input=b'', capture_output=True)
        for words, what in self.WORDS:
            launched = subprocess.run([launcher, *words.split()], **how)
            self.assertEqual(launched.returncode, 2 if what == 'refused' else 0, words)
            self.assertEqual(launched.stderr.count(b'\n'), what == 'refused', words)
            self.assertEqual(launched.stderr.startswith(b'minus: '), what == 'refused', words)
            if what == 'page':
                self.assertEqual(launched.stdout, self.LINES.encode() if 'notes' in words else b'', words)
            elif what == 'other':
                self.assertNotEqual(launched.stdout, b'', words)

    def test_a_pipe_with_a_name(self):
        os.mkfifo(os.path.join(self.folder, 'pipe'))
        self.page('(seq 3 >pipe &); ./minus pipe')
        self.assert_page('1\n2\n3\n', 'pipe  1-3/3  ')
        self.quit()

    def test_the_place_is_said_in_lines_and_bytes(self):
        # (two bytes are one column)
        text = ''.join(f'l\u00efne {n}\n' for n in range(1, 101))
        self.write('notes', text)
        terminal = self.page('./minus notes', cols=60)
        size = lambda lines: len(''.join(text.splitlines(True)[:lines]).encode())
        for key, first in (('=', 1), ('\x07', 1), ('30g=', 30), ('G\x07', 94)):
            end, whole = size(first + 6), size(100)
            self.press(key)
            terminal.wait_for(f'lines {first}-{first + 6} of 100, byte {end} of {whole}, {end * 100 // whole}%')
            # (Return only answers)
            self.press('\r')
            terminal.wait_for(f'notes  {first}-{first + 6}/100')
        self.quit()

    def test_options_that_are_typed_say_what_they_did(self):
        self.write('notes', self.LINES)
        terminal = self.page('./minus notes', cols=60)
        self.press('30g')
        terminal.wait_for('30-36/100')
        for keys, said in (
            ('-i', 'capitals count in searches that have one'), ('-i', 'capitals count in searches'),
            ('-I', 'capitals do not count in searches'), ('-I', 'capitals count in searches'),
            ('-i', 'capitals count in searches that have one'), ('-I', 'capitals do not count in searches'),
            ('-N', 'the lines have numbers'), ('-N', 'the lines have no numbers'),
            ('-S', 'long lines are cut'), ('-S', 'long lines are wrapped'),
            ('-F', '-F is for the start of the pager'), ('-Z', 'no such option here'),
        ):
            self.press(keys)
            terminal.wait(lambda: terminal.player.texts()[-1] == f'{said} (Return)', said)
            self.press('\r')
            terminal.wait_for('30-36/100')
        # (any other key answers and does what it does)
        self.press('-N')
        terminal.wait_for('the lines have numbers')
        self.press('j')
        self.assert_page(self.LINES, 'notes  31-37/100  ', 'mark 30', 'numbers on')
        self.quit()

    def test_capitals_count_or_not(self):
        self.write('notes', 'one\n' * 20 + 'An Error\n' + 'two\n' * 20 + 'an error\n' + 'three\n' * 20)
        terminal = self.page('./minus notes')
        for keys, said in (
            ('/an error\r', ' 42-48/62 '), ('g-i\r/an error\r', ' 21-27/62 '), ('g/an Error\r', ' 21-27/62 '),
            ('g/AN ERROR\r', '(pattern not found)'), ('\rg-I\r/AN ERROR\r', ' 21-27/62 '),
            ('G?AN ERROR\r', ' 42-48/62 '), ('g-I\r/AN ERROR\r', '(pattern not found)'),
            ('\rg/an error\r', ' 42-48/62 '),
            # (the last query, too)
            ('g-in', ' 21-27/62 '), ('g-in', ' 42-48/62 '),
        ):
            self.press(keys)
            terminal.wait_for(said)
        self.quit()

    def test_minus_hides_less(self):
        self.write('short', 'a\nb\n')
        text = 'a long line that takes more than one row of the screen\n' + self.LINES
        self.write('notes', text)
        for call, last, lines in (
            ('MINUS=-S LESS=-N ./minus', 7, ['wrap off']), ('MINUS=-N LESS=-S ./minus', 6, ['numbers on']),
            ('LESS=-N ./minus', 6, ['numbers on']), ('LESS=-S ./minus', 7, ['wrap off']),
            ('LESS=-S MINUS=-i ./minus -N', 6, ['numbers on']),
        ):
            self.page(f'{call} notes')
            self.assert_page(text, f'notes  1-{last}/101  ', *lines)
            self.quit()
        # (as git has it for its pager)
        for set_ in ('LESS=-F', 'LESS=FRX', 'MINUS=F'):
            self.assert_printed(f'{set_} ./minus short', ['a', 'b'])
            self.assert_printed(f'cat short | {set_} ./minus', ['a', 'b'])
        self.page('LESS=-F MINUS=-R ./minus short')
        self.assert_page('a\nb\n', 'short  1-2/2  ')
        self.quit()

    def test_less_as_man_and_systemd_set_it(self):
        text = 'an Error, and what makes this line one of more than one row\n' + self.LINES
        self.write('notes', text)
        prompt = ' Manual page bash(1) ?ltline %lt?L/%L.:byte %bB?s/%s..?e (END):?pB %pB\\%.. (press h for help)'
        self.page(f"cat notes | MAN_PN='bash(1)' LESS='-ix8RmPm{prompt}$PM{prompt}$-R$' ./minus", cols=60)
        self.assert_page(text, 'Manual page bash(1)  1-7/101  ')
        self.press('/error\r')
        self.terminal.wait_for(' 1/1')
        self.quit()
        terminal = self.page('cat notes | LESS=FRSXMK ./minus')
        self.assert_page(text, 'standard input  1-7/101  ', 'wrap off')
        self.press('q')
        self.assert_back(0)
        self.assertIn('line 6 of the text', terminal.player.texts())
        self.assert_printed('seq 5 | LESS=FRSXMK ./minus', ['1', '2', '3', '4', '5'])

    def test_tabs_and_empty_lines_are_shown_as_asked_for(self):
        self.write('tabs', 'a\tb\n\tc\n\n\n\nd\n\n\ne\n')
        for options, text in (
            ('-x4', 'a   b\n    c\n\n\n\nd\n\n\ne\n'), ('-s', 'a       b\n        c\n\nd\n\ne\n'),
            ('-sx3', 'a  b\n   c\n\nd\n\ne\n'), ('--tabs=2 --squeeze-blank-lines', 'a b\n  c\n\nd\n\ne\n'),
        ):
            self.page(f'./minus {options} tabs')
            count = text.count('\n')
            self.assert_page(text, f'tabs  1-{min(count, 7)}/{count}  ')
            self.quit()

    def test_the_end_ends_where_it_is_reached_again(self):
        self.write('notes', self.LINES)
        for keys in ('G', '93g '):
            terminal = self.page('./minus -e notes')
            terminal.wait_for('1-7/100')
            self.press(keys)
            terminal.wait_for('94-100/100')
            terminal.wait_for_turns(4)
            self.press('k')
            terminal.wait_for('93-99/100')
            self.press('j')
            terminal.wait_for('94-100/100')
            terminal.wait_for_turns(4)
            self.press('j' if keys == 'G' else ' ')
            self.assert_back(0)

    def test_the_end_of_the_last_text_ends_where_it_is_reached(self):
        self.write('notes', self.LINES)
        self.write('short', 'a\nb\n')
        # (a text that fits the page is at its end at once)
        terminal = self.page('./minus -E notes; ./minus -E short')
        terminal.wait_for('1-7/100')
        terminal.wait_for_turns(4)
        self.press('G')
        self.assert_back(0)
        terminal = self.page('./minus -E short notes')
        terminal.wait_for('short (file 1 of 2)')
        terminal.wait_for_turns(4)
        self.press('j')
        terminal.wait_for('1-7/100')
        self.press('93gj')
        self.assert_back(0)

    def test_letters_that_mean_nothing_here_are_taken(self):
        said = re.search(
            'Taken, and nothing done: `(.*?)`, digits, with a number `(.*?)`, with a text `(.*?)`,',
            contents(os.path.join(TOP, 'docs', 'PAGER.md')).decode())
        plain, numbers, texts = (options.split() for options in said.groups())
        letters = ''.join(option[1] for option in plain)
        self.write('notes', self.LINES + 'An Error\n')
        text = self.LINES + 'An Error\n'
        for words in (
            plain, [f'-{letters}{numbers[0][1]}5'], [option + '5' for option in numbers], ['-j.5', '-j', '5', '-7'],
            [option + 'text' for option in texts], [word for option in texts for word in (option, 'text')],
        ):
            self.page(shlex.join(['./minus', *words, 'notes']))
            self.assert_page(text, 'notes  1-7/101  ')
            self.quit()
        numbered = ''.join(option[1] + '5' for option in numbers)
        for set_ in (letters + numbered, '$'.join(option + 'text' for option in texts)):
            self.page(f'LESS={shlex.quote(set_)} ./minus notes')
            self.assert_page(text, 'notes  1-7/101  ')
            self.quit()
        # (letters that do something stand among them)
        self.page('./minus -RX notes')
        self.assert_page(text, 'notes  1-7/101  ')
        self.press('q')
        self.assert_back(0)
        self.assertIn('line 7 of the text', self.terminal.player.texts())
        self.page('./minus -iMR notes')
        self.press('/error\r')
        self.terminal.wait_for('95-101/101')
        self.quit()
