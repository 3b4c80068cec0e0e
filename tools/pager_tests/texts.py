"""Tests of texts: files, pipes and archives."""
import os
import shutil
import time

from terminal import PATIENCE, Terminal, TerminalTests


class TextTests(TerminalTests):

    def test_links_are_handed_on(self):
        one, two = 'http://e.org/?a=1;b=2', 'file:///tmp/x'
        text = f'a \x1b]8;;{one}\x1b\\link\x1b]8;;\x1b\\ b\n'
        text += f'\x1b]8;id=1;{two}\x07\x1b[1mbold\x1b[0m and \x1b[7mmore\x1b[0m {"x" * 40}\x1b]8;;\x07 end\n'
        self.write('linked', text)
        terminal = self.page('./minus linked')
        terminal.wait_for('1-2/2')
        cells = [cell for row in terminal.player.cells[:-1] for cell in row]
        shown = ''.join(c for c, _ in cells)
        self.assertEqual(terminal.player.texts()[0], 'a link b')
        of_link = lambda link: ''.join(c for c, style in cells if link in style)
        self.assertEqual(of_link(one), 'link')
        self.assertEqual(of_link(two).replace(' ', ''), 'boldandmore' + 'x' * 40)
        self.assertNotIn('8;', shown)
        # (searched for and copied as text)
        self.press('/bold and more\r')
        terminal.wait_for(' 1/1')
        self.quit()
        self.assertEqual(terminal.player.link, ())

    def test_an_endless_pipe_waits_as_far_as_a_bound(self):
        terminal = self.page('yes "$(printf %01000d 7)" | ./minus +F -S')
        bound, before = 64 * 1024 * 1024, terminal.counted('rchar')
        self.press('/7')
        terminal.wait(lambda: terminal.counted('rchar') >= before + bound, 'as much as the bound')
        def read_more():
            read = terminal.counted('rchar')
            terminal.wait_for_turns(32)
            return terminal.counted('rchar') - read
        terminal.wait(lambda: not read_more(), 'the end of reading')
        self.assertEqual(terminal.player.texts()[-1], '/7')
        self.assertLess(terminal.counted('rchar') - before, 3 * bound)
        # (what waits is added, a piece in each turn)
        self.press('\x03')
        terminal.wait_for('[F]')
        told = terminal.player.texts()[-1]
        terminal.wait(lambda: terminal.player.texts()[-1] != told, 'more of the text')
        self.quit()

    def test_a_text_of_many_pieces_is_whole(self):
        self.write('numbers', ''.join(f'{n}\n' for n in range(1, 50001)))
        for command in ('./minus numbers', 'cat numbers | ./minus'):
            self.page(command)
            self.terminal.wait_for('1-7/50000')
            for line in (17000, 33000, 49994):
                self.press(f'{line}G')
                self.terminal.wait_for(f'{line}-{line + 6}/50000')
                self.assertEqual(self.terminal.player.texts()[:7], [str(line + n) for n in range(7)])
            self.quit()

    def test_a_growing_file_is_followed_until_the_reader_moves_up(self):
        path = self.write('log', self.LINES)
        self.page('./minus +F log')
        self.terminal.wait_for('94-100/100')
        with open(path, 'a') as log:
            log.write('one more\nand')
            log.flush()
            self.terminal.wait_for('96-102/102')
            self.terminal.wait_for('and')
            self.press('k')
            self.terminal.wait_for('95-101/102')
            log.write(' on it goes\nlast\n')
            log.flush()
            self.terminal.wait_for('95-101/103')
        text = self.LINES + 'one more\nand on it goes\nlast\n'
        self.assert_page(text, 'log  95-101/103  ', 'mark 94')
        self.press('F')
        self.assert_page(text, 'log  97-103/103  ', 'follow on')
        # (what is left of a file that is cut is read from its beginning)
        os.truncate(path, 9)
        self.terminal.wait(lambda: 'line 1 of' in self.terminal.player.texts(), 'what is left')
        self.quit()

    def test_a_text_is_read_while_keys_come(self):
        path = self.write('log', self.LINES)
        terminal = self.page('./minus log')
        terminal.wait_for('1-7/100')
        os.set_blocking(terminal.master, False)
        sent = 0
        end = time.time() + PATIENCE
        while not any('/101' in row for row in terminal.player.texts()):
            self.assertLess(time.time(), end, 'the text is not read on while keys come')
            sent += terminal.send_some(b'x' * 1000)
            if sent >= 3000 and path:
                with open(path, 'a') as log:
                    log.write('one more\n')
                path = None
            terminal.read(0)
        terminal.wait_for_turns()
        os.set_blocking(terminal.master, True)
        self.quit()

    def test_an_endless_pipe_is_read_as_far_as_a_bound(self):
        terminal = self.page('yes "$(printf %01000d 7)" | ./minus -S')
        bound = 64 * 1024 * 1024
        terminal.wait(lambda: terminal.counted('rchar') >= bound, 'as much as the bound')
        terminal.wait_for_turns(8)
        before = terminal.counted('rchar')
        terminal.wait_for_turns(32)
        # (what is read now is the terminal's size alone)
        self.assertLess(terminal.counted('rchar') - before, 4096)
        self.assertLess(before, bound + 1024 * 1024)
        self.quit()

    def test_out_of_memory_is_said_and_the_pager_goes_on(self):
        self.page('(ulimit -v 200000; yes | ./minus +F)')
        self.terminal.wait_for('(out of memory)')
        self.press('<')
        self.terminal.wait_for(' 1-7/')
        self.quit()

    def test_hostile_bytes_as_text(self):
        hostile = b'a\x1b]0;title\x07b\x1b[2Jc\x1b[31mred\nplain\x1b[m\t.\x00\x07\xff\xc3(\r\n'
        hostile += b'bold: x\x08x _\x08u\n\xe2\x82'
        self.write('hostile', hostile)
        text = (
            'abc\x1b[31mred\x1b[0m\n\x1b[31mplain\x1b[0m   .\x1b[7m^@^G<FF><C3>\x1b[0m(\n'
            'bold: \x1b[1mx\x1b[0m \x1b[4mu\x1b[0m\n'
        )
        # (a file may go on with the character that is cut, and a pipe that has ended does not)
        for command, end, prompt in (
            ('./minus hostile', '', 'hostile  1-3/3  '),
            ('cat hostile | ./minus', '\x1b[7m<E2><82>\x1b[0m', 'standard input  1-4/4  '),
        ):
            self.page(command)
            self.assert_page(text + end, prompt)
            self.quit()

    def test_a_log_that_is_cut_or_moved_is_read_anew(self):
        path = self.write('log', self.LINES)
        terminal = self.page('./minus +F log')
        terminal.wait_for('94-100/100')
        with open(path, 'w') as log:
            terminal.wait_for('(cut short)')
            log.write('cut and written on\n')
        terminal.wait(lambda: 'cut and written on' in terminal.player.texts(), 'what was written behind the cut')
        terminal.wait(lambda: 'cut short' not in terminal.player.texts()[-1], 'the notice to go')
        os.rename(path, path + '.1')
        self.write('log', 'anew\n')
        terminal.wait(lambda: 'anew' in terminal.player.texts(), 'what was written to the new file')
        self.quit()
        # (its length is told as 0)
        self.page('./minus /proc/self/status')
        terminal = self.terminal
        terminal.wait_for('1-7/')
        terminal.wait_for_turns(4)
        self.assertNotIn('cut short', terminal.player.texts()[-1])
        self.quit()

    def test_a_file_in_the_place_of_another_one(self):
        path = self.write('log', self.LINES)
        terminal = self.page('./minus +F log')
        terminal.wait_for('94-100/100')
        os.rename(self.write('other', self.LINES + 'behind\n'), path)
        terminal.wait(lambda: 'behind' in terminal.player.texts(), 'the other file')
        self.quit()

    def test_process_substitution(self):
        for words in ('<(seq 3)', '-S <(seq 3)'):
            self.page(f"bash -c './minus {words}'")
            self.assert_page('1\n2\n3\n', '/dev/fd/63  1-3/3  ', *['wrap off'] * (words[0] == '-'))
            self.quit()

    def test_an_archive(self):
        lines = ''.join(f'{n}\n' for n in range(1, 20001))
        self.write('numbers', lines)
        for name, command in (
            ('gz', 'gzip -c'), ('xz', 'xz -c'), ('zst', 'zstd -qc'), ('bz2', 'bzip2 -c'), ('lz4', 'lz4 -qc'),
        ):
            if shutil.which(command.split()[0]):
                self.page(f'{command} numbers >numbers.{name}; ./minus numbers.{name}')
                self.terminal.wait_for(f'numbers.{name}  1-7/20000')
                self.assertEqual(self.terminal.player.texts()[:7], [str(n) for n in range(1, 8)])
                self.quit()
        # (cut short: what is there is shown, and why there is no more is said at the end)
        self.page('head -c 2000 numbers.gz >cut.gz; ./minus cut.gz')
        self.terminal.wait_for('cut.gz  1-7/')
        self.press('q')
        self.assert_back(0)
        self.assertIn(b'gzip: ', self.terminal.bytes)
        # (its end is not waited for)
        self.page('yes | head -c 9999999 | gzip >long.gz; ./minus -S long.gz')
        self.terminal.wait_for('long.gz  1-7/')
        self.quit()
        self.assertNotIn(b'gzip: ', self.terminal.bytes)

    def test_a_pipe_where_dd_knows_no_flag(self):
        self.command('dd', 'exit 1')
        self.page('seq 100 | PATH=.:$PATH ./minus')
        self.terminal.wait_for('1-7/100')
        self.quit()
        self.assertEqual(self.terminal.processes('cat'), [])

    def test_what_is_not_asked_for_is_left_to_others(self):
        self.write('notes', self.LINES)
        for words, is_page in (('notes', True), ('--help', False), ('none', False), ('-?', False)):
            left = b'1\r\n2\r\n3\r\nready> '
            if is_page:
                self.page(f'seq 3 | {{ ./minus {words}; cat; }}')
                self.terminal.wait_for('1-7/100')
                self.press('q')
            else:
                self.tearDown()
                self.terminal = Terminal(self.folder)
                self.terminal.send(f'seq 3 | {{ ./minus {words}; cat; }}\n')
            self.terminal.wait(lambda: self.terminal.bytes.endswith(left), 'what others read')
            self.assertEqual(self.terminal.processes('cat'), [])

    def test_colours_with_colons_stay(self):
        self.write('colours', '\x1b[38:5:196mred\x1b[m \x1b[38:2::0:128:255mblue\x1b[0m \x1b[4:3mwavy\x1b[m plain\n')
        terminal = self.page('./minus -R colours')
        terminal.wait_for('1-1/1')
        self.assertEqual(terminal.player.texts()[0], 'red blue wavy plain')
        styles = {c: style for c, style in terminal.player.cells[0]}
        for letter, style in (('r', ('38:5:196',)), ('b', ('38:2::0:128:255',)), ('w', ('4:3',)), ('p', ())):
            self.assertEqual(styles[letter], style, letter)
        self.quit()

    def test_a_colour_with_colons_goes_over_the_rows_of_its_line(self):
        self.write('colours', '\x1b[38:5:196m' + 'x' * 60 + '\x1b[m\n\x1b[48:5:21my\x1b[m\n')
        terminal = self.page('./minus colours')
        terminal.wait_for('1-2/2')
        for y, columns, style in ((0, 40, '38:5:196'), (1, 20, '38:5:196'), (2, 1, '48:5:21')):
            row = terminal.player.cells[y]
            self.assertEqual([s for _, s in row[:columns]], [(style,)] * columns)
            self.assertEqual([s for _, s in row[columns:]], [()] * (40 - columns))
        self.quit()
