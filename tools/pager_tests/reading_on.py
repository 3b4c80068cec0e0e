"""Tests of a text that is read on for what a key asks for."""
import os

from terminal import TerminalTests


def lines(first, last):
    """Lines of one width."""
    return ''.join(f'{n:03}\n' for n in range(first, last + 1))


class ReadingOnTests(TerminalTests):

    def page_begun(self):
        """Pages a pipe of which twenty lines are there."""
        writer = self.page_pipe('seq -f %03g 20')
        self.terminal.wait_for(' 1-7/20 ')
        return writer

    def wait_for_reading(self):
        self.terminal.wait_for('(reading 0 MB)')
        self.terminal.wait_for_turns()
        self.assertIn('(reading 0 MB)', self.terminal.player.texts()[-1])

    def wait_for_no_reading(self):
        self.terminal.wait(lambda: 'reading' not in self.terminal.player.texts()[-1], 'the end of reading on')

    def test_a_pipe_is_read_on_for_the_next_match(self):
        writer = self.page_begun()
        # (`N` of a search back goes down; what the pipe ends without is looked for from its beginning)
        for keys, more, there in (
            ('/7$\r', None, '7-13/20'), ('n', None, '14-20/20'), ('n', lines(21, 40), '27-33/40'),
            ('4n', lines(41, 70), '64-70/70'), ('g?5$\r', None, '5-11/70'), ('7N', lines(71, 90), '75-81/90'),
        ):
            self.press(keys)
            if more:
                self.wait_for_reading()
                os.write(writer, more.encode())
            self.terminal.wait_for(f' {there} ')
        self.press('2N')
        self.wait_for_reading()
        os.close(writer)
        self.terminal.wait_for(' 5-11/90 ')
        self.quit()

    def test_a_pipe_is_read_on_for_a_search_back_without_a_match(self):
        writer = self.page_begun()
        self.press('10g?5$\r')
        self.terminal.wait_for(' 5-11/20 ')
        self.press('10g?zebra\r')
        self.wait_for_reading()
        os.write(writer, (lines(21, 30) + 'zebra\n' + lines(31, 40)).encode())
        self.terminal.wait_for(' 31-37/41 ')
        self.assertEqual(self.terminal.player.texts()[0], 'zebra')
        # (none is above)
        self.press('?unicorn\r')
        self.wait_for_reading()
        os.close(writer)
        self.terminal.wait_for('(pattern not found)')
        self.quit()

    def test_the_row_tells_how_much_is_read(self):
        writer = self.page_pipe("seq -f '%09.0f of a pipe' 160000")
        self.terminal.wait_for(' 1-7/')
        self.press('G')
        self.terminal.wait_for('(reading 3 MB)')
        # (what reads the pipe behind `seq` has opened it then)
        os.write(writer, b'a last line\n')
        self.terminal.wait_for('/160001')
        self.end_pipe(writer)

    def test_a_pipe_is_read_to_its_end_for_a_part_of_it(self):
        for keys, there in (('50%', '31-37/60'), ('25p', '16-22/60')):
            writer = self.page_begun()
            self.press(keys)
            self.wait_for_reading()
            os.write(writer, lines(21, 60).encode())
            self.terminal.wait_for('/60 ')
            self.wait_for_reading()
            os.close(writer)
            self.terminal.wait_for(f' {there} ')
            self.quit()
            os.remove(os.path.join(self.folder, 'to_come'))

    def test_a_file_is_read_on(self):
        self.write('long', ''.join(f'{n:06}\n' for n in range(1, 100001)))
        for keys, row in (
            ('50%', '050001'), ('/99999$\r', '099994'), ('/9999$\rn', '019999'), ('?77777$\r', '077777'),
            ('?^0.7777$\rNN', '027777'), ('/777$\r50n', '050777'),
        ):
            terminal = self.page('./minus long')
            self.press(keys)
            terminal.wait(lambda: terminal.player.texts()[0] == row, f'{row} after {keys!r}')
            terminal.wait_for('/100000 ')
            self.quit()

    def test_ctrl_c_ends_reading_on_of_a_file_and_drops_the_keys_that_wait(self):
        # (the more of a cut line is there, the longer each piece takes)
        self.write('long', self.LINES + 'x' * 30_000_000)
        terminal = self.page('./minus -S long')
        for keys in ('/none\r', '50%'):
            self.press(keys)
            terminal.wait_for('(reading')
            self.press('jjj')
            terminal.wait_for_turns()
            self.assertEqual(terminal.player.texts()[0], 'line 1 of the text')
            self.press('\x03')
            self.wait_for_no_reading()
            self.assertNotIn('not found', terminal.player.texts()[-1])
            terminal.wait_for(' 1-7/101 ')
            self.press('j')
            terminal.wait_for(' 2-8/101 ')
            self.press('k')
            terminal.wait_for(' 1-7/101 ')
        # (where nothing goes on, it ends the pager)
        self.press('\x03')
        self.assert_back(0)

    def test_a_key_ends_reading_on_of_a_pipe_and_does_what_it_does(self):
        writer = self.page_begun()
        more = 20
        for keys, key, there in (
            ('/nothing\r', 'j', '2-8'), ('50%', ' ', '9-15'), ('100g', 'k', '8-14'), ('G', 'g', '1-7'),
            ("'$", 'g', '1-7'), ('?nothing\r', '5g', '5-11'),
        ):
            self.press(keys)
            self.wait_for_reading()
            self.press(key)
            self.wait_for_no_reading()
            self.terminal.wait_for(f' {there}/{more} ')
            # (what comes then moves no page)
            os.write(writer, b'more\n')
            more += 1
            self.terminal.wait_for(f' {there}/{more} ')
        self.press('100g')
        self.wait_for_reading()
        self.end_pipe(writer)
