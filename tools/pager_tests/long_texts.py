"""Tests of texts of many megabytes."""
import re

from terminal import TerminalTests, contents


class LongTextTests(TerminalTests):

    def most_memory(self):
        """The most memory that the pager had so far, in bytes."""
        pid = self.terminal.processes('minus_pager')[0]
        return 1024 * int(re.search(r'VmHWM:\s*(\d+)', contents(f'/proc/{pid}/status').decode())[1])

    def test_a_long_pipe_is_read_to_its_end_for_a_key(self):
        # (64 MB are read below the page without that)
        terminal = self.page("seq -f 'line %07.0f of a long pipe' 2700000 | ./minus")
        terminal.wait_for(' 1-7/')
        self.press('G')
        terminal.wait_for('2699994-2700000/2700000  100%')
        self.assertEqual(terminal.player.texts()[0], 'line 2699994 of a long pipe')
        self.press('/^line 0000999\r')
        terminal.wait_for(' 999-1005/2700000 ')
        self.quit()

    def test_a_long_cut_line_hears_its_keys(self):
        self.write('json', '{"a": "' + '0123456789' * 500_000 + '", "needle": 1}\nend\n')
        terminal = self.page('./minus -S json', cols=40)
        terminal.wait_for(' 1-2/2 ')
        for keys, begins in (('\x1b[C', '3456789012345'), ('100\x1b[C', '3456789012345'), ('\x1b[D', '3456789012345')):
            self.press(keys)
            terminal.wait(lambda: terminal.player.texts()[0].startswith(begins), f'{begins} behind {keys!r}')
        self.press('/needle\r')
        terminal.wait_for('100%                   1/1')
        self.press('j')
        self.quit()

    def test_a_resize_of_a_long_text_takes_no_second_text(self):
        text = ''.join(f'line {n:06} of a text that wraps where it is narrow\n' for n in range(200_000))
        self.write('long', text)
        terminal = self.page('./minus long', cols=60)
        self.press('150000g')
        terminal.wait_for(' 150000-150006/200000 ')
        for cols in (30, 100, 40):
            terminal.resize(cols, 8)
            terminal.wait_for('150000-')
            terminal.wait(lambda: terminal.player.texts()[0].startswith('line 149999'), f'the line on {cols} columns')
        # (4.5 bytes for each of the text, with its rows)
        self.assertLess(self.most_memory(), 5 * len(text))
        self.quit()
