"""Tests of searches, and of the prompt that they are typed at."""
import os

from terminal import TerminalTests


class SearchTests(TerminalTests):

    def test_a_search_goes_on_and_back(self):
        self.page_lines()
        self.assert_pages((
            # (from two bytes on the page shows where the query leads)
            ('/l', ['type /l'], ''),
            ('ine 5', ['type ine 5'], ''),
            ('\r', ['key enter'], 'notes  5-11/100  '),
            ('n', ['type n'], 'notes  50-56/100  '),
            ('2n', ['type 2n'], 'notes  52-58/100  '),
            ('N', ['type p'], 'notes  51-57/100  '),
            ('N', ['type p'], 'notes  50-56/100  '),
            ('3N', ['type 3p'], 'notes  5-11/100  '),
            ('N', ['type p'], 'notes  5-11/100  '),
            # (past the last match it goes on at the first one)
            ('10n', ['type 10n'], 'notes  59-65/100  '),
            ('n', ['type n'], 'notes  5-11/100  '),
        ))
        self.assertTrue(self.terminal.player.texts()[-1].endswith(' 1/11'), self.terminal.player.texts())
        self.quit()

    def test_a_search_back(self):
        self.page_lines()
        self.assert_pages((
            ('30G', ['mark 29'], 'notes  30-36/100  '),
            # (the library searches on first: the program goes to the last match above the page)
            ('?line .7\r', ['type ?line .7', 'key enter', 'type n'], 'notes  27-33/100  '),
            ('n', ['type n'], 'notes  17-23/100  '),
            ('N', ['type p'], 'notes  27-33/100  '),
            ('>', ['mark 93'], 'notes  94-100/100  '),
            ('?line .[789] o\r', ['type ?line .[789] o', 'key enter', 'type n'], 'notes  89-95/100  '),
            # (no match is on the page or below it: the library goes on at the first one of all)
            ('?line 3\r', ['type /line 3', 'key enter', 'type 10n'], 'notes  39-45/100  '),
        ))
        self.quit()

    def test_a_search_without_a_match(self):
        self.page_lines()
        self.assert_pages((
            ('3j', ['mark 3'], 'notes  4-10/100  '),
            ('/line 55', ['type /line 55'], ''),
            ('5', ['type 5'], ''),
            ('\r', ['key enter'], '(pattern not found) notes  4-10/100  '),
            ('j', ['type j'], 'notes  5-11/100  '),
            ('n', ['type n'], 'notes  5-11/100  '),
            # (what is no pattern is said so until the next key)
            ('/line (\r', ['type /line (', 'key enter'], 'notes  5-11/100  '),
            ('\r', ['key enter'], 'notes  5-11/100  '),
            ('/line (\r', ['type /line (', 'key enter'], 'notes  5-11/100  '),
            ('j', ['key enter', 'type j'], 'notes  6-12/100  '),
        ))
        self.quit()

    def test_a_search_prompt_is_left(self):
        self.page_lines()
        self.press('2j')
        self.assert_page(self.LINES, 'notes  3-9/100  ', 'mark 2')
        for leave in ('\x1b', '\x03', '\x7f' * 8):
            self.press('/line 7')
            self.assert_page(self.LINES, '', 'mark 2', 'type /line 7')
            if leave == '\x1b':
                self.press_escape()
            self.press('' if leave == '\x1b' else leave)
            self.assert_page(self.LINES, 'notes  3-9/100  ', 'mark 2')
        # (what was searched for before is still searched for, from the match that was reported)
        self.press('/line 7\rnn')
        found = ['mark 2', 'type /line 7', 'key enter', 'type nn']
        self.assert_page(self.LINES, 'notes  71-77/100  ', *found)
        self.press('?other\x03')
        self.assert_page(self.LINES, 'notes  71-77/100  ', *found)
        self.press('N')
        self.assert_page(self.LINES, 'notes  72-78/100  ', *found, 'type n')
        # (and an empty query searches on)
        self.press('/\r')
        self.assert_page(self.LINES, 'notes  73-79/100  ', *found, 'type nn')
        self.press('?\r')
        self.assert_page(self.LINES, 'notes  72-78/100  ', *found, 'type n')
        self.quit()

    def test_keys_of_the_program_are_letters_in_a_query(self):
        self.page_lines()
        keys = 'qbfF<>MnNpG12/? jk'
        self.press('/' + keys)
        self.assert_page(self.LINES, '', 'type /' + keys)
        self.press('\x1b[D\x1b[D\x7f\x1b[3~\x1b[HX\x1b[FY\x1b[1;5DZ')
        edits = ['key left', 'key left', 'key backspace', 'key delete', 'key home', 'type X', 'key end', 'type Y']
        self.assert_page(self.LINES, '', 'type /' + keys, *edits, 'key c-left', 'type Z')
        self.press('\x03q')
        self.assert_back(0)

    def test_queries_that_were_taken_come_back(self):
        terminal = self.page_lines()
        for query in ('line 2', 'line 3', 'line 3', 'line (', 'line 4'):
            self.press(f'/{query}\r')
        terminal.wait_for('4-10/100')
        self.press('g?line 9')
        shown = lambda query: terminal.wait(
            lambda: terminal.player.texts()[-1] == '?' + query, f'the query {query!r}: {terminal.player.texts()}')
        shown('line 9')
        up, down = '\x1b[A', '\x1b[B'
        for key, query in (
            (down, 'line 9'), (up, 'line 4'), (up, 'line ('), (up, 'line 3'), (up, 'line 2'), (up, 'line 2'),
            (down, 'line 3'), ('4', 'line 34'), (down, 'line ('), (down, 'line 4'), (down, 'line 9'),
            (down, 'line 9'), ('8', 'line 98'), (up, 'line 4'), (down, 'line 98'),
        ):
            self.press(key)
            shown(query)
        self.press(up + up + up + '\r')
        self.assert_page(self.LINES, 'notes  3-9/100  ', 'type ?line 3', 'key enter')
        self.quit()

    def test_a_query_has_a_most(self):
        terminal = self.page_lines()
        os.set_blocking(terminal.master, False)
        keys, sent = b'/' + b'x' * 300, 0
        while sent < len(keys):
            sent += terminal.send_some(keys[sent:])
            terminal.read(0)
        os.set_blocking(terminal.master, True)
        terminal.wait(lambda: terminal.player.texts()[-1].startswith('/xxx'), 'the query')
        self.press('\x03q')
        self.assert_back(0)

    def test_a_file_grows_while_the_search_prompt_is_open(self):
        path = self.write('log', self.LINES)
        terminal = self.page('./minus +F log')
        terminal.wait_for('94-100/100')
        text = self.LINES
        with open(path, 'a') as log:
            def grow(more):
                before = terminal.counted('rchar')
                log.write(more)
                log.flush()
                terminal.wait(lambda: terminal.counted('rchar') >= before + len(more), 'the text to be read')
                return text + more
            self.press('/line 98')
            self.assert_page(text, '', 'mark 93', 'type /line 98')
            # (what comes is read, and waits)
            text = grow('more\n')
            text = grow('and more\n' * 10)
            self.assert_page(self.LINES, '', 'mark 93', 'type /line 98')
            # (the match is on the last page, which is followed on)
            self.press('\r')
            self.assert_page(text, 'log  105-111/111  ', 'mark 93', 'type /line 98', 'key enter', 'follow on')
            self.press('/line 2')
            self.terminal.wait_for('/line 2')
            text = grow('the last\n')
            self.press('\x03')
            self.assert_page(text, 'log  106-112/112  ', 'type /line 98', 'key enter', 'follow on')
            # (a match further up ends that, and so does a jump there)
            self.press('/line 2\r')
            self.assert_page(text, 'log  2-8/112  ', 'type /line 2', 'key enter')
            text = grow('not followed\n')
            self.assert_page(text, 'log  2-8/113  ', 'type /line 2', 'key enter')
            self.press('F')
            self.assert_page(text, 'log  107-113/113  ', 'type /line 2', 'key enter', 'follow on')
            self.press('n')
            self.assert_page(text, 'log  2-8/113  ', 'type /line 2', 'key enter')
            text = grow('not either\n')
            self.assert_page(text, 'log  2-8/114  ', 'type /line 2', 'key enter')
        self.quit()

    def test_a_pipe_is_read_while_the_search_prompt_is_open(self):
        writer = self.page_pipe('seq 20')
        self.terminal.wait_for('1-7/20')
        self.press('/1')
        self.terminal.wait_for('/1')
        lines = ''.join(f'{n}\n' for n in range(21, 20001))
        for at in range(0, len(lines), 4096):
            os.write(writer, lines[at:at + 4096].encode())
        self.terminal.wait(lambda: self.terminal.counted('rchar') > len(lines), 'the text to be read')
        self.press('9\r')
        self.terminal.wait_for('14-20/20000')
        self.press('G')
        self.terminal.wait_for('19994-20000/')
        self.end_pipe(writer)

    def test_a_resize_while_the_search_prompt_is_open(self):
        terminal = self.page_lines()
        self.press('/line 3')
        self.assert_page(self.LINES, '', 'type /line 3')
        terminal.set_size(30, 12)
        terminal.wait(lambda: self.told_size() == '12 30 0\n', 'the new size')
        terminal.wait_for_turns()
        terminal.player.resize(30, 12)
        self.press('\r')
        self.assert_page(self.LINES, 'notes  3-13/100  ', 'type /line 3', 'key enter')
        self.quit()

    def test_ctrl_z_leaves_the_search_prompt(self):
        terminal = self.page_lines()
        self.press('/line 3')
        self.assert_page(self.LINES, '', 'type /line 3')
        self.suspend()
        terminal.resize(30, 12)
        self.resume()
        self.assert_page(self.LINES, 'notes  1-11/100  ')
        self.quit()

    def test_a_text_is_read_on_for_a_key(self):
        writer = self.page_pipe('seq 20')
        terminal = self.terminal
        terminal.wait_for('1-7/20')
        for keys, more, there in (
            ('/zebra\r', 'zebra\n', '15-21/21'), ('g30G', ''.join(f'{n}\n' for n in range(22, 41)), '30-36/40'),
            ('/^41$\r', '41\n', '35-41/41'),
        ):
            self.press(keys)
            terminal.wait_for('(reading 0 MB)')
            self.assertNotIn('not found', terminal.player.texts()[-1])
            os.write(writer, more.encode())
            terminal.wait_for(there)
        # (Ctrl-C ends that, and another one the pager)
        self.press('g/none\r')
        terminal.wait_for('(reading 0 MB)')
        self.press('\x03')
        terminal.wait(lambda: 'reading' not in terminal.player.texts()[-1], 'the end of reading on')
        self.press('j')
        terminal.wait_for('2-8/41')
        self.press('/none\r')
        terminal.wait_for('(reading 0 MB)')
        os.close(writer)
        terminal.wait_for('(pattern not found)')
        self.quit()

    def test_matches_are_shown_no_more_and_again(self):
        self.page_lines()
        marked = lambda: any('7' in style for row in self.terminal.player.cells for _, style in row)
        self.press('n')
        self.terminal.wait_for('nothing was searched for before')
        self.press('/line 3\r')
        self.terminal.wait(lambda: self.terminal.player.texts()[0] == 'line 3 of the text' and marked(), 'marks')
        self.terminal.wait_for('3-9/100')
        page = self.terminal.player.texts()[:-1]
        self.press('\x1bu')
        self.terminal.wait(lambda: not marked(), 'no marks')
        self.assertEqual(self.terminal.player.texts()[:-1], page)
        # (Esc by itself, and the key behind it)
        self.press_escape()
        self.press('u')
        self.terminal.wait(marked, 'marks again')
        self.press('\x1bu')
        self.terminal.wait(lambda: not marked(), 'no marks again')
        self.press('n')
        self.terminal.wait(lambda: self.terminal.player.texts()[0] == 'line 30 of the text', 'the next match')
        self.assertTrue(marked())
        self.quit()

    def test_return_answers_that_no_row_matches(self):
        self.page_lines()
        self.press('/none\r')
        self.terminal.wait_for('(pattern not found)')
        self.press('\r')
        self.terminal.wait(lambda: 'not found' not in self.terminal.player.texts()[-1], 'the answer')
        self.assertEqual(self.terminal.player.texts()[0], 'line 1 of the text')
        self.press('\r')
        self.terminal.wait_for('2-8/100')
        self.quit()

    def test_capitals_do_not_count_and_nothing_is_typed_for_that(self):
        self.write('notes', 'one\ntwo\nNEEDLE\n' + self.LINES)
        terminal = self.page('./minus -i notes')
        self.press('/needle\r')
        terminal.wait(lambda: terminal.player.texts()[0] == 'NEEDLE', 'the match')
        self.assertNotIn(b'(?i)', terminal.bytes)
        self.press('?ONE\r')
        terminal.wait_for('(pattern not found)')
        self.quit()

    def test_a_query_longer_than_its_row_moves_to_the_side(self):
        terminal = self.page_lines()
        page = terminal.player.texts()[:-1]
        query = ''.join(chr(97 + n % 26) for n in range(90))
        self.press('/' + query)
        # (parts of 38 columns, beside the mark and the cursor)
        terminal.wait(lambda: terminal.player.texts()[-1] == '/' + query[76:], 'the part with the end')
        self.press('\x01')
        terminal.wait(lambda: terminal.player.texts()[-1] == '/' + query[:38], 'the part with the beginning')
        self.press('X')
        terminal.wait(lambda: terminal.player.texts()[-1] == '/X' + query[:37], 'a character in front')
        self.assertEqual(terminal.player.texts()[:-1], page)
        self.press_escape()
        terminal.wait_for('1-7/100')
        self.quit()

    def test_ctrl_j_is_enter_in_a_query(self):
        self.page_lines()
        self.press('/line 50\n')
        self.terminal.wait(lambda: self.terminal.player.texts()[0] == 'line 50 of the text', 'the match')
        self.quit()

    def test_the_row_of_a_query_tells_that_a_long_text_has_no_preview(self):
        self.write('long', ''.join(f'line {n}\n' for n in range(1, 2000001)))
        terminal = self.page('./minus long')
        self.press('G')
        terminal.wait(lambda: terminal.player.texts()[0] == 'line 1999994', 'the last page')
        self.press('/l')
        terminal.wait_for_turns()
        self.assertEqual('/l', terminal.player.texts()[-1])
        self.press('i')
        terminal.wait(lambda: terminal.player.texts()[-1] == '/li' + ' (Enter searches 24 MB)'.rjust(37), 'the note')
        self.assertEqual((3, 7), (terminal.player.x, terminal.player.y))
        self.press('x' * 16)
        terminal.wait(lambda: terminal.player.texts()[-1] == '/li' + 'x' * 16, 'a query that leaves no room')
        self.press('\x03')
        terminal.wait(lambda: 'long' in terminal.player.texts()[-1], 'the place')
        self.quit()

    def test_a_query_is_edited_as_a_line(self):
        terminal = self.page_lines()
        at = lambda query, column: terminal.wait(
            lambda: (terminal.player.texts()[-1], terminal.player.x) == ('/' + query, column), f'{query!r} at {column}')
        for keys, query, column in (
            ('/one two  six', 'one two  six', 13), ('\x17', 'one two', 10), ('\x17', 'one', 5), ('x y', 'one x y', 8),
            # (from the front on there is no word, and the rest stays)
            ('\x01', 'one x y', 1), ('\x17', 'one x y', 1), ('A', 'Aone x y', 2), ('\x05', 'Aone x y', 9),
            ('B', 'Aone x yB', 10), ('\x1b[D\x1b[D\x17', 'Aone yB', 6), ('\x15', '', 1), ('line 50', 'line 50', 8),
            # (from any place in it, and the prompt stays open)
            ('\x01\x15', '', 1), ('\x15\x17', '', 1), ('line 7', 'line 7', 7),
        ):
            self.press(keys)
            at(query, column)
        self.press('\r')
        self.assert_page(self.LINES, 'notes  7-13/100  ', 'type /line 7', 'key enter')
        self.quit()

    def test_a_search_back_goes_on_from_the_page(self):
        terminal = self.page_lines()
        for keys, place in (
            ('90g?line .5\r', '85-91/100'), ('bbb', '64-70/100'), ('n', '55-61/100'), ('70g', '70-76/100'),
            ('n', '65-71/100'), ('ddd', '77-83/100'), ('N', '85-91/100'), ('g', '1-7/100'), ('N', '15-21/100'),
        ):
            self.press(keys)
            terminal.wait_for(f' {place} ')
        self.quit()

    def test_a_line_is_searched_as_one_where_it_is_wrapped(self):
        rows = 'a' * 37 + 'end' + 'begin' + 'b' * 20 + '\n'
        self.write('wrapped', rows * 5 + 'begin of a line\n' + rows * 5 + 'its end\n' + rows * 5)
        terminal = self.page('./minus wrapped')
        terminal.wait_for('1-4/17')
        self.assertEqual(terminal.player.texts()[:2], ['a' * 37 + 'end', 'begin' + 'b' * 20])
        # (no row that begins or ends within a line)
        for query, row in (
            ('^begin', 'begin of a line'), ('end$', 'its end'), ('^its end$', 'its end'), ('^a*endbegin', rows[:40]),
        ):
            self.press(f'g/{query}\r')
            terminal.wait(lambda: terminal.player.texts()[0] == row, f'the row of {query}')
            terminal.wait_for(' 1/15' if 'a*' in query else ' 1/1')
        # (both parts of the match that was found last, and as many matches where the rows are others)
        marked = lambda: [sum('7' in style for _, style in row) for row in terminal.player.cells[:3]]
        for cols, parts in ((40, [40, 5, 40]), (30, [30, 15, 0]), (40, [40, 5, 40])):
            if cols != terminal.player.cols:
                terminal.resize(cols, 8)
            terminal.wait(lambda: marked() == parts, f'marks on {cols} columns')
            terminal.wait_for(' 1/15')
        for query in ('^bb', 'aend$'):
            self.press(f'g/{query}\r')
            terminal.wait_for('(pattern not found)')
            self.press('\r')
        self.quit()

    def test_a_text_of_many_lines_has_a_preview(self):
        self.write('many', ''.join(f'line {n}\n' for n in range(1, 20001)))
        terminal = self.page('./minus many')
        terminal.wait_for(' 1-7/20000 ')
        self.press('/line 19876')
        terminal.wait(lambda: terminal.player.texts()[0] == 'line 19876', 'where the query leads')
        self.assertEqual(terminal.player.texts()[-1], '/line 19876')
        self.press('\x03')
        terminal.wait_for(' 1-7/20000 ')
        self.quit()
