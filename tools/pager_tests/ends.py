"""Tests of how a program is suspended and ended, and hands the terminal back."""
import glob
import os
import re
import shutil
import signal
import subprocess
import time
import unittest

from terminal import PATIENCE, Terminal, TerminalTests, contents


class EndTests(TerminalTests):

    def test_started_as_man_starts_its_pager(self):
        self.write('notes', self.LINES)
        self.write('start.py', 'import os, signal\nsignal.pthread_sigmask(signal.SIG_BLOCK, {signal.SIGCHLD})\n'
                   'os.execv("./minus", ["./minus"])\n')
        self.page('cat notes | python3 start.py')
        self.terminal.wait_for('1-7/100')
        self.quit()

    def test_the_launcher_is_told_to_end(self):
        self.end_by('minus', signal.SIGTERM, 143)

    def test_the_launcher_is_hung_up(self):
        self.end_by('minus', signal.SIGHUP, 129)

    def test_the_launcher_is_told_to_quit(self):
        self.end_by('minus', signal.SIGQUIT, 131)

    def test_the_launcher_is_ended_as_it_starts(self):
        for milliseconds in range(0, 50, 5):
            self.tearDown()
            self.terminal = terminal = Terminal(self.folder)
            terminal.send('seq 100 | ./minus; echo ended\n')
            terminal.wait(lambda: terminal.processes('minus'), 'the launcher')
            time.sleep(milliseconds / 1000)
            os.kill(terminal.processes('minus')[0], signal.SIGTERM)
            terminal.wait(lambda: terminal.bytes.endswith(b'ended\r\nready> '), 'the shell')
            self.assertEqual(terminal.mode(), terminal.before)
            self.assertEqual(glob.glob(os.path.join(self.folder, 'minus.*')), [])
            left = lambda: [pid for name in ('minus', 'minus_pager', 'cat', 'dd') for pid in terminal.processes(name)]
            terminal.wait(lambda: not left(), 'the end of all processes')

    def test_the_launcher_is_interrupted(self):
        self.end_by('minus', signal.SIGINT, 130)

    def test_the_terminal_goes_away(self):
        writer = self.page_pipe('seq 20')
        terminal, self.terminal = self.terminal, None
        terminal.wait_for('1-7/20')
        left = terminal.processes('minus') + terminal.processes('minus_pager') + terminal.processes('cat')
        self.assertGreaterEqual(len(left), 4)
        terminal.close()
        end = time.time() + PATIENCE
        is_left = lambda: glob.glob(os.path.join(self.folder, 'minus.*')) or [
            pid for pid in left if os.path.exists(f'/proc/{pid}')]
        os.close(writer)
        while is_left():
            self.assertLess(time.time(), end, is_left())
            time.sleep(0.05)

    def test_bash_is_the_shell_of_the_launcher(self):
        self.write('notes', self.LINES)
        for how, status in ((None, 0), (signal.SIGTERM, 143), ('program', 137)):
            self.page(f'seq 100 | {shutil.which("bash")} ./minus')
            self.terminal.wait_for('1-7/100')
            self.suspend()
            self.resume()
            self.terminal.wait_for('1-7/100')
            if how is None:
                self.press('q')
            elif how == 'program':
                os.kill(self.terminal.processes('minus_pager')[0], signal.SIGKILL)
            else:
                os.kill(self.terminal.processes('minus')[0], how)
            self.assert_back(status)
            # (bash would say itself that the program was killed)
            self.assertNotIn(b': line ', self.terminal.bytes)

    @unittest.skipUnless(shutil.which('dash'), 'the shell without the other one')
    def test_a_suspended_pager_is_ended_as_it_goes_on(self):
        self.page_lines()
        self.suspend()
        self.terminal.send('kill %1\n')
        self.terminal.wait(lambda: self.terminal.bytes.endswith(b'kill %1\r\nready> '), 'the shell')
        self.terminal.send('fg\n')
        self.terminal.wait(lambda: not self.terminal.processes('minus_pager'), 'the end of the program')
        self.assert_back(143)

    @unittest.skipUnless(shutil.which('bash'), 'dash resumes no job that is ended')
    def test_a_suspended_pager_is_ended(self):
        self.write('notes', self.LINES)
        self.page('./minus notes', shell=None)
        self.terminal.wait_for('1-7/100')
        self.suspend()
        self.terminal.send('kill %1\n')
        self.terminal.wait(lambda: not self.terminal.processes('minus'), 'the end of the launcher')
        self.terminal.wait_for_prompts(b'Exit 143')
        self.assert_back(0)

    def test_a_link_leads_to_the_launcher(self):
        os.mkdir(os.path.join(self.folder, 'links'))
        os.symlink('../minus', os.path.join(self.folder, 'links', 'first'))
        os.symlink(os.path.join(self.folder, 'links', 'first'), os.path.join(self.folder, 'second'))
        self.write('notes', self.LINES)
        # (without a slash too, as a shell names its script)
        for link in ('links/first', './second', 'sh second'):
            self.page(f'{link} notes')
            self.terminal.wait_for('1-7/100')
            self.quit()

    def test_a_terminal_that_does_not_know_its_size(self):
        self.write('notes', self.LINES)
        for told, cols, rows in (
            ('', 80, 24), ('LINES=12 COLUMNS=50', 50, 12), ('LINES=0 COLUMNS=', 80, 24),
            ('LINES=-1 COLUMNS=99999', 80, 24),
        ):
            self.tearDown()
            self.terminal = Terminal(self.folder, cols, rows)
            self.terminal.set_size(0, 0)
            self.terminal.send(f'unset LINES COLUMNS; {told} ./minus notes\n')
            self.terminal.wait(lambda: self.terminal.player.modes.get(1049), 'the page')
            self.assert_page(self.LINES, f'notes  1-{rows - 1}/100  {rows - 1}%')
            self.quit()

    def test_a_pipe_goes_on_behind_the_pager(self):
        writer = self.open_pipe()
        self.page('(seq 3; cat to_come) | { ./minus; cat; }')
        self.wait_for_reader()
        self.terminal.wait_for('1-3/3')
        self.press('q')
        self.terminal.wait(lambda: not self.terminal.processes('minus'), 'the end of the launcher')
        os.write(writer, b'4\n')
        os.close(writer)
        self.terminal.wait(lambda: self.terminal.bytes.endswith(b'4\r\nready> '), 'what comes behind')

    def test_a_pipe_is_left_as_it_was(self):
        self.page('seq 3 | { ./minus; grep flags /proc/self/fdinfo/0; }')
        self.terminal.wait_for('1-3/3')
        self.press('q')
        self.terminal.wait(lambda: b'flags:' in self.terminal.bytes and self.terminal.ends_with('ready> '), 'flags')
        flags = re.search(rb'flags:\s*(\d+)', self.terminal.bytes).group(1)
        self.assertFalse(int(flags, 8) & os.O_NONBLOCK, flags)

    def test_another_place_takes_the_files(self):
        self.write('notes', self.LINES)
        # (a first place that is not there, that takes no folder, and that takes no fifo)
        first = '[ -e tried ] || { >tried; exit 1; }'
        os.mkdir(os.path.join(self.folder, 'stubs'))
        for command in ('', 'mkdir', 'mkfifo'):
            if command:
                self.command(f'stubs/{command}', f'{first}; exec {shutil.which(command)} "$@"')
            self.page(f'rm -f tried; TMPDIR={"$PWD" if command else "/none"} PATH=./stubs:$PATH ./minus notes')
            self.terminal.wait_for('1-7/100')
            self.assertEqual(glob.glob(os.path.join(self.folder, 'minus.*')), [])
            self.quit()
            if command:
                os.remove(os.path.join(self.folder, 'stubs', command))

    @unittest.skipUnless(os.path.isdir('/dev/shm'), 'no such place here')
    def test_places_are_taken_in_their_order(self):
        self.write('notes', self.LINES)
        for name in ('run', 'stubs'):
            os.mkdir(os.path.join(self.folder, name))
        self.command('stubs/mkdir', rf'case $* in *\ /dev/shm/*) exec {shutil.which("mkdir")} "$@" ;; esac; exit 1')
        for set_, place in (('TMPDIR=/none', f'{self.folder}/run'), ('PATH=./stubs:$PATH', '/dev/shm')):
            terminal = self.page(f'XDG_RUNTIME_DIR=$PWD/run {set_} ./minus notes')
            terminal.wait_for('1-7/100')
            told = contents(f'/proc/{terminal.processes("minus_pager")[0]}/environ')
            taken = os.path.dirname(re.search(rb'MINUS_TTY=\S+ \S+ ([^\0]+)', told).group(1).decode())
            self.assertEqual(os.path.dirname(taken), place)
            self.assertTrue(os.path.isdir(taken))
            self.quit()
            self.assertFalse(os.path.exists(taken))

    def test_where_no_place_takes_a_file_the_text_goes_on(self):
        self.command('mkdir', 'exit 1')
        self.write('notes', 'one\ntwo\n')
        self.terminal = Terminal(self.folder, 60, 8)
        self.terminal.send('PATH=.:$PATH ./minus notes\n')
        self.terminal.wait(lambda: self.terminal.bytes.endswith(b'\r\none\r\ntwo\r\nready> '), 'the text')
        self.assertIn(b'the text is not paged', self.terminal.bytes)
        self.assertEqual(self.terminal.mode(), self.terminal.before)

    def test_the_program_is_killed(self):
        self.end_by('minus_pager', signal.SIGKILL, 137)

    @unittest.skipUnless(shutil.which('bash'), 'dash ends where its terminal has nothing to read yet')
    def test_the_launcher_is_killed(self):
        self.write('notes', self.LINES)
        for command, keys in (('./minus notes', ''), ('yes | ./minus', 'q')):
            terminal = self.page(command, shell=None)
            terminal.wait_for('1-7/')
            left = [pid for name in ('minus', 'minus_pager', 'cat', 'yes') for pid in terminal.processes(name)]
            self.assertGreaterEqual(len(left), 5 if keys else 3)
            os.kill(left[0], signal.SIGKILL)
            # (the shell waits for what writes the text, and the page goes on)
            if keys:
                self.press('j')
                terminal.wait_for('2-8/')
            self.press(keys)
            terminal.wait(lambda: not [p for p in left if os.path.exists(f'/proc/{p}')], 'the end of all processes')
            terminal.wait(lambda: not terminal.player.modes[1049], 'the main screen')
        # What stays is the folder of the launcher's files, and, where the shell does not set it back as bash does, a mode
        # of the terminal in which no read waits.

    def test_the_program_is_told_to_end(self):
        self.end_by('minus_pager', signal.SIGTERM, 143)

    def test_the_program_is_hung_up(self):
        self.end_by('minus_pager', signal.SIGHUP, 129)

    def test_the_program_is_not_interrupted(self):
        self.page_lines()
        for number in (signal.SIGINT, signal.SIGQUIT):
            os.kill(self.terminal.processes('minus_pager')[0], number)
        self.press('j')
        self.terminal.wait_for('2-8/100')
        self.quit()

    def test_ctrl_z_suspends_and_fg_comes_back(self):
        self.write('notes', self.LINES)
        terminal = self.page('./minus --mouse notes')
        terminal.wait_for('1-7/100')
        self.press('4j')
        terminal.wait_for('5-11/100')
        self.suspend()
        terminal.resize(30, 12)
        self.resume()
        self.assert_page(self.LINES, 'notes  5-15/100  ', 'mark 4')
        self.assertTrue(terminal.player.modes[1000])
        # (what was typed behind Ctrl-Z, before the shell heard of it)
        self.suspend('\x1a2j')
        self.resume()
        self.assert_page(self.LINES, 'notes  7-17/100  ', 'mark 6')
        self.quit()

    def test_ctrl_z_suspends_the_whole_job_of_a_pipe(self):
        writer = self.page_pipe('seq 50')
        self.terminal.wait_for('1-7/50')
        self.suspend()
        self.resume()
        os.write(writer, b'end\n')
        self.terminal.wait_for('1-7/51')
        self.press('>')
        self.terminal.wait_for('45-51/51')
        self.end_pipe(writer)

    def test_no_terminal_hands_the_text_on(self):
        raw = b'a\tb\x1b[31m\xff\r\n'
        path = self.write('raw', raw)
        launcher = os.path.join(self.folder, 'minus')
        self.assertEqual(subprocess.run([launcher, path], stdout=subprocess.PIPE).stdout, raw)
        self.assertEqual(subprocess.run([launcher], input=raw, stdout=subprocess.PIPE).stdout, raw)
        self.assertEqual(subprocess.run([launcher, '-'], input=raw, stdout=subprocess.PIPE).stdout, raw)
