"""Tests of the launcher alone, and of an installation."""
import os
import shutil
import subprocess

import programs
from programs import TOP
from terminal import PATIENCE, Terminal, TerminalTests, contents


class LauncherTests(TerminalTests):
    """What bin/minus makes of its words, by a program in the pager's place that says what it was given."""

    def setUp(self):
        super().setUp()
        self.command('minus_pager', 'printf "<%s>" "$@"; echo " $MINUS_NAME"; head -c 20')
        for name in ('notes', '-dash', '+plus'):
            self.write(name, f'text of {name}\n')
        for name in ('pipe', '-pipe', '+pipe'):
            os.mkfifo(os.path.join(self.folder, name))

    def launch(self, *words, writes=None):
        """Runs the launcher, while somebody writes to this pipe, and answers what the program was given and reads."""
        path = os.path.join(self.folder, writes or 'none')
        writer = subprocess.Popen(['sh', '-c', 'echo piped >"$1"', 'sh', path]) if writes else None
        # (what the scripts call so is theirs, and none of the environment)
        env = {**os.environ, 'MINUS_NAME': 'old', 'packed': 'notes', 'unpack': 'cat', 'launcher': '1'}
        run = subprocess.run(
            [os.path.join(self.folder, 'minus'), *words], cwd=self.folder, input=b'standing\n', capture_output=True,
            timeout=PATIENCE, env=env)
        if writer:
            # (it waits on where nobody has opened the pipe)
            writer.kill()
            writer.wait()
        self.assertEqual(run.stderr, b'')
        given, _, text = run.stdout.partition(b'\n')
        return given, text

    def test_a_program_that_asks_twice_and_fails(self):
        self.command('minus_pager', 'echo input >&2; echo input >&2; sleep 0.1; echo why >&2; printf last >&2; exit 3')
        self.terminal = terminal = Terminal(self.folder)
        terminal.send('seq 3 | { ./minus; echo status=$?; }\n')
        terminal.wait(lambda: terminal.bytes.endswith(b'\r\nwhy\r\nlast\r\nstatus=3\r\nready> '), 'what it says')
        self.assertEqual(terminal.mode(), terminal.before)
        self.assertEqual(terminal.processes('cat'), [])

    def test_words_are_the_programs(self):
        os.mkdir(os.path.join(self.folder, 'folder'))
        for words in (
            (), ('-',), ('notes',), ('-p', 'notes', '-x', '4', 'notes'), ('-P', 'a  b', '--', '-dash', '+plus'),
            ('none', 'notes'), ('folder',), ('', '*', '$HOME', 'a\nb'), ('-pipe', '+pipe', 'notes'), ('+/x y', 'notes'),
            # (what stands between two options may belong to the first, and standard input is named)
            ('-p', 'pipe', '-N', 'notes'), ('-', 'pipe'), ('pipe', '-N', '-'), ('--', '-', 'pipe'),
        ):
            given = ''.join(f'<{word}>' for word in words or ('',)).encode() + b' '
            given, _, rest = given.partition(b'\n')
            self.assertEqual(self.launch(*words), (given, rest + b'\nstanding\n' if rest else b'standing\n'), words)

    def test_a_pipe_becomes_standard_input(self):
        for words, pipe, given in (
            (('pipe',), 'pipe', '<->'),
            (('-N', '-p', 'x', './pipe'), 'pipe', '<-N><-p><x><->'),
            (('pipe', '-N'), 'pipe', '<-><-N>'),
            (('-N', '--', '-pipe'), '-pipe', '<-N><--><->'),
            (('--', '+pipe', 'notes'), '+pipe', '<--><-><notes>'),
            (('pipe', '-pipe', '+pipe'), 'pipe', '<-><-pipe><+pipe>'),
            (('notes', 'pipe', './-pipe'), 'pipe', '<notes><-><./-pipe>'),
        ):
            name = './pipe' if './pipe' in words else pipe
            self.assertEqual(self.launch(*words, writes=pipe), (f'{given} {name}'.encode(), b'piped\n'), words)

    def test_a_name_becomes_standard_input(self):
        self.write(b'caf\xe9\t', 'odd\n')
        self.write('caf\u00e9', 'even\n')
        self.assertEqual(self.launch(b'caf\xe9\t'), (b'<-> caf??', b'odd\n'))
        self.assertEqual(self.launch('-N', 'notes', b'caf\xe9\t'), (b'<-N><notes><-> caf??', b'odd\n'))
        self.assertEqual(self.launch('caf\u00e9'), ('<caf\u00e9> '.encode(), b'standing\n'))

    def test_an_archive_becomes_standard_input(self):
        made = subprocess.run(['gzip', '-c', 'notes'], cwd=self.folder, stdout=subprocess.PIPE, check=True).stdout
        for name, packed in (('b.gz', made), ('c', made), ('-a.gz', made), (b'\xff.gz', made), ('empty.gz', b'')):
            self.write(name, packed)
        self.write('plain.gz', 'no archive\n')
        text = b'text of notes\n'
        for words, given in (
            (('b.gz',), '<-> b.gz'), (('-N', '-p', 'x', 'b.gz'), '<-N><-p><x><-> b.gz'),
            (('--', '-a.gz'), '<--><-> -a.gz'), ((b'\xff.gz',), '<-> ?.gz'),
        ):
            self.assertEqual(self.launch(*words), (given.encode(), text), words)
        # (`a` and a newline, as `compress` packs them)
        self.write('a.Z', b'\x1f\x9d\x90a\x14\x00')
        self.assertEqual(self.launch('a.Z'), (b'<-> a.Z', b'a\n'))
        for words in (('b.gz', 'notes'), ('b.gz', '-'), ('-a.gz',), ('c',), ('plain.gz',), ('empty.gz',), ('none.gz',)):
            given = ''.join(f'<{word}>' for word in words).encode() + b' '
            self.assertEqual(self.launch(*words), (given, b'standing\n'), words)

    def test_an_archive_that_nothing_unpacks(self):
        subprocess.run('gzip notes', shell=True, cwd=self.folder, check=True)
        os.mkdir(os.path.join(self.folder, 'few'))
        for name in ('sh', 'od', 'head'):
            os.symlink(shutil.which(name), os.path.join(self.folder, 'few', name))
        how = dict(cwd=self.folder, env={'PATH': 'few'}, input=b'', capture_output=True)
        run = subprocess.run(['./minus', 'notes.gz'], **how)
        self.assertEqual((run.stdout, run.stderr), (b'<notes.gz> \n', b''))


class InstallTests(TerminalTests):
    """The tool that installs the pager, over a copy of what it reads."""

    FILES = {
        'bin/minus': 0o755, 'bin/minus-run': 0o755, 'libexec/minus/minus_pager': 0o755, 'share/man/man1/minus.1': 0o644,
    }

    def setUp(self):
        super().setUp()
        for path in ('bin', 'tools/install.sh', 'docs/minus.1'):
            copy = os.path.join(self.folder, 'top', path)
            os.makedirs(os.path.dirname(copy), exist_ok=True)
            (shutil.copytree if path == 'bin' else shutil.copy)(os.path.join(TOP, path), copy)
        self.built = os.path.join(self.folder, 'top', 'crates', 'minus_pager', 'out', 'minus_pager')
        os.makedirs(os.path.dirname(self.built))

    def run_tool(self, *words, status=0):
        run = subprocess.run(['sh', *words], cwd=self.folder, capture_output=True)
        self.assertEqual((run.returncode, run.stdout, run.stderr.count(b'\n')), (status, b'', 1 if status else 0), run)
        return run.stderr

    def test_an_installation_runs(self):
        self.assertIn(b'rt run', self.run_tool('top/tools/install.sh', 'prefix', status=1))
        self.run_tool('top/tools/install.sh', status=2)
        self.assertFalse(os.path.exists(os.path.join(self.folder, 'prefix')))
        # (a second run replaces a program that runs)
        for time_ in (1, 2):
            shutil.copy(programs.PAGER, self.built)
            self.run_tool('top/tools/install.sh', 'prefix')
            if time_ == 1:
                self.write('notes', self.LINES)
                os.symlink('prefix/bin/minus', os.path.join(self.folder, 'link'))
                self.page('./link notes')
                self.terminal.wait_for('1-7/100')
        found = {}
        for folder, _, names in os.walk(os.path.join(self.folder, 'prefix')):
            for name in names:
                path = os.path.join(folder, name)
                found[os.path.relpath(path, os.path.join(self.folder, 'prefix'))] = os.stat(path).st_mode & 0o777
        self.assertEqual(found, self.FILES)
        self.quit()
        self.page('prefix/bin/minus notes')
        self.terminal.wait_for('1-7/100')
        self.quit()

    def test_the_manual_page_is_whole(self):
        if shutil.which('groff'):
            page = os.path.join(TOP, 'docs', 'minus.1')
            said = subprocess.run(['groff', '-mdoc', '-Tascii', '-ww', page], capture_output=True)
            self.assertEqual((said.returncode, said.stderr), (0, b''))
