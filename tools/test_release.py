#!/usr/bin/env python3
"""Tests the archives of a release where no rt is on the PATH: test_release.py

tools/release.sh makes them twice, over copies of what it reads: crates/minus_pager/out/minus_pager, as `rt run` builds it,
and crates/minus_c/out/libminus_c.a, as `rt lib` does. Each is unpacked in an empty folder. There the pager and the
examples in C, Python and Rust run in a pseudo terminal. What needs cc, cargo or a crate that is not there is skipped.
"""
import glob
import os
import shutil
import subprocess
import sys
import tempfile
import unittest
from unittest import mock

from programs import TOP
from terminal import Terminal, contents

READ = [
    'bin', 'tools/install.sh', 'tools/release.sh', 'docs/minus.1', 'LICENSE-MIT', 'LICENSE-APACHE', 'CHANGELOG.md', 'include',
    'examples', 'rust/minus', 'crates/minus_pager/out/minus_pager', 'crates/minus_c/out/libminus_c.a',
]
CRATES = os.path.join(TOP, 'tools', 'debian_crates.toml')
REGISTRY = '/usr/share/cargo/registry'
LINES = [f'line {n}' for n in range(1, 31)]
MANIFEST = '''[package]
name = "yours"
version = "0.1.0"
edition = "2024"

[dependencies]
minus = { path = "PACKAGE", features = ["static_output", "search"] }
'''
MAIN = '''use minus::{MinusError, Pager, page_all};

fn main() -> Result<(), MinusError> {
    let pager = Pager::new();
    pager.set_prompt("yours")?;
    for number in 1..=30 {
        pager.push_str(format!("line {number}\\n"))?;
    }
    page_all(pager)
}
'''


CRATES_OF_PACKAGE = ['crossterm', 'crossbeam-channel', 'parking_lot', 'regex', 'thiserror']
MISSING = ' '.join(it for it in CRATES_OF_PACKAGE if not glob.glob(f'{REGISTRY}/{it}-*'))


def path_without_rt():
    """Returns the PATH without the folders in which an rt stands."""
    folders = os.environ['PATH'].split(os.pathsep)
    return os.pathsep.join(it for it in folders if not os.path.exists(os.path.join(it, 'rt')))


def copy_of_top(folder):
    """Copies what a release is made of."""
    for path in READ:
        to = os.path.join(folder, path)
        os.makedirs(os.path.dirname(to), exist_ok=True)
        if os.path.isdir(os.path.join(TOP, path)):
            ignored = shutil.ignore_patterns('target', 'Cargo.lock', '__pycache__')
            shutil.copytree(os.path.join(TOP, path), to, symlinks=path == 'bin', ignore=ignored)
        else:
            shutil.copy(os.path.join(TOP, path), to)


def released(top, folder, mask):
    """Makes a release, and returns the bytes of each file of it."""
    words = ['sh', '-c', 'umask $1; sh "$2"/tools/release.sh "$3"', 'sh', mask, top, folder]
    subprocess.run(words, check=True, env={**os.environ, 'PATH': path_without_rt()})
    return {name: contents(os.path.join(folder, name)) for name in sorted(os.listdir(folder))}


class ReleaseTests(unittest.TestCase):
    @classmethod
    def setUpClass(cls):
        cls.folder = tempfile.mkdtemp(prefix='test_release.')
        cls.addClassCleanup(shutil.rmtree, cls.folder, True)
        top = os.path.join(cls.folder, 'top')
        copy_of_top(top)
        cls.first = released(top, os.path.join(cls.folder, 'first'), '077')
        for path in ('bin/minus', 'include/minus.h'):
            os.utime(os.path.join(top, path), (1, 1))
        cls.second = released(top, os.path.join(cls.folder, 'second'), '022')
        shutil.rmtree(top)
        is_without_rt = mock.patch.dict(os.environ, PATH=path_without_rt())
        is_without_rt.start()
        cls.addClassCleanup(is_without_rt.stop)
        cls.pager, cls.library = map(cls.unpacked, ('minus-', 'libminus-'))

    @classmethod
    def unpacked(cls, prefix):
        """Unpacks the archive whose name begins so in a folder of its own, and returns where it is."""
        archive = next(name for name in cls.first if name.startswith(prefix) and name.endswith('.tar.gz'))
        folder = os.path.join(cls.folder, 'unpacked', prefix)
        os.makedirs(folder)
        subprocess.run(['tar', 'xzf', os.path.join(cls.folder, 'first', archive), '-C', folder], check=True)
        return os.path.join(folder, archive.removesuffix('.tar.gz'))

    def setUp(self):
        self.room = tempfile.mkdtemp(dir=self.folder)
        with open(os.path.join(self.room, 'text'), 'w', encoding='utf-8') as file:
            file.write(''.join(f'{line}\n' for line in LINES))

    def run_in_room(self, *words, **environ):
        env = {**os.environ, **environ}
        ran = subprocess.run(words, cwd=self.room, env=env, stdout=subprocess.PIPE, stderr=subprocess.STDOUT, text=True)
        self.assertEqual(ran.returncode, 0, ran.stdout)
        return ran.stdout

    def assert_pages(self, command):
        """A command pages the text: its first page, the next row, and its last page; its key ends it."""
        terminal = Terminal(self.room, 40, 8)
        self.addCleanup(terminal.close)
        terminal.send(f'command -v rt; {command}\n')
        terminal.wait(lambda: terminal.player.modes.get(1049), 'the first page')
        for keys, first in (('', 0), ('j', 1), ('G', 23)):
            terminal.send(keys)
            terminal.wait(lambda: [row.strip() for row in terminal.player.texts()[:7]] == LINES[first:first + 7], LINES[first])
        terminal.send('q')
        terminal.wait(lambda: terminal.ends_with('ready> '), 'the shell')
        self.assertEqual(terminal.mode(), terminal.before)

    def test_the_same_builds_give_the_same_bytes(self):
        self.assertEqual(self.first, self.second)
        self.assertEqual([name.rpartition('linux')[2] for name in self.first], ['.tar.gz', '.tar.gz.sha256'] * 2)
        for name in self.first:
            if name.endswith('.sha256'):
                subprocess.run(['sha256sum', '-c', '--quiet', name], cwd=os.path.join(self.folder, 'first'), check=True)

    def test_the_archives_have_a_version(self):
        version = self.run_in_room(os.path.join(self.pager, 'bin', 'minus'), '--version').split()[-1]
        for folder in (self.pager, self.library):
            self.assertIn(f'-{version}-', os.path.basename(folder))
            changes = next(at for at, _, names in os.walk(folder) if 'CHANGELOG.md' in names)
            self.assertEqual({'LICENSE-MIT', 'LICENSE-APACHE', 'CHANGELOG.md'} - {*os.listdir(changes)}, set())
            self.assertIn(f'\n## {version}\n', contents(os.path.join(changes, 'CHANGELOG.md')).decode())
        header = contents(os.path.join(self.library, 'include', 'minus.h')).decode()
        self.assertIn(f'#define MINUS_VERSION "{version}"', header)

    def test_the_pager_pages(self):
        self.assert_pages(f'{self.pager}/bin/minus text')

    @unittest.skipUnless(shutil.which('cc', path=path_without_rt()), 'there is no cc')
    def test_c_pages(self):
        flags = ['-I../include', '-L../lib', '-lminus_c']
        if shutil.which('pkg-config'):
            said = self.run_in_room('pkg-config', '--cflags', '--libs', 'minus', PKG_CONFIG_PATH=f'{self.library}/lib/pkgconfig')
            flags = said.split()
        examples = [os.path.join(self.library, 'examples', name) for name in ('page.c', 'heap.c')]
        self.run_in_room('cc', *examples, *flags, '-o', 'page')
        self.assert_pages('./page text')

    @unittest.skipUnless(shutil.which('cc', path=path_without_rt()), 'there is no cc')
    def test_python_pages(self):
        heap, archive = (os.path.join(self.library, path) for path in ('examples/heap.c', 'lib/libminus_c.a'))
        whole = ['-Wl,--whole-archive', archive, '-Wl,--no-whole-archive']
        self.run_in_room('cc', '-shared', '-fPIC', '-I', f'{self.library}/include', heap, *whole, '-o', 'libminus.so')
        self.assert_pages(f'{sys.executable} {self.library}/examples/page.py ./libminus.so text')

    @unittest.skipUnless(shutil.which('cargo', path=path_without_rt()), 'there is no cargo')
    @unittest.skipIf(MISSING, f'{REGISTRY} has no {MISSING}')
    def test_rust_pages(self):
        os.mkdir(os.path.join(self.room, 'src'))
        for name, text in (('Cargo.toml', MANIFEST.replace('PACKAGE', f'{self.library}/rust/minus')), ('src/main.rs', MAIN)):
            with open(os.path.join(self.room, name), 'w', encoding='utf-8') as file:
                file.write(text)
        self.run_in_room('cargo', 'build', '--quiet', '--config', CRATES, CARGO_TARGET_DIR=f'{self.room}/target')
        self.assert_pages('target/debug/yours')


if __name__ == '__main__':
    unittest.main(verbosity=2)
