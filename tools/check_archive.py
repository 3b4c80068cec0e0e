#!/usr/bin/env python3
"""Whether two builds of the static library give the same bytes: check_archive.py [--elsewhere]

Builds crates/minus_c by `rt lib` twice, and compares the archives. With --elsewhere the second build is in a copy of the
repository at another path, which reads in what the first one proved.
"""
import hashlib
import os
import shutil
import subprocess
import sys
import tempfile

TOP = os.path.dirname(os.path.dirname(os.path.abspath(__file__)))
ARCHIVE = os.path.join('crates', 'minus_c', 'out', 'libminus_c.a')


def built(top):
    """The sum and the size of the archive, built now."""
    path = os.path.join(top, ARCHIVE)
    before = os.path.getmtime(path) if os.path.exists(path) else None
    subprocess.run(['rt', 'lib'], cwd=os.path.join(top, 'crates', 'minus_c'), check=True, stdout=subprocess.DEVNULL)
    if os.path.getmtime(path) == before:
        sys.exit('rt lib has not built the archive again')
    with open(path, 'rb') as file:
        data = file.read()
    return hashlib.sha256(data).hexdigest(), len(data)


def main():
    first = built(TOP)
    if '--elsewhere' in sys.argv:
        with tempfile.TemporaryDirectory(prefix='check_archive.') as folder:
            copy = os.path.join(folder, 'a_copy')
            shutil.copytree(TOP, copy, symlinks=True, ignore=shutil.ignore_patterns('.git', 'target'))
            second = built(copy)
    else:
        second = built(TOP)
    for sum, size in (first, second):
        print(f'{sum} {size} bytes')
    print('the same bytes' if first == second else 'other bytes')
    return first != second


if __name__ == '__main__':
    sys.exit(main())
