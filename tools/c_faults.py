#!/usr/bin/env python3
"""Faults of the static library: c_faults.py [--valgrind] [LIBRARY]

Builds tools/c_faults.c over the library (the one that `rt lib` makes in crates/minus_c/out) and runs it: lives of a pager
with each request for memory refused, and calls with bad arguments. With --valgrind both run under valgrind too, which is
to find no error and no leak there; of the lives it takes each 40th request.
"""
import os
import subprocess
import sys
import tempfile

TOP = os.path.dirname(os.path.dirname(os.path.abspath(__file__)))
LIBRARY = os.path.join(TOP, 'crates', 'minus_c', 'out', 'libminus_c.a')
VALGRIND = ['valgrind', '--quiet', '--error-exitcode=3', '--leak-check=full', '--errors-for-leak-kinds=all']


def run(*words):
    """Runs a command, and ends with its status where that is not 0."""
    print('$', *(os.path.basename(it) if it.startswith('/') else it for it in words), flush=True)
    status = subprocess.run(words).returncode
    if status:
        sys.exit(f'status {status}')


def main():
    words = sys.argv[1:]
    under = [[]] + ([VALGRIND] if '--valgrind' in words else [])
    library = ([it for it in words if it != '--valgrind'] or [LIBRARY])[0]
    with tempfile.TemporaryDirectory(prefix='c_faults.') as folder:
        program = os.path.join(folder, 'c_faults')
        run('cc', '-std=gnu11', '-g', '-Wall', '-Wextra', '-Werror', '-I', os.path.join(TOP, 'include'), '-o', program,
            os.path.join(TOP, 'tools', 'c_faults.c'), library)
        for tool in under:
            run(*tool, program, 'arguments')
            run(*tool, program, 'lives', *(['40'] if tool else []))


if __name__ == '__main__':
    main()
