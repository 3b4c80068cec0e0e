#!/bin/sh
# Builds the static library, compares it with its header and with a second build, and tests programs over it in C and
# Python. Where something is missing that a part needs, a line says which part was left out.
set -eu
cd "$(dirname "$0")/.."
python3 tools/check_header.py
python3 tools/check_archive.py
if ! command -v cc >/dev/null; then
    echo 'test_c: left out: the programs in C and Python, and the faults, since there is no cc'
    exit 0
fi
python3 tools/test_c.py
if command -v valgrind >/dev/null; then
    python3 tools/c_faults.py --valgrind
else
    echo 'test_c: left out: valgrind, which is not there'
    python3 tools/c_faults.py
fi
