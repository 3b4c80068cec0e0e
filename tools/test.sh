#!/bin/sh
# Runs the tests without a proof, or with --built over what `rt ci` has built: see tools/test_all.py.
cd "$(dirname "$0")/.." && exec python3 tools/test_all.py "$@"
