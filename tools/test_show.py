#!/usr/bin/env python3
"""Runs the program for scripts, and reads why it fails on standard error.

usage, at the top of the repository, once rt ci has built the program:
    tools/test_show.py crates/minus_show/out/minus_show
"""
import subprocess
import sys

# the words, the script, the status, and what standard error says
FAULTS = [
    ([], "", 2, "usage: minus_show page|bytes COLS ROWS"),
    (["page", "20"], "", 2, "usage: minus_show page|bytes COLS ROWS"),
    (["page", "20", "5"], "push a\nfoo\n", 2, "script line 2"),
    (["page", "20", "5"], "push\n", 2, "script line 1"),
    (["page", "0", "5"], "push a\n", 3, "refused 5"),
    (["page", "20", "5"], "push a\nresize 0 5\n", 3, "refused 5"),
    (["page", "20", "5"], "prompt a\\nb\n", 3, "refused 2"),
]

# the script, and the first rows of its page of 10 columns and 6 rows
PAGES = [
    ("matchlines on\npush aaaaaaaNEEDLE bbb\\nccc\ntype /NEEDLE\nkey enter\n",
     ["aaaaaaa\\e[7mNEE\\e[27m", "\\e[7mDLE\\e[27m bbb"]),
    ("push aaaaaaaNEEDLE bbb\\nccc\ntype /NEEDLE\nkey enter\n", ["aaaaaaaNEE", "DLE bbb"]),
    ("carrystyle on\npush \\e[31mred red red red\\e[0m x\n", ["\\e[31mred red\\e[0m", "\\e[31mred red\\e[0m x"]),
    ("push \\e[31mred red red red\\e[0m x\ncarrystyle on\ncarrystyle off\n", ["\\e[31mred red", "red red\\e[0m x"]),
]


def main():
    program = sys.argv[1]
    failed = 0
    for script, rows in PAGES:
        ran = subprocess.run([program, "page", "10", "6"], input=script.encode(), capture_output=True, timeout=60)
        if ran.returncode != 0 or ran.stdout.decode().split("\n")[:len(rows)] != rows:
            failed += 1
            print(f"{script!r}: {ran}")
    for words, script, status, said in FAULTS:
        ran = subprocess.run([program, *words], input=script.encode(), capture_output=True, timeout=60)
        got = (ran.returncode, ran.stderr.decode(errors="replace").rstrip("\n"), ran.stdout)
        if got != (status, said, b""):
            failed += 1
            print(f"{words} {script!r}: {got}, and not {(status, said, b'')}")
    # (a full device is a fault of the output)
    with open("/dev/full", "wb") as full:
        ran = subprocess.run([program, "page", "20", "5"], input=b"push a\n", stdout=full, stderr=subprocess.PIPE, timeout=60)
    if (ran.returncode, ran.stderr) != (1, b"standard output failed\n"):
        failed += 1
        print(f"a full device: {ran.returncode} {ran.stderr!r}")
    print(f"test_show: {len(PAGES) + len(FAULTS) + 1 - failed} passed, {failed} failed")
    return failed != 0


if __name__ == "__main__":
    sys.exit(main())
