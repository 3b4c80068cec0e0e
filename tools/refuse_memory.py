#!/usr/bin/env python3
"""Runs built tests again and again, each time with another of their requests for memory refused.

usage: tools/refuse_memory.py PROGRAM [WORD..]

PROGRAM is a crate's built tests, crates/NAME/out/NAME_tests, which `rt ci` leaves. Of these, the tests run whose names
have one of the words, all where none is given. Each runs once with nothing refused, which tells its number of requests,
and then once for each of them. A test is made for this: it passes where nothing is refused, and also where one request is
refused and what it tries is left as it should be.

Of the tests of one module, one named `begins` makes the requests that each of the others makes first, before what it
tries; so the tool does not refuse these in the others again.

`refuse.c` stands before the C library's malloc and realloc; the toolchain's own clang builds it.
"""
import concurrent.futures
import os
import subprocess
import sys
import tempfile

# A run for each request, so the time grows with the square of their number.
MOST = 5000
SECONDS = 60
HERE = os.path.dirname(os.path.abspath(__file__))


def built(room):
    """Returns the path of the library that refuses, built in this folder."""
    page = subprocess.run(["rt", "doc"], capture_output=True, text=True, check=True).stdout.strip()
    tools = f"{os.path.dirname(page)}/toolchain/bin"
    library = f"{room}/refuse.so"
    words = ["-O1", "-fPIC", "-shared", "-nostdlib", f"-fuse-ld={tools}/ld.lld", "-o", library, f"{HERE}/refuse.c"]
    subprocess.run([f"{tools}/clang", *words], check=True)
    return library


def run(program, test, library, number):
    """Returns whether a run with this request refused passes, and its number of requests; 0 refuses none."""
    with tempfile.TemporaryDirectory() as room:
        env = {"LD_PRELOAD": library, "REFUSE": str(number)}
        try:
            ran = subprocess.run([program, test], cwd=room, env=env, capture_output=True, text=True, timeout=SECONDS)
        except subprocess.TimeoutExpired:
            return False, 0
    said = ran.stderr.strip().splitlines()
    return ran.returncode == 0, int(said[-1]) if said and said[-1].isdigit() else 0


def tests_of(program, words):
    """Returns the names of a program's tests that have one of these words."""
    listed = subprocess.run([program, "--list"], capture_output=True, text=True, check=True).stdout.splitlines()
    names = [line.removesuffix(": test") for line in listed if line.endswith(": test")]
    return [name for name in names if not words or any(word in name for word in words)]


def swept(program, test, library, pool, before):
    """Returns how many requests of a test were refused in turn, of those after the first `before`, and what is wrong with it."""
    passes, count = run(program, test, library, 0)
    if not passes or count <= before:
        return 0, f"it fails with nothing refused, or makes none of its requests after the first {before}"
    if count - before > MOST:
        return 0, f"it makes {count - before} requests, which are too many to refuse each in turn"
    numbers = range(before + 1, count + 1)
    runs = list(pool.map(lambda number: run(program, test, library, number), numbers))
    wrong = [number for number, (passes, _) in zip(numbers, runs) if not passes]
    if wrong:
        return count - before, f"it fails where these requests are refused: {wrong}"
    # (what is refused is asked for again, or not at all and what follows neither)
    if all(requests == count for _, requests in runs):
        return 0, "it makes as many requests whatever is refused, so that nothing is"
    return count - before, ""


def count_before(program, test, tests, library):
    """Returns how many requests of a test are those of its module's test that begins as it does."""
    begins = f"{test.rpartition('::')[0]}::begins"
    return run(program, begins, library, 0)[1] if begins in tests and test != begins else 0


def main():
    if len(sys.argv) < 2:
        sys.exit(__doc__)
    program, words = os.path.abspath(sys.argv[1]), sys.argv[2:]
    tests = tests_of(program, words)
    refused, faults = 0, []
    with tempfile.TemporaryDirectory() as room, concurrent.futures.ThreadPoolExecutor(os.cpu_count() or 2) as pool:
        library = built(room)
        for test in tests:
            count, fault = swept(program, test, library, pool, count_before(program, test, tests, library))
            print(f"{test}: {fault or f'{count} requests refused in turn'}", flush=True)
            refused += count
            faults += [test] if fault else []
    print(f"{len(tests)} tests, {refused} requests refused in turn, {len(faults)} failed")
    return 1 if faults or not tests else 0


if __name__ == "__main__":
    sys.exit(main())
