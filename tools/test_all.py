"""Runs the tests of the repository, as parts: sh tools/test.sh [--quick | --built]

Without a word nothing is proved: `rt try` builds the test crates and the programs with a stored run, some side by side.
--quick takes the tests of the tools and the documents alone. --built, behind an rt ci that passed, takes what that has
built in this checkout, and all parts. What needs a proved program runs without --built too, where that stands and is newer
than its sources. A line says which part is left out, and why.

Each part that fails is said with what it printed. The last line is `N passed, M failed`, in parts, and the status is 1
where M is not 0.
"""
import os
import re
import subprocess
import sys
import time
from concurrent.futures import ThreadPoolExecutor
from dataclasses import dataclass

TOP = os.path.dirname(os.path.dirname(os.path.abspath(__file__)))
# (what `rt try` of a test crate takes, with the check beside it)
MEGABYTES_OF_TRY = 5000
TOOLS = [
    "test_wrong_bodies.py", "test_measure.py", "test_names.py", "definitions.py --check", "test_docs.py",
    "test_refuse_memory.py", "test_declarations.py", "check_header.py", "test_cases.py",
]
# (as many cases as there are, so that none is left out unseen; test_cases.py counts them)
CASES = ["tools/cases.py", "--least", "1966"]
# (crates whose tests of refused memory run once for each request)
REFUSE_MEMORY = ["minus_part_tests", "minus_tests"]


@dataclass
class Part:
    """A command with what it reads, and what it has to write, if that is stored."""

    name: str
    words: list
    folder: str = TOP
    stdin: bytes = b""
    stdout: bytes = None
    status: int = 0
    # why it is left out, if it is
    left_out: str = ""
    seconds: int = 0
    said: str = ""

    def run(self):
        """Runs the part, and returns whether it passes."""
        began, apart = time.monotonic(), subprocess.STDOUT if self.stdout is None else subprocess.PIPE
        ran = subprocess.run(self.words, cwd=self.folder, input=self.stdin, stdout=subprocess.PIPE, stderr=apart, check=False)
        self.seconds = round(time.monotonic() - began)
        self.said = (ran.stdout + (ran.stderr or b"")).decode(errors="replace")
        if ran.returncode != self.status:
            self.said += f"\nended with status {ran.returncode}, and not {self.status}"
        if self.stdout not in (None, ran.stdout):
            self.said += "\nthe output is not that of the file stdout"
        return ran.returncode == self.status and self.stdout in (None, ran.stdout)


def bytes_of(file):
    with open(file, "rb") as it:
        return it.read()


def stored(crate, name):
    """Returns a file that stands beside a program's src/, or nothing."""
    file = f"{TOP}/crates/{crate}/{name}"
    return bytes_of(file) if os.path.isfile(file) else b""


def listed():
    """Returns the crates of crates.txt, each with those that it names."""
    lines = re.findall(r"^(\w+)[^:#\n]*:(.*)", bytes_of(f"{TOP}/crates.txt").decode(), re.M)
    return {name: rest.split() for name, rest in lines}


def below(crates, name):
    """Returns a crate and all that it stands on in the repository."""
    return {name}.union(*(below(crates, it) for it in crates[name] if it in crates))


def made(crate):
    return f"{TOP}/crates/{crate}/out/{'libminus_c.a' if crate == 'minus_c' else crate}"


def why_not(crates, names, is_built):
    """Returns why a part that needs these built crates is left out, if it is."""
    for name in names:
        folders = [f"{TOP}/crates/{it}/src" for it in below(crates, name)]
        files = [f"{at}/{it}" for folder in folders for at, _, found in os.walk(folder) for it in found]
        is_there = os.path.isfile(made(name))
        if not is_built and not (is_there and os.path.getmtime(made(name)) > max(map(os.path.getmtime, files))):
            how = "rt lib" if name == "minus_c" else "rt run"
            state = "is older than its sources" if is_there else "is not built"
            return f"{os.path.relpath(made(name), TOP)} {state} (`{how}` in crates/{name} proves and builds it)"
    return ""


def tools():
    """The tests of the tools and the documents."""
    return [Part(it, [sys.executable, *f"tools/{it}".split()]) for it in TOOLS]


def tests(crates, is_built):
    """The test crates, where each test runs apart, by rt's own runner, and the cases."""
    page = subprocess.run(["rt", "doc"], capture_output=True, text=True, check=True).stdout.strip()
    runner = f"{os.path.dirname(page)}/bin/rattle-test"
    for it in (it for it in crates if it.endswith("_tests")):
        words = [runner, f"out/{it}_tests"] if is_built else ["rt", "try", "--test"]
        yield Part(it, words, f"{TOP}/crates/{it}")
    yield Part("cases", [sys.executable, *CASES, *([] if is_built else ["--try"])])
    why = "" if is_built else "tools/random_steps.py is taken with --built alone"
    yield Part("random steps", [sys.executable, "tools/random_steps.py"], left_out=why)


def runs(crates, is_built):
    """The programs with a stored run, which has to write what is stored."""
    for it in (it for it in crates if os.path.isfile(f"{TOP}/crates/{it}/stdout")):
        words, status = stored(it, "args").decode().splitlines(), int(stored(it, "status") or 0)
        words = [f"out/{it}" if is_built else "rt", *([] if is_built else ["try", "--"]), *words]
        yield Part(f"the stored run of {it}", words, f"{TOP}/crates/{it}", stored(it, "stdin"), stored(it, "stdout"), status)


def programs(crates, is_built):
    """What needs programs and libraries that are proved: the pager on a terminal, C and Rust, refused memory."""
    python, of_c, of_rust = sys.executable, "sh tools/test_c.sh", "sh tools/test_rust.sh"
    if is_built:
        of_c = f"{python} tools/after_ci.py minus_c && {of_c}"
    elif why_not(crates, ["minus_c"], is_built):
        # (without the library it tests the package's form, its lints and its documents)
        of_rust = f"MINUS_C_LIB=/nowhere {of_rust}"
    for name, words, needs in [
        ("scripts", [python, "tools/test_show.py", made("minus_show")], ["minus_show"]),
        ("the pager on a terminal", [python, "tools/test_pager.py", made("minus_pager")], ["minus_pager", "minus_show", "minus_report"]),
        ("the library from C and Python", ["sh", "-c", of_c], ["minus_c"]),
        ("the library from Rust", ["sh", "-c", of_rust], []),
        ("the archives of a release", [python, "tools/test_release.py"], ["minus_pager", "minus_c"]),
        ("measured works", [python, "tools/measure.py", "--check", "docs/MEASURING.md", made("minus_bench")], ["minus_bench"]),
    ]:
        yield Part(name, words, left_out=why_not(crates, needs, is_built))
    for it in REFUSE_MEMORY:
        program = f"crates/{it}/out/{it}_tests"
        why = "" if is_built else f"{program} is taken with --built alone (`rt test` in crates/{it} makes it)"
        yield Part(f"refused memory in {it}", [python, "tools/refuse_memory.py", program, "memory::"], left_out=why)


def lanes():
    """Returns how many crates `rt try` builds side by side: as many as there are processors, where each has memory."""
    with open("/proc/meminfo", encoding="utf-8") as file:
        free = int(re.search(r"^MemAvailable:\s*(\d+)", file.read(), re.M)[1]) // 1000
    return max(1, min(os.cpu_count() or 1, free // MEGABYTES_OF_TRY))


def run(part):
    """Runs a part, says how it went, and returns whether it passed."""
    if part.left_out:
        print(f"left out: {part.name}: {part.left_out}", flush=True)
        return None
    passes = part.run()
    lines = part.said.rstrip().split("\n")
    shown = [it for it in lines if re.search("left out|skipped|test result:", it)] if passes else lines[-60:]
    print("\n".join([f"{'passed' if passes else 'FAILED'}: {part.name} ({part.seconds} s)", *(f"    {it}" for it in shown)]), flush=True)
    return passes


def main(words):
    if words not in ([], ["--quick"], ["--built"]):
        sys.exit(__doc__)
    crates, is_built = listed(), words == ["--built"]
    told = list(map(run, tools()))
    if words != ["--quick"]:
        # (a program on a terminal waits for what it shows, so nothing runs beside those)
        with ThreadPoolExecutor(1 if is_built else lanes()) as pool:
            told += pool.map(run, [*tests(crates, is_built), *runs(crates, is_built)])
        told += map(run, programs(crates, is_built))
    if None in told:
        print(f"{told.count(None)} left out")
    print(f"{told.count(True)} passed, {told.count(False)} failed")
    return int(False in told)


if __name__ == "__main__":
    sys.exit(main(sys.argv[1:]))
