#!/usr/bin/env python3
"""Counts what the steps of a session take, beside those of the original Rust crate, like with like.

usage: tools/measure.py [--original FOLDER] [--into DOCUMENT] [--memory] [--only WORK,..] [--small] [--jobs N]
                        [--profiles FOLDER] PROGRAM
       tools/measure.py --check DOCUMENT [--only WORK,..] [--jobs N] PROGRAM

PROGRAM is crates/minus_bench/out/minus_bench, built by `rt run`; FOLDER is what tools/original/build.sh built. Both are
given one text and the same words, start a session of 80 columns and 24 rows over a sink that keeps nothing, and step
it. What is counted, by `valgrind --tool=callgrind` (apt-get install valgrind), is the steps of a work alone, whole: not
the making of the inputs, and nothing before. Counts are the same on each machine with the same build. Both programs
tell what rows, lines, matches and mark they ended with; where they do not agree, a row stays without the original, and
the tool says so and fails.

The table is in Markdown: a row for each work, at its greatest size, with the instructions of each push, byte, line or
act here and in the original. `growth` is that here, by the same at half the size: 1.00 where a work takes no longer for
a longer text. --memory adds a table of the greatest sizes of the processes, and --into puts the tables into a document
in the place of those with their heads, with the commit and the command. --profiles keeps callgrind's files, for
callgrind_annotate.

--check counts each work of a document's table at its size, and fails where one costs more than the table says by 5 in
100, cannot be counted, or stands in the tool or in the table alone; --into makes the table again in a change that means
it. Without valgrind it says that this was left out, and passes.
"""
import argparse
import concurrent.futures
import contextlib
import os
import re
import shutil
import subprocess
import sys
import tempfile
from dataclasses import dataclass

import measured_tables as tables
from measured_tables import Measured, NoTable, grouped
from measured_works import MEMORY, WORKS

# the functions whose calls are counted: of a start, and of all other works
COUNTED = {
    "here": ("minus::init::init_core::*", "minus_bench::work::run_counted*"),
    "original": ("*::driver::counted",) * 2,
}


class NotCounted(Exception):
    """A run that ended with a fault, or in which nothing was counted."""


@dataclass
class Run:
    """What a program took for a work: instructions or bytes, and what it said at its end."""

    taken: int
    end: str


def counted(program, side, work, size, profile=None):
    """A run of a program by callgrind."""
    with tempfile.TemporaryDirectory() as folder, tempfile.TemporaryFile() as given:
        given.write(work.text(size).encode())
        given.seek(0)
        functions = COUNTED[side][work.coming != "waiting"]
        out = profile or f"{folder}/out"
        flags = ["--collect-atstart=no", f"--toggle-collect={functions}", f"--callgrind-out-file={out}"]
        command = ["valgrind", "--tool=callgrind", *flags, program, *work.words()]
        run = subprocess.run(command, stdin=given, capture_output=True, text=True)
        taken = parse_collected(run.stderr)
        if run.returncode or not taken:
            ended = f"status {run.returncode}, {taken} instructions: {run.stderr[-300:]}"
            raise NotCounted(f"{program} {' '.join(work.words())}: {ended}")
        return Run(taken, run.stdout)


def parse_collected(told):
    """The instructions that callgrind reports, or 0 where no function of the name was called."""
    found = re.search(r"Collected : (\d+)", told)
    return int(found[1]) if found else 0


def greatest_size(program, side, work, size, profile=None):
    """The greatest size of a process in bytes, less the text that it reads."""
    with tempfile.TemporaryFile() as given, tempfile.NamedTemporaryFile() as told:
        whole = work.text(size).encode()
        given.write(whole)
        given.seek(0)
        command = ["/usr/bin/time", "-q", "-f", "%M", "-o", told.name, program, *work.words()]
        run = subprocess.run(command, stdin=given, capture_output=True, text=True, check=True)
        return Run(int(told.read().split()[-1]) * 1024 - len(whole), run.stdout)


def alike(name, done):
    """What the programs took, by program; where they ended with different pages, of this one alone."""
    if len({run.end for run in done.values()}) > 1:
        ends = ", ".join(run.end.strip() for run in done.values())
        print(f"measure.py: {name}: the programs ended differently: {ends}", file=sys.stderr)
        return {"here": done["here"].taken}
    return {side: run.taken for side, run in done.items()}


class Measuring:
    """The runs of all works, some at once."""

    def __init__(self, given):
        self.programs = {"here": given.program}
        if given.original:
            self.programs["original"] = os.path.join(given.original, "target/release/original")
        self.profiles = given.profiles
        if given.profiles:
            os.makedirs(given.profiles, exist_ok=True)
        self.all_alike = True
        self.pool = concurrent.futures.ThreadPoolExecutor(given.jobs)

    def runs(self, measure, name, size):
        """The runs of a work at a size to come, by program."""

        def one(side):
            profile = os.path.join(self.profiles, f"{name}.{size}.{side}") if self.profiles else None
            return self.pool.submit(measure, self.programs[side], side, WORKS[name], size, profile)

        return {side: one(side) for side in self.programs if side == "here" or not WORKS[name].own}

    def taken(self, runs, name):
        """What the programs took for a work at a size."""
        taken = alike(name, {side: run.result() for side, run in runs.items()})
        self.all_alike = self.all_alike and len(taken) == len(runs)
        return taken


def each_of(name, size, taken):
    work = WORKS[name]
    shares = work.shares(size, work.text(size).encode() if work.each == "bytes" else b"")
    return {side: count / shares for side, count in taken.items()}


def table_of(measuring, names, given):
    """The rows of the table, each printed as it comes."""
    sizes = {name: WORKS[name].sizes[:1] if given.small else WORKS[name].sizes for name in names}
    runs = {(name, size): measuring.runs(counted, name, size) for name in names for size in sizes[name]}
    yield from tables.head_rows(tables.HEAD)
    for name in names:
        each = [each_of(name, size, measuring.taken(runs[name, size], name)) for size in sizes[name]]
        growth = each[-1]["here"] / each[0]["here"] if len(each) > 1 else None
        yield tables.row(name, WORKS[name], Measured(sizes[name][-1], each[-1], growth))


def table_of_memory(measuring, names):
    runs = {name: measuring.runs(greatest_size, name, MEMORY[name]) for name in names if name in MEMORY}
    yield from tables.head_rows(tables.MEMORY_HEAD)
    for name in runs:
        yield tables.memory_row(name, measuring.taken(runs[name], name))


def printed(table, given):
    """Prints a table, and puts it into a document."""
    rows = []
    for line in table:
        print(line, flush=True)
        rows.append(line)
    print()
    if given.into:
        with open(given.into) as it:
            document = tables.with_table(it.read(), rows, made_by(given))
        with open(given.into, "w") as it:
            it.write(document)


def made_by(given):
    """At which commit a table is made, and by which command."""
    flags = [" --original FOLDER"] * bool(given.original) + [" --memory"] * given.memory
    command = f"tools/measure.py{''.join(flags)} --into {given.into} {given.program}"
    return f"{tables.MADE}{tables.commit()} by `{command}`."


def checked(measuring, figures):
    """What is wrong with the works of a table, and what is to be known of them, as they are counted now."""
    # (the longest first, so that all processors end together)
    order = sorted(figures, key=lambda name: -figures[name].size)
    runs = {name: measuring.runs(counted, name, figures[name].size) for name in order}
    faults, notes = [], []
    for name, figure in figures.items():
        try:
            each = each_of(name, figure.size, measuring.taken(runs[name], name))["here"]
        except NotCounted as told:
            faults.append(f"{name}: not counted: {told}")
            continue
        says = f"{name} takes {grouped(each)}, and {grouped(figure.each)} in the table"
        if tables.is_above(each, figure):
            faults.append(f"{says}: {100 * each / figure.each - 100:.1f} in 100 more")
        elif tables.is_below(each, figure):
            notes.append(f"{says}: make the table again")
    return faults, notes


def check(given, only):
    """Counts the works of a document's table; whether none costs more than it says."""
    if not shutil.which("valgrind"):
        print("measure.py: left out: the instructions of the works, since there is no valgrind")
        return True
    with open(given.check) as it:
        figures = tables.figures_of(it.read())
    faults = tables.apart(figures, only or WORKS)
    figures = {name: figure for name, figure in figures.items() if name in (only or WORKS)}
    with measuring_of(given) as measuring:
        more, notes = checked(measuring, figures)
    for note in notes:
        print(f"measure.py: {note}")
    for fault in faults + more:
        print(f"measure.py: FAILED: {fault}")
    print(f"measure.py: {len(figures)} works counted, {len(faults + more)} not as {given.check} says")
    return not faults + more


@contextlib.contextmanager
def measuring_of(given):
    """The runs that arguments ask for, ended behind the block."""
    measuring = Measuring(given)
    try:
        yield measuring
    finally:
        measuring.pool.shutdown(cancel_futures=True)


def arguments():
    parser = argparse.ArgumentParser(description=__doc__, formatter_class=argparse.RawDescriptionHelpFormatter)
    parser.add_argument("program")
    parser.add_argument("--original", help="the folder of the built original")
    parser.add_argument("--only", help="these works alone")
    parser.add_argument("--small", action="store_true", help="the smallest size of each alone")
    parser.add_argument("--jobs", type=int, default=os.cpu_count(), help="the number of runs at once")
    parser.add_argument("--memory", action="store_true", help="the greatest sizes of the processes too")
    parser.add_argument("--into", help="the document whose tables are to be these")
    parser.add_argument("--check", help="the document whose table no work is to exceed")
    parser.add_argument("--profiles", help="where callgrind's files are kept")
    given = parser.parse_args()
    if given.into and (given.only or given.small):
        sys.exit("measure.py: a document takes the tables of all works alone")
    if given.check and (given.into or given.original or given.memory or given.small):
        sys.exit("measure.py: --check counts this program alone, and makes no table")
    return given


def main():
    given = arguments()
    only = given.only.split(",") if given.only else []
    unknown = [name for name in only if name not in WORKS]
    if unknown:
        sys.exit(f"measure.py: no work has the name {unknown[0]}")
    if not os.path.isfile(given.program):
        sys.exit(f"measure.py: FAILED: there is no program {given.program}")
    try:
        if given.check:
            sys.exit(0 if check(given, only) else 1)
        with measuring_of(given) as measuring:
            printed(table_of(measuring, only or list(WORKS), given), given)
            if given.memory:
                printed(table_of_memory(measuring, only or list(WORKS)), given)
    except (NoTable, NotCounted) as told:
        sys.exit(f"measure.py: FAILED: {told}")
    sys.exit(0 if measuring.all_alike else 1)


if __name__ == "__main__":
    main()
