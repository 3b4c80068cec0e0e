#!/usr/bin/env python3
"""Runs cases: what scripts lead to, and what calls answer. cases/README.md says how a case is written.

usage, at the top of the repository, once the programs are built:
    tools/cases.py [--least N] [--only TITLE] [--accept TITLE] [--try] [FILE_OR_FOLDER..]
"""
import argparse
import pathlib
import sys

import case_files
from case_files import Fault
import case_programs
import programs

FOLDER = pathlib.Path(programs.TOP, 'cases')
# the folder of cases of each program, and what reads its prints
KINDS = {'minus_show': case_programs.Shown, 'minus_cases': case_programs.Stepped}


def row_lines(kind, want, got):
    """The rows of a block that differs, a line each, a mark before those that are others."""
    for place in range(max(len(want), len(got))):
        here, there = (f'|{rows[place]}|' if place < len(rows) else 'nothing' for rows in (want, got))
        is_other = here != there
        yield f'  {"!" if is_other else " "} {kind} {place}: {here}{f", but it is {there}" if is_other else ""}'


def are_alike(kind, want, got):
    """Whether rows are those of a block: what is drawn may be cut into lines anywhere, and a state told in part."""
    if kind == 'drawn':
        return ''.join(want) == ''.join(got)
    if kind == 'state':
        return bool(want) and set(want) <= set(got)
    return want == got


def differences(kind, case):
    """What is wrong, a line each, and the blocks that other rows belong into, with these."""
    wrong, found = [], []
    for run in case.runs:
        for place, step in enumerate(run.steps):
            for block in step.blocks:
                try:
                    rows = kind.rows(run, place, block.kind)
                except Fault as fault:
                    wrong.append(f'  ! line {block.at + 1}, {block.kind}: {fault}')
                    continue
                if not are_alike(block.kind, block.rows, rows):
                    found.append((block, rows))
                    wrong.append(f'  line {block.at + 1}, behind: {step.line}')
                    wrong += row_lines(block.kind, block.rows, rows)
    return wrong, found


def accept(case, found):
    case_files.write(case.path, found)
    for block, _ in found:
        print(f'{case.path}:{block.at + 1}: written, to be read: {case.title}')


def files_of(paths):
    return [file for path in paths for file in (sorted(path.rglob('*.txt')) if path.is_dir() else [path])]


def load(cases, is_tried):
    """Runs the cases over their programs, and answers what reads the prints of each, by its name."""
    make = case_programs.Tried if is_tried else case_programs.Program
    kinds = {}
    for name in dict.fromkeys(case.path.parent.name for case in cases):
        kinds[name] = KINDS[name](make(name))
        kinds[name].load([case for case in cases if case.path.parent.name == name])
    return kinds


def compare(cases, kinds, options):
    """Prints what differs, and answers how many cases failed."""
    failed = 0
    for case in cases:
        wrong, found = differences(kinds[case.path.parent.name], case)
        if options.accept:
            accept(case, found)
        elif wrong:
            failed += case.count()
            print(f'{case.path}:{case.at + 1}: {case.title}', *wrong, sep='\n')
    return failed


def parse_options():
    parser = argparse.ArgumentParser(description='Runs cases: what scripts lead to, and what calls answer.')
    parser.add_argument('paths', nargs='*', type=pathlib.Path, default=[FOLDER], help='files of cases, or folders of such')
    parser.add_argument('--least', metavar='N', type=int, default=1, help='fail where fewer cases are run')
    parser.add_argument('--only', metavar='TITLE', default='', help='run the cases that have this in their titles')
    parser.add_argument('--accept', metavar='TITLE', help='write what the program prints into theirs, to be read')
    parser.add_argument('--try', dest='is_tried', action='store_true', help='before any proof, by rt try')
    return parser.parse_args()


def main():
    options = parse_options()
    paths = files_of(options.paths)
    try:
        cases = [case for path in paths for case in case_files.read(path) if (options.accept or options.only) in case.title]
        kinds = load(cases, options.is_tried)
    except Fault as fault:
        sys.exit(str(fault))
    count = sum(case.count() for case in cases)
    failed = compare(cases, kinds, options)
    print(f'cases: {count - failed} passed, {failed} failed')
    if count < options.least:
        print(f'cases: at least {options.least} are to be run')
    return failed != 0 or count < options.least


if __name__ == '__main__':
    sys.exit(main())
