#!/usr/bin/env python3
"""Tries what holds for each of many texts and sizes, over minus_cases: texts in pieces, terminals of each size, much of
each thing at once.

usage, at the top of the repository, once minus_cases is built:
    tools/properties.py [--try]
"""
import argparse
import pathlib
import sys

import case_files
import case_programs
from case_files import Block, Case, Run, Step
import cases
import failing_sinks

# Lines that go on at their hyphens, in wide and combining characters, in `ESC[`, and between both characters of an
# ending; the last ones are words of many rows.
TEXTS = [
    'a well-known -fact- and 9-9 x-\r\nnext', '日本 語 ab 日本語 e\u0301 z\n', 'r \x1b[31mred\x1b[0m and \x1b[ 1 m q w e',
    'aaaa    \r\nbb  bb   b ', '  two  spaces   first and   last  ', '-bb-a a b c-d-e f\r\r\n\r\n', 'bb-aa99-9--b-.c-.d-.e9-\r\n',
    '日本語日本語-日a-e\u0301本', 'ab\x1b[31mcd\x1b[ 0mef-gh\x1b', '\r   \r \r \r\n',
]
NUMBERED = 'one two\n\nwell-known\n日本 語\n\x1b[31mred\x1b[0m r\r\n6\n7\n8\n9\nten ten ten\nlast one'
STYLED = 'ab \x1b[31mcd ef gh\x1b[0m ij kl\n\x1b[1mmn op\x1b[32m qr st\x1b[m uv wx\nyz'
SIZES = [1, 2, 3, 7, 80, 255, 256, 257, 65_534, 65_535]
NO_SIZES = [0, 65_536, 2 ** 64 - 1]
# how many runs the pieces of texts are put into
RUNS = 8
FOLDER = cases.FOLDER / 'minus_cases'


def escaped(text):
    return case_programs.escaped(text)


def run_of(size, *steps):
    """A run of lines, each with the page behind it, or none, or the number by which it is refused."""
    run = Run(size, [Step(None, [])])
    for line, page in steps:
        blocks = [Block('refused', 0, 0, [str(page)])] if isinstance(page, int) else []
        blocks += [Block('page', 0, 0, list(map(escaped, page)))] if isinstance(page, list) else []
        run.steps.append(Step(line, blocks))
    return run


def calls(lines):
    """The answers of calls, behind one another, as a run."""
    return Run(None, [Step(None, []), *(Step(line, []) for line in lines)])


def prompt_row(cols, text='minus'):
    return f'\x1b[2;40;37m{text[:cols].ljust(cols)}\x1b[0m'


def text_rows(cols, count):
    """The rows of `ab` on this many columns, of which the page has so many."""
    rows = ['a', 'b'] if cols == 1 else ['ab']
    return (rows + [''] * count)[:count]


def page_of(cols, rows):
    return [*text_rows(cols, rows - 1), prompt_row(cols)]


def sizes():
    """Sessions start at each size, are resized to each, and refuse what is no size."""
    for size in SIZES:
        for cols, rows in ((size, 3), (3, size)):
            yield run_of((str(cols), str(rows)), ('push ab', page_of(cols, rows)))
    resized = [(f'do resize {cols} {rows}', page_of(cols, rows)) for cols in SIZES for rows in SIZES]
    yield run_of(('7', '3'), ('push ab', None), *resized)
    for size in NO_SIZES:
        for cols, rows in ((size, 3), (7, size)):
            yield run_of(('7', '3'), (f'do resize {cols} {rows}', 5), ('push ab', page_of(7, 3)))
            yield run_of((str(cols), str(rows)), ('start', 5))


def lines(count):
    return ''.join(f'{number}\\n' for number in range(count))


def large():
    """Much of each thing at once."""
    end = f'mark {2 ** 64 - 1}'
    last = ['99998', '99999', prompt_row(20)]
    marked = f'\x1b[7m{"x" * 20}\x1b[27m'
    found = ['d', marked, '\x1b[2;40;37mminus          \x1b[30;44m 1/1 \x1b[0m']
    yield run_of(('20', '3'), ('push ' + lines(100_000), None), (end, last))
    yield run_of(('20', '3'), ('push ' + 'x' * 1_000_000, None), (end, ['x' * 20, 'x' * 20, prompt_row(20)]))
    yield run_of(('20', '2001'), ('push ' + lines(3_000), [*map(str, range(2_000)), prompt_row(20)]))
    yield run_of(('20', '3'), ('push ' + lines(10), None), ('type ' + '9' * 100, None), ('type j', ['1', '2', prompt_row(20)]))
    pushes = [(f'push {number}\\n', None) for number in range(10_000)]
    ten_thousand = ['9998', '9999', prompt_row(20)]
    yield run_of(('20', '3'), *pushes, (end, ten_thousand))
    yield run_of(('20', '3'), ('type /', None), *pushes, ('key esc', None), (end, ten_thousand))
    yield run_of(('20', '3'), *pushes, ('start', None), (end, ten_thousand))
    yield run_of(('20', '3'), ('helptext ' + lines(100_000), None), ('do help', None),
                 (end, ['99998', '99999', prompt_row(20, 'HELP -- Press q or Shift-m')]))
    for count, keys in ((150, ['type ' + 'x' * 150]), (1_000, ['type *' + 'x' * 999, 'key home', 'key delete', 'type x'])):
        opened = ['wrap off', 'push a\\nb\\nc\\nd\\n', 'push ' + 'x' * count, 'type /']
        typed = [(line, None) for line in opened + keys]
        yield run_of(('20', '3'), *typed, ('key left', ['d', marked, '/' + 'x' * count]), ('key enter', found))
    invalid = '\x1b[30;1;41mInvalid regular expr\x1b[0m'
    yield run_of(('20', '3'), ('push a', None), ('type /x{4000000000}', None), ('key enter', ['a', '', invalid]))
    helped = [('push a', None), ('helptext help', None), ('do help', None)]
    counted = '\x1b[2;40;37mHELP -- Press q\x1b[30;44m 1/1 \x1b[0m'
    yield run_of(('20', '3'), *helped, ('type /el', ['h\x1b[7mel\x1b[27mp', '', '/el']),
                 ('key enter', ['h\x1b[7mel\x1b[27mp', '', counted]))


def cut(text):
    """The two pieces of a text, cut at each place."""
    return [(text[:at], text[at:]) for at in range(len(text) + 1)]


def cut_session(run):
    """A run with one text that is pushed, cut at each place into two that are pushed one behind the other."""
    place = next(at for at, step in enumerate(run.steps) if step.line and step.line.startswith('push '))
    for first, rest in cut(case_programs.unescaped(run.steps[place].line.removeprefix('push '))):
        pieces = [Step('push ' + escaped(first), []), Step('push ' + escaped(rest), run.steps[place].blocks)]
        yield Run(run.size, [*run.steps[:place], *pieces, *run.steps[place + 1:]])


def cut_texts():
    for case in case_files.read(FOLDER / 'cut_texts.txt'):
        for run in case.runs:
            yield from cut_session(run)


ASKED = ['rows', 'found', 'counts', 'text']


def pieces_of(text, layout, places, begin):
    """Calls that set or push the pieces of a text between some places, and ask for the rows."""
    bounds = [0, *places, len(text)]
    parts = [text[start:end] for start, end in zip(bounds, bounds[1:])]
    words = ['set' if begin == 'set' and at == 0 else 'push' for at in range(len(parts))]
    return [f'screen {layout}', *(f'{word} {escaped(part)}' for word, part in zip(words, parts)), *ASKED]


def pieces():
    """Texts in pieces, each with the whole: what is asked of both has to be the same."""
    for text in TEXTS:
        for cols in (1, 2, 5, 9):
            for first in range(len(text)):
                for second in range(first, len(text)):
                    yield pieces_of(text, cols, [first, second], 'push'), pieces_of(text, cols, [], 'push')
        for cols in range(12):
            yield pieces_of(text, cols, range(1, len(text)), 'push'), pieces_of(text, cols, [], 'push')
            for at in range(len(text)):
                yield pieces_of(text, cols, [at], 'push'), pieces_of(text, cols, [], 'push')
    for cols in (3, 12, 14):
        for size in (1, 3, 7):
            places = range(size, len(NUMBERED), size)
            layout = f'{cols} numbers'
            yield pieces_of(NUMBERED, layout, places, 'push'), pieces_of(NUMBERED, layout, [], 'push')
    for at in range(len(NUMBERED)):
        yield pieces_of(NUMBERED, '14 numbers', [at], 'push'), pieces_of(NUMBERED, '14 numbers', [], 'push')
    for at in range(len(STYLED)):
        yield pieces_of(STYLED, '4 styles', [at], 'set'), pieces_of(STYLED, '4 styles', [], 'set')


def cut_searches():
    """The searched texts of text_matches.txt that are set once, cut at each place, have the same rows and matches."""
    for case in case_files.read(FOLDER / 'text_matches.txt'):
        for run in case.runs:
            for screen, term, text, rows, found in zip(*(run.steps[at:] for at in range(1, 6))):
                words = [step.line.split(' ')[0] for step in (screen, term, text, rows, found)]
                if words == ['screen', 'term', 'set', 'rows', 'found']:
                    for first, rest in cut(case_programs.unescaped(text.line.removeprefix('set '))):
                        nothing = [Block('answer', 0, 0, [])]
                        parts = [Step('set ' + escaped(first), nothing), Step('push ' + escaped(rest), nothing)]
                        yield Run(None, [Step(None, []), screen, term, *parts, rows, found])


def distinct(pairs):
    """Each pair with the run of its pieces, and one run for each whole."""
    wholes = {}
    for parts, whole in pairs:
        yield calls(parts), wholes.setdefault(tuple(whole), calls(whole))


def answers(stepped, run):
    """What the calls of a run answer to what is asked behind its pieces, and whether a push was seen otherwise."""
    told = [record.told['answer'] for record in stepped.records[id(run)][1:]]
    return told[-len(ASKED):], any(told[:-len(ASKED)])


def main():
    parser = argparse.ArgumentParser(description='Tries what holds for each of many texts and sizes, over minus_cases.')
    parser.add_argument('--try', dest='is_tried', action='store_true', help='before any proof, by rt try')
    program = (case_programs.Tried if parser.parse_args().is_tried else case_programs.Program)('minus_cases')
    themes = {theme.__name__: list(theme()) for theme in (sizes, large, cut_texts, cut_searches)}
    every = [Case(pathlib.Path(name), 0, name, runs) for name, runs in themes.items()]
    pairs = list(distinct(pieces()))
    both = {id(run): run for pair in pairs for run in pair}
    stepped = case_programs.Stepped(program)
    # (the pieces go side by side, as each file is a run)
    parts = [list(both.values())[at::RUNS] for at in range(RUNS)]
    stepped.load([*every, *(Case(pathlib.Path(f'pieces {at}'), 0, 'pieces', part) for at, part in enumerate(parts))])
    failed = 0
    for case in every:
        wrong, _ = cases.differences(stepped, case)
        failed += bool(wrong)
        print(case.title, *wrong[:20], sep='\n')
    other = [run for run, whole in pairs if answers(stepped, run) != (answers(stepped, whole)[0], False)]
    for run in other[:5]:
        print('pieces', run.script(None), *answers(stepped, run), sep='\n')
    refused = failing_sinks.faults(program)
    print('failing_sinks', *refused[:20], sep='\n')
    failed += bool(other) + bool(refused)
    print(f'properties: {len(every) + 2 - failed} passed, {failed} failed, in '
          f'{sum(len(case.runs) for case in every) + len(pairs)} scripts and sinks that refuse')
    return failed != 0


if __name__ == '__main__':
    sys.exit(main())
