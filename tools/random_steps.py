#!/usr/bin/env python3
"""Runs random steps over minus_cases, beside a pager that is kept in the plainest way.

After each step a plain screen that plays the bytes shows the session's page, and this is the page of the plain pager.

usage, at the top of the repository, once minus_cases is built:
    tools/random_steps.py [--seeds N] [--steps N] [--try]
"""
import argparse
import sys

import case_programs
from case_programs import Record, escaped
from plain_pager import HELP, PlainPager
from plain_rows import MAX
from player import PlainScreen

TEXTS = [
    'a', 'b c', '\n', 'd\n', 'a word and another\n', 'e\nf\ng', 'well-known fa-ct 9-9 a- -b\n', 'abcdefghijklmnopqrstuvwxyz',
    '  lead and  two \n', 'aa aaa a\n\n', 'ba-ab-a ', ' ', '-', 'one-two-three-four-five\nsix', '', 'abracadabra abra\n', 'bcd',
    'a b', ' a', 'and a', 'bc-d a', 'aab',
]
PROMPTS = ['other', '', 'a\nb', 'a prompt that is long', 'p']
KEYS = (
    'up k down j c-f enter u c-u d c-d g home s-g G pageup pagedown space c-l end s-m / ? n p s-n y c-s-h c-h h left l right '
    '1 2 3 0 x esc c-right / n n'
).split()
QUERY_KEYS = (
    'a b d e o a b a n a dash space 9 enter enter enter enter esc backspace backspace backspace delete left right home end '
    'c-left c-right s-a - up a'
).split()
# words that stand in those texts, some of them where a row may end
WORDS = ['a', 'b a', 'ab', 'o', 'a-', 'e', 'd a', 'b', 'a a', ' a', '-a', 'a b', 'd', ' a', 'c a', '-d']
MICE = 'scroll:up scroll:down left:down left:down left:drag left:drag left:up right:down'.split()
HELPS = [HELP, '', 'one line of help']
COLS, ROWS = 12, 6


class Numbers:
    """Numbers that look random and are the same on each run, and the steps that they choose."""

    def __init__(self, seed):
        # (nothing is selected once a query was taken, since a term stays)
        self.state, self.takes_queries, self.word, self.plan = seed, seed % 3 > 0, '', 0

    def below(self, bound):
        self.state = (self.state * 6_364_136_223_846_793_005 + 1_442_695_040_888_963_407) & MAX
        return (self.state >> 33) % bound

    def is_one_of(self, bound):
        return self.below(bound) == 0

    def one_of(self, choices):
        return choices[self.below(len(choices))]

    def far(self, bound):
        """A row or a column, now and then one far past all of them."""
        return MAX if self.is_one_of(20) else self.below(bound)

    def numbers(self):
        return {0: 'always-on', 1: 'always-off', 2: 'on'}.get(self.below(6), 'off')

    def direction(self):
        return {0: 'unknown', 1: 'reverse'}.get(self.below(5), 'forward')

    def event(self):
        """What an event asks for."""
        asks = [
            lambda: ('mark', self.far(40)), lambda: ('mark', self.far(40)),
            lambda: ('resize', self.below(26), self.below(9)), lambda: ('left', self.far(20)),
            lambda: ('numbers', self.numbers()), lambda: ('wrap', self.is_one_of(2)),
            lambda: ('select', self.below(24), self.below(8)), lambda: ('extend', self.below(24), self.below(10)),
            lambda: ('clear',), lambda: ('copy',), lambda: ('search', self.direction()), lambda: ('next',),
            lambda: ('previous',), lambda: ('next', self.far(6)), lambda: ('previous', self.far(6)),
            lambda: ('follow', self.is_one_of(3)), lambda: ('restore',), lambda: ('help',), lambda: ('digit', '7'),
        ]
        return ('do', *self.one_of(asks)())

    def drawing(self):
        asks = [lambda: ('prompt',), lambda: ('page',), lambda: ('appended',), lambda: ('mark', self.far(40)), lambda: ('query',)]
        return ('draw', *self.one_of(asks)())

    def setting(self):
        """A command that sets something."""
        return self.one_of([
            lambda: ('prompt', self.one_of(PROMPTS)), lambda: ('message', self.one_of(PROMPTS)),
            lambda: ('showprompt', not self.is_one_of(3)), lambda: ('numbers', self.numbers()),
            lambda: ('wrap', not self.is_one_of(3)), lambda: ('follow', self.is_one_of(3)), lambda: ('strategy', 'pager'),
            lambda: ('strategy', 'process'), lambda: ('unhook', 'after-exit', 1), lambda: ('unhook', 'end', self.below(6)),
            lambda: ('event', 'focus', 'on'), lambda: ('carrystyle', not self.is_one_of(3)),
            lambda: ('matchlines', not self.is_one_of(3)), lambda: ('event', 'resize', self.below(26), self.below(9)),
        ])()

    def text(self, length):
        """A text that is set or added; one that has become long is set again."""
        word = 'set' if length > 500 or self.is_one_of(30) else 'push'
        return word, self.one_of(TEXTS)

    def kept(self):
        """What a session keeps of its caller's."""
        at = self.below(8)
        if at < 5:
            return 'hook', 'end', self.below(6)
        return [lambda: ('atexit',), lambda: ('preview', self.below(4)), lambda: ('helptext', self.one_of(HELPS))][at - 5]()

    def any(self, length):
        """A command or an event, but for the keys of an open search prompt."""
        at = self.below(40)
        if at < 10:
            return self.text(length)
        if at < 14:
            return self.setting()
        if at < 20:
            return self.event()
        if at < 22:
            return self.drawing() if at == 20 else self.kept()
        return ('mouse', self.one_of(MICE), self.below(24), self.below(9)) if at < 28 else ('key', self.one_of(KEYS))

    def query_key(self, query):
        """A key of an open search prompt: mostly the one that goes on in a word, and at its end the one that takes it."""
        if self.is_one_of(3):
            key = self.one_of(QUERY_KEYS)
        else:
            self.word = self.word if query else self.one_of(WORDS)
            letter = self.word[len(query):len(query) + 1]
            key = {' ': 'space', '-': 'dash', '': 'enter'}.get(letter, letter)
        return 'esc' if key == 'enter' and not self.takes_queries else key

    def waiting(self, length):
        """A step that waits, or that an open search prompt skips."""
        step = self.any(length)
        if step[0] != 'key':
            return step
        return self.event() if self.takes_queries else ('do', 'copy')

    def planned(self, pager):
        """The next step of a plan: the last match is a word at the end of the text, and what is added then moves a part of
        this word to another row."""
        self.plan -= 1
        if self.plan == 3:
            return 'wrap', True
        if self.plan == 2:
            return 'push', self.word
        if self.plan == 1:
            matches, passed = len(pager.found), sum(row <= pager.mark for row in pager.found)
            return 'do', 'next', matches - (passed % matches if matches else 0)
        return 'push', 'abcdefghijklmnopqrstuvwxyz'

    def step(self, pager):
        """A step for a pager: keys of a query go to an open search prompt, and an exit is rare where it ends the session."""
        if pager.query:
            is_waiting = self.is_one_of(4)
            return self.waiting(len(pager.text)) if is_waiting else ('key', self.query_key(pager.query.text))
        if self.is_one_of(10 if pager.help else 1000):
            return 'key', 'q'
        if self.plan == 0 and pager.found and self.is_one_of(12):
            self.plan = 4
        return self.planned(pager) if self.plan else self.any(len(pager.text))


def line_of(step):
    """The line that asks for a step. What no text describes as a key does nothing, as a focus that goes."""
    if step == ('key', '-'):
        return 'event focus off'
    said = {True: 'on', False: 'off'}
    return ' '.join(said[word] if isinstance(word, bool) else escaped(str(word)) for word in step)


def told(pager, refused, calls):
    """What minus_cases has to print behind a step, by its kinds."""
    if refused:
        return {'refused': [str(refused)]}
    state = [f'mark {pager.mark}', f'left {pager.left}', f'match {pager.search_mark}', f'rows {len(pager.formed.rows)}',
             f'text {escaped(pager.text)}', f'prefix {pager.prefix}']
    if pager.selection:
        state.append('selected to row {} column {}'.format(*pager.selection))
    answers = [f'refused {number} of those that waited' for number in pager.led.refused]
    answers += [] if pager.led.copied is None else [f'copied {escaped(pager.led.copied)}']
    answers += [pager.led.exited] if pager.led.exited else []
    wanted = {'answers': answers, 'calls': pager.calls - calls}
    if not pager.led.exited:
        cursor = [str(pager.query.cursor)] if pager.query else []
        wanted.update(state=state, page=list(map(escaped, pager.page())), cursor=cursor)
    return wanted


def is_shown(screen, record):
    """Whether a plain screen shows the page, with its cursor, if it has one."""
    cursor = record.told['cursor']
    is_there = not cursor or (screen.y == len(screen.rows) - 1 and screen.x == int(cursor[0]))
    return is_there and screen.is_cursor_shown == bool(cursor) and list(map(escaped, screen.rows)) == record.told['page']


class Run:
    """Steps from a seed, with what each has to lead to."""

    def __init__(self, seed, count):
        self.seed, self.lines, self.wanted, self.heights = seed, [], [], []
        numbers, pager = Numbers(seed), PlainPager(COLS, ROWS)
        while len(self.lines) < count and not pager.led.exited:
            calls, step = pager.calls, numbers.step(pager)
            refused = pager.step(step)
            self.lines.append(line_of(step))
            self.wanted.append(told(pager, refused, calls))
            self.heights.append(pager.height if pager.led.is_resized else None)

    def script(self):
        return [f'pager {COLS} {ROWS}', f'helptext {escaped(HELP)}', 'start', *self.lines]

    def faults(self, records):
        """The first step after which something is wrong, with what was wanted and printed."""
        screen = PlainScreen(['anything'] * ROWS)
        screen.play(records[0].drawn())
        for at, (line, wanted, height, record) in enumerate(zip(self.lines, self.wanted, self.heights, records[1:])):
            if height:
                screen.rows = ['anything'] * height
            screen.play(record.drawn())
            printed = {kind: record.told.get(kind, []) for kind in wanted}
            called = [answer for answer in record.told['answers'] if answer.startswith('called ')]
            if 'calls' in wanted:
                printed['answers'] = [answer for answer in record.told['answers'] if answer not in called]
                printed['calls'] = len(called)
            if 'state' in wanted:
                printed['state'] = [item for item in printed['state'] if not item.startswith('search ')]
            for kind, rows in wanted.items():
                if (sorted(rows) if kind == 'state' else rows) != (sorted(printed[kind]) if kind == 'state' else printed[kind]):
                    return [f'step {at} of the run from {self.seed}, {line}: {kind}: {rows}, but it is {printed[kind]}']
            if 'page' in wanted and not is_shown(screen, record):
                return [f'step {at} of the run from {self.seed}, {line}: a screen shows {screen.rows}, {record.told}']
        return []


def main():
    parser = argparse.ArgumentParser(description='Runs random steps over minus_cases, beside a plain pager.')
    parser.add_argument('--seeds', metavar='N', type=int, default=12, help='runs from the seeds below this number')
    parser.add_argument('--steps', metavar='N', type=int, default=500, help='the steps of a run, if it does not exit')
    parser.add_argument('--try', dest='is_tried', action='store_true', help='before any proof, by rt try')
    options = parser.parse_args()
    program = (case_programs.Tried if options.is_tried else case_programs.Program)('minus_cases')
    runs = [Run(seed, options.steps) for seed in range(options.seeds)]
    program.run_all([((), tuple(run.script())) for run in runs])
    faults = []
    for run in runs:
        records = case_programs.records_of(program.printed((), tuple(run.script())))
        faults += run.faults([Record.joined(records[:3]), *records[3:]])
    print(*faults, f'random steps: {sum(len(run.lines) for run in runs)} in {len(runs)} runs, {len(faults)} failed', sep='\n')
    return bool(faults)


if __name__ == '__main__':
    sys.exit(main())
