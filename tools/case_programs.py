"""The programs that run cases, and what they print.

minus_show prints the page, or all bytes, that a whole script leads to. minus_cases runs all cases of a file, and prints
what each line leads to, or what a call answers, in a record.
"""
import concurrent.futures
import dataclasses
import os
import pathlib
import re
import subprocess
import tempfile

import case_files
from case_files import Fault
import player
import programs

CLEANUP = '\x1b[?25h\x1b[?1006l\x1b[?1015l\x1b[?1003l\x1b[?1002l\x1b[?1000l\x1b[?1049l'
# lines that start a pager
STARTS = ('start', 'print', 'parts', 'driven')
CLEAR = '\x1b[1;1H\x1b[2J'
ESCAPES = {'\\': r'\\', '\x1b': r'\e', '\r': r'\r', '\n': r'\n'}
LETTERS = {'\\': '\\', 'e': '\x1b', 'r': '\r', 'n': '\n'}


def escaped(text):
    return re.sub(r'[\\\x1b\r\n]', lambda found: ESCAPES[found.group()], text)


def unescaped(text):
    return re.sub(r'\\(.)', lambda found: LETTERS[found.group(1)], text)


def pieces(text):
    """What is drawn, in lines: one begins where the cursor is put or rows move, and ends behind a newline."""
    return [escaped(part) for part in re.split(r'(?<=\n)|(?<!^)(?=\x1b\[[0-9]+(?:;1H|[ST]))', text) if part]


def check_played(rows, drawn):
    """Fails where the bytes that were sent, played on a plain screen, do not leave a page."""
    texts = [unescaped(row) for row in rows]
    if any(player.moves(text) for text in texts):
        return
    screen = player.played_rows(len(rows), drawn)
    if screen != [text.replace('\r', '') for text in texts]:
        raise Fault(f'on a screen, the bytes that were sent leave {[escaped(row) for row in screen]}')


@dataclasses.dataclass
class Ended:
    """What a run of a program printed, and its status with what it said on standard error."""
    text: str
    said: str


class Program:
    """A built program. What it printed is kept, by its words and its script."""
    # how long a run may take
    SECONDS = 600

    def __init__(self, name):
        self.name, self.path, self.kept = name, programs.built(name), {}

    def run(self, key):
        words, script = key
        given = ''.join(line + '\n' for line in script).encode()
        try:
            ran = subprocess.run([self.path, *words], input=given, capture_output=True, timeout=self.SECONDS)
        except subprocess.TimeoutExpired:
            raise Fault(f'{self.name} has not ended within {self.SECONDS} seconds') from None
        return Ended(ran.stdout.decode(), f'{ran.returncode} {ran.stderr.decode(errors="replace").strip()}'.strip())

    def run_all(self, keys):
        with concurrent.futures.ThreadPoolExecutor(os.cpu_count()) as pool:
            self.kept.update(zip(keys, pool.map(self.run, keys)))

    def printed(self, words, script):
        ended = self.kept[words, script]
        if ended.said != '0':
            raise Fault(f'fails {ended.said}')
        return ended.text


class Tried(Program):
    """A program before any proof, by `rt try --cases`, which builds it once for all runs."""

    def run_all(self, keys):
        names = {f'run{place:05}': key for place, key in enumerate(keys)}
        with tempfile.TemporaryDirectory() as folder:
            for name, (words, script) in names.items():
                pathlib.Path(folder, name).write_text(''.join(line + '\n' for line in script))
                pathlib.Path(folder, name + '.args').write_text(''.join(word + '\n' for word in words))
            crate = os.path.join(programs.TOP, 'crates', self.name)
            # (few steps for rt's interpreter, which would take a quarter of an hour: the compiled program answers alone)
            words = ['rt', 'try', '--seconds', '900', '--steps', '1000', '--cases', folder]
            ran = subprocess.run(words, cwd=crate, capture_output=True)
        self.keep(names, ran.stdout.decode(), ran.stderr.decode(errors='replace'))

    def keep(self, names, printed, said):
        texts = re.split(r'^== (run\d{5})\n', printed, flags=re.M)
        ends = re.split(r'^case=(run\d{5}) run=\w+ status=(\d+).*\n', said, flags=re.M)
        if len(texts) < 2:
            raise Fault(said)
        texts = dict(zip(texts[1::2], texts[2::2]))
        for before, name, status in zip(ends[0::3], ends[1::3], ends[2::3]):
            words, text = names[name][0], texts.get(name, '')
            # (what does not end with a newline is printed with one)
            text = text.removesuffix('\n') if words[:1] == ('bytes',) else text
            self.kept[names[name]] = Ended(text, f'{status} {before.strip()}'.strip())


class Shown:
    """Cases over minus_show: each block is of a run of the script up to it."""

    def __init__(self, program):
        self.program = program

    def load(self, cases):
        keys = {}
        for run in (run for case in cases for run in case.runs):
            for place, step in enumerate(run.steps):
                for block in step.blocks:
                    keys.update((key, None) for key in self.keys(run, place, block.kind))
        self.program.run_all(list(keys))

    def keys(self, run, place, kind):
        script, shorter = run.script(place + 1), run.script(place)
        page, drawn, before = (('page', *run.size), script), (('bytes', *run.size), script), (('bytes', *run.size), shorter)
        return {'drawn': [before, drawn], 'page': [page, drawn]}.get(kind, [page])

    def drawn(self, run, count):
        return self.program.printed(('bytes', *run.size), run.script(count)).removesuffix(CLEANUP)

    def rows(self, run, place, kind):
        """The rows that belong into a block of this kind behind a step."""
        script = run.script(place + 1)
        if kind == 'fails':
            ended = self.program.kept[('page', *run.size), script]
            return [' and output: '.join(filter(None, (ended.said, ended.text)))]
        if kind == 'drawn':
            before, after = self.drawn(run, place), self.drawn(run, place + 1)
            if not after.startswith(before):
                raise Fault('the last line changes what was drawn before it')
            return pieces(after[len(before):])
        rows = self.program.printed(('page', *run.size), script).split('\n')[:-1]
        if kind == 'exit':
            return [rows[0].removeprefix('exit ')]
        if kind != 'page':
            raise Fault(f'minus_show prints no {kind}')
        check_played(rows, self.drawn(run, place + 1))
        return rows


class Record:
    """What a line came to, by what the first letter of each printed line says."""
    KINDS = {'d': 'drawn', 's': 'settled', 'r': 'refused', 'a': 'answers', 'o': 'order', 'w': 'waits', 'k': 'asks', 'p': 'page', 'm': 'state', 'c': 'cursor', '=': 'answer'}

    def __init__(self, text):
        self.told = {kind: [] for kind in self.KINDS.values()}
        self.is_faulty = False
        for line in text.split('\n')[1:]:
            letter, _, rest = line.partition(' ')
            if letter in self.KINDS:
                self.told[self.KINDS[letter]].append(rest)
            elif line:
                self.is_faulty = True

    def drawn(self):
        """The bytes that were drawn, as text."""
        return unescaped(''.join(self.told['drawn']))

    @classmethod
    def joined(cls, records):
        """What several lines came to, the rows of one behind those of the other."""
        joined = cls('')
        for kind, rows in joined.told.items():
            rows += [row for record in records for row in record.told[kind]]
        return joined


def records_of(printed):
    """The records of what minus_cases printed, one a line that it ran."""
    return [Record(text) for text in re.split(r'^(?=> )', printed, flags=re.M)[1:]]


class Stepped:
    """Cases over minus_cases: a file is one run, which prints a record for each line of all its scripts."""

    def __init__(self, program):
        self.program, self.records = program, {}

    @staticmethod
    def lines(run):
        """The lines that run a script: its pager waits where a line starts it, and else starts at once."""
        if not run.size:
            return ['calls', *run.script(None)]
        script = run.script(None)
        begin = [] if any(line.startswith(STARTS) for line in script) else ['start']
        return ['pager ' + ' '.join(run.size), *begin, *script]

    def load(self, cases):
        files = {}
        for case in cases:
            files.setdefault(case.path, []).extend(case.runs)
        scripts = {path: tuple(line for run in runs for line in self.lines(run)) for path, runs in files.items()}
        self.program.run_all([((), script) for script in dict.fromkeys(scripts.values())])
        for path, runs in files.items():
            self.keep(path, runs, self.program.printed((), scripts[path]))

    def keep(self, path, runs, printed):
        records = records_of(printed)
        if len(records) != sum(len(self.lines(run)) for run in runs):
            raise Fault(f'{path}: minus_cases printed {len(records)} records')
        for run in runs:
            count = len(self.lines(run))
            # (what comes before the first line of the script is one record, that of the start)
            self.records[id(run)] = records[count - len(run.steps):count]
            del records[:count]

    def rows(self, run, place, kind):
        """The rows that belong into a block of this kind behind a step."""
        records = self.records[id(run)][:place + 1]
        last = records[-1]
        if last.is_faulty:
            raise Fault('minus_cases has no such line')
        if last.told['refused'] and all(block.kind != 'refused' for block in run.steps[place].blocks):
            raise Fault(f'refused {last.told["refused"][0]}')
        if kind == 'drawn':
            return pieces(last.drawn())
        if kind == 'answers':
            return [row for record in records for row in record.told['answers']]
        if kind == 'exit':
            return [row.removeprefix('exit ') for row in last.told['answers'] if row.startswith('exit ')] or ['none']
        if kind not in last.told:
            raise Fault(f'minus_cases prints no {kind}')
        rows = last.told[kind]
        if kind == 'page' and 'parts' not in run.script(None):
            # (what is drawn before the screen is cleared last leaves nothing)
            drawn = ''.join(record.drawn() for record in records)
            check_played(rows, drawn[max(drawn.rfind(CLEAR), 0):])
        return rows or ([''] if kind in case_files.TEXTS else [])
