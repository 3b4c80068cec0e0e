"""The form of cases: reads files of cases, and writes what a program printed into them. cases/README.md says the form."""
import dataclasses
import pathlib
import re

# what stands below a line of a script: rows, or one text in the same line
ROWS = ('page', 'drawn', 'answers', 'order', 'waits', 'state')
TEXTS = ('exit', 'fails', 'asks', 'refused', 'settled', 'cursor')
SIZE = re.compile(r'(\d+) x (\d+)')
ROW = re.compile(r'\|(.*)\|')


class Fault(Exception):
    """A line that is no line of a case, or a program that ends otherwise than it has to."""


@dataclasses.dataclass
class Block:
    """What a step has to come to, and the lines of the file where this stands."""
    kind: str
    at: int
    end: int
    rows: list


@dataclasses.dataclass
class Step:
    """A line of a script, or none before the first one, and what it comes to."""
    line: str
    blocks: list


@dataclasses.dataclass
class Run:
    """A script on a screen of some columns and rows, or calls, which have no size."""
    size: tuple
    steps: list

    def script(self, count):
        """The lines of this many steps, the start among them, or of all."""
        return tuple(step.line for step in self.steps[1:count])


@dataclasses.dataclass
class Case:
    path: pathlib.Path
    at: int
    title: str
    runs: list

    def count(self):
        """How many cases this counts for: one for each script, and one for each call that answers something."""
        return sum(1 if run.size else sum(bool(step.blocks[0].rows) for step in run.steps[1:]) for run in self.runs)


class Reader:
    """Reads the lines of a file in their order."""

    def __init__(self, path):
        self.path, self.cases, self.names, self.block = path, [], {}, None

    def named(self, text):
        return self.names[text] if text.startswith('$') else text

    def begin(self, size):
        self.cases[-1].runs.append(Run(size, [Step(None, [])]))
        self.block = None

    def add_block(self, kind, number, rows):
        self.block = Block(kind, number, number, rows)
        self.cases[-1].runs[-1].steps[-1].blocks.append(self.block)

    def add_step(self, number, text):
        run = self.cases[-1].runs[-1]
        run.steps.append(Step(self.named(text), []))
        self.block = None
        if not run.size:
            self.add_block('answer', number, [])

    def add_row(self, number, line):
        self.block.rows.append(self.named(line) if line[0] == '$' else ROW.fullmatch(line).group(1))
        self.block.end = number

    def read_line(self, number, line):
        word, _, rest = line.partition(' ')
        size = SIZE.fullmatch(line)
        if not line or word == '#':
            self.block = None
        elif word == 'let':
            name, _, value = rest.partition(' ')
            self.names['$' + name] = value
        elif word == '==':
            self.cases.append(Case(self.path, number, rest, []))
        elif size or line == 'calls':
            self.begin(size and size.groups())
        elif word == '>':
            self.add_step(number, rest)
        elif line in ROWS or word in TEXTS:
            self.add_block(word, number, [rest] if word in TEXTS else [])
        else:
            self.add_row(number, line)


def read(path):
    """The cases of a file."""
    reader = Reader(path)
    for number, line in enumerate(path.read_text().split('\n')):
        try:
            reader.read_line(number, line)
        except (LookupError, AttributeError):
            raise Fault(f'{path}:{number + 1}: no line of a case: {line}') from None
    for case in reader.cases:
        if not case.runs or not all(any(step.blocks for step in run.steps) for run in case.runs):
            raise Fault(f'{path}:{case.at + 1}: no size, or nothing that a script comes to: {case.title}')
    return reader.cases


def write(path, found):
    """Writes rows into the blocks of a file, from the last block on."""
    lines = path.read_text().split('\n')
    for block, rows in sorted(found, key=lambda it: -it[0].at):
        if block.kind in TEXTS:
            lines[block.at] = f'{block.kind} {rows[0]}'
        else:
            lines[block.at + 1:block.end + 1] = map('|{}|'.format, rows)
    path.write_text('\n'.join(lines))
