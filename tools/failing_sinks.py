"""Each call of a sink refused in turn, alone or with all later ones, over minus_cases: what was written is a beginning of
what a script writes, and the session has failed."""
from case_programs import CLEANUP, records_of
from plain_rows import MAX

SETUP = '\x1b[?1049h\x1b[?1000h\x1b[?1002h\x1b[?1003h\x1b[?1015h\x1b[?1006h\x1b[?25l'
TEN_LINES = 'set l0\\nl1\\nl2\\nl3\\nl4\\nl5\\nl6\\nl7\\nl8\\nl9'
FIRST_PAGE = '\x1b[1;1H\x1b[2J\rl0\n\rl1\n\rl2\n'
FIFTH_ROW = '\x1b[5;1H\r\x1b[2K'
PROMPT_ROW = '\x1b[2;40;37mminus               \x1b[0m'
DOWN = '\x1b[2S\x1b[2;1H\x1b[2K\rl3\n\rl4\n' + FIFTH_ROW + PROMPT_ROW
PAGE = FIRST_PAGE + FIFTH_ROW + PROMPT_ROW
# scripts, and all that each writes; an exchange comes behind a start on a sink that refuses nothing
SCROLLS = [TEN_LINES, 'sink', 'start', 'mark 2', 'mark 1', 'showprompt off', 'prompt p', 'showprompt on', 'finish'], (
    SETUP + PAGE + DOWN + '\x1b[1T\x1b[1;1H\rl1\n' + FIFTH_ROW + PROMPT_ROW + FIFTH_ROW * 2
    + '\x1b[2;40;37mp                   \x1b[0m' + CLEANUP)
EXITS = ['set one\\ntwo', 'sink', 'start', 'push x\\nthree', 'type /', 'push y', 'key esc', 'do exit', 'push z', 'finish'], (
    SETUP + '\x1b[1;1H\x1b[2J\rone\n\rtwo\n' + FIFTH_ROW + PROMPT_ROW + '\x1b[2;1H\x1b[2Ktwox\x1b[3;1H\x1b[2Kthree'
    + '\x1b[5;1H\x1b[2K/\x1b[?25h\x1b[5;2H' + '\x1b[5;1H\x1b[2K\x1b[?25l\x1b[1;1H\x1b[2J\rone\n\rtwox\n\rthree\n' + FIFTH_ROW
    + PROMPT_ROW + '\x1b[3;1H\x1b[2Kthreey' + CLEANUP)
EXCHANGES = [TEN_LINES, 'start', 'sink', 'exchange 20 4', 'mark 2', 'finish'], PAGE + DOWN + CLEANUP
PRINTS = ['set a\\nb\\nc', 'sink', 'print'], '\ra\n\rb\n\rc\n'
SCROLL = [TEN_LINES, 'sink', 'start', 'mark 2', 'finish'], SETUP + PAGE + DOWN + CLEANUP
# a start, a step and an end, a byte a write: each part of the setup and of the cleanup is settled, and so is each drawing
SCROLL_CALLS = (54 + 3) + (67 + 1) + (67 + 1) + (54 + 3)
HOOKS = ['hook before-exit 2', 'atexit', 'hook after-exit 3', 'start', 'sink', 'do exit', 'do exit']
# no script makes so many calls
MOST_CALLS = 300


def scripts():
    """The lines of each try, with its script, the calls that are taken, and whether later ones are taken again."""
    for script in (SCROLLS, EXITS, EXCHANGES, PRINTS):
        for refused in (1, MAX):
            for taken in range(60):
                yield script, taken, refused, MAX
    for taken in range(MOST_CALLS):
        yield SCROLL, taken, 1, 1


def lines_of(lines, taken, refused, most):
    return ['pager 20 4', *(f'sink {taken} {refused} {most}' if line == 'sink' else line for line in lines)]


def refusals_of(records):
    return [int(number) for record in records for number in record.told['refused']]


def fault_of(script, refused, records):
    """What is wrong where a call was refused, or nothing; and whether no call was refused."""
    lines, whole = script
    behind = records[1 + lines.index('sink') + 1:]
    drawn, numbers = ''.join(record.drawn() for record in behind), refusals_of(behind)
    over = [number for number in numbers if number != 11]
    if not over:
        return ('' if drawn == whole else f'writes {drawn!r}'), True
    is_mended = refused == 1 and over[0] != 13 or refused == 1 and lines[-1] == 'finish' and over[0] == 13
    front = drawn.removesuffix(CLEANUP) if is_mended and drawn != whole else drawn
    if not whole.startswith(front):
        return f'leaves {drawn!r}', False
    is_setup = lines[2] == 'start' and len(front) < len(SETUP)
    if over[0] not in ((12,) if is_setup else (12, 13, 14)):
        return f'is refused by {over[0]}', False
    later = [number for number in over[1:] if number != 13]
    return ('' if all(number in (9, 10) for number in later) else f'is refused by {over} then'), False


def faults(program):
    """Runs all, the tries of a script in one run, and tells what is wrong."""
    groups = {}
    for script, taken, refused, most in scripts():
        groups.setdefault((id(script), refused, most), []).append((script, lines_of(script[0], taken, refused, most)))
    runs = {key: tuple(line for _, lines in tries for line in lines) for key, tries in groups.items()}
    exits = [(number, tuple(lines_of(HOOKS, number, 1, MAX))) for number in range(7)]
    behind = tuple(line for _, lines in exits for line in lines)
    program.run_all([((), run) for run in (*runs.values(), behind)])
    wrong, whole = [], {}
    for (key, tries), run in zip(groups.items(), runs.values()):
        records = records_of(program.printed((), run))
        for script, lines in tries:
            mine, records = records[:len(lines)], records[len(lines):]
            fault, is_whole = fault_of(script, key[1], mine)
            whole.setdefault(key, []).append(is_whole)
            wrong += [f'{lines}: {fault}'] if fault else []
    for calls in whole.values():
        if calls != sorted(calls) or not calls[-1]:
            wrong.append(f'calls are refused out of turn: {calls}')
    if whole[id(SCROLL), 1, 1].index(True) != SCROLL_CALLS:
        wrong.append(f'a scroll makes {whole[id(SCROLL), 1, 1].index(True)} calls')
    records = records_of(program.printed((), behind))
    for number, lines in exits:
        mine, records = records[:len(lines)], records[len(lines):]
        called = [answer for answer in mine[-2].told['answers'] if answer.startswith('called')]
        before, behind = ['called 2 at 0', 'called at the exit'], ['called 3 at 0']
        if (called, refusals_of(mine)) != ((before, [13, 10]) if number < 6 else (before + behind, [11])):
            wrong.append(f'{lines}: {called} {refusals_of(mine)}')
    return wrong
