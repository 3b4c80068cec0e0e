"""What keys and the mouse ask a plain pager for by the default bindings, and what keys do at its open search prompt."""
import re

from plain_rows import MAX

# the bottom of each text
BOTTOM = MAX - 1
SWITCHED = {'on': 'off', 'off': 'on'}


def typed(pager, default):
    """The number that is typed, or this one where none is that a row can have."""
    number = int(pager.prefix) if pager.prefix else default
    return number if number <= MAX else default


def up(pager, rows):
    return 'mark', max(pager.mark - rows, 0)


def down(pager, rows):
    return 'mark', min(pager.mark + rows, MAX)


def to_line(pager):
    """To the line that the typed prefix names, or to the bottom."""
    line = typed(pager, 0) - 1
    rows = [at for at, row in enumerate(pager.formed.rows) if row.line == line]
    return 'mark', rows[0] if rows else BOTTOM


def to_match(pager, is_on):
    if pager.direction == 'unknown':
        return ('ignore',)
    return 'next' if (pager.direction == 'forward') == is_on else 'previous', typed(pager, 1)


def bound_to(pager, key):
    """What a key is bound to."""
    half, page, count = pager.height // 2, pager.height - 1, typed(pager, 1)
    bindings = {
        ('q', 'c-c'): lambda: ('exit',),
        ('up', 'k'): lambda: up(pager, count),
        ('down', 'j'): lambda: down(pager, count),
        ('c-f',): lambda: ('follow', not pager.follow),
        ('enter',): lambda: down(pager, count) if pager.message is None else ('restore',),
        ('u', 'c-u'): lambda: up(pager, half),
        ('d', 'c-d'): lambda: down(pager, half),
        ('g', 'home'): lambda: ('mark', 0),
        ('s-g', 'G'): lambda: to_line(pager),
        ('pageup',): lambda: up(pager, page),
        ('pagedown', 'space'): lambda: down(pager, page),
        ('c-l',): lambda: ('numbers', SWITCHED.get(pager.numbers, pager.numbers)),
        ('end',): lambda: ('mark', BOTTOM),
        ('s-m',): lambda: ('help',),
        ('/',): lambda: ('search', 'forward'),
        ('?',): lambda: ('search', 'reverse'),
        ('n',): lambda: to_match(pager, True),
        ('p', 's-n'): lambda: to_match(pager, False),
        ('y',): lambda: ('copy',),
        ('c-s-h', 'c-h'): lambda: ('wrap', not pager.wraps),
        ('h', 'left'): lambda: ('left', max(pager.left - count, 0)),
        ('l', 'right'): lambda: ('left', min(pager.left + count, MAX)),
        tuple('0123456789'): lambda: ('digit', key),
    }
    return next((ask() for keys, ask in bindings.items() if key in keys), ('ignore',))


def told_by(pager, mouse, x, y):
    """What the mouse asks for at a place."""
    asks = {'scroll:up': up(pager, 5), 'scroll:down': down(pager, 5), 'left:down': ('select', x, y),
            'left:drag': ('extend', x, y), 'left:up': ('copy',)}
    return asks.get(mouse, ('ignore',))


def kind(character):
    """What a character of a query belongs to: a word, a space, or other signs."""
    return 2 if character == ' ' else 0 if re.fullmatch('[A-Za-z0-9_]', character) else 1


def is_word_start(text, place):
    """Whether a word of a query starts at this place, from 1."""
    here, before = text[place - 1:place], text[place - 2:place - 1] if place > 1 else ''
    return bool(here) and (not before or kind(here) == 2 or kind(here) != kind(before))


def edit(query, at, text, behind):
    """Puts a text between what stands before a place and what stands behind another one."""
    query.text = query.text[:at] + text + query.text[behind:]
    query.cursor, query.is_edited = at + len(text) + 1, True


def moved(query, key):
    """Where a key moves the cursor of a query to."""
    text, cursor, end = query.text, query.cursor, len(query.text) + 1
    before = [place for place in range(1, cursor) if is_word_start(text, place)]
    behind = [place for place in range(cursor + 1, end) if is_word_start(text, place)]
    places = {'left': max(cursor - 1, 1), 'right': min(cursor + 1, end), 'home': 1, 'end': end,
              'c-left': before[-1] if before else 1, 'c-right': behind[0] if behind else end}
    return places.get(key, cursor)


def feed(pager, key):
    """Presses a key at the open search prompt."""
    query = pager.query
    at = query.cursor - 1
    character = {'space': ' ', 'dash': '-'}.get(key, key.removeprefix('s-'))
    if key == 'esc':
        pager.query = None
    elif key == 'enter':
        pager.confirm()
    elif key == 'backspace':
        if at:
            edit(query, at - 1, '', at)
    elif key == 'delete':
        if at < len(query.text):
            edit(query, at, '', at + 1)
    elif len(character) == 1 and key != '-':
        edit(query, at, character, at)
    else:
        query.cursor = moved(query, key)
