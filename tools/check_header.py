#!/usr/bin/env python3
"""Checks that include/minus.h and the exports of crates/minus_c agree: check_header.py

Names, parameters, results and order of the functions, the fields of the structs, the numbers of the enums, and the version,
which is the pager's. It reads the text of both, and says what differs.
"""
import glob
import os
import re
import sys

TOP = os.path.dirname(os.path.dirname(os.path.abspath(__file__)))
SOURCES = os.path.join(TOP, 'crates', 'minus_c', 'src')

# A struct of the header, and the one of the crate.
STRUCTS = {'minus_pager': 'Kept', 'minus_handed': 'Handed', 'minus_told': 'Told', 'minus_found': 'Found',
           'minus_key_event': 'KeyNumbers', 'minus_mouse_event': 'MouseNumbers', 'minus_read': 'ReadNumbers',
           'minus_asked': 'AskedNumbers', 'minus_state': 'State'}
NUMBERS = {'uint8_t': 'u8', 'uint16_t': 'u16', 'uint32_t': 'u32', 'size_t': 'usize', 'bool': 'bool', 'void': '()'}

# Where the numbers of an enum stand in the sources: the file, the function, and the pattern of a line with a number and a name.
NAME_TO_NUMBER, NUMBER_TO_NAME = r'(\w+)(?:\([^)]*\)| \{[^}]*\})?(?: \|.*?)? => \(?(\d+)', r'(\d+) => Some\((?:[\w:]+::)?(\w+)'
TABLES = {
    'minus_mode': ('enum_numbers.rt', 'mode_of', NUMBER_TO_NAME),
    'minus_line_numbers': ('enum_numbers.rt', 'line_numbers_of', NUMBER_TO_NAME),
    'minus_exit_strategy': ('enum_numbers.rt', 'exit_strategy_of', NUMBER_TO_NAME),
    'minus_search_mode': ('enum_numbers.rt', 'search_mode_of', NUMBER_TO_NAME),
    'minus_io': ('enum_numbers.rt', 'io_of', NUMBER_TO_NAME),
    'minus_key_code': ('keys.rt', 'code_number', r'KeyCode::(\w+)(?:\(\w+\))? => \((\d+)'),
    'minus_key_kind': ('keys.rt', 'kind_number', r'KeyEventKind::(\w+) => (\d+)'),
    'minus_mouse_kind': ('mouse.rt', 'mouse_kind_number', r'MouseEventKind::(\w+(?:\(MouseButton::\w+\))?) => (\d+)'),
    'minus_input_event': ('input_events.rt', 'numbers_of', r'InputEvent::(\w+)(?:\([\w, ]+\)| \{ x, y \})? => \((\d+)'),
    'minus_hook': ('session.rt', 'bit_of', r'Hook::(\w+) => (\d+)'),
}
# What stands before the name of a constant beside MINUS_, and constants that are named otherwise than the crate's.
PREFIXES = {'minus_key_code': 'KEY_', 'minus_mouse_kind': 'MOUSE_'}
RENAMED = {'INPUT_FOLLOW_OUTPUT': 'FOLLOW_OUTPUT'}

faults = []


def text_of(*path):
    with open(os.path.join(*path), encoding='utf-8') as file:
        return file.read()


def fault(what):
    faults.append(what)


def same(what, header, crate):
    if header != crate:
        fault(f'{what}: the header has {header}, the crate {crate}')


def bare(c):
    """A text of C without its comments."""
    c = re.sub(r'^ *#.*', '', re.sub(r'/\*.*?\*/', ' ', c, flags=re.S), flags=re.M)
    return re.sub(r'\s+', ' ', c.replace('extern "C" {', ' '))


def words(text):
    return [it.strip() for it in text.split(',') if it.strip()]


def snake(name):
    """SCREAMING_SNAKE of a name in camel case, with the words inside brackets behind it."""
    name = re.sub(r'\(MouseButton::(\w+)\)', r'\1', name)
    return re.sub(r'(?<=[a-z0-9])(?=[A-Z])', '_', name).upper()


def c_struct(name, fields):
    """The fields of a struct of C as (name, type of the crate), with a struct inside taken apart."""
    found = []
    for field in (it.strip() for it in fields.split(';') if it.strip()):
        kind, field = re.fullmatch(r'((?:struct )?\w+ ?\*?) ?(\w+)', field).groups()
        kind = kind.strip()
        if kind == 'void *':
            found.append((field, '*mut u8'))
        elif kind.startswith('struct '):
            found += structs[kind[7:]]
        else:
            found.append((field, NUMBERS[kind]))
    return found


def crate_struct(text):
    """The fields of a struct of the crate, with a struct inside taken apart."""
    found = []
    for name, kind in re.findall(r'^    (?:pub )?(\w+): ([^,\n]+),', text, re.M):
        if kind in STRUCTS.values():
            found += crate_struct(crate_text(kind))
        elif kind != 'Global':
            found.append((name, kind))
    return found


def crate_text(name):
    """The fields of a struct of the crate, as they stand there."""
    found = re.search(rf'#\[repr\(C\)\]\n(?:#\[.*\]\n)*pub struct {name} \{{\n(.*?)^\}}', everything, re.S | re.M)
    return found and found.group(1)


def c_parameters(name, parameters):
    """The parameters of a function of C as types of the crate: a pointer with a length behind it is a slice."""
    found, last = [], None
    for it in words(parameters):
        kind, star, _ = re.fullmatch(r'((?:const )?(?:struct )?\w+) (\*?)(\w+)', it).groups()
        is_const, kind = kind.startswith('const '), kind.removeprefix('const ')
        of = STRUCTS[kind[7:]] if kind.startswith('struct ') else NUMBERS[kind]
        if star and kind.startswith('struct '):
            found.append(f'&mut {of}')
        elif star:
            last = f'&[{of}]' if is_const else f'&mut [{of}]'
            continue
        elif last:
            if of != 'usize':
                fault(f'{name}: a length is to be a size_t')
            found.append(last)
        else:
            found.append(of)
        last = None
    return found


def crate_parameters(text):
    found = [re.fullmatch(r'(?:mut )?\w+: (.+)', it).group(1) for it in words(text)]
    return [it for it in found if it != 'Global']


header = text_of(TOP, 'include', 'minus.h')
plain = bare(header)
sources = {os.path.relpath(it, SOURCES): text_of(it) for it in sorted(glob.glob(f'{SOURCES}/**/*.rt', recursive=True))}
everything = '\n'.join(sources.values())

# the structs
structs = {}
for name, fields in re.findall(r'struct (\w+) \{(.*?)\};', plain):
    structs[name] = c_struct(name, fields)
    found = crate_text(STRUCTS.get(name))
    if found is None:
        fault(f'struct {name} has no struct in the crate')
    else:
        same(f'struct {name}', structs[name], crate_struct(found))
for name in STRUCTS.keys() - structs.keys():
    fault(f'struct {name} is not in the header')

# the functions
wanted = {}
for kind, name, parameters in re.findall(r'((?:struct )?\w+) (minus_\w+)\(([^)]*)\);', plain):
    result = STRUCTS[kind[7:]] if kind.startswith('struct ') else NUMBERS[kind]
    wanted[name] = (c_parameters(name, parameters), result)
exports = {}
for name, parameters, result in re.findall(
        r'#\[unsafe\(no_mangle\)\]\npub extern "C" fn (\w+)\(([^)]*)\)(?: -> (\w+))?', everything):
    exports[name] = (crate_parameters(parameters), result or '()')
for name in sorted(wanted.keys() | exports.keys()):
    if name not in exports:
        fault(f'{name} is no export')
    elif name not in wanted:
        fault(f'{name} is not in the header')
    else:
        same(name, wanted[name], exports[name])
if everything.count('no_mangle') != len(exports):
    fault('an export is not read')

# the numbers
enums = {}
for name, lines in re.findall(r'enum (\w+) \{(.*?)\};', plain):
    enums[name] = {key.removeprefix('MINUS_'): int(value) for key, value in (it.split(' = ') for it in words(lines))}
for name, (file, function, pattern) in TABLES.items():
    body = re.search(rf'fn {function}\(.*?^\}}', sources[file], re.S | re.M).group()
    pairs = re.findall(pattern, body)
    if pattern == NUMBER_TO_NAME:
        pairs = [(key, value) for value, key in pairs]
    crate = {snake(key): int(value) for key, value in pairs}
    prefix = PREFIXES.get(name, '')
    same(f'enum {name}', {RENAMED.get(key, key.removeprefix(prefix)): value for key, value in enums[name].items()}, crate)

# the refusals: those of the errors, those of the crate, and those that a call never answers
errors = text_of(TOP, 'crates', 'minus_term', 'src', 'error.rt')
errors = re.search(r'pub fn number\(&self\).*?^    \}', errors, re.S | re.M).group()
refusals = {snake(key): int(value) for key, value in re.findall(r'MinusError::(\w+)(?:\([_, ]*\))? => (\d+)', errors)}
refusals = {key: value for key, value in refusals.items() if value}
refusals.update((key, int(value)) for key, value in re.findall(r'pub const (\w+): u8 = (\d+);', sources['told.rt']))
same('enum minus_refusal', enums['minus_refusal'], {'DONE': 0, **refusals})

# the bits of modifiers, the stages, what bytes begin with, and the pieces
bits = text_of(TOP, 'crates', 'minus_term', 'src', 'event.rt')
bits = re.search(r'impl KeyModifiers: u8 \{(.*?)\}', bits, re.S).group(1)
same('enum minus_modifiers', enums['minus_modifiers'], {key: int(value) for key, value in re.findall(r'const (\w+) = (\d+);', bits)})
stages = {key: int(value) for key, value in re.findall(r'^const (WAITING|RUNNING|OVER): u8 = (\d+);', sources['state.rt'], re.M)}
same('enum minus_stage', enums['minus_stage'], stages)
kinds = {f'READ_{key}': int(value) for key, value in re.findall(r'^const (\w+): u8 = (\d+);', sources['reading.rt'], re.M)}
same('enum minus_read_kind', enums['minus_read_kind'], kinds)
pieces = re.search(r'fn piece_of\(.*?^\}', sources['state.rt'], re.S | re.M).group()
same('the number of pieces', sorted(enums['minus_piece'].values()), [int(it) for it in re.findall(r'^        (\d+) =>', pieces, re.M)])

# the version
pager = text_of(TOP, 'crates', 'minus_pager', 'src', 'main.rt')
same('the version', re.search(r'#define MINUS_VERSION "(.*)"', header).group(1), re.search(r'"minus ([\d.]+)\\n"', pager).group(1))

for it in faults:
    print(it)
print(f'{len(exports)} exports, {len(structs)} structs, {len(enums)} enums: {"agree" if not faults else f"{len(faults)} faults"}')
sys.exit(bool(faults))
