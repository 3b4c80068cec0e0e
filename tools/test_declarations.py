#!/usr/bin/env python3
"""Compares rust/minus (src/proved) with include/minus.h: the declarations by names, types and order, and the numbers."""
import os
import re
import sys

TOP = os.path.dirname(os.path.dirname(os.path.abspath(__file__)))
PLAIN = {'uint8_t': 'u8', 'uint16_t': 'u16', 'uint32_t': 'u32', 'size_t': 'usize', 'bool': 'bool', 'void': 'c_void'}


def text(*path):
    with open(os.path.join(TOP, *path)) as file:
        return file.read()


def rust_name(name):
    """The name in Rust of a struct: Told for minus_told."""
    return ''.join(word.capitalize() for word in name.removeprefix('minus_').split('_'))


def rust_type(words):
    """A type of C in Rust's words."""
    is_const = words.startswith('const ')
    words = words.removeprefix('const ').strip()
    base, stars = words.rstrip('* ').strip(), words.count('*')
    base = rust_name(base.removeprefix('struct ')) if base.startswith('struct ') else PLAIN[base]
    return ('*const ' if is_const else '*mut ') * stars + base


def c_member(words):
    """The name and the type of a parameter, or of a field."""
    words = ' '.join(words.split())
    name = re.search(r'\w+$', words).group()
    return name, rust_type(words.removesuffix(name).strip())


def of_header():
    """The structs and the functions of the header, in Rust's words."""
    header = re.sub(r'/\*.*?\*/', '', text('include', 'minus.h'), flags=re.S)
    structs = {rust_name(name): [c_member(field) for field in body.split(';') if field.strip()]
               for name, body in re.findall(r'^struct (minus_\w+) \{(.*?)^\};', header, re.S | re.M)}
    functions = {}
    for answer, name, parameters in re.findall(r'^((?:struct )?\w+) (minus_\w+)\(([^)]*)\);', header, re.M):
        members = [c_member(parameter) for parameter in parameters.split(',')]
        functions[name] = members, None if answer == 'void' else rust_type(answer)
    return structs, functions


def rust_members(words):
    members = [' '.join(member.split()).removeprefix('pub ') for member in words.split(',') if member.strip()]
    return [tuple(member.split(': ', 1)) for member in members]


def of_rust():
    """The structs and the functions that raw.rs declares."""
    source = re.sub(r'//.*', '', text('rust', 'minus', 'src', 'proved', 'raw.rs'))
    structs = {name: rust_members(body) for name, body in re.findall(
        r'#\[repr\(C\)\](?:\s*#\[[^\n]*\])*\s*pub struct (\w+) \{(.*?)\n\}', source, re.S)}
    functions = {name: (rust_members(parameters), answer or None) for name, parameters, answer in re.findall(
        r'pub fn (minus_\w+)\(([^)]*)\)(?: -> (\w+))?;', source)}
    return structs, functions


def numbers_of_header():
    return {name: int(number) for name, number in re.findall(r'(MINUS_\w+) = (\d+)', text('include', 'minus.h'))}


def numbers_of_rust():
    """The names of the header, and their numbers in the tables of src/proved."""
    events, numbers, refusals, calls = (
        text('rust', 'minus', 'src', 'proved', f'{name}.rs') for name in ('events', 'numbers', 'refusal', 'calls'))
    found = re.findall(r'\(KeyCode::(\w+), (\d+)\)', events)
    named = [('KEY_' + upper(name), number) for name, number in found]
    kinds = re.search(r'const KINDS.*?;\n', events, re.S).group()
    named += [(upper(name), place) for place, name in enumerate(re.findall(r'KeyEventKind::(\w+)', kinds))]
    mouse = re.search(r'const MOUSE.*?\];\n', events, re.S).group()
    actions = re.findall(r'MouseEventKind::(\w+)(?:\(MouseButton::(\w+)\))?', mouse)
    named += [('MOUSE_' + upper(kind + button), place) for place, (kind, button) in enumerate(actions)]
    asked = re.findall(r'InputEvent::(\w+)[^=]*=> \((\d+),', numbers)
    named += [(upper(name).replace('FOLLOW_OUTPUT', 'INPUT_FOLLOW_OUTPUT'), number) for name, number in asked]
    named += [(upper(name), number) for name, number in re.findall(r'Self::(\w+) => (\d+)', numbers)]
    named += [(upper(name), number) for number, name in re.findall(r'(\d+) => Self::(\w+)', refusals)]
    named += [(upper(name), number) for name, number in re.findall(r'(\w+) = (\d+),', calls)]
    return [('MINUS_' + name, int(number)) for name, number in named]


def upper(name):
    """NotUtf8 as NOT_UTF8."""
    return re.sub(r'(?<=[a-z0-9])(?=[A-Z])', '_', name).upper()


def main():
    wrong = 0
    said, numbers = numbers_of_header(), numbers_of_rust()
    for name, number in numbers:
        if said.get(name) != number:
            wrong += 1
            print(f'{name}: rust/minus has {number}, minus.h has {said.get(name)}')
    print(f'{len(numbers)} numbers are looked at')
    for kind, declared, said in zip(('struct', 'function'), of_rust(), of_header()):
        for name, form in sorted(declared.items()):
            if said.get(name) != form:
                wrong += 1
                print(f'{kind} {name}: raw.rs has {form}, minus.h has {said.get(name)}')
        print(f'{len(declared)} of {len(said)} {kind}s of minus.h are declared in raw.rs')
        wrong += not declared
    print('the declarations differ' if wrong else 'the declarations are those of minus.h')
    return wrong > 0


if __name__ == '__main__':
    sys.exit(main())
