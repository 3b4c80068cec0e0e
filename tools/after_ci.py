#!/usr/bin/env python3
"""Lets the commands behind an rt ci stand on the libraries that it has built in this checkout: after_ci.py NAME

Without that, `rt lib` proves each crate below NAME from nothing once more, since rt ci leaves no mark of what it built a
library from. This writes the marks, where no other command has built one: only right behind an rt ci that passed, and in no
crate that was changed since.
"""
import os
import sys

from wrong_bodies import load_rt


def main(name):
    top = os.getcwd()
    of_name = {it.name: it for it in load_rt().rtlib.crates_below(top)}
    for below in of_name[name].below():
        mark = f'{below.folder}/out/rlib/stamp'
        if os.path.isdir(below.rlib) and not os.path.exists(mark):
            with open(mark, 'w', encoding='utf-8') as file:
                file.write(below.stamp())
            print(f'after_ci: {below.name} stands as rt ci has built it')


if __name__ == '__main__':
    main(*sys.argv[1:])
