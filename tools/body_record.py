"""The record of the wrong bodies that were refused, for a machine on which nothing is kept. For wrong_bodies.py.

A line has a body, as `minus_text/a_row_is_lost.edit`, and the sum under which its refusal was kept. It counts for this
body with this sum alone; of the bodies for which it counts, one in ten is tried anyway, and no run can know which."""
import os
import secrets

from body_places import read

RECORD = "tools/refused_bodies.txt"
ONE_IN = 10


def recorded(top):
    """Returns the sum of each body that the record of a repository names."""
    return dict(it.split() for it in read(f"{top}/{RECORD}").splitlines()) if os.path.isfile(f"{top}/{RECORD}") else {}


def write_record(top, sums):
    with open(f"{top}/{RECORD}", "w", encoding="utf-8") as out:
        out.writelines(f"{body} {sum}\n" for body, sum in sorted(sums.items()))


def names_no_body(top):
    """Returns the bodies of the record that stand in no file."""
    is_there = lambda it: os.path.isfile(f"{top}/crates/{'/wrong-bodies/'.join(it.split('/', 1))}")
    return [it for it in recorded(top) if not is_there(it)]


def is_sampled():
    """Returns whether a body is tried although the record says that it was refused."""
    return secrets.randbelow(ONE_IN) == 0
