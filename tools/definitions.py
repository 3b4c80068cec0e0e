#!/usr/bin/env python3
"""Makes docs/DEFINITIONS.md of the comments in crates/*/specs: definitions.py [--check]

A section for each crate, in the order of crates.txt, and in it one for each file, in the order of the alphabet: the first
comment of the file, and a row for each public definition with the comment that stands right before it. A definition without
one is listed by its name alone. Left out are proofs that a type has one value at most (NAME-prop).

With --check nothing is written: the lines that differ are printed, and the status is 1 if there are any.
"""
import difflib
import re
import sys
from pathlib import Path

TOP = Path(__file__).resolve().parent.parent
DOCUMENT = TOP / "docs" / "DEFINITIONS.md"

PREFACE = """\
# Definitions

`tools/definitions.py` makes this page of the comments in `crates/*/specs`; nobody edits it. There is a row for each public
definition, with the comment that stands before it. A text is a list of bytes or, where the file says so, of characters. A
name that begins with a capital is a statement or a type, any other name a function or a value. Where the words are missing,
the file has the definition alone.

Four words stand in most contracts of a session. `seen_of session` is what contracts read of a session (`Seen`), `told_of
input` is an input as values (`Told`), `says_of` is what the condition and the classifier may answer (`Says`), and `S.seen`
is what a sink of the type `S` tells (`SinkSeen`).
"""

DEFINITION = re.compile(r"^ *(?:(?:abbrev|unfoldable) )?pub (?:(?:record|data) )?([^ \s:({]+)")
FIELD = re.compile(r"^ +pub ")
COMMENT = re.compile(r"^ *-- ?(.*)")


def crates():
    """Returns the crates that have definitions, lowest first."""
    lines = (TOP / "crates.txt").read_text().splitlines()
    names = [re.match(r"\w+", line).group() for line in lines if line and not line.startswith("#")]
    return [name for name in names if (TOP / "crates" / name / "specs").is_dir()]


def is_listed(line):
    """Whether a line begins a public definition: a field of a record, a module and a proof NAME-prop do not."""
    found = DEFINITION.match(line)
    return bool(found) and not FIELD.match(line) and found.group(1) not in ("mod", "use") and not found.group(1).endswith("-prop")


def read(text):
    """Returns the first comment of a file, and the names of its public definitions, each with its comment or an empty text."""
    rows, comment, head = [], [], None
    for line in text.splitlines():
        said = COMMENT.match(line)
        if said:
            comment.append(said.group(1).strip())
            continue
        if head is None:
            head, comment = " ".join(comment), []
        if is_listed(line):
            rows.append((DEFINITION.match(line).group(1), " ".join(comment)))
        # (what is said before a module is said of the first definition in it)
        if not line.startswith("module"):
            comment = []
    return head or "", rows


def sentence(text):
    """Returns a comment as a sentence in a cell of a table."""
    text = text.replace("|", "\\|")
    return text and text[0].upper() + text[1:] + ("" if text[-1] in ".:;" else ".")


def section(file):
    """Returns the lines of a file's section, and how many of its definitions have no comment."""
    head, rows = read(file.read_text())
    if not rows:
        return [], 0
    table = [f"| `{name}` | {sentence(said)} |" if said else f"| `{name}` | |" for name, said in rows]
    lines = [f"### {file.stem}", "", sentence(head), "", "| Name | In words |", "|---|---|", *table, ""]
    return lines, sum(not said for _, said in rows)


def document():
    """Returns the lines of the document, and how many definitions have no comment."""
    lines, without = PREFACE.splitlines() + [""], 0
    for crate in crates():
        lines += [f"## {crate}", ""]
        for file in sorted((TOP / "crates" / crate / "specs").glob("*.antt")):
            made, bare = section(file)
            lines += made
            without += bare
    return lines[:-1], without


def differences(old, new):
    """Returns the lines that differ, `-` before those of the document and `+` before those that the comments give."""
    compared = difflib.unified_diff(old, new, str(DOCUMENT.relative_to(TOP)), "the comments in crates/*/specs", n=0, lineterm="")
    return list(compared)


def main(words):
    if words not in ([], ["--check"]):
        sys.exit(__doc__)
    made, without = document()
    if words:
        kept = DOCUMENT.read_text().splitlines() if DOCUMENT.exists() else []
        found = differences(kept, made)
        if found:
            print("\n".join(found))
            sys.exit("docs/DEFINITIONS.md is not what the comments say: run tools/definitions.py")
    else:
        DOCUMENT.write_text("\n".join(made) + "\n")
    print(f"{without} definitions have no comment")


if __name__ == "__main__":
    main(sys.argv[1:])
