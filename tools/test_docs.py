#!/usr/bin/env python3
"""Tests that what the documents name is there: files, links and their headings, the clauses of docs/PROVED.md, names, and
what CALLING.md shows of a file.

It reads all hand-written documents. A name is looked for as a word in the sources, the specs, the proofs, the tools, the
scripts and `rust/minus`; a file from the top, in `crates`, beside the document, and in the folders named below.
"""
import re
import unittest
from pathlib import Path

TOP = Path(__file__).resolve().parent.parent
CRATES = TOP / "crates"
DOCUMENTS = [TOP / name for name in ("README.md", "CALLING.md", "CONTRIBUTING.md", "CHANGELOG.md")] + sorted(
    file for file in (TOP / "docs").glob("*.md") if file.name != "DEFINITIONS.md"
)

CODE = re.compile(r"`([^`\n]+)`")
LINK = re.compile(r"\]\(([^)#]*)(?:#([^)]*))?\)")
FILE = re.compile(r"[\w./*-]+\.(?:rt|antt|md|py|sh|txt|svg|edit|h|c|rs|1)$|(?:crates|tools|docs|bin|rust|include|examples)/[\w./*-]+$")
NAME = re.compile(r"[A-Za-z_]\w*(?:(?:::|\.)[A-Za-z_]\w*)*$")
CLAUSE = re.compile(r"`([\w/]+\.rt)`")
SPEC = re.compile(r"\b([A-Z]\w+)\.(\w+)\b")
MODULE = re.compile(r"^## (minus\w*)$")
SHOWN = re.compile(r"^```rust\n(.*?)^```", re.S | re.M)
SOURCE = re.compile(r"\b[Ff]rom `([\w/]+\.rt)`")
PROGRAM = re.compile(r"^    // crates/yours/src/main.rt\n    #!\[tactic\(auto\)\]\n((?:    .*\n|\n)+)", re.M)

# Files that a user writes, or that a build makes: no part of the repository.
MADE = {
    "crates/yours", "out/incremental", "proofs/FILE/FUNCTION/Answers.antt", "proofs/NAMELaws.antt", "specs/NAME.antt",
    "wrong-bodies/a_sentence_of_the_fault.edit",
}
# Names of other programs, libraries and languages, and of what a reader types.
FOREIGN = {
    "less", "rt", "vim", "stty", "mkfifo", "mktemp", "mkdir", "cat", "dd", "tar", "gzip", "dash", "bash", "fg", "tmux", "regex", "textwrap",
    "nice", "valgrind", "crossterm", "malloc", "realloc", "free", "rustc",
}


def without_blocks(text):
    """Returns a text without its blocks of code."""
    return re.sub(r"^```.*?^```", "", text, flags=re.S | re.M)


def said(file):
    """Returns what stands in back quotes in a document."""
    return [" ".join(words.split()) for words in CODE.findall(without_blocks(file.read_text()))]


def places(name, file):
    """Returns where a file may be that a document names."""
    folders = [TOP, CRATES, file.parent, CRATES / "minus" / "src", CRATES / "minus_app" / "src", TOP / "rust" / "minus", TOP / "tools" / "original"]
    names = [name, name + ".antt", name + ".rt"] if "." not in Path(name).name else [name]
    return [folder / one for folder in folders for one in names]


def is_made(name):
    """Whether a build makes a file, or a user writes it."""
    return name in MADE or "/out/" in name


def is_there(name, file):
    """Whether a file is there, or for a name with `*` at least one that fits it."""
    if "*" in name or "NAME" in name:
        return any(TOP.glob(re.sub("NAME", "*", name).removeprefix("/")))
    return any(place.exists() for place in places(name, file))


def words():
    """Returns every word of the sources, the specs, the proofs, the tools and the scripts."""
    patterns = [
        "crates/*/src/**/*.rt", "crates/*/specs/*.antt", "crates/*/proofs/*.antt", "crates/*/wrong-bodies/*.edit", "tools/**/*.*", "bin/*",
        "include/*", "rust/**/*.rs", "rust/**/*.toml", "examples/**/*.*", ".ci/run",
    ]
    files = [file for pattern in patterns for file in TOP.glob(pattern) if file.is_file() and file.resolve() != Path(__file__).resolve()]
    text = " ".join(file.read_text(errors="replace") for file in files)
    return set(re.findall(r"\w+", text)) | {part for file in files for part in file.with_suffix("").parts}


def heading(title):
    """Returns the anchor of a heading."""
    return re.sub(r"[^\w -]", "", title.lower()).strip().replace(" ", "-")


def shown(text):
    """Returns each block of code with the file that it is from, which the text above it names last."""
    at = 0
    for block in SHOWN.finditer(text):
        files = SOURCE.findall(text[at : block.start()])
        yield (files or [""])[-1], block[1]
        at = block.end()


def joined(text):
    return " ".join(text.split())


def sections():
    """Returns the lines of docs/PROVED.md with the crate that they are about."""
    crate = None
    for line in (TOP / "docs" / "PROVED.md").read_text().splitlines():
        if line.startswith("## "):
            found = MODULE.match(line)
            crate = found.group(1) if found else None
        if crate:
            yield crate, line


class Documents(unittest.TestCase):
    def test_files_are_there(self):
        for file in DOCUMENTS:
            if file.name == "PROVED.md":
                continue
            missing = [name for name in said(file) if FILE.match(name) and not is_made(name) and not is_there(name, file)]
            with self.subTest(file.name):
                self.assertEqual(missing, [])

    def test_links_lead_to_headings(self):
        for file in DOCUMENTS:
            for target, anchor in LINK.findall(without_blocks(file.read_text())):
                if target.startswith("http"):
                    continue
                to = file.parent / target if target else file
                with self.subTest(f"{file.name}: {target}#{anchor}"):
                    self.assertTrue(to.exists())
                    if anchor:
                        titles = re.findall(r"^#+ (.*)$", to.read_text(), flags=re.M)
                        self.assertIn(anchor, [heading(title) for title in titles])

    def test_names_are_there(self):
        known = words() | FOREIGN | {part for file in DOCUMENTS for part in file.with_suffix("").parts}
        for file in DOCUMENTS:
            names = [name.removesuffix("()") for name in said(file)]
            parts = {part for name in names if NAME.match(name) and len(name) > 2 for part in re.split(r"::|\.", name)}
            with self.subTest(file.name):
                self.assertEqual(sorted(parts - known), [])

    def test_what_is_shown_stands_in_its_file(self):
        for name, block in shown((TOP / "CALLING.md").read_text()):
            text = joined((CRATES / name).read_text()) if (CRATES / name).is_file() else ""
            # (what stands between two parts may be left out where an empty line is)
            for part in block.split("\n\n"):
                with self.subTest(name):
                    self.assertIn(joined(part), text)

    def test_the_program_of_README_is_the_first_of_CALLING(self):
        program, (_, first) = PROGRAM.search((TOP / "README.md").read_text()), next(shown((TOP / "CALLING.md").read_text()))
        self.assertEqual(joined(program[1]), joined(first))

    def test_clauses_stand_where_PROVED_says(self):
        for crate, line in sections():
            cells = line.split(" | ") if line.startswith("|") else []
            source = CRATES / crate / "src"
            files = [source / name for cell in cells for name in CLAUSE.findall(cell)]
            with self.subTest(f"{crate}: {line[:60]}"):
                self.assertEqual([file.name for file in files if not file.is_file()], [])
                for spec, name in SPEC.findall(cells[-1] if cells else ""):
                    found = [file for file in CRATES.glob(f"*/specs/{spec}.antt") if re.search(rf"\b{name}\b", file.read_text())]
                    self.assertTrue(found, f"{spec}.{name}")

    def test_functions_stand_in_the_files_of_their_row(self):
        for crate, line in sections():
            cells = line.strip("| ").split(" | ") if line.startswith("|") else []
            files = [CRATES / crate / "src" / name for cell in cells for name in CLAUSE.findall(cell)]
            if not files or not all(file.is_file() for file in files):
                continue
            specs = list((CRATES / crate / "specs").glob("*.antt"))
            text = " ".join(file.read_text() for file in files + specs)
            named = [name.rsplit("::")[-1] for name in re.findall(r"`((?:[A-Z]\w+::)?[a-z]\w+_\w+)`", line)]
            with self.subTest(f"{crate}: {line[:60]}"):
                self.assertEqual([name for name in named if not re.search(rf"\b{name}", text)], [])


if __name__ == "__main__":
    unittest.main()
