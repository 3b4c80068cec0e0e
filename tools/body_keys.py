"""What a try of a wrong body reads, for the name under which its refusal is kept. For wrong_bodies.py.

A proof rests on the contracts of what its function calls and not on their bodies. So a name is made of the kit, the
crate and those below it without the bodies and the proofs of their functions, and the functions that the body turns, as
they stand. It is the same on each machine."""
import functools
import hashlib
import os
import re

from body_edits import texts_of, without_bodies
from body_places import FUNCTION, extent_of, files_below, functions_of, module_of, place_of, read

PARTS = ["proofs", "specs", "src"]
OF_FUNCTION = {"Answers.antt", "Invariants.antt", "Proof.antt"}
COMMENTS = {".antt": re.compile(r"^[ \t]*--.*\n", re.M), ".rt": re.compile(r"^[ \t]*//.*\n", re.M)}


def proofs_of(crate):
    """Returns the paths of the crate's functions that have files of proofs."""
    top = f"{crate.folder}/proofs"
    files = [os.path.relpath(it, top) for it in files_below(top) if os.path.basename(it) in OF_FUNCTION]
    return ["::".join([crate.name, *it.split("/")]) for it in sorted({os.path.dirname(it) for it in files})]


@functools.lru_cache(maxsize=None)
def kit_of(folder):
    """Returns sums of the kit's files that a check reads. (What else is in a library is held to the sums in its
    format.)"""
    libraries = [f"rlibs/{it}/format" for it in sorted(os.listdir(f"{folder}/rlibs"))]
    found = []
    for it in ("KIT-ID", "WHAT", "bin/rattle", "bin/rt", "bin/rtlib.py", *libraries):
        with open(f"{folder}/{it}", "rb") as file:
            found.append((it, hashlib.sha256(file.read()).hexdigest()))
    return found


def sum_of(texts):
    return hashlib.sha256(repr(sorted(texts.items())).encode()).hexdigest()


def without_comments(path, text):
    comment = COMMENTS.get(os.path.splitext(path)[1])
    return comment.sub("", text) if comment else text


def is_constant(text, place, module):
    """Returns whether the function of this place in a text is `const`, so that a constant may be made by its body."""
    return any("const " in it[0] and place_of(text, it.end(), module) == place for it in FUNCTION.finditer(text))


class Reading:
    """What tries of a crate's bodies read of the crate and of those below it, each read once."""

    def __init__(self, crate, of_others):
        self.crate, self.of_others = crate, of_others
        self.functions = functions_of(crate.folder, proofs_of(crate))
        files = [it for part in PARTS for it in files_below(f"{crate.folder}/{part}")]
        self.texts = {os.path.relpath(it, crate.folder): read(it) for it in files}
        self.of_others[crate.folder] = self.bare = (self.of_build(crate), sum_of(self.bare_texts()))

    def of_build(self, crate):
        return crate.name, sorted(crate.said.items()), [it.name for it in crate.deps], list(crate.of_kit)

    def bare_texts(self):
        """Returns the crate's files without comments, and without the bodies and the proofs of its functions. A drop
        keeps both, since whoever lets a value go needs its proof, and so does what may make a constant."""
        modules = {module_of(it): text for it, text in self.texts.items() if it.startswith("src/")}
        is_kept = lambda it: it.of_trait == "Drop" or is_constant(modules[it.module], it, it.module)
        left = {it: path for it, path in self.functions.items() if not is_kept(it)}
        emptied = texts_of([without_bodies(left, [], self.crate.folder)], self.crate.folder)
        own = {self.proofs_at(it) for it in left}
        is_own = lambda it: os.path.dirname(it) in own and os.path.basename(it) in OF_FUNCTION
        return {it: without_comments(it, text) for it, text in {**self.texts, **emptied}.items() if not is_own(it)}

    def proofs_at(self, place):
        return f"proofs/{self.functions[place].replace('::', '/')}"

    def turned(self, body):
        """Returns the functions that a body turns as they stand, each with its files of proofs, or none where that may
        be anything in the crate."""
        if body.fault or body.stands_alone() or not body.places <= self.functions.keys():
            return None
        found = []
        for path, start, _, _ in body.changes:
            text = self.texts[path]
            of = self.proofs_at(place_of(text, start, module_of(path)))
            files = [f"{of}/{it}" for it in sorted(OF_FUNCTION)]
            found.append((path, text[slice(*extent_of(text, start))]))
            found += [(it, self.texts[it]) for it in files if it in self.texts]
        return found

    def read_by(self, body):
        """Returns all of the repository that a try of a body reads."""
        turned = self.turned(body)
        for it in self.crate.below():
            if it.folder not in self.of_others:
                Reading(it, self.of_others)
        own = (self.bare, turned) if turned is not None else (self.of_build(self.crate), sum_of(self.texts))
        return own, sorted(self.of_others[it.folder] for it in self.crate.below())
