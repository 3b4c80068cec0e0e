"""Wrong bodies as they are read, put into rounds, and written over a crate: their twins, and what is left of the other
functions.

For wrong_bodies.py."""
import os
import re
from dataclasses import dataclass, field, replace

from body_places import FUNCTION, extent_of, module_of, place_of, read

SEARCHED = re.compile(r"(^pub (\S+) : .*^\2 [^=]*=).*", re.M | re.S)


@dataclass
class Body:
    """A wrong body: what it puts in place of what, and which functions that turns."""

    label: str
    changes: list = field(default_factory=list)  # path, start, end, text
    places: set = field(default_factory=set)
    fault: str = ""
    # the proof of a twin, and what is left of answers: path, text (None: no such file)
    files: dict = field(default_factory=dict)
    gone: list = field(default_factory=list)  # the written answers without which it is judged
    kept_as: str = ""  # the name under which it is kept that it was refused

    def stands_alone(self):
        return any(not it.name for it in self.places)

    def is_beside(self, other):
        """Returns whether both can be tried in one round."""
        apart = all(a[0] != b[0] or a[2] <= b[1] or b[2] <= a[1] for a in self.changes for b in other.changes)
        return apart and not self.places & other.places


def read_body(file, folder):
    """Reads a wrong body of the crate in the folder."""
    body, path, old = Body(os.path.basename(file)), "", None
    with open(file, encoding="utf-8") as lines:
        for line in lines.read().split("\n"):
            if line.startswith("file: "):
                path = line[len("file: ") :].strip()
            elif line.startswith("old: "):
                old = line[len("old: ") :]
            elif line.startswith("new:") and old:
                if not re.fullmatch(r"src/[\w/]+\.rt", path) or not os.path.isfile(f"{folder}/{path}"):
                    return Body(body.label, fault=f"there is no file {path!r} of src/")
                text = read(f"{folder}/{path}")
                if text.count(old) != 1:
                    return Body(body.label, fault=f"an old text is in {path} {text.count(old)} times, and not once")
                start = text.find(old)
                body.changes.append((path, start, start + len(old), line[len("new:") :].removeprefix(" ")))
                body.places.add(place_of(text, start, module_of(path)))
                old = None
    return body if body.changes else Body(body.label, fault="it has no pair of an old and a new text")


def twin_of(body, number, folder, functions):
    """Returns a body that does to a twin of its function what this one does to the function, or none where there can be
    no twin."""
    place = next(iter(body.places))
    if len(body.places) > 1 or place.of_trait or place not in functions:
        return None
    path = body.changes[0][0]
    text, name, proof = read(f"{folder}/{path}"), f"{place.name}__{number}", functions[place].replace("::", "/")
    start, end = extent_of(text, body.changes[0][1])
    twin = text[start:end]
    for _, first, last, new in sorted(body.changes, key=lambda it: -it[1]):
        twin = twin[: first - start] + new + twin[last - start :]
    twin = re.sub(rf"\bfn {place.name}\b", f"fn {name}", twin, count=1)
    files, own = {}, f"proofs.{proof.replace('/', '.')}."
    for it in os.listdir(f"{folder}/proofs/{proof}") if os.path.isdir(f"{folder}/proofs/{proof}") else []:
        of_own = body.files.get(f"proofs/{proof}/{it}", read(f"{folder}/proofs/{proof}/{it}"))
        if of_own is not None:
            files[f"proofs/{proof}__{number}/{it}"] = of_own.replace(own, f"{own[:-1]}__{number}.")
    return Body(body.label, [(path, end, end, f"\n\n{twin}")], {replace(place, name=name)}, files=files)


def with_twins(bodies, folder, functions):
    """Returns, for each body, what is tried of it beside the others: itself, or where an earlier one turns its
    function, a twin."""
    tried_as, turned = [], []
    for body in bodies:
        number = 1 + sum(place in body.places for place in turned)
        tried_as.append((number > 1 and twin_of(body, number, folder, functions)) or body)
        turned += body.places
    return tried_as


def next_round(waiting):
    """Returns the bodies of a round: the first that waits, alone if it stands alone, else with as many as turn other
    functions."""
    first, *others = waiting
    taken = [first]
    for body in others:
        if not any(it.stands_alone() for it in (first, body)) and all(body.is_beside(it) for it in taken):
            taken.append(body)
    return taken


def texts_of(bodies, folder):
    """Returns the files that the bodies change, each with its new text."""
    texts = {}
    for path, start, end, new in sorted((it for body in bodies for it in body.changes), key=lambda it: -it[1]):
        text = texts.get(path) or read(f"{folder}/{path}")
        texts[path] = text[:start] + new + text[end:]
    return texts


def without_answers(body, unfit, folder):
    """Returns a body that is judged without these written answers: a search stands for each whose goal is still there.
    A name of none, as of an import, stands for the whole file."""
    files, gone = dict(body.files), list(body.gone)
    for at, names in unfit.items():
        for file in {file for file, *_ in names}:
            path, is_there = f"proofs/{at}/{file}", {name: is_there for of, name, is_there in names if of == file}
            text = files.get(path) or read(f"{folder}/{path}")
            items = re.split(r"\n\n(?=\S)", text)
            begins = {name: re.compile(rf"^pub {re.escape(name)} : goal\.", re.M) for name in is_there}
            found = {name: it for it in items for name in is_there if begins[name].search(it)}
            is_part = file == "Answers.antt" and len(found) == len(is_there)
            searched = {it: SEARCHED.sub(r"\1 search rules", it) for name, it in found.items() if is_there[name]}
            searched = {it: new for it, new in searched.items() if it != new}
            left = [searched.get(it, it) for it in items if it in searched or it not in found.values()]
            lacks_rules = searched and not re.search(r"^use .*\brules\b", text, re.M)
            head = "use Rattle.std.proofs.Common.{rules}\n" if lacks_rules else ""
            # (an empty Answers.antt is as none, but an empty Proof.antt is a proof)
            files[path] = head + "\n\n".join(left) if is_part else "" if file == "Answers.antt" else None
            gone += sorted(is_there) if is_part else [file]
    return replace(body, files=files, gone=gone)


def left_out(functions, bodies):
    """Returns the functions that the bodies do not turn. A drop stays: whoever lets a value go needs its proof, and not
    its contract alone."""
    turned = {place for body in bodies for place in body.places}
    return {it for it in functions.keys() - turned if it.of_trait != "Drop"}


def without_proofs(functions, bodies):
    """Returns an empty file of proof for each function that is left out."""
    return {f"proofs/{functions[it].replace('::', '/')}/Proof.antt": "" for it in left_out(functions, bodies)}


def without_bodies(functions, bodies, folder):
    """Returns what takes out the body of each function that is left out: one that ends nowhere has any type."""
    left, emptied = left_out(functions, bodies), Body("")
    for at, _, names in os.walk(f"{folder}/src"):
        for path in [os.path.relpath(f"{at}/{name}", folder) for name in names]:
            text = read(f"{folder}/{path}")
            found = [*FUNCTION.finditer(text)]
            for it, end in zip(found, [*(it.start() for it in found[1:]), len(text)]):
                inside = it[1] or ""
                # (it begins in a line of its own where there are clauses, some of which end in a brace too)
                behind = rf"\{{\n(.*?\n){inside}\}}\n"
                begins = [re.compile(first + behind, re.M | re.S) for first in (f"^{inside}", " ")]
                body = begins[0].search(text, it.end(), end) or begins[1].search(text, it.end(), end)
                if body and place_of(text, it.end(), module_of(path)) in left:
                    emptied.changes.append((path, body.start(1), body.end(1), f"{inside}    loop {{}}\n"))
    return emptied
