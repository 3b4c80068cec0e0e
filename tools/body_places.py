"""Where a text of a crate stands: its function with the type and trait of its impl, as a check names it. For
wrong_bodies.py."""
import os
import re
from dataclasses import dataclass, replace

FUNCTION = re.compile(r"^( {4})?(?:pub(?:\([^)]*\))? )?(?:const |unsafe )*fn (\w+)", re.M)
TYPE = re.compile(r"^(?:pub(?:\([^)]*\))? )?(?:struct|enum) (\w+)", re.M)


@dataclass(frozen=True)
class Place:
    """Where a text stands: in a function of a module, perhaps inside an impl; or, with no name, in no function of the
    module."""

    module: str = ""
    of_type: str = ""
    of_trait: str = ""
    argument: str = ""
    name: str = ""

    def is_of(self, path):
        """Returns whether a check's `fn` line with this path speaks of the function."""
        *above, name = path.split("::")[1:]
        if not self.name or name != self.name:
            return False
        if not self.of_type:
            return "::".join(above) == self.module
        # (an impl of a trait stands under both names; their arguments follow where they are needed to tell impls apart)
        of_type = "Ref(?!Mut)" if self.of_type == "Ref" else self.of_type
        pattern = rf"{of_type}\w*{self.of_trait}({self.argument})?" if self.of_trait else of_type
        return bool(above and re.fullmatch(pattern, above[-1]))

    def path(self, proofs):
        """Returns its path below the crate, or the end of it, as a check takes it; an impl's name is one of these
        functions', or guessed."""
        if not self.name:
            return self.module
        alike = [it for it in proofs if replace(self, name=it.rpartition("::")[2]).is_of(it)]
        above = [it.partition("::")[2].rpartition("::") for it in alike]
        guess = self.of_type + self.of_trait + self.argument if self.of_type else self.module
        return "::".join(it for it in (above[0][0] if above else guess, self.name) if it)


def read(file):
    with open(file, encoding="utf-8") as it:
        return it.read()


def files_below(folder):
    """Returns the paths of all files in a folder, in an order that no disk decides."""
    return sorted(f"{at}/{it}" for at, _, names in os.walk(folder) for it in names)


def module_of(path):
    """Returns the path of the module in the file src/F.rt."""
    words = path[len("src/") : -len(".rt")].split("/")
    return "::".join(words[:-1] if words[-1] in ("lib", "main", "mod") else words)


def words_of(text, own):
    """Returns the words of a type as the check joins them, without lifetimes and an impl's own parameters."""
    for sign, word in ((r"'\w+", ""), (r"&\s*mut\b", " RefMut "), ("&", " Ref "), (r"\[", " Slice ")):
        text = re.sub(sign, word, text)
    return "".join(it[0].upper() + it[1:] for it in re.findall(r"\w+", text) if it not in own)


def head_of(line):
    """Returns the type, the trait and the trait's argument, if any, of an impl's first line, as the check names
    them."""
    # (an arrow's `>` closes nothing)
    text, generics = line[len("impl") :].replace("->", ""), ""
    if text.startswith("<"):
        depth = at = 0
        while at == 0 or depth:
            depth += {"<": 1, ">": -1}.get(text[at], 0)
            at += 1
        text, generics = text[at:], text[:at]
    # (a check leaves the impl's own parameters out of its name)
    own = re.findall(r"[<,]\s*(\w+)", generics)
    *of_trait, of_type = re.split(r"\bfor\b", re.split(r"\bwhere\b|\{", text)[0])
    last = lambda path: path.partition("<")[0].split("::")[-1].strip("& \n")
    lent = re.match(r"\s*&\s*(?:'\w+\s*)?(mut\b)?", of_type)
    name, within = last(of_type), of_type.partition("<")[2]
    if lent:
        name, within = "RefMut" if lent[1] else "Ref", of_type[lent.end() :]
    of_trait = "".join(of_trait)
    return name + (of_trait and words_of(within, own)), last(of_trait), words_of(of_trait.partition("<")[2], own)


def place_of(text, at, module):
    """Returns the place of a character in a file that stands in rt fmt's layout."""
    of_type = of_trait = argument = name = inside = ""
    for line in re.finditer(r"^.*$", text[: text.find("\n", at)], re.M):
        function = FUNCTION.match(line[0])
        if line[0].startswith("}"):
            of_type = of_trait = argument = name = ""
        elif line[0].startswith("impl"):
            of_type, of_trait, argument = head_of(text[line.start() : text.find("{", line.start())])
        elif re.match(r"(pub(\([^)]*\))? )?trait ", line[0]):
            of_type = None
        elif function:
            inside, name = function[1] or "", function[2]
        elif line[0] == inside + "}":
            name = ""
    return Place(module, of_type, of_trait, argument, name) if name and of_type is not None else Place(module)


def functions_of(folder, proofs):
    """Returns the functions that the files of a crate write out: the place of each, and its path below the crate, which
    of an impl may be guessed."""
    places, modules = set(), {}
    for file in files_below(f"{folder}/src"):
        text, module = read(file), module_of(os.path.relpath(file, folder))
        places |= {place_of(text, it.end(), module) for it in FUNCTION.finditer(text)}
        modules |= {it[1]: module for it in TYPE.finditer(text)}
    paths = {it: it.path(proofs) for it in places if it.name}
    for it in paths:
        # (an impl of a trait stands where it is written, and any other where its type does)
        if it.of_type and paths[it].count("::") == 1:
            module = it.module if it.of_trait else modules.get(it.of_type, it.module)
            paths[it] = f"{module}::{paths[it]}".removeprefix("::")
    return paths


def extent_of(text, at):
    """Returns where the function around a character begins, with its attributes, and where it ends."""
    *_, function = [it for it in FUNCTION.finditer(text) if it.start() <= at]
    start, inside = function.start(), function[1] or ""
    while text[:start].endswith("]\n"):
        above = text.rfind("\n", 0, start - 1) + 1
        if not text.startswith(f"{inside}#[", above):
            break
        start = above
    return start, text.index(f"\n{inside}}}\n", at) + len(inside) + 2
