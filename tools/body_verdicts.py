"""What a check says of wrong bodies: which of them are refused for themselves, and which are tried again. For
wrong_bodies.py."""
import re

from body_edits import next_round

TAKEN_AWAY = re.compile(r"has no `|has no field|is not in scope|was not admitted")
NAMED = re.compile(r"(?:`([^`]+)`: )?")


def verdicts_of(said):
    """Returns what a check says of each function: '' where it is proved, 'own' and why where it is refused for itself,
    'answer', why and which where that is only since written answers don't fit (each a file, a name in it, and whether
    its goal is there), else 'callee' or 'taken' and why."""
    found = {}
    for path, what in re.findall(r"^(?:fn|impl|trait|struct) (\S+): (.*)$", said, re.M):
        place = re.escape("/".join(path.split("::")[1:]))
        # (the reason may stand in an error's second line)
        error = rf"^(?:\./)?proofs/{place}/(\S+?):\S* error: (?!.*rattle does not read)(.*(?:\n  .*)?)"
        errors = re.findall(error, said, re.M)
        told = [it for _, it in errors if not TAKEN_AWAY.search(it)]
        named = {(file, NAMED.match(it)[1] or ""): it for file, it in errors if file in ("Answers.antt", "Proof.antt")}
        unfit = {(file, name, f"has no `{name}`" not in it) for (file, name), it in named.items()}
        if what.startswith("proved"):
            found[path] = "", ""
        elif "`search` did not prove" in what or "expected a measure" in what:
            found[path] = "own", what
        elif any(it.partition(": ")[2].startswith("`search`: ") for it in told) or told and not unfit:
            found[path] = "own", told[0]
        elif unfit and all(file != "Invariants.antt" for file, _ in errors):
            found[path] = "answer", (told or [it for _, it in errors])[0], unfit
        elif "which is not proved" in what or "which are not proved" in what:
            found[path] = "callee", what
        else:
            found[path] = "taken", (errors or [("", what)])[0][1]
    return found


def part_told(said, read_of):
    """Returns what a check said, where a search that is a part of a written answer is told as such: as another answer
    might do without it."""

    def told(it):
        text = read_of(it[1]).split("\n")
        line, at = text[int(it[2]) - 1], int(it[3]) - 1
        before = line[:at].strip() or text[int(it[2]) - 2].rstrip()
        behind = "\n".join([line[at:], *text[int(it[2]) :]]).partition("\n\n")[0]
        is_whole = re.search(r"(=|\bin)$", before.rstrip()) and not re.search(r"\bin$", behind, re.M)
        return it[0] if is_whole else it[0].replace("`search`:", "a part's `search`:")

    searches = r"^(?:\./)?(proofs/\S+/Answers\.antt):(\d+):(\d+): error: `[^`]+`: `search`: "
    return re.sub(searches, told, said, flags=re.M)


def judge(body, verdicts, is_alone):
    """Returns whether the body is refused for itself (None: it has to be tried again), why, and which written answers
    don't fit it, where it is refused for these alone: for each folder of proofs their files and names."""
    own, unfit = [], {}
    for place in body.places:
        mine = {it: verdict for it, verdict in verdicts.items() if not place.name or place.is_of(it)}
        told = [it for it in mine.values() if it[0] == "own"] or [it for it in mine.values() if it[0] == "answer"]
        if told:
            own.append(told[0][1])
            # (a twin has the answers of its function)
            folders = {re.sub(r"__\d+$", "", "/".join(it.split("::")[1:])): verdict for it, verdict in mine.items()}
            unfit |= {it: verdict[2] for it, verdict in folders.items() if told[0][0] == verdict[0] == "answer"}
            continue
        if not mine:
            return False, "no line of the check names what it turns", {}
        if any(kind == "callee" for kind, *_ in mine.values()) and not is_alone:
            return None, "", {}
        whys = [f"it is refused only since {why}" for kind, why, *_ in mine.values() if kind]
        return False, (whys or ["NOT REFUSED: it is proved"])[0], {}
    return None if unfit else True, own[0], unfit


def tried(bodies, check):
    """Tries bodies by one check, and yields each with whether it is refused (None: it has to be tried again), why, and
    which written answers don't fit it."""
    said = check(bodies)
    if re.search(r"^(logic=(not-)?proved|only=\d+ proved=)", said, re.M):
        verdicts = verdicts_of(said)
        yield from ((body, *judge(body, verdicts, len(bodies) == 1)) for body in bodies)
    elif len(bodies) == 1:
        errors = re.findall(r"^.*error.*$", said, re.M) or said.strip().split("\n")
        yield bodies[0], False, f"it did not reach the prover: {errors[0]}", {}
    else:
        half = len(bodies) // 2
        yield from tried(bodies[:half], check)
        yield from tried(bodies[half:], check)


def try_all(bodies, check, check_beside_unproved, twins=list, without=None):
    """Tries bodies round by round, and yields each with whether it is refused, and why. Who is refused only since
    written answers don't fit it is tried again without these."""
    yield from ((it, False, it.fault) for it in bodies if it.fault)
    waiting = [it for it in bodies if it.stands_alone() and not it.fault]
    untried = [it for it in bodies if not it.stands_alone() and not it.fault]
    while untried:
        # (second tries share a round with what is left of the first ones)
        of_label, taken = {it.label: it for it in untried}, next_round(twins(untried))
        untried = [it for it in untried if it.label not in {of.label for of in taken}]
        for it, is_refused, why, unfit in tried(taken, check_beside_unproved):
            body = of_label[it.label]
            if is_refused:
                yield body, is_refused, why
            elif unfit:
                untried.append(without(body, unfit))
            else:
                waiting.append(body)
    while waiting:
        found = [*tried(next_round(waiting), check)]
        if all(is_refused is None and not unfit for _, is_refused, _, unfit in found):
            # (each waits for another of them, as where their functions call one another: one that is tried alone is
            # decided)
            found = [*tried(waiting[:1], check)]
        for body, is_refused, why, unfit in found:
            if unfit:
                waiting[waiting.index(body)] = without(body, unfit)
            elif is_refused is not None:
                waiting.remove(body)
                yield body, is_refused, why
