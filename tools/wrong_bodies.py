#!/usr/bin/env python3
"""Tries the wrong bodies crates/NAME/wrong-bodies/*.edit: the prover must refuse each of them for itself.

usage, at the top of the repository:
    tools/wrong_bodies.py                                every crate, side by side
    tools/wrong_bodies.py NAME [FILE.edit ..]            one crate, or these files of it
    tools/wrong_bodies.py --proved [NAME [FILE.edit ..]] the same, right after an rt ci that proved them all
    tools/wrong_bodies.py --beside FILE                  every crate, beside an rt ci that writes to that file
    tools/wrong_bodies.py --anew ..                      the same, with those that an earlier run refused
    tools/wrong_bodies.py --record                       after these: writes tools/refused_bodies.txt, and tries none

A FILE.edit is a path, or the name of a file in crates/NAME/wrong-bodies/ or crates/NAME/must-fail/.

A wrong body has the lines of a must-fail edit: `file: src/F.rt`, and pairs of `old: TEXT` and `new: TEXT`, where each
old text stands once in its file. The bodies of a crate go into rounds in which each function is turned at most once,
and one check of the turned functions tries a round; where several bodies turn one function, the others turn twins of
it, which stand beside it under names of their own, with its contract and its proof. A body passes where each function
that it turns is refused for goals of its own, and not only since it calls a function that is refused. Where it is
refused only since written answers don't fit (by their type, or since they name a step that is gone), it is tried again
with `search rules` in place of these: what is proved then fails, and what a search gives up on is refused, as where it
stands there from the first. `without NAMES:` reports such a try. An invariant that names a step that is gone fails the
body. A proof rests on the contracts of what its function calls and not on their bodies, so the functions that a round
does not turn are left without a body and a proof. A body that is not refused beside those is tried again with all other
functions as they stand and proved, where its goals wait for a function that another body turned in a later round, and
at last alone. A body outside a function with a path of its own (a constant, a trait's default) is tried alone, and
something in its module must be refused for itself.

All this happens on a copy of the repository, over the work that `rt check` kept in out/, where there is some. The crate
as it stands must be proved there first. With --proved that is taken from the caller, in a repository where nothing is
kept: the rounds then stand on the libraries that rt ci built. With --beside a crate's bodies are tried as soon as the
file says that the crates below it are proved and built, those of a large crate in parts; that the crate itself is, is
for rt ci to say. The file ends with a line that begins with `rt ci: ended`. RT_JOBS is how many checks run side by
side, as it is for rt ci; behind that line they are as many as the machine has processors, where it has the memory.

That a body was refused is kept where rt ci keeps what it passed, on this machine alone, under a sum of the kit, this
tool, the body, the functions that it turns, and its crate and those below it without the bodies and the proofs of their
functions, on which no other function's proof rests. So a later run tries what has changed. tools/refused_bodies.txt
records these sums for a machine on which nothing is kept: there one in ten of the bodies whose sum it has is tried
anyway, and each whose sum it has not.

The last line is `wrong-bodies: N passed, M failed`, after a line for each body that failed; where a name is unknown or
there is nothing to try, it says that. Both that and a body that failed end with 1.
"""
import importlib.machinery
import importlib.util
import os
import re
import shutil
import subprocess
import sys
import tempfile
import time
from concurrent.futures import FIRST_COMPLETED, ThreadPoolExecutor, wait
from dataclasses import dataclass

import body_edits
import body_keys
import body_places
import body_verdicts
from body_edits import read_body, texts_of, with_twins, without_answers, without_bodies, without_proofs
from body_keys import Reading, kit_of, proofs_of
from body_places import functions_of, read
from body_record import RECORD, is_sampled, recorded, write_record
from body_verdicts import part_told, try_all

SOURCES = ["src", "specs", "proofs"]
# (a part begins with the laws of its crate, which take a minute or two; one of this many bodies takes 5 GB at most)
MOST_OF_PART = 60
# (the files of this tool: what one of them changes, no earlier run has tried)
FILES = [__file__, *(it.__file__ for it in (body_edits, body_keys, body_places, body_verdicts))]


def load_rt():
    """Returns the program rt as a module, which knows how to check a crate with other texts in place of its own."""
    sys.dont_write_bytecode = True
    loader = importlib.machinery.SourceFileLoader("rt", shutil.which("rt"))
    made = importlib.util.module_from_spec(importlib.util.spec_from_loader("rt", loader))
    loader.exec_module(made)
    # (its first call sets a signal's handler, which only the main thread may)
    made.rtlib.guarded()
    return made


def call(words, folder):
    ran = subprocess.run(words, cwd=folder, capture_output=True, text=True, errors="replace", check=False)
    return ran.stdout + ran.stderr


def copy_of(top, to, parts):
    """Copies these parts of a repository's crates."""
    os.makedirs(f"{to}/.git", exist_ok=True)
    shutil.copyfile(f"{top}/crates.txt", f"{to}/crates.txt")
    for name in os.listdir(f"{top}/crates"):
        for part in parts:
            copy_part(top, to, name, part)


def copy_part(top, to, name, part, copy_file=shutil.copy2):
    if os.path.isdir(f"{top}/crates/{name}/{part}"):
        shutil.copytree(f"{top}/crates/{name}/{part}", f"{to}/crates/{name}/{part}", copy_function=copy_file)


def link_or_copy(file, to):
    """Links a file that nobody writes, which takes no room, or copies it where that is on another disk."""
    try:
        os.link(file, to)
    except OSError:
        shutil.copy2(file, to)


def has_kept(top):
    """Returns whether an `rt check` kept work, beside which what `rt ci` built is not there or does not fit."""
    names, works = os.listdir(f"{top}/crates"), ("incremental", "rlib/stamp")
    kept = [f"{top}/crates/{name}/out/{it}" for name in names for it in works]
    return any(os.path.exists(it) for it in kept)


def paths_of(bodies, proofs):
    """Returns the paths of what the bodies turn, or none where that may be anything in the crate."""
    paths = sorted({place.path(proofs) for body in bodies for place in body.places})
    return paths if all(paths) else []


def bodies_of(rt, kept, crate, files, of_others):
    """Reads wrong bodies of a crate, each with its name for what is kept: one made of all that a try of it reads. What
    is read of this crate and others is kept in the last value."""
    bodies = [read_body(it, crate.folder) for it in files]
    # (an older kit keeps nothing)
    if kept:
        kit, tools, reading = kit_of(rt.KIT), [read(it) for it in FILES], Reading(crate, of_others)
        for body, file in zip(bodies, files):
            body.kept_as = kept.of_edit(file, (kit, tools, reading.read_by(body)))
    return bodies


def all_bodies(rt, kept, every, given):
    """Reads the bodies that are given, by their crate."""
    of_others = {}
    return {it: bodies_of(rt, kept, it, given[it.name], of_others) for it in every if it.name in given}


def untried(kept, crate, bodies, record):
    """Reports the bodies that were refused in an earlier run here, or by the record, and returns the others, with some
    of those of the record."""
    left = []
    for body in bodies:
        name = f"{crate.name}/{body.label}"
        found, of_record = body.kept_as and kept.tried(body.kept_as), body.kept_as and record.get(name)
        if found:
            print(f"{name}: refused, in an earlier run: {found[1]}", flush=True)
        elif of_record and of_record == body.kept_as and not kept.anew and not is_sampled():
            print(f"{name}: refused, by {RECORD}", flush=True)
        else:
            if of_record and of_record != body.kept_as:
                print(f"{name}: tried, since {RECORD} has another sum", flush=True)
            left.append(body)
    return left


def all_untried(rt, kept, every, given, top):
    """Returns the bodies of each crate that have to be tried, and says how many that is."""
    record, bodies = recorded(top), all_bodies(rt, kept, every, given)
    left = {it: untried(kept, it, bodies[it], record) for it in bodies}
    count, of_all = sum(map(len, left.values())), sum(map(len, bodies.values()))
    print(f"wrong-bodies: {count} of {of_all} are tried, since the others were refused earlier", flush=True)
    return {it: found for it, found in left.items() if found}


def record_refused(rt, top):
    """Records all bodies that are refused by now, here or by the record as it stands, and returns 1 where some are
    not."""
    every, given, record = rt.rtlib.crates_below(top), given_by([], top), recorded(top)
    kept = rt.Kept(every)
    bodies = all_bodies(rt, kept, every, given)
    sums = {f"{crate.name}/{it.label}": it.kept_as for crate in bodies for it in bodies[crate]}
    refused = {name: sum for name, sum in sums.items() if kept.tried(sum) or record.get(name) == sum}
    write_record(top, refused)
    for name in sorted(sums.keys() - refused.keys()):
        print(f"{name}: not recorded, since no run here refused it")
    print(f"{RECORD}: {len(refused)} of {len(sums)} wrong bodies")
    return int(len(refused) < len(sums))


def try_crate(rt, kept, crate, bodies, is_proved):
    """Tries wrong bodies of a crate, which stands on a copy, keeps which are refused, and returns a line for each that
    is not."""
    plain = "logic=proved" if is_proved else call(["rt", "check", "--jobs", "1"], crate.folder)
    if not re.search(r"^logic=proved", plain, re.M):
        print(f"{crate.name}: the crate as it stands is not proved\n{plain[-2000:]}", flush=True)
        return [f"{crate.name}/{it.label}: the crate as it stands is not proved" for it in bodies]
    proofs, failed = proofs_of(crate), []
    functions = functions_of(crate.folder, proofs)

    def checked(texts, flags, work):
        absent = {f"{crate.folder}/{it}": read(f"{crate.folder}/{it}") for it, text in texts.items() if text is None}
        for it in absent:
            os.remove(it)
        said = rt.checked(crate, {it: text for it, text in texts.items() if text is not None}, flags, work).stdout
        for it, text in absent.items():
            with open(it, "w", encoding="utf-8") as out:
                out.write(text)
        return said

    def check(bodies, proofs_beside=None, others=()):
        files = {path: text for it in bodies for path, text in it.files.items()}
        texts = {**texts_of([*bodies, *others], crate.folder), **(proofs_beside or {}), **files}
        work, jobs = f"{crate.folder}/out/incremental", ["--jobs", "1"]
        only = [f"--only={it}" for it in paths_of(bodies, proofs)]
        for it in texts:
            os.makedirs(os.path.dirname(f"{crate.folder}/{it}"), exist_ok=True)
        said = checked(texts, [*jobs, *only], work)
        # (an impl's name may need arguments that only a whole check tells)
        is_unnamed = re.search(r"has no function|several functions are named", said)
        is_unnamed = is_unnamed and not re.search(r"^only=", said, re.M)
        said = checked(texts, jobs, work) if is_unnamed else said
        return part_told(said, lambda it: texts[it] if it in texts else read(f"{crate.folder}/{it}"))

    def check_beside_unproved(bodies):
        others = without_bodies(functions, bodies, crate.folder)
        return check(bodies, without_proofs(functions, bodies), [others])

    def twins(bodies):
        return with_twins(bodies, crate.folder, functions)

    def without(body, unfit):
        return without_answers(body, unfit, crate.folder)

    for body, is_refused, why in try_all(bodies, check, check_beside_unproved, twins, without):
        why = (f"without {', '.join(body.gone)}: " if body.gone else "") + " ".join(why.split())[:160]
        print(f"{crate.name}/{body.label}: {'refused' if is_refused else 'FAILED'}: {why}", flush=True)
        if not is_refused:
            failed.append(f"{crate.name}/{body.label}: FAILED: {why}")
        elif body.kept_as:
            kept.keep_tried(body.kept_as, rt.REFUSED, why)
    shutil.rmtree(f"{crate.folder}/out/incremental", ignore_errors=True)
    return failed


def files_of(top, name):
    where = f"{top}/crates/{name}/wrong-bodies"
    return sorted(f"{where}/{it}" for it in os.listdir(where) if it.endswith(".edit")) if os.path.isdir(where) else []


def file_of(top, name, word):
    """Returns the file that a word names, as it stands or among a crate's bodies, or ends where there is none."""
    for it in (word, f"{top}/crates/{name}/wrong-bodies/{word}", f"{top}/crates/{name}/must-fail/{word}"):
        if os.path.isfile(it):
            return os.path.abspath(it)
    sys.exit(f"wrong_bodies.py: there is no file {word!r}, and none of that name among the wrong bodies of {name}")


def given_by(words, top):
    """Returns the files to try of each crate that the words name, or ends where that is unknown or nothing."""
    listed = re.findall(r"^(\w+)\b.*:", read(f"{top}/crates.txt"), re.M)
    if words and words[0] not in listed:
        sys.exit(f"wrong_bodies.py: crates.txt names no crate {words[0]!r}")
    given = {name: [file_of(top, name, it) for it in words[1:]] or files_of(top, name) for name in words[:1] or listed}
    if not any(given.values()):
        where = f"crates/{words[0] if words else '*'}/wrong-bodies/"
        sys.exit(f"wrong_bodies.py: nothing to try, since no file ends in .edit in {where}")
    return {name: files for name, files in given.items() if files}


def told_by(file):
    """Returns the crates that an rt ci has proved by now and built, by what it wrote to a file, and whether it has
    ended."""
    said = read(file) if os.path.isfile(file) else ""
    proved = set(re.findall(r"^rt: (\w+) (?:proved$|is kept:)", said, re.M))
    return proved, bool(re.search(r"^rt ci: ended", said, re.M))


def in_turn(left, lanes, can_begin, is_over, call):
    """Calls a function for each crate, or part of one, once that can begin, the first of these first, as many side by
    side as there are lanes then, and returns the lines that all return. A crate that cannot begin when all is over has
    one line."""
    lines, running = [], set()
    with ThreadPoolExecutor(len(left) or 1) as pool:
        while left or running:
            over = is_over()
            ready = [it for it in left if can_begin(it)]
            for it in ready[: max(0, lanes() - len(running))]:
                left = [other for other in left if other is not it]
                running.add(pool.submit(call, it))
            if not ready and not running and over:
                return lines + [f"{it.name}: no body was tried: a crate below it is not proved" for it in left]
            done, running = wait(running, timeout=2, return_when=FIRST_COMPLETED) if running else (set(), running)
            if not done and not running:
                time.sleep(2)
            lines += [line for it in done for line in it.result()]
    return lines


@dataclass(eq=False)
class Part:
    """A part of a crate's wrong bodies, which is tried on a copy of its own, beside the others."""

    name: str
    bodies: list
    base: str
    crate: object


def parts_of(rt, top, base, left):
    """Returns the parts of what is left of all crates, those of the crate with the most bodies first, each on a copy of
    the sources."""
    parts = []
    for crate, bodies in sorted(left.items(), key=lambda it: -len(it[1])):
        count = -(-len(bodies) // MOST_OF_PART)
        for number in range(count):
            at = f"{base}/{crate.name}_{number}"
            copy_of(top, at, SOURCES)
            copied = next(it for it in rt.rtlib.crates_below(at) if it.name == crate.name)
            parts.append(Part(crate.name, bodies[number::count], at, copied))
    return parts


def try_beside(rt, top, base, given, lanes, told, is_anew):
    """Tries the bodies beside an rt ci, and returns a line for each that is not refused: in these lanes, and once it
    has ended in as many as a machine has processors."""
    copy_of(top, f"{base}/all", SOURCES)
    every = rt.rtlib.crates_below(f"{base}/all")
    kept = rt.Kept(every, is_anew) if hasattr(rt, "Kept") else None
    parts = parts_of(rt, top, base, all_untried(rt, kept, every, given, top))

    def can_begin(part):
        return {it.name for it in part.crate.below()} <= told_by(told)[0]

    def try_part(part):
        for below in part.crate.below():
            copy_part(top, part.base, below.name, "out/rlib", link_or_copy)
        failed = try_crate(rt, kept, part.crate, part.bodies, True)
        shutil.rmtree(part.base, ignore_errors=True)
        return failed

    is_over = lambda: told_by(told)[1]
    return in_turn(parts, lambda: max(lanes, rooms()) if is_over() else lanes, can_begin, is_over, try_part)


def rooms():
    """Returns how many checks may run side by side on this machine: as many as it has processors, where each has 5 GB
    of memory."""
    room = int(re.search(r"^MemTotal:\s*(\d+)", read("/proc/meminfo"), re.M)[1]) // 5_000_000
    return max(1, min(4, os.cpu_count() or 1, room))


def try_proved(rt, top, base, given, lanes, is_proved, is_whole, is_anew):
    """Tries the bodies of crates that are proved, or once they are, and returns a line for each that is not refused."""
    copy_of(top, base, [*SOURCES, "out/incremental", "out/rlib"])
    every = rt.rtlib.crates_below(base)
    kept = rt.Kept(every, is_anew) if hasattr(rt, "Kept") else None
    left = all_untried(rt, kept, every, given, top)
    if left and is_whole and not is_proved:
        # (the crates are proved side by side, and the libraries below the others are built)
        call(["rt", "all", "check", "--jobs", str(lanes)], base)
    # (the crate with the most bodies goes first)
    crates = sorted(left, key=lambda it: -len(left[it]))
    try_all_of = lambda it: try_crate(rt, kept, it, left[it], is_proved)
    return in_turn(crates, lambda: lanes, lambda it: True, lambda: True, try_all_of)


def main(words):
    top, lanes = os.getcwd(), int(os.environ.get("RT_JOBS") or os.cpu_count() or 1)
    if not os.path.isfile(f"{top}/crates.txt"):
        sys.exit("wrong_bodies.py runs at the top of the repository, where crates.txt stands")
    if words == ["--record"]:
        return record_refused(load_rt(), top)
    is_proved, is_anew = "--proved" in words and not has_kept(top), "--anew" in words
    told = words[1] if words[:1] == ["--beside"] and len(words) == 2 else ""
    words = [] if told else [it for it in words if it not in ("--proved", "--anew")]
    given = given_by(words, top)
    rt, count = load_rt(), sum(map(len, given.values()))
    with tempfile.TemporaryDirectory(prefix="wrong-bodies-") as base:
        if told:
            failed = try_beside(rt, top, base, given, lanes, told, is_anew)
        else:
            failed = try_proved(rt, top, base, given, lanes, is_proved, not words, is_anew)
    # (once more at the end, where a log that was cut still shows them)
    for line in failed:
        print(line)
    print(f"wrong-bodies: {count - len(failed)} passed, {len(failed)} failed")
    return 1 if failed else 0


if __name__ == "__main__":
    sys.exit(main(sys.argv[1:]))
