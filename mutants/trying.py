"""Tries mutants that a clause is to refuse, on a copy of the crates.

A check that fails shows only that this proof doesn't prove this body. Answers name the steps of the right body, so that a mutant may
fail though the contract lets it through. So each is checked with its answers, and again with those set aside that don't fit, and
its verdict has the word that this bears out, where it was refused, and what was said:

    refused            a clause, or what a call requires, is false: the checker found values, or the record's own line
                       `false: CLAUSE: VALUES` tells them, and the check leaves that clause, or an invariant before it, open
    not found          a clause is open, and the checker neither proves it nor has values at which it is false
    by a name          the same, but answers name what the mutant took away
    by a stale answer  the same, but answers don't fit the reworded body
    form not covered   the borrow checker or another part has no rules for the form
    PROVED!            the contracts let it through, with its answers or without
    no longer applies  the old text doesn't stand in its file once, or the new one can't be read

The crates below are taken as `rt ci` built them here, or as sources; each check takes RT_JOBS processors, one where that isn't set. A
crate that `rt ci` built here isn't checked without the mutants first. If a check is killed, the program stops.

A function is proved by the contracts of those that it calls, not by their bodies. So one check judges many mutants, each in a
copy of its function beside the others (copies.py), or, where it has no copy, in its place, one in each function. What isn't refused
so is checked by itself. For a mutant of a constant the functions that use it are checked, for one of a definition the whole crate."""

import os
import re
import shutil
import subprocess
import sys
import tempfile
from importlib.machinery import SourceFileLoader
from pathlib import Path

from copies import copy_of
from places import edited, in_rounds, is_of_functions, name_of, places
from records import TOP
from said import Told, clause_of, is_unread, refusal, verdict, without

sys.path.insert(0, str(TOP / "tools"))
ONLY = SourceFileLoader("only", str(TOP / "tools" / "only")).load_module()
# how often answers are set aside at most: those that don't fit, then those that cited them
TIMES = 6
# where an error of the front end is
ERROR = re.compile(r"(?:error: )?(?:\./|\.\./\w+/)?(src/\S+?):(\d+):\d+: error")


def stop(why):
    sys.exit(f"mutants: {why}")


def checked(crate, texts, names):
    """What a check of these functions of the crate says, of all where there is none, with these texts in place of its files or beside
    them; and its status."""
    kept = {file: (crate / file).read_text(encoding="utf-8") for file in texts if (crate / file).exists()}
    words = ["--jobs", os.environ.get("RT_JOBS", "1"), *(it for name in names for it in ("--only", name))]
    try:
        for file, text in texts.items():
            (crate / file).parent.mkdir(parents=True, exist_ok=True)
            (crate / file).write_text(text, encoding="utf-8")
        ran = subprocess.run(ONLY.command(crate.name, words, crate.parent), cwd=crate, stdin=subprocess.DEVNULL,
                             stdout=subprocess.PIPE, stderr=subprocess.STDOUT, text=True, errors="replace")
    finally:
        for file in texts:
            if file in kept:
                (crate / file).write_text(kept[file], encoding="utf-8")
            else:
                (crate / file).unlink()
    if ran.returncode < 0:
        stop(f"a check of {crate.name} was killed by signal {-ran.returncode}")
    return ran.stdout.split("\n"), ran.returncode


def names_of(found):
    """The functions at these places; none where one of the mutants is of something else."""
    return [] if None in found else sorted({name_of(place) for some in found for place in some})


def set_aside(crate, edits, removed):
    """The texts of these edits, and of the proof files without the answers that were set aside for them."""
    texts = edited(crate, edits)
    for file in {file for edit in edits for file, _ in removed[edit.name]}:
        names = {name for edit in edits for at, name in removed[edit.name] if at == file}
        texts[file] = without(texts.get(file) or (crate / file).read_text(encoding="utf-8"), names)
    return texts


def tried(crate, edits, found):
    """What is told of each of these mutants: with the answers as they are, with those set aside that don't fit; what the first check
    said, and the last status. `found` has the functions of each. A mutant that is refused already isn't checked again."""
    first, status = checked(crate, edited(crate, edits), names_of(found))
    kept = [Told(first, place) for place in found]
    aside = list(kept)
    removed = {edit.name: set() for edit in edits}
    for _ in range(TIMES):
        left = [n for n in range(len(edits)) if aside[n].answers and not refusal(edits[n], kept[n], aside[n])]
        if not left:
            break
        for n in left:
            removed[edits[n].name] |= {(file, name) for file, name, _ in aside[n].answers}
        said, status = checked(crate, set_aside(crate, [edits[n] for n in left], removed), names_of([found[n] for n in left]))
        for n in left:
            aside[n] = Told(said, found[n])
    return kept, aside, first, status


def with_copies(crate, copies, removed):
    """The texts of a crate's files with these copies, without the answers that were set aside for them; each copy notes its place."""
    texts = {}
    for copy in copies:
        copy.add_to(texts, crate)
    for file, name in removed:
        texts[file] = without(texts[file], {name for at, name in removed if at == file})
    return texts


def readable(crate, copies):
    """What a first check of these copies says, and those of them that were read: one that can't be is left out."""
    while copies:
        said, _ = checked(crate, with_copies(crate, copies, set()), sorted(name_of(it.place) for it in copies))
        if not is_unread(said):
            return said, copies
        errors = [ERROR.match(line) for line in said]
        bad = {it.name for it in copies for at in errors if at and at[1] == it.file and it.place[2] <= int(at[2]) <= it.place[3]}
        copies = [it for it in copies if bad and it.name not in bad]
    return [], []


def by_copies(crate, edits):
    """The verdicts on those of these edits that copies of their functions judge: as they are, or with the answers set aside that don't
    fit. Those that are refused come first, after each check."""
    said, copies = readable(crate, [it for it in (copy_of(crate, edit) for edit in edits) if it])
    told = {it: (Told(said, [it.place]),) * 2 for it in copies}
    removed, left = set(), copies
    for turn in range(TIMES + 1):
        refused = [it for it in left if refusal(it.edit, *told[it])]
        yield from ((it.edit, *verdict(it.edit, *told[it])) for it in refused)
        left = [it for it in left if it not in refused]
        misfits = [it for it in left if told[it][1].answers]
        if not misfits or turn == TIMES:
            break
        removed |= {(file, name) for it in misfits for file, name, _ in told[it][1].answers}
        said, _ = checked(crate, with_copies(crate, copies, removed), sorted(name_of(it.place) for it in misfits))
        told |= {it: (told[it][0], Told(said, [it.place])) for it in misfits}
    yield from ((it.edit, *verdict(it.edit, *told[it])) for it in left if told[it][1].goals and not told[it][1].waits)


def by_rounds(crate, edits):
    """The verdicts on those of these edits that are judged in their places, where one check judges one edit of each function."""
    for together in in_rounds(crate, edits):
        kept, aside, _, _ = tried(crate, [edit for edit, _ in together], [found for _, found in together])
        yield from ((edit, *verdict(edit, before, after)) for (edit, _), before, after in zip(together, kept, aside)
                    if refusal(edit, before, after) or after.goals and not after.waits and is_of_functions(edit, crate))


def alone(crate, edit):
    """What becomes of an edit that is checked by itself. Where it edits more than functions, the whole crate is checked."""
    kept, aside, first, status = tried(crate, [edit], [places(edit, crate) if is_of_functions(edit, crate) else None])
    unread = is_unread(first)
    if unread:
        return unread
    if status == 0:
        how = "with other answers" if kept[0].answers else "as it is"
        return "PROVED!           ", how
    return verdict(edit, kept[0], aside[0])


def verdicts(crate, edits):
    """Each of a crate's edits with the word for it and the reason."""
    left = [it for it in edits if it.fits(crate)]
    yield from ((it, "no longer applies ", "its old text doesn't stand in the file once") for it in edits if it not in left)
    for way in (by_copies, by_rounds):
        done = set()
        for edit, word, why in way(crate, left):
            done.add(edit)
            yield edit, word, why
        left = [it for it in left if it not in done]
    yield from ((edit, *alone(crate, edit)) for edit in left)


def copy_to(room, name):
    """Copies a crate and those that it stands on, with what `rt ci` built of them. Whether it built the crate too."""
    needed, _ = ONLY.stands_on(name)
    room.mkdir()
    for crate in needed:
        shutil.copytree(TOP / "crates" / crate, room / crate, ignore=shutil.ignore_patterns("incremental", "only"), symlinks=True)
    return name in ONLY.built(needed, room)


def where_of(record, crate, why):
    """Where a mutant was refused: its function, if it is of one, and the clause."""
    found = places(record, crate) or [] if record.fits(crate) else []
    return ": ".join(it for it in (name_of(found[0]) if len(found) == 1 else "", clause_of(why)) if it)


def verdicts_of(name, records):
    """Each of these mutants of a crate with its word, where it was refused, and why."""
    with tempfile.TemporaryDirectory() as room:
        crate = Path(room) / "crates" / name
        is_built = copy_to(crate.parent, name)
        if not is_built:
            said, status = checked(crate, {}, names_of([places(it, crate) for it in records if it.fits(crate)]))
            if status:
                stop(f"{name} isn't proved as it stands: {said[-2:]}")
        for record, word, why in verdicts(crate, records):
            yield record, word.strip(), where_of(record, crate, why), why
