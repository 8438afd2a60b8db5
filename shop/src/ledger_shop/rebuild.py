"""Makes a shop's image anew from a backup and the shop's journal, and compares it with the image that there is.

    ledger-shop rebuild NEW JOURNAL --from BACKUP [--image IMAGE] [--program PROGRAM]
    ledger-shop rebuild NEW JOURNAL --tills TILLS [--image IMAGE] [--program PROGRAM]

It reads JOURNAL and the older files of it, which have a time behind the name. With --from it begins with a copy of
BACKUP, with its log if there is one. BACKUP may be older or newer than the first line: a request that it has already
changes nothing. With --tills it begins with a fresh image. NEW is made only when all requests were played, each with the
reply that the journal has; a file of that name is never overwritten. With --image, what `show` prints of both has to be
equal: top, cards, and each till's last two requests with their answers. IMAGE may be served, but if tills ask meanwhile it
is ahead of what was read of JOURNAL: stop the bridge, or name a copy. Prints one line. Status 1: a reply differs, lines are missing, or the images differ."""

from __future__ import annotations

from collections.abc import Iterable
import argparse
import os
import sys
import tempfile
from pathlib import Path

from ledger_shop.account import StrPath
from ledger_shop import PROGRAM, journal, wishes
from ledger_shop.account import Unfit
from ledger_shop.copies import Stopped, run


def play(program: str, image: StrPath, lines: Iterable[str]) -> list[str]:
    """The replies to these requests."""
    with tempfile.NamedTemporaryFile("w", encoding="ascii") as script:
        script.writelines(line + "\n" for line in lines)
        script.flush()
        return run(program, "play", image, script.name).splitlines()


def judge(answers: Iterable[journal.Answer], replies: Iterable[str]) -> None:
    """Each reply is the journal's, if that has it. A request that the backup had, and two later ones of its till, is STALE
    now."""
    for one, reply in zip(answers, replies):
        if reply.endswith(",AHEAD"):
            raise Stopped(f"lines are missing before {one.request}: a file of the journal, or an older backup's")
        if one.reply not in (None, reply) and not reply.endswith(",STALE"):
            raise Stopped(f"{one.request} gets {reply}, and the journal has {one.reply}: the backup is of another shop")


def begin(program: str, image: StrPath, backup: StrPath | None, tills: int | None) -> None:
    """Makes the image as it is before the journal: a copy of the backup, or a fresh one."""
    if backup:
        run(program, "copy", backup, image)
    else:
        run(program, "format", "--new", image, "--tills", tills)


def finish(image: StrPath, new: StrPath) -> None:
    """Gives the image its name, which nothing has yet."""
    with open(image, "rb") as file:
        os.fsync(file.fileno())
    try:
        os.link(image, new)
    except FileExistsError:
        raise Stopped(f"{new} is there already: name a new file")
    wishes.sync_folder(new)


def words() -> argparse.Namespace:
    parser = argparse.ArgumentParser(description=__doc__.splitlines()[0])
    parser.add_argument("new")
    parser.add_argument("journal")
    start = parser.add_mutually_exclusive_group(required=True)
    start.add_argument("--from", dest="backup", metavar="BACKUP", help="a backup of the image")
    start.add_argument("--tills", type=int, help="begin with a fresh image for so many tills")
    parser.add_argument("--image", help="the image to compare with")
    parser.add_argument("--program", default=PROGRAM)
    return parser.parse_args()


def make(
    program: str,
    new: StrPath,
    kept: StrPath,
    backup: StrPath | None = None,
    tills: int | None = None,
    other: StrPath | None = None,
) -> str:
    """Makes the image `new` of the journal `kept`, and compares it with another one; what is to be said of it."""
    if os.path.lexists(new):
        raise Stopped(f"{new} is there already: name a new file")
    with tempfile.TemporaryDirectory(dir=os.path.dirname(os.path.abspath(new))) as folder:
        image = os.path.join(folder, "new.d64")
        entries = journal.Entries()
        for path in journal.files_of(kept):
            entries.read(Path(path).read_bytes(), path)
        begin(program, image, backup, tills)
        judge(entries.answers, play(program, image, [one.request for one in entries.answers]))

        def is_same() -> bool:
            return other is None or run(program, "show", image) == run(program, "show", other)

        for request in entries.open if other else []:
            # what the journal's end was to have next may have been done
            if not is_same():
                play(program, image, [request])
        same, verdict = is_same(), run(program, "check", image).strip()
        finish(image, new)
    if not same:
        raise Stopped(f"{new} of {len(entries.answers)} requests isn't the shop of {other}")
    compared = f", the same shop as {other}" if other else ""
    return f"{new}: {len(entries.answers)} requests played{compared}, {verdict}"


def main() -> None:
    given = words()
    try:
        print(make(given.program, given.new, given.journal, given.backup, given.tills, given.image))
    except (Stopped, OSError, Unfit) as fault:
        sys.exit(f"rebuild: {fault}")


if __name__ == "__main__":
    main()
