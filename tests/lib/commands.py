"""Every command of the program with words that it can do, for the scripts that try each command in some way.

A new command gets its line in COMMANDS; the scripts have no lists of their own. The words name files of one folder, which
`scene` makes: an image of a shop with a file NOTES and a deleted file GONE, a script of requests and lines of records, and another
image with a file GAME."""

import shutil
import subprocess
from dataclasses import dataclass
from pathlib import Path

IMAGE, SCRIPT, RECORDS, OTHER = "shop.d64", "script.txt", "records.csv", "other.d64"
# what isn't there until a command makes it
NEW, COPY, FOLDER = "new.d64", "copy.d64", "files"
FILES = {IMAGE, SCRIPT, RECORDS, OTHER, NEW, COPY, FOLDER}
REQUEST = b"1,1,S,5,7\n"

# What a command does with the image. It only reads it:
LOOKS = "looks"
# It reads it, and makes a file or a folder that isn't there:
TAKES = "takes"
# It has the image alone, and may change it:
CHANGES = "changes"
# It makes an image, over IMAGE or in a file that isn't there:
MAKES = "makes"
# It has no image:
SCRIPTS = "scripts"


@dataclass(frozen=True)
class Command:
    """A command: what reports call it, its words, what it does with the image, and what it reads on standard input."""

    name: str
    words: tuple
    does: str
    given: bytes = b""

    def over(self, folder=None, image=IMAGE):
        """Its words over this image, with the files of this folder, or of the folder in which it is run."""
        names = [image if word == IMAGE else word for word in self.words]
        return [str(folder / name) if folder and name in FILES else name for name in names]

    def forget(self, folder):
        """Removes what it made."""
        for name in {NEW, COPY, FOLDER} & set(self.words):
            path = folder / name
            if path.is_dir():
                shutil.rmtree(path)
            path.unlink(missing_ok=True)


def command(does, words, name=None, given=b""):
    """A command of these words; its name is its first word and its flags, unless it has one."""
    words = tuple(words.split())
    flags = [word for word in words[1:] if word.startswith("--") and word not in WANTED]
    return Command(name or " ".join([words[0], *flags]), words, does, given)


# flags without which a command is refused: no report names them
WANTED = {"--tills", "--length", "--type", "--name", "--id"}

COMMANDS = [
    command(LOOKS, f"list {IMAGE}"),
    command(LOOKS, f"list {IMAGE} --text"),
    command(LOOKS, f"list {IMAGE} --json"),
    command(LOOKS, f"check {IMAGE}"),
    command(LOOKS, f"check {IMAGE} --all"),
    command(LOOKS, f"check {IMAGE} --json"),
    command(LOOKS, f"check {IMAGE} --csv"),
    command(LOOKS, f"plan {IMAGE}"),
    command(LOOKS, f"plan {IMAGE} --json"),
    command(LOOKS, f"plan {IMAGE} --csv"),
    command(LOOKS, f"map {IMAGE}"),
    command(LOOKS, f"picture {IMAGE}"),
    command(LOOKS, f"picture {IMAGE} --svg"),
    command(LOOKS, f"picture {IMAGE} --sheet"),
    command(LOOKS, f"picture {IMAGE} {IMAGE} --compare"),
    command(LOOKS, f"free {IMAGE}"),
    command(LOOKS, f"free {IMAGE} --json"),
    command(LOOKS, f"sector {IMAGE} 17/0"),
    command(LOOKS, f"show {IMAGE}"),
    command(LOOKS, f"show {IMAGE} --json"),
    command(LOOKS, f"records {IMAGE} STOCK"),
    command(LOOKS, f"records {IMAGE} STOCK --text"),
    command(LOOKS, f"records {IMAGE} STOCK --fields"),
    command(LOOKS, f"records {IMAGE} STOCK --at 1,9"),
    command(LOOKS, f"records {IMAGE} STOCK --unclosed"),
    command(LOOKS, f"bytes {IMAGE} STOCK"),
    command(LOOKS, f"bytes {IMAGE} STOCK --text"),
    command(LOOKS, f"bytes {IMAGE} STOCK --unclosed"),
    command(LOOKS, f"basic {IMAGE} STOCK"),
    command(LOOKS, f"basic {IMAGE} STOCK --unclosed"),
    command(LOOKS, f"trim {IMAGE}"),
    command(LOOKS, f"repair {IMAGE} --dry-run"),
    command(TAKES, f"extract {IMAGE} {FOLDER}"),
    command(TAKES, f"extract {IMAGE} {FOLDER} --deleted --scan"),
    command(TAKES, f"copy {IMAGE} {COPY}"),
    command(CHANGES, f"repair {IMAGE}"),
    command(CHANGES, f"repair {IMAGE} --free"),
    command(CHANGES, f"repair {IMAGE} --sides"),
    command(CHANGES, f"make {IMAGE} ADDRESS --length 40"),
    command(CHANGES, f"store {IMAGE} NOTES {RECORDS}"),
    command(CHANGES, f"store {IMAGE} NOTES /dev/stdin --fields", "store --fields", b"1,A,\\.\n"),
    command(CHANGES, f"store {IMAGE} NOTES {RECORDS} --at 1,9"),
    command(CHANGES, f"store {IMAGE} NOTES /dev/stdin", "store -", b"1,A\n"),
    command(CHANGES, f"put {IMAGE} LINES {RECORDS} --type seq"),
    command(CHANGES, f"copy-file {OTHER} GAME {IMAGE}"),
    command(CHANGES, f"play {IMAGE} {SCRIPT}"),
    command(CHANGES, f"play {IMAGE} {SCRIPT} --sync"),
    command(CHANGES, f"play {IMAGE} /dev/stdin", "play -", REQUEST),
    command(CHANGES, f"serve {IMAGE}", given=REQUEST),
    command(CHANGES, f"rename {IMAGE} NOTES CARDS"),
    command(CHANGES, f"title {IMAGE} --name LETTERS --id 84"),
    command(CHANGES, f"lock {IMAGE} NOTES"),
    command(CHANGES, f"unlock {IMAGE} NOTES"),
    command(CHANGES, f"delete {IMAGE} NOTES"),
    command(CHANGES, f"undelete {IMAGE} GONE --type usr"),
    command(CHANGES, f"sort {IMAGE}"),
    command(MAKES, f"format {IMAGE} --tills 2"),
    command(MAKES, f"format {NEW} --tills 2 --new"),
    command(MAKES, f"new {NEW} --name TOOLS --id 01"),
    command(SCRIPTS, f"dry {SCRIPT}"),
    command(SCRIPTS, "dry /dev/stdin", "dry -", REQUEST),
]

# these print why an image is refused, where others report it on standard error
PRINT_REFUSALS = ("list --json", "check --json", "check --csv", "plan", "plan --json", "plan --csv", "free --json", "show --json",
                  "picture --sheet")


def those_that(*does):
    """The commands that do this with an image."""
    return [each for each in COMMANDS if each.does in does]


def scene(program, folder, tills=2, script=REQUEST, records=b"1,A\n"):
    """Makes the folder's files anew, as above. What stood there is gone."""
    for path in Path(folder).iterdir():
        shutil.rmtree(path) if path.is_dir() else path.unlink()
    (folder / SCRIPT).write_bytes(script)
    (folder / RECORDS).write_bytes(records)
    put, delete = ["put", IMAGE, "GONE", RECORDS, "--type", "seq"], ["delete", IMAGE, "GONE"]
    other = ["new", OTHER, "--name", "OTHER", "--id", "02"], ["put", OTHER, "GAME", RECORDS, "--type", "prg"]
    for words in (["format", IMAGE, "--tills", str(tills)], ["make", IMAGE, "NOTES", "--length", "30"], put, delete, *other):
        subprocess.run([program, *words], cwd=folder, check=True, stdout=subprocess.DEVNULL)
