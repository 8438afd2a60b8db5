#!/usr/bin/env python3
"""Sees that the release under releases/ is what it says:

    tests/package/release.py

Each file there is in SHA256SUMS and has that sum, and VERDICTS, if it is there, is of the program that BUILT_FROM names. Where BUILT_FROM
names the files here, the released program passes the session of the README. Where it names this kit too, the program that `rt ci` just built has the same bytes, and so has the one in the package for
Debian. Without a release of these files nothing is compared. The last line says what was done; the status is 1 at a difference."""

import hashlib
import io
import re
import shutil
import subprocess
import sys
import tarfile
import tempfile
from pathlib import Path

TOP = Path(__file__).resolve().parents[2]
RELEASE = TOP / "releases"
BUILT = TOP / "crates/ledger/out/ledger"
# what the folder has beside a release
OTHERS = ("README.md", "SHA256SUMS", "out")


class Different(Exception):
    """What isn't as it should be."""


def want(is_so, what):
    if not is_so:
        raise Different(what)


def sum_of(data):
    return hashlib.sha256(data).hexdigest()


def printed(*words):
    return subprocess.run(words, cwd=TOP, check=True, capture_output=True, text=True).stdout.strip()


def compare_sums():
    """Each file has the sum that SHA256SUMS names, and none is without; gives how many there are."""
    file = RELEASE / "SHA256SUMS"
    sums = {name: it for it, name in (line.split("  ", 1) for line in file.read_text().splitlines())} if file.exists() else {}
    there = {it.name for it in RELEASE.iterdir() if it.name not in OTHERS} if RELEASE.exists() else set()
    want(there == set(sums), f"SHA256SUMS doesn't name just what is there: {sorted(there ^ set(sums))}")
    for name, wanted in sums.items():
        want(sum_of((RELEASE / name).read_bytes()) == wanted, f"{name} hasn't the sum that SHA256SUMS names")
    return len(sums)


def compare_verdicts(built_from):
    """What the gate passed is said of this program, and nothing failed."""
    file = RELEASE / "VERDICTS"
    if not file.exists():
        return
    said = dict(line.split(": ", 1) for line in file.read_text().splitlines())
    for word in ("tree", "program"):
        want(said.get(word) == built_from[word], f"VERDICTS is of another {word} than BUILT_FROM")
    want(said.get("all, with the release", "").endswith(" passed, 0 failed"), "VERDICTS says that something failed")


def in_tarball(file, path):
    with tarfile.open(fileobj=io.BytesIO(file)) as tarball:
        return tarball.extractfile(path).read()


def compare_program(program, built_from):
    """The released program, the one in Debian's package, and the one that the gate built are the same."""
    want(sum_of(program) == built_from["program"], "the tarball's program isn't the one that BUILT_FROM names")
    for package in RELEASE.glob("*.deb"):
        files = subprocess.run(["dpkg-deb", "--fsys-tarfile", package], check=True, capture_output=True).stdout
        want(in_tarball(files, "./usr/bin/ledger-1541") == program, f"the program of {package.name} is another one")
    if not shutil.which("rt") or printed("rt", "version") != built_from["kit"]:
        return f"the kit here isn't {built_from['kit']}, so nothing was compared with a build"
    want(BUILT.exists(), f"{BUILT.relative_to(TOP)} isn't there: `rt ci` builds it")
    want(BUILT.read_bytes() == program, "`rt ci` built another program from the same files")
    return "its program is the one that was just built"


def play_session(program):
    """The README's session, with the output that it shows."""
    readme = (TOP / "README.md").read_text()
    first = re.search(r"(?ms)^## A first session\n.*?^```sh\n(.*?)^```$", readme)[1]
    session = [line.split("#")[0].split()[1:] for line in first.splitlines()]
    shows = re.search(r"(?ms)^TOP .*?(?=^```$)", readme)[0]
    wanted = {"format": "FORMATTED\n", "show": shows, "check": "OK\n", "play": (TOP / "examples/day_with_power_cuts.replies").read_text()}
    want({"format", "play", "show", "check"} <= {words[0] for words in session}, "the README has no session")
    with tempfile.TemporaryDirectory() as room:
        (Path(room) / "examples").symlink_to(TOP / "examples")
        (Path(room) / "ledger").write_bytes(program)
        (Path(room) / "ledger").chmod(0o755)
        for words in session:
            ran = subprocess.run(["./ledger", *words], cwd=room, capture_output=True, text=True, timeout=60)
            want((ran.returncode, ran.stderr) == (0, ""), f"{' '.join(words)} ends with {ran.returncode}: {ran.stderr}")
            want(ran.stdout == wanted[words[0]], f"{' '.join(words)} prints otherwise than the README shows: {ran.stdout}")


def main():
    if not compare_sums():
        return "there is none here"
    built_from = dict(line.split(": ", 1) for line in (RELEASE / "BUILT_FROM").read_text().splitlines())
    compare_verdicts(built_from)
    name = f"{built_from['version']} has its sums"
    if printed("tools/tree_sum") != built_from["tree"]:
        return f"{name}; it isn't of the files here, so nothing was compared"
    program = in_tarball((RELEASE / built_from["tarball"]).read_bytes(), built_from["path"])
    compared = compare_program(program, built_from)
    play_session(program)
    return f"{name}; {compared}; it passes the README's session"


if __name__ == "__main__":
    try:
        print(f"release: {main()}")
    except (Different, OSError, KeyError, ValueError, tarfile.TarError, subprocess.SubprocessError) as it:
        sys.exit(f"release: FAILED: {it}")
