#!/usr/bin/env python3
"""Tries `./ledger`, `./test` and tests/package/release.py on a small repository, with a script as the released program and another as the kit:

    tests/package/first_run.py

It prints a line for each thing tried; some ten seconds. As root it also tries a folder that its user can't write."""

import hashlib
import os
import shutil
import subprocess
import sys
import tarfile
import tempfile
import time
from pathlib import Path

sys.dont_write_bytecode = True
sys.path.insert(0, str(Path(__file__).resolve().parents[1] / "lib"))
from trial import conduct

TOP = Path(__file__).resolve().parents[2]
COPIED = ("ledger", "test", "tools/gate_seconds", "tools/tree_sum", "tools/program", "tests/package/release.py")
FILES = {
    "HANDLES": "Handles allowed: none.\n",
    "crates.txt": "# crates\nledger: low # the program\nlow: thiserror\nother: low\n",
    "crates/ledger/src/main.rt": "main\n",
    "crates/low/src/lib.rt": "lib\n",
    "crates/low/src/deep/er/one.rt": "one\n",
    "crates/low/specs/Lib.antt": "specs\n",
    "crates/low/proofs/a b.antt": "proofs\n",
    "crates/other/src/lib.rt": "other\n",
    "examples/day_with_power_cuts.replies": "1,1,DONE,40\n",
    "README.md": "## A first session\n\n```sh\n./ledger format --new shop.d64  # makes it\n./ledger play shop.d64 day\n./ledger show shop.d64\n"
    "./ledger check shop.d64\n```\n\n```\nTOP 1\nCARD 1,2\n```\n\n```sh\n./ledger serve shop.d64\n```\n",
}
PROGRAM = """#!/bin/sh
case $1 in
    format) echo FORMATTED ;;
    play) echo 1,1,DONE,40 ;;
    show) printf 'TOP 1\\nCARD 1,2\\n' ;;
    check) echo OK ;;
    *) echo "released: $*"; exit 7 ;;
esac
"""
# as `rt ci` it builds a program, and says of it what stands in the file `says`
KIT = """#!/bin/sh
[ "$1" = ci ] || { echo kit 1; exit; }
mkdir -p crates/ledger/out
printf '%s' "$BUILDS" >crates/ledger/out/ledger
chmod 755 crates/ledger/out/ledger
eval "$SAYS"
"""
# as tests/rows/rows.py it says what ROWS does
ROWS = """#!/bin/sh
eval "${ROWS:-echo '2 passed, 0 failed'}"
"""
# as ./trials it says that one passed, each of the three times that it is called
TRIALS = "#!/bin/sh\necho '1 passed, 0 failed, 2 left out'\n"
BUILT = "#!/bin/sh\necho \"built: $*\"\n"
OTHER_FILES = "no release here is of these files"


class Repository:
    """The small repository in a folder."""

    def __init__(self, folder):
        self.folder, self.tried, self.failed = folder, 0, 0
        for name, text in FILES.items():
            self.write(name, text)
        for name in COPIED:
            (folder / name).parent.mkdir(parents=True, exist_ok=True)
            shutil.copy2(TOP / name, folder / name)
        self.write("tests/rows/rows.py", ROWS, 0o755)
        self.write("trials", TRIALS, 0o755)
        self.bare, self.kit = folder / "bare", folder / "kit"
        self.make_paths()
        self.release()

    def write(self, name, text, mode=0o644):
        (self.folder / name).parent.mkdir(parents=True, exist_ok=True)
        (self.folder / name).write_text(text)
        (self.folder / name).chmod(mode)

    def make_paths(self):
        """A path with nothing but a shell, coreutils and tar, and one with a kit before all that is here."""
        self.bare.mkdir()
        listed = subprocess.run(["dpkg", "-L", "coreutils"], check=True, capture_output=True, text=True).stdout.split()
        for file in [*(it for it in listed if "/bin/" in it), "/bin/tar", "/bin/sh"]:
            (self.bare / Path(file).name).symlink_to(file)
        self.write("kit/rt", KIT, 0o755)

    def release(self):
        """Makes a release of the files that are here."""
        shutil.rmtree(self.folder / "releases", ignore_errors=True)
        self.write("releases/program", PROGRAM, 0o755)
        with tarfile.open(self.folder / "releases/it.tar", "w") as tarball:
            tarball.add(self.folder / "releases/program", "it/bin/it")
        (self.folder / "releases/program").unlink()
        program = hashlib.sha256(PROGRAM.encode()).hexdigest()
        tree = subprocess.run(self.folder / "tools/tree_sum", check=True, capture_output=True, text=True).stdout.strip()
        self.write("releases/BUILT_FROM", f"version: 1\ntree: {tree}\nkit: kit 1\nprogram: {program}\ntarball: it.tar\npath: it/bin/it\n")
        self.sum_up()

    def sum_up(self):
        names = ("it.tar", "BUILT_FROM")
        sums = (f"{hashlib.sha256((self.folder / 'releases' / it).read_bytes()).hexdigest()}  {it}\n" for it in names)
        self.write("releases/SHA256SUMS", "".join(sums))

    def ran(self, *words, path=None, user=None, **environment):
        path = path or f"{self.kit}:{os.environ['PATH']}"
        environment = {"PATH": str(path), "HOME": str(self.folder / "home"), "TMPDIR": str(self.folder), "BUILDS": BUILT, **environment}
        return subprocess.run([self.folder / words[0], *words[1:]], cwd="/", env=environment, user=user, capture_output=True, text=True)

    def tell(self, what, good, ran=None):
        print(f"{what}: {'as it should be' if good else 'OTHERWISE: ' + repr(ran and (ran.returncode, ran.stdout, ran.stderr))}", flush=True)
        self.tried += 1
        self.failed += not good

    def runs(self, what, printed, said, *words, status=7, **how):
        """Whether `./ledger` prints this, and says that on standard error; nothing there if `said` is empty."""
        ran = self.ran("ledger", *words, **how)
        good = (ran.returncode, ran.stdout) == (status, printed) and (said in ran.stderr if said else not ran.stderr)
        self.tell(what, good, ran)


def try_release(here):
    """The released program runs with a shell, coreutils and tar alone."""
    released, bare = "released: a b\n", {"path": here.bare}
    placed = here.folder / "releases/out/ledger"
    here.runs("a fresh copy runs the released program, and says so", released, "nothing is proved here", "a", "b", **bare)
    here.runs("the next time it says nothing", released, "", "a", "b", **bare)
    placed.write_text("#!/bin/sh\necho other\n")
    here.runs("another program in its place is put out", released, "nothing is proved here", "a", "b", **bare)
    shutil.rmtree(placed.parent)
    started = [subprocess.Popen([here.folder / "ledger", "a"], env={"PATH": str(here.bare)}, stdout=subprocess.PIPE, stderr=subprocess.DEVNULL)
               for _ in range(16)]
    ended = [(it.communicate()[0], it.returncode) for it in started]
    here.tell("sixteen at once run it", ended == [(b"released: a\n", 7)] * 16 and [it.name for it in placed.parent.iterdir()] == ["ledger"])
    tarball = here.folder / "releases/it.tar"
    whole = tarball.read_bytes()
    for what, data in (("changed", whole.replace(b"released", b"renamed!")), ("cut short", whole[:700]), ("empty", b"")):
        tarball.write_bytes(data)
        shutil.rmtree(placed.parent, ignore_errors=True)
        here.runs(f"a tarball that is {what} is refused", "", "doesn't have the program", status=3, **bare)
        here.tell("and nothing is put in its place", not placed.exists())
    tarball.write_bytes(whole)


def try_unwritable(here):
    """A user who can't write the folder has the program in a cache; without a home, in none."""
    home = here.folder / "home"
    home.mkdir()
    os.chown(home, 65534, 65534)
    here.folder.chmod(0o755)
    bare = {"path": here.bare, "user": 65534}
    here.runs("where the folder can't be written it goes to the cache", "released: a\n", f"{home}/.cache/ledger-1541", "a", **bare)
    here.runs("and runs from there", "released: a\n", "", "a", **bare)
    here.runs("without a home it is refused", "", "can be written into none of", "a", status=3, HOME="", **bare)


def try_changes(here):
    """Each change of what the program is built of is seen, and no other."""
    def is_of_release():
        ran = here.ran("ledger", path=here.bare)
        return OTHER_FILES not in ran.stderr if ran.returncode in (3, 7) else None

    changed = [name for name in FILES if name.startswith(("crates/l", "HANDLES"))]
    for name in changed:
        here.write(name, FILES[name] + "\n")
        here.tell(f"a change of {name} is seen", is_of_release() is False)
        (here.folder / name).unlink()
        here.tell("so is that it isn't there", is_of_release() is False)
        here.write(name, FILES[name])
    for name in ("crates/low/src/new.rt", "crates/low/src/.new", "crates/low/proofs/new/a\nb.antt", "crates/ledger/proofs/new.antt"):
        here.write(name, "")
        here.tell(f"{name!r} more is seen", is_of_release() is False)
        (here.folder / name).unlink()
    low = here.folder / "crates/low"
    (low / "src/lib.rt").rename(low / "src/lib2.rt")
    here.tell("another name is seen", is_of_release() is False)
    (low / "src/lib2.rt").rename(low / "src/lib.rt")
    here.write("crates.txt", FILES["crates.txt"].replace("low: thiserror", "low: thiserror other"))
    here.tell("a crate more is seen", is_of_release() is False)
    here.write("crates.txt", FILES["crates.txt"].replace("other: low", "other: low ledger # x").replace("# the", "# a"))
    here.write("crates/other/src/lib.rt", "changed\n")
    here.write("crates/low/README.md", "more\n")
    here.tell("what the program isn't built of may change", is_of_release() is True)
    here.write("crates.txt", FILES["crates.txt"])


def try_build(here):
    """A build goes before the release until a source is newer; where there is no release of the files, they are built."""
    here.runs("--prove builds", "built: a\n", "proving 2 crates", "--prove", "a", status=0)
    here.runs("what was built stays", "built: a\n", "", "a", status=0)
    time.sleep(0.01)
    here.write("crates/low/src/lib.rt", FILES["crates/low/src/lib.rt"])
    here.runs("after a file was written again as it was, the released program runs", "released: a\n", "", "a")
    here.write("crates/low/src/lib.rt", "changed\n")
    here.runs("after a change, the program is built", "built: a\n", OTHER_FILES, "a", status=0)
    here.runs("and stays", "built: a\n", "", "a", status=0)
    here.write("crates/low/src/lib.rt", FILES["crates/low/src/lib.rt"])
    (here.folder / "releases").rename(here.folder / "away")
    here.runs("without a release it is built", "built: a\n", OTHER_FILES, "a", status=0)
    (here.folder / "away").rename(here.folder / "releases")
    shutil.rmtree(here.folder / "crates/ledger/out")
    here.runs("without a kit --prove is refused", "", "no command rt", "--prove", status=3, path="/usr/bin:/bin")


def try_tests(here):
    """`./test` sums up what the kit, tests/rows/rows.py and tests/package/release.py say."""
    def says(what, script, last, builds=PROGRAM, part="", rows=""):
        ran = here.ran("test", BUILDS=builds, SAYS=script, ROWS=rows)
        ended = ran.stdout.splitlines()[-1] if ran.stdout else ""
        good = (ran.returncode == 0) == last.endswith(" 0 failed") and ended == last and part in ran.stdout + ran.stderr
        here.tell(f"./test: {what}", good, ran)

    well = "echo '3 passed, 0 failed'"
    says("all passed", well, "9 passed, 0 failed", part="it passes the README's session")
    says("one failed", "echo '2 passed, 1 failed'; exit 1", "8 passed, 1 failed", part="2 passed, 1 failed\n")
    says("a row failed", well, "8 passed, 1 failed", rows="echo '1 passed, 1 failed'; exit 1")
    says("no row was played", well, "7 passed, 1 failed", rows="exit 1", part="the rows ended with status 1")
    says("the kit was killed", "kill -9 $$", "6 passed, 1 failed", part="status 137")
    says("it stopped without its last line", "echo '3 passed, 0 failed of x'", "6 passed, 1 failed")
    says("its status is wrong", f"{well}; exit 2", "9 passed, 1 failed", part="status 2")
    says("another program was built", well, "8 passed, 1 failed", builds=PROGRAM + "\n", part="built another program")
    here.write("releases/more", "")
    says("a file is in no sum", well, "8 passed, 1 failed", part="more")
    (here.folder / "releases/more").unlink()
    here.write("README.md", FILES["README.md"].replace("CARD 1,2", "CARD 1,3"))
    says("the README shows another session", well, "8 passed, 1 failed", part="prints otherwise")
    here.write("README.md", FILES["README.md"])
    here.write("crates/low/src/lib.rt", "changed\n")
    says("the release is of other files", well, "9 passed, 0 failed", builds=BUILT, part="nothing was compared")
    text = (here.folder / "releases/BUILT_FROM").read_text()
    here.write("releases/BUILT_FROM", text + "\n")
    says("a file's sum is wrong", well, "8 passed, 1 failed", part="hasn't the sum")
    here.write("crates/low/src/lib.rt", FILES["crates/low/src/lib.rt"])
    here.write("releases/BUILT_FROM", text.replace("kit 1", "kit 2"))
    here.sum_up()
    says("the release is of another kit", well, "9 passed, 0 failed", builds=BUILT, part="the kit here isn't kit 2")
    shutil.rmtree(here.folder / "releases")
    says("there is no release", well, "9 passed, 0 failed", builds=BUILT, part="there is none here")
    environment = {**os.environ, "PATH": f"{here.kit}:{os.environ['PATH']}", "BUILDS": BUILT, "SAYS": f"echo first; sleep 2; {well}"}
    with subprocess.Popen([here.folder / "test"], env=environment, stdout=subprocess.PIPE, text=True) as started:
        began = time.monotonic()
        first, waited = started.stdout.readline(), time.monotonic() - began
        here.tell("./test: what the kit says passes as it comes", first == "first\n" and waited < 1.5 and started.stdout.read())


def main(given):
    with tempfile.TemporaryDirectory(prefix="first_run_") as folder:
        here = Repository(Path(folder))
        try_release(here)
        if os.getuid() == 0:
            shutil.rmtree(Path(folder) / "releases/out", ignore_errors=True)
            try_unwritable(here)
        try_changes(here)
        try_build(here)
        try_tests(here)
        return here.tried - here.failed, here.failed


if __name__ == "__main__":
    conduct(main, wants_program=False)
