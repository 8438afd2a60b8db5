#!/usr/bin/env python3
"""Tries `tools/program` on a small repository of three crates, with the kit that is on the path:

    tests/package/program.py

It prints a line for each thing tried; some three minutes."""

import os
import shutil
import subprocess
import sys
import tempfile
import time
from pathlib import Path

sys.dont_write_bytecode = True
sys.path.insert(0, str(Path(__file__).resolve().parents[1] / "lib"))
from trial import conduct

TOP = Path(__file__).resolve().parents[2]

FILES = {
    "crates.txt": "low:\nmiddle: low\ntop: middle low\n",
    "crates/low/src/lib.rt": """//! Numbers doubled.
#![tactic(auto)]

// called as a crate that this one doesn't stand on
mod middle;

pub use middle::{Doubles, double};
""",
    "crates/low/src/middle.rt": """//! What doubles a number.
ghost use Rattle.std.specs.Prelude.{◌≡◌};
ghost use Rattle.low.specs.Numbers.{twice};

/// What gives twice a number.
pub trait Doubles {
    /// Twice the number.
    fn double(&self, number: u8) -> u16
        ensures { result ≡ twice number };
}

/// Twice the number.
pub fn double(number: u8) -> u16
    ensures { result ≡ twice number }
{
    number as u16 * 2
}
""",
    "crates/low/specs/Lib.antt": "pub mod Numbers\n",
    "crates/low/specs/Numbers.antt": """-- Numbers.
use Rattle.std.specs.Prelude.{ℕ, ◌*◌}

-- twice a number
unfoldable pub twice : ℕ → ℕ
twice n = n * 2
""",
    "crates/low/proofs/middle/double/Answers.antt": """-- The product is twice the number.
use Rattle.std.proofs.Common.{refl}
use Rattle.low.specs.Numbers.{twice}
use Rattle.low.proofs.middle.double.Goals as goal

pub returns : goal.returns
unfolding twice
returns c = refl
""",
    "crates/middle/src/lib.rt": """//! Numbers doubled twice.
#![tactic(auto)]

mod low_words;

pub use low_words::{Doubler, four_times};
""",
    "crates/middle/src/low_words.rt": """//! Four times a number, by what gives twice it.
ghost use Rattle.std.specs.Prelude.{◌≡◌};
ghost use Rattle.low.specs.Numbers.{twice};

use low::{Doubles, double};

/// It doubles as `low` does.
pub struct Doubler;

impl Doubles for Doubler {
    fn double(&self, number: u8) -> u16 {
        low::double(number)
    }
}

/// Four times the number.
pub fn four_times<D: Doubles>(doubler: &D, number: u8) -> u32
    ensures { result ≡ twice number + twice number }
{
    doubler.double(number) as u32 + double(number) as u32
}
""".replace("{◌≡◌}", "{◌≡◌, ◌+◌}", 1),
    "crates/top/stdout": "middle::four_times: 20\n",
    "crates/top/src/main.rt": """//! Prints four times 5.
#![tactic(auto)]

use middle::{Doubler, four_times};
use std::io;

fn main(rt: HostRuntime) -> io::Result<()> {
    println!(rt; "middle::four_times: {}", four_times(&Doubler, 5))
}
""",
}


class Repository:
    """The small repository in a folder, and what `tools/program` says of its program."""

    def __init__(self, folder):
        self.folder, self.tried, self.failed = folder, 0, 0
        for name, text in FILES.items():
            self.write(name, text)
        shutil.copytree(TOP / "tools", folder / "tools", ignore=shutil.ignore_patterns("__pycache__"))
        self.program = folder / "crates" / "top" / "out" / "top"

    def write(self, name, text):
        (self.folder / name).parent.mkdir(parents=True, exist_ok=True)
        (self.folder / name).write_text(text)

    def asked(self, crate="top", tool=None, **environment):
        words = [tool or self.folder / "tools" / "program", crate]
        environment = {**os.environ, "TMPDIR": str(self.folder), **environment}
        return subprocess.run(words, capture_output=True, text=True, cwd="/", env=environment)

    def tell(self, what, good, ran):
        print(f"{what}: {'as it should be' if good else 'OTHERWISE: ' + repr((ran.returncode, ran.stdout, ran.stderr))}", flush=True)
        self.tried += 1
        self.failed += not good

    def is_built(self, ran):
        printed = subprocess.run([self.program], capture_output=True, text=True).stdout if self.program.exists() else None
        return ran.returncode == 0 and ran.stdout == f"{self.program}\n" and printed == "middle::four_times: 20\n"

    def run(self):
        ran = self.asked()
        self.tell("from nothing it is proved and built", self.is_built(ran) and "ledger: done after" in ran.stderr, ran)
        made = self.program.stat().st_mtime
        ran = self.asked()
        self.tell("it is taken as it was built", self.is_built(ran) and not ran.stderr and made == self.program.stat().st_mtime, ran)
        link = self.folder / "elsewhere"
        link.symlink_to(self.folder / "tools" / "program")
        ran = self.asked(tool=link)
        self.tell("and by a link", self.is_built(ran) and not ran.stderr, ran)
        self.try_mutants()
        self.try_its_end()
        for name in ("no_such_crate", "low"):
            ran = self.asked(name)
            self.tell(f"that {name} is no program is told", ran.returncode == 3 and f"there is no program {name}" in ran.stderr, ran)
        (self.folder / "bin").mkdir()
        (self.folder / "bin" / "python3").symlink_to(sys.executable)
        ran = self.asked(PATH=f"{self.folder}/bin:/usr/bin:/bin")
        self.tell("so is a kit that isn't there", ran.returncode == 3 and "there is no command rt" in ran.stderr, ran)
        return self.tried - self.failed, self.failed

    def try_mutants(self):
        """A source that isn't right anymore is told with its place, and its program isn't given."""
        cases = [
            ("crates/low/src/middle.rt", "number as u16 * 2", "number as u16 * 3", "proofs/middle/double/Answers.antt"),
            ("crates/middle/src/low_words.rt", "double(number) as u32\n", "number as u32\n", "middle::low_words::four_times"),
            ("crates/top/src/main.rt", "&Doubler, 5", "&Doubler, true", "src/main.rt:8"),
        ]
        for name, old, new, place in cases:
            text = FILES[name]
            self.write(name, text.replace(old, new))
            ran = self.asked()
            good = text.count(old) == 1 and ran.returncode == 3 and not ran.stdout and place in ran.stderr
            self.tell(f"a mutant in {name} is refused", good, ran)
            self.write(name, text)
        ran = self.asked()
        self.tell("put right, it is built again", self.is_built(ran) and "ledger: done after" in ran.stderr, ran)

    def try_its_end(self):
        """Told to end, it ends the prover too, and leaves nothing behind but the program that was there."""
        name = "crates/low/src/middle.rt"
        self.write(name, FILES[name].replace("/// Twice the number.", "/// Twice a number.", 1))
        words = [self.folder / "tools" / "program", "top"]
        how = {"stdout": subprocess.PIPE, "stderr": subprocess.PIPE, "text": True}
        with subprocess.Popen(words, env={**os.environ, "TMPDIR": str(self.folder)}, **how) as started:
            time.sleep(4)
            began = list(self.folder.glob("ledger_build.*"))
            started.terminate()
            out, err = started.communicate()
        left = [it for it in Path("/proc").glob("[0-9]*/cwd") if is_below(it, self.folder)]
        good = len(began) == len(list(self.folder.glob("ledger_build.*"))) + 1 and not left and not out
        self.tell("told to end, it ends the prover", good, subprocess.CompletedProcess(words, started.returncode, out, err))


def is_below(link, folder):
    """Whether a process works in the folder."""
    try:
        return folder in link.resolve().parents
    except OSError:
        return False


def main(given):
    with tempfile.TemporaryDirectory(prefix="program_") as folder:
        return Repository(Path(folder)).run()


if __name__ == "__main__":
    conduct(main, wants_program=False)
