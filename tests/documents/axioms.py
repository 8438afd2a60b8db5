#!/usr/bin/env python3
"""Makes tests/documents/axioms.txt: what the proof of a program rests on, as the toolchain reports it.

    tests/documents/axioms.py [--check] [CRATE]

CRATE is a program, `ledger` if none is named. The crates that it stands on must be built (`rt ci`, or `rt all check`). The kit's
checker reads them and lists each C function whose contract the verdict can rest on (`--list-axioms`), and the words of its verdict.
The page has these, the logic of the kit with its libraries, and the kit's crates that the program stands on. Without words the
page is written. With `--check` nothing is written, and the status is 1 if the page isn't up to date. It is 2 if there is no
verdict."""

import json
import re
import shutil
import subprocess
import sys
import tempfile
from importlib.machinery import SourceFileLoader
from pathlib import Path

sys.dont_write_bytecode = True
TOP = Path(__file__).resolve().parents[2]
CRATES = TOP / "crates"
PAGE = TOP / "tests" / "documents" / "axioms.txt"
KIT = Path(shutil.which("rt") or "/").resolve().parent.parent
PROJECT = KIT / "rattle" / "logic" / "antt-project.json"
sys.path.insert(0, str(TOP / "tools"))
stands_on = SourceFileLoader("program", str(TOP / "tools" / "program")).load_module().stands_on
# what each word of a verdict says is trusted
WORDS = {
    "native": "the checker computes on these with code outside the kernel",
    "logic-built": "the kit's logic, as it was checked when the kit was made",
    "libraries-built": "libraries, as an earlier check of theirs wrote them",
    "statements": "the statements of libraries, without their proofs read again",
    "incremental": "what earlier runs of the check kept",
    "target": "the end target, which the proof doesn't judge",
    "cpu": "the processor that the code is made for",
}


def command(crate, kept):
    """The kit's check of a program over the libraries that were built."""
    needed, of_kit = stands_on(crate)
    built = {name: CRATES / name / "out" / "rlib" / f"{name}.rlib" for name in needed if name != crate}
    lacking = [name for name, rlib in built.items() if not rlib.is_dir()]
    if lacking:
        sys.exit(f"axioms: not built: {' '.join(lacking)}")
    libraries = {**{name: KIT / "rlibs" / f"{name}.rlib" for name in of_kit}, **built}
    said = [str(KIT / "bin" / "rattle"), "check", "--crate-name", crate, "src/main.rt"]
    said += [it for name, rlib in libraries.items() for it in ("--extern", f"{name}={rlib}")]
    said += ["-L", f"dependency={KIT / 'rlibs'}", "--antt-project", str(PROJECT), "--logic-built", str(KIT / "logic_built")]
    return [*said, "--list-axioms", "--incremental", kept], of_kit


def reported(crate):
    """The C functions of each crate that the verdict can rest on, the verdict's words, and the kit's crates."""
    with tempfile.TemporaryDirectory() as kept:
        words, of_kit = command(crate, kept)
        ran = subprocess.run(words, cwd=CRATES / crate, stdout=subprocess.PIPE, stderr=subprocess.STDOUT, text=True)
    said = ran.stdout.splitlines()
    verdict = next((line for line in said if line.startswith("logic=")), "")
    if not verdict.startswith("logic=proved"):
        print("\n".join(said[-5:]), file=sys.stderr)
        sys.exit(2)
    found, owner = {}, None
    for line in said:
        head = re.match(r"axioms (\w+): (\d+|none) reached of the \d+ declared", line)
        name = re.match(r"  (\S+)\s+reached$", line)
        owner = head[1] if head else owner if line.startswith("  ") else None
        if head:
            found[owner] = []
        if owner and name:
            found[owner].append(name[1])
    return found, dict(it.split("=", 1) for it in verdict.split() if "=" in it), of_kit


def page(crate):
    found, verdict, of_kit = reported(crate)
    logic = json.loads(PROJECT.read_text(encoding="utf-8"))
    kit = (KIT / "KIT-ID").read_text(encoding="utf-8").split()[-1]
    lines = [f"What the proof of the program {crate} rests on, as the toolchain reports it. tests/documents/axioms.py makes this page.", ""]
    lines += [f"Logic of the kit: {kit}", f"Axioms of the verdict: {verdict.get('axioms', '0')}", ""]
    lines += ["C functions. Each is assumed to do what some routine of the logic does, and that routine to meet the contract."]
    for name, functions in sorted(found.items()):
        lines += ["", f"{name}:", *(f"  {it}" for it in functions)] if functions else []
    lines += ["", "Words of the verdict, and what each says is trusted or not judged:"]
    lines += [f"  {word}={verdict[word]}: {meaning}" for word, meaning in WORDS.items() if word in verdict]
    lines += ["", "The kit's crates. Their statements are taken as the kit has them:", "  " + ", ".join(of_kit)]
    lines += ["", "Libraries of the program logic:", "  " + ", ".join(sorted(logic["mounts"]))]
    return "\n".join(lines) + "\n"


def main(words):
    crate = next((it for it in words if not it.startswith("--")), "ledger")
    made = page(crate)
    if "--check" in words:
        same = PAGE.exists() and PAGE.read_text(encoding="utf-8") == made
        print("tests/documents/axioms.txt is up to date" if same else "tests/documents/axioms.txt isn't up to date: run tests/documents/axioms.py")
        return int(not same)
    PAGE.write_text(made, encoding="utf-8")
    print(f"tests/documents/axioms.txt: {made.count(chr(10) + '  ')} lines")
    return 0


if __name__ == "__main__":
    sys.exit(main(sys.argv[1:]))
