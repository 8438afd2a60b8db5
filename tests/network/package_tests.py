#!/usr/bin/python3
"""The tests of the shop's Python package, by pytest (Debian's package python3-pytest):

    tests/network/package_tests.py PROGRAM"""

import os
import re
import subprocess
import sys
from pathlib import Path

sys.dont_write_bytecode = True
sys.path.insert(0, str(Path(__file__).resolve().parents[1] / "lib"))
from shop_paths import PYTHON, SHOP
from trial import conduct


def main(given):
    words = [PYTHON, "-m", "pytest", "-q", "-p", "no:cacheprovider", SHOP]
    environment = {**os.environ, "LEDGER": given.program, "PYTHONDONTWRITEBYTECODE": "1"}
    done = subprocess.run(words, env=environment, stdout=subprocess.PIPE, stderr=subprocess.STDOUT, text=True)
    count = {word: int(number) for number, word in re.findall(r"(\d+) (passed|failed|error)", done.stdout)}
    failed = count.get("failed", 0) + count.get("error", 0) or int(done.returncode != 0)
    if failed:
        print(done.stdout)
    return count.get("passed", 0), failed


if __name__ == "__main__":
    conduct(main)
