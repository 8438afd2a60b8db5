#!/usr/bin/env python3
"""The pages' own rules, by node's test runner (Debian's package nodejs):

    tests/network/page_tests.py"""

import re
import subprocess
import sys
from pathlib import Path

sys.dont_write_bytecode = True
sys.path.insert(0, str(Path(__file__).resolve().parents[1] / "lib"))
from shop_paths import SHOP
from trial import conduct, need


def main(given):
    need("node")
    done = subprocess.run(["node", "--test", f"{SHOP}/pages/tests/"], stdout=subprocess.PIPE, stderr=subprocess.STDOUT, text=True)
    count = {word: int(number) for word, number in re.findall(r"(?m)^# (pass|fail|cancelled) (\d+)$", done.stdout)}
    failed = count.get("fail", 0) + count.get("cancelled", 0) or int(done.returncode != 0)
    if failed:
        print(done.stdout)
    return count.get("pass", 0), failed


if __name__ == "__main__":
    conduct(main, wants_program=False)
