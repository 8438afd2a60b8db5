"""What the tests share: brokers and the program are looked for, and tests that want them are left out without them."""

import os
import shutil
import sys
from pathlib import Path

import pytest

TOP = Path(__file__).resolve().parent.parent.parent
sys.path += [str(TOP / "tests" / folder) for folder in ("lib", "network")]


@pytest.fixture(scope="session")
def program():
    """The program that serves a shop: LEDGER in the environment, or the one on the path."""
    found = os.environ.get("LEDGER") or shutil.which("ledger-1541")
    if not found:
        pytest.skip("LEDGER doesn't name the program")
    return str(Path(found).resolve())
