"""Checks of the shop's pages in a browser, one after the other: for shop_counter.py and sign_in.py."""

import tempfile
import time
import traceback
from pathlib import Path

import shop_scene as scene


class PageChecks:
    """Whatever one check finds, the others go on. `CHECKS` are the names of the methods, `WINDOW` is the height of Chromium's window; the
    scene is begun by whoever inherits, with its `broker`."""

    CHECKS: list[str] = []
    HEIGHT = WINDOW = 844

    def __init__(self, given, folder: Path):
        self.given, self.folder, self.drivers = given, folder, {}
        self.passed, self.failed = [], []

    def driver(self, name: str):
        """The browser of this name, which begins when it is first asked for."""
        if name not in self.drivers:
            if self.given.browser == "firefox":
                from firefox import Firefox

                self.drivers[name] = Firefox(self.folder / name, (self.given.width, self.HEIGHT), self.broker.ca)
            else:
                self.drivers[name] = scene.browser(self.folder / name, (max(self.given.width, 500), self.WINDOW), self.broker.ca)
                self.begun(self.drivers[name])
        return self.drivers[name]

    def begun(self, driver) -> None:
        """What is done with a Chromium that has just begun."""

    def mend(self) -> None:
        """What is done after a check that failed, for the others."""

    def run(self) -> None:
        for name in self.CHECKS:
            if self.given.only and not any(word in name for word in self.given.only):
                continue
            began = time.monotonic()
            try:
                getattr(self, name)()
            except (Exception, SystemExit) as fault:
                self.failed.append(name)
                why = str(fault).splitlines()[0] if str(fault) else type(fault).__name__
                print(f"FAILED {name}: {why}", flush=True)
                if self.given.trace:
                    traceback.print_exc()
                self.mend()
            else:
                self.passed.append(name)
                print(f"passed {name} ({time.monotonic() - began:.1f} s)", flush=True)


def more(parser) -> None:
    """The words of such a trial."""
    parser.add_argument("--browser", choices=("chromium", "firefox"), default="chromium")
    parser.add_argument("--width", type=int, default=1280, help="of the page, in pixels")
    parser.add_argument("--only", nargs="+", metavar="WORD", help="the checks whose name has one of these words")
    parser.add_argument("--trace", action="store_true", help="print where a check failed")


def checked(kind, given) -> tuple[int, int]:
    """How many checks of this kind passed and failed."""
    with tempfile.TemporaryDirectory(ignore_cleanup_errors=True) as folder:
        trial = kind(given, Path(folder))
        try:
            trial.run()
        finally:
            trial.close()
    print(f"in {given.browser}, {given.width} wide")
    return len(trial.passed), len(trial.failed)
