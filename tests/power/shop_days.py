"""A day of a shop, and a state that power may leave of it: for the scripts that look at such states."""

import shutil
from pathlib import Path

from shop_rule import Shop


class Wrong(Exception):
    """A state that isn't as it has to be."""


def need(holds, what):
    if not holds:
        raise Wrong(what)


class ShopDay:
    """A day's lines, the replies of the rule, and what the shop is after each line: what `show` prints, and each till's last request."""

    def __init__(self, lines: list[str], top: int, tills: int):
        shop = Shop(tills, top)
        self.lines, self.replies, self.shows, self.kept = lines, [], [shop.shown()], [{}]
        for line in lines:
            self.replies.append(shop.reply(line))
            self.shows.append(shop.shown())
            self.kept.append({till: kept[0] for till, kept in shop.kept.items()})

    def repeats(self, count: int):
        """Each till's last request of the first so many lines, and the answer that was kept."""
        for till, (number, (kind, item, quantity, to), answer) in sorted(self.kept[count].items()):
            to = f",{to}" if kind == "M" else ""
            yield f"{till},{number},{kind},{item},{quantity}{to}", f"{till},{number},{answer}"


def put_state(room: Path, files: dict[str, bytes]) -> Path:
    """A folder with these files and nothing else."""
    folder = room / "state"
    shutil.rmtree(folder, ignore_errors=True)
    folder.mkdir()
    for name, held in files.items():
        (folder / name).write_bytes(held)
    return folder
