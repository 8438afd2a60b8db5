"""A journal that a power cut tore, or that was damaged. tests/network/kept_lines.py and tests/power/shop_power.py try many more."""

import re
import subprocess
from pathlib import Path

import pytest

from ledger_shop import journal, rebuild, service

README = Path(__file__).resolve().parent.parent / "README.md"
OLD = b"""# 2026-11-30T13:09:28.911Z begins
2026-11-30T13:09:28.918Z 1,1,S,7,100 -> 1,1,DONE,100
2026-11-30T13:09:28.926Z 1,2,R,7,1 -> 1,2,DONE,101
"""
# what a power cut left of the third request, and what an earlier version wrote behind it
HOLE = b"2026-11-30T11:00:00.000Z 1,3,R,7,1 -> \0\0\0\0\0,R,7,1 -> "
BEHIND = b"""2026-11-30T13:09:29.715Z 1,3,R,7,1 -> \0\0\0\0\0\0NE,102
# 2026-11-30T13:09:30.519Z begins 1:3
2026-11-30T13:09:30.522Z 1,4,R,7,1 -> 1,4,DONE,103
"""


def requests(*paths):
    return [one.request for one in journal.answers_in(paths)]


def test_the_pages_examples_are_whole():
    lines = re.findall(r"^ {4}(.* =\d+,[0-9a-f]{8})$", README.read_text() + journal.__doc__, re.M)
    assert len(lines) == 6
    assert all(journal.note_of(journal.unchecked(line)) for line in lines)


@pytest.mark.parametrize("line", ["", "x", "2026 =4,00000000", "# 2026-11-26T19:05:12.345Z takes 7,16,S,5,10 =44,776da717"])
def test_a_line_without_its_check_is_none(line):
    assert journal.unchecked(line) is None


@pytest.mark.parametrize("rest", [HOLE, HOLE[:50], b"", b"\0" * 600, b"x" * 6000])
def test_what_follows_an_earlier_journal(tmp_path, rest):
    kept = tmp_path / "shop.lines"
    kept.write_bytes(OLD + rest)
    assert requests(kept) == ["1,1,S,7,100", "1,2,R,7,1"]


def test_a_lost_reply_of_an_earlier_journal(tmp_path):
    kept = tmp_path / "shop.lines"
    kept.write_bytes(OLD + BEHIND)
    assert [(one.request, one.reply) for one in journal.answers_in([kept])][2:] == [
        ("1,3,R,7,1", None),
        ("1,4,R,7,1", "1,4,DONE,103"),
    ]


@pytest.mark.parametrize(("rest", "asked"), [(HOLE, 2), (HOLE, 3), (BEHIND, 4)])
def test_a_bridge_goes_on(program, tmp_path, rest, asked):
    image, kept = tmp_path / "shop.d64", tmp_path / "shop.lines"
    subprocess.run([program, "format", "--new", image, "--tills", "4"], check=True, capture_output=True)
    lines = ["1,1,S,7,100", "1,2,R,7,1", "1,3,R,7,1", "1,4,R,7,1"]
    subprocess.run([program, "serve", image], input="".join(f"{line}\n" for line in lines[:asked]).encode(), check=True)
    kept.write_bytes(OLD + rest)
    serve = service.Serve(program, image, journal.Journal(kept))
    serve.start()
    assert serve.hand(b"1,5,R,7,1") == (b"1,5,DONE,104" if asked == 4 else b"1,5,AHEAD")
    serve.end()
    older, now = journal.files_of(kept)
    assert Path(older).read_bytes() == OLD + rest
    assert requests(older, now) == lines[: max(asked, 3)] + (["1,5,R,7,1"] if asked == 4 else [])
    assert "the same shop" in rebuild.make(program, tmp_path / "new.d64", kept, tills=4, other=image)


def test_a_name_that_a_power_cut_doubled_counts_once(tmp_path):
    kept = tmp_path / "shop.lines"
    kept.write_bytes(OLD)
    (tmp_path / "shop.lines.20261126T190600.000Z").hardlink_to(kept)
    assert len(journal.files_of(kept)) == 1


def test_another_programs_file_is_refused_and_left(tmp_path):
    kept = tmp_path / "letter"
    kept.write_bytes(b"a letter\n" * 100)
    one = journal.Journal(kept)
    with pytest.raises(journal.Unfit):
        one.open(lambda seconds: None)
    one.close()
    assert kept.read_bytes() == b"a letter\n" * 100
