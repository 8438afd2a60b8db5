"""What `picture --compare` prints of two disks, and what a browser, also on a phone, in the dark and on paper, and librsvg show of it.
For pictures.py, which has the disks."""

import re
import subprocess

from drawn import PLACES
from pages import Comparison
from palette import LIGHT
from renderings import see_paper, see_phone
from served import want

# the marks in the light and in the dark; how near to its mark a sector is that differs, and how far from it any other
BLACK, WHITE, MARKED, OTHER = (0, 0, 0), (255, 255, 255), 30, 100


def see_marks(name, pair, seen_at, mark, who):
    """Each sector that differs shows the mark at its middle, and no other does."""
    for place in PLACES:
        colour = seen_at(place)
        apart = max(abs(part - wanted) for part, wanted in zip(colour, mark))
        want(apart < MARKED if pair.differs(place) else apart > OTHER,
             f"{name}: {who} shows {colour} at {place}, which {'differs' if pair.differs(place) else 'is the same'}")


def see_comparison(program, browser, name, first, second, folder, looks):
    """Compares the page of two disks, each a path and its Page, with that of pages.py to the byte, and its marks as they are
    shown. `looks` gives the colours of sectors in the browser and by librsvg, and those of the marks. The page fits a phone, and one
    sheet of paper with the colours of the files that changed. Gives how many sectors differ."""
    pair = Comparison(first[1], second[1], (first[0], second[0]))
    done = subprocess.run([program, "picture", "--compare", first[0], second[0]], capture_output=True, timeout=60)
    page, wanted = done.stdout, pair.text()
    want(page.decode() == wanted, f"{name}: the page differs from that of pages.py")
    want(done.returncode == (1 if second[1].fault else 0) and done.stderr == b"", f"{name}: status {done.returncode}")
    references = re.findall(rb"(?:src|href|url|import|action|data)\s*[=(]\s*\"?([^\">]*)", page)
    want(all(re.fullmatch(rb"#(f\d+|all)", found) for found in references), f"{name}: leads out of the page: {references}")
    file = folder / f"{name}.html"
    file.write_bytes(page)
    see_phone(name, browser, file.as_uri())
    changed = [number for number, former in enumerate(pair.counterparts(second[1].disk.entries, first[1].disk.entries))
               if pair.row(number, former)]
    browser.scale(1)
    see_paper(name, browser, file.as_uri(), changed, folder, LIGHT)
    for who, seen_at, mark in looks(file, page):
        see_marks(name, pair, seen_at, mark, who)
    want(browser.requests() == [file.as_uri()] and browser.complaints() == [], f"{name}: the page asks or complains")
    rows = browser.value("[...document.querySelectorAll('tr')].slice(1).map(e => [...e.children].map(c => c.textContent))")
    shown = [[cell.strip() for cell in row[1:]] for row in rows]
    told = [[re.sub("<[^>]*>", "", cell).strip() for cell in re.findall("<td>(.*?)</td>", row)[1:]]
            for row in pair.rows().splitlines()]
    unescaped = [[cell.replace("&lt;", "<").replace("&gt;", ">").replace("&amp;", "&").strip() for cell in row] for row in told]
    want(shown == unescaped, f"{name}: rows {shown} in place of {unescaped}")
    return len(pair.differences())
