#!/usr/bin/env python3
"""Makes the pictures of the documents, docs/pictures/*.svg, with the built program:

    tests/documents/guide_pictures.py PROGRAM [--check]

PROGRAM is what `tools/program` prints. Each is the drawing of a page that `picture` prints of an image made anew
by the program, cc1541 and cbmconvert (Debian's packages of these names); beside it stand, where it says so, the words and
the table of the page. The arcs that a ring has in one colour are one circle of several dashes here; that they are the
page's arcs is compared. With --check nothing is written: the status is 1 where a file isn't what would be written, where a
document shows another picture than these or leaves one out, or where a disk of examples/disks isn't the one that is made
(tests/documents/guide.py types the commands of docs/KEEPERS.md on these)."""

import re
import subprocess
import sys
import tempfile
from html import escape
from pathlib import Path
from xml.etree import ElementTree

sys.dont_write_bytecode = True
sys.path.insert(0, str(Path(__file__).resolve().parents[1] / "lib"))
import disks
from drawn import MAP
from served import differs, want
from trial import conduct, need

DOCUMENTS = disks.TOP / "docs"
FOLDER = DOCUMENTS / "pictures"
DISKS = disks.TOP / "examples/disks"
LARGEST = 60_000
SIDE = 480
FONT = "ui-monospace,Menlo,Consolas,DejaVu Sans Mono,monospace"
# a dash and then nothing: longer than any ring
NOTHING = 300_000


class Page:
    """What a page of `picture` has: its style, words, table and drawing."""

    def __init__(self, page):
        text = re.sub("<meta [^>]*>", "", page.decode("utf-8")) + "</html>"
        self.tree = ElementTree.fromstring(re.sub("^<!DOCTYPE html>", "", text))
        # the rules for light screens
        self.style, _, self.more = self.tree.findtext("style").partition("@media")
        self.name = self.tree.findtext("h1")
        self.verdict, self.words = self.tree.findtext("p/b"), self.tree.find("p/b").tail.strip()
        self.drawing = self.tree.find(".//svg")
        self.rows = [row for row in self.tree.iter("tr") if row.find("td") is not None]
        self.dashes = dict(re.findall(r'(?<!\.w3 )\[r="(\d+)"\]\{stroke-dasharray:([\d ]+)\}', self.more))

    def colour(self, kind):
        return re.search(r"\.%s\{stroke:([^;}]*)" % kind, self.style).group(1)

    def file_colour(self, classes, is_side=False):
        """The colour of an entry of these classes, and that of its side sectors. The documents' disks have few files."""
        colour, width = classes.split()
        want(width == "w0", f"more than twelve files: {classes}")
        return re.search(r"\.%s%s\{stroke:([^;}]*)" % (colour, " \\.s" if is_side else ""), self.style).group(1)

    def groups(self, marks=False):
        """The drawing's groups, each a list of circles, with the dash of its ring and the look of its group: the marks of a
        comparison, or all others."""
        return [[self.circle(group, circle.attrib) for circle in group.iter("circle")]
                for group in self.drawing.find("g").findall("g") if (group.get("class") == "differs") == marks]

    def circle(self, group, attributes):
        if "style" in attributes:
            dashes = attributes["style"].removeprefix("stroke-dasharray:").strip()
            return {"r": attributes["r"], "stroke-dasharray": dashes, "stroke-dashoffset": "0", "class": group.get("class")}
        if group.get("class") == "differs":
            attributes = {**attributes, "class": "differs"}
        is_side = attributes.get("class") == "s"
        if is_side or "class" not in attributes:
            plain = {name: value for name, value in attributes.items() if name != "class"}
            attributes = {**plain, "stroke": self.file_colour(group.get("class"), is_side)}
        return {"stroke-dasharray": self.dashes.get(attributes["r"]), **attributes}


def look_name(element):
    """Which attribute says how it looks."""
    return "class" if element.get("class") else "stroke"


def look_of(circle):
    """What a circle looks like: its attributes but for the ring and its dashes."""
    name = look_name(circle)
    return name, circle[name]


def arcs_of(circle):
    """The arcs of a circle: the ring's radius, beginning, length, and how they look."""
    dashes = [int(number) for number in circle["stroke-dasharray"].split()]
    at, arcs = -int(circle["stroke-dashoffset"]), []
    for dash, gap in zip(dashes[::2], dashes[1::2]):
        if dash:
            arcs.append((int(circle["r"]), at, dash, look_of(circle)))
        at += dash + gap
    return arcs


def joined(circles):
    """The same arcs, those of a ring that look alike as one circle of several dashes."""
    alike = {}
    for circle in circles:
        for arc in arcs_of(circle):
            alike.setdefault((arc[0], arc[3]), []).append(arc)
    made = []
    for (radius, (name, value)), arcs in alike.items():
        arcs.sort()
        numbers = []
        for (_, at, dash, _), following in zip(arcs, arcs[1:] + [None]):
            numbers += [dash, following[1] - at - dash if following else NOTHING]
        made.append({"r": str(radius), "stroke-dasharray": " ".join(map(str, numbers)),
                     "stroke-dashoffset": str(-arcs[0][1]), name: value})
    before, after = (sorted(arc for circle in some for arc in arcs_of(circle)) for some in (circles, made))
    want(before == after, "the arcs differ from the page's")
    return made


def circle_text(circle):
    return "<circle %s/>\n" % " ".join(f'{name}="{value}"' for name, value in circle.items())


def drawing_text(page):
    """The page's drawing."""
    circles = "".join(circle_text(circle) for group in page.groups() for circle in joined(group))
    marks = "".join(circle_text(circle) for group in page.groups(marks=True) for circle in joined(group))
    if marks:
        circles = f'<g opacity=".4">\n{circles}</g>\n{marks}'
    return (f'<svg x="10" y="10" width="{SIDE}" height="{SIDE}" viewBox="{page.drawing.get("viewBox")}">\n'
            f'<g transform="{page.drawing.find("g").get("transform")}">\n{circles}</g>\n'
            f'<text class="disk" y="400">{escape(page.drawing.findtext("svg/text"))}</text>\n</svg>\n')


def style_text(page):
    """The page's rules for circles, and ours for words."""
    kinds = "".join(f".{kind}{{{rule}}}" for kind, rule in re.findall(
        r"\.(free|lost|map|dir|edge|fault|open)(?: circle)?\{(stroke:[^}]*?)(?:;pointer-events:none)?\}", page.style))
    circle = re.search(r"circle\{[^}]*\}", page.style).group(0)
    if page.groups(marks=True):
        kinds += ".differs{stroke:#000;stroke-width:320}"
    return (f"<style>{circle}{kinds}text{{font:14px {FONT};fill:#222}}.disk{{font-size:1100px;fill:#444;text-anchor:middle}}"
            f".head{{font-size:18px;font-weight:bold}}.good{{fill:#17692b;font-weight:bold}}"
            ".bad{fill:#d00;font-weight:bold}</style>\n")


def text_at(x, y, text, more=""):
    return f'<text x="{x}" y="{y}"{more} xml:space="preserve">{escape(text)}</text>\n'


def key_text(x, y, colour, text):
    return f'<rect x="{x}" y="{y - 11}" width="12" height="12" fill="{colour}"/>\n' + text_at(x + 20, y, text)


def words_text(page):
    """The page's words and table, beside the drawing."""
    x, y = SIDE + 40, 40
    kind = ' class="good"' if page.verdict == "OK" else ' class="bad"'
    made = text_at(x, y, page.name, ' class="head"') + text_at(x, y + 24, page.words) + text_at(x, y + 46, page.verdict, kind)
    y += 86
    for name, text in (("map", "map"), ("dir", "directory"), ("free", "free"), ("lost", "taken in the map, of no file")):
        made += key_text(x, y, page.colour(name), text)
        y += 20
    y += 16
    for row in page.rows:
        cells = row.findall("td")
        colour = page.file_colour(cells[0].find("i").get("class"))
        name, kind = cells[2].findtext("a"), cells[3].text
        records = f", {cells[5].text} records of {cells[4].text}" if cells[5].text else ""
        made += key_text(x, y, colour, f"{cells[1].text:>4} {name} {kind}{records}")
        y += 20
    return made


def svg_text(page, with_words):
    width, height = (SIDE + 420 if with_words else SIDE + 20), SIDE + 20
    body = words_text(page) if with_words else ""
    return (f'<svg xmlns="http://www.w3.org/2000/svg" width="{width}" height="{height}" viewBox="0 0 {width} {height}">\n'
            f'{style_text(page)}<rect width="{width}" height="{height}" fill="#fbfaf7"/>\n{drawing_text(page)}{body}</svg>\n')


def cut_growth(path, target):
    """The disk for two tills when the power went behind the first write of item 15's set: track 17 is one block less."""
    image = disks.Image(path)
    return image.put(MAP, 4 * 17, [0x10, 0xE0, 0xFF, 0x1F]).save(target)


def cut_creation(path, target):
    """The same behind the first write of a new file's creation: track 17 is two blocks less."""
    return disks.Image(path).put(MAP, 4 * 17, [0x0F, 0xC0, 0xFF, 0x1F]).save(target)


def created(program, path, target):
    """The disk with the new file."""
    target.write_bytes(path.read_bytes())
    disks.call(program, "make", target, "NEW", "--length", "80")
    return target


def cut_before_count(path, target):
    """The same behind the fourth write: the new block, the side sector that names it, and the old last block with its link."""
    image = disks.Image(cut_growth(path, target))
    image.put((17, 4), 0, [0, 0xFB, *bytes(16), *(13 * [0xFF, *bytes(17)])])
    image.put((17, 1), 0, [0, 0x13]).put((17, 1), 18, [17, 4])
    return image.put((17, 0), 0, [17, 4]).put((17, 0), 254, [0xFF, 0]).save(target)


def played(program, path, target, line):
    """The disk after one message."""
    target.write_bytes(path.read_bytes())
    said = target.with_suffix(".txt")
    said.write_text(line + "\n")
    disks.call(program, "play", target, said)
    return target


def made_disks(program, folder):
    """The disks of the documents: the picture's name, the image or two that are compared, the verdict, and whether words stand
    beside it."""
    sound = disks.customers(folder, folder / "customers.d64")
    yield "customers", sound, "OK", True
    for word in ("MAPWRONG", "COUNTWRONG", "BADSIDE", "BADLINK", "LOOP", "OWNEDTWICE", "UNCLOSED", "BADTYPE", "BADLENGTH"):
        yield word.lower(), disks.FAULTS[word](sound).save(folder / f"{word}.d64"), word, False
    yield "shop", disks.shop_after_a_day(program, folder / "shop.d64"), "OK", True
    fresh = disks.blank(program, folder / "fresh.d64", 2)
    yield "fresh", fresh, "OK", False
    yield "growth_cut", cut_growth(fresh, folder / "cut.d64"), "MAPWRONG", False
    yield "count_behind", cut_before_count(fresh, folder / "behind.d64"), "COUNTWRONG", False
    yield "grown", played(program, fresh, folder / "grown.d64", "1,1,S,15,7"), "OK", False
    yield "creation_cut", cut_creation(fresh, folder / "creation_cut.d64"), "MAPWRONG", False
    yield "created", created(program, fresh, folder / "created.d64"), "OK", False
    yield "compared", (disks.blank(program, folder / "morning.d64", 4), folder / "shop.d64"), "OK", False


def see_disks(folder):
    """Compares the disks of examples/disks with those that are made anew."""
    names = disks.example_disks(folder)
    stale = [name for name in names if (DISKS / f"{name}.d64").read_bytes() != (folder / f"{name}.d64").read_bytes()]
    want(not stale, f"examples/disks has other disks: {' '.join(stale)}")
    return len(names)


def see_documents(wanted):
    """Compares the pictures that the documents show with those that there are."""
    shown = {FOLDER / name for document in DOCUMENTS.glob("*.md")
             for name in re.findall(r"\(pictures/([^)]*)\)", document.read_text())}
    want(shown == wanted, f"the documents show other pictures: {' '.join(sorted(file.name for file in shown ^ wanted))}")


def main(given):
    need(*disks.TOOLS)
    program, only_check = given.program, given.check
    stale, wanted = [], set()
    with tempfile.TemporaryDirectory() as folder:
        for name, image, verdict, with_words in made_disks(program, Path(folder)):
            words = ["--compare", *image] if isinstance(image, tuple) else [image]
            page = Page(subprocess.run([program, "picture", *words], stdout=subprocess.PIPE, timeout=60).stdout)
            want(page.verdict.split()[0] == verdict, f"{name}: {page.verdict} in place of {verdict}")
            text = svg_text(page, with_words)
            want(len(text) < LARGEST, f"{name}: {len(text)} bytes")
            file = FOLDER / f"{name}.svg"
            wanted.add(file)
            if not file.exists() or file.read_text() != text:
                stale.append(file.name)
            if not only_check:
                FOLDER.mkdir(exist_ok=True)
                file.write_text(text)
        disks_seen = see_disks(Path(folder))
    stale += [file.name for file in FOLDER.glob("*.svg") if file not in wanted]
    if only_check and stale:
        differs(f"not what the program draws: {' '.join(stale)}")
    see_documents(wanted)
    print(f"guide_pictures: {len(wanted)} pictures, " + (
        f"all as the program draws them, and {disks_seen} sample disks: no difference" if only_check
        else f"{len(stale)} of them new"))
    return len(wanted) + disks_seen


if __name__ == "__main__":
    conduct(main, lambda parser: parser.add_argument("--check", action="store_true", help="only compare"))
