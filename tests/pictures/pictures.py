#!/usr/bin/python3
"""Looks at the pages of `picture` as a keeper does, with a real browser:

    tests/pictures/pictures.py PROGRAM [--folder FOLDER]

In FOLDER, where it is given, images, pages and what the browser shows of them are kept. It wants Debian's packages chromium,
librsvg2-bin, poppler-utils, inkscape, python3-pil, cc1541 and cbmconvert.

The disks: a blank one, a shop after the README's day, a full one, the same with a map that calls each sector free; one of
cc1541 (types, locked, unclosed, a separator, a scratched entry), one of cbmconvert with relative files, one of both; one
with names of markup, its own name too; that of both with each of the nine faults; and three of 144 entries. Of each:
- at the middle of each of the 683 sectors Chromium shows the colour of the owner that `map` gives, red where it has `!`,
  white where the sector is in use and the map of the disk calls it free, with the owner's colour beside the line; what
  librsvg draws shows the same;
- pointing at a sector's middle finds its title; beneath a fault its owner's; a click on a name fades all other files;
- on a phone the page has one column and nothing beyond the edge; in the dark each sector has the dark page's colour; printed
  it takes one sheet, with the colours of all files in their lines; a screen reader meets one image with a sentence, and no
  sector; by keyboard each file is one stop, and Enter shows it alone;
- the poster (`picture --svg`) is to the byte that of pages.py, leads nowhere, and Chromium, librsvg and Inkscape show each
  sector in the same colours as on the page;
- a contact sheet of 100 images, two of them refused, is to the byte that of pages.py, printed in less than a second; each
  sector of eight small drawings has its shade's colour in Chromium, and each drawing less than 12,000 bytes;
- eight comparisons (`picture --compare`) are to the byte those of pages.py; librsvg and Chromium, in the light, in the dark and on
  paper, show a mark on each sector that differs, and on no other; the page fits a phone, and one sheet of paper with the colours of
  the files that changed; the rows in the browser are those of the files and records that changed;
- elements and attributes of the page in the browser are the page's own, and names are shown as they are typed, and as a C64 shows
  them where that differs;
- the page names nothing outside of itself, asks for nothing but itself (the browser's own account, and a proxy on the
  loopback that it would have to ask), logs nothing and runs nothing; a page that does all this is heard;
- it has less than 165,000 bytes, that of a disk made to have the longest page too;
- a frame is shown in less than a second after all of it was read, by the browser's clock, which begins when the page is
  asked for: the least of three times, or of ten where other work slows them.
Nothing leaves the machine."""

import json
import math
import re
import subprocess
import sys
import tempfile
import time
from pathlib import Path

from PIL import Image

sys.dont_write_bytecode = True
sys.path.insert(0, str(Path(__file__).resolve().parents[1] / "lib"))
import disks
from browser import Browser, Proxy
from comparisons import BLACK, see_comparison
from drawn import PLACES, Disk, sectors_on
from palette import DARKER, LIGHT, rgb
from pages import Page, fault_of, verdict_of
from renderings import see_dark, see_keys, see_label, see_paper, see_phone, see_poster, see_sheet
from served import run, want
from trial import at, conduct, need

LARGEST = 165_000
SLOWEST = 1.0
# dots of the screen for a pixel of the page: a ring is 27 dots wide then
DOTS = 4
# half of the drawing's width in its own units, and how far rings are from each other
HALF = 36600
RING = 800
RIM = 35700
# beside a white line, and still on the sector, for each of the four shapes of files
BESIDE = (225, 225, 150, 225)
# how far two colours may be from each other, of 255
NEAR = 2

SYSTEM = {"map": (0x16, 0x16, 0x16), "dir": (0x5E, 0x5E, 0x5E), "free": (0xE8, 0xE4, 0xD9), "lost": (0x98, 0x98, 0xAA)}
RED, WHITE = (0xD4, 0, 0), (255, 255, 255)

# what the page's own markup is: each element's attributes, sorted
MARKUP = {
    "html": ["lang"], "head": [], "title": [], "style": [], "body": [], "h1": [], "bdi": [], "b": [], "main": [], "div": [], "ul": [],
    "table": [], "tbody": [], "tr": [], "th": [], "td": [], "text": ["y"], "path": ["d"], "li": ["class"], "a": ["href"]}
RING_ATTRIBUTES = ["r", "stroke-dashoffset"]
VARIED = {"g": [["aria-hidden", "transform"], ["id"], ["class", "id"], ["class"]], "i": [[], ["class"]], "p": [[], ["class"]],
          "meta": [["charset"], ["content", "name"]],
          "svg": [["aria-label", "role", "viewBox"], ["height", "viewBox", "width", "x", "y"]],
          "circle": [RING_ATTRIBUTES, ["class", *RING_ATTRIBUTES], ["r", "style"],
                     ["class", "r", "stroke-dasharray", "stroke-dashoffset"]]}


def file_colour(number, side):
    """The colour of an entry, and darker that of its side sectors."""
    colour = rgb(LIGHT[number % len(LIGHT)])
    return tuple(round(DARKER * part) for part in colour) if side else colour


def middle(place, radius_more=0, radius=None):
    """Where the middle of a sector is, in the drawing's units: track 1 outside, sector 0 from the top, clockwise."""
    track, sector = place
    at = (radius or 35400 - RING * track) + radius_more
    turn = 2 * math.pi * (sector + 0.5) / sectors_on(track)
    return at * math.sin(turn), -at * math.cos(turn)


def near(one, other):
    return all(abs(a - b) <= NEAR for a, b in zip(one, other))


class Wanted:
    """What is to be seen of a disk at each place, by the rules; the map has to be so too."""

    def __init__(self, name, image, lines):
        self.disk = Disk(image)
        self.verdict = lines[-2] if fault_of(lines[-2]) else lines[-1]
        self.fault = fault_of(self.verdict)
        tracks = self.disk.map_lines(self.fault)
        for line, wanted in zip(lines, tracks):
            want(line == wanted, f"{name}: {line} in the map in place of {wanted}")

    def is_open(self, place):
        """Whether a white line is to be seen: in use, and free in the map."""
        return place != self.fault and self.disk.is_free(place) and place in self.disk.owner

    def beside(self, place):
        """How far outwards of its middle a sector is seen beside its white line: on both sides, but for that of a fault on
        the next ring, whose white edge comes as far as there."""
        beside = BESIDE[0 if self.disk.class_of(place) else self.disk.owner[place][0] // 12 % 4]
        inwards = place[0] - self.fault[0] if self.fault else 0
        return (beside, -beside) if abs(inwards) != 1 else (-beside * inwards,)

    def owner_colour(self, place):
        named = self.disk.class_of(place)
        if named:
            return SYSTEM[named]
        number, kind, _ = self.disk.owner[place]
        return file_colour(number, kind == "side")

    def colour(self, place):
        if place == self.fault:
            return RED
        return WHITE if self.is_open(place) else self.owner_colour(place)

    def title(self, place):
        if place == self.fault:
            return self.verdict
        return self.disk.title(place)


class Seen:
    """The colours of a drawing, by an image of it."""

    def __init__(self, image):
        self.image = image.convert("RGB")

    def at(self, point):
        return self.image.getpixel(tuple(int((at + HALF) * self.image.width / (2 * HALF)) for at in point))


def see_colours(name, seen, wanted, who):
    """Compares the colour at the middle of each sector, beside each white line, and of the mark at the rim."""
    for place in PLACES:
        colour = seen.at(middle(place))
        want(near(colour, wanted.colour(place)), f"{name}: {who} shows {colour} at {place}, wanted {wanted.colour(place)}")
        if wanted.is_open(place):
            for more in wanted.beside(place):
                colour = seen.at(middle(place, more))
                want(near(colour, wanted.owner_colour(place)), f"{name}: {who} shows {colour} beside the line of {place}")
    if wanted.fault:
        want(near(seen.at(middle(wanted.fault, radius=RIM)), RED), f"{name}: {who} has no mark at the rim")


TITLES = """(points => points.map(([x, y]) => {
    const found = document.elementFromPoint(x, y), title = found && found.querySelector(":scope > title");
    return title ? title.textContent : found && found.tagName }))"""


def see_titles(name, browser, box, wanted):
    """Compares what is said on pointing at the middle of each sector."""
    def on_page(point):
        return [box[axis] + (at + HALF) * box["width"] / (2 * HALF) for axis, at in zip("xy", point)]

    looked = [(place, 0, wanted.title(place)) for place in PLACES]
    looked += [(place, more, wanted.disk.title(place))
               for place in PLACES if wanted.is_open(place) for more in wanted.beside(place)]
    points = [on_page(middle(place, more)) for place, more, _ in looked]
    for (place, _, title), said in zip(looked, browser.value(f"{TITLES}({json.dumps(points)})")):
        want(said == title, f"{name}: at {place} is said {said!r}, wanted {title!r}")
    if wanted.fault:
        x, y = on_page(middle(wanted.fault))
        under = browser.value(f"document.elementsFromPoint({x}, {y}).map(e => e.textContent)")
        want(wanted.disk.title(wanted.fault) in under, f"{name}: no owner is drawn beneath the fault")


def see_markup(name, browser, wanted):
    """Compares the elements of the page, each with its attributes, with the page's own, and the names shown."""
    elements = browser.value("[...document.querySelectorAll('*')].map(e => [e.tagName, e.getAttributeNames().sort()])")
    for tag, attributes in elements:
        tag = tag if tag in MARKUP else tag.lower()
        own = VARIED.get(tag) or [MARKUP.get(tag)]
        want(attributes in own, f"{name}: a foreign element {tag} {attributes}")
    shown = browser.value("[document.querySelector('title').textContent, document.querySelector('h1').firstChild.textContent, "
                          "document.querySelector('svg text').textContent, "
                          "...[...document.querySelectorAll('td a')].map(e => e.textContent)]")
    want(shown == [wanted.disk.disk_name()] * 3 + [entry.shown for entry in wanted.disk.entries], f"{name}: names {shown}")
    signs = browser.value("[...document.querySelectorAll('bdi')].map(e => e.textContent)")
    want(signs == [wanted.disk.disk_signs()] + [entry.signs for entry in wanted.disk.entries], f"{name}: signs {signs}")
    return len(elements)


def see_links(name, browser, wanted):
    """Clicks on each name: it alone is shown then, as the fault is."""
    for number in range(len(wanted.disk.entries)):
        browser.value(f"document.querySelectorAll('td a')[{number}].click()")
        faded = browser.value("[...document.querySelectorAll('svg g g')].map(e => [e.id, getComputedStyle(e).opacity])")
        for group, opacity in faded:
            want(opacity == ("1" if group in (f"f{number}", "f") else "0.15"), f"{name}: {group} has opacity {opacity}")


def drawn_in(browser, url):
    """How long it takes from the beginning of a page's opening until a frame is shown after all of it was read, in
    seconds: the least of three times, or of ten where other work slows them."""
    times = []
    while len(times) < 3 or min(times) >= SLOWEST and len(times) < 10:
        browser.open(url)
        times.append(browser.value("new Promise(done => requestAnimationFrame(() => requestAnimationFrame("
                                   "() => done(performance.now()))))") / 1000)
    return min(times)


def svg_of(page):
    """The drawing of a page as a file of its own, with the page's style."""
    text = page.decode()
    drawing = re.search(r"<svg (.*)</svg>\n<div>", text, re.S).group(1)
    style = re.search(r"<style>(.*?)</style>", text, re.S).group(1)
    head, _, rest = drawing.partition(">")
    return f'<svg xmlns="http://www.w3.org/2000/svg" {head}><style>{style}</style>{rest}</svg>'


def by_librsvg(page, folder):
    """The drawing as librsvg draws it."""
    (folder / "drawing.svg").write_text(svg_of(page))
    side = str(720 * DOTS)
    subprocess.run(["rsvg-convert", "-w", side, "-h", side, "-b", "#fbfaf7", "-o", folder / "drawing.png",
                    folder / "drawing.svg"], check=True)
    return Seen(Image.open(folder / "drawing.png"))


def by_chromium(browser, box, file):
    """The drawing as Chromium draws it, whose place in the page this is; kept in a file."""
    picture = browser.shot(box["x"], box["y"], box["width"], box["width"])
    picture.save(file)
    return Seen(picture)


def see_page(program, browser, proxy, name, path, folder):
    """Looks at one disk; gives the greatest distance of the two colours of a sector, times and size."""
    status, lines, _ = run(program, "map", path)
    done = subprocess.run([program, "picture", path], capture_output=True, timeout=60)
    page = done.stdout
    want(done.returncode == status and status == (0 if lines[-1] == "OK" else 1), f"{name}: statuses")
    want(len(page) < LARGEST, f"{name}: {len(page)} bytes")
    references = re.findall(rb"(?:src|href|url|import|action|data)\s*[=(]\s*\"?([^\">]*)", page)
    want(all(re.fullmatch(rb"#(f\d+|all)", found) for found in references), f"{name}: leads out of the page: {references}")
    wanted = Wanted(name, path.read_bytes(), lines)
    file = folder / f"{name}.html"
    file.write_bytes(page)

    browser.scale(1)
    seconds = drawn_in(browser, file.as_uri())
    browser.scale(DOTS)
    browser.open(file.as_uri())
    # a drawing is put on whole pixels
    box = browser.value("(r => ({x: Math.round(r.x), y: Math.round(r.y), width: r.width}))"
                        "(document.querySelector('svg').getBoundingClientRect())")
    chromium, librsvg = by_chromium(browser, box, folder / f"{name}.png"), by_librsvg(page, folder)
    see_colours(name, chromium, wanted, "Chromium")
    see_colours(name, librsvg, wanted, "librsvg")
    middles = [middle(place) for place in PLACES]
    apart = max(abs(a - b) for point in middles for a, b in zip(chromium.at(point), librsvg.at(point)))
    see_titles(name, browser, box, wanted)
    elements = see_markup(name, browser, wanted)
    see_links(name, browser, wanted)
    want(browser.requests() == [file.as_uri()], f"{name}: the page asks for {browser.requests()}")
    want(browser.complaints() == [], f"{name}: {browser.complaints()}")
    want(proxy.asked == [], f"{name}: asked of the proxy {proxy.asked}")
    want(seconds < SLOWEST, f"{name}: drawn in {seconds:.2f} s")
    see_renderings(program, browser, name, path, wanted, file, folder)
    print(f"{name}: {wanted.verdict}, {len(page)} bytes, {elements} elements, on the screen after {1000 * seconds:.0f} ms, "
          f"colours at most {apart} of 255 apart", flush=True)
    return apart, seconds, len(page)


def see_renderings(program, browser, name, path, wanted, file, folder):
    """Looks at the page on a phone, in the dark, on paper, by keyboard and as it is read out; and at the poster."""
    url = file.as_uri()
    see_phone(name, browser, url)
    browser.scale(DOTS)

    def seen_now():
        box = browser.value("(r => ({x: Math.round(r.x), y: Math.round(r.y), width: r.width}))"
                            "(document.querySelector('svg').getBoundingClientRect())")
        seen = by_chromium(browser, box, folder / f"{name}, dark.png")
        return [seen.at(middle(place)) for place in PLACES]

    see_dark(name, browser, url, wanted, seen_now)
    browser.scale(1)
    see_paper(name, browser, url, range(len(wanted.disk.entries)), folder, LIGHT)
    see_label(name, browser, url)
    see_keys(name, browser, url, wanted)
    see_poster(name, program, path, path.read_bytes(), wanted.verdict, folder, browser,
               lambda picture, who: see_colours(name, Seen(picture), wanted, who))


def see_comparisons(program, browser, made, pages, folder):
    """Compares disks of those that were made; gives how many pairs, and how many sectors differ in all."""
    by_name = dict(zip((name for name, _ in made), pages))

    def looks(file, page):
        librsvg = by_librsvg(page, folder)
        yield "librsvg", lambda place: librsvg.at(middle(place)), BLACK
        dark = [{"name": "prefers-color-scheme", "value": "dark"}]
        for who, mark, media in (("Chromium, in the dark,", WHITE, {"features": dark}), ("Chromium, on paper,", BLACK, {"media": "print"}),
                                 ("Chromium", BLACK, {})):
            browser.ask("Emulation.setEmulatedMedia", **{"media": "", "features": [], **media})
            browser.scale(DOTS)
            browser.open(file.as_uri())
            box = browser.value("(r => ({x: Math.round(r.x), y: Math.round(r.y), width: r.width}))"
                                "(document.querySelector('svg').getBoundingClientRect())")
            chromium = by_chromium(browser, box, file.with_suffix(".png"))
            yield who, lambda place: chromium.at(middle(place)), mark

    pairs = [("both", "both"), ("blank", "shop"), ("shop", "full"), ("both", "loop"), ("mapwrong", "both"), ("both", "names"),
             ("cc1541", "cbmconvert"), ("every byte", "crowded")]
    counted = [see_comparison(program, browser, f"{one} and {other}", by_name[one], by_name[other], folder, looks)
               for one, other in pairs]
    want(counted[0] == 0, "a disk differs from itself")
    return len(pairs), sum(counted)


def see_control(browser, proxy, folder):
    """A page that does ask, so that silence says something: both counters have to hear it."""
    file = folder / "control.html"
    file.write_text('<!DOCTYPE html>\n<html lang="en"><img src="http://example.invalid/x">\n<script>console.log(1)</script>\n')
    browser.open(file.as_uri())
    until = time.monotonic() + 10
    while not proxy.asked and time.monotonic() < until:
        time.sleep(0.05)
    want(len(browser.requests()) == 2 and browser.complaints() and proxy.asked, "a page that asks isn't heard")


def made_disks(program, folder):
    """The disks, by their names."""
    sound = disks.customers(folder, folder / "sound.d64")
    yield "blank", disks.blank(program, folder / "blank.d64")
    yield "shop", disks.shop_after_a_day(program, folder / "shop.d64")
    full = disks.full_shop(program, folder / "full.d64")
    yield "full", full
    yield "full, all free", disks.with_all_free(full).save(folder / "full_free.d64")
    yield "cc1541", disks.of_cc1541(folder, folder / "cc1541.d64")
    yield "cbmconvert", disks.of_cbmconvert(folder, folder / "cbmconvert.d64")
    yield "both", sound
    yield "names", disks.named(sound, folder / "names.d64")
    for word, hurt in disks.FAULTS.items():
        yield word.lower(), hurt(sound).save(folder / f"{word.lower()}.d64")
    yield "crowded", disks.crowded(folder, folder / "crowded.d64", b"A PROGRAM OF '87")
    yield "every byte", disks.with_every_byte(folder / "crowded.d64", folder / "every_byte.d64")
    yield "crowded by &", disks.crowded(folder, folder / "crowded_by.d64", b"&" * 16)
    yield "longest page", disks.of_longest_page(full, folder / "longest.d64")


def seen_all(program, folder):
    proxy = Proxy()
    with tempfile.TemporaryDirectory() as home:
        browser = Browser(home, proxy)
        try:
            made = list(made_disks(program, folder))
            seen = [see_page(program, browser, proxy, name, path, folder) for name, path in made]
            verdicts = [verdict_of(run(program, "check", path, path)[1]) for _, path in made]
            pages = [(path, Page(path.read_bytes(), verdict)) for (_, path), verdict in zip(made, verdicts)]
            seconds, size = see_sheet(program, browser, pages, folder, LIGHT)
            print(f"sheet of 100 images: {size} bytes in {1000 * seconds:.0f} ms", flush=True)
            pairs, marked = see_comparisons(program, browser, made, pages, folder)
            print(f"{pairs} comparisons, {marked} sectors that differ", flush=True)
            see_control(browser, proxy, folder)
        finally:
            browser.close()
            proxy.close()
    apart, slowest, largest = map(max, zip(*seen))
    print(f"pictures: {len(seen)} disks, {len(PLACES) * len(seen)} sectors, each with its colour in Chromium and librsvg (at most "
          f"{apart} of 255 apart) and its title; {pairs} comparisons, each to the byte and with its marks; no request left a page; the largest has {largest} bytes, the slowest was "
          f"on the screen after {1000 * slowest:.0f} ms: no difference")
    return len(PLACES) * len(seen) + pairs


def main(given):
    need("chromium", "rsvg-convert", "pdftoppm", "inkscape", "cc1541", "cbmconvert")
    if given.folder:
        given.folder.mkdir(parents=True, exist_ok=True)
        return seen_all(given.program, given.folder)
    with tempfile.TemporaryDirectory() as work:
        return seen_all(given.program, Path(work))


if __name__ == "__main__":
    conduct(main, lambda parser: parser.add_argument("--folder", type=Path, help="where images, pages and pictures are kept"))
