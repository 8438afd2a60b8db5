"""What a browser shows of a page on a phone, in the dark, on paper, to a screen reader and by keyboard; and what it and librsvg show
of a poster. For pictures.py, which has the disks."""

import base64
import re
import subprocess
import time
import xml.etree.ElementTree as tree

from PIL import Image

from drawn import PLACES
from pages import Page, fault_of, refused_tile, sheet
from palette import DARK, DARKER, rgb
from served import want

PHONE = {"width": 390, "height": 844, "deviceScaleFactor": 2, "mobile": True}
DARK_SYSTEM = {"map": (255, 255, 255), "dir": (0x9A, 0xA0, 0xAA), "free": (0x2A, 0x2D, 0x34), "lost": (0xA2, 0x9C, 0x93)}
DARK_RED = (0xFF, 0x4A, 0x3D)
# pixels for a unit of the poster, so that the drawing stands on whole pixels
UNIT = 12
LEFT, TOP, SIDE = 23.5, 44, 250
SVG = "{http://www.w3.org/2000/svg}"
NEAR = 2


def near(one, other, most=NEAR):
    return all(abs(a - b) <= most for a, b in zip(one, other))


def see_phone(name, browser, url):
    """One column, nothing beyond the screen's edge, and text that can be read."""
    browser.ask("Emulation.setDeviceMetricsOverride", **PHONE)
    browser.open(url)
    width, letters, drawing = browser.value(
        "[document.documentElement.scrollWidth, parseFloat(getComputedStyle(document.body).fontSize), "
        "document.querySelector('svg').getBoundingClientRect().width]")
    want(width <= 390, f"{name}: on a phone the page is {width} wide")
    want(letters >= 12, f"{name}: on a phone letters have {letters}")
    want(drawing >= 340, f"{name}: on a phone the drawing is {drawing} wide")


def dark_colour(wanted, place):
    """A sector's colour in the dark."""
    if place == wanted.fault:
        return DARK_RED
    if wanted.is_open(place):
        return (255, 255, 255)
    named = wanted.disk.class_of(place)
    if named:
        return DARK_SYSTEM[named]
    number, kind, _ = wanted.disk.owner[place]
    colour = rgb(DARK[number % 12])
    return tuple((part + 255) // 2 for part in colour) if kind == "side" else colour


def see_dark(name, browser, url, wanted, seen_at):
    """The other twelve colours, on a dark page. `seen_at` gives the colours of the sectors' middles as they are shown now."""
    dark = [{"name": "prefers-color-scheme", "value": "dark"}]
    browser.ask("Emulation.setEmulatedMedia", features=dark)
    browser.open(url)
    ground = browser.value("getComputedStyle(document.body).backgroundColor")
    want(ground == "rgb(21, 23, 27)", f"{name}: in the dark the page is {ground}")
    for place, colour in zip(PLACES, seen_at()):
        want(near(colour, dark_colour(wanted, place)),
             f"{name}: in the dark {place} is {colour}, wanted {dark_colour(wanted, place)}")
    browser.ask("Emulation.setEmulatedMedia", features=[])


def see_paper(name, browser, url, numbers, folder, colours):
    """One sheet of paper, with the colours of the files with these numbers outside of the drawing too."""
    browser.open(url)
    answer = browser.ask("Page.printToPDF", preferCSSPageSize=True)
    file = folder / "paper.pdf"
    file.write_bytes(base64.b64decode(answer["data"]))
    sheets = len(re.findall(rb"/Type\s*/Page\b(?!s)", file.read_bytes()))
    want(sheets == 1, f"{name}: {sheets} sheets of paper")
    subprocess.run(["pdftoppm", "-r", "200", "-singlefile", "-png", file, folder / "paper"], check=True)
    paper = Image.open(folder / "paper.png").convert("RGB")
    below = paper.crop((0, paper.height * 54 // 100, paper.width, paper.height))
    found = {colour for _, colour in below.getcolors(1 << 24)}
    for number in numbers:
        colour = rgb(colours[number % 12])
        want(any(near(colour, one, 4) for one in found), f"{name}: on paper file {number} has no {colour} in its line")


def see_label(name, browser, url):
    """To a screen reader the drawing is one image with a sentence, and the table has the files."""
    browser.open(url)
    nodes = browser.ask("Accessibility.getFullAXTree")["nodes"]
    roles = [(node["role"]["value"], node.get("name", {}).get("value", "")) for node in nodes
             if not node.get("ignored") and "role" in node]
    images = [text for role, text in roles if role in ("image", "img")]
    want(images == ["The disk as 35 rings of sectors, each in the colour of its file; the table lists the files"],
         f"{name}: images with the labels {images}")
    symbols = sum(role.startswith("graphics") or role.lower().startswith("svg") for role, _ in roles)
    want(symbols == 0, f"{name}: {symbols} parts of the drawing are read out")
    return len(images)


def see_keys(name, browser, url, wanted):
    """By keyboard each file is one stop, and its sectors are shown alone."""
    browser.open(url)
    stops = browser.value("[...document.querySelectorAll('a[href],[tabindex]')].filter(e => getComputedStyle(e).visibility "
                          "=== 'visible').map(e => e.getAttribute('href'))")
    want(stops == [f"#f{number}" for number in range(len(wanted.disk.entries))], f"{name}: stops by keyboard: {stops[:5]}")
    for number in range(min(2, len(stops))):
        browser.value(f"document.querySelectorAll('td a')[{number}].focus()")
        for kind in ("rawKeyDown", "char", "keyUp"):
            browser.ask("Input.dispatchKeyEvent", type=kind, key="Enter", code="Enter", text="\r", windowsVirtualKeyCode=13)
        browser.value("new Promise(done => requestAnimationFrame(() => requestAnimationFrame(done)))")
        shown = browser.value("[location.hash, getComputedStyle(document.querySelector('.all')).visibility]")
        want(shown == [f"#f{number}", "visible"], f"{name}: the key Enter shows {shown}")


def see_poster(name, program, path, image, verdict, folder, browser, compare):
    """A poster is to the byte what the rules make of the image, and is drawn alike by the browser and by librsvg. `compare` gets each
    picture of the drawing, and who drew it."""
    done = subprocess.run([program, "picture", "--svg", path], capture_output=True, timeout=60)
    want(done.stdout.decode() == Page(image, verdict).poster(), f"{name}: the poster differs from that of pages.py")
    want(done.returncode == (1 if fault_of(verdict) else 0), f"{name}: the poster's status is {done.returncode}")
    root = tree.fromstring(done.stdout)
    want(root.get("viewBox") == "0 0 297 420" and root.find(f"{SVG}title") is not None, f"{name}: the poster's size, or title")
    want(not re.search(rb"href|url\((?!#n\))|@import|<script", done.stdout), f"{name}: the poster leads out of itself")
    file = folder / f"{name}.svg"
    file.write_bytes(done.stdout)
    browser.open(file.as_uri())
    want(browser.complaints() == [] and browser.requests() == [file.as_uri()], f"{name}: the poster asks or complains")
    wall = folder / "wall.html"
    wall.write_text(f'<!DOCTYPE html>\n<body style="margin:0"><img src="{file.name}" width="{297 * UNIT}" height="{420 * UNIT}">')
    browser.ask("Emulation.setDeviceMetricsOverride", width=297 * UNIT, height=420 * UNIT, deviceScaleFactor=1, mobile=False)
    browser.open(wall.as_uri())
    left, top, side = (round(UNIT * part) for part in (LEFT, TOP, SIDE))
    compare(browser.shot(left, top, side, side), "Chromium, on the poster,")
    subprocess.run(["rsvg-convert", "-w", str(297 * UNIT), "-o", folder / "poster.png", file], check=True)
    whole = Image.open(folder / "poster.png").convert("RGB")
    compare(whole.crop((left, top, left + side, top + side)), "librsvg, on the poster,")
    # it complains about a desktop that isn't there, and draws
    subprocess.run(["inkscape", "--export-type=png", "-w", str(297 * UNIT), "-o", folder / "inkscape.png", file], check=True,
                   capture_output=True)
    whole = Image.open(folder / "inkscape.png").convert("RGB")
    compare(whole.crop((left, top, left + side, top + side)), "Inkscape, on the poster,")
    entries = Page(image, verdict).disk.entries
    lines = [part.find(f"{SVG}text").text or "" for part in root.iter(f"{SVG}g") if part.get("clip-path") == "url(#n)"]
    want(lines == [entry.shown for entry in entries], f"{name}: the poster's lines {lines}")
    signs = [part.text or "" for part in root.iter(f"{SVG}text") if part.get("x") == "41.5"]
    want(signs == [entry.signs for entry in entries], f"{name}: the poster's signs {signs}")


# of a small drawing the widest stroke's middle, and how many pixels a unit of it has in a browser's picture
STROKE, SMALL = 0.4, 16
# the shades of a contact sheet, as specs/Sheets.antt names them
SHEET_SYSTEM = [(0xD4, 0, 0), (0x16, 0x16, 0x16), (0x5E, 0x5E, 0x5E), (0xE8, 0xE4, 0xD9), (0x98, 0x98, 0xAA)]
MOST_SMALL, MOST_SECONDS = 12_000, 1.0


def shade_colour(number, colours):
    """The colour of a shade: of the system, of a file, or half as light of its side sectors."""
    if number < 5:
        return SHEET_SYSTEM[number]
    colour = rgb(colours[(number - 5) % 12])
    return colour if number < 17 else tuple(round(DARKER * part) for part in colour)


def see_small(name, browser, number, page, colours):
    """Each sector of a small drawing has its shade's colour in the browser."""
    box = browser.value(f"(r => ({{x: r.x, y: r.y, width: r.width}}))(document.querySelectorAll('figure svg')[{number}]"
                        ".getBoundingClientRect())")
    scale = box["width"] / 37
    picture = browser.shot(box["x"], box["y"], box["width"], 23 * scale).convert("RGB")
    dots = picture.width / 37
    for place in PLACES:
        track, sector = place
        colour = picture.getpixel((int((track + STROKE) * dots), int((sector + 1) * dots)))
        wanted = shade_colour(page.shade(place), colours)
        want(near(colour, wanted, 3), f"{name}: on the sheet {place} is {colour}, wanted {wanted}")


def see_sheet(program, browser, pages, folder, colours):
    """A contact sheet of 100 images is to the byte what the rules make of them, in the order that was given, with a tile for each that
    is refused; it is printed in less than a second, asks for nothing, and fits a phone. `pages` are paths and their pages."""
    empty, missing = folder / "empty.d64", folder / "missing.d64"
    empty.write_bytes(b"")
    tiles = [(path, page.tile(path), page) for path, page in pages]
    tiles += [(empty, refused_tile(empty, "IMAGE SIZE"), None), (missing, refused_tile(missing, "FILE"), None)]
    hundred = [tiles[number % len(tiles)] for number in range(100)]
    started = time.monotonic()
    done = subprocess.run([program, "picture", "--sheet", *(path for path, _, _ in hundred)], capture_output=True, timeout=60)
    seconds = time.monotonic() - started
    want(done.stdout.decode() == sheet([tile for _, tile, _ in hundred]), "the sheet differs from that of pages.py")
    want(done.returncode == 3 and done.stderr == b"", f"the sheet's status is {done.returncode}, and it tells {done.stderr}")
    want(seconds < MOST_SECONDS, f"the sheet took {seconds:.2f} s")
    for tile in re.findall(rb"<svg viewBox=\"0 -1.*?</svg>", done.stdout):
        want(len(tile) < MOST_SMALL, f"a small drawing has {len(tile)} bytes")
    file = folder / "sheet.html"
    file.write_bytes(done.stdout)
    browser.ask("Emulation.setDeviceMetricsOverride", width=37 * SMALL * 2 + 200, height=4200, deviceScaleFactor=2, mobile=False)
    browser.open(file.as_uri())
    browser.value("document.querySelector('main').style.gridTemplateColumns = '%dpx'" % (37 * SMALL))
    for number in range(min(8, len(pages))):
        see_small("sheet", browser, number, pages[number][1], colours)
    counted = browser.value("[document.querySelectorAll('figure').length, document.querySelectorAll('figure svg').length]")
    want(counted == [100, sum(page is not None for _, _, page in hundred)], f"the sheet has {counted} tiles and drawings")
    browser.ask("Emulation.setDeviceMetricsOverride", **PHONE)
    browser.open(file.as_uri())
    width = browser.value("document.documentElement.scrollWidth")
    want(width <= 390, f"on a phone the sheet is {width} wide")
    want(browser.requests() == [file.as_uri()] and browser.complaints() == [], "the sheet asks or complains")
    return seconds, len(done.stdout)
