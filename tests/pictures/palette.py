#!/usr/bin/env python3
"""The colours of a picture's files, and a check of them:

    tests/pictures/palette.py PROGRAM

PROGRAM is what `tools/program` prints. The style of the page that `picture` prints of a blank disk has these colours, in
its light and in its dark part. Of each part is computed: how far each two files' colours are from each other (CIEDE2000)
for people with normal sight and for people without one kind of cones (protanopia, deuteranopia, tritanopia, simulated by
the matrices of Machado, Oliveira and Fernandes, 2009), how far they are from the map's, the directory's, the
fault's, and that of sectors which are taken and in no file; the contrast of each to the colour of free sectors, and that
of all text to the page (WCAG 2). The status is 1 where a distance is below 10, a contrast of a file below 3, or one of a text below 4.5."""

import itertools
import math
import re
import subprocess
import sys
import tempfile
from pathlib import Path

sys.dont_write_bytecode = True
sys.path.insert(0, str(Path(__file__).resolve().parents[1] / "lib"))
from trial import conduct

LIGHT = "#8c8259 #1c9182 #4b75ff #e320ba #406c83 #716046 #3a4353 #4a3934 #0c0bca #5d0476 #630a00 #041c33".split()
DARK = "#627c6e #85748f #aa46f5 #2fa067 #7b92c5 #2fcd81 #96baff #d2bf02 #c9c5be #c4d2e6 #a5fdbe #fff700".split()
# a side sector's brightness beside its file's, on a light page
DARKER = 0.55
SIGHTS = {
    "normal sight": ((1, 0, 0), (0, 1, 0), (0, 0, 1)),
    "protanopia": ((0.152286, 1.052583, -0.204868), (0.114503, 0.786281, 0.099216), (-0.003882, -0.048116, 1.051998)),
    "deuteranopia": ((0.367322, 0.860646, -0.227968), (0.280085, 0.672501, 0.047413), (-0.011820, 0.042940, 0.968881)),
    "tritanopia": ((1.255528, -0.076749, -0.178779), (-0.078411, 0.930809, 0.147602), (0.004733, 0.691367, 0.303900))}


def rgb(colour):
    """The three parts of a colour as `#rrggbb` or `#rgb`, 0 to 255."""
    digits = colour[1:] if len(colour) == 7 else "".join(2 * digit for digit in colour[1:])
    return tuple(int(digits[at:at + 2], 16) for at in (0, 2, 4))


def linear(colour):
    parts = (part / 255 for part in rgb(colour))
    return [part / 12.92 if part <= 0.04045 else ((part + 0.055) / 1.055) ** 2.4 for part in parts]


def contrast(one, other):
    """The contrast of two colours, 1 to 21, as WCAG 2 defines it."""
    bright = sorted(sum(a * b for a, b in zip((0.2126, 0.7152, 0.0722), linear(colour))) for colour in (one, other))
    return (bright[1] + 0.05) / (bright[0] + 0.05)


def lab(colour, sight):
    """CIE L*a*b* (D65) of a colour as it is seen."""
    light = linear(colour)
    red, green, blue = (min(1, max(0, sum(a * b for a, b in zip(row, light)))) for row in SIGHTS[sight])
    x = (0.4124564 * red + 0.3575761 * green + 0.1804375 * blue) / 0.95047
    y = 0.2126729 * red + 0.7151522 * green + 0.0721750 * blue
    z = (0.0193339 * red + 0.1191920 * green + 0.9503041 * blue) / 1.08883
    fx, fy, fz = (part ** (1 / 3) if part > 0.008856 else 7.787 * part + 16 / 116 for part in (x, y, z))
    return 116 * fy - 16, 500 * (fx - fy), 200 * (fy - fz)


def distance(one, other):
    """CIEDE2000 of two colours in L*a*b* (Sharma, Wu and Dalal, 2005)."""
    (l1, a1, b1), (l2, a2, b2) = one, other
    mean = (math.hypot(a1, b1) + math.hypot(a2, b2)) / 2
    more = 1.5 - 0.5 * math.sqrt(mean ** 7 / (mean ** 7 + 25 ** 7))
    c1, c2 = math.hypot(more * a1, b1), math.hypot(more * a2, b2)
    h1, h2 = (math.degrees(math.atan2(b, more * a)) % 360 for a, b in ((a1, b1), (a2, b2)))
    turn = 0 if c1 * c2 == 0 else (h2 - h1 + 180) % 360 - 180
    hue = h1 + h2 if c1 * c2 == 0 else (h1 + turn / 2) % 360
    light, chroma = (l1 + l2) / 2, (c1 + c2) / 2

    def cosine(times, degrees):
        return math.cos(math.radians(times * hue + degrees))

    t = 1 - 0.17 * cosine(1, -30) + 0.24 * cosine(2, 0) + 0.32 * cosine(3, 6) - 0.20 * cosine(4, -63)
    by_light = (l2 - l1) / (1 + 0.015 * (light - 50) ** 2 / math.sqrt(20 + (light - 50) ** 2))
    by_chroma = (c2 - c1) / (1 + 0.045 * chroma)
    by_hue = 2 * math.sqrt(c1 * c2) * math.sin(math.radians(turn / 2)) / (1 + 0.015 * chroma * t)
    twist = (-2 * math.sqrt(chroma ** 7 / (chroma ** 7 + 25 ** 7))
             * math.sin(math.radians(60 * math.exp(-((hue - 275) / 25) ** 2))))
    return math.sqrt(by_light ** 2 + by_chroma ** 2 + by_hue ** 2 + twist * by_chroma * by_hue)


def page_style(program):
    """The style of a page of the program, for light screens and for dark ones."""
    with tempfile.TemporaryDirectory() as folder:
        image = Path(folder) / "blank.d64"
        subprocess.run([program, "format", image, "--tills", "2"], check=True, stdout=subprocess.DEVNULL)
        page = subprocess.run([program, "picture", image], check=True, capture_output=True, text=True).stdout
    style = re.search("<style>(.*?)</style>", page, re.S).group(1)
    light, dark = style.split("@media screen and (prefers-color-scheme:dark){")
    return light, dark.split("@page")[0]


def rule(style, selector, name):
    """The value of a property in a rule of the style."""
    found = re.search(r"(?:^|[{}])%s\{(?:[^}]*;)?%s:(#[0-9a-f]+)" % (re.escape(selector), name), style)
    if not found:
        sys.exit(f"palette: no {name} of {selector}")
    return found.group(1)


def check(theme, style, files):
    """Compares one part of the style with the list, and gives its least distance, contrast of a file, and of a text."""
    shown = [rule(style, f".c{number}", "stroke") for number in range(12)]
    if shown != files:
        sys.exit(f"palette: the {theme} page has {' '.join(shown)}")
    page, text = rule(style, "body", "background"), rule(style, "body", "color")
    texts = [text, rule(style, "text", "fill"), rule(style, ".bad b", "color"), rule(style, ".good b", "color")]
    free = rule(style, ".free", "stroke")
    marks = [rule(style, selector, "stroke") for selector in (".map", ".dir", ".fault", ".lost")]
    near = []
    for sight in SIGHTS:
        seen = [lab(colour, sight) for colour in files]
        near += [distance(*pair) for pair in itertools.combinations(seen, 2)]
        near += [distance(one, lab(mark, sight)) for one in seen for mark in (*marks, free)]
    found = min(near), min(contrast(colour, free) for colour in files), min(contrast(colour, page) for colour in texts)
    for what, number, least in zip(("distance", "contrast of a file", "contrast of a text"), found, (10, 3, 4.5)):
        if number < least:
            sys.exit(f"palette: on the {theme} page the least {what} is {number:.1f}")
    return found


def main(given):
    program = given.program
    found = [check(theme, style, files)
             for theme, style, files in zip(("light", "dark"), page_style(program), (LIGHT, DARK))]
    near, file, text = map(min, zip(*found))
    print(f"palette: 2 pages, 12 files, 4 kinds of sight: colours at least {near:.1f} apart, contrast to free sectors at least "
          f"{file:.1f}, of text at least {text:.1f}: no difference")
    return 2 * len(found)


if __name__ == "__main__":
    conduct(main)
