#!/usr/bin/env python3
"""How well the colours of a picture's modules can be told apart,
and whether text on them can be read.

    colours.py        reads them in crates/schedule_picture/src/style.rt,
                      and says how well they can be told apart
    colours.py -      reads them in the picture on standard input, and counts the parts that have a
                      colour, the colours (three or six hexadecimal digits), the modules with a
                      colour of their own, and the texts whose contrast is less than WCAG 2.1 wants
                      (1.4.3)

A difference is that of CIEDE2000, for D65: G. Sharma, W. Wu and E. N. Dalal, Color Research and
Application 30(1), 2005. What people see who see no red (protanopia) or no green (deuteranopia) is
computed by the matrices for severity 1.0 of G. M. Machado, M. M. Oliveira and L. A. F. Fernandes,
IEEE Transactions on Visualization and Computer Graphics 15(6), 2009, on linear sRGB. Contrast is
that of WCAG 2.1.
"""

import os
import re
import sys
from itertools import combinations
from math import atan2, cos, degrees, exp, hypot, radians, sin, sqrt

TOP = os.path.dirname(os.path.dirname(os.path.abspath(__file__)))
STYLE = f"{TOP}/crates/schedule_picture/src/style.rt"

VISIONS = {
    "all colours": ((1, 0, 0), (0, 1, 0), (0, 0, 1)),
    "no red": (
        (0.152286, 1.052583, -0.204868),
        (0.114503, 0.786281, 0.099216),
        (-0.003882, -0.048116, 1.051998),
    ),
    "no green": (
        (0.367322, 0.860646, -0.227968),
        (0.280085, 0.672501, 0.047413),
        (-0.011820, 0.042940, 0.968881),
    ),
}

# Where the looks of a dark page begin.
DARK = "@media (prefers-color-scheme:dark){"


def linear(colour):
    """The linear red, green and blue of six hexadecimal digits, each from 0 to 1."""
    parts = [int(colour[i : i + 2], 16) / 255 for i in (0, 2, 4)]
    return [it / 12.92 if it <= 0.04045 else ((it + 0.055) / 1.055) ** 2.4 for it in parts]


def seen(colour, matrix):
    """What is seen of a colour, as linear red, green and blue."""
    parts = linear(colour)
    return [
        min(1, max(0, sum(factor * part for factor, part in zip(row, parts)))) for row in matrix
    ]


def luminance(parts):
    return sum(factor * part for factor, part in zip((0.2126, 0.7152, 0.0722), parts))


def lab(parts):
    """The CIELAB of linear red, green and blue."""

    def root(it):
        return it ** (1 / 3) if it > 216 / 24389 else (24389 / 27 * it + 16) / 116

    red, green, blue = parts
    x = root((0.4124 * red + 0.3576 * green + 0.1805 * blue) / 0.95047)
    y = root(luminance(parts))
    z = root((0.0193 * red + 0.1192 * green + 0.9505 * blue) / 1.08883)
    return 116 * y - 16, 500 * (x - y), 200 * (y - z)


def hue(a, b):
    return degrees(atan2(b, a)) % 360 if a or b else 0


def difference(one, other):
    """The CIEDE2000 of two colours in CIELAB."""
    (light1, a1, b1), (light2, a2, b2) = one, other
    chroma7 = ((hypot(a1, b1) + hypot(a2, b2)) / 2) ** 7
    stretch = 1.5 - sqrt(chroma7 / (chroma7 + 25**7)) / 2
    a1, a2 = stretch * a1, stretch * a2
    chroma1, chroma2 = hypot(a1, b1), hypot(a2, b2)
    hue1, hue2 = hue(a1, b1), hue(a2, b2)
    turn, middle = hue2 - hue1, (hue1 + hue2) / 2
    if chroma1 * chroma2 == 0:
        turn, middle = 0, hue1 + hue2
    elif abs(turn) > 180:
        turn += 360 if turn < 0 else -360
        middle += 180 if middle < 180 else -180
    light, chroma = (light1 + light2) / 2, (chroma1 + chroma2) / 2
    weight = (
        1
        - 0.17 * cos(radians(middle - 30))
        + 0.24 * cos(radians(2 * middle))
        + 0.32 * cos(radians(3 * middle + 6))
    )
    weight -= 0.2 * cos(radians(4 * middle - 63))
    by_light = (light2 - light1) / (1 + 0.015 * (light - 50) ** 2 / sqrt(20 + (light - 50) ** 2))
    by_chroma = (chroma2 - chroma1) / (1 + 0.045 * chroma)
    by_hue = 2 * sqrt(chroma1 * chroma2) * sin(radians(turn / 2)) / (1 + 0.015 * chroma * weight)
    rotation = (
        -2
        * sqrt(chroma**7 / (chroma**7 + 25**7))
        * sin(radians(60 * exp(-(((middle - 275) / 25) ** 2))))
    )
    return sqrt(by_light**2 + by_chroma**2 + by_hue**2 + rotation * by_chroma * by_hue)


# The colour of a module, of six digits.
MODULE = r"\.m(\d+)\{fill:#([0-9a-f]{6})\}"


def contrast(one, other):
    """The contrast of two colours, each of three or six digits."""
    dark, light = sorted(luminance(linear(six(it))) for it in (one, other))
    return (light + 0.05) / (dark + 0.05)


def pages(style):
    """The looks of a light page, and those of a dark one where the picture has them."""
    return style.split(DARK)


def six(colour):
    """A colour of three or six digits, by six."""
    return colour if len(colour) == 6 else "".join(2 * digit for digit in colour)


def colours_of(page, *parts):
    """The colours of some parts of a page."""
    return re.findall(r"(?:%s)\{fill:#(\w+)" % "|".join(map(re.escape, parts)), page)


def grounds(page):
    """The paper, the ground of a row, and the frame of the busiest link."""
    return [six(it) for it in colours_of(page, ".paper", ".lane rect", ".busiest rect")]


def texts_on_paper(page):
    """The texts on the paper, each as its colour and the paper's:
    black unless the page says another, and grey."""
    [paper] = colours_of(page, ".paper")
    plain = colours_of(page, ".busiest text") or ["000"]
    return [(it, paper) for it in plain + colours_of(page, ".number", ".lane text")]


def texts(style, modules):
    """The texts of a picture, each as its colour and that of its ground: black on the modules, and
    those on the paper of each page."""
    return [("000", it) for it in modules] + [
        it for page in pages(style) for it in texts_on_paper(page)
    ]


def count(style):
    """What is to be said of the colours of a picture."""
    parts, colours = style.count("fill:"), re.findall(r"fill:#((?:[0-9a-f]{3}){1,2})[;}]", style)
    modules = [colour for module, colour in re.findall(MODULE, style) if int(module) < 32]
    unreadable = [it for it in texts(style, modules) if contrast(*it) < 4.5]
    return (
        f"parts {parts} colours {len(colours)} modules {len(set(modules))} unreadable "
        f"{len(unreadable)}"
    )


def compare():
    with open(STYLE) as file:
        style = file.read()
    table = dict(re.findall(MODULE, style))
    named = [(name, grounds(page)) for name, page in zip(("white", "dark"), pages(style))]
    colours = [table[str(module)] for module in range(32)]
    for vision, matrix in VISIONS.items():
        parts = [seen(it, matrix) for it in colours]
        labs = [lab(it) for it in parts]
        least = [
            min(difference(*it) for it in combinations(labs[:modules], 2))
            for modules in (4, 8, 16, 32)
        ]
        told = ", ".join(
            f"{modules} modules {it:.1f}" for modules, it in zip((4, 8, 16, 32), least)
        )
        apart = ", ".join(
            f"{name} "
            f"{min(difference(it, lab(seen(one, matrix))) for it in labs for one in all_of):.1f}"
            for name, all_of in named
        )
        least_contrast = min((luminance(it) + 0.05) / 0.05 for it in parts)
        print(
            f"{vision}: least difference of {told}, from the grounds of a page {apart}; "
            f"black text has {least_contrast:.2f} to 1"
        )
    for page in pages(style):
        print(
            "text on the paper has",
            ", ".join(f"{contrast(*it):.1f}" for it in texts_on_paper(page)),
            "to 1",
        )


if __name__ == "__main__":
    if sys.argv[1:] == ["-"]:
        print(count(sys.stdin.read()))
    else:
        compare()
