#!/usr/bin/env python3
"""Makes a film of the crossbar, setting by setting, as an SVG picture that a browser plays:
crossbar_film.py BATCH SCHEDULE > film.svg

SCHEDULE is a schedule of the batch, such as its plan; - is standard input. The modules' links 0 are
at the left and their links 3 at the right. A curve is a pair of links that the crossbar joins. It
is thick where the pair was joined since the setting before, thin where it is kept, and dashed where
it was cut. Below is a cell for each setting, a dark one where the switch changes: a steady plan has
few of these. A viewer that plays no films shows setting 0. Whether the texts are right, `exchange
check` says.
"""

import sys
from typing import NamedTuple

# The colours of the modules, as in the pictures that `exchange draw` makes.
COLOURS = """
56b4e9 e08020 20c0a0 ffffa0 c000ff 6080a0 ffc000 ff6080 60c0c0 40a0a0 c0e0ff ffff20 808040 608060
ffc080 ffe0c0 00a080 e0c0a0 e0e060 e0a000 c080a0 a060c0 808000 ff80e0 ffe0a0 c060e0 ffa060 00a060
e0a080 00a0c0 e06080 e060c0
""".split()

# Pixels: where the modules' boxes begin and end at either side, and the heights of their rows.
LEFT, RIGHT, WIDTH, TOP, ROW = (16, 104), (376, 464), 480, 96, 28
MIDDLES = range(TOP + ROW // 2, TOP + ROW * 32, ROW)

# Transfers that the line of a setting has room for, and seconds that a setting and a film may take.
MOST, SECONDS, LONGEST = 12, 2, 60

STYLE = f"""<style>
text{{font:12px sans-serif;fill:#222}}
.middle{{text-anchor:middle}}
.heading{{font:bold 16px sans-serif}}
.paper{{fill:#fff}}
.crossbar,.cell{{fill:#eee;stroke:#999;stroke-width:.5}}
.cell.change{{fill:#666}}
.now{{fill:#c00}}
path{{fill:none;stroke-width:3}}
.edge{{stroke:#222;stroke-width:5}}
.joined path{{stroke-width:7}}
.joined .edge{{stroke-width:10}}
.cut path{{stroke:#888;stroke-width:2;stroke-dasharray:4 5}}
{"".join(f".m{m}{{stroke:#{it}}}.b{m}{{fill:#{it}}}" for m, it in enumerate(COLOURS))}
@media (prefers-color-scheme:dark){{
text{{fill:#eee}}
.paper{{fill:#111}}
.crossbar,.cell{{fill:#333}}
.cell.change{{fill:#bbb}}
.edge{{stroke:#eee}}
}}
.box text{{fill:#000}}
</style>"""


class Frame(NamedTuple):
    """What a setting shows: the numbers of its transfers, and the pairs of modules whose links were
    joined, kept and cut since the setting before."""

    transfers: list
    joined: list
    kept: list
    cut: list


def read(name):
    """The words of each line of a file."""
    with sys.stdin if name == "-" else open(name) as lines:
        return [line.split() for line in lines]


def frames_of(pairs, settings):
    """The frames of settings, and the numbers of those in which the switch changes."""
    frames, changes, before = [], set(), None
    for number, transfers in enumerate(settings):
        now, was = {pairs[transfer] for transfer in transfers}, before or set()
        frames.append(Frame(transfers, *map(sorted, (now - was, now & was, was - now))))
        changes |= {number} if now != before else set()
        before = now
    return frames, changes


def curve(kind, module, start, end, x=(LEFT[1], RIGHT[0])):
    """A curve between two heights, in the colour of a module."""
    path = f"d='M{x[0]} {start}C{sum(x) // 2} {start} {sum(x) // 2} {end} {x[1]} {end}'"
    colour = "" if kind == "cut" else f"<path class='m{module}' {path}/>"
    return f"<g class='{kind}'><path class='edge' {path}/>{colour}</g>"


def boxes(modules):
    """The crossbar, and the modules at both sides."""
    size = f"width='{RIGHT[0] - LEFT[1]}' height='{ROW * modules}'"
    yield f"<rect class='crossbar' x='{LEFT[1]}' y='{TOP}' {size}/>"
    for module, (left, right) in ((m, side) for m in range(modules) for side in (LEFT, RIGHT)):
        yield f"<g class='box'><rect class='b{module}' x='{left}' y='{MIDDLES[module] - 11}'"
        yield f"width='{right - left}' height='22'/><text class='middle' x='{(left + right) // 2}'"
        yield f"y='{MIDDLES[module] + 4}'>module {module}</text></g>"


def shown(number, frame, cell, below):
    """What a picture shows while a setting lasts."""
    moved = [*map(str, frame.transfers[:MOST]), *[".."] * (len(frame.transfers) > MOST)]
    yield f"<text x='16' y='60'>setting {number}: transfers {' '.join(moved)}</text>"
    yield f"<rect class='now' {cell} y='{below + 54}' height='6'/>"
    for kind, x in ("cut", 436), ("kept", 276), ("joined", 116):
        pairs = getattr(frame, kind)
        yield f"<text x='{x}' y='{below + 20}'>{len(pairs)}</text>"
        yield from (curve(kind, m, MIDDLES[m], MIDDLES[n]) for m, n in pairs)


def film(frames, changes, modules):
    """The lines of a picture."""
    below, count = TOP + ROW * modules, len(frames)
    joined, cut = (sum(map(len, pairs)) for pairs in list(zip(*frames))[1::2])
    told = f"settings {count}, changes {len(changes)}, joined {joined}, cut {cut}"
    size = f"width='{WIDTH}' height='{below + 72}'"
    yield f"<svg xmlns='http://www.w3.org/2000/svg' {size} viewBox='0 0 {WIDTH} {below + 72}'>"
    yield f"<title>{told}</title>\n{STYLE}\n<rect class='paper' {size}/>"
    yield f"<text class='heading' x='16' y='36'>{told}</text>"
    for x, name in (60, "link 0"), (WIDTH // 2, "crossbar"), (420, "link 3"):
        yield f"<text class='middle' x='{x}' y='{TOP - 8}'>{name}</text>"
    yield from boxes(modules)
    for x, kind in (16, "joined"), (176, "kept"), (336, "cut"):
        yield curve(kind, 0, below + 16, below + 16, (x, x + 40))
        yield f"<text x='{x + 52}' y='{below + 20}'>{kind}</text>"
    width, seconds = (RIGHT[1] - LEFT[0]) / count, min(SECONDS * count, LONGEST)
    for number, frame in enumerate(frames):
        cell = f"x='{LEFT[0] + width * number:.2f}' width='{width:.2f}'"
        kind = "cell change" if number in changes else "cell"
        yield f"<rect class='{kind}' {cell} y='{below + 36}' height='14'/>"
        yield f"<g visibility='{'hidden' if number else 'visible'}'>"
        yield "<animate attributeName='visibility' calcMode='discrete' repeatCount='indefinite'"
        yield f"values='hidden;visible;hidden' dur='{seconds}s'"
        yield f"keyTimes='0;{number / count:.6f};{(number + 1) / count:.6f}'/>"
        yield from [*shown(number, frame, cell, below), "</g>"]
    yield "</svg>"


def main():
    try:
        batch, schedule = map(read, sys.argv[1:])
        pairs = [(int(words[1]), int(words[3])) for words in batch[1:]]
        settings = [[*map(int, words[1:])] for words in schedule if words[0] == "setting"]
        lines = [*film(*frames_of(pairs, settings), 1 + max(map(max, pairs)))]
    except (OSError, IndexError, ValueError):
        sys.exit("the words are BATCH, with a transfer at least, and SCHEDULE, which is one of it")
    print("\n".join(lines))


if __name__ == "__main__":
    main()
