"""Judges the films of examples/crossbar_film.py, by the bytes that set the switch and by what
`exchange.changes` counts. The films' own numbers come from texts of plans alone."""

import re
import subprocess
import sys
from pathlib import Path
from xml.etree import ElementTree

import exchange

SVG = "{http://www.w3.org/2000/svg}"

# Pixels: the middle of the row of module 0, and what a row takes.
FIRST, ROW = 110, 28


def switched(batch, schedule):
    """The pairs of modules that the bytes of each setting leave joined, how many of one switch's
    commands join and cut a pair, and whether any does. Of two switches a alone is looked at."""
    switch = exchange.C004()
    for sent in exchange.switch_bytes(batch, schedule):
        switch.take(sent[0])
        links = range(32) if len(sent) > 1 else range(16, 32)
        fed = {(switch.source(link), link) for link in links}
        pairs = {(a, b if len(sent) > 1 else b - 16) for a, b in fed if a is not None}
        words = re.findall(rb"\x04|\x03|[\x00\x01\x06]..|\x05.", sent[0], re.DOTALL)
        counts = [sum(word[0] == first for word in words) for first in (1, 6)]
        yield pairs, None if len(sent) > 1 else counts, sent[0] != b"\3"


def pairs_of(group, kind):
    """The pairs of modules of a setting's curves of one kind."""
    for curve in group.iterfind(f"{SVG}g[@class='{kind}']"):
        ends = [re.findall(r"\S+", path.get("d").replace("C", " ")) for path in curve]
        zero, three = ((int(ends[0][at]) - FIRST) / ROW for at in (1, -1))
        fits = [path.get("class") for path in curve] == ["edge", f"m{zero:g}"][: len(curve)]
        yield (zero, three) if fits and len(curve) == 1 + (kind != "cut") else curve


def faults(film, batch, schedule):
    """What is wrong in a film."""
    picture = ElementTree.fromstring(film)
    told = picture.findtext(f"{SVG}title")
    frames = [it for it in picture.iterfind(f"{SVG}g") if it.get("visibility")]
    cells = [it.get("class") for it in picture.iterfind(f"{SVG}rect") if "cell" in it.get("class")]
    settings, before, joins, cuts = exchange.settings(schedule), set(), 0, 0
    for number, (pairs, counts, changes) in enumerate(switched(batch, schedule)):
        frame = frames[number]
        joined, kept, cut = ([*pairs_of(frame, kind)] for kind in ("joined", "kept", "cut"))
        wanted = [sorted(it) for it in (pairs - before, pairs & before, before - pairs)]
        if [joined, kept, cut] != wanted or counts not in (None, [len(joined), len(cut)]):
            yield f"setting {number}: {joined}, {kept}, {cut}, and not {wanted}"
        texts = [text.text for text in frame.iterfind(f"{SVG}text")]
        moved = " ".join([*map(str, settings[number][:12]), *[".."] * (len(settings[number]) > 12)])
        if texts[0] != f"setting {number}: transfers {moved}":
            yield f"setting {number}: {texts[0]}"
        if [*map(int, texts[1:])] != [len(cut), len(kept), len(joined)]:
            yield f"setting {number}: {texts[1:]}"
        if cells[number] != "cell" + " change" * changes:
            yield f"setting {number}: {cells[number]}"
        moments = frame.find(f"{SVG}animate").get("keyTimes").split(";")
        lasts = [f"{(number + k) / len(settings):.6f}" for k in (0, 1)]
        if moments[1:] != lasts or frame.get("visibility") != ("hidden" if number else "visible"):
            yield f"setting {number}: {moments}"
        before, joins, cuts = pairs, joins + len(joined), cuts + len(cut)
    changes = exchange.changes(batch, schedule)[0]
    wanted = f"settings {len(settings)}, changes {changes}, joined {joins}, cut {cuts}"
    if told != wanted or len(frames) != len(settings):
        yield f"{told}, and not {wanted}"
    colours = re.findall(r"\.b(\d+){fill:#(\w+)}", film)
    if colours != re.findall(r"\.m(\d+){fill:#(\w+)}", exchange.draw(batch, schedule)):
        yield "its colours"


# A film is made wrong in these ways first, each of which has to be seen.
SPOILT = [
    ("class='joined'><path class='edge' d='M104", "class='kept'><path class='edge' d='M104"),
    ("class='cut'><path class='edge' d='M104", "class='kept'><path class='edge' d='M104"),
    (" 376 110'", " 376 138'"),
    ("class='m1' d='M104", "class='m2' d='M104"),
    ("changes ", "changes 1"),
    ("joined ", "joined 1"),
    (": transfers ", ": transfers 7 "),
    ("cell change", "cell"),
    ("class='cell'", "class='cell change'"),
    (".b3{fill:#ffffa0}", ".b3{fill:#ffff00}"),
    (";0.111111'", ";0.222222'"),
    ("visibility='hidden'", "visibility='visible'"),
]


def made(batch, schedule):
    """The film of a schedule that comes by standard input, of a batch in a file."""
    words = [sys.executable, Path(__file__).resolve().parents[2] / "examples/crossbar_film.py"]
    pipes = {"input": schedule, "stdout": subprocess.PIPE, "text": True}
    return subprocess.run([*words, batch, "-"], check=True, **pipes).stdout


def try_films(expect, examples):
    """Films of plans and of steady plans; and what isn't right is seen."""
    for name in "three-transfers", "ring", "patterns/three-blocks", "all-to-all", "wide-rack":
        with open(f"{examples}/{name}.txt") as file:
            batch = file.read()
        for steady in False, True:
            schedule = exchange.plan(batch, steady=steady)
            film = made(f"{examples}/{name}.txt", schedule)
            wrong = [*faults(film, batch, schedule)]
            expect(f"a film of {name}, steady {steady}", not wrong, wrong)
            for right, spoilt in SPOILT if "blocks" in name and not steady else ():
                wrong = [*faults(film.replace(right, spoilt, 1), batch, schedule)]
                expect(f"a film that is spoilt: {spoilt}", right in film and wrong)
