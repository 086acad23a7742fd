#!/usr/bin/env python3
"""Counts the steps of planning in plain Python, beside the most that are proved (`most_steps` of
schedule_certificate, and `one_link_steps` where one link is in all transfers): steps.py

It plans as the program does with one worker, and counts where the program's loops tick. The status
is 1 where more steps were taken than may be, or where the bound is more than GREATEST times as
much. `most_steps` is furthest off where the uses of a link are one more than a power of two, such
as 2049, and where all transfers but one share this link.
"""

import collections
import functools
import operator
import random
import sys
from pathlib import Path

sys.path.insert(0, str(Path(__file__).resolve().parents[2] / "tools"))

from harness import Report  # noqa: E402

MODULES, LINKS = 32, 64
GREATEST = {"but_one": 40, "one_link": 2, "star": 2}  # and of others 12
steps = 0


def tick(count):
    global steps
    steps += count


def degree(part):
    return max(collections.Counter(link for ends in part for link in ends).values(), default=0)


def halves(part, times):
    """Those of a pair go left and right in turn. Of an odd number of them one is left over:
    walks say where it goes."""
    left, odd = (
        set(),
        set()
        if times
        else {ends for ends, count in collections.Counter(part).items() if count % 2},
    )
    tick(0 if times else len(part) + len(odd) + MODULES)
    for start in range(MODULES):
        first = True
        while any(zero == start for zero, _ in odd):
            at, end, to_left = start, 0, first
            while pairs := [ends for ends in odd if ends[end] == at]:
                odd.remove(min(pairs))
                left |= {min(pairs)} if to_left else set()
                at, end, to_left = min(pairs)[1 - end], 1 - end, not to_left
            first = not first
    both = [], []
    for ends in part:
        both[ends not in left].append(ends)
        left ^= {ends}
    tick(len(part) + len(both[1]))
    return both


def row(part, before=0):
    """The row of a class, in a table with so many rows before it."""
    tick(LINKS * (before + 1) + len(part))
    return {link: ends for ends in part for link in ends}


def insert(rows, ends):
    free = [next(c for c, held in enumerate(rows) if link not in held) for link in ends]
    tick(len(rows) + free[0] + 1 + free[1] + 1)
    (colour, other), end = free, 1
    while ends:
        tick(1)
        after = rows[colour].get(ends[end])
        for link in after or ():
            del rows[colour][link]
        rows[colour].update((link, ends) for link in ends)
        ends, end, colour, other = after, 1 - end, other, colour


def colours(part, shape, most, exact, times):
    """The rows of a part whose degree is at most this, or just this;
    the shape is how many modules start, and the width."""
    if not exact and len(part) <= shape[1] * (most - 1):
        tick(len(part))
        most = degree(part)
    if most <= 1:
        return [row(part)]
    if most == len(part):
        tick(LINKS * most)
        return [row([ends], -1) for ends in part]
    left, right = halves(part, times)
    if most == 2:
        return [row(left), row(right, 1)]
    rows = [
        held
        for half in (left, right)
        for held in colours(half, shape, (most + 1) // 2, most % 2 == 0, max(times - 1, 0))
    ]
    tick(LINKS * len(rows))
    if len(rows) > most:
        smallest = min(range(len(rows)), key=lambda c: len(rows[c]))
        tick(shape[0] * (len(rows) + 1) + 2 * LINKS * (len(rows) - 1 - smallest))
        for link, ends in sorted(rows.pop(smallest).items()):
            if link < MODULES:
                insert(rows, ends)
    return rows


def planned(part):
    """How many settings a plan has; its steps are counted."""
    shape = [1 + max(ends[end] - MODULES * end for ends in part) for end in (0, 1)]
    bits = functools.reduce(operator.or_, collections.Counter(part).values())
    count, most = len(part), degree(part)
    tick(5 * count + (count if most < count else 0))
    rows = colours(
        part,
        (shape[0], min(shape)),
        most,
        True,
        (bits & -bits).bit_length() - 1 if most < count else 0,
    )
    assert len(rows) == most and sum(map(len, rows)) == 2 * count
    tick(3 * count + (shape[0] + 1) * most)
    return most


def batches(draw, count):
    """Batches of so many transfers, each with its name: as the modules of both ends."""
    yield "one_link", [(0, 1)] * count
    yield "star", [(0, t % MODULES) for t in range(count)]
    yield "but_one", [(0, 1)] * min(count, 4095) + [(2, 3)]
    yield "two_by_two", [(t % 2, t // 2 % 2) for t in range(count)]
    yield "scrambled", [(draw.randrange(16), draw.randrange(16)) for _ in range(count)]
    yield "wide", [(draw.randrange(MODULES), draw.randrange(MODULES)) for _ in range(count)]
    yield "all_to_all", [(t % MODULES, (t + t // MODULES) % MODULES) for t in range(count)]
    yield "power_of_two", [(t % 16, (t // 16 + t) % 16) for t in range(count)]


def most_steps(n, settings):
    """The most steps that are proved of a plan of n transfers in so many settings."""
    k = (settings - 1).bit_length()
    most = 32 * n * k + 11 * n + 4 * LINKS * ((k + 2) * 2**k - 1) + (MODULES + 1) * 2**k
    return min(most, 108 * (n + 1)) if settings == n else most


def main():
    global steps
    draw, report = random.Random(1), Report("steps")
    for name, moves in (it for count in (512, 2049, 4096) for it in batches(draw, count)):
        steps = 0
        settings, n = planned([(m, MODULES + to) for m, to in moves]), len(moves)
        most = most_steps(n, settings)
        print(
            f"{name:13} {n:4} transfers, {settings:4} settings: {steps:7} steps, at most {most:8}, "
            f"ratio {most / steps:.1f}"
        )
        report.check(f"{name}: {steps} steps are at most {most}", steps <= most, True, "bounds")
        is_near = most / steps <= GREATEST.get(name, 12)
        report.check(f"{name}: {most} isn't far above {steps}", is_near, True, "bounds")
    report.finish("{tried} figures compared, {wrong} wrong")


if __name__ == "__main__":
    main()
