#!/usr/bin/env python3
"""Counts how many small batches have steady plans with the fewest changes, and of how many `draw`
says so: told.py PROGRAM SEARCH [BATCHES]

SEARCH is fewest_changes.rs, compiled: it tries all shortest schedules. Two to five modules send
each other up to nine blocks, by chance. Without a number these are 1000 batches. The status is 1
where `draw` says that more changes are needed than some schedule has.
"""

import random
import re
import subprocess
import sys
import tempfile
from collections import Counter
from pathlib import Path

sys.path.insert(0, str(Path(__file__).resolve().parents[2] / "tools"))

from harness import COMPARED, must  # noqa: E402

WORDS = ("the fewest", "the fewest with so few settings", "at least")


def batch_text(draw):
    modules = range(draw.randrange(2, 6))
    pairs = [(m, n) for m in modules for n in modules if m != n and draw.randrange(3)]
    lines = [f"push {m} 0 {n} 1\n" for m, n in pairs for _ in range(draw.randrange(10))]
    return f"batch {len(lines)}\n" + "".join(lines)


def printed(*words, text=None):
    return subprocess.run(words, input=text, capture_output=True, check=True, text=True).stdout


def told(program, search, text):
    """What the title of the picture of a steady plan says behind its changes,
    and whether these are the fewest."""
    with tempfile.NamedTemporaryFile("w+") as batch:
        batch.write(text)
        batch.flush()
        plan = printed(program, "plan", batch.name, "--steady")
        picture = printed(program, "draw", batch.name, "-", text=plan)
        fewest = int(printed(search, batch.name))
    changes, words, least = re.search(
        r"changes (\d+), (the fewest with so few settings|the fewest|at least)(?: (\d+))?,", picture
    ).groups()
    must(is_so(int(changes), int(least or changes), fewest), f"{changes} {words}: {fewest}: {text}")
    return words, int(changes), fewest


def is_so(changes, least, fewest):
    """Whether a plan may have so many changes, and a picture say that so many are needed, where
    these are the fewest."""
    return least <= fewest <= changes


def main():
    draw = random.Random(1)
    count = int(sys.argv[3]) if len(sys.argv) > 3 else 1000
    for wrong in (3, 3, 4), (5, 4, 3):
        must(not is_so(*wrong), f"{wrong} passes")
    all_told = [told(sys.argv[1], sys.argv[2], batch_text(draw)) for _ in range(count)]
    counts = Counter(words for words, _, _ in all_told)
    best = [words for words, changes, fewest in all_told if changes == fewest]
    said = sum(words != "at least" for words in best)
    print(
        f"the fewest changes have {len(best)} of {count} batches, and {said} of these are told so: "
        f"{100 * said / len(best):.2f} in 100"
    )
    both = [sum(numbers) for numbers in zip(*(it[1:] for it in all_told))]
    worst = max((it[1:] for it in all_told), key=lambda it: it[0] / max(it[1], 1))
    print(
        f"together they have {100 * both[0] / both[1] - 100:.2f} in 100 more than the fewest, "
        f"and at worst {worst[0]} where {worst[1]} are enough"
    )
    print(f"{COMPARED.total()} pictures compared")
    print(f"of {count} batches: " + ", ".join(f"{counts[words]} {words}" for words in WORDS))


if __name__ == "__main__":
    main()
