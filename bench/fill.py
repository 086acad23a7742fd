#!/usr/bin/env python3
"""Fills the places of a page, on standard input, with figures that benches printed: fill.py FIGURES

Each line of FIGURES is one that a bench printed, behind the name of the bench's folder. A place,
as {run 512 transfers: 1}, has the first words of a line, and which of the numbers behind them it
wants. Several numbers, and all where it says none, become cells of a table. From 10,000 on a number
has commas. A paragraph with places is broken into lines anew.
"""

import re
import sys
import textwrap

COLUMNS = 100


def written(number):
    """A number as the page has it."""
    return f"{int(number):,}" if number.isdigit() and int(number) >= 10000 else number


def filled(place, lines):
    """What stands in a place."""
    words, wanted = re.fullmatch(r"(.*?)((?: \d+)*)", " ".join(place.split())).groups()
    found = [line[len(words) :] for line in lines if line.startswith(f"{words} ")]
    if len(found) != 1:
        sys.exit(f"fill: {len(found)} lines begin with these words, and not one: {words}")
    numbers = re.findall(r"\d+(?:\.\d+)?", found[0])
    chosen = [numbers[int(k) - 1] for k in wanted.split()] or numbers
    return " | ".join(written(number) for number in chosen)


def fill(part, lines):
    """A part of the page, between empty lines, with its places filled."""
    text = re.sub(r"{([^}]*)}", lambda place: filled(place[1], lines), part)
    if text == part or part.startswith("|"):
        return text
    return textwrap.fill(" ".join(text.split()), COLUMNS, break_on_hyphens=False)


def main():
    with open(sys.argv[1], encoding="utf-8") as file:
        lines = [" ".join(line.split()) for line in file]
    parts = sys.stdin.read().rstrip("\n").split("\n\n")
    print("\n\n".join(fill(part, lines) for part in parts))


if __name__ == "__main__":
    main()
