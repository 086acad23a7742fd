#!/usr/bin/env python3
"""Compares what `rt ci` printed, in a file, with what crates.txt says: said.py FILE

`rt ci` passes over three things: an edit of must-fail/ that can't be made, an edit that is refused
only by a limit, and a crate or its tests that may wait or start threads more often, or less, than
its line in crates.txt says. Of a crate that an earlier run proved it prints no numbers, so that one
isn't compared.
"""

import os
import re
import sys

TOP = os.path.dirname(os.path.dirname(os.path.abspath(__file__)))


def listed():
    """What crates.txt says of each crate, by its name."""
    with open(f"{TOP}/crates.txt", encoding="utf-8") as file:
        heads = [
            re.split(r"[\s:]", line.partition(":")[0]) for line in file if re.match(r"\w", line)
        ]
    return {name: dict(it.split("=") for it in words if "=" in it) for name, *words in heads}


def bounds(words):
    return sorted({*words.split("+")} - {"", "Abort"})


def faults(lines, crates):
    """What is wrong in these lines. Crates that they have a word on are taken away."""
    left, crate, of_tests = dict(crates), None, False
    for line in lines:
        head = re.fullmatch(r"== (\w+)(: its tests)?", line)
        kept = re.match(r"(?:rt: )?(\w+) is kept: ", line)
        if kept:
            left.pop(kept[1], None)
        elif head:
            crate, of_tests = head[1], bool(head[2])
        elif "BAD EDIT" in line or "only by a limit" in line:
            yield line
        elif line.startswith("logic=proved ") and crate in crates:
            left.pop(crate if not of_tests else None, None)
            found = dict(it.partition("=")[::2] for it in line.split())
            if of_tests:
                word, said, wanted = (
                    "tests_may",
                    bounds(found.get("main", "")),
                    bounds(crates[crate].get("tests_may", "")),
                )
            else:
                word, said, wanted = (
                    "may_wait",
                    found.get("may-wait", "0"),
                    crates[crate].get("may_wait", "0"),
                )
            if said != wanted:
                yield f"{crate}: {word} is {wanted} in crates.txt, and {said} by rt ci"
    yield from (f"{crate}: nothing is said of it" for crate in left)


def main():
    with open(sys.argv[1], encoding="utf-8", errors="replace") as file:
        wrong = list(faults(file.read().splitlines(), listed()))
    for it in wrong:
        print(f"said: WRONG: {it}")
    sys.exit(1 if wrong else 0)


if __name__ == "__main__":
    main()
