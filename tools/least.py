#!/usr/bin/env python3
"""Looks whether a tool tried as much as tools/least.txt says, and found nothing wrong:
least.py TOOL SAID

SAID is a file of what the tool printed. Where a tool says that a program of this machine is
missing, numbers with a `?` don't count. One that says WRONG is wrong, whatever its status. Where it
tried more than a number without `?` and `+` says, that is printed: the number has to follow.
"""

import re
import sys
from pathlib import Path


def lines_of(tool: str) -> list[tuple[int, str, str]]:
    """Of each line that is about a tool the least number, its marks, and the words."""
    lines = Path(__file__).with_suffix(".txt").read_text(encoding="utf-8").splitlines()
    parts = [line.split(maxsplit=2) for line in lines if not line.startswith("#")]
    return [
        (int(least.rstrip("?+")), least.lstrip("0123456789"), words)
        for name, least, words in parts
        if name == tool
    ]


def most_said(words: str, said: str) -> int:
    """The greatest number that was printed where N stands, or how often words without N were."""
    if not re.search(r"\bN\b", words):
        return said.count(words)
    before, after = map(re.escape, re.split(r"\bN\b", words))
    found = re.findall(rf"(?m)(?:^|(?<=\D)){before}(\d+){after}", said)
    return max(map(int, found), default=0)


def faults(tool: str, said: str) -> list[str]:
    """What is wrong with what a tool printed."""
    wanted, is_missing = lines_of(tool), " is missing, so " in said
    found = [] if wanted else ["no line of tools/least.txt is about it"]
    for least, marks, words in wanted:
        most = most_said(words, said)
        if most < least and not ("?" in marks and is_missing):
            found.append(f"{most}, and not {least}, of: {words}")
        elif most > least and not marks:
            print(f"{tool}: {most} is more than tools/least.txt has of: {words}")
    return found + ["it says so"] * ("WRONG" in said)


def main() -> None:
    tool, name = sys.argv[1:]
    wrong = faults(tool, Path(name).read_text(encoding="utf-8", errors="replace"))
    for it in wrong:
        print(f"{tool}: WRONG: {it}")
    sys.exit(1 if wrong else 0)


if __name__ == "__main__":
    main()
