#!/usr/bin/env python3
"""Turns the transfers of a batch that use a link which isn't on the switch:

    without_link.py WIRING < BATCH

A transfer uses link 0 of the module that starts it, and link 3 of the other one. Turned, the other
one starts it: as `pull R c I b` a `push I b R c` moves the same words, over link 0 of R and link 3
of I. Where a wiring lacks a link for both ways, a line on standard error names the transfer, and
there is no batch.
"""

import re
import sys

# Nothing is left in the folder of the examples.
sys.dont_write_bytecode = True

from chain import read_wiring  # noqa: E402

TURNED = {"push": "pull", "pull": "push"}


def lacking(wiring, starts, answers):
    """Which of its links a transfer lacks."""
    return [
        f"link {3 * end} of module {module}"
        for module, end in ((starts, 0), (answers, 1))
        if (module, end) not in wiring
    ]


def main():
    if len(sys.argv) != 2:
        sys.exit("usage: without_link.py WIRING < BATCH")
    with open(sys.argv[1], encoding="utf-8") as file:
        text = file.read()
    if not text.startswith("wiring "):
        sys.exit(f"without_link.py: {sys.argv[1]} is no wiring")
    wiring, lines, faults = read_wiring(text), sys.stdin.read().splitlines(), []
    if not re.fullmatch(r"batch \d+", "".join(lines[:1])):
        sys.exit("without_link.py: standard input is no batch")
    for at, line in enumerate(lines[1:], 1):
        if not re.fullmatch(r"(push|pull)( \d+){4}", line):
            sys.exit(f"without_link.py: line {at + 1} of the batch is no transfer: {line}")
        way, starts, block, answers, other = line.split()
        here, turned = (
            lacking(wiring, int(it), int(to)) for it, to in ((starts, answers), (answers, starts))
        )
        if here and turned:
            faults.append(f"transfer {at - 1}, {line}: no {here[0]}, and turned, no {turned[0]}")
        elif here:
            lines[at] = f"{TURNED[way]} {answers} {other} {starts} {block}"
    if faults:
        sys.exit("\n".join(f"without_link.py: {it}" for it in faults))
    print(*lines, sep="\n")


if __name__ == "__main__":
    try:
        main()
    except (OSError, UnicodeDecodeError) as error:
        sys.exit(f"without_link.py: {error}")
