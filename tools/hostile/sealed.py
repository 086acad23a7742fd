#!/usr/bin/env python3
"""Puts sums into a record that is written by hand: sealed.py <TEXT >RECORD

TEXT is a record without the lines of its sums, whose last line is `end`, if it has one. The head
gets its sum if it is all there, and so does each entry: a call, with its batch's lines if it is
`batch N` of at most 4096, and the line of its reply. What follows the last of them, or `end`, stays
as it is.
"""

import functools
import re
import sys

COUNT = re.compile(rb"\d+ batch (0|[1-9]\d*)\n")


@functools.lru_cache(1 << 16)
def sum_line(number, lines):
    """The line of the sum of these lines, which are those of the entry of this number, counted
    from 0. A head has the number 0, an end that of the entry that would come."""
    total = number % 2**32
    for byte in lines:
        total = (total * 2891336453 + byte) % 2**32
    return b"=%08x\n" % total


def front(text, at, count):
    """Where so many lines end that begin there; None where there are fewer."""
    for _ in range(count):
        at = text.find(b"\n", at) + 1
        if not at:
            return None
    return at


def sealed(text):
    """A record, with its sums."""
    named = re.match(rb"[^\n]* (\d+)\n", text)
    at = front(text, 0, 1 + int(named[1])) if named else None
    if not at:
        return text
    out, number = [text[:at], sum_line(0, text[:at])], 0
    while not text.startswith(b"end\n", at):
        batch = COUNT.match(text, at)
        end = front(text, at, 2 + int(batch[1]) if batch and int(batch[1]) <= 4096 else 2)
        if not end:
            return b"".join([*out, text[at:]])
        out += [text[at:end], sum_line(number, text[at:end])]
        at, number = end, number + 1
    end = b"end %d\n" % number
    return b"".join([*out, end, sum_line(number, end), text[at + 4 :]])


if __name__ == "__main__":
    sys.stdout.buffer.write(sealed(sys.stdin.buffer.read()))
