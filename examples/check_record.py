#!/usr/bin/env python3
"""Checks the sums of a record, and prints its entries: python3 examples/check_record.py RECORD

It prints a line for each entry: its number, its session, its call and its reply; then how the
record ends. It needs no kit, and no rack: whether the replies are right, `exchange replay` says.
"""

import re
import sys


def sum_line(number, lines):
    """The line of the sum of these lines, before which so many entries stand."""
    total = number % 2**32
    for byte in lines:
        total = (total * 2891336453 + byte) % 2**32
    return b"=%08x\n" % total


def check(text):
    """Prints the entries of a record: whether none of its sums is wrong."""
    head = re.match(rb"record-2 [^\n]* (\d+)\n", text)
    clients = head and re.match(rb"(?:[^\n]*\n){%d}" % int(head[1]), text[head.end() :])
    at = head.end() + clients.end() if clients else 0
    if not clients or not text.startswith(sum_line(0, text[:at]), at):
        print("the head isn't right")
        return False
    at, number = at + len(sum_line(0, b"")), 0
    while found := re.compile(rb"([^=]*)(=[^\n]*\n)").match(text, at):
        lines, line = found.groups()
        if line != sum_line(number, lines):
            break
        at = found.end()
        if lines == b"end %d\n" % number:
            print(
                "the record has ended"
                if at == len(text)
                else f"something follows the end: {text[at:]!r}"
            )
            return at == len(text)
        session, _, call = lines.decode(errors="replace").partition(" ")
        print(
            f"entry {number}, session {session}: {' / '.join(call.splitlines()[:-1])}: "
            f"{''.join(call.splitlines()[-1:])}"
        )
        number += 1
    line = text.count(b"\n", 0, at) + 1
    if found or not re.fullmatch(rb"[\n -~]*", text[at:]):
        print(f"entry {number} isn't right, on line {line}")
        return False
    print(f"the record hasn't ended: {len(text) - at} bytes are left")
    return True


if __name__ == "__main__":
    with open(sys.argv[1], "rb") as file:
        sys.exit(0 if check(file.read()) else 1)
