#!/usr/bin/env python3
"""The relay of docs/BOARD.md: two loops side by side, a byte each way.

    relay.py CABLE CONFIG                     carries the bytes of the configuration link
    relay.py CABLE CONFIG [CONFIG_B] CHAIN    parts the bytes of one cable, which has those of the
                                              modules too

CABLE and CONFIG are two named pipes each, CABLE.in towards the switch and CABLE.out back. CHAIN is
the number of a socket, which leads to the first module. On one cable the number of its way comes
before each byte: 0 the switch, 1 the modules, 2 switch B, 3 the relay itself, which answers that it
has no tables. Where the cable ends at slot 0, CONFIG of the relay there is CABLE of a second one,
at the configuration link.
"""

import os
import select
import sys
import threading

# Nothing is left in the folder of the examples.
sys.dont_write_bytecode = True

from chain import KIND, LINK_ENDED, MODULES, PLAIN, SWITCH, SWITCH_B  # noqa: E402


def open_cable(name):
    """The end at the board, in the order in which the other side opens its own: what is read,
    and what is written."""
    return os.open(f"{name}.in", os.O_RDONLY), os.open(f"{name}.out", os.O_WRONLY)


def open_switch(name):
    """The end at the transputer, in the order in which the switch opens its own."""
    there = os.open(f"{name}.in", os.O_WRONLY)
    return os.open(f"{name}.out", os.O_RDONLY), there


def carry(source, target):
    """A loop of the relay: each byte as it comes."""
    while byte := os.read(source, 1):
        os.write(target, byte)


def part(cable, ways):
    """The loop from the cable: each byte goes the way that the byte before it names.
    Another number isn't taken for one."""
    while way := os.read(cable, 1):
        if way[0] not in ways:
            sys.exit(
                f"relay.py: the cable has lost a byte, or has one too many: {way[0]} is no way"
            )
        byte = os.read(cable, 1)
        os.write(ways[way[0]][1], bytes([PLAIN]) if way[0] == KIND else byte)


def gather(ways, cable):
    """The loop to the cable: before each byte goes the number of the way by which it came."""
    numbers = {source: number for number, (source, _) in ways.items()}
    while numbers:
        for source in select.select([*numbers], [], [])[0]:
            if came := os.read(source, 4096):
                os.write(cable, b"".join(bytes([numbers[source], byte]) for byte in came))
            else:
                del numbers[source]


def main():
    if len(sys.argv) < 3 or sys.argv[1].startswith("-"):
        sys.exit("usage: relay.py CABLE CONFIG [CONFIG_B] [CHAIN]")
    cable, *names = sys.argv[1:]
    chain = int(names.pop()) if names[-1].isdigit() else None
    source, target = open_cable(cable)
    ways = dict(zip((SWITCH, SWITCH_B), map(open_switch, names)))
    if chain is None:
        threading.Thread(target=carry, args=(ways[SWITCH][0], target), daemon=True).start()
        carry(source, ways[SWITCH][1])
    else:
        ways[MODULES], ways[KIND] = (chain, chain), os.pipe()
        threading.Thread(target=gather, args=(ways, target), daemon=True).start()
        part(source, ways)


if __name__ == "__main__":
    try:
        main()
    except ConnectionError:
        print("relay.py: a link has ended", file=sys.stderr)
        sys.exit(LINK_ENDED)
