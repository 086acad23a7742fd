#!/usr/bin/env python3
"""Makes C tables of the bytes of one switch: exchange switch BATCH [--schedule FILE] [--wiring
FILE] | switch_to_c.py > switch.h

examples/board/relay.c reads them: the bytes of all settings,
and where those of each end. docs/BOARD.md says more.
"""

import sys

# Nothing is left in the folder of the examples.
sys.dont_write_bytecode = True

from board.chain import read_switch, switch_sum  # noqa: E402


def main():
    found, ends = read_switch(sys.stdin.read())
    print(f"enum {{ SETTINGS = {len(ends)}, SUM = {switch_sum(found, ends)} }};")
    print(f"static const unsigned long ends[] = {{{', '.join(map(str, ends or [0]))}}};")
    print(f"static const unsigned char bytes[] = {{{', '.join(map(str, found or [0]))}}};")


if __name__ == "__main__":
    main()
