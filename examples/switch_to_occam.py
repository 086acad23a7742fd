#!/usr/bin/env python3
"""Makes occam tables of the bytes of one switch:
exchange switch BATCH [--schedule FILE] [--wiring FILE] | switch_to_occam.py

`relay.by.tables` of examples/board/relay.occ reads them: the bytes of all settings, and where those
of each end. docs/BOARD.md says more.
"""

import sys

# Nothing is left in the folder of the examples.
sys.dont_write_bytecode = True

from board.chain import read_switch, switch_sum  # noqa: E402


def main():
    found, ends = read_switch(sys.stdin.read())
    print(f"VAL INT16 sum IS {switch_sum(found, ends)} (INT16):")
    print(f"VAL INT n.settings IS {len(ends)}:")
    print(f"VAL []INT ends IS [{', '.join(map(str, ends or [0]))}]:")
    print(f"VAL []BYTE bytes IS [{', '.join(f'#{byte:02X} (BYTE)' for byte in found or [0])}]:")


if __name__ == "__main__":
    main()
