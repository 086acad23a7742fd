#!/usr/bin/env python3
"""Makes occam tables of the orders of one module:
exchange orders BATCH --module M | orders_to_occam.py

examples/board/module.occ reads them. For each setting there are two entries, that of link 0 and
that of link 3, each of two bytes. A table of no elements isn't written, since we aren't sure that
each compiler takes one: it has an element that the numbers before it don't count.
"""

import sys

# Nothing is left in the folder of the examples.
sys.dont_write_bytecode = True

from board.chain import ACTS, orders_of_one, orders_sum, rows  # noqa: E402

NAMES = dict(zip(ACTS, ("idle", "send", "send.copy", "receive")))


def main():
    module, copies, settings = orders_of_one(sys.stdin.read())
    print("-- no orders" if module is None else f"-- the orders of module {module}")
    print(f"VAL INT16 sum IS {orders_sum(copies, settings)} (INT16):")
    print(f"VAL INT n.copies IS {len(copies)}:")
    print(f"VAL []BYTE copies IS [{', '.join(f'{block} (BYTE)' for block in copies or [0])}]:")
    print(f"VAL INT n.settings IS {len(settings)}:")
    entries = [
        ", ".join(f"[{NAMES[act]}, {block} (BYTE)]" for act, block in row) for row in rows(settings)
    ]
    print(
        "VAL [][2][2]BYTE orders IS\n  [" + ",\n   ".join(f"[{entry}]" for entry in entries) + "]:"
    )


if __name__ == "__main__":
    main()
