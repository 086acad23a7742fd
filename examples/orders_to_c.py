#!/usr/bin/env python3
"""Makes C tables of the orders of one module:
exchange orders BATCH --module M | orders_to_c.py > tables.h

examples/board/module.c reads them. For each setting there are two entries, that of link 0 and that
of link 3, each of two bytes. An array in C has one element at least: where there would be none, it
has one that the numbers before it don't count.
"""

import sys

# Nothing is left in the folder of the examples.
sys.dont_write_bytecode = True

from board.chain import ACTS, orders_of_one, orders_sum, rows  # noqa: E402

NAMES = dict(zip(ACTS, ("IDLE", "SEND", "SEND_COPY", "RECEIVE")))


def main():
    module, copies, settings = orders_of_one(sys.stdin.read())
    print("/* no orders */" if module is None else f"/* the orders of module {module} */")
    print(
        f"enum {{ COPIES = {len(copies)}, SETTINGS = {len(settings)}, SUM = "
        f"{orders_sum(copies, settings)} }};"
    )
    print(f"static const unsigned char copies[] = {{{', '.join(map(str, copies or [0]))}}};")
    print("static const struct order orders[][2] = {")
    for row in rows(settings):
        print("    {" + ", ".join(f"{{{NAMES[act]}, {block}}}" for act, block in row) + "},")
    print("};")


if __name__ == "__main__":
    main()
