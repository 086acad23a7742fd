#!/usr/bin/env python3
"""An emulator of sixteen modules, whose memories are bytearrays. They share a grid of 16 by 16
cells, on which a fire spreads.

Each has 4 by 4 of the cells. In each step the modules push their outer cells to their neighbours,
by orders that are made once, and then each goes on by itself. What the pushes bring is compared
with plain copying. docs/EMULATORS.md says how to run it.
"""

import sys
from typing import Dict, Iterator, List, Optional, Tuple

import exchange

# The bytes for the switch, setting by setting.
Sent = List[Tuple[bytes, ...]]

# Modules along a side of the grid, cells along a side of a module, and bytes of a block,
# which is one word.
SIDE, STEPS = 4, 4

# Blocks 0 to 3 of a module are its outer cells north, east, south and west, and blocks 4 to 7 those
# that its neighbours have there. Behind them are the module's own cells, row by row, which no
# transfer moves.
BLOCKS = [slice(SIDE * block, SIDE * block + SIDE) for block in range(8)]
CELLS = slice(8 * SIDE, 8 * SIDE + SIDE * SIDE)
OUTER = [slice(0, 4), slice(3, 16, 4), slice(12, 16), slice(0, 16, 4)]

# Link 0 of module m is on link m of the switch, and link 3 on link 16 + m.
FIRST = {0: 0, 3: 16}


def neighbours(module: int) -> Iterator[Tuple[int, int]]:
    """The neighbours of a module, each behind the way there: 0 is north, 1 east, 2 south,
    3 west."""
    row, column = divmod(module, SIDE)
    for way, (r, c) in enumerate(
        [(row - 1, column), (row, column + 1), (row + 1, column), (row, column - 1)]
    ):
        if r in range(SIDE) and c in range(SIDE):
            yield way, SIDE * r + c


def move(modules: List[bytearray], orders: List[exchange.ModuleOrders], settings: Sent) -> None:
    """Has each setting set, and has the modules obey their orders of it: all of them send,
    and then all of them receive."""
    aside = {
        (told.module, block): bytes(modules[told.module][BLOCKS[block]])
        for told in orders
        for block in told.copies
    }
    for setting, (sent,) in enumerate(settings):
        switch.take(sent)
        wires: Dict[Optional[int], bytes] = {}
        obeyed = [(told.module, order) for told in orders for order in told.settings[setting]]
        for module, (link, act, block) in obeyed:
            if act == "send block":
                wires[FIRST[link] + module] = bytes(modules[module][BLOCKS[block]])
            elif act == "send copy":
                wires[FIRST[link] + module] = aside[module, block]
        for module, (link, act, block) in obeyed:
            if act == "receive block":
                modules[module][BLOCKS[block]] = wires[switch.source(FIRST[link] + module)]


def is_as_copied(modules: List[bytearray]) -> bool:
    """Whether each module has what plain copying of its neighbours' cells gives."""
    ways = [(m, way, n) for m in range(SIDE * SIDE) for way, n in neighbours(m)]
    return all(
        modules[m][BLOCKS[4 + way]] == modules[n][CELLS][OUTER[(way + 2) % 4]] for m, way, n in ways
    )


def spread(memory: bytearray) -> None:
    """One step within a module: a cell burns where it, or one beside it, did."""
    north, east, south, west = (memory[block] for block in BLOCKS[4:])
    cells = memory[CELLS]
    rows = [north, *(cells[block] for block in BLOCKS[:SIDE]), south]
    for r in range(SIDE):
        row = [west[r], *rows[r + 1], east[r]]
        cells[BLOCKS[r]] = bytes(
            max(*row[c : c + 3], rows[r][c], rows[r + 2][c]) for c in range(SIDE)
        )
    memory[CELLS] = cells


modules = [bytearray(CELLS.stop) for _ in range(SIDE * SIDE)]
modules[10][CELLS.start] = 1
transfers = [
    exchange.Transfer("push", m, way, n, 4 + (way + 2) % 4)
    for m in range(SIDE * SIDE)
    for way, n in neighbours(m)
]
batch = exchange.batch_text(transfers)
plan = exchange.plan(batch)
orders, settings, switch = (
    exchange.orders(batch, plan),
    exchange.switch_bytes(batch, plan),
    exchange.C004(),
)
print(f"{len(transfers)} transfers in {len(settings)} settings")
for step in range(1, STEPS + 1):
    for memory in modules:
        for way in range(4):
            memory[BLOCKS[way]] = memory[CELLS][OUTER[way]]
    move(modules, orders, settings)
    if not is_as_copied(modules):
        sys.exit(f"step {step}: WRONG")
    for memory in modules:
        spread(memory)
    print(
        f"step {step}: {sum(sum(it[CELLS]) for it in modules)} cells burn, in "
        f"{sum(any(it[CELLS]) for it in modules)} modules"
    )
print("as plain copying")
