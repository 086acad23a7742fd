#!/usr/bin/env python3
"""Sixteen live clients add up their numbers in four stages: module m has m + 1 at first,
and the sum of all in the end.

In each stage a client's number goes to the module whose own number differs in one bit, and what
came from there is added to it. Start the host first, and then the clients; at the top of a clone
the program is ./exchange:

    mkfifo {0..15}.in {0..15}.out
    exchange host 16x5x2 {0..15} &
    examples/all-reduce.py
"""

import os
import sys
import time
from concurrent.futures import ThreadPoolExecutor
from pathlib import Path

# Seconds that a number may take to come.
LIMIT = 10


def fail(module, why):
    """Ends all clients, since others may wait for this one."""
    os.write(2, f"all-reduce.py: module {module}: {why}\n".encode())
    os._exit(1)


def address(block, word):
    """Where a word is, in modules whose blocks have two words."""
    return f"{0x80000800 + 4 * (2 * block + word):08x}"


def add_up(module):
    """The session of the client of a module. Block 0 has its number, and the word 1 behind it;
    block S + 1 is for what comes in stage S."""
    with open(f"{module}.in", "w") as said, open(f"{module}.out") as told:

        def ask(line):
            print(line, file=said, flush=True)
            reply = told.readline().split()
            if not reply or reply[0] == "refused":
                fail(module, " ".join(reply) or "the host has ended")
            return reply

        total = module + 1
        ask(f"poke {module} {address(0, 1)} 00000001")
        for stage in range(4):
            ask(f"poke {module} {address(0, 0)} {total:08x}")
            batch = ask(f"batch 1\npush {module} 0 {module ^ 1 << stage} {stage + 1}")[1]
            ask(f"plan {batch}")
            ask(f"run {batch}")
            end = time.monotonic() + LIMIT
            while ask(f"peek {module} {address(stage + 1, 1)}") != ["word", "00000001"]:
                if time.monotonic() > end:
                    fail(module, f"nothing has come in stage {stage}; is the rack 16x5x2?")
                time.sleep(0.01)
            total += int(ask(f"peek {module} {address(stage + 1, 0)}")[1], 16)
    return total


if not all(Path(f"{module}.{way}").is_fifo() for module in range(16) for way in ("in", "out")):
    sys.exit(
        "all-reduce.py: the pipes 0.in to 15.out aren't here: its first lines say how to make them "
        "and start the host"
    )
with ThreadPoolExecutor(16) as clients:
    for module, total in enumerate(clients.map(add_up, range(16))):
        print(f"module {module} has {total}")
