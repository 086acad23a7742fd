#!/usr/bin/env python3
"""An emulator whose modules are threads and whose links are queues. A C004 says which links feed
each other: it is set by the bytes of its configuration link, and asked after each setting, as a
real one.

Eight modules transpose what they have: block b of module m and block m of module b change places.
Each module has its orders, and obeys those of a setting once it is told that the setting stands. In
the end the memories are compared with those that `apply` leaves. Where a word names the program
`exchange`, its `drive` sets the switch, over two named pipes. docs/EMULATORS.md says how to run it.
"""

import contextlib
import os
import queue
import select
import shutil
import signal
import subprocess
import sys
import tempfile
import threading
from pathlib import Path

import exchange

MODULES, BYTES = 8, 8

# The switch, and for each of its links what comes to the module that is on it. Link 0 of module m
# is on link m, and link 3 on link 16 + m.
switch = exchange.C004()
links = [queue.Queue() for _ in range(32)]


def send(link, block):
    """Sends a block from a module's link into the switch.
    It comes out wherever that input feeds an output."""
    for output, queued in enumerate(links):
        if switch.source(output) == link:
            queued.put(block)


class Module(threading.Thread):
    """A module with its blocks. It obeys its orders of each setting that stands,
    and then says so."""

    def __init__(self, number, blocks):
        super().__init__(daemon=True)
        self.number, self.blocks, self.orders, self.told, self.done = (
            number,
            blocks,
            None,
            queue.Queue(),
            queue.Queue(),
        )

    def run(self):
        aside = {block: self.blocks[block] for block in self.orders.copies}
        for setting in iter(self.told.get, None):
            # It sends before it receives, since nobody who sends into a queue has to wait.
            for order in sorted(
                self.orders.settings[setting], key=lambda order: order.act == "receive block"
            ):
                link = self.number if order.link == 0 else 16 + self.number
                if order.act == "receive block":
                    self.blocks[order.block] = links[link].get()
                else:
                    send(
                        link,
                        aside[order.block]
                        if order.act == "send copy"
                        else self.blocks[order.block],
                    )
            self.done.put(True)


def stands(setting):
    """Whether the switch answers for each output of a setting
    that the other end's input feeds it."""
    pairs = [(t.initiator, 16 + t.responder) for t in setting]
    asked = [(output, given) for pair in pairs for output, given in (pair, pair[::-1])]
    return all(switch.take(bytes([2, output])) == bytes([0x80 + given]) for output, given in asked)


def set_here():
    """Hands the switch the bytes of each setting: the number of each that is set."""
    for number, (sent,) in enumerate(exchange.switch_bytes(batch, plan)):
        if switch.take(sent) or switch.refused:
            sys.exit("WRONG: the switch doesn't obey")
        yield number


def set_by(program):
    """Has `drive` set the switch: the number of each setting that it reports. The blocks have moved
    once the next number is asked for."""
    if not shutil.which(program):
        sys.exit(f"there is no program {program}")
    with tempfile.TemporaryDirectory() as folder:
        files = {
            name: Path(folder, name)
            for name in ("batch", "schedule", "board", "board.in", "board.out")
        }
        files["batch"].write_text(batch)
        files["schedule"].write_text(plan)
        os.mkfifo(files["board.in"])
        os.mkfifo(files["board.out"])
        words = [program, "drive", files["batch"], files["board"], "--schedule", files["schedule"]]
        # Without a buffer no line is hidden from `select`, and no line feed is kept back.
        with subprocess.Popen(
            words, stdin=subprocess.PIPE, stdout=subprocess.PIPE, bufsize=0
        ) as drive:
            # So that it ends too, and no folder is left.
            signal.signal(signal.SIGTERM, lambda *_: (drive.kill(), sys.exit(128 + signal.SIGTERM)))
            # Opened to read and to write, neither waits for `drive`,
            # which opens none where it is refused.
            sent, replies = (
                os.open(files["board.in"], os.O_RDWR),
                os.open(files["board.out"], os.O_RDWR),
            )
            while True:
                select.select([sent, drive.stdout], [], [])
                # Bytes that are there came before the line, though it may be seen first.
                if select.select([sent], [], [], 0)[0]:
                    os.write(replies, switch.take(os.read(sent, 4096)))
                    continue
                line = drive.stdout.readline().decode()
                if not line.startswith("setting"):
                    break
                yield int(line.split()[1])
                # It may have ended meanwhile.
                with contextlib.suppress(BrokenPipeError):
                    drive.stdin.write(b"\n")
            print(line, end="")
            os.close(sent)
            os.close(replies)
    if drive.returncode:
        print(f"drive has ended with status {drive.returncode}, so nothing is compared")
        sys.exit(drive.returncode)


modules = [Module(m, [bytes([16 * m + b]) * BYTES for b in range(MODULES)]) for m in range(MODULES)]
image = b"".join(block for module in modules for block in module.blocks)
transfers = [
    exchange.Transfer("push", m, b, b, m) for m in range(MODULES) for b in range(MODULES) if b != m
]
batch = exchange.batch_text(transfers)
plan = exchange.plan(batch, steady=True)

# Each module has orders.
for module, told in zip(modules, exchange.orders(batch, plan)):
    module.orders = told
    module.start()
settings, standing = exchange.settings(plan), 0
for number in set_by(sys.argv[1]) if sys.argv[1:] else set_here():
    standing += stands([transfers[it] for it in settings[number]])
    for module in modules:
        module.told.put(number)
    for module in modules:
        module.done.get()
for module in modules:
    module.told.put(None)
    module.join()
print(f"{len(transfers)} transfers in {standing} settings that stood")

left = b"".join(block for module in modules for block in module.blocks)
same = left == exchange.apply(f"{MODULES}x{MODULES}x{BYTES // 4}", batch, image)
print("as exchange apply" if same else "WRONG")
sys.exit(0 if same else 1)
