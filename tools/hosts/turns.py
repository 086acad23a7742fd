#!/usr/bin/env python3
"""In which turn the program reads, records, tells and asks: turns.py CALLS.SO

CALLS.SO, which calls.c is built to, notes each call of the system, and lets some fail. `talk` hears
each piece of a row by a read of its own. The course of a row has a letter for each thing that has
to be done: `a` more is asked for, `k` what waits is kept on the disk, `tN` N lines are told, `r` a
line is told on standard error. `drive` has a port of plain files, each call of which fails in turn.
"""

from __future__ import annotations

import errno
import re
import socket
import subprocess
import sys
from collections.abc import Iterator, Sequence
from pathlib import Path

sys.path.insert(0, str(Path(__file__).resolve().parents[1]))

import harness  # noqa: E402
from pipe_clients import EXCHANGE, PROCESSES  # noqa: E402

CALLS = str(Path(sys.argv[-1]).resolve())
PEEK, WORD = "peek 0 80000800\n", "word 00000000\n"
BATCH, RAN = "batch 1\npush 0 0 1 0\n", "ran 1 run 1 settings 1 words 1 bits 117\n"

# What a client says, piece by piece; the course of it; what it hears; and how its session ends.
ROWS = [
    ([PEEK * 3], "a k t3 a", WORD * 3, ""),
    ([PEEK] * 3, "a k t1 a k t1 a k t1 a", WORD * 3, ""),
    ([f"{PEEK}show 9\n{PEEK}hello\n{PEEK}"], "a k t2 r k t2 r k t1 a",
     f"{WORD}refused unknown\n{WORD}refused line\n{WORD}", ""),
    ([f"{PEEK}progress\nbye\n{PEEK}"], "a k t3", f"{WORD}progress run 0 done 0\nbye\n", ""),
    ([f"progress\n{PEEK}"], "a t1 k t1 a", f"progress run 0 done 0\n{WORD}", ""),
    ([f"{PEEK}{BATCH}plan 1\nrun 1\n{PEEK}"], "a k t2 k t1 k t2 a",
     f"{WORD}accepted 1\nplanned 1 settings 1\n{RAN}{WORD}", ""),
    ([f"{PEEK}batch 1\n", f"push 0 0 1 0\n{PEEK}"], "a k t1 a k t2 a",
     f"{WORD}accepted 1\n{WORD}", ""),
    ([f"{PEEK}batch 2\npush 0 0 1 0\n"], "a k t1 a k k t1", WORD, "cut"),
    (["batch 0\n" + "show 1\n" * 300],
     "a k t147 k t147 k t7 a", "accepted 1\n" + "batch 1 transfers 0 waiting\n" * 300, ""),
    (["bye\n"], "a t1", "bye\n", ""),
    ([PEEK, "bye\n"], "a k t1 a t1", f"{WORD}bye\n", ""),
]  # fmt: skip

# Rows in which a call fails: which one, with the number of its error or by EIO, and what comes of
# it then. Nothing is tried once more, but a read that a signal interrupts.
FAILING = [
    ("sync:record:3", [PEEK * 3, PEEK * 3, PEEK], "a k t3 a t1 r", WORD * 3, "record"),
    ("sync:record:3", [f"{PEEK}show 9\n{PEEK}bye\n"], "a k t2 r t1 r",
     f"{WORD}refused unknown\n", "record"),
    ("write:record:2", [PEEK * 3], "a t1 r", "", "record"),
    ("read:socket:1", [PEEK], "", "", "read"),
    (f"read:socket:2:{errno.EINTR}", [PEEK, PEEK], "a k t1 a k t1 a", WORD * 2, ""),
    ("read:socket:2", [PEEK, PEEK], "a k t1 k k t1", WORD, "read"),
    ("write:pipe:1", [PEEK], "a k k k t1", "", "write"),
    ("write:pipe:2", [PEEK, PEEK, PEEK], "a k t1 a k k k t1", WORD, "write"),
]  # fmt: skip

# What an event is by its call and the name of the file. What fails is none.
EVENTS = {
    ("read", "socket"): "a",
    ("sync", "record"): "k",
    ("write", "pipe"): "t",
    ("write", "err"): "r",
}


def calls_of(name: str) -> list[tuple[str, str, int]]:
    """The calls that went to their ends: each what it does, the file, and how many bytes."""
    parts = [line.split() for line in Path(name).read_text().splitlines()]
    return [(call, file, int(count)) for when, call, file, count in parts if when == "end"]


def course(calls: Sequence[tuple[str, str, int]], told: bytes) -> str:
    """The course of a session, without what comes before its first reading and behind its last."""
    events, at = [], 0
    for call, file, count in calls:
        event = EVENTS.get((call, file), "") if count >= 0 else ""
        if event == "t":
            event, at = f"t{told.count(bytes([10]), at, at + count)}", at + count
        events.append(event)
    begin = next((n for n, event in enumerate(events) if event == "a"), len(events))
    end = max(
        (n for n, (call, file, _) in enumerate(calls) if file in ("socket", "pipe", "err")),
        default=0,
    )
    return " ".join(event for event in events[begin : end + 1] if event)


def talk(says: Sequence[str], fails: str = "") -> tuple[str, str, int]:
    """The course of a session with these pieces, what is told, and the status."""
    for name in "record", "calls":
        Path(name).unlink(missing_ok=True)
    ours, theirs = socket.socketpair(socket.AF_UNIX, socket.SOCK_SEQPACKET)
    env = {"LD_PRELOAD": CALLS, "CALLS_LOG": "calls"}
    if fails:
        env["CALLS_FAIL"] = fails if fails.count(":") == 3 else f"{fails}:{errno.EIO}"
    with open("err", "wb") as err, ours, theirs:
        words = [EXCHANGE, "talk", "2x1x1", "--record", "record", "--sync"]
        process = PROCESSES.start(words, stdin=theirs, stderr=err, env=env)
        for piece in says:
            ours.send(piece.encode())
        ours.shutdown(socket.SHUT_WR)
        told = process.communicate()[0]
    return course(calls_of("calls"), told), told.decode(), process.returncode


def sessions() -> Iterator[tuple[object, object]]:
    for fails, says, wanted, hears, end in [("", *row) for row in ROWS] + FAILING:
        told = hears + (f"ended {end}\n" if end else "")
        status = 0 if not end else 3 if end == "record" else 1
        yield (fails, says, *talk(says, fails)), (fails, says, wanted, told, status)


# What a switch replies as it comes up, and then to the enquiries of two settings.
HONEST = bytes(range(0x80, 0xA0)) + bytes([0x91, 0x92, *bytes(15), 0x80, 0x81, *bytes(13)])
HONEST += bytes([0x92, *bytes(17), 0x80, *bytes(13)])
THREE = str(harness.EXAMPLES / "three-transfers.txt")


def port_fails() -> Iterator[tuple[object, object]]:
    """Each reading and each writing of a port fails once: the drive says so, and the port isn't
    called again."""
    Path("p.out").write_bytes(HONEST)
    for call, file in ("read", "p.out"), ("write", "p.in"):
        number, is_whole = 0, False
        while not is_whole:
            number += 1
            Path("p.in").write_bytes(b"")
            Path("calls").unlink(missing_ok=True)
            env = {
                "LD_PRELOAD": CALLS,
                "CALLS_LOG": "calls",
                "CALLS_FAIL": f"{call}:{file}:{number}:5",
            }
            words = [EXCHANGE, "drive", THREE, "p", "--go-on"]
            run = subprocess.run(words, stdin=subprocess.DEVNULL, capture_output=True, env=env)
            own = [
                it for it in calls_of("calls") if it[:2] in (("read", "p.out"), ("write", "p.in"))
            ]
            failed = [at for at, it in enumerate(own) if it[2] < 0]
            is_whole, lines = not failed, run.stdout.decode().splitlines()
            wanted = (
                ("driven settings 2", 0)
                if is_whole
                else (f"stopped setting {len(lines) - 1} port", 1)
            )
            found = lines[-1], run.returncode, failed in ([], [len(own) - 1])
            yield (call, number, *found), (call, number, *wanted, True)
        yield number > 2, True


def main() -> None:
    report = harness.Report("turns")
    harness.run_cases(report, [sessions, port_fails], PROCESSES, times_more=harness.TIMES_MORE)
    report.finish()


if __name__ == "__main__":
    main()
