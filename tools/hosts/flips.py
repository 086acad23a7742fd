#!/usr/bin/env python3
"""Records in which something is wrong: flips.py [self] [COUNT [STEP]]

COUNT records, 3 where it isn't said, have 60 entries each, with all kinds of calls. In turn each
bit is wrong, or each so manieth, and each digit; each line and each entry is left out, doubled, and
exchanged with the next; and each number of last entries is left out before the end. Plain Python
(tools/hostile/records.py) judges. By the rule each is refused, and its file stays as it was; or it
was torn off within its last lines. None has another meaning. `replay` and a live session with
--resume are asked in turn about what is refused, and both about the others. With `self` the judge
alone is tried, without the program.
"""

import multiprocessing
import os
import random
import re
import sys

import kept  # noqa: F401 (tools and tools/hostile are on its path)
import harness
from harness import Report
from plain import Refused
from program import ROOMS, ask
from records import Misrecorded, Replay, answer_replay, call_at, end_of, spelled, summed
from sessions import Exchange

SHAPE, SESSIONS = (2, 2, 1), 3
ENTRIES = 60


def calls(draw):
    """The calls of a record, each a text: pokes and peeks first, and batches near the end,
    of one transfer to nine."""
    for number in range(ENTRIES):
        place = f"{draw.randrange(2)} {0x80000800 + 4 * draw.randrange(2):08x}"
        if number > ENTRIES - 20 and number % 3 == 0:
            count = draw.randint(1, 9)
            yield "\n".join(
                [
                    f"batch {count}",
                    *(f"push {draw.randrange(2)} 0 {draw.randrange(2)} 1" for _ in range(count)),
                ]
            ) + "\n"
        elif draw.random() < 0.5:
            yield f"poke {place} {draw.randrange(1 << 32):08x}\n"
        else:
            word = draw.choice(["show", "fetch", "settle", "run", "drop"])
            yield draw.choice([f"peek {place}\n", f"{word} {draw.randint(1, 9)}\n"])


def made_record(turn):
    """The record of these calls, with its end, or without it: each second one names clients."""
    draw, exchange, entries = random.Random(f"flips {turn}"), Exchange(SHAPE), []
    for text in calls(draw):
        answer, named, _ = call_at(text.encode(), 0)
        session = draw.randrange(SESSIONS)
        try:
            reply = answer(exchange, session, *named)
        except Refused as why:
            reply = f"refused {why}"
        entries.append(summed(len(entries), f"{session} {text}{reply}\n".encode()))
    return spelled(SHAPE, entries, SESSIONS * (turn % 2), turn % 3 < 2)


def exchanged(parts):
    """Lists of these parts with one left out, one doubled,
    and two exchanged that follow each other."""
    for at in range(len(parts)):
        yield parts[:at] + parts[at + 1 :]
        yield parts[:at] + parts[at : at + 1] + parts[at:]
        yield parts[:at] + parts[at : at + 2][::-1] + parts[at + 2 :]


def spoilt_records(text, step):
    """What each of these records is, and its text: that of a record in which one thing is wrong."""
    for bit in range(0, 8 * len(text), step):
        one = bytearray(text)
        one[bit // 8] ^= 1 << bit % 8
        yield f"bit {bit}", bytes(one)
    for place in (it.start() for it in re.finditer(rb"[0-9a-f]", text)):
        yield f"digit {place}", text[:place] + b"%x" % (
            (int(text[place : place + 1], 16) + 7) % 16
        ) + text[place + 1 :]
    ends = Replay(text).ends
    entries = [text[begin:end] for begin, end in zip(ends, ends[1:])]
    for parts in exchanged(text.splitlines(keepends=True)):
        yield "lines", b"".join(parts)
    for parts in exchanged(entries):
        yield "entries", text[: ends[0]] + b"".join(parts) + text[ends[-1] :]
    if text.endswith(end_of(ENTRIES)):
        for count in range(ENTRIES):
            yield f"{count} entries alone", text[: ends[count]] + end_of(ENTRIES)


def judged(text, whole):
    """What `replay` has to print of a spoilt record, what it has to tell, and its status; and what
    its file has to be once a session has gone on with it. Wrong where it has another meaning than
    the whole one, or lost more than its last lines."""
    answer = answer_replay(text, "record")
    if answer[2] != 0:
        return answer, text
    replay = Replay(text)
    least = ENTRIES if whole.ended else ENTRIES - 1
    if (
        replay.ended
        or len(replay.entries) < least
        or replay.entries != whole.entries[: len(replay.entries)]
    ):
        raise AssertionError(f"{len(replay.entries)} entries are left, of {len(whole.entries)}")
    return answer, text[: replay.ends[-1]] + end_of(len(replay.entries))


def try_record(report, what, text, wanted, left, names, asks):
    """Asks `replay` about a spoilt record, or a session that goes on with it, or both."""
    with open("record", "wb") as file:
        file.write(text)
    if wanted[2] == 0 or asks == "replay":
        report.check(what, ask("replay", "record"), wanted, "answers of `replay`")
    if wanted[2] == 0 or asks == "session":
        words = ["host", "2x2x1", *names] if names else ["talk", "2x2x1"]
        on = ask(*words, "--record", "record", "--resume", "--quiet")
        with open("record", "rb") as file:
            found = on.status, on.out if wanted[2] else b"", file.read()
        report.check(what, found, (wanted[2], wanted[0] if wanted[2] else b"", left), "sessions")


def try_records(turn, first, step, workers, asks):
    """Tries every so manieth of the records that are made of one."""
    text, report = made_record(turn), Report("flips", is_silent=True)
    whole = Replay(text)
    names = [name.decode() for name in whole.names]
    with harness.room("flips", enter=True, where=ROOMS):
        for name in names:
            open(f"{name}.in", "wb").close()
        for number, (what, spoilt) in enumerate(spoilt_records(text, step)):
            if number // 2 % workers != first or spoilt == text:
                continue
            name = f"{what} of record {turn}"
            try:
                wanted, left = judged(spoilt, whole)
            except (AssertionError, Misrecorded) as why:
                report.note(f"{name}: {why}")
                continue
            report.judge(name, [], "spoilt records that plain Python judged")
            if asks:
                way = "replay" if number % 2 else "session"
                try_record(report, name, spoilt, wanted, left, names, way)
    return report


def main(words):
    asks = "self" not in words
    numbers = [int(word) for word in words if word != "self"]
    count, step = numbers[0] if numbers else 3, numbers[1] if numbers[1:] else 1
    workers, report = os.cpu_count() or 1, Report("flips")
    parts = [
        (turn, first, step, workers, asks) for turn in range(count) for first in range(workers)
    ]
    with multiprocessing.Pool(workers) as pool:
        for own in pool.starmap(try_records, parts):
            report.add(own)
    report.finish()


if __name__ == "__main__":
    main(sys.argv[1:])
