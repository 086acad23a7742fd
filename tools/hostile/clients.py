#!/usr/bin/env python3
"""Sixteen clients at once on one exchange, and its record judged afterwards.

    clients.py [ROUNDS]         so many rounds, 250 where it isn't said

In each round sixteen random scripts are served side by side, with a record and the image that they
leave. In every fifth round `serve` doesn't read them, but live clients of `host` say them over
named pipes. Plain Python replays the record, and has to come to the image; so has `replay`. Each
session has to have been told the replies of its own entries, in order, and each reading lies
between what its seat had seen and what the record allows at that place. The status says whether a
fault ended a session.
"""

import functools
import itertools
import multiprocessing
import os
import random
import sys
from collections import Counter

import live
import plain
import spoil
from plain import Refused
from program import ROOMS, ask
from records import Replay
from sessions import COMMANDS, Exchange, Session

import harness
from harness import Report, must

CLIENTS = 16
STEP = 8192


def value_of(reply):
    """What the progress word is at least behind a reply: that of a run which completed."""
    words = reply.split()
    return STEP * int(words[3]) + int(words[5]) if words[0] == "ran" else 0


class History:
    """The entries of a record, each (session, the call's text, reply),
    and how far its runs had come before each."""

    def __init__(self, entries):
        self.entries = entries
        self.greatest = list(
            itertools.accumulate((value_of(reply) for _, _, reply in entries), max, initial=0)
        )

    def of(self, session):
        """The entries of a session, each with its place in the record."""
        return [
            (at, call, reply)
            for at, (owner, call, reply) in enumerate(self.entries)
            if owner == session
        ]


class Part:
    """What a session was told, beside its part of the record."""

    def __init__(self, history, number, shape, script, told):
        self.history, self.left, self.told = history, history.of(number), told
        self.reader = Session(Exchange(shape), number, script)
        self.shape, self.seen = shape, 0

    def entry(self, call):
        """The reply of the session's next entry, which is that of this call."""
        must(bool(self.left), f"the session asked {call!r}, and the record ends before")
        _, found, reply = self.left.pop(0)
        must(found == call, f"the record has {found!r}, and the session asked {call!r}", "entries")
        self.seen = max(self.seen, value_of(reply))
        return reply

    def reading(self, line):
        """Judges a reading, which is given back."""
        words = line.split()
        is_reading = words[:2] == ["progress", "run"] and words[3] == "done"
        must(is_reading, f"{line!r} is no reading")
        value = STEP * int(words[2]) + int(words[4])
        place = self.left[0][0] if self.left else len(self.history.entries)
        least, most = self.seen, self.history.greatest[place]
        must(least <= value <= most, f"{line!r} isn't between {least} and {most}", "readings")
        self.seen = value
        return line

    def reply(self, line, told):
        """The reply to a line of the script, or None where the session ends in it."""
        for form, _ in COMMANDS:
            found = form.fullmatch(line)
            if found:
                return self.command(line.decode().split(), told)
        return "refused line"

    def command(self, words, told):
        if words[0] == "bye":
            return "bye"
        if words[0] == "progress":
            return self.reading(told)
        if words[0] == "batch":
            return self.batch(words[1])
        if words[0] == "plan":
            fetched = self.entry(f"fetch {words[1]}\n")
            return self.entry(f"settle {words[1]}\n") if fetched == "fetched" else fetched
        return self.entry(" ".join(words) + "\n")

    def batch(self, count):
        if int(count) > plain.TRANSFERS:
            return "refused too many"
        lines = [self.reader.line(True) for _ in range(int(count))]
        if None in lines:
            return None
        text = b"".join(line + b"\n" for line in [b"batch " + count.encode(), *lines])
        try:
            plain.read_batch(text, self.shape)
        except Refused as why:
            return f"refused {why}"
        return self.entry(text.decode())

    def judge(self):
        """Compares all that the session was told with what it read and with its entries."""
        told = list(self.told)
        while True:
            line = self.reader.line(False)
            if line is None:
                break
            reply = self.reply(line, told[0] if told else "")
            if reply is None:
                break
            why = f"{line!r} has {reply!r}, and the session was told {self.told}"
            must(told[:1] == [reply], why, "replies")
            del told[0]
            if reply == "bye":
                break
        ended = [f"ended {self.reader.ended}"] if self.reader.ended else []
        why = f"{told} was told and {self.left} entered behind the end {ended}"
        must(told == ended and not self.left, why, "sessions to their ends")


def parts_of(text):
    """What each session was told, by its number."""
    parts = {}
    for line in text.splitlines():
        if line.startswith("session "):
            lines = parts.setdefault(int(line.split()[1]), [])
        else:
            lines.append(line)
    return parts


def read(name):
    with open(name, "rb") as file:
        return file.read()


def judge_round(shape, scripts, told, status, room):
    """Judges what the sessions were told, their record and their image: the entries."""
    has_fault = any(line.startswith("ended ") for lines in told.values() for line in lines)
    must(status == int(has_fault), f"status {status} doesn't say whether a fault ended a session")
    replay, image = Replay(read(f"{room}/record"), shape), read(f"{room}/left")
    is_same = replay.ended and replay.exchange.image() == image
    must(is_same, "the record leads to another image", "images by plain Python")
    again = ask("replay", f"{room}/record")
    why = f"`replay` leads to another image: {again.err!r}, status {again.status}"
    must((again.out, again.status) == (image, 0), why, "images by `replay`")
    history = History(replay.entries)
    for session, script in enumerate(scripts):
        Part(history, session, shape, script, told[session]).judge()
    return replay.entries


def serve(shape, names, scripts, *options):
    """Serves scripts that stand in files of these names: how that ended,
    and what each session was told."""
    for name, script in zip(names, scripts):
        with open(name, "wb") as file:
            file.write(script)
    answer = ask("serve", shape, *names, *options)
    return answer, parts_of(answer.out.decode())


def host(shape, names, scripts, draw, *options):
    """The same of live clients."""
    answer, heard = live.host(shape, names, scripts, draw, *options)
    ends = parts_of(answer.out.decode())
    return (
        answer,
        {
            session: text.decode().splitlines() + ends.get(session, ["nothing of its end"])
            for session, text in enumerate(heard)
        },
    )


def try_round(number, replies):
    """One round, of whose replies the first words are counted."""
    draw = random.Random(f"clients {number}")
    shape = (draw.randint(2, plain.MODULES), draw.randint(2, 4), draw.randint(1, 8))
    scripts = [spoil.crowd_script(draw, shape) for _ in range(CLIENTS)]
    with harness.room("clients", where=ROOMS) as room:
        names = [f"{room}/client{session}" for session in range(CLIENTS)]
        words = "{}x{}x{}".format(*shape)
        kept = ["--record", f"{room}/record", "--image-out", f"{room}/left", "--workers", "2"]
        if is_live := number % 5 == 4:
            answer, told = host(words, names, scripts, draw, *kept)
        else:
            answer, told = serve(words, names, scripts, *kept)
        entries = judge_round(shape, scripts, told, answer.status, room)
        replies.update(reply.split()[0] for _, _, reply in entries)
        must(len(told) == CLIENTS, "a client is missing", "live rounds" if is_live else "rounds")


def report_of(number):
    """What comes of a round, and how often each kind of reply came."""
    replies = Counter()
    case = functools.partial(try_round, number, replies)
    return harness.attempt("clients", f"round {number}", case), replies


def main():
    rounds = int(sys.argv[1]) if len(sys.argv) > 1 else 250
    report, replies = Report("clients"), Counter()
    with multiprocessing.Pool(len(os.sched_getaffinity(0))) as pool:
        for own, found in pool.imap_unordered(report_of, range(rounds)):
            report.add(own)
            replies.update(found)
    print("clients:", ", ".join(f"{times} {name}" for name, times in sorted(replies.items())))
    report.finish()


if __name__ == "__main__":
    main()
