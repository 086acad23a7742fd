"""A record that a host keeps, read a second time: its head, its entries as far as they go,
and what stands behind them.

Plain Python that shares no code with the product. What calls do, and what replies they have,
tools/hostile says a second time.
"""

import math
import sys
import zlib
from pathlib import Path

sys.path[:0] = [str(Path(__file__).resolve().parents[1] / folder) for folder in ("", "hostile")]

import plain  # noqa: E402
from harness import Wrong, must  # noqa: E402
from plain import Refused  # noqa: E402
from records import (  # noqa: E402
    CLIENT, HEAD, Misrecorded, end_of, entry_at, head_of, limit_of, lines_at,
)  # fmt: skip
from sealed import sum_line  # noqa: E402
from sessions import Exchange  # noqa: E402

__all__ = ["Record", "Wrong", "end_of", "head_of", "judge_client", "must"]


class Record:
    """A record of a rack that begins with zeros, or with an image's words.

    `entries` are its whole entries, each the session, the call's text and the reply. `ends` are the
    places where the head and each of them end, `rest` is what stands behind, and `ended` says
    whether that is the end. Each reply is that of `exchange`, which is left.
    """

    def __init__(self, text, image=None):
        line, at = plain.line_at(text, 0)
        head = line is not None and HEAD.fullmatch(line)
        if not head:
            raise Wrong("there is no head")
        self.shape, self.sum, self.names = (
            tuple(int(n) for n in head.groups()[:3]),
            int(head[4], 16),
            [],
        )
        for _ in range(int(head[5])):
            line, at = plain.line_at(text, at)
            client = line is not None and CLIENT.fullmatch(line)
            if not client:
                raise Wrong("the head is cut")
            self.names.append(client[1].decode())
        if not text.startswith(sum_line(0, text[:at]), at):
            raise Wrong("the head has another sum")
        self.exchange, self.entries, self.ends = (
            Exchange(self.shape, image, math.inf),
            [],
            [at + len(sum_line(0, b""))],
        )
        if zlib.adler32(self.exchange.image()) != self.sum:
            raise Wrong("the sum is another")
        self.go_on(text)

    def go_on(self, text):
        """Takes what there is now, where the text begins with what was taken."""
        while self.take_entry(text):
            pass
        self.rest = text[self.ends[-1] :]
        if self.ended and self.rest != end_of(len(self.entries)):
            raise Wrong(f"after the end stands {self.rest[:200]!r}")

    def take_entry(self, text):
        """Takes the next entry, where a whole one stands there: one with its sum."""
        number = len(self.entries)
        try:
            found = lines_at(text, self.ends[-1], number)
        except Misrecorded as why:
            raise Wrong(f"entry {number}: {why}") from why
        self.ended = found is not None and found[0] == b"end %d\n" % number
        if found is None or self.ended:
            return False
        lines, after = found
        call = entry_at(lines, 0)
        if not call:
            raise Wrong(f"entry {number} is {lines!r}")
        session, answer, named, begin, end = call
        if session >= limit_of(self.names):
            raise Wrong(
                f"entry {number} is of session {session}, and there are {len(self.names)} clients"
            )
        try:
            reply = answer(self.exchange, session, *named)
        except Refused as why:
            reply = f"refused {why}"
        if lines[end:] != reply.encode() + b"\n":
            raise Wrong(f"entry {number} has {lines[end:]!r}, and its reply is {reply!r}")
        self.entries.append((session, lines[begin:end].decode(), reply))
        self.ends.append(after)
        return True

    def of(self, session):
        """The calls of a session, each with its reply."""
        return [(call, reply) for owner, call, reply in self.entries if owner == session]


def calls_of(command, reply):
    """The calls that a client's command makes, each with the reply that its entry has. Where the
    command had no reply, `reply` is None, and so is that of each call that it may have made."""
    word = command.split()[0]
    if word in ("progress", "bye"):
        return []
    if word != "plan":
        return [(f"{command}\n", reply)]
    number = command.split()[1]
    if reply == "refused unknown":
        return [(f"fetch {number}\n", reply)]
    return [(f"fetch {number}\n", reply and "fetched"), (f"settle {number}\n", reply)]


def judge_client(entries, said):
    """Judges the entries of a session by what its client said and was told: commands, each with its
    reply, or with None where the host was gone before it came, and None before those that it said
    to another host. What was told stands in the record, in its order, and nothing else does but the
    first calls of those whose replies didn't come."""
    left, is_missing = list(entries), False
    for saying in said:
        if saying is None:
            is_missing = False
            continue
        command, reply = saying
        is_missing = is_missing and reply is None
        for call, wanted in calls_of(command, reply):
            if reply is None:
                is_missing = is_missing or not left or left[0][0] != call
                if is_missing:
                    break
            else:
                why = f"{command!r} was answered {reply!r}, and the record has {left[:1]}"
                must(left[:1] == [(call, wanted)], why, "replies compared with their entries")
            left.pop(0)
    must(not left, f"the record has {left[:1]}, which nobody asked", "clients compared")
