#!/usr/bin/env python3
"""Bursts of lines at a host that records: bursts.py CALLS.SO

Clients say many lines together. CALLS.SO, which calls.c is built to, notes each write and each sync
of the host. Plain Python (kept.py) reads the record a second time, and each case is judged by both.
Before a byte of a reply is written, the entries of its command stand in the record, and with
`--sync` a sync has ended behind them. What comes before a plan, a run, or a batch that isn't all
there is told before that is done, and a refusal before what follows it. Where a write or a sync of
the record fails once, and would work then, nothing of that group is told, and nothing more is
written there; a host that resumes goes on. In bursts of 64 lines an entry takes at most MOST
writes, and as many syncs. Where sixteen clients hear each reply before they say the next line, and
a sync takes its time, an entry takes at most MOST_BY_TURNS syncs, and MOST_SWITCHES from one thread
to another; and where each says one line, all who wait for the last sync are woken.
"""

import errno
import os
import random
import resource
import select
import subprocess
import sys
import tempfile
from collections import namedtuple

from kept import Record, Wrong, calls_of, end_of, judge_client, must
import harness
from moments import EXCHANGE, LIMIT, SECONDS, Started, is_wrong, read, resume, shown

MOST = 0.05
MOST_BY_TURNS = 0.08
MOST_SWITCHES = 3
SHAPE = (2, 2, 1)

# A call of the system: whether it begins or ends, what it does, with which file, and how many bytes
# it has; less than 0 where it failed.
Call = namedtuple("Call", "when what name count")


def switches():
    """How often all hosts that have ended were switched from one thread to another."""
    used = resource.getrusage(resource.RUSAGE_CHILDREN)
    return used.ru_nvcsw + used.ru_nivcsw


class Client:
    """A client, which says texts, each with so many commands,
    once it has heard the replies to the one before."""

    def __init__(self, name, texts):
        self.name, self.texts, self.told, self.due = name, list(texts), b"", 0
        os.mkfifo(f"{name}.in")
        os.mkfifo(f"{name}.out")

    def come(self):
        """Opens the pipe by which it speaks before the one by which it hears, as the host does."""
        self.said = os.open(f"{self.name}.in", os.O_WRONLY)
        self.heard = os.open(f"{self.name}.out", os.O_RDONLY)
        self.say()

    def say(self):
        if not self.texts:
            os.close(self.said)
            return
        text, count = self.texts.pop(0)
        self.due += count
        try:
            os.write(self.said, text.encode())
        except BrokenPipeError:
            pass

    def hear(self):
        """Hears what there is: whether more may come."""
        more = os.read(self.heard, 1 << 16)
        self.told += more
        if more and self.told.count(b"\n") == self.due:
            self.say()
        return bool(more)


class Day:
    """A host of clients who said these texts, which has ended: its folder, what it printed,
    and the calls that were noted."""

    def __init__(self, room, texts, *options, **calls):
        self.room, self.texts, self.syncs, before = room, texts, "--sync" in options, switches()
        self.clients = [Client(f"{room}/c{k}", its) for k, its in enumerate(texts)]
        words = [
            EXCHANGE,
            "host",
            shown(SHAPE),
            *(client.name for client in self.clients),
            "--record",
            f"{room}/record",
            *options,
        ]
        env = {"LD_PRELOAD": os.path.abspath(sys.argv[1]), "CALLS_LOG": f"{room}/calls", **calls}
        process = subprocess.Popen(
            words, stdin=subprocess.DEVNULL, stdout=subprocess.PIPE, stderr=subprocess.PIPE, env=env
        )
        try:
            self.talk()
            out, err = process.communicate(timeout=LIMIT)
        finally:
            process.kill()
        self.out, self.err, self.status, self.switches = (
            out.decode(),
            err.decode(),
            process.returncode,
            switches() - before,
        )
        with open(f"{room}/calls", encoding="utf-8") as file:
            parts = [line.split() for line in file]
        self.calls = [
            Call(when, what, name, int(count))
            for when, what, name, count in parts
            if what in ("write", "sync")
        ]
        self.record = Record(read(f"{room}/record"))

    def talk(self):
        for client in self.clients:
            client.come()
        hearing = {client.heard: client for client in self.clients}
        while hearing:
            ready = select.select(list(hearing), [], [], LIMIT)[0]
            if not ready:
                raise Wrong("it hangs")
            for end in ready:
                if not hearing[end].hear():
                    os.close(end)
                    del hearing[end]

    def said_and_told(self, number):
        """The commands of a client, each with its reply, or None."""
        commands = "".join(text for text, _ in self.texts[number]).splitlines()
        sayings, replies = [], self.clients[number].told.decode().splitlines()
        while commands:
            command = commands.pop(0)
            if command.startswith("batch "):
                command = "\n".join(
                    [command, *(commands.pop(0) for _ in range(int(command.split()[1])))]
                )
            sayings.append((command, replies.pop(0) if replies else None))
        return sayings

    def on_record(self, name):
        """How many calls on the record did this, and did it well."""
        return sum(
            1
            for call in self.calls
            if (call.when, call.what, call.name) == ("end", name, "record") and call.count >= 0
        )

    def judge(self):
        """Judges what clients were told beside the record, and in which order all was written."""
        parts = [Part(self, number) for number in range(len(self.clients))]
        there = safe = asked = 0
        for call in self.calls:
            if call.name == "record":
                if (call.when, call.what) == ("begin", "write"):
                    for part in parts:
                        part.begins_to_record(there + call.count)
                elif (call.when, call.what) == ("begin", "sync"):
                    asked = there
                elif call.what == "write":
                    there += max(call.count, 0)
                    safe = safe if self.syncs else there
                elif call.count == 0:
                    safe = asked
            elif call.what == "write":
                for part in parts:
                    if part.file == call.name:
                        part.begins_to_tell(
                            call.count, safe
                        ) if call.when == "begin" else part.has_told(call.count)
        for part in parts:
            compared, told = part.compared, part.client.told.count(b"\n")
            must(compared >= told, f"{part.file}: of {told} replies {compared} were compared")


class Part:
    """What a client was told so far, beside the entries of its commands."""

    def __init__(self, day, number):
        self.client, self.file = day.clients[number], f"c{number}.out"
        self.told = self.compared = 0
        entries, ends = day.record.entries, day.record.ends
        own = [(ends[at], ends[at + 1]) for at in range(len(entries)) if entries[at][0] == number]
        judge_client(day.record.of(number), day.said_and_told(number))
        # Of each command: where its first entry begins, where its last one ends, and whether the
        # replies before it are told first.
        self.commands, at, is_refused = [], 0, False
        for command, reply in day.said_and_told(number):
            count = len(calls_of(command, reply))
            its = own[at : at + count]
            at += count
            waits = command.split()[0] in ("plan", "run") or is_refused
            is_refused = (reply or "").startswith("refused ")
            self.commands.append(
                (its[0][0] if its else None, max((end for _, end in own[:at]), default=0), waits)
            )

    def replies(self, count, *, begun):
        """How many replies so many bytes are: those that are begun, or those that are whole."""
        text = self.client.told[:count]
        return text.count(b"\n") + (begun and text[-1:] not in (b"", b"\n"))

    def begins_to_tell(self, count, safe):
        begun = self.replies(self.told + count, begun=True)
        for reply in range(self.compared, begun):
            end = self.commands[reply][1]
            why = f"{self.file}: reply {reply} comes before its entry: {end} after {safe}"
            must(end <= safe, why, "replies compared with what the record had")
        self.compared = max(self.compared, begun)

    def has_told(self, count):
        self.told += max(count, 0)

    def begins_to_record(self, until):
        """The record gets these bytes: where a plan, a run or what follows a refusal stands there,
        what came before it was told."""
        told = self.replies(self.told, begun=False)
        for at, (begin, _, waits) in enumerate(self.commands):
            if waits and begin is not None and begin < until and told < at:
                raise Wrong(f"{self.file}: reply {told + 1} isn't told before command {at} is done")


def commands(draw, count, module):
    """Commands of a client: batches of one transfer, and what needs one, among others."""
    for _ in range(count):
        place, what = f"{draw.randrange(2)} 8000080{draw.choice('04')}", draw.randrange(10)
        if what == 0:
            yield f"batch 1\npush {module % 2} 0 {1 - module % 2} 1"
        elif what == 1:
            yield f"{draw.choice(['plan', 'run', 'drop'])} {draw.randint(1, 20)}"
        elif what < 6:
            yield f"poke {place} {draw.randrange(1 << 32):08x}"
        else:
            yield draw.choice(
                [f"peek {place}", f"peek {place}", f"show {draw.randint(1, 20)}", "progress"]
            )


def burst(lines):
    return "".join(f"{line}\n" for line in lines), len(lines)


def pokes(draw, count):
    return burst(
        [f"poke {draw.randrange(2)} 80000800 {draw.randrange(1 << 32):08x}" for _ in range(count)]
    )


def in_room(try_it):
    """Tries something in a folder of its own."""
    with tempfile.TemporaryDirectory(prefix="bursts-") as room:
        return try_it(room)


def try_judge():
    """The judge is handed a day on which all is told before it is recorded, one on which a plan is
    recorded before what comes before it is told, one without syncs, and one on which they begin
    before there is anything."""
    lines = "poke 0 80000800 000000aa\nbatch 1\npush 0 0 1 0\nplan 1\n"
    day = in_room(lambda room: Day(room, [[(lines, 3)]], "--sync"))
    told, others = (
        [call for call in day.calls if (call.name == "c0.out") == is_told]
        for is_told in (True, False)
    )
    day.judge()
    no_syncs = [call for call in day.calls if call.what != "sync"]
    early_syncs = sorted(day.calls, key=lambda call: (call.when, call.what) != ("begin", "sync"))
    for what, day.calls in {
        "early": told + others,
        "late": others + told,
        "no syncs": no_syncs,
        "early syncs": early_syncs,
    }.items():
        must(is_wrong(day.judge), f"the judge lets this through: {what}", "days judged first")


def try_order():
    """One client and sixteen, in bursts of all lengths."""
    for turn in range(24):
        draw, count = random.Random(f"bursts {turn}"), 1 if turn % 3 else 16
        most = draw.choice([1, 8, 64, 100])
        texts = [
            [
                burst(list(commands(draw, draw.randint(1, most), k)))
                for _ in range(draw.randint(1, 20))
            ]
            for k in range(count)
        ]
        day = in_room(lambda room: Day(room, texts, *(["--sync"] if turn % 2 else [])))
        day.judge()
        why = f"turn {turn}: status {day.status}, {day.out!r}, {day.err[:300]!r}"
        must(day.status == 0 and day.record.ended, why, "days in order")
        for client in day.clients:
            is_all = client.told.count(b"\n") == client.due
            must(is_all, f"turn {turn}: {client.name} wasn't told all")


def try_parts():
    """Texts that end within a line or within a batch: what came before is told first."""
    texts = [
        ("poke 0 80000800 000000aa\nbatch 1\n", 1),
        ("push 0 0 1 0\npeek 0 80000800\npoke 1 80", 2),
    ]
    texts += [("000804 000000bb\nbatch 2\npush 0 0 1 0\n", 1), ("push 1 1 0 1\nplan 1\n", 2)]
    for options in [], ["--sync"]:
        day = in_room(lambda room: Day(room, [texts] * 3, *options))
        day.judge()
        why = f"status {day.status}, {day.out!r}, {day.err[:300]!r}"
        must(day.status == 0, why, "days of parts")


def try_counts():
    """Bursts of 64 lines: how often the record is written and synced."""
    for clients in 1, 16:
        for options in [], ["--sync"]:
            draw = random.Random("counts")
            texts = [[pokes(draw, 64) for _ in range(20)] for _ in range(clients)]
            day = in_room(lambda room: Day(room, texts, *options))
            day.judge()
            entries, writes = len(day.record.entries), day.on_record("write")
            syncs = day.on_record("sync")
            often = f"{writes / entries:.4f} writes and {syncs / entries:.4f} syncs an entry"
            print(f"bursts: {clients} clients, {entries} entries, {often}", flush=True)
            is_few = max(writes, syncs) <= MOST * entries and (options or syncs <= 1)
            why = f"{clients} clients, {options}: {writes} writes, {syncs} syncs"
            must(entries == 1280 * clients and is_few, why, "days counted")


def try_turns():
    """Sixteen clients who hear each reply before they say the next line: while one syncs, the
    entries of the others come together. On a busy machine they come late: then it is tried again,
    with slower syncs."""
    draw = random.Random("turns")
    texts = [[pokes(draw, 1) for _ in range(50)] for _ in range(16)]
    for slow in 20, 40, 80, 160:
        day = in_room(lambda room: Day(room, texts, "--sync", CALLS_SLOW=f"{slow}000"))
        day.judge()
        entries, syncs = len(day.record.entries), day.on_record("sync")
        told = f"{syncs / entries:.4f} syncs and {day.switches / entries:.2f} switches an entry"
        print(f"bursts: 16 clients by turns, {entries} entries, {told}", flush=True)
        must(entries == 800, f"{entries} entries")
        if syncs <= MOST_BY_TURNS * entries and day.switches <= MOST_SWITCHES * entries:
            return
    raise Wrong(f"{entries} entries, {told}")


def try_last():
    """Sixteen clients who say a line each, at slow syncs:
    nobody waits for an entry that comes later."""
    draw = random.Random("last")
    for _ in range(8):
        texts = [[pokes(draw, 1)] for _ in range(16)]
        in_room(lambda room: Day(room, texts, "--sync", CALLS_SLOW="20000").judge())


def try_failures():
    """A write or a sync of the record fails once, or half of a group is written first."""
    for turn in range(24):
        draw, number = random.Random(f"fails {turn}"), 3 + turn % 7
        kind, clients = turn % 3, draw.choice([1, 4])
        calls = {
            "CALLS_FAIL": f"sync:record:{number}:{errno.EIO}"
            if kind == 2
            else f"write:record:{number}:{errno.ENOSPC}"
        }
        if kind == 1:
            calls["CALLS_HALF"] = f"record:{number - 1}"
        texts = [[pokes(draw, draw.randint(1, 64)) for _ in range(12)] for _ in range(clients)]
        if kind == 2 and turn % 4 == 0:
            calls["CALLS_SLOW"] = "5000"  # The others sleep when it fails.
            texts = [[pokes(draw, 1) for _ in range(12)] for _ in range(16)]

        def fail(room):
            day = Day(room, texts, *(["--sync"] if kind == 2 or turn % 2 else []), **calls)
            failed = [
                at for at, call in enumerate(day.calls) if call.name == "record" and call.count < 0
            ]
            well = len(failed) == 1 and all(
                call.name != "record" for call in day.calls[failed[0] + 1 :]
            )
            must(well, f"turn {turn}: the record is written behind a failure, or nothing failed")
            why = f"turn {turn}: status {day.status}, {day.out!r}, {day.err[:300]!r}"
            must(day.status == 3 and "ended record" in day.out, why, "days with a failure")
            day.judge()
            whole = read(f"{room}/record")[: day.record.ends[-1]]
            for client in day.clients:
                os.unlink(f"{client.name}.in")
                os.unlink(f"{client.name}.out")
                open(f"{client.name}.in", "wb").close()
            status, told = resume(room, SHAPE, [client.name for client in day.clients])
            is_whole = read(f"{room}/record") == whole + end_of(len(day.record.entries))
            why = f"turn {turn}: resumed: status {status}, {told!r}"
            must(status == 0 and is_whole, why, "records resumed after a failure")

        in_room(fail)


def main():
    report = harness.Report("bursts")
    cases = [try_judge, try_order, try_parts, try_counts, try_turns, try_last, try_failures]
    harness.run_cases(report, cases, Started, SECONDS, harness.TIMES_MORE)
    report.finish()


if __name__ == "__main__":
    main()
