#!/usr/bin/env python3
"""Bad moments of a host that records: moments.py [COUNT], or moments.py self

COUNT is how many times a host is killed, 200 where it isn't said. Sixteen clients are at work, who
say single lines or bursts, the host gets a SIGKILL, a SIGTERM or a SIGINT at a random moment, and
another one goes on with `--resume`, which is killed too, until one comes to its end. Each time the
record is read by plain Python (kept.py): what a client was told stands there, in its order, and
each reply is right. `replay` has to come to the same words. Then a record is cut at each byte, and
resumed; a host is killed while it resumes; a disk is full, also within a burst; and a record's file
is taken away or moved. `moments.py self` tries the judges alone, by records that are made up, and
needs no program.
"""

import functools
import itertools
import math
import os
import random
import resource
import select
import signal
import subprocess
import sys
import tempfile
import time
from concurrent.futures import ProcessPoolExecutor

from kept import Record, Wrong, end_of, head_of, judge_client, must
import harness
from program import EXCHANGE, ROOMS
from records import made, summed

CLIENTS = 16
# Seconds that one host has, and a case or a round. Most take far less, but machines differ.
LIMIT, SECONDS = harness.SECONDS, 3000
# Seconds after which a host is killed, and how many replies come before that, at most.
LIFE, REPLIES = 0.2, 3000
# How many commands a client says together at most, in half of the rounds and in the others.
MOST = (1, 64)
SIGNALS = [signal.SIGKILL, signal.SIGTERM, signal.SIGINT]

# Records are in memory, where there is such a place.
tempfile.tempdir = ROOMS


def read(name):
    with open(name, "rb") as file:
        return file.read()


def recorded(room):
    """What is recorded: nothing where the file isn't there yet."""
    return read(f"{room}/record") if os.path.exists(f"{room}/record") else b""


def write(name, text):
    with open(name, "wb") as file:
        file.write(text)


def shown(shape):
    return "{}x{}x{}".format(*shape)


def word_of(draw, shape, module):
    """A word of a module by its address, or now and then an address that no word has."""
    words = shape[1] * shape[2]
    return f"{module} {0x80000800 + 4 * draw.randrange(words + 1):08x}"


def batch_of(draw, shape):
    """A batch of one or two transfers."""
    count = draw.randint(1, 2)
    lines = [
        f"push {draw.randrange(shape[0])} 0 {draw.randrange(shape[0])} 1" for _ in range(count)
    ]
    return "\n".join([f"batch {count}", *lines])


def command_of(draw, shape, module, mine):
    """A command of a client that has handed in these batches."""
    what = draw.random()
    if what < 0.2:
        return f"peek {word_of(draw, shape, draw.randrange(shape[0]))}"
    if what < 0.4:
        return f"poke {word_of(draw, shape, module)} {draw.randrange(1 << 32):08x}"
    if what < 0.5:
        return "progress"
    if what < 0.7 or not mine:
        return batch_of(draw, shape)
    return f"{draw.choice(['plan', 'plan', 'run', 'run', 'show', 'drop'])} {draw.choice(mine)}"


def life(draw, shape, module, number, last, most=1):
    """What a client does in its life number N: it gives out commands, so many together at most, and
    is sent their replies. Its first command is that of no other life. It has only so many commands,
    and then `bye`, where that is its last life; else it goes on without an end.
    """
    replies, mine = (yield [f"poke {module} 80000800 {number:08x}"]), []
    while last is None or last > 0:
        mine += [int(reply.split()[1]) for reply in replies if reply.startswith("accepted ")]
        count = draw.randint(1, most if last is None else min(most, last))
        last = last and last - count
        replies = yield [command_of(draw, shape, module, mine) for _ in range(count)]
    yield ["bye"]


class Client:
    """A client that says commands as soon as it has the replies to the ones before.

    It holds both ends of its pipes, so that no opening waits
    and what a host said before it was killed can still be read.
    """

    def __init__(self, name, work):
        for end in ".in", ".out":
            if os.path.exists(name + end):
                os.unlink(name + end)
            os.mkfifo(name + end)
        self.said = os.open(f"{name}.in", os.O_RDWR | os.O_NONBLOCK)
        self.told = os.open(f"{name}.out", os.O_RDWR | os.O_NONBLOCK)
        self.work, self.begun, self.sayings, self.replies, self.extra = work, b"", [], [], []
        self.say(next(work))

    def say(self, commands):
        self.heard = len(self.replies)
        self.sayings += commands
        self.due = self.heard + len(commands)
        os.write(self.said, b"".join(command.encode() + b"\n" for command in commands))

    def is_done(self):
        """Whether its last command was answered, and it has no other."""
        return len(self.replies) == self.due

    def hear(self):
        """Hears what there is, and goes on."""
        try:
            self.begun += os.read(self.told, 1 << 16)
        except BlockingIOError:
            return
        *lines, self.begun = self.begun.split(b"\n")
        for line in lines:
            if self.is_done():
                self.extra.append(line.decode())
                continue
            self.replies.append(line.decode())
            if self.is_done() and self.sayings[-1] != "bye":
                self.say(self.work.send(self.replies[self.heard :]))

    def said_and_told(self):
        """Its commands with their replies, and what it was told that is no reply: `ended ..` is the
        line of a session that failed."""
        if self.replies and self.replies[-1].startswith("ended "):
            self.extra.insert(0, self.replies.pop())
        return list(itertools.zip_longest(self.sayings, self.replies)), self.extra

    def leave(self):
        os.close(self.said)
        os.close(self.told)


def begin(bytes_at_most=None):
    """What a host does before it begins: each signal ends it, also where this tool was started to
    let some pass. Where a number is given, files may have so many bytes, and a write beyond that
    fails."""
    for sign in SIGNALS[1:]:
        signal.signal(sign, signal.SIG_DFL)
    if bytes_at_most is not None:
        signal.signal(signal.SIGXFSZ, signal.SIG_IGN)
        resource.setrlimit(resource.RLIMIT_FSIZE, (bytes_at_most, bytes_at_most))


# The hosts of the case or the round at hand.
started = []


def start(words, bytes_at_most=None, **ends):
    """Starts a host, which `stop_all` ends at the latest."""
    started.append(subprocess.Popen(words, preexec_fn=lambda: begin(bytes_at_most), **ends))
    return started[-1]


def stop_all():
    """Ends the hosts that aren't at their end, as where something is wrong,
    or this tool is stopped."""
    while started:
        process = started.pop()
        process.kill()
        process.communicate()


class Host:
    """A host of sixteen clients at work, on a record in its folder. They say so many commands
    together at most. Files may have so many bytes, where a number is given."""

    def __init__(self, room, shape, draw, number, last, *options, most=1, bytes_at_most=None):
        self.room, self.names = room, [f"{room}/c{k}" for k in range(CLIENTS)]
        self.clients = [
            Client(name, life(draw, shape, k % shape[0], number, last, most))
            for k, name in enumerate(self.names)
        ]
        words = [
            EXCHANGE,
            "host",
            shown(shape),
            *self.names,
            "--record",
            f"{room}/record",
            *options,
        ]
        ends = {"stdin": subprocess.DEVNULL, "stdout": subprocess.PIPE, "stderr": subprocess.PIPE}
        self.process = start(words, bytes_at_most, **ends)

    def go_on(self, seconds, replies=math.inf):
        """Lets the clients work for so long, or until so many replies came, or all have said their
        last command and heard its reply, or the host is gone."""
        until = time.monotonic() + seconds
        hearing = {client.told: client for client in self.clients}
        while hearing and self.process.poll() is None and (left := until - time.monotonic()) > 0:
            if sum(len(client.replies) for client in self.clients) >= replies:
                break
            for ready in select.select(list(hearing), [], [], min(left, 0.05))[0]:
                hearing[ready].hear()
            hearing = {end: client for end, client in hearing.items() if not client.is_done()}

    def end(self, sign=None):
        """Sends a signal, or lets the clients go, and waits for the end: what was printed, the
        status, and of each client what it said and was told."""
        if sign is not None:
            self.process.send_signal(sign)
            self.process.wait(LIMIT)
        for client in self.clients:
            client.hear()
        parts = [client.said_and_told() for client in self.clients]
        for client in self.clients:
            client.leave()
        try:
            out, err = self.process.communicate(timeout=LIMIT)
        except subprocess.TimeoutExpired:
            raise Wrong("it hangs") from None
        return out.decode(), err.decode(), self.process.returncode, parts


def ask(*words):
    """Runs the program to its end: what it printed, and its status."""
    done = subprocess.run(
        [EXCHANGE, *words],
        stdin=subprocess.DEVNULL,
        stdout=subprocess.PIPE,
        stderr=subprocess.PIPE,
        timeout=LIMIT,
        check=False,
    )
    return done.stdout, done.stderr, done.returncode


def judge_replay(room, record):
    """Judges `replay` of a record: it comes to the same words,
    whether the record has its end or not."""
    out, err, status = ask("replay", f"{room}/record")
    why = f"`replay` has status {status}, and tells {err[:300]!r}"
    must((out, status) == (record.exchange.image(), 0), why, "images compared with `replay`")


def judge(room, shape, names, said, record=None):
    """Judges a record by what all clients said and were told in all their lives: the record. One
    that was judged before goes on. A file that has a front of the head is one of no entries, and
    then nobody was told anything that is one."""
    text, head = recorded(room), head_of(shape, bytes(4 * shape[0] * shape[1] * shape[2]), names)
    if len(text) < len(head) and head.startswith(text):
        for sayings in said:
            judge_client([], sayings)
        return None
    if record and record.entries:
        record.go_on(text)
    else:
        record = Record(text)
    must(text.startswith(head), "the head is another")
    for session, sayings in enumerate(said):
        judge_client(record.of(session), sayings)
    judge_replay(room, record)
    return record


def begun(number):
    """The chance of a round, its shape, and how many hosts are killed in it."""
    draw = random.Random(f"moments {number}")
    return draw, (draw.randint(2, 32), draw.randint(2, 3), draw.randint(1, 4)), draw.randint(1, 4)


def try_kills(number):
    """A round of hosts on one record, all of which are killed but the last."""
    draw, shape, kills = begun(number)
    said, before, record = [[] for _ in range(CLIENTS)], b"", None
    with tempfile.TemporaryDirectory(prefix="moments-") as room:
        for turn in range(kills + 1):
            options = ["--resume"] * (turn > 0) + ["--sync"] * (draw.random() < 0.25)
            options += ["--image-out", f"{room}/left"]
            last = draw.randint(1, 20) if turn == kills else None
            host = Host(room, shape, draw, turn + 1, last, *options, most=MOST[number % 2])
            if last:
                host.go_on(LIMIT)
            else:
                host.go_on(draw.uniform(0, LIFE), draw.randrange(REPLIES))
            out, err, status, parts = host.end(None if last else draw.choice(SIGNALS))
            for sayings, (more, extra) in zip(said, parts):
                sayings.extend([None, *more])
                must(not extra, f"a client was told {extra}")
            text = recorded(room)
            why = "an entry that was there is gone, or another"
            must(text.startswith(before), why, "hosts killed, or at their ends")
            record = judge(room, shape, host.names, said, record)
            # A head without entries is written anew, so a host
            # that is killed then may leave none.
            before = text[: record.ends[-1]] if record and record.entries else b""
        well = status == 0 and record.ended and read(f"{room}/left") == record.exchange.image()
        why = f"the last host has status {status}, and prints {out!r} and {err[:300]!r}"
        must(well, why, "rounds to their ends")


def report_of(number):
    """What comes of a round."""
    try:
        name = f"round {number}"
        return harness.attempt("moments", name, functools.partial(try_kills, number), SECONDS)
    finally:
        stop_all()


def idle_names(room, count):
    """Clients that say nothing: their pipes are plain files."""
    names = [f"{room}/idle{k}" for k in range(count)]
    for name in names:
        write(f"{name}.in", b"")
    return names


def made_record(draw, shape, names, count):
    """The text of a record of so many calls, that was ended."""
    return (
        head_of(shape, bytes(4 * shape[0] * shape[1] * shape[2]), names)
        + b"".join(made(draw, shape, len(names), count))
        + end_of(count)
    )


def resume(room, shape, names):
    """Resumes a record with clients that say nothing: the status, and what is told."""
    out, err, status = ask(
        "host",
        shown(shape),
        *names,
        "--record",
        f"{room}/record",
        "--resume",
        "--image-out",
        f"{room}/left",
    )
    return status, out + err


def said_of_cut(room, whole, rest):
    """What is said of the rest behind whole entries, which is cut off:
    nothing where that is nothing, or the end."""
    if not rest or Record(whole + rest).ended:
        return b""
    many = b"byte" if len(rest) == 1 else b"bytes"
    return b"exchange: %s/record: cut off: %d %s from line %d on" % (
        room.encode(),
        len(rest),
        many,
        whole.count(b"\n") + 1,
    )


def try_cuts():
    """A record that is cut at each byte is resumed: its whole entries stay,
    and nothing else but the end."""
    draw, shape = random.Random("cuts"), (2, 2, 1)
    with tempfile.TemporaryDirectory(prefix="moments-") as room:
        names = idle_names(room, 2)
        text = made_record(draw, shape, names, 25)
        ends = Record(text).ends
        for cut in range(len(text) + 1):
            write(f"{room}/record", text[:cut])
            whole = max([end for end in ends if end <= cut], default=ends[0])
            status, told = resume(room, shape, names)
            must(status == 0, f"cut at {cut}: status {status}, {told!r}", "cuts resumed")
            well = read(f"{room}/record") == text[:whole] + end_of(max(ends.index(whole), 0))
            must(well, f"cut at {cut}: the record isn't that of its whole entries", "cuts kept")
            well = (off := said_of_cut(room, text[:whole], text[whole:cut])) == b"\n".join(
                line for line in told.split(b"\n") if b": cut off: " in line
            )
            must(well, f"cut at {cut}: {told!r}, and not {off!r}", "cuts reported")
            well = read(f"{room}/left") == Record(text[:whole]).exchange.image()
            must(well, f"cut at {cut}: the image is another", "images of cuts")


def try_other_heads():
    """A record of another rack, of other words or of other clients isn't resumed, and a record
    isn't written over: the file is as it was."""
    draw, shape = random.Random("heads"), (2, 2, 1)
    with tempfile.TemporaryDirectory(prefix="moments-") as room:
        names = idle_names(room, 2)
        text = made_record(draw, shape, names, 10)
        write(f"{room}/record", text)
        write(f"{room}/words", bytes(range(16)))
        kept = ["--record", f"{room}/record"]
        out, err, status = ask("host", shown(shape), *names, *kept)
        well = (
            (out, status) == (b"refused file\n", 1)
            and b"--resume" in err
            and read(f"{room}/record") == text
        )
        must(well, f"not to be resumed: {out!r} and {err!r}, status {status}")
        tries = [
            (b"refused record head\n", ["host", "2x1x2", *names, *kept, "--resume"]),
            (b"refused record head\n", ["host", shown(shape), *names[::-1], *kept, "--resume"]),
            (b"refused record head\n", ["host", shown(shape), names[0], *kept, "--resume"]),
            (
                b"refused record head\n",
                ["host", shown(shape), *names, *kept, "--resume", "--image", f"{room}/words"],
            ),
            (b"refused record head\n", ["talk", shown(shape), *kept, "--resume"]),
        ]
        for wanted, words in tries:
            out, err, status = ask(*words)
            must((out, status) == (wanted, 1), f"{words}: {out!r} and {err!r}, status {status}")
            must(read(f"{room}/record") == text, f"{words}: the record isn't as it was")
        must(not any(os.path.exists(f"{name}.out") for name in names), "a client's file was opened")


def try_killed_resuming():
    """A host is killed while it resumes a long record: the whole entries stay,
    and it is resumed at last."""
    draw, shape = random.Random("resuming"), (4, 2, 2)
    with tempfile.TemporaryDirectory(prefix="moments-") as room:
        names = idle_names(room, 3)
        end = end_of(20000)
        whole = made_record(draw, shape, names, 20000)[: -len(end)]
        write(f"{room}/record", whole + b"0 peek 0 8000")
        for turn in range(40):
            words = [
                EXCHANGE,
                "host",
                shown(shape),
                *names,
                "--record",
                f"{room}/record",
                "--resume",
            ]
            ends = {
                "stdin": subprocess.DEVNULL,
                "stdout": subprocess.DEVNULL,
                "stderr": subprocess.DEVNULL,
            }
            process = start(words, **ends)
            time.sleep(draw.uniform(0, 0.15))
            process.send_signal(draw.choice(SIGNALS))
            process.wait(LIMIT)
            text = read(f"{room}/record")
            well = text.startswith(whole) and text[len(whole) :] in (
                b"0 peek 0 8000",
                b"",
                *(end[: n + 1] for n in range(len(end))),
            )
            why = f"turn {turn}: {text[len(whole):]!r} stands behind the entries"
            must(well, why, "hosts killed while they resume")
        status, told = resume(room, shape, names)
        well = status == 0 and read(f"{room}/record") == whole + end
        must(well, f"at last: status {status}, {told!r}")


def try_full_disk():
    """A record's disk is full after some entries: no call that isn't kept is told, and what is kept
    goes on where there is room."""
    for turn in range(12):
        draw, shape = random.Random(f"full {turn}"), (16, 2, 2)
        with tempfile.TemporaryDirectory(prefix="moments-") as room:
            names = [f"{room}/c{k}" for k in range(CLIENTS)]
            room_left = len(head_of(shape, bytes(4 * 16 * 2 * 2), names)) + draw.randrange(4000)
            host = Host(room, shape, draw, 1, None, most=MOST[turn % 2], bytes_at_most=room_left)
            host.go_on(LIMIT)
            out, err, status, parts = host.end()
            said = [list(sayings) for sayings, _ in parts]
            must(status in (1, 3), f"full {turn}: status {status}, {out!r}, {err[:300]!r}")
            for line in out.splitlines():
                must(
                    line.startswith("session ") or line == "ended record",
                    f"full {turn}: {line!r} is told",
                )
            must(
                os.path.getsize(f"{room}/record") <= room_left,
                f"full {turn}: the file is longer than it can be",
            )
            record = judge(room, shape, host.names, said)
            host = Host(room, shape, draw, 2, 5, "--resume", "--image-out", f"{room}/left")
            host.go_on(LIMIT)
            out, err, status, parts = host.end()
            for sayings, (more, _) in zip(said, parts):
                sayings.extend([None, *more])
            well = status == 0 and judge(room, shape, host.names, said).ended
            why = f"full {turn}: resumed, status {status}, {out!r}, {err[:300]!r}"
            must(well, why, "records of full disks")


def try_taken_away():
    """The file of a record is moved, or unlinked, while clients are at work. They go on, and in the
    end the host tells it, and leaves no image; where it was moved it has all, where it was unlinked
    there is none."""
    for turn, is_moved in enumerate([True, False] * 3):
        draw, shape = random.Random(f"away {turn}"), (4, 2, 1)
        with tempfile.TemporaryDirectory(prefix="moments-") as room:
            host = Host(room, shape, draw, 1, 60, "--image-out", f"{room}/left")
            until = time.monotonic() + LIMIT
            while not recorded(room) and host.process.poll() is None and time.monotonic() < until:
                host.go_on(0.005)
            os.rename(f"{room}/record", f"{room}/moved") if is_moved else os.unlink(
                f"{room}/record"
            )
            host.go_on(LIMIT)
            out, err, status, parts = host.end()
            told = f"exchange: {room}/record: its name leads to another file now, or to none\n"
            well = (
                status == 3
                and err.startswith(told)
                and not any(os.path.exists(f"{room}/{name}") for name in ("record", "left"))
            )
            must(well, f"away {turn}: status {status}, {out!r}, {err[:300]!r}")
            if is_moved:
                os.rename(f"{room}/moved", f"{room}/record")
                record = judge(room, shape, host.names, [sayings for sayings, _ in parts])
                must(record.ended, f"away {turn}: the moved record isn't whole")


# ---- the judges alone

ENTRIES = [
    ("poke 0 80000800 00000001\n", "poked"),
    ("fetch 1\n", "fetched"),
    ("settle 1\n", "planned 1 settings 1"),
    ("peek 0 80000800\n", "word 00000001"),
]
SAID = [
    ("poke 0 80000800 00000001", "poked"),
    ("plan 1", "planned 1 settings 1"),
    ("progress", "progress run 0 done 0"),
    ("peek 0 80000800", "word 00000001"),
]


def is_wrong(judge_it):
    """Whether a judge finds something wrong."""
    try:
        judge_it()
    except Wrong:
        return True
    return False


def without(things, at):
    return things[:at] + things[at + 1 :]


def try_judge_of_clients():
    """The judge of what clients were told: what is right, and what isn't."""
    bye = [("bye", "bye")]
    right = [
        (ENTRIES, SAID),
        (ENTRIES, SAID + bye),
        (ENTRIES, [*SAID[:3], ("peek 0 80000800", None)]),
        (ENTRIES[:3], [*SAID[:3], ("peek 0 80000800", None)]),
        (ENTRIES[:1], [SAID[0], ("plan 1", None)]),
        (ENTRIES[:2], [SAID[0], ("plan 1", None)]),
        (ENTRIES[:3], [SAID[0], ("plan 1", None)]),
        (ENTRIES[:1] + ENTRIES[3:], [SAID[0], ("plan 1", None), SAID[3]]),
        (ENTRIES[:3] + ENTRIES[3:], [SAID[0], ("plan 1", None), SAID[3]]),
        ([("fetch 2\n", "refused unknown")], [("plan 2", "refused unknown")]),
        ([("batch 1\npush 0 0 1 0\n", "accepted 1")], [("batch 1\npush 0 0 1 0", "accepted 1")]),
        ([], bye),
        ([], [("poke 0 80000800 00000001", None)]),
    ]
    wrong = [(without(ENTRIES, at), SAID) for at in range(4)]
    wrong += [(ENTRIES, without(SAID, at)) for at in (0, 1, 3)]
    wrong += [
        ([*ENTRIES[:at], (ENTRIES[at][0], "other"), *ENTRIES[at + 1 :]], SAID) for at in range(4)
    ]
    wrong += [
        (ENTRIES[::-1], SAID),
        (ENTRIES + ENTRIES[:1], SAID),
        (ENTRIES, [*SAID[:3], ("peek 0 80000804", None)]),
    ]
    unheard = [(command, None) for command, _ in SAID]
    right += [(ENTRIES[:count], unheard) for count in range(5)] + [
        (ENTRIES[:2], SAID[:1] + unheard[1:])
    ]
    right += [(ENTRIES[:1] + ENTRIES[3:], SAID[:1] + unheard[1:3] + SAID[3:])]
    right += [(ENTRIES[:1] + ENTRIES[3:], [*unheard, None, unheard[3]])]
    wrong += [
        (ENTRIES[3:], unheard),
        (ENTRIES[:1] + ENTRIES[3:], unheard),
        (ENTRIES[1:], unheard),
        (ENTRIES[:1], SAID[:2] + unheard[2:]),
    ]
    for which, is_denied in (right, False), (wrong, True):
        for entries, said in which:
            why = f"the judge of clients is wrong on {entries} and {said}"
            must(is_wrong(lambda: judge_client(entries, said)) == is_denied, why, "judged clients")


def try_reader():
    """The reader of records: a record cut at each byte has its whole entries and a rest that can be
    torn; one that is spoilt hasn't."""
    for turn in range(20):
        draw = random.Random(f"reader {turn}")
        shape, names = (
            (draw.randint(2, 4), draw.randint(2, 3), draw.randint(1, 2)),
            ["amy", "x/bob c", "é"],
        )
        text = made_record(draw, shape, names, 12)
        record = Record(text)
        head = len(head_of(shape, bytes(4 * shape[0] * shape[1] * shape[2]), names))
        well = (record.ends[0], record.ends[-1], record.ended, record.names) == (
            head,
            len(text) - len(end_of(12)),
            True,
            names,
        )
        must(well, f"turn {turn}: a record isn't read as it is")
        for cut in range(len(text)):
            if cut < head:
                why = f"turn {turn}: a head that ends at {cut} is read"
                must(is_wrong(lambda: Record(text[:cut])), why, "cut records")
                continue
            part = Record(text[:cut])
            well = part.entries == record.entries[: len(part.entries)] and part.ends[-1] == max(
                end for end in record.ends if end <= cut
            )
            must(well, f"turn {turn}: cut at {cut} it has other entries", "cut records")
            if cut in record.ends:
                part.go_on(text)
                must(
                    (part.entries, part.ended, part.rest) == (record.entries, True, record.rest),
                    f"turn {turn}: from {cut} on it has other entries",
                )
        last = record.ends[-1]
        spoilt = [
            text + b"\n",
            text + b"0 show 1\n",
            text[:last] + bytes(1),
            text[:last] + summed(12, b"0 progress\n"),
            text[:last] + end_of(11),
        ]
        spoilt += [
            text.replace(b"client amy", b"Client amy"),
            text.replace(b"client amy", b"client emy"),
            text[head:],
        ]
        spoilt += [
            head_of(shape, bytes([1]) * (4 * shape[0] * shape[1] * shape[2]), names) + text[head:]
        ]
        for at, entry in enumerate(record.entries):
            begin, end = record.ends[at], record.ends[at + 1]
            lines = text[begin:end].partition(b"=")[0]
            spoilt += [
                text[:begin] + text[end:],
                text[:begin] + b"9" + text[begin:],
                text[:begin] + summed(at, b"9" + lines) + text[end:],
            ]
            spoilt += [
                text[:begin] + summed(at, lines + b"other\n") + text[end:],
                text[:begin] + summed(at + 1, lines) + text[end:],
            ]
        for it in spoilt:
            why = f"turn {turn}: this is read: {it!r}"
            must(is_wrong(lambda: Record(it)), why, "spoilt records")


def try_rests():
    """What may stand behind the entries of a record, and what may not."""
    head = head_of((2, 1, 1), bytes(8), [])
    end, entry = end_of(0), summed(0, b"0 peek 0 80000800\nword 00000000\n")
    may = [
        end,
        entry,
        *(end[:cut] for cut in range(len(end))),
        *(entry[:cut] for cut in range(len(entry))),
        b"x",
        b"x" * 1000,
        b"\n \n~",
        b"0 batch 4097\n",
    ]
    may_not = [
        end + b"\n",
        end_of(1),
        entry + entry,
        entry + end,
        summed(0, b"end 1\n"),
        summed(0, b""),
        b"=\n",
        b"= \n",
        entry[:-1] + b" \n",
    ]
    may_not += [
        b"x\0",
        b"\t",
        b"0 peek 0 80000800\r\n",
        bytes(512),
        b"\xc3\xa9",
        b"\x7f",
        entry + bytes(1),
        summed(0, b"0 peek 0 80000800\nword 00000001\n"),
    ]
    for rest in may:
        must(not is_wrong(lambda: Record(head + rest)), f"{rest!r} can't be torn", "rests")
    for rest in may_not:
        must(is_wrong(lambda: Record(head + rest)), f"{rest!r} can be torn", "rests")


class Started:
    """What `harness.run_cases` ends after a case."""

    stop = staticmethod(stop_all)


def numbers_of(count):
    """The rounds in which so many hosts are killed, by their numbers."""
    numbers, kills = [], 0
    while kills < count:
        kills += begun(len(numbers))[2]
        numbers.append(len(numbers))
    return numbers


def leave(*_):
    """Ends this process so that its hosts and its folder go with it.
    Another signal leaves it the time for that."""
    signal.signal(signal.SIGTERM, signal.SIG_IGN)
    sys.exit(1)


def obey():
    signal.signal(signal.SIGTERM, leave)


def kill(report, count):
    """Kills hosts until so many are killed. A round that is wrong is run again, alone."""
    numbers = numbers_of(count)
    # Where this tool is stopped, the rounds at work come to their ends, and no other begins.
    with ProcessPoolExecutor(len(os.sched_getaffinity(0)), initializer=obey) as pool:
        first = [*pool.map(report_of, numbers)]
    for number, it in zip(numbers, first):
        again = itertools.chain([it], iter(functools.partial(report_of, number), None))
        harness.add_runs(report, f"round {number}", [*harness.runs_of(again.__next__)])


def main():
    obey()
    what = sys.argv[1] if len(sys.argv) > 1 else "200"
    report = harness.Report("moments")
    cases = [try_judge_of_clients, try_reader, try_rests]
    if what != "self":
        kill(report, int(what))
        cases += [try_cuts, try_other_heads, try_killed_resuming, try_full_disk, try_taken_away]
    harness.run_cases(report, cases, Started, SECONDS, harness.TIMES_MORE)
    report.finish()


if __name__ == "__main__":
    main()
