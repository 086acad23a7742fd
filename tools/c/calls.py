#!/usr/bin/env python3
"""Spoilt texts through the calls for programs in C, byte for byte against the built program.

    calls.py TRY COUNT          COUNT texts in all, through the built program tools/c/try.c
    calls.py TRY --examples     the examples, each growth of memory refused in turn
    calls.py TRY --stack        the largest texts, each call on a thread with as much stack as
                                docs/EMULATORS.md says
"""

import itertools
import multiprocessing
import os
import random
import re
import signal
import subprocess
import sys
import tempfile

TOP = os.path.dirname(os.path.dirname(os.path.dirname(os.path.abspath(__file__))))
sys.path.insert(0, f"{TOP}/tools/hostile")

import notes
import plain
import spoil
import texts
from program import ask

import harness
from harness import Report

# The calls, and the names of the texts that each wants.
CALLS = {
    "plan": ["batch"],
    "plan_steady": ["batch"],
    "switch": ["batch", "schedule"],
    "switch_wired": ["batch", "schedule", "wiring"],
    "orders": ["batch", "schedule"],
    "direct": ["moves"],
    "check": ["batch", "schedule"],
    "draw": ["batch", "schedule"],
    "changes": ["batch", "schedule"],
    "apply": ["shape", "batch", "image"],
}

# The numbers by which a call knows them that tells why they refuse their texts,
# and all other calls.
NUMBERS = {
    "plan": 0,
    "plan_steady": 0,
    "check": 1,
    "switch": 2,
    "apply": 3,
    "draw": 4,
    "changes": 5,
    "direct": 6,
    "switch_wired": 7,
    "orders": 8,
}
OTHERS = ["why", "c004_reset", "c004_take", "c004_source", "c004_joined", "boot_reset", "boot_take"]


def words_of(name, given):
    """The words of the command that is to answer as a call does. Each text is in a file of its
    name, but that of a shape, which is a word itself. To the calls of `switch` and `orders` an
    empty text of a schedule is none. What `changes` answers stands in the title of a picture.
    """
    words = [
        os.fsdecode(text) if file == "shape" else file for file, text in zip(CALLS[name], given)
    ]
    if name == "plan_steady":
        return ["plan", *words, "--steady"]
    if name in ("switch", "switch_wired", "orders"):
        schedule = ["--schedule", "schedule"] if given[1] else []
        return [
            name.partition("_")[0],
            "batch",
            *schedule,
            *(["--wiring", "wiring"] if name == "switch_wired" else []),
        ]
    # A shape may begin as an option does.
    return ["draw" if name == "changes" else name, "--", *words]


def told(name, program):
    """What a call is to answer where the program answers this."""
    if name != "changes" or program.status:
        return program.out
    changes, words = re.search(
        rb"<title>.*, changes ([0-9]+), (.*), busiest ", program.out
    ).groups()
    return b"changes %s least %s\n" % (
        changes,
        words.removeprefix(b"at least ") if words.startswith(b"at") else changes,
    )


def texts_for(draw, name):
    """The texts of a call, mostly spoilt ones."""
    if name == "direct":
        return [spoil.spoil(draw, spoil.moves(draw, plain.MODULES, draw.choice([3, 10, 40])))]
    if name == "apply":
        shape = spoil.shape(draw)
        batch = spoil.batch(draw, shape, draw.choice([0, 3, 10, 40]))
        named = b"%dx%dx%d" % shape
        spoilt = spoil.spoil(draw, named)
        return [
            spoilt if draw.random() < 0.1 and not texts.is_no_text(spoilt) else named,
            spoil.spoil(draw, batch) if draw.random() < 0.3 else batch,
            spoil.image(draw, shape),
        ]
    most = draw.choice([0, 3, 10, 40])
    if name == "switch_wired":
        board = spoil.wiring(draw)
        shape = (
            max(plain.read_wiring(board)) + draw.choice([1, 1, 1, 2]),
            plain.BLOCKS,
            plain.WORDS,
        )
        batch, schedule = texts.spoilt_schedule(draw, shape, most, plain.busiest)
        return [
            batch,
            schedule if draw.random() < 0.6 else b"",
            spoil.spoil(draw, board) if draw.random() < 0.4 else board,
        ]
    shape = (draw.choice([1, 2, 3, 8, 16, 17, plain.MODULES]), plain.BLOCKS, plain.WORDS)
    if name in ("check", "draw", "changes") or name in ("switch", "orders") and draw.random() < 0.7:
        return list(texts.spoilt_schedule(draw, shape, most, plain.busiest))
    batch = spoil.batch(draw, shape, most)
    given = [spoil.spoil(draw, batch) if draw.random() < 0.5 else batch]
    return [*given, b""] if name in ("switch", "orders") else given


class Calls:
    """The program in C that makes the calls, kept open."""

    def __init__(self, path, *words):
        self.process = subprocess.Popen(
            [path, *words], stdin=subprocess.PIPE, stdout=subprocess.PIPE
        )

    def ask(self, name, given):
        sizes = " ".join(str(len(text)) for text in given)
        self.process.stdin.write(f"{name} {sizes}\n".encode() + b"".join(given))
        self.process.stdin.flush()
        line = self.process.stdout.readline().split()
        if len(line) != 2:
            return None, b""
        return int(line[0]), self.process.stdout.read(int(line[1]))

    def why(self, name, given):
        """What is told beside the refusal of these texts. Their names are those that it gives them
        where it is told none. A shape has an empty one."""
        names = (
            "\n".join("" if file == "shape" else file for file in CALLS[name]).encode()
            if len(given[0]) % 2
            else b""
        )
        return self.ask(f"why{NUMBERS[name]}", [*(given + [b"x", b""])[:3], names])

    def end(self):
        self.process.stdin.close()
        return self.process.wait() == 0


def beside(name, given, program):
    """What the program tells beside an answer, and no call does: that two transfers of a batch to
    plan, or for the switch, write one block."""
    is_told = name.startswith(("plan", "switch")) and program.status == 0
    return notes.overlapping(notes.Asked("batch", ("batch", given[0]))) if is_told else b""


def compare(report, calls, name, given):
    """Compares the answers of the call and of the program, and what they tell of a refusal."""
    status, answer = calls.ask(name, given)
    why = calls.why(name, given)
    for file, text in zip(CALLS[name], given):
        with open(file, "wb") as out:
            out.write(text)
    program = ask(*words_of(name, given))
    found = (status, answer, why[0], why[1] + beside(name, given, program))
    wanted = (program.status, told(name, program), 0, program.err)
    what = f"{name} {[text[:400] for text in given]}"
    return report.check(what, found, wanted, "answers of calls compared")


def compare_all(asked, path, *words):
    """Compares the answers of these calls by the program in C with these words."""
    report = Report("calls", is_silent=True)
    with harness.room("calls", enter=True):
        calls = Calls(path, *words)
        # Up to the first that is wrong: it may have ended the program.
        all(compare(report, calls, *it) for it in asked)
        report.check("how the program in C ends", calls.end(), True)
    return report


def spoilt(first, count):
    """Calls of spoilt texts, by their numbers."""
    for number in range(first, first + count):
        name = list(CALLS)[number % len(CALLS)]
        yield name, texts_for(random.Random(f"c {number}"), name)


def try_some(path, first, count):
    return compare_all(spoilt(first, count), path)


def read(name):
    with open(f"{TOP}/examples/{name}", "rb") as file:
        return file.read()


def examples():
    """A call of each kind, and its texts, of examples."""
    batch, schedule = read("three-transfers.txt"), read("three-transfers.plan.txt")
    board = (
        b"wiring 3\nmodule 0 link 0 at 3 link 3 at 4\nmodule 1 link 0 at 5 link 3 at 6\n"
        b"module 2 link 0 at 7 link 3 at 8\n"
    )
    asked = [
        (name, [batch, schedule, board][: len(files)])
        for name, files in CALLS.items()
        if name != "direct"
    ]
    asked[-1] = ("apply", [b"3x2x2", read("two-pushes.txt"), read("before.img")])
    asked += [
        ("direct", [read("patterns/gather.moves.txt")]),
        ("plan", [b"batch 1\n"]),
        ("switch", [batch, b""]),
        ("orders", [batch, b""]),
    ]
    asked += [(name, [read("all-to-all.txt")]) for name in ("plan", "plan_steady")]
    # Beside these refusals of a certificate it is told what is known of the settings.
    settings = schedule.partition(b"busiest")[0]
    named = [
        settings + b"busiest link 0 module 0\nnamed %s\n" % it for it in (b"0 2", b"0 0", b"0")
    ]
    return asked + [
        ("check", [batch, it]) for it in (settings, *named, settings.replace(b" 2\n", b" 0\n"))
    ]


def planned(batch, *options):
    """The plan that the program makes of a batch."""
    with tempfile.NamedTemporaryFile() as file:
        file.write(batch)
        file.flush()
        return ask("plan", file.name, *options).out


def largest():
    """Calls of as many transfers as there may be, by plans and by a schedule that was planned for
    none, and of the largest rack."""
    draw, shape = random.Random("largest"), (plain.MODULES, plain.BLOCKS, plain.WORDS)
    places = [(module, block) for module in range(shape[0]) for block in range(shape[1])]
    pairs = zip(draw.sample(places * 2, plain.TRANSFERS), places * 2)
    lines = [f"push {m} {b} {r} {c}\n" for (m, b), (r, c) in pairs]
    batch = "".join([f"batch {len(lines)}\n", *lines]).encode()
    half = "".join([f"batch {len(places)}\n", *lines[: len(places)]]).encode()
    moves = half.replace(b"batch", b"moves").replace(b"push", b"move")
    for text in batch, half:
        yield from ((name, [text]) for name in ("plan", "plan_steady"))
        for options in [], ["--steady"]:
            schedule = planned(text, *options)
            yield from (
                (name, [text, schedule])
                for name in ("switch", "orders", "check", "draw", "changes")
            )
        yield from ((name, [text, b""]) for name in ("switch", "orders"))
    yield "direct", [moves]
    yield "apply", [b"%dx%dx%d" % shape, half, draw.randbytes(4 * shape[0] * shape[1] * shape[2])]


def has_no_more(path, size):
    """Whether a thread with so many kilobytes of stack has no more: the program ends where a thread
    takes as many before its call."""
    return (
        subprocess.run(
            [path, "over", size], input=b"plan 8\nbatch 0\n", stdout=subprocess.DEVNULL
        ).returncode
        == -signal.SIGSEGV
    )


def on_small_stacks(path):
    """What comes of the examples and the largest texts on threads with as much stack as the page
    says, which may name calls that need another number."""
    with open(f"{TOP}/docs/EMULATORS.md", encoding="utf-8") as file:
        most, more = re.search(
            r"and (\d+) kilobytes of stack(.*?)\.", " ".join(file.read().split())
        ).groups()
    named = {
        name: size
        for size, names in re.findall(r", (\d+) in ([^,]*)", more)
        for name in re.findall(r"`exchange_(\w+)`", names)
    }
    asked, report = {}, Report("calls")
    for name, given in [*examples(), *largest()]:
        asked.setdefault(named.get(name, most), []).append((name, given))
    for size, calls in asked.items():
        report.add(compare_all(calls, path, "stack", size))
        what = f"threads have no more stack than {size} kilobytes"
        report.check(what, has_no_more(path, size), True, "sizes of stacks")
    return report


def main():
    path, words = os.path.abspath(sys.argv[1]), sys.argv[2:]
    if words == ["--examples"]:
        report = Report("calls without memory")
        report.add(compare_all(examples(), path, "no-memory"))
        report.finish()
    if words == ["--stack"]:
        on_small_stacks(path).finish("on small stacks, {tried} tried, {wrong} wrong")
    count, workers, report = int(words[0]), os.cpu_count() or 1, Report("calls")
    size = -(-count // workers)
    parts = [(path, first, min(size, count - first)) for first in range(0, count, size)]
    with multiprocessing.Pool(workers) as pool:
        for own in pool.starmap(try_some, parts):
            report.add(own)
    report.finish("{tried} tried of spoilt texts, {wrong} wrong")


if __name__ == "__main__":
    main()
