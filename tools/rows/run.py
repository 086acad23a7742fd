#!/usr/bin/env python3
"""Runs the built program on the rows of the folder rows,
and compares what it prints and how it ends.

    tools/rows/run.py [WORD..]     all rows, or those whose file's name or own name has a word

rows/README.md says how a row is written. A line of a row has a minute. Of a text that differs
the lines that do are shown, after `-` those that are wanted, and after `+` those that came.

A program that isn't built, or is older than its sources, is proved and built first. Another one is
tried where EXCHANGE has its words.
"""

from __future__ import annotations

import array
import difflib
import fcntl
import functools
import os
import re
import subprocess
import sys
import termios
import time
from collections.abc import Sequence
from dataclasses import dataclass
from pathlib import Path

sys.path[:0] = [str(Path(__file__).resolve().parents[1] / folder) for folder in ("", "hostile")]

import harness  # noqa: E402
from harness import EXAMPLES, REPOSITORY, Report, differs  # noqa: E402
from made import MADE  # noqa: E402
from reading import Row, Section, Unreadable, read_rows  # noqa: E402
from sealed import sealed  # noqa: E402

# Seconds that a line of a row has (the longest takes one or two, and ten on a busy machine), how
# many rows may hang before the rest isn't tried, and what is said of one.
SECONDS, MOST_HANGING, HANGS = 60, 3, "it hangs: {} seconds have passed"

# How many lines of a difference are shown, and how much of each.
MOST_LINES, MOST_SHOWN = 40, 200

# What stands in a standard input that nobody may read.
UNREAD = b"nobody reads this\n"


def seal_within(text: bytes) -> bytes:
    """A text, in which a record up to its line `end` has its sums."""
    return re.sub(rb"(?ms)^record-2 .*?(?:^end\n|\Z)", lambda record: sealed(record[0]), text)


# What texts stand for that aren't files as they are.
FORMS = {"bytes": lambda text: bytes.fromhex(text.decode()), "sealed": seal_within}


@functools.cache
def made(name: str) -> bytes:
    """The bytes of a file that is too long to stand in a row."""
    text = MADE[name]()
    return text.encode() if isinstance(text, str) else text


def put(section: Section, folder: Path) -> int | None:
    """Makes what a section says that there is: the descriptor that is standard input, if it is."""
    kind, path = section.words[0], folder / section.words[-1]
    if kind == "folder":
        path.mkdir()
    elif kind == "pipe":
        os.mkfifo(path)
    else:
        form = FORMS.get(kind, bytes)
        path.write_bytes(made(path.name) if kind == "made" else form(section.text))
    return os.open(path, os.O_RDONLY) if kind == "input" else None


class Held:
    """A standard input that is held open, and that nobody may read."""

    def __init__(self) -> None:
        self.read, self.write = os.pipe()
        os.write(self.write, UNREAD)

    def was_read(self) -> bool:
        left = array.array("i", [0])
        fcntl.ioctl(self.read, termios.FIONREAD, left)
        return left[0] != len(UNREAD)


class Pipes:
    """Named pipes, each of which has its text once, and the order in which they are read."""

    def __init__(self, row: Row, folder: Path) -> None:
        self.texts = {it.words[1]: it.text for it in row.there if it.words[0] == "pipe"}
        self.folder, self.read = folder, []

    def are_read(self) -> bool:
        return self.read == list(self.texts)

    def serve(self) -> None:
        """Writes into each pipe that somebody has begun to read."""
        for name in [it for it in self.texts if it not in self.read]:
            try:
                end = os.open(self.folder / name, os.O_WRONLY | os.O_NONBLOCK)
            except OSError:
                continue
            self.read.append(name)
            os.write(end, self.texts[name])
            os.close(end)


@dataclass(frozen=True)
class Ended:
    """What came of a line: both streams, the status, and what is wrong with how it ended."""

    out: bytes
    err: bytes
    status: int
    wrong: str | None


def attend(process: subprocess.Popen[bytes], pipes: Pipes, held: Held, seconds: float) -> Ended:
    """Waits for the end of what was started."""
    until, wrong = time.monotonic() + seconds, None
    while True:
        pipes.serve()
        try:
            out, err = process.communicate(timeout=0.1 if pipes.are_read() else 0.002)
            break
        except subprocess.TimeoutExpired:
            if not wrong and (time.monotonic() > until or held.was_read()):
                wrong = HANGS.format(seconds)
                harness.kill(process)
    if held.was_read():
        wrong = "it reads standard input"
    elif not wrong and not pipes.are_read():
        wrong = f"it reads the pipes {pipes.read}"
    return Ended(out, err, process.returncode, wrong)


def run(row: Row, line: str, programs: Path, seconds: float) -> Ended:
    """Runs a line of a row in a folder of its own, where `programs` has `exchange`."""
    with harness.room("rows") as folder:
        (folder / "examples").symlink_to(EXAMPLES)
        given, held = [put(it, folder) for it in row.there], Held()
        inputs = [it for it in given if it is not None] + [held.read]
        tools = f"{REPOSITORY}/tools:{REPOSITORY}/tools/hostile"
        process = subprocess.Popen(
            ["/bin/sh", "-c", line], cwd=folder, stdin=inputs[0],
            stdout=subprocess.PIPE, stderr=subprocess.PIPE, start_new_session=True,
            env={"PATH": f"{programs}:{tools}:{os.environ['PATH']}", "LC_ALL": "C"},
        )  # fmt: skip
        ended = attend(process, Pipes(row, folder), held, seconds)
        for end in [*inputs, held.write]:
            os.close(end)
        out, err = (it.replace(bytes(folder), b"FOLDER") for it in (ended.out, ended.err))
    return Ended(out, err, ended.status, ended.wrong)


def lines_of(text: bytes) -> list[str]:
    """The lines of a text, as they are shown. One that has no line feed says so."""
    *lines, rest = text.decode(errors="backslashreplace").split("\n")
    lines += [f"{rest} (without a line feed)"] if rest else []
    return ["".join(it if it.isprintable() else repr(it)[1:-1] for it in line) for line in lines]


def difference(what: str, found: bytes, wanted: bytes) -> str:
    """The lines in which a text differs from what is wanted, with a line around them."""
    lines = [*difflib.unified_diff(lines_of(wanted), lines_of(found), n=1, lineterm="")][2:]
    more = [f".. and {len(lines) - MOST_LINES} lines more"] if len(lines) > MOST_LINES else []
    shown = [line[:MOST_SHOWN] for line in lines[:MOST_LINES]]
    return "\n    ".join([f"{what} differs:", *shown, *more])


def fault_of(section: Section, found: bytes) -> str | None:
    """What is wrong with a text by a section that says what it is to be."""
    wanted = FORMS.get(section.form, bytes)(section.text)
    if section.form == "as":
        wanted = (REPOSITORY / section.words[2]).read_bytes()
    piece = wanted.removesuffix(b"\n")
    is_well = {
        "begins": found.startswith(piece), "ends": found.endswith(wanted), "has": piece in found,
    }.get(section.form, found == wanted)  # fmt: skip
    return None if is_well else difference(" ".join(section.words), found, wanted)


def judge(row: Row, told: bytes, ended: Ended) -> list[str]:
    """All that is wrong with how a line ended, which alone prints this on standard error."""
    if ended.wrong:
        return [ended.wrong]
    faults = [fault_of(it, getattr(ended, it.stream)) for it in row.wanted_of(told)]
    if ended.status != row.status:
        faults.append(differs("status", ended.status, row.status))
    return [it for it in faults if it]


def faults_of(row: Row, programs: Path, seconds: float = SECONDS) -> list[str]:
    """Runs the lines of a row, each of which has to print the same, up to one that is wrong."""
    first = None
    for line, told in zip(row.lines, row.told):
        ended = run(row, line, programs, seconds)
        first = first or ended
        faults = judge(row, told, ended)
        if not faults and ended.out != first.out:
            faults = [difference(f"what `{row.lines[0]}` prints too", ended.out, first.out)]
        if faults:
            return [f"$ {line}", *faults]
    return []


def make_program(programs: Path) -> None:
    """Makes `exchange` in a folder, which starts the program: a file, or other words."""
    words = harness.program()
    if os.path.exists(words):
        (programs / "exchange").symlink_to(words)
    else:
        (programs / "exchange").write_text(f'#!/bin/sh\nexec {words} "$@"\n')
        (programs / "exchange").chmod(0o755)


def try_rows(report: Report, rows: Sequence[Row], programs: Path) -> None:
    """Runs rows side by side, and says of each what is wrong, until too many hang."""
    hanging = []
    tried = harness.side_by_side(lambda row: faults_of(row, programs), rows)
    for row, faults in zip(rows, tried):
        report.judge(f"{row.place}: {row.name}", faults)
        if HANGS.format(SECONDS) in faults:
            hanging.append(row.place)
        if len(hanging) == MOST_HANGING:
            sys.exit(f"rows: WRONG: {', '.join(hanging)} hang, so the others aren't tried")


# Rows that are wrong, with what has to be said of each.
WRONG_ROWS = """
row one that hangs
$ sleep 60
out

row one that prints other lines
$ printf 'one\\nTWO\\nthree\\nfour\\nfive'
out
    one
    two
    three
    four
    five
status 1

row one whose lines print other things
$ echo one
$ echo two
out has
    o
"""
SAID = [
    ["$ sleep 60", HANGS.format(0.5)],
    [
        r"$ printf 'one\nTWO\nthree\nfour\nfive'",
        "out differs:\n    @@ -1,5 +1,5 @@\n     one\n    -two\n    +TWO\n     three\n"
        "     four\n    -five\n    +five (without a line feed)",
        "status: wanted 1, found 0",
    ],
    ["$ echo two", "what `echo one` prints too differs:\n    @@ -1 +1 @@\n    -one\n    +two"],
]


def self_test(programs: Path) -> None:
    """Hands the rows' judge what is wrong."""
    (programs / "wrong.rows").write_text(WRONG_ROWS)
    rows = read_rows(programs / "wrong.rows", "wrong.rows")
    said = [faults_of(row, programs, 0.5) for row in rows]
    if said != SAID:
        sys.exit(f"rows: WRONG: what is wrong isn't said: {said}")


def read_all(words: Sequence[str]) -> list[Row]:
    """The rows of all files, or those that have a word."""
    files = sorted((REPOSITORY / "rows").glob("*.rows"))
    rows = [row for file in files for row in read_rows(file, f"rows/{file.name}")]
    return [
        it for it in rows if not words or any(word in f"{it.place} {it.name}" for word in words)
    ]


def main() -> None:
    report = Report("rows")
    try:
        rows = read_all(sys.argv[1:])
    except Unreadable as why:
        sys.exit(f"rows: {why}")
    with harness.room("rows") as programs:
        make_program(programs)
        self_test(programs)
        try_rows(report, rows, programs)
    report.finish()


if __name__ == "__main__":
    main()
