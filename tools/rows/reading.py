"""Reads the files of rows, as rows/README.md says that they are written."""

from __future__ import annotations

import re
from collections.abc import Sequence
from dataclasses import dataclass, field
from pathlib import Path

# What stands for a character, behind a backslash. One at the end of a line takes the feed away.
ESCAPES = {"\\": "\\", "n": "\n", "r": "\r", "\n": ""}

# The sections of a row, by their first words: what there is, and what comes of it.
THERE = r"(?:file|sealed|bytes|pipe|folder|made) \S+|input"
WANTED = r"(?:out|err)(?: begins| ends| has| sealed| bytes| as \S+)?"
SECTION = re.compile(rf"({THERE}|{WANTED})(?:: (.*))?")


class Unreadable(Exception):
    """A file of rows that isn't written as it has to be."""


@dataclass
class Section:
    """A part of a row: the words of its head, and the text below it or behind its colon."""

    words: list[str]
    text: bytes

    @property
    def stream(self) -> str:
        return self.words[0]

    @property
    def form(self) -> str:
        return self.words[1] if len(self.words) > 1 else ""


@dataclass
class Row:
    """A row: its lines of commands, what each alone prints on standard error, and its sections."""

    place: str
    name: str
    lines: list[str] = field(default_factory=list)
    told: list[bytes] = field(default_factory=list)
    there: list[Section] = field(default_factory=list)
    wanted: list[Section] = field(default_factory=list)
    status: int = 0

    def is_open(self) -> bool:
        """Whether it leaves open what comes on standard error beside a refusal."""
        refusal = re.compile(rb"refused [^\n]*\n")
        is_refusal = self.status == 1 and any(
            part.words == ["out"] and refusal.fullmatch(part.text) for part in self.wanted
        )
        says = all(self.told) or any(part.stream == "err" for part in self.wanted)
        return is_refusal and not says

    def wanted_of(self, told: bytes) -> list[Section]:
        """What has to come of a line that alone prints this on standard error. What no section
        names has to be empty."""
        parts = [part for part in self.wanted if not told or part.stream != "err"]
        parts += [Section(["err"], told)] if told else []
        named = {part.stream for part in parts}
        return parts + [Section([it], b"") for it in ("out", "err") if it not in named]

    def fault(self) -> str | None:
        """What it lacks, if anything."""
        if not self.lines or not (self.wanted or all(self.told)):
            return "runs nothing, or wants nothing"
        return "doesn't say what comes on standard error" if self.is_open() else None


def unescape(text: str) -> bytes:
    """A text with its escapes read."""
    parts = re.split(r"\\(.|\n)", text)
    if not set(parts[1::2]) <= set(ESCAPES):
        raise Unreadable(f"an escape is none of those of rows/README.md: {text!r}")
    parts[1::2] = [ESCAPES[it] for it in parts[1::2]]
    return "".join(parts).encode()


def take_line(lines: list[str]) -> str:
    """Takes a line from those that are left, and the lines in which it goes on: behind one that
    ends in a space and a backslash, and without their indentation."""
    line = lines.pop()
    while line.endswith(" \\") and lines:
        line = line[:-1] + lines.pop().lstrip(" ")
    return line


def take_text(lines: list[str]) -> bytes:
    """Takes an indented text from the lines that are left. Empty lines within it are its own."""
    text, empty = "", 0
    while lines and (not lines[-1].strip() or lines[-1].startswith("    ")):
        line = take_line(lines)
        if line.strip():
            text, empty = text + "\n" * empty + line[4:] + "\n", 0
        else:
            empty += 1
    return unescape(text)


def read_line(row: Row | None, shared: list[Section], line: str, lines: list[str]) -> bool:
    """Takes a line of a row, or one above the first row, with its text: whether it is one."""
    if section := SECTION.fullmatch(line):
        head, inline = section.groups()
        part = Section(head.split(" "), take_text(lines))
        if inline is not None:
            part.text = unescape(inline + "\n")
        if re.fullmatch(THERE, head):
            (row.there if row else shared).append(part)
            return True
        if row:
            row.wanted.append(part)
        return row is not None
    if row is None:
        return False
    if line.startswith("$ "):
        row.lines.append(line[2:])
        row.told.append(take_text(lines))
    elif status := re.fullmatch(r"status (\d+)", line):
        row.status = int(status[1])
    elif line.startswith("refused "):
        row.wanted.append(Section(["out"], unescape(line + "\n")))
        row.status = 1
    else:
        return False
    return True


def read_rows(path: Path, name: str) -> list[Row]:
    """The rows of a file. What stands above the first row is there for each of them."""
    lines = path.read_text(encoding="utf-8").split("\n")[::-1]
    count, rows, shared = len(lines), [], []
    while lines:
        place, line = f"{name}:{count - len(lines) + 1}", take_line(lines)
        if line.startswith("row "):
            rows.append(Row(place, line[4:], there=[*shared]))
        elif (
            line
            and line[0] != "#"
            and not read_line(rows[-1] if rows else None, shared, line, lines)
        ):
            raise Unreadable(f"{place}: {line!r} isn't a line of a row")
    check_rows(rows)
    return rows


def check_rows(rows: Sequence[Row]) -> None:
    """Refuses rows that lack something, or that have one name."""
    names = [row.name for row in rows]
    for row in rows:
        fault = "isn't the only one of its name" if names.count(row.name) > 1 else row.fault()
        if fault:
            raise Unreadable(f"{row.place}: row {row.name} {fault}")
