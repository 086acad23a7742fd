#!/usr/bin/env python3
"""Prints each line that is wider than it may be, of all files that git tracks.

    tools/texts/widths.py [FOLDER]     of this repository, or of another one

A line may have 100 columns, and one of a proof, which is below a folder `proofs`, 200. What may be
wider stands in widths.txt, below a line that says why: a pattern of files, in which * is any part
of a path, and after a space, unless all their lines may, what these have in them, as a regular
expression. If nothing is wrong, what isn't needed there is printed.
"""

from __future__ import annotations

import os
import re
import subprocess
import sys
from collections.abc import Iterator
from fnmatch import fnmatchcase
from pathlib import Path
from typing import NamedTuple

sys.path.insert(0, str(Path(__file__).resolve().parents[1]))

from harness import REPOSITORY, Report  # noqa: E402

ALLOWED = Path(__file__).with_name("widths.txt")
COLUMNS, COLUMNS_OF_PROOFS = 100, 200


class Exemption(NamedTuple):
    """Which lines of which files may be wider."""

    files: str
    part: str

    def covers(self, path: str, line: str) -> bool:
        return fnmatchcase(path, self.files) and bool(re.search(self.part, line))


def exemptions() -> list[Exemption]:
    """What may be wider."""
    lines = ALLOWED.read_text(encoding="utf-8").splitlines()
    found = [line.partition(" ") for line in lines if line and not line.startswith("#")]
    return [Exemption(files, part) for files, _, part in found]


def texts(top: Path) -> Iterator[tuple[str, list[str]]]:
    """The lines of each file. What a link leads to is a file of its own, or isn't tracked."""
    words = ["git", "-C", str(top), "ls-files", "-z"]
    listed = subprocess.run(words, stdout=subprocess.PIPE, check=False).stdout
    for path in os.fsdecode(listed).split("\0")[:-1]:
        file = top / path
        if file.is_file() and not file.is_symlink():
            text = file.read_text(encoding="utf-8", errors="replace")
            yield path, text.rstrip("\n").split("\n")


def main() -> None:
    top = Path(sys.argv[1]) if sys.argv[1:] else REPOSITORY
    report = Report("widths")
    may, used = exemptions(), set()
    files = lines = wider = 0
    for path, text in texts(top):
        files, lines = files + 1, lines + len(text)
        is_proof = path.endswith(".antt") and "/proofs/" in path
        most = COLUMNS_OF_PROOFS if is_proof else COLUMNS
        for number, line in enumerate(text, 1):
            if len(line) <= most:
                continue
            covering = [it for it in may if it.covers(path, line)]
            used.update(covering)
            wider += bool(covering)
            problems = [] if covering else [f"{len(line)} columns, and {most} may be"]
            report.judge(f"{path}:{number}", problems)
    report.judge("all", [] if lines else [f"git tracks no lines in {top}"])
    for it in may:
        if it not in used and not report.wrong:
            print(f"widths: nothing needs {' '.join(it).strip()} in widths.txt")
    told = f"{lines} lines of {files} files, {wider} wider that may be, {{wrong}} wrong"
    report.finish(told)


if __name__ == "__main__":
    main()
