#!/usr/bin/env python3
"""Names the edits of crates/*/must-fail that can't be made: `rt ci` passes over them.

    tools/edits.py [FOLDER]     of this repository, or of another one

Each text that an edit takes has to stand once in its file.
"""

from __future__ import annotations

import sys
from collections.abc import Iterator
from pathlib import Path

from harness import REPOSITORY, Report


def faults(edit: Path) -> Iterator[str]:
    """What keeps an edit from being made. Its lines are `file: NAME`, `old: TEXT` and
    `new: TEXT`."""
    if edit.suffix != ".edit":
        yield "its name doesn't end in .edit"
    before = after = old = ""
    for line in edit.read_text(encoding="utf-8").splitlines():
        word, _, rest = line.partition(":")
        rest = rest.removeprefix(" ")
        if word == "file":
            file = Path(str(edit).partition("/must-fail/")[0], rest)
            if file.is_file():
                before = after = file.read_text(encoding="utf-8")
            else:
                yield f"there is no file {rest}"
        elif word == "old":
            old = rest
            if after.count(old) != 1:
                yield f"this stands there {after.count(old)} times, and not once: {old}"
        elif word == "new" and old:
            after = after.replace(old, rest)
    if before == after:
        yield "it changes nothing"


def main() -> None:
    top = Path(sys.argv[1]) if sys.argv[1:] else REPOSITORY
    report = Report("edits")
    for edit in sorted(top.glob("crates/*/must-fail/**/*")):
        if edit.is_file() and edit.suffix != ".md":
            report.judge(str(edit.relative_to(top)), [*faults(edit)])
    report.finish("{tried} edits, {wrong} wrong")


if __name__ == "__main__":
    main()
