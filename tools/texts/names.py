#!/usr/bin/env python3
"""Prints each name that means more than one thing, of a definition, a type or a constant.

    tools/texts/names.py [FOLDER]     of this repository, or of another one

Read are the definitions for contracts in crates/*/specs, and the types and constants in
crates/*/src, private ones too. Left out are those inside a trait or an `impl`, and the types and
constants of crates that only test, since these are private to a file of rows.

Two of one name mean the same if their texts are the same, but for comments, spaces and who may use
them. If the texts differ, in two crates or in one, the name has to stand in names.txt with its
crates, below a line that says why it may. If nothing is wrong, what isn't needed there is printed.
"""

from __future__ import annotations

import re
import sys
from collections import defaultdict
from collections.abc import Iterator
from pathlib import Path
from typing import NamedTuple

sys.path.insert(0, str(Path(__file__).resolve().parents[1]))

from harness import REPOSITORY, Report  # noqa: E402

ALLOWED = Path(__file__).with_name("names.txt")
TESTS = re.compile(r"_tests$|^hostile_use$")


class Language(NamedTuple):
    """How the items that have names are found in files."""

    items: str
    files: str
    comment: re.Pattern[str]
    # What is between two items. Those without names count too.
    border: re.Pattern[str]
    # How an item begins, up to the text that has its name.
    head: re.Pattern[str]


CONTRACTS = Language(
    items="definitions",
    files="specs/*.antt",
    comment=re.compile(r"(?m)^ *--.*\n"),
    border=re.compile(r"\n *(?=(?:abbrev|unfoldable) pub |pub (?:record|data|use) |use |module )"),
    head=re.compile(r"(?:(?:abbrev|unfoldable) pub|pub (?:record|data)) +(?=([^\s:({]+))"),
)
CODE = Language(
    items="types and constants",
    files="src/**/*.rt",
    comment=re.compile(r"(?m)^ *//.*\n"),
    border=re.compile(
        r"\n(?=#\[|(?:pub(?:\(\w+\))? )?"
        r"(?:struct|enum|trait|type|const|static|unsafe|impl|fn|mod|use|ghost)\b)"
    ),
    head=re.compile(
        r"(?:pub(?:\(\w+\))? )?(?=(?:struct|enum|trait|type|const|static) ([A-Z]\w*))"
    ),
)


class Item(NamedTuple):
    """A definition, a type or a constant."""

    name: str
    text: str
    crate: str
    file: str


def items(top: Path, language: Language) -> Iterator[Item]:
    """All items that have names in this language."""
    for file in sorted(top.glob(f"crates/*/{language.files}")):
        place = file.relative_to(top)
        crate = place.parts[1]
        if language is CODE and TESTS.search(crate):
            continue
        text = language.comment.sub("", "\n" + file.read_text(encoding="utf-8"))
        for part in language.border.split(text):
            if head := language.head.match(part):
                yield Item(head[1], " ".join(part[head.end() :].split()), crate, str(place))


def meanings(found: list[Item]) -> int:
    """How many texts items of one name have."""
    return len({item.text for item in found})


def allowed() -> dict[str, set[str]]:
    """The crates of each name that may mean more than one thing."""
    lines = ALLOWED.read_text(encoding="utf-8").splitlines()
    fields = [line.split() for line in lines if line and not line.startswith("#")]
    return {name: set(crates) for name, *crates in fields}


def main() -> None:
    top = Path(sys.argv[1]) if sys.argv[1:] else REPOSITORY
    report = Report("names")
    named: dict[str, list[Item]] = defaultdict(list)
    for language in (CONTRACTS, CODE):
        found = list(items(top, language))
        report.judge(language.items, [] if found else [f"there are none in {top}"])
        print(f"names: {len(found)} {language.items}")
        for item in found:
            named[item.name].append(item)

    several = {name: found for name, found in named.items() if meanings(found) > 1}
    may = allowed()
    for name, found in sorted(several.items()):
        crates = {item.crate for item in found}
        files = sorted({item.file for item in found})
        is_allowed = crates <= may.get(name, set())
        report.judge(f"{name} means more than one thing", [] if is_allowed else files)
    for name, crates in may.items():
        spare = crates - {item.crate for item in several.get(name, [])}
        if spare and not report.wrong:
            print(f"names: {name} needs no {', '.join(sorted(spare))} in names.txt")
    report.finish(f"{len(several)} names with several meanings, {{wrong}} wrong")


if __name__ == "__main__":
    main()
