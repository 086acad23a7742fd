#!/usr/bin/env python3
"""Compares docs/PROMISES.md with the definitions of the promises, and counts what these rest on.

    tools/texts/promises.py

A promise is a definition of crates/exchange/specs/Promises.antt. It rests on all definitions that
it cites, and that these cite, down to names that are made from code (specs.declared) and to those
of the toolchain. Counted are their lines, without comments. The document has `NAME` (N lines) for
each promise, where the lines of the grammar aren't counted, and one sentence on all of them. Each
block of definitions that it shows has to stand in the file as it is.

Each law, a public function of a crate's src/laws.rt, has to be called by code, or named by what its
crate's lib.rt says of the crate, as `laws::NAME`, or by a page that names the crate in the same
paragraph, row or point.
"""

from __future__ import annotations

import re
import sys
from collections.abc import Iterable, Iterator
from functools import cache
from pathlib import Path

sys.path.insert(0, str(Path(__file__).resolve().parents[1]))

from harness import REPOSITORY, Report  # noqa: E402

PLACE = ("exchange", "Promises")
# What the ninth rests on beside that clause: `laws::right_is_not_wrong`.
LAW = ("exchange", "Rights", "RightIsNotWrong")

# What is imported: a file's names in braces, or the file under another name.
NAMES = re.compile(r"(pub )?use Rattle\.([\w-]+)\.specs\.([\w.]+)\.\{([^}]*)\}")
FILES = re.compile(r"use Rattle\.([\w-]+)\.specs\.([\w.]+) as ([\w-]+)")
HEAD = re.compile(
    r" *(?:abbrev pub|unfoldable pub|opaque pub|(?:pub )?record|(?:pub )?data) +([^\s:({]+)"
)
WORDS = re.compile(r"[^\s(){}\[\],;:.λ→×⊎≡]+")

# Where a part of a page ends: a paragraph, a point of a list, or a row of a table.
PARTS = re.compile(r"\n\s*\n|\n(?=[-|])")


# A file of definitions: its crate, and its name there. A definition has its own name too.
File = tuple[str, str]
Definition = tuple[str, str, str]


def text_of(path: str) -> str:
    return (REPOSITORY / path).read_text(encoding="utf-8")


def definitions(lines: Iterable[str]) -> dict[str, list[str]]:
    """Each definition's name, with its lines without comments. It ends before a blank line."""
    name, found = None, {}
    for line in lines:
        code = re.sub(r"(^|\s)--.*", "", line).rstrip()
        if head := HEAD.match(code):
            name = head[1]
        elif not line.strip() or code.startswith(("use ", "pub use ", "module ")):
            name = None
        if name and code:
            found.setdefault(name, []).append(code)
    return found


class Definitions:
    """All definitions of the repository, by their files."""

    def __init__(self) -> None:
        self.lines: dict[File, dict[str, list[str]]] = {}
        # The names that a file imports, of which it hands on some. A file that is imported under
        # another name has no name in the end.
        self.names: dict[File, dict[str, tuple[str, str, str | None]]] = {}
        self.handed_on: dict[File, set[str]] = {}
        for path in REPOSITORY.glob("crates/*/specs/**/*.antt"):
            self.read(path)

    def read(self, path: Path) -> None:
        crate, _, *parts = path.relative_to(REPOSITORY / "crates").with_suffix("").parts
        file, text = (crate, ".".join(parts)), path.read_text(encoding="utf-8")
        self.lines[file] = definitions(text.split("\n"))
        self.names[file], self.handed_on[file] = {}, set()
        for again, of, place, listed in NAMES.findall(text):
            for one in filter(None, map(str.strip, listed.split(","))):
                real, _, alias = one.partition(" as ")
                self.names[file][alias or real] = (of, place, real)
                if again:
                    self.handed_on[file].add(alias or real)
        for of, place, alias in FILES.findall(text):
            self.names[file][alias] = (of, place, None)

    def cited(self, file: File, name: str) -> Iterator[Definition]:
        """What a definition cites."""
        text = "\n".join(self.lines[file][name])
        for alias, (of, place, real) in self.names[file].items():
            if real is None:
                yield from ((of, place, one) for one in re.findall(rf"\b{alias}\.([\w-]+)", text))
        for word in set(WORDS.findall(text)):
            if word in self.lines[file] and word != name:
                yield (*file, word)
            elif self.names[file].get(word, (0, 0, None))[2]:
                yield self.names[file][word]

    def rests_on(
        self, start: Iterable[Definition]
    ) -> tuple[dict[Definition, int], set[Definition], set[Definition]]:
        """The definitions that those cite, with their lines; names that are made from code; and
        those of the toolchain."""
        seen, made, others, left = {}, set(), set(), list(start)
        while left:
            crate, place, name = one = left.pop()
            file, is_ours = (crate, place), (REPOSITORY / "crates" / crate).is_dir()
            if place.startswith(("declared", "contracts")) and is_ours:
                made.add(one)
            elif name in self.lines.get(file, {}):
                if one not in seen:
                    seen[one] = len(self.lines[file][name])
                    left += self.cited(file, name)
            elif name in self.handed_on.get(file, ()):
                left.append(self.names[file][name])
            elif is_ours:
                sys.exit(f"promises: WRONG: {crate}.{place} has no {name}")
            else:
                others.add(one)
        return seen, made, others


@cache
def code() -> dict[Path, str]:
    """All files of code, without comments but those on a whole file."""
    return {
        path: re.sub(r"(?m)^ *//[^!].*", "", path.read_text(encoding="utf-8"))
        for path in sorted(REPOSITORY.glob("crates/*/src/**/*.rt"))
    }


def is_used(path: Path, name: str, parts: list[str]) -> bool:
    """Whether a page names a law of this file, its crate does, or code calls it."""
    crate = path.parents[1].name
    own = [
        text
        for other, text in code().items()
        if path.parents[1] in other.parents or re.search(rf"\buse {crate}\b", text)
    ]
    return (
        bool(re.search(rf"(?m)^//!.*`laws::{name}`", code().get(path.with_name("lib.rt"), "")))
        or any(f"`{name}`" in part and re.search(rf"\b{crate}\b", part) for part in parts)
        or bool(re.search(rf"(?m)^    (let \w+ = )?{name}\(", code()[path]))
        or any(
            re.search(rf"(?m)^ *[^/].*laws::{name}\(|^use {crate}::laws::{name};", text)
            for text in own
        )
    )


def try_laws(report: Report) -> None:
    """Looks whether each law is named or called."""
    pages = [*REPOSITORY.glob("*.md"), *REPOSITORY.glob("docs/*.md")]
    named = [it for it in pages if it.name != "CHANGES.md"]
    parts = [part for page in named for part in PARTS.split(page.read_text(encoding="utf-8"))]
    for path, text in code().items():
        if path.match("src/laws.rt"):
            for name in re.findall(r"(?m)^pub fn (\w+)", text):
                problems = [] if is_used(path, name, parts) else ["nobody names or calls it"]
                report.judge(f"{path.parents[1].name} {name}", problems, "laws")


def try_page(report: Report) -> None:
    """Compares the page with the definitions of the promises."""
    page, specs = text_of("docs/PROMISES.md"), text_of("crates/exchange/specs/Promises.antt")
    words, all_of = " ".join(page.split()), Definitions()
    for block in re.findall(r"```antt\n(.*?)```", page, re.S):
        problems = [] if block in specs else ["there is no such definition"]
        report.judge(block.splitlines()[0], problems, "blocks of definitions")
    grammar = all_of.rests_on([("command_words", "Jobs", "AskFor")])[0]
    for name, lines in re.findall(r"`(\w+)` \(([\d,]+) lines\)", words):
        seen = all_of.rests_on([(*PLACE, name)])[0]
        own = sum(count for one, count in seen.items() if one not in grammar)
        report.check(f"lines of {name}", lines, f"{own:,}", "counts of lines")
    clause = NAMES.findall(text_of("crates/exchange/src/promises.rt"))
    listed = ",".join(names for _, *place, names in clause if tuple(place) == PLACE)
    start = [(*PLACE, name) for name in map(str.strip, listed.split(",")) if name]
    seen, made, others = all_of.rests_on([*start, LAW])
    sentence = (
        f"rest on {sum(seen.values()):,} lines in {len(seen)} definitions. Of these lines "
        f"{sum(grammar.values())} say which arguments ask for which job. Together they cite "
        f"{len(made)} names that are made from code, and {len(others)} of the toolchain's "
        "libraries."
    )
    found = re.search(r"rest on [\d,]+ lines in .*?libraries\.", words)
    report.check("all promises", found and found[0], sentence, "promises in one sentence")


def main() -> None:
    report = Report("promises")
    try_page(report)
    try_laws(report)
    report.finish()


if __name__ == "__main__":
    main()
