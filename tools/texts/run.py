#!/usr/bin/env python3
"""Compares what the documents show with what the program prints.

    tools/texts/run.py [FILE..]                     all documents, or these
    tools/texts/run.py --installed FOLDER FILE..    these of a folder where they are installed, by
                                                    the program on the PATH

A document shows commands and what they print in a block that begins with
```console. A line that begins with `$ ` is a command, and the lines after it, up to the next one,
are what it prints on both streams, whatever its status. A line that is `...` stands for any lines.
The commands of a document run one after another, by the shell bash, in a folder with the
repository's examples and `./exchange`. A block that begins with
```file NAME isn't run: it is a file of that name for the commands after it.

Each command's help begins with a line that begins with `Example:`, and an example in the indented
lines after it. It is run too, and has to end well.

Each link of a document has to lead to a file or folder of the repository, and where it names a
heading there, to one. What a link to source code shows, as
[`split`](../crates/euler_split/src/halving.rt#L40), has to stand there: a function or a type in
that line, where it names one. What comments of crates link to, as [`Batch`] or
[`PORTS`](c004_commands::PORTS), has to be declared or imported there, and the files that they name
have to be there. README, CONTRIBUTING and .ci/run have to name one test command. Where README names
another kit than `rt version` does, that is printed, which is no fault.

A program that isn't built, or is older than its sources, is proved and built first. Another one is
tried where EXCHANGE names it: EXCHANGE=other/exchange tools/texts/run.py
"""

from __future__ import annotations

import functools
import os
import re
import shutil
import subprocess
import sys
from collections.abc import Iterator
from dataclasses import dataclass, field
from pathlib import Path
from typing import NoReturn

sys.path.insert(0, str(Path(__file__).resolve().parents[1]))

import harness  # noqa: E402
from harness import REPOSITORY, Report  # noqa: E402

PROGRAM = os.path.abspath(os.environ.get("EXCHANGE") or REPOSITORY / "exchange")
CRATES = REPOSITORY / "crates"

# The commands whose help begins with an example for one shell; that of `host` is a walk in several.
HELPED = (
    "", "plan", "check", "draw", "switch", "orders", "drive", "c004", "direct", "apply", "run",
    "serve", "talk", "replay",
)  # fmt: skip

# Any lines, within what a command prints.
ANY = "..."

# Links of a document, and those to source code with what they show; the part of a link that names a
# line, and what stands there before a name that is declared.
LINKS = re.compile(r"\]\(([^)\s]+)\)")
SOURCES = re.compile(r"\[`([^`]*)`\]\(([^)\s]+\.(?:rt|antt)(?:#\w+)?)\)")
SOURCE_LINE = re.compile(r"L[0-9]+")
DECLARED = r"\b(?:fn|struct|enum|trait) "

# A line of a comment that documents code, its links to names, and the files that it names, perhaps
# of another crate; and what stands before a name in code, or imports it.
COMMENT = re.compile(r"\s*//[/!] ?(.*)")
NAMES = re.compile(r"\[`([^`\]]+)`\](?:\(([^)]+)\))?")
FILES = re.compile(r"`([\w./-]+\.(?:rt|antt|rows|py|sh|txt|md|rs|c|h))`(?: of `(\w+)`)?")
NAMED = r"\b(?:fn|struct|enum|trait|const|static|type|mod) "
IMPORTS = re.compile(r"(?m)^\s*(?:pub(?:\([^)]*\))? )?use ([^;]*);")

# Names that need no import.
PRELUDE = ("Clone", "Default", "Drop", "From", "Into", "Iterator", "Option", "Result", "Vec")

# Where files name the test command.
TESTS = {
    ".ci/run": r'exec "\$\(dirname "\$0"\)/\.\./([^"]*)"',
    "README.md": r"\| `([^`]*)` \|.* all tests \|",
    "CONTRIBUTING.md": r"\| everything holds \|[^|]*\| `([^`]*)` \|",
}

# The name of a kit, as README has it, and as `rt version` begins.
KIT = re.compile(r"rattle-kit-\w+")


@dataclass
class Block:
    """A block of a document: its line, what stands after its first three marks, and its lines."""

    line: int
    kind: str
    lines: list[str] = field(default_factory=list)


@dataclass
class Shown:
    """A command of a document, and the lines that it is said to print."""

    line: int
    words: str
    lines: list[str] = field(default_factory=list)


def text_of(name: str) -> str:
    return (REPOSITORY / name).read_text(encoding="utf-8")


def documents() -> list[str]:
    """All documents, by their names."""
    folders = (".", "docs", "rows", "examples/patterns")
    paths = [path for folder in folders for path in (REPOSITORY / folder).glob("*.md")]
    return sorted(str(path.relative_to(REPOSITORY)) for path in paths)


@functools.cache
def parts(name: str) -> tuple[list[Block], list[str]]:
    """The blocks of a document, and the other lines."""
    found, block, prose = [], None, []
    for number, line in enumerate(text_of(name).splitlines(), 1):
        mark = re.fullmatch(r" *```(.*)", line)
        if not mark:
            (block.lines if block else prose).append(line)
        elif block:
            found, block = [*found, block], None
        else:
            block = Block(number, mark[1].strip())
    return found, prose


def headings(name: str) -> list[str]:
    """The names by which links lead to the headings of a document."""
    heads = [it.lstrip("#").strip().lower() for it in parts(name)[1] if re.match("#+ ", it)]
    return [re.sub(r"[^\w -]", "", head).replace(" ", "-") for head in heads]


def leads(name: str, link: str) -> bool:
    """Whether a link of a document leads somewhere."""
    path, _, head = link.partition("#")
    file = os.path.normpath(os.path.join(os.path.dirname(name), path)) if path else name
    if file.startswith("..") or not (REPOSITORY / file).exists():
        return False
    if file.endswith(".md"):
        return not head or head in headings(file)
    return not head or bool(SOURCE_LINE.fullmatch(head))


def is_there(name: str, shown: str, link: str) -> bool:
    """Whether the name that a link to source code shows stands in that file, and in that line if
    it has one: in code where it is declared."""
    path, _, line = link.partition("#L")
    lines = text_of(os.path.join(os.path.dirname(name), path)).splitlines()
    word = rf"{DECLARED if '.rt' in link else ''}\b{shown.split('::')[-1]}\b"
    found = [number for number, it in enumerate(lines, 1) if re.search(word, it)]
    return int(line) in found if line else bool(found)


def try_links(report: Report, name: str) -> None:
    """Tries the links of a document within the repository."""
    text = "\n".join(parts(name)[1])
    sources = SOURCES.findall(text)
    links = [it for it in LINKS.findall(re.sub(r"`[^`]*`", "", text)) if "://" not in it]
    for link in links:
        is_well = leads(name, link) and ("#L" not in link or link in [it for _, it in sources])
        report.judge(f"{name}: {link}", [] if is_well else ["it leads nowhere"], "links")
    for shown, link in sources:
        is_well = leads(name, link) and is_there(name, shown, link)
        problems = [] if is_well else [f"{shown} isn't where it leads"]
        report.judge(f"{name}: {link}", problems, "links to code")


@functools.cache
def code_of(crate: str) -> dict[Path, str]:
    """The files of a crate, without their comments."""
    return {
        path: re.sub(r"(?m)^\s*//.*$", "", path.read_text(encoding="utf-8"))
        for path in sorted((CRATES / crate / "src").rglob("*.rt"))
    }


def is_in_scope(code: str, name: str) -> bool:
    """Whether code declares or imports a name."""
    return (
        name in PRELUDE
        or bool(re.search(rf"(?m)^(?! ).*{NAMED}{name}\b", code))
        or any(re.search(rf"\b{name}\b", names) for names in IMPORTS.findall(code))
    )


def has_name(crate: str, code: str, name: str) -> bool:
    """Whether a comment in this code of a crate can name this, as `module::name`,
    `crate::Type::method` or `other_crate::Type::Variant`."""
    first, *rest = name.removesuffix("()").split("::")
    if rest and (first == "crate" or (CRATES / first).is_dir()):
        files = code_of(crate if first == "crate" else first)
        code = next(text for path, text in files.items() if path.stem in ("lib", "main"))
        first, *rest = rest
    if not rest or not is_in_scope(code, first):
        return is_in_scope(code, first)
    member = rf"(?m){NAMED}{rest[-1]}\b|^\s*{rest[-1]}\b\s*[,({{]"
    for files in (code_of(path.name).values() for path in CRATES.iterdir()):
        is_declared = any(re.search(rf"{NAMED}{first}\b", text) for text in files)
        if is_declared and any(re.search(member, text) for text in files):
            return True
    return False


def has_file(crate: str, name: str) -> bool:
    """Whether a comment of a crate can name this file: one of the crate, or of the repository."""
    name = name.replace("NAME", "*")
    return any((CRATES / crate).rglob(name)) or any(REPOSITORY.glob(name))


def try_comments(report: Report, crate: str) -> None:
    """Looks for the names and the files that comments of a crate link to or name."""
    for path, code in code_of(crate).items():
        for number, line in enumerate(path.read_text(encoding="utf-8").splitlines(), 1):
            text = comment[1] if (comment := COMMENT.fullmatch(line)) else ""
            found = [
                *((it[0], has_name(crate, code, it[2] or it[1])) for it in NAMES.finditer(text)),
                *((it[0], has_file(it[2] or crate, it[1])) for it in FILES.finditer(text)),
            ]
            for what, is_well in found:
                place = f"{path.relative_to(REPOSITORY)}:{number}: {what}"
                report.judge(place, [] if is_well else ["it isn't there"], "names in comments")


def compare_kits() -> None:
    """Prints the kit of this machine, where README names another one."""
    named, here = set(KIT.findall(text_of("README.md"))), []
    if shutil.which("rt"):
        run = subprocess.run(["rt", "version"], stdout=subprocess.PIPE, text=True, check=True)
        here = KIT.findall(run.stdout)
    if here and named != set(here):
        print(f"README.md: the kit is {' and '.join(sorted(named))}, `rt version` is {here[0]}")


def try_test_commands(report: Report) -> None:
    """Looks whether files name one test command, and whether it is there."""
    named = {name: re.findall(rf"(?m)^{words}", text_of(name)) for name, words in TESTS.items()}
    command = named[".ci/run"]
    for name, found in named.items():
        report.check(f"the test command of {name}", found, command, "names of the test command")
    is_well = len(command) == 1 and os.access(REPOSITORY / command[0], os.X_OK)
    report.check("the test command is there", is_well, True)


def commands(block: Block) -> list[Shown]:
    """The commands of a block that shows some."""
    shown = []
    for number, line in enumerate(block.lines, block.line + 1):
        if line.startswith("$ ") or not shown:
            shown.append(Shown(number, line.removeprefix("$ ")))
        else:
            shown[-1].lines.append(line)
    return shown


def fits(wanted: list[str], printed: list[str]) -> bool:
    """Whether these lines were printed, where ANY stands for any lines."""
    if ANY not in wanted:
        return wanted == printed
    at = wanted.index(ANY)
    rest = wanted[at + 1 :]
    return printed[:at] == wanted[:at] and any(
        fits(rest, printed[k:]) for k in range(at, len(printed) + 1)
    )


def run_in(folder: Path, words: str, stderr: int | None = None) -> tuple[int, list[str]]:
    """Runs words by the shell in a folder: its status, and the lines that it printed."""
    processes, given = harness.Processes(), {"cwd": folder, "stdin": subprocess.DEVNULL}
    process = processes.start(["bash", "-c", words], stderr=stderr, **given)
    try:
        printed = process.communicate(timeout=harness.SECONDS)[0]
    except subprocess.TimeoutExpired:
        printed = b"it hangs"
    processes.stop()
    return process.returncode, printed.decode("utf-8", "replace").splitlines()


def make_folder(folder: Path) -> None:
    """Puts the repository's examples and the program into a folder."""
    (folder / "examples").symlink_to(REPOSITORY / "examples")
    if PROGRAM:
        (folder / "exchange").symlink_to(PROGRAM)


def try_document(report: Report, name: str) -> None:
    """Runs what a document shows."""
    with harness.room("texts") as folder:
        make_folder(folder)
        for block in parts(name)[0]:
            if block.kind.startswith("file "):
                path = folder / block.kind.split()[1]
                path.parent.mkdir(parents=True, exist_ok=True)
                path.write_text("".join(f"{line}\n" for line in block.lines), encoding="utf-8")
            for shown in commands(block) if block.kind == "console" else ():
                printed = run_in(folder, shown.words, subprocess.STDOUT)[1]
                problems = ["it is shown with", *shown.lines, "and prints", *printed[:40]]
                is_well = fits(shown.lines, printed)
                place = f"{name}:{shown.line}: {shown.words}"
                report.judge(place, [] if is_well else problems, "commands of documents")


def examples_of_help(command: str) -> Iterator[tuple[object, object]]:
    """Whether a command's help begins with an example, and how that ends."""
    with harness.room("texts") as folder:
        make_folder(folder)
        help_lines = run_in(folder, f"./exchange {command} --help")[1]
        first = help_lines[: help_lines.index("")] if "" in help_lines else ["nothing"]
        example = "\n".join(line for line in first[1:] if line.startswith("  "))
        begins = first[0].startswith("Example:") and f"./exchange {command}" in example
        yield (command, begins, run_in(folder, example, subprocess.DEVNULL)[0]), (command, True, 0)


def try_installed(folder: str, names: list[str]) -> NoReturn:
    """Tries documents that are installed in a folder, by the program on the PATH."""
    global REPOSITORY, PROGRAM
    REPOSITORY, PROGRAM, report = Path(folder).resolve(), None, Report("texts")
    for name in names:
        try_links(report, name)
        try_document(report, name)
    report.finish()


def main() -> None:
    if sys.argv[1:2] == ["--installed"]:
        try_installed(sys.argv[2], sys.argv[3:])
    report, names = Report("texts"), sys.argv[1:] or documents()
    for name in names:
        try_links(report, name)
    if not sys.argv[1:]:
        for path in sorted(CRATES.iterdir()):
            try_comments(report, path.name)
    compare_kits()
    try_test_commands(report)
    if not os.environ.get("EXCHANGE"):
        subprocess.run([PROGRAM, "prove"], check=True)
    for name in names:
        try_document(report, name)
    for command in HELPED:
        for pair in examples_of_help(command):
            report.check("an example of help", *pair, "examples of help")
    report.finish()


if __name__ == "__main__":
    main()
