#!/usr/bin/env python3
"""The numbers of include/exchange.h, against those of the library's sources, of
python/exchange/__init__.py and of these tools; and its calls and states, against the sources.

Statuses stand in crates/exchange_c/src/status.rt, the numbers by which `exchange_why` knows the
calls in why.rt, and how many bytes a refusal has at most in crates/refusals/src/refusal.rt. A call
has the name, the arguments in their order and the result of its function in crates/exchange_c/src,
where a text is one argument, and the allocator is one too. A state has the fields in their order of
its struct in crates/link_devices/src. It needs no program.
"""

from __future__ import annotations

import ast
import re
from collections.abc import Iterator

import calls
import states

from harness import REPOSITORY, Report

# The statuses of answers, which are those with which the program ends.
ANSWERS = {"DONE": 0, "REFUSED": 1}

# The types of the sources, as the header has them.
TYPES = {
    "u8": "uint8_t",
    "u32": "uint32_t",
    "usize": "size_t",
    "SwitchState": "struct exchange_c004",
    "BootState": "struct exchange_boot",
}

# The files that have the structs of states, and the crates whose constants say their lengths.
STATES = {
    "crates/link_devices/src/switch_state.rt": "c004_commands",
    "crates/link_devices/src/boot_state.rt": "peek_poke",
}


def read(path: str) -> str:
    return (REPOSITORY / path).read_text(encoding="utf-8")


def numbers_in(path: str, form: str) -> dict[str, int]:
    """The numbers of a file by their names, where its lines have a form."""
    return {it["name"]: int(it["number"]) for it in re.finditer(form, read(path), re.MULTILINE)}


def name_of_call(variant: str) -> str:
    """The name that exchange.h has for the call of a variant of `LibraryCall`."""
    return "OF_" + re.sub(r"(?<=[a-z])(?=[A-Z])", "_", variant).upper()


def of_python() -> tuple[dict[str, int], dict[str, int]]:
    """The numbers of the module for Python: of statuses, and of calls."""
    given = {
        ast.unparse(it.targets[0]): it.value
        for it in ast.parse(read("python/exchange/__init__.py")).body
        if isinstance(it, ast.Assign)
    }
    statuses = next(it for it in given if "_DONE" in it)
    return (
        dict(zip(re.findall(r"_(\w+)", statuses), ast.literal_eval(given[statuses]))),
        ast.literal_eval(given["_NUMBERS"]),
    )


def sources_of(crate: str) -> str:
    """All code of a crate."""
    files = sorted((REPOSITORY / "crates" / crate / "src").glob("*.rt"))
    return "".join(file.read_text(encoding="utf-8") for file in files)


def constants_in(text: str) -> dict[str, int]:
    """The constants of a text, of which each may say its own by those before it."""
    found = {}
    for name, value in re.findall(
        r"^pub const (\w+): (?:u8|usize) = ([\w -]+?)(?: as usize)?;", text, re.MULTILINE
    ):
        found[name] = eval(value, {}, found)
    return found


def argument(name: str, kind: str, lengths: dict[str, int]) -> list[str]:
    """What the header has for an argument of a function."""
    mutable, kind = re.fullmatch(r"(&mut |&|)(.*)", kind).groups()
    const = "const " if mutable == "&" else ""
    if kind == "Global":
        return []
    if kind == "[u8]":
        size = "size_t room" if name == "out" else f"size_t {name}_bytes"
        return [f"{const}uint8_t *{name}", size]
    if kind.startswith("["):
        return [f"{const}uint8_t {name}[{lengths[kind[5:-1]]}]"]
    return [f"{const}{TYPES[kind]} {'*' if mutable else ''}{name}"]


def declared_in_sources() -> Iterator[str]:
    """The calls and the states as the header has to declare them."""
    lengths, code = constants_in(sources_of("peek_poke")), sources_of("exchange_c")
    form = r'^pub extern "C" fn (\w+)\(([^)]*)\)(?: -> (\w+))?'
    for name, words, result in re.findall(form, code, re.MULTILINE):
        listed = filter(None, re.split(r",\s*", words.strip()))
        given = [part for it in listed for part in argument(*it.split(": "), lengths)]
        yield f"{TYPES.get(result, 'void')} {name}({', '.join(given)});"
    for path, crate in STATES.items():
        lengths = constants_in(sources_of(crate) + read(path))
        form = r"#\[repr\(C\)\]\n(?:#.*\n)*pub struct (\w+) \{(.*?)\n\}"
        name, fields = re.search(form, read(path), re.DOTALL).groups()
        words = [
            f"uint8_t {field}[{lengths[length]}];" if length else f"uint8_t {field};"
            for field, length in re.findall(r"pub (\w+): (?:u8|\[u8; (\w+)\]),", fields)
        ]
        yield f"{TYPES[name]} {{ {' '.join(words)} }};"


def declared_in_header() -> list[str]:
    text = " ".join(re.sub(r"/\*.*?\*/", "", read("include/exchange.h"), flags=re.DOTALL).split())
    return re.findall(
        r"(?:void|uint8_t) exchange_\w+\([^)]*\);|struct exchange_\w+ \{[^}]*\};", text
    )


def compare(report: Report, where: str, found: dict, wanted: dict, count: int = 0) -> None:
    """Compares each number that a file has, of which there have to be so many."""
    for name in sorted({*found, *wanted}) if not count else found:
        report.check(f"{where}: {name}", found.get(name), wanted.get(name), f"numbers of {where}")
    if count:
        report.check(f"{where}: how many", len(found), count)


def main() -> None:
    report = Report("defines")
    form = r"^pub const (?P<name>\w+): {} = (?P<number>\d+);$"
    source = numbers_in("crates/exchange_c/src/status.rt", form.format("u8"))
    statuses = {**ANSWERS, **source}
    form_of_call = r"^ +(?P<number>\d+) => Some\(LibraryCall::(?P<name>\w+)\),$"
    asked = numbers_in("crates/exchange_c/src/why.rt", form_of_call)
    named = {name_of_call(variant): number for variant, number in asked.items()}
    form_of_define = r"^#define EXCHANGE_(?P<name>\w+) (?P<number>\d+)$"
    header = numbers_in("include/exchange.h", form_of_define)
    compare(report, "exchange.h", header, {**statuses, **named})
    python, numbers = of_python()
    compare(report, "__init__.py", python, statuses, count=8)
    compare(report, "the calls of __init__.py", numbers, calls.NUMBERS)
    own = {name_of_call(it): calls.NUMBERS[it] for it in calls.NUMBERS if it != "plan_steady"}
    compare(report, "calls.py", own, named)
    of_states = {name: getattr(states, name) for name in statuses if hasattr(states, name)}
    compare(report, "states.py", of_states, statuses, count=10)
    room = numbers_in("crates/refusals/src/refusal.rt", form.format("usize"))["REFUSAL_ROOM"]
    for path, words in {
        "include/exchange.h": f"feed: at most {room} bytes\n",
        "tools/c/try.c": f"REFUSAL_ROOM = {room} ",
    }.items():
        report.check(f"the room of a refusal in {path}", words in read(path), True, "rooms")
    found, wanted = declared_in_header(), [*declared_in_sources()]
    for it in sorted({*found, *wanted}):
        places = found.count(it), wanted.count(it)
        report.check(f"in the header, and the sources: {it}", places, (1, 1), "calls and states")
    tried = len(calls.CALLS) + len(calls.OTHERS) + len(STATES)
    report.check("calls and states that are tried", tried, len(found))
    report.finish()


if __name__ == "__main__":
    main()
