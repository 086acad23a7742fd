#!/usr/bin/env python3
"""Names loops and filling calls of the planner that count no step, and have no reason in steps.txt.

    tools/steps.py [FOLDER]     of this repository, or of another one

The bound on the steps of a plan says something only of loops that tick. A loop does where its first
line is `steps.tick();`. A call that goes through many words, as `[0; N]`, has a
`steps.tick_many(..)` of its own in its function. What has neither needs a line in steps.txt, and so
do a count that begins anew, `Steps::none()`, and in a function that counts, a call that has one
that counts beside it (`insert` of `insert_in_steps`). FILE FUNCTION.. WHAT: REASON. A line there
that isn't needed is wrong too.
"""

from __future__ import annotations

import re
import sys
from collections import Counter
from collections.abc import Iterator
from pathlib import Path

from harness import REPOSITORY, Report

READ = (
    "link_graph/src/counting", "link_graph/src/graph", "euler_split/src/*",
    "alternating_path/src/*", "schedule_certificate/src/*", "plan_answers/src/planning",
)  # fmt: skip
FILLS = (
    r"extend|extend_from_slice|from_slice|copy_from_slice|resize|collect|split_off|copy|clone|"
    r"to_vec|fill|push|vec!|sort\w*|contains|(?:into_)?iter\w*|chunks\w*|zip|sum|reverse|retain|"
    r"drain"
)
LOOP = re.compile(
    r"^\s*(?:'\w+: )?(for|while|loop)\b.*?\{\n(\s*steps\.tick\(\);)?", re.MULTILINE | re.DOTALL
)
CALL = re.compile(rf"\b({FILLS})[(\[]")
ALWAYS = re.compile(r"\b(truncate)\(|(?<!!)\[(?!in |u\d|usize|bool|Option)[^\[\];]+; ")
TWIN = re.compile(r"(?:\.|(?:LinkGraph|Table)::)(\w+)\(")

# A function, and a word of it that may take many steps.
Use = tuple[str, str]


def uses(text: str, twins: set[str]) -> Iterator[tuple[Use, bool]]:
    """What takes steps in a file, and whether it counts them. Of `twins` there is a call each that
    counts."""
    words = re.split(r"\bfn (\w+)", text)
    for name, body in zip(words[1::2], words[2::2]):
        calls = CALL.findall(LOOP.sub(lambda loop: "" if loop[2] else loop[0], body))
        anew = [call or "array" for call in ALWAYS.findall(body)]
        anew += ["Steps::none"] * body.count("Steps::none()")
        if re.search(r"\bsteps\b", body):
            anew += [call for call in TWIN.findall(body) if call in twins]
        yield from (((name, loop), bool(tick)) for loop, tick in LOOP.findall(body))
        are_counted = body.count("steps.tick_many(") >= len(calls)
        yield from (((name, call), are_counted) for call in calls)
        yield from (((name, call), False) for call in anew)


def reasons() -> Counter[tuple[str, Use]]:
    """How often each use may count no step, by the name of its file."""
    found = Counter()
    for line in (REPOSITORY / "tools/steps.txt").read_text(encoding="utf-8").splitlines():
        if ": " in line and line[0] != "#":
            name, *functions, what = line.split(": ")[0].split()
            word, _, often = what.partition("*")
            found.update({(name, (function, word)): int(often or 1) for function in functions})
    return found


def main() -> None:
    top = Path(sys.argv[1]) if sys.argv[1:] else REPOSITORY
    report, left = Report("steps"), reasons()
    print(f"steps: {left.total()} have a reason")
    texts = {
        path: re.sub(
            r"//.*|^\s*(requires|ensures|ghost|#)\b.*", "", path.read_text("utf-8"), flags=re.M
        )
        for names in READ
        for path in sorted(top.glob(f"crates/{names}.rt"))
    }
    twins = set(re.findall(r"\bfn (\w+)_in_steps\b", "".join(texts.values())))
    for path, text in texts.items():
        name = str(path.relative_to(top / "crates"))
        for use, is_counted in uses(text, twins):
            if not is_counted:
                is_counted = left[name, use] > 0
                left[name, use] -= 1
            problems = [] if is_counted else ["it has no tick, and no reason"]
            report.judge(" ".join([name, *use]), problems)
    for (name, use), often in left.items():
        if often > 0:
            report.note(f"{name} {' '.join(use)}: it needs no line in steps.txt")
    report.finish("{tried} loops and filling calls, {wrong} wrong")


if __name__ == "__main__":
    main()
