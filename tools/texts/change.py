#!/usr/bin/env python3
"""Makes the change that CONTRIBUTING shows step by step, in a copy of the repository, by the
commands as they are written there: change.py

What `draw` prints after it is that of the program that the kit builds unproved, once, in a minute
or more; nothing is proved: `rt` is a stand-in, which says what it was called for.
"""

import os
import re
import shutil
import subprocess
import sys
from pathlib import Path

sys.path.insert(0, str(Path(__file__).resolve().parents[1]))

import harness  # noqa: E402

# The kit's own `rt` builds what isn't proved. The stand-in has that program in the place of the
# proved one.
STAND_IN = """#!/bin/sh
case $1 in
doc | try | version) exec {rt} "$@" ;;
esac
[ "$1" = lib ] || echo "rt $* in $(basename "$PWD")" >>{calls}
[ "$1" != run ] || {{ mkdir -p out && cp ../../out/unproved/exchange out; }}
"""

CALLS = ["rt check in refusal_notes", "rt fmt in refusal_notes", "rt run -- --version in exchange"]

CHANGED = [
    "crates/refusal_notes/src/sentences.rt",
    "rows/draw.rows",
    "rows/notes.rows",
    "tools/hostile/notes.py",
]


def shown():
    """The commands of the change, and what the commit is called."""
    text = (harness.REPOSITORY / "CONTRIBUTING.md").read_text(encoding="utf-8")
    block = text.partition("\n## A change, step by step\n")[2].partition("\n\n1. ")[0]
    lines = [line[4:] for line in block.splitlines() if line.startswith("    ")]
    return lines, re.findall(r'git commit -am "(.*)"', block)


def git(folder, *words, **settings):
    return subprocess.run(
        ["git", *words], cwd=folder, stdout=subprocess.PIPE, text=True, check=True, **settings
    ).stdout


def main():
    report = harness.Report("change")
    with harness.room("change") as room:
        copy, calls, tools = room / "copy", room / "calls", room / "bin"
        git(room, "clone", "-q", harness.REPOSITORY, copy)
        edits = git(harness.REPOSITORY, "diff", "--binary", "HEAD")
        git(copy, "apply", "--allow-empty", input=edits)
        who = {f"GIT_{it}": "change" for it in ("AUTHOR_NAME", "COMMITTER_NAME", "AUTHOR_EMAIL",
            "COMMITTER_EMAIL")}  # fmt: skip
        env = {**os.environ, **who, "PATH": f"{tools}:{os.environ['PATH']}"}
        env.pop("EXCHANGE", None)
        git(copy, "commit", "-q", "--allow-empty", "-am", "before", env=env)
        tools.mkdir()
        (tools / "rt").write_text(STAND_IN.format(rt=shutil.which("rt"), calls=calls))
        (tools / "rt").chmod(0o755)
        lines, names = shown()
        ran = subprocess.run(
            ["bash", "-c", "\n".join(lines)],
            cwd=copy, env=env, text=True, stdin=subprocess.DEVNULL, stdout=subprocess.PIPE,
            stderr=subprocess.STDOUT, check=False,
        )  # fmt: skip
        report.check("the last command's status", ran.returncode, 0)
        said = [line for line in ran.stdout.splitlines() if "the second at least" in line]
        report.check("what draw says then", [line[:9] for line in said][:1], ["exchange:"])
        report.check("the rows", re.findall(r"rows: \d\d+ tried, (\d+) wrong", ran.stdout), ["0"])
        report.check("what rt did", calls.read_text().splitlines(), CALLS)
        committed = git(copy, "show", "--name-only", "--format=%s").split("\n\n")
        report.check("the commit", [it.split("\n") for it in committed], [names, [*CHANGED, ""]])
        if report.wrong:
            print(ran.stdout)
    report.finish()


if __name__ == "__main__":
    main()
