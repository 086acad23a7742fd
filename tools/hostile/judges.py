#!/usr/bin/env python3
"""What judges the program is handed wrong things: judges.py

Each judge of the plain implementation, of rows, of documents, of tables, of `rt ci` and of how much
was tried, the scripts of examples that add up prices and make patterns, and the head of the test
command take what is right, and deny each of the wrong things beside it. Tools that need no program
are run in a copy of the repository in which one text is wrong, and some others with a program that
answers wrongly.
"""

import contextlib
import functools
import io
import os
import random
import re
import shutil
import subprocess
import sys
import tempfile
from pathlib import Path
from runpy import run_path
from types import SimpleNamespace

import clients
import growths
import notes
import orders
import plain
import sessions
import steady
import streams
import switching
import texts as spoilt
from program import EXCHANGE, TOP, Ended

sys.path += [f"{TOP}/{folder}" for folder in ("examples", "tools/c", "tools/hosts", "tools/rack")]
import calls
import check_prices
import flips
import moments
import states
import tables

sys.path.insert(0, f"{TOP}/tools/rows")
import harness
import reading
from harness import Report

JUDGES = ("least", "python/run", "rows/run", "said", "texts/run")
least, python, rows, said, texts = (
    SimpleNamespace(**run_path(f"{TOP}/tools/{name}.py")) for name in JUDGES
)

THREE = b"batch 3\npush 0 0 1 0\npush 0 1 2 0\npush 1 1 2 1\n"
PLAN = b"settings 2\nsetting 0 2\nsetting 1\nbusiest link 0 module 0\nnamed 0 1\n"
BYTES = b"setting 0 04 01 00 11 01 01 12 03\nsetting 1 06 00 11 06 01 12 01 00 12 03\n"
SWAP, SWAPPED = b"batch 2\npush 0 0 1 0\npush 1 0 0 0\n", b"settings 1\nsetting 0 1\n"
OBEY = (
    b"modules 2 settings 1\nmodule 0 copies 1 orders 2\ncopy block 0\n"
    b"setting 0 link 0 send copy 0\nsetting 0 link 3 receive block 0\n"
    b"module 1 copies 1 orders 2\ncopy block 0\nsetting 0 link 0 send copy 0\n"
    b"setting 0 link 3 receive block 0\n"
)
MOVES = b"moves 2\nmove 0 0 1 0\nmove 0 1 1 1\n"
# Two blocks to each of two modules. A steady plan changes the switch twice,
# and the other one four times.
PAIRS = b"batch 4\npush 0 0 1 0\npush 0 1 1 1\npush 0 2 2 0\npush 0 3 2 1\n"
STEADY = (
    b"settings 4\nsetting 0\nsetting 1\nsetting 2\nsetting 3\nbusiest link 0 module 0\n"
    b"named 0 1 2 3\n"
)
# As in docs/GUIDE.md: lengths of a link's steps with each partner are 2 and 2, or 1 and 3.
UNEVEN = ["batch 8"] + [
    f"push {m} {b} {n} {b}"
    for m, ends in ((0, (1, 1, 2, 2)), (3, (4, 5, 5, 5)))
    for b, n in enumerate(ends)
]
# This changes the switch four times, and equal prices show that three are needed.
OFTEN = [[0, 5], [2, 4], [1, 6], [3, 7]]
# Module 0 has a transfer in each of two settings, module 2 one, so that its link 0 is idle once.
IDLE = ["batch 3", "push 0 0 1 0", "push 0 1 1 1", "push 2 0 3 0"]

# What planning says where instructions can't be counted.
LACKS, PLANNED = (
    "planning: valgrind is missing, so no instructions were counted\n" + "steps, at most\n" * 24
    + "steps: 48 figures compared\n",
    "planning: 32 batches planned, 80 figures judged\n",
)

# What comes of a line of a row, on both streams.
ROW = "row a\n$ b\nstatus 1\nout\n    refused b\nerr\n    c\n"
PAGE = "# A page\n[a](#a-page) [`one`](code.rt#L2)\n```console\n$ echo a; echo b\na\n...\n```\n"
LINE, ABC = b"refused a\n", b"exchange: b c\n"
MISSING = b"exchange: schedule: transfer 1 occurs in no setting (line 3 of batch)\n"

# A script, what its session is told, and a record of it beside a run of another.
SCRIPT, TOLD = (
    b"poke 0 80000800 00000001\nprogress\nprogress\npeek 0 80000800\nbye\n",
    "poked, progress run 0 done 0, progress run 1 done 1, word 00000001, bye",
)
RAN = [
    (0, "poke 0 80000800 00000001\n", "poked"),
    (1, "run 1\n", "ran 1 run 1 settings 1 words 1 bits 117"),
    (0, "peek 0 80000800\n", "word 00000001"),
]
# The first of two sessions has no memory for its batch.
SHORT = b"session 0\nrefused no memory\nrefused unknown\nsession 1\nbye\n"
CALL, PLAIN = growths.judge_of_call("a"), growths.judge_of_command(["plan"], Ended(LINE, ABC, 1))


# Orders of one module, and bytes of a switch, and their tables.
# A sum has a place of 31 for each number.
ORDERS = (
    "modules 1 settings 1\nmodule 0 copies 1 orders 2\ncopy block 0\nsetting 0 link 0 send copy 0\n"
    "setting 0 link 3 receive block 0\n"
)
IN_C = (
    "/* the orders of module 0 */\nenum { COPIES = 1, SETTINGS = 1, SUM = 23397 };\n"
    "static const unsigned char copies[] = {0};\n"
    "static const struct order orders[][2] = {\n    {{SEND_COPY, 0}, {RECEIVE, 0}},\n};\n"
)
IN_OCCAM = (
    "-- the orders of module 0\nVAL INT16 sum IS 23397 (INT16):\nVAL INT n.copies IS 1:\n"
    "VAL []BYTE copies IS [0 (BYTE)]:\n"
    "VAL INT n.settings IS 1:\nVAL [][2][2]BYTE orders IS\n"
    "  [[[send.copy, 0 (BYTE)], [receive, 0 (BYTE)]]]:\n"
)
SET = "setting 0 04 03\nsetting 1 03\n"
SET_IN_C = (
    "enum { SETTINGS = 2, SUM = 32323 };\nstatic const unsigned long ends[] = {2, 3};\n"
    "static const unsigned char bytes[] = {4, 3, 3};\n"
)
SET_IN_OCCAM = (
    "VAL INT16 sum IS 32323 (INT16):\nVAL INT n.settings IS 2:\nVAL []INT ends IS [2, 3]:\n"
    "VAL []BYTE bytes IS [#04 (BYTE), #03 (BYTE), #03 (BYTE)]:\n"
)


def priced(first, *lines):
    """What `draw --prices` prints: its first line,
    and of each length the price of links 0 of some modules."""
    return [first] + [
        f"prices {' '.join(str(line.get(link, 0)) for link in range(64))}" for line in lines
    ]


def are_right(batch, settings, prices):
    """Whether the script takes these prices."""
    schedule = [f"settings {settings}"] + ["setting"] * settings
    try:
        check_prices.judged(*([line.split() for line in it] for it in (batch, schedule, prices)))
    except SystemExit as why:
        return not why.code
    return True


# Prices of steps of one setting and of two. They show as much as equal ones of all links in use.
ONE, TWO = {0: 21845, 3: 43690}, {0: 43690, 3: 21845}
UNEQUAL = priced("settings 4 shown 3", ONE, TWO)
ONCE = priced("settings 2 shown 2", {2: 65536}, {})


def is_bound(settings, bound):
    """Whether the title of a picture may say this of the changes of a schedule."""
    transfers = plain.read_batch("".join(f"{line}\n" for line in UNEVEN).encode(), plain.WIDEST)
    return steady.bound_words(transfers, settings, f"<title>a plan, {bound}".encode()) == bound


def is_obeyed(batch, schedule, answer):
    """Whether modules move the blocks by these orders. They can't read some of them."""
    try:
        return orders.is_obeyed(random.Random("judges"), batch, schedule, answer)
    except KeyError:
        return False


def is_row(out, err, told=b"", status=1):
    """Whether a row takes what came of a line, by a section of each form,
    or by what the line itself tells."""
    says = [
        ("out", b"refused a\n"),
        ("err begins", b"exchange: "),
        ("err has", b"b"),
        ("err ends", b"c\n"),
    ]
    row = reading.Row("judges", "judges", status=1)
    row.wanted = [] if told else [reading.Section(head.split(), text) for head, text in says]
    return not rows.judge(row, told, rows.Ended(out, err, status, None))


def is_read(text):
    """Whether a file of rows with this text is written as it is to be."""
    with tempfile.NamedTemporaryFile("w") as file:
        file.write(text)
        file.flush()
        try:
            return len(reading.read_rows(Path(file.name), "judges")) == 1
        except reading.Unreadable:
            return False


def is_run(*lines):
    """Whether a row takes what comes of these lines. It has two pipes, which are read in their
    order, and an input that nobody may read."""
    pipes = [reading.Section(["pipe", name], text) for name, text in (("a", b"1"), ("b", b"2"))]
    wanted = [reading.Section(["out", "begins"], b"12")]
    row = reading.Row("judges", "judges", [*lines], [b""] * len(lines), pipes, wanted)
    return rows.faults_of(row, Path(TOP)) == []


def is_told(told, script=SCRIPT):
    """Whether a session of a script may be told this beside that record."""
    try:
        clients.Part(clients.History(RAN), 0, (2, 1, 1), script, told.split(", ")).judge()
    except harness.Wrong:
        return False
    return True


def is_ended(told, status):
    """Whether clients that were told this may leave this status: then a record is looked for,
    which isn't there."""
    try:
        clients.judge_round((2, 1, 1), [], {0: told}, status, "/none")
    except harness.Wrong:
        return False
    except FileNotFoundError:
        return True


def is_grown(judge, out, err, status, refused=1):
    """Whether a run may end so in which so many growths were refused."""
    return not judge(Ended(out, err, status), refused).startswith("WRONG")


def is_left(text, scripts=(b"batch 1\npush 0 0 1 0\nplan 1\n", b"bye\n")):
    """Whether sessions of these scripts may be told this where some growths are refused."""
    return sessions.told_without_memory(b"2x1x1", scripts, text) is not None


def is_well_by(tool, call, *given):
    """Whether a call of a tool compares something, and has nothing to say."""
    tool["REPORT"] = report = Report("judges", is_silent=True)
    call(*given)
    return report.tried > 0 and not report.wrong


def is_expected(ended, wanted):
    """Whether a stream may end so."""
    return is_well_by(vars(streams), streams.expect, "judges", ended, wanted)


def is_tried(well):
    """Whether a spoilt text is well."""
    spoilt.KINDS["judges"] = lambda _: (well, b"a", [], b"b")
    return not spoilt.try_some(("judges", [0]))[2].wrong


def is_table(text, *changes):
    """Whether tables are read as those of ORDERS or of SET with some texts
    in the place of others."""
    for it in changes:
        text = text.replace(*it)
    told, table_of = (ORDERS, tables.orders) if "orders" in text else (SET, tables.switch)
    try:
        return table_of("occam" if "VAL" in text else "c", text) == told
    except (AssertionError, AttributeError):
        return False


def is_well(*things):
    """Whether a case of tools/hosts or tools/ends is well that looks at these things."""
    report = harness.Report("judges")
    with contextlib.redirect_stdout(io.StringIO()):
        harness.run_cases(report, [lambda: iter(things)], harness.Processes())
    return not report.wrong


def is_told_well(text, told=None):
    """Whether this may be told of line 2 of a batch, and it helps to do so. Where nothing is said
    it is what belongs there."""
    asked, line = notes.Asked("batch", ("batch", text)), b"refused batch line 2\n"
    answer = spoilt.Answer(
        line, notes.told(asked, line) if told is None else told, 1, "", False, {}
    )
    return spoilt.is_well_told(answer, asked, line, lambda _: line)


def is_printed(script):
    """Whether a program may do this that is to print `a`."""
    call = python.expect_run
    return is_well_by(call.__globals__, call, "judges", "a\n", "sh", "-c", script)


def is_handed(*left):
    """Whether the module for Python and plain Python may leave these of one stream."""

    def refuse(*_):
        raise ValueError("no C004 has this state")

    sys.modules["exchange"] = SimpleNamespace(C004=refuse, LinkEnd=refuse)
    tool = python.try_states.__globals__
    tool["hand"] = lambda number: [left, left]
    return is_well_by(tool, python.try_states, 1)


def is_called(answer, why):
    """Whether a call of a library may answer and tell this where a schedule lacks transfer 1."""
    made = SimpleNamespace(ask=lambda *_: answer, why=lambda *_: why)
    report = Report("judges", is_silent=True)
    with harness.room("judges", enter=True):
        calls.compare(report, made, "check", [THREE, PLAN.replace(b"setting 1", b"setting")])
    return report.tried == 1 and not report.wrong


def put(top, files):
    """Puts texts into the files of a folder."""
    for name, text in files.items():
        (top / name).parent.mkdir(parents=True, exist_ok=True)
        (top / name).write_text(text, encoding="utf-8")


def is_well_in(files, try_it, *given):
    """Whether the tool of documents has nothing to say of a repository of these files."""
    report = Report("judges", is_silent=True)
    with harness.room("judges") as top:
        put(top, files)
        (top / "tools/test.sh").chmod(0o755) if "tools/test.sh" in files else None
        texts.main.__globals__.update(REPOSITORY=top, CRATES=top / "crates")
        texts.parts.cache_clear()
        texts.code_of.cache_clear()
        try_it(report, *given)
    return report.tried > 0 and not report.wrong


def is_page(text):
    """Whether a document is right that has two links and one command, beside source code."""
    files = {"page.md": text, "code.rt": "// one\nfn one()\n"}
    return all(is_well_in(files, it, "page.md") for it in (texts.try_links, texts.try_document))


def is_comment(words):
    """Whether a crate may have this comment, beside code of its own and of another crate."""
    files = {
        "crates/one/src/lib.rt": f"//! {words}\nuse other::Thing;\npub enum One {{\n    Two,\n}}",
        "crates/other/src/lib.rt": "pub struct Thing;\nimpl Thing {\n    pub fn make() {}\n}\n",
    }
    return is_well_in(files, texts.try_comments, "one")


def is_named(name=None, old=None, new=None):
    """Whether all files name one test command, where one of them has another text."""
    files = {it: Path(TOP, it).read_text("utf-8") for it in ("tools/test.sh", *texts.TESTS)}
    if name:
        assert old in files[name]
        files[name] = files[name].replace(old, new)
    return is_well_in(files, texts.try_test_commands)


def is_helped(example):
    """Whether a command's help may begin with this example."""
    program = f"#!/bin/sh\n[ ! $2 ] || printf 'Example:\\n  {example}\\n\\nUsage\\n'\n"
    with harness.room("judges") as room:
        put(room, {"program": program})
        (room / "program").chmod(0o755)
        texts.main.__globals__["PROGRAM"] = room / "program"
        return all(found == wanted for found, wanted in texts.examples_of_help("plan"))


@functools.cache
def copied():
    """A copy of the repository, as git tracks it, with what was edited since."""
    copy = tempfile.TemporaryDirectory(prefix="judges-")
    listed = subprocess.run(["git", "-C", TOP, "ls-files", "-z"], stdout=subprocess.PIPE).stdout
    for name in os.fsdecode(listed).split("\0")[:-1]:
        os.makedirs(os.path.dirname(f"{copy.name}/{name}"), exist_ok=True)
        shutil.copy(f"{TOP}/{name}", f"{copy.name}/{name}", follow_symlinks=False)
    for words in ["init", "-q"], ["add", "-A"]:
        subprocess.run(["git", "-C", copy.name, *words], check=True)
    return copy


def is_right(tool, name=None, pattern="", new=""):
    """Whether a tool that needs no program ends well in a copy of the repository, in which another
    text is in the place of the first that has this pattern."""
    copy = Path(copied().name)
    before = (copy / name).read_text(encoding="utf-8") if name else ""
    if name:
        after, count = re.subn(pattern, new, before, count=1)
        assert count == 1 and after != before, f"{name} has no {pattern}"
        (copy / name).write_text(after, encoding="utf-8")
    run = subprocess.run(
        [copy / tool], stdout=subprocess.DEVNULL, stderr=subprocess.STDOUT,
        env={**os.environ, "EXCHANGE": EXCHANGE},
    )  # fmt: skip
    if name:
        (copy / name).write_text(before, encoding="utf-8")
    return run.returncode == 0


def is_by(tool, first="exec"):
    """Whether a tool ends well with a program that does this first of all."""
    with harness.room("judges") as room:
        put(room, {"exchange": f'#!/bin/sh\n{first} "{EXCHANGE}" "$@"\n'})
        (room / "exchange").chmod(0o755)
        run = subprocess.run(
            [sys.executable, *f"{TOP}/{tool}".split()], stdout=subprocess.DEVNULL,
            stderr=subprocess.STDOUT, env={**os.environ, "EXCHANGE": room / "exchange"},
        )  # fmt: skip
    return run.returncode == 0


def is_resumed(told, left=b"text"):
    """Whether `replay` may print this of a spoilt record, and a session leave its file so."""
    report = Report("judges", is_silent=True)
    flips.ask = lambda *words: Ended(*told) if words[0] == "replay" else Ended(b"", b"", 0)
    with harness.room("judges", enter=True):
        flips.try_record(report, "it", b"text", (b"image", b"line", 0), left, [], "both")
    return report.tried == 2 and not report.wrong


def is_replayed(image, status=0):
    """Whether `replay` may print these words of a record, and have this status."""
    moments.ask = lambda *_: (image, b"", status)
    record = SimpleNamespace(exchange=SimpleNamespace(image=lambda: b"words"))
    try:
        moments.judge_replay("/none", record)
    except harness.Wrong:
        return False
    return True


def is_state(found, wanted, answers=b"\0"):
    """Whether a call over states may give this, or `c004` these answers to an enquiry."""
    states.Calls = lambda _: SimpleNamespace(end=lambda: True)
    states.stream_to_switch = lambda *_: (b"\2\0", [found, answers], [wanted, answers])
    states.stream_to_switch.__name__ = "stream"
    states.KINDS = [states.stream_to_switch]
    return not states.try_some("", 0, 1).wrong


# A program that prints a line more where it replays a record.
MORE = '[ "$1" != replay ] || echo; exec'


def is_enough(text, tool="tools/rows/run.py"):
    """Whether a tool that says this has tried enough, and found nothing wrong."""
    with contextlib.redirect_stdout(io.StringIO()):
        return not least.faults(tool, text)


def is_said(waits, threads, *lines):
    """Whether crates.txt says what `rt ci` does of a crate that waits so often,
    and whose tests do so much."""
    own = (
        [f"logic=proved may-wait={waits}", "== a: its tests", f"logic=proved main=Abort+{threads}"]
        if waits
        else []
    )
    return not [
        *said.faults(["== a", *own, *lines], {"a": {"may_wait": "1", "tests_may": "Wait+Threads"}})
    ]


def is_made(name):
    """Whether the files of patterns are as they are made,
    where one of the examples has a line more."""
    with tempfile.TemporaryDirectory() as room:
        shutil.copytree(f"{TOP}/examples", f"{room}/examples")
        os.symlink(EXCHANGE, f"{room}/exchange")
        with open(f"{room}/examples/{name}", "a") as file:
            file.write("" if name == "ring.txt" else "\n")
        return (
            subprocess.run(
                [f"{room}/examples/patterns/make.sh", "--check"], capture_output=True
            ).returncode
            == 0
        )


def is_tested(script, fails="", crates="a: std\n"):
    """Whether a script of the test command ends well where one thing that it calls fails. One that
    it doesn't call stands in least.txt alone."""
    with tempfile.TemporaryDirectory() as room:
        with open(f"{TOP}/tools/{script}") as file:
            called = {
                *re.findall(r"(?m)^(?:try )?((?:tools|bench|examples)/\S+)", file.read()),
                "rt",
                "exchange",
                "tools/least.py",
            }
        for name in called:
            os.makedirs(os.path.dirname(f"{room}/{name}"), exist_ok=True)
            with open(f"{room}/{name}", "w") as file:
                file.write(f"#!/bin/sh\nexit {int(name == fails)}\n")
            os.chmod(f"{room}/{name}", 0o755)
        shutil.copy(f"{TOP}/tools/{script}", f"{room}/tools")
        for name, text in (
            ("crates.txt", crates),
            ("tools/least.txt", f"{fails} 1 it\n" if fails and fails not in called else ""),
        ):
            with open(f"{room}/{name}", "w") as file:
                file.write(text)
        env = {**os.environ, "PATH": f"{room}:{os.environ['PATH']}"}
        return (
            subprocess.run([f"{room}/tools/{script}"], capture_output=True, env=env).returncode == 0
        )


# Each judge, what it takes, and what stands in the place of that in turn.
CASES = [
    (
        plain.is_plan,
        (THREE, PLAN),
        [
            (THREE, PLAN.replace(b"setting 0 2\nsetting 1\n", b"setting 0 1\nsetting 2\n")),
            (THREE, PLAN.replace(b"setting 0 2", b"setting 2 0")),
            *[
                (THREE, PLAN.replace(b"setting 0 2\nsetting 1\n", b"setting 1\nsetting %s\n" % it))
                for it in (b"0 2", b"2 0")
            ],
            (THREE, PLAN.replace(b"setting 0 2", b"setting 0")),
            (
                THREE,
                PLAN.replace(b"settings 2", b"settings 3").replace(b"busiest", b"setting\nbusiest"),
            ),
            (
                THREE,
                PLAN.replace(b"link 0 module 0", b"link 3 module 2").replace(
                    b"named 0 1", b"named 1 2"
                ),
            ),
            (THREE, PLAN.replace(b"named 0 1", b"named 0")),
            (THREE, b"settings 2\nsetting 0 2\nsetting 1\n"),
            (THREE, PLAN + b"\n"),
            (THREE, b""),
        ],
    ),
    (
        steady.is_steady,
        (PAIRS, STEADY),
        [
            (PAIRS, STEADY.replace(b"setting 1\nsetting 2\n", b"setting 2\nsetting 1\n")),
            (PAIRS, STEADY.replace(b"setting 3\n", b"")),
            (PAIRS, STEADY.replace(b"module 0", b"module 1")),
            (PAIRS, b""),
        ],
    ),
    (
        is_bound,
        (OFTEN, "changes 4, at least 3"),
        [
            (OFTEN, "changes 4, at least 2"),
            (OFTEN, "changes 4, at least 5"),
            (OFTEN, "changes 3, at least 3"),
            ([*OFTEN, []], "changes 5, at least 3"),
            (OFTEN, "changes 4, the fewest"),
        ],
    ),
    (
        switching.is_switched,
        (THREE, PLAN, BYTES),
        [
            (THREE, PLAN, BYTES.replace(b" 03\n", b"\n")),
            (THREE, PLAN, BYTES.replace(b"06 00 11 ", b"")),
            (THREE, PLAN, BYTES.replace(b"00 12", b"00 13")),
            (THREE, PLAN, BYTES[: BYTES.index(b"setting 1")]),
            (THREE, PLAN, BYTES + b"setting 2 03\n"),
            (THREE, PLAN, b""),
        ],
    ),
    (
        is_obeyed,
        (SWAP, SWAPPED, OBEY),
        [
            (
                SWAP,
                SWAPPED,
                OBEY.replace(b"copy block 0\n", b"").replace(b"send copy", b"send block"),
            ),
            (SWAP, SWAPPED, OBEY.replace(b"link 3 receive block 0", b"link 3 receive block 1", 1)),
            (SWAP, SWAPPED, OBEY.replace(b"setting 0 link 3 receive block 0\n", b"", 1)),
            (SWAP, SWAPPED, b""),
        ],
    ),
    (
        plain.is_directed,
        (MOVES, b"batch 2\npush 0 0 1 0\npull 1 1 0 1\n"),
        [
            (MOVES, b"batch 2\npush 0 0 1 0\npush 0 1 1 1\n"),
            (MOVES, b"batch 2\npull 1 1 0 1\npush 0 0 1 0\n"),
            (MOVES, b"batch 1\npush 0 0 1 0\n"),
            (MOVES, b"batch 2\npush 0 0 1 0\npull 1 1 0 0\n"),
            (MOVES, b""),
        ],
    ),
    (
        are_right,
        (UNEVEN, 4, UNEQUAL),
        [
            (UNEVEN, 4, priced("settings 4 shown 4", ONE, TWO)),
            (UNEVEN, 4, priced("settings 5 shown 3", ONE, TWO)),
            (UNEVEN, 4, priced("settings 4 shown 3", ONE | {63: 2}, TWO)),
            (UNEVEN, 4, priced("settings 4 shown 3", ONE, TWO | {63: -1, 62: 1})),
            (UNEVEN, 4, priced("settings 4 shown 3", ONE)),
            (UNEVEN, 4, [*UNEQUAL[:2], UNEQUAL[2] + " 0"]),
            (UNEVEN, 4, [*UNEQUAL[:2], UNEQUAL[2][:-2]]),
            (UNEVEN, 4, UNEQUAL[:1]),
            (UNEVEN, 5, priced("settings 5 shown 3", ONE, TWO)),
        ],
    ),
    (
        are_right,
        (UNEVEN, 5, priced("settings 5 shown 0")),
        [(UNEVEN, 5, priced("settings 5 shown 1"))],
    ),
    (
        is_row,
        (LINE, ABC),
        [
            (b"refused b\n", ABC),
            (b"", ABC),
            (LINE * 2, ABC),
            (LINE, b""),
            (LINE, b"change: b c\n"),
            (LINE, b"exchange: c\n"),
            (LINE, b"exchange: b\n"),
            (LINE, ABC, b"", 0),
        ],
    ),
    (is_row, (b"", ABC, ABC), [(b"", b"", ABC), (LINE, ABC, ABC), (b"", ABC * 2, ABC)]),
    (
        is_read,
        (ROW,),
        [
            (ROW + "word\n",),
            (ROW.replace("d b", "d \\b"),),
            (ROW * 2,),
            (ROW.replace("$", "#"),),
            ("row a\n$ b\n",),
            (ROW.partition("err")[0],),
        ],
    ),
    (
        is_run,
        ("cat a b", "cat a b"),
        [
            ("cat b a",),
            ("cat a; printf 2",),
            ("cat a b -",),
            ("cat a b", "cat a b; printf 3"),
            ("cat a b; exit 1",),
            ("cat a b; echo 3 >&2",),
        ],
    ),
    (
        is_told,
        (TOLD,),
        [
            (TOLD.replace(*it),)
            for it in [
                ("run 1 done", "run 1 gone"),
                ("run 1", "run 2"),
                ("0 done 0, progress run 1 done 1", "1 done 1, progress run 0 done 0"),
                ("01", "02"),
                ("bye", "bye, ended cut"),
            ]
        ]
        + [
            (TOLD, SCRIPT.replace(b"01", b"02")),
            (TOLD.replace("word 00000001, ", ""), SCRIPT.replace(b"peek 0 80000800\n", b"")),
        ],
    ),
    (is_expected, (LINE, LINE), [(LINE, ABC), (LINE, lambda it: it == ABC)]),
    (is_tried, (True,), [(False,)]),
    (is_ended, (["ended cut"], 1), [(["ended cut"], 0), (["poked"], 1)]),
    (
        is_left,
        (SHORT,),
        [
            (SHORT.replace(*it),)
            for it in [
                (b"0\n", b"2\n"),
                (b"1\n", b"2\n"),
                (b"bye\n", b"bye\nbye\n"),
                (b"unknown", b"unplanned"),
                (b"refused unknown\n", b""),
                (b"bye\n", b""),
            ]
        ]
        + [(b"session 0\nrefused no memory\n", [b"hello\n"])],
    ),
    (
        is_grown,
        (CALL, b"a: no memory\n", b"", 0),
        [
            (CALL, b"a: no memory\n", b"", 0, 0),
            (CALL, b"a: row\n", b"", 1),
            (CALL, b"b: row\n", b"", 0),
        ],
    ),
    (
        is_grown,
        (PLAIN, LINE, b"", 1),
        [
            (PLAIN, LINE, b"", 1, 0),
            (PLAIN, LINE, b"exchange: c\n", 1),
            (PLAIN, LINE, b"", 0),
            (PLAIN, b"refused no memory\n", b"", 3),
        ],
    ),
    (is_well, ((1, 1), (2, 2)), [((1, 2),), ((1, 1), (1, 2)), ((1, 2), (1, 1)), ()]),
    (
        is_told_well,
        (b"batch 1\npush 0 0 1\n",),
        [(b"batch 1\npush 0 0 1\n", b""), (b"batch 1\npush 0 0 0 0\n",)],
    ),
    (is_printed, ("echo a",), [("echo b",), ("echo a; exit 1",), ("echo a; echo b >&2",)]),
    (is_handed, (1, 1), [(1, 2)]),
    (is_made, ("ring.txt",), [("all-to-all.txt",), ("patterns/halo.svg",)]),
    (
        is_tested,
        ("test.sh",),
        [("test.sh", it) for it in ("rt", "tools/said.py", "tools/try_programs.sh")],
    ),
    (
        is_tested,
        ("try_programs.sh",),
        [
            *[
                ("try_programs.sh", it)
                for it in (
                    "exchange",
                    "tools/edits.py",
                    "tools/rack/run.py",
                    "tools/hostile/run.sh",
                    "tools/none.py",
                )
            ],
            ("try_programs.sh", "", "a: std os\n"),
        ],
    ),
    (
        is_called,
        ((1, b"refused check missing 1\n"), (0, MISSING)),
        [
            ((0, b"refused check missing 1\n"), (0, MISSING)),
            ((1, b"refused check missing 2\n"), (0, MISSING)),
            ((1, b"refused check missing 1\n"), (1, MISSING)),
            ((1, b"refused check missing 1\n"), (0, b"")),
        ],
    ),
    (
        is_page,
        (PAGE,),
        [
            (PAGE.replace(*it),)
            for it in [
                ("#a-page", "#page"),
                ("](code", "](../../code"),
                ("#L2", "#L1"),
                ("`one`", "`on`"),
                ("#L2", "#M2"),
                ("\na\n", "\nb\n"),
                ("console", "file x"),
            ]
        ],
    ),
    *[
        (is_comment, (right,), [(it,) for it in others])
        for right, *others in (
            ("[`One`]", "[`Two`]", "[`one`]", "[`one`](crate::Two)", "One"),
            ("[`One::Two`]", "[`One::Three`]", "[`Thing::Two`]", "[`Other::Two`]"),
            ("[`make`](other::Thing::make)", "[`make`](other::make)", "[`make`]"),
            ("`src/lib.rt` of `other`", "`src/main.rt` of `other`", "`src/lib.rt` of `none`"),
        )
    ],
    (
        is_named,
        (),
        [
            *[(name, "tools/test.sh", "tools/try.sh") for name in texts.TESTS],
            ("README.md", "runs all tests", "runs tests"),
        ],
    ),
    (
        texts.fits,
        (["a", "...", "b"], ["a", "c", "b"]),
        [
            (["a", "...", "b"], ["a", "c"]),
            (["a", "...", "b"], ["c", "b"]),
            (["a"], ["b"]),
            (["a"], ["a", "b"]),
            (["a", "b"], ["a"]),
            ([], ["a"]),
            (["a"], []),
        ],
    ),
    (
        is_enough,
        ("rows: 9 tried, 0 wrong\nrows: 5000 tried, 0 wrong\n",),
        [
            ("rows: 900 tried, 0 wrong\n",),
            ("5000\n",),
            ("rows: 5000 tried\nWRONG\n",),
            ("", "tools/none.py"),
        ],
    ),
    (
        is_enough,
        (LACKS + PLANNED, "bench/planning/run.sh"),
        [(LACKS, "bench/planning/run.sh"), (PLANNED, "bench/planning/run.sh")],
    ),
    (
        is_said,
        (1, "Threads+Wait"),
        [
            (2, "Threads+Wait"),
            (1, "Wait"),
            (0, ""),
            (0, "", "== a: its tests", "logic=proved main=Abort+Threads+Wait"),
            (1, "Threads+Wait", "BAD EDIT a"),
            (1, "Threads+Wait", "only by a limit"),
        ],
    ),
    *[
        (is_right, (tool,), [(tool, *it) for it in others])
        for tool, *others in (
            (
                "tools/edits.py",
                ("crates/crossbar/must-fail/apply_half_join.edit", "(?m)^old: ", "old: not "),
                (
                    "crates/crossbar/must-fail/apply_half_join.edit",
                    "(?m)^old: (.*)\nnew: .*", r"old: \1\nnew: \1",
                ),
            ),
            (
                "tools/steps.py",
                ("crates/euler_split/src/halving.rt", r"steps\.tick\(\);", ""),
                ("tools/steps.txt", r"(?m)^(\w[^:]*): ", r"\1*9: "),
            ),
            (
                "tools/texts/names.py",
                ("crates/crossbar/specs/Lib.antt", r"\Z", "\nabbrev pub IsSpellable = 1\n"),
            ),
            ("tools/texts/widths.py", ("README.md", r"\Z", "wide" * 26 + "\n")),
            (
                "tools/texts/promises.py",
                ("docs/PROMISES.md", r"```antt\n", "```antt\nabbrev pub No = 1\n"),
                ("docs/PROMISES.md", r"\((\d+) lines\)", r"(\g<1>0 lines)"),
                ("docs/PROMISES.md", r"rest on (\S+) lines", r"rest on 1\1 lines"),
                ("crates/link_graph/src/laws.rt", r"\Z", "\npub fn nobody_names_it() {}\n"),
            ),
            (
                "tools/c/defines.py",
                ("include/exchange.h", r"(?m)^(#define EXCHANGE_\w+) (\d+)$", r"\1 9\2"),
                ("include/exchange.h", r"at most (\d+) bytes", r"at most \g<1>0 bytes"),
                ("include/exchange.h", r"uint8_t (exchange_\w+\()", r"void \1"),
                ("python/exchange/__init__.py", r'(_NUMBERS = \{\s*"\w+": )', r"\g<1>9"),
                ("tools/c/calls.py", r'"plan": 0', '"plan": 10'),
                ("tools/c/states.py", r"0, 1, 4, 5,", "0, 1, 5, 4,"),
            ),
            (
                "bench/planning/steps.py",
                ("bench/planning/steps.py", r"32 \* n \* k \+ 11 \* n \+ 4", "n + 0"),
            ),
        )
    ],
    (is_by, ("tools/hostile/clients.py 1",), [("tools/hostile/clients.py 1", MORE)]),
    (
        is_resumed,
        ((b"image", b"line", 0),),
        [
            ((b"other", b"line", 0),),
            ((b"image", b"other", 0),),
            ((b"image", b"line", 1),),
            ((b"image", b"line", 0), b"other"),
        ],
    ),
    (is_replayed, (b"words",), [(b"other",), (b"words", 1)]),
    (is_state, (1, 1), [(1, 2), (1, 1, b"\1"), (1, 1, b"")]),
    (
        is_helped,
        ("./exchange plan",),
        [("./exchange plan; exit 1",), ("exit 0",), ("./exchange",)],
    ),
    (
        is_table,
        (IN_C,),
        [
            (IN_C, *it)
            for it in [
                [("97", "98")],
                [("{0}", "{0, 0}")],
                [("e 0", "e 1")],
                [("},\n}", "},\n\n}")],
                [("23397", "25166"), ("},\n}", "},\n    {{IDLE, 0}, {IDLE, 0}},\n}")],
                [
                    ("23397", "20408"),
                    ("RECEIVE", "SEND"),
                    ("SEND_COPY", "RECEIVE"),
                    ("SEND,", "SEND_COPY,"),
                ],
            ]
        ],
    ),
    (
        is_table,
        (IN_OCCAM,),
        [
            (IN_OCCAM, *it)
            for it in [
                [("97", "98")],
                [("[0", "[0 (BYTE), 0")],
                [("e 0", "e 1")],
                [("]]]", "]] ]")],
                [("23397", "25166"), ("]]]", "]],\n   [[idle, 0 (BYTE)], [idle, 0 (BYTE)]]]")],
                [
                    ("23397", "20408"),
                    ("receive", "send"),
                    ("send.copy", "receive"),
                    ("send,", "send.copy,"),
                ],
            ]
        ],
    ),
    (
        is_table,
        (SET_IN_C,),
        [
            (SET_IN_C, it)
            for it in [("23 }", "24 }"), ("{2, 3", "{2, 3, 3"), ("{4, 3", "{4, 3, 3"), ("{4", "{5")]
        ],
    ),
    (
        is_table,
        (SET_IN_OCCAM,),
        [
            (SET_IN_OCCAM, it)
            for it in [
                ("23 (", "24 ("),
                ("[2, 3", "[2, 3, 3"),
                ("[#04", "[#04 (BYTE), #03"),
                ("#04", "#05"),
            ]
        ],
    ),
    (
        are_right,
        (IDLE, 2, ONCE),
        [
            (IDLE, 2, priced("settings 2 shown 3", {2: 65536}, {})),
            (IDLE, 2, priced("settings 2 shown 2", {2: 32768}, {})),
        ],
    ),
]


def main():
    report = Report("judges")
    for judge, right, others in CASES:
        report.check(f"{judge.__name__} of {right}", bool(judge(*right)), True, "judges")
        for it in others:
            what = f"{judge.__name__} of {it}"
            report.check(what, bool(judge(*it)), False, "wrong things denied")
    report.finish()


if __name__ == "__main__":
    main()
