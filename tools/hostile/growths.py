#!/usr/bin/env python3
"""Each growth of memory refused in turn.

    growths.py REFUSE.SO        the library that refuse.c is built to

Command lines: the Nth growth of a whole run of the program is refused, and then the Nth and all
later ones, for N from 1 until a run meets no refusal. Each time the program prints what it prints
with memory, which the rows hold, or the one line `refused no memory`; a session is told
`refused no memory`, and all else as if that command weren't. The line on standard error beside a
refusal may be left out, or what it says of how many settings are enough. A help may say that the
program is in this folder, where it is called by its name alone. Then each start of a thread is
refused, which changes no answer. Of `host` a session may also end for want of memory, and without
threads nobody is served, and no file is made. A record and an image that are left are those of what
sessions were told, and the record leads to the image; or their files are as they were. A file is
the standard input. Beside command lines stands which calls of the libraries they make.

Forks: 64 workers start as many threads as they fork, which is counted where each start is refused.

Calls: `hostile_use NAME` makes a call that the program doesn't make, or that is handed a rack, on
its worked row, between two marks. The same is done with the growths between them. Each time the
answer is want of memory, with all that was lent as before, or the row's own answer. A call whose
name says that it takes none meets no growth. Nor do the last reading and the closing of an
exchange, which `hostile_use clients` makes.
"""

import multiprocessing
import os
import re
import struct
import sys
from collections import Counter, namedtuple

import plain
import records
import sessions
from program import EXCHANGE, ROOMS, TOP, ask
from sealed import sealed

import harness
from harness import Report

LIBRARY = os.path.abspath(sys.argv[-1])
CALLS = f"{TOP}/crates/hostile_use/out/hostile_use"
THREE_TRANSFERS = "batch 3\npush 0 0 1 0\npush 0 1 2 0\npush 1 1 2 1\n"
SCHEDULE = "settings 2\nsetting 0 2\nsetting 1\nbusiest link 0 module 0\nnamed 0 1\n"
TWO_PUSHES = "batch 2\npush 0 0 1 0\npush 1 1 2 0\n"
LONG = "settings 3\nsetting 0\nsetting 1\nsetting 2\nbusiest link 0 module 0\nnamed 0 1\n"
EACH = "settings 2\nsetting 0\nsetting 1 2\n"
SWAP = "batch 2\npush 0 0 1 0\npush 1 0 0 0\n"
WIDE = "batch 3\npush 16 0 0 0\npush 16 1 1 0\npush 2 0 3 0\n"
NINE = "batch 9\n" + "".join(
    f"push {module} 3 {other} {module}\n" for module in range(3) for other in range(3)
)
SCRIPT = (
    "poke 1 80000808 000000ff\nbatch 1\npull 0 0 1 1\nplan 1\nrun 1\nprogress\npeek 0 80000800\n"
    "bye\n"
)
REFUSALS = (
    "plan 1\nbatch 1\npush 0 0 1 0\nrun 1\nplan 1\nplan 1\nshow 1\nrun 1\nrun 1\ndrop 1\nshow 1\n"
    "peek 2 80000800\npeek 0 80000801\npeek 0 80000000\nhello\n"
)
RECORD = sealed(
    b"record-2 2x2x2 00200001 0\n"
    b"0 poke 1 80000808 000000ff\npoked\n0 batch 1\npull 0 0 1 1\naccepted 1\n0 fetch 1\nfetched\n"
    b"0 settle 1\nplanned 1 settings 1\n"
    b"0 run 1\nran 1 run 1 settings 1 words 2 bits 234\n0 peek 0 80000800\nword 000000ff\n"
    b"1 show 1\nrefused unknown\n"
    b"1 peek 1 80000800\nword 00000000\nend\n"
).decode()
# A record of a rack of 3x2x2 that begins with the image.
WORDED = sealed(b"record-2 3x2x2 48280469 0\n0 peek 0 80000800\nword 03020100\nend\n").decode()
KEPT = "poke 0 80000800 000000ff\nbatch 1\npush 0 0 1 0\nplan 1\nrun 1\n"
PUSHES = TWO_PUSHES + "plan 1\nrun 1\nprogress\npeek 1 80000804\npeek 2 80000800\n"
# An image of 3x2x2, and moves that are directed both ways.
IMAGE = "".join(map(chr, range(48)))
MOVES = "moves 3\nmove 0 0 1 0\nmove 0 1 1 1\nmove 1 2 1 3\n"
# Wirings: of three modules, and of two.
BOARD = (
    "wiring 3\nmodule 0 link 0 at 4 link 3 at 21\nmodule 1 link 0 at 5 link 3 at 22\n"
    "module 2 link 0 at 11 link 3 at 0\n"
)
SMALL = "wiring 2\nmodule 0 link 0 at 4 link 3 at 21\nmodule 1 link 0 at 5 link 3 at 22\n"
# What stands in a file before an image goes there, or the record of scripts. That of live clients
# goes on behind what is there.
OLDER = {
    "serve": {"record": b"older words", "image": b"older words"},
    "host": {"record": b"", "image": b"older words"},
}
# What a session sees of the words that two pushes write, of batch 1 and of runs.
LOOK = "peek 1 80000800\npeek 1 80000804\npeek 2 80000800\npeek 2 80000804\nshow 1\nprogress\n"
# Each call of a book and its exchange, as the command that makes it,
# and how many calls that command makes before it.
ASKED = [
    (TWO_PUSHES, 0), ("plan 1\n", 0), ("plan 2\n", 1), ("run 1\n", 0), ("show 1\n", 0),
    ("peek 1 80000800\n", 0),
    ("poke 1 80000800 00000007\n", 0), ("drop 1\n", 0),
]  # fmt: skip


def entries_of(script):
    """How many calls a session makes by a script."""
    exchange = sessions.Exchange((3, 2, 2))
    sessions.Session(exchange, 0, script.encode()).serve()
    return exchange.entries


def asked_twice():
    """A script in which each call is made when the history and the session's list have as many
    entries as they have room for, which is four at first and then twice as much each time. Each
    command is given twice, and what it did is looked at behind both.
    """
    script = ""
    for command, before in ASKED:
        made, room = entries_of(script) + before, 4
        while room < made:
            room *= 2
        script += "peek 0 80000800\n" * (room - made) + (command + LOOK) * 2
    return script


FILES = {
    "three": THREE_TRANSFERS, "two": TWO_PUSHES, "nine": NINE, "schedule": SCHEDULE, "long": LONG,
    "each": EACH, "wrong": "batch 01\n",
    "script": SCRIPT, "other": "show 1\n", "refusals": REFUSALS,
    "pushes": PUSHES, "swap": SWAP, "wide": WIDE, "image": IMAGE, "moves": MOVES,
    "twice": asked_twice(), "board": BOARD, "small": SMALL,
    "record": RECORD, "worded": WORDED, "spoilt": RECORD.replace("000000ff\n1", "000000fe\n1"),
    "caller.in": "batch 1\npush 0 0 1 0\nplan 1\nrun 1\n", "keeper.in": KEPT,
}  # fmt: skip
# What `talk` refuses whatever was done before.
FILES["unknown"] = "plan 7\nrun 8\nshow 9\npeek 2 80000800\npeek 0 80000801\nhello\ndrop 3\n"
FILES["pairs"] = "batch 128\n" + "".join(
    f"push 0 {block} 1 {block}\npush 2 {block} 3 {block}\n" for block in range(64)
)
FILES["turned"] = "batch 32\n" + "".join(
    f"push {module} 0 {31 - module} 1\n" for module in range(32)
)
FILES["both"] = FILES["pairs"] + "plan 1\nrun 1\n" + FILES["turned"] + "plan 2\nrun 2\n"
# The one that is standard input, and that of `talk`.
INPUT, TALKED = "three", "unknown"

# How often 64 workers fork where each start of a thread is refused. 64 transfers of each of two
# pairs of modules are halved down to one each, and so is each of their 64 settings; 32 transfers
# that share no link aren't, and their setting is. `apply` runs nothing, and forks nothing.
FORKS = [
    (["plan", "pairs"], 63), (["switch", "pairs"], 63), (["drive", "pairs", "gone"], 63),
    (["run", "4x64x1", "pairs"], 63 + 64),
    (["apply", "4x64x1", "pairs", "image"], 0), (["run", "32x2x1", "turned"], 31),
    (["serve", "32x64x1", "both"], 63 + 64 + 31),
]  # fmt: skip

COMMANDS = [
    # `read_arguments`, `Batch::read` and `copy`, `LinkGraph::of` and `transfers_of`,
    # `Table::one_with_room`, `join` and `into_schedule`, `schedule`, `Schedule::write` and
    # `answer_plan`. Three settings take `Table::take_back` too.
    ["plan", "three"], ["plan", "three", "--workers", "2"], ["plan", "nine"],
    ["plan", "nine", "--workers", "2"],
    ["plan", "wrong"], ["plan", "missing"], ["plan", "-"],
    # `steady`.
    ["plan", "three", "--steady"], ["plan", "nine", "--steady"], ["plan", "wrong", "--steady"],
    ["plan", "-", "--steady"],
    # `answer_switch` and `Scheduled::read`.
    ["switch", "three"], ["switch", "three", "--workers", "2"], ["switch", "wide"],
    ["switch", "wide", "--workers", "2"],
    ["switch", "wrong"], ["switch", "-"], ["switch", "three", "--steady"],
    ["switch", "wide", "--steady"], ["switch", "wrong", "--steady"],
    ["switch", "three", "--schedule", "schedule"], ["switch", "three", "--schedule", "long"],
    ["switch", "three", "--schedule", "three"],
    ["switch", "wide", "--schedule", "each"], ["switch", "-", "--schedule", "schedule"],
    ["switch", "two", "--schedule", "-"],
    # The same for a board's wiring, whose reading takes no memory.
    ["switch", "three", "--wiring", "board"],
    ["switch", "three", "--wiring", "board", "--workers", "2"],
    ["switch", "three", "--wiring", "board", "--steady"],
    ["switch", "three", "--wiring", "board", "--schedule", "schedule"],
    ["switch", "three", "--wiring", "small"], ["switch", "three", "--wiring", "wrong"],
    ["switch", "two", "--wiring", "-"],
    # `RackOrders::of` and `RackOrders::write`.
    ["orders", "three"], ["orders", "swap", "--module", "0"],
    ["orders", "three", "--schedule", "schedule"], ["orders", "three", "--steady"],
    # `Schedule::read`, `check_schedule` and `answer_check`.
    # What `answer_check` finds out of a schedule that it refuses, and `second_line`.
    ["check", "three", "schedule"], ["check", "three", "three"], ["check", "three", "long"],
    ["check", "-", "schedule"], ["check", "-", "-"],
    # `draw` and `answer_draw`.
    ["draw", "three", "schedule"], ["draw", "three", "three"],
    # `Rack::new` and `part`, `run` and `answer_run`. Where blocks are swapped,
    # `Batch::held_sources` and a `Rack::part` that holds them.
    ["run", "3x2x2", "two"], ["run", "3x2x2", "two", "--workers", "2"], ["run", "2x1x1", "swap"],
    ["run", "3x2", "two"],
    ["run", "3x2x2", "two", "--image", "image"], ["run", "3x2x2", "three", "--steady"],
    ["run", "3x2x2", "three", "--schedule", "schedule"],
    # `TextList::of`, `Rack::copy`, `Book::new`, `Shared::new`, `serve` and `answer_serve`.
    ["serve", "2x2x2", "script", "other"], ["serve", "2x2x2", "script", "other", "--workers", "2"],
    ["serve", "3x2x2", "pushes", "--workers", "2"], ["serve", "2x1x1", "refusals"],
    ["serve", "2x2", "script"],
    ["serve", "3x2x2", "other", "-"], ["serve", "3x2x2", "other", "--image", "image"],
    ["serve", "3x2x1", "other", "--image", "image"],
    # `Book::apply` and `Shared::call` of each call, over words that all differ; `Planned::copy` and
    # `Coloured::copy` too, for a plan that is settled.
    ["serve", "3x2x2", "twice", "--image", "image"],
    ["serve", "3x2x2", "twice", "--image", "image", "--workers", "2"],
    # `Rack::image` of the rack that is left.
    ["serve", "2x2x2", "script", "other", "--image-out", "left-0"],
    ["serve", "2x2x2", "--image-out", "left-1", "script", "other", "--workers", "2"],
    ["serve", "3x2x2", "pushes", "--image", "image", "--image-out", "left-2"],
    ["serve", "2x2", "script", "--image-out", "left-3"],
    # `write_record`, `read_entry`, `replay` and `answer_replay`.
    ["serve", "2x1x1", "refusals", "--record", "left-4"],
    ["serve", "2x2x2", "script", "--record", "left-5", "--image-out", "left-6"],
    ["replay", "record"], ["replay", "worded", "--image", "image"], ["replay", "-", "--first", "2"],
    ["replay", "spoilt", "--shape", "2x2x2"],
    # `Batch::write`.
    ["direct", "moves"], ["direct", "wrong"], ["direct", "-"],
    ["apply", "3x2x2", "two", "image"], ["apply", "3x2x2", "swap", "image"],
    ["apply", "3x2x1", "two", "image"], ["apply", "3x2x2", "-", "image"],
    # `Beside`.
    ["talk", "2x1x1"],
    ["--help"], ["help", "run"], ["plan", "--help"], ["chart", "three"], [],
    ["plan", "three", "--workers", "65"],
]  # fmt: skip


# What came of one sweep: its name, how often each kind of answer came, how many growths a run has
# where none is refused, and how many starts of threads were refused.
Swept = namedtuple("Swept", "name found growths unstarted")


def input_of(words):
    return TALKED if words[:1] == ["talk"] else INPUT


def run(which, program, words, between, called=None):
    """Runs a program while growths are refused: how it ended, and how many growths were met,
    growths refused, and starts of threads refused. The log is kept in the folder that it is run
    in."""
    log = f"growths.{os.getpid()}"
    env = {"LD_PRELOAD": LIBRARY, "REFUSE": which, "REFUSE_LOG": log}
    if between:
        env["REFUSE_BETWEEN"] = "1"
    ended = ask(*words, program=program, env=env, given=input_of(words), called=called)
    with open(log, "rb") as file:
        return ended, *struct.unpack("@3l", file.read())


def sweep(name, program, words, between, judge, called=None):
    """Refuses each growth, alone and with all later ones, and each start of a thread, and counts
    what judge says of each run."""
    found = Counter()
    for later in ("", "+"):
        n, refused = 0, 1
        while refused:
            n += 1
            ended, growths, refused, _ = run(f"{n}{later}", program, words, between, called)
            found[judge(ended, refused)] += 1
            due = max(growths - n + 1, 0)
            if refused != (due if later else min(due, 1)):
                found["WRONG: others were refused"] += 1
    ended, _, _, unstarted = run("T", program, words, between, called)
    found[judge(ended, 0)] += 1
    return Swept(name, found, growths, unstarted)


def judge_of_call(name):
    def judge(ended, refused):
        text = ended.out.decode(errors="replace").strip()
        if ended.status == 0 and text == f"{name}: row":
            return "row"
        if ended.status == 0 and text == f"{name}: no memory" and refused:
            return "no memory"
        return f"WRONG {ended}"

    return judge


def judge_of_command(words, wanted):
    def judge(ended, refused):
        if ended == wanted:
            return "as ever"
        if refused and is_less_told(ended, wanted):
            return "less told"
        if refused and ended == (b"refused no memory\n", b"", 1):
            return "no memory"
        if refused and words[:1] == ["serve"] and is_served(words, ended):
            return "told in sessions"
        return f"WRONG {ended}"

    return judge


def is_less_told(ended, wanted):
    """Whether refusals are as ever, but for what is told beside them: nothing,
    or nothing of the schedule."""
    less, left = (
        wanted.err.split(b"; the schedule is valid")[0] + b"\n",
        iter(wanted.err.splitlines(True)),
    )
    is_less = ended.err == less or all(line in left for line in ended.err.splitlines(True))
    return (
        wanted.err.startswith(b"exchange: ")
        and (ended.out, ended.status) == (wanted.out, wanted.status)
        and is_less
    )


def served(words):
    """The shape, the scripts and the image of a `serve` command line."""
    names = [INPUT if word == "-" else word for word in words[2:]]
    scripts = [
        FILES[name].encode()
        for before, name in zip(words[1:], names)
        if name in FILES and before != "--image"
    ]
    return words[1].encode(), scripts, FILES["image"].encode() if "--image" in words else None


def is_served(words, ended):
    """Whether sessions were told of the want of memory: each up to there as ever, and from there on
    as if that command weren't."""
    shape, scripts, image = served(words)
    status = int(b"\nended " in ended.out)
    well = sessions.told_without_memory(shape, scripts, ended.out, image) is not None
    return well and ended.status == status and ended.err == b""


def sessions_of(words, ended):
    """The shape, the scripts and the image of a `serve`, and what it told; and those of a `host`,
    whose client has no script where its files couldn't be opened."""
    if words[0] == "serve":
        return *served(words), ended.out
    shape, client, fault = words[1].encode(), words[2], ended.out.partition(b"\n")[2]
    if fault == b"ended open\n":
        return shape, [b""], None, b"session 0\n"
    with open(f"{client}.out", "rb") as file:
        return shape, [FILES[f"{client}.in"].encode()], None, b"session 0\n" + file.read() + fault


def images_behind(words, ended):
    """The images that may be left behind what sessions were told: none where it is a refusal."""
    if ended.out.startswith(b"refused "):
        return []
    shape, scripts, image, told = sessions_of(words, ended)
    exchanges = [
        sessions.told_without_memory(shape, scripts, told, image, is_done)
        for is_done in (False, True)
    ]
    return [exchange.image() for exchange in exchanges if exchange]


def kept_files(words):
    """The files for the record and the image that are left, by what they are to keep."""
    options = {"record": "--record", "image": "--image-out"}
    return {
        what: words[words.index(option) + 1] for what, option in options.items() if option in words
    }


def put_older(words, files):
    for what, name in files.items():
        with open(name, "wb") as older:
            older.write(OLDER[words[0]][what])


def taken(words, files):
    """What is left in files that isn't what was there before. They are as before then."""
    texts = {}
    for what, name in files.items():
        with open(name, "rb") as file:
            texts[what] = file.read()
    put_older(words, files)
    return {what: text for what, text in texts.items() if text != OLDER[words[0]][what]}


def is_begun(words, kept):
    """Whether nothing is left but a front of the head of a live client's record."""
    shape = plain.read_shape(words[1].encode())
    head = records.head_of(shape, bytes(4 * shape[0] * shape[1] * shape[2]), words[2:3])
    return words[0] == "host" and list(kept) == ["record"] and head.startswith(kept["record"])


def is_record_of(words, ended, record, image):
    """Whether a record is one of what was told, also where some growths were refused, and leads to
    the image that is left, if one is."""
    replay = records.Replay(
        record,
        plain.read_shape(words[1].encode()),
        FILES["image"].encode() if "--image" in words else None,
    )
    told = sessions_of(words, ended)[3].decode().splitlines()
    replies = [reply for _, _, reply in replay.entries if reply != "fetched"]
    is_told = [line for line in told if line in replies] == [
        reply for reply in replies if reply in told
    ]
    return is_told and image in (None, replay.exchange.image())


def is_told_of(ended, names):
    """Whether nothing is told of these files, or a line of one."""
    heads = tuple(f"exchange: {name}: ".encode() for name in names)
    return ended.err == b"" or ended.err.startswith(heads) and ended.err.count(b"\n") == 1


def judge_of_files(words, judge):
    """A judge of what is answered, and of the record and the image that are left. Where there is no
    memory for one, its file is as before, the status 3, and a line may say so."""
    files = kept_files(words)
    put_older(words, files)

    def judge_all(ended, refused):
        kept, images = taken(words, files), images_behind(words, ended)
        missing = [what for what in files if what not in kept]
        if not images:
            return (
                f"WRONG {ended}, and {kept}"
                if kept and not is_begun(words, kept)
                else judge(ended, refused)
            )
        if "image" in kept and kept["image"] not in images:
            return f"WRONG image {kept['image']} of {ended}"
        if "record" in kept and not is_record_of(words, ended, kept["record"], kept.get("image")):
            return f"WRONG record {kept['record']} of {ended}"
        if not missing:
            return judge(ended, refused)
        is_well = (
            refused and ended.status == 3 and is_told_of(ended, [files[what] for what in missing])
        )
        return f"no {' and no '.join(missing)}" if is_well else f"WRONG {ended}, and no {missing}"

    return judge_all


def sweep_call(name):
    swept = sweep(name, CALLS, [name], True, judge_of_call(name))
    # A call that grows wants memory where all growths are refused.
    if swept.growths and not swept.found["no memory"]:
        swept.found["WRONG: nothing was refused"] += 1
    if swept.growths and name.endswith("takes-none"):
        swept.found["WRONG: it takes memory"] += 1
    return swept


def sweep_closing(words):
    """The same for the last reading of a session and the closing of its exchange, each of which
    stands between marks and takes none."""
    wanted = ask(*words, program=CALLS)
    swept = sweep(
        " ".join(["hostile_use", *words]), CALLS, words, True, judge_of_command(words, wanted)
    )
    if (
        swept.growths
        or wanted.status
        or wanted.err != b"[]\n" * 2
        or not wanted.out.endswith(b"\nclosed\n")
    ):
        swept.found["WRONG: it takes memory, or isn't closed"] += 1
    return swept


def sweep_command(words):
    wanted = ask(*words, given=input_of(words))
    judge = judge_of_command(words, wanted)
    if kept_files(words):
        judge = judge_of_files(words, judge)
    swept = sweep(" ".join(["exchange", *words]), EXCHANGE, words, False, judge)
    if words[:1] == ["serve"] and (wanted.out, wanted.status) != sessions.answer_serve(
        *served(words)
    ):
        swept.found["WRONG: told otherwise with memory"] += 1
    is_untold = words[:1] == ["talk"] and not swept.found["less told"]
    if (
        not swept.found["no memory"]
        or words[-2:] == ["--workers", "2"]
        and not swept.unstarted
        or is_untold
    ):
        swept.found["WRONG: nothing was refused"] += 1
    return swept


def count_forks(words, forks):
    """Refuses each start of a thread to a command of 64 workers, which is answered as ever."""
    words = [*words, "--workers", "64"]
    ended, _, _, unstarted = run("T", EXCHANGE, words, False)
    well = ended == ask(*words, given=INPUT) and unstarted == forks
    return Swept(
        " ".join(["exchange", *words]),
        Counter(["as ever" if well else f"WRONG {ended}"]),
        0,
        unstarted,
    )


def compare_starts():
    """A command that fits builds its own words alone; one that doesn't, those of all."""
    fits, fails = (run("0", EXCHANGE, words, False)[1] for words in (["plan", "three"], ["plan"]))
    return Swept(
        "the words of one command, and of all",
        Counter(["fewer" if 0 < fits < fails else f"WRONG {fits} of {fails}"]),
        fits,
        0,
    )


def sweep_help_by_name():
    """The same for a help where the program is called by its name alone: the help calls it so too,
    as far as there is memory for that."""
    wanted, by_path = ask("--help", called="exchange"), ask("--help")
    judge_help = judge_of_command(["--help"], wanted)

    def judge(ended, refused):
        return "told as by a path" if refused and ended == by_path else judge_help(ended, refused)

    swept = sweep("exchange --help, by its name", EXCHANGE, ["--help"], False, judge, "exchange")
    if (
        not swept.found["no memory"]
        or not swept.found["told as by a path"]
        or wanted.out != by_path.out.replace(b"./exchange", b"exchange")
    ):
        swept.found["WRONG: nothing was refused, or told otherwise with memory"] += 1
    return swept


def sweep_host(client, *options):
    """The same for a live client, over plain files. The first run starts no thread,
    so that no file is made."""
    words = ["host", "2x1x1", client, *options]
    note = b"exchange: the system has no thread for each client; try fewer clients\n"
    no_threads = (b"refused threads\n", note, 1)
    alone, _, _, unstarted = run("T", EXCHANGE, words, False)
    is_made = os.path.exists(f"{client}.out")
    wanted = ask(*words, given=INPUT)

    def judge(ended, refused):
        if ended in (no_threads, (b"refused threads\n", b"", 1)):
            return "no threads"
        if (
            refused
            and ended[1:] == (b"", 1)
            and re.fullmatch(
                rb"session 0 %s\nended (open|no memory|write)\n" % client.encode(), ended.out
            )
        ):
            return "a session ended"
        return judge_of_command(words, wanted)(ended, refused)

    if options:
        judge = judge_of_files(words, judge)
    swept = sweep(" ".join(["exchange", *words]), EXCHANGE, words, False, judge)
    if (
        alone != no_threads
        or is_made
        or not unstarted
        or wanted != (f"session 0 {client}\n".encode(), b"", 0)
        or not swept.found["no memory"]
    ):
        swept.found["WRONG: served without threads, or told otherwise with memory"] += 1
    return swept


def tell(report, kind, swept):
    """Prints a line for what was swept, and judges it."""
    parts = [f"{swept.growths} growths"] + [
        f"{what} {times} times" for what, times in sorted(swept.found.items())
    ]
    if swept.unstarted:
        parts.append(f"{swept.unstarted} threads not started")
    print(f"growths: {swept.name}: {', '.join(parts)}")
    report.judge(swept.name, [it for it in swept.found if it.startswith("WRONG")], kind)
    report.kinds["runs"] += swept.found.total()


def main():
    report = Report("growths")
    names = [line.split(": ")[0] for line in ask(program=CALLS).out.decode().splitlines()]
    with harness.room("growths", enter=True, where=ROOMS):
        for name, text in FILES.items():
            with open(name, "w", encoding="utf-8") as file:
                file.write(text)
        with multiprocessing.Pool(len(os.sched_getaffinity(0))) as pool:
            for swept in pool.imap(sweep_call, names):
                tell(report, "calls", swept)
            for swept in pool.imap(sweep_command, COMMANDS):
                tell(report, "command lines", swept)
        tell(report, "calls", sweep_closing(["clients", "2x2x2", "script"]))
        for words, forks in FORKS:
            tell(report, "commands whose forks are counted", count_forks(words, forks))
        tell(report, "command lines", compare_starts())
        tell(report, "command lines", sweep_help_by_name())
        kept = ["--record", "host-record", "--image-out", "host-left"]
        for words in ["caller"], ["keeper", *kept]:
            tell(report, "command lines", sweep_host(*words))
    report.finish()


if __name__ == "__main__":
    main()
