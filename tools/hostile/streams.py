#!/usr/bin/env python3
"""Files and streams that can't be read, and streams that can't be written: one line on the right
stream, the status that docs/REFUSALS.md names, and nothing hangs."""

import errno
import os
import shutil
import subprocess
import threading

import notes
import picture
import plain
import spoil
import steady
import switching
from program import EXCHANGE, Ended, ask, end, start

import harness
from harness import Report

THREE_TRANSFERS = b"batch 3\npush 0 0 1 0\npush 0 1 2 0\npush 1 1 2 1\n"
PLAN = b"settings 2\nsetting 0 2\nsetting 1\nbusiest link 0 module 0\nnamed 0 1\n"
SWITCHED = b"setting 0 04 01 00 11 01 01 12 03\nsetting 1 06 00 11 06 01 12 01 00 12 03\n"
BOARD = (
    b"wiring 3\nmodule 0 link 0 at 4 link 3 at 21\nmodule 1 link 0 at 5 link 3 at 22\n"
    b"module 2 link 0 at 11 link 3 at 0\n"
)
SWITCHED_THERE = b"setting 0 04 01 04 16 01 05 00 03\nsetting 1 06 04 16 06 05 00 01 04 00 03\n"
SWAP = b"batch 2\npush 0 0 1 0\npush 1 0 0 0\n"
IMAGE, SWAPPED = bytes([1, 2, 3, 4, 5, 6, 7, 8]), bytes([5, 6, 7, 8, 1, 2, 3, 4])
MOVES = b"moves 1\nmove 0 0 1 0\n"
NO_MEMORY = Ended(b"refused no memory\n", b"", 1)
UNWRITTEN = b"exchange: the answer can't be written: "

REPORT = Report("streams")


def expect(what, ended, wanted):
    """Compares how a run ended with what is wanted: a value of Ended, or a test of one."""
    if callable(wanted):
        REPORT.judge(what, [] if wanted(ended) else [str(ended)])
    else:
        REPORT.check(what, ended, wanted)


def refused(asked, refusal):
    """A refusal of what was asked, with the line beside it."""
    return Ended(refusal, notes.told(asked, refusal), 1)


def refused_batch(name, text, refusal):
    return refused(notes.Asked("batch", (name, text)), refusal)


def refused_file(name, reason):
    """The refusal of a file that can't be read for a reason of the system."""
    return Ended(b"refused file\n", f"exchange: {notes.shown(name)}: {reason}\n".encode(), 1)


def reason_of(name):
    """Why a file can't be read."""
    try:
        with open(name, "rb") as file:
            file.read(1)
    except OSError as why:
        return why.strerror
    return "it can be read"


def under(line, *words):
    """Runs the program from a shell, behind a line of shell commands that set limits or streams."""
    return ask("-c", f'{line} exec "$@"', "sh", EXCHANGE, *words, program="/bin/sh")


def is_unwritten(ended):
    """One line on standard error, nothing on standard output, and status 3."""
    is_line = (
        ended.err.startswith(UNWRITTEN)
        and ended.err.count(b"\n") == 1
        and ended.err.endswith(b"\n")
    )
    return is_line and ended.out == b"" and ended.status == 3


def files(room):
    """Names that are no file that can be read."""
    os.mkdir("folder")
    os.symlink("nothing", "dangling")
    os.symlink("round", "round")
    yield from [
        ("a folder", "folder"),
        ("a folder, by a dot", "."),
        ("nothing", "missing"),
        ("a link to nothing", "dangling"),
    ]
    yield from [
        ("a link to itself", "round"),
        ("a file as a folder", "three/x"),
        ("no name", ""),
        ("a long name", "x" * 5000),
    ]
    yield from [
        ("a memory that can't be read", "/proc/self/mem"),
        ("a long path", "x/" * 3000),
        ("odd characters", spoil.MARKS),
    ]


def unreadable_files(room):
    for what, name in files(room):
        for words in [
            ("plan", name), ("plan", name, "--steady"), ("switch", name),
            ("switch", name, "--steady"), ("switch", name, "--schedule", "plan"),
            ("switch", "three", "--schedule", name), ("switch", "three", "--wiring", name),
            ("drive", "three", "gone", "--wiring", name),
            ("drive", name, "gone"), ("check", name, "plan"), ("check", "three", name),
            ("draw", name, "plan"), ("draw", "three", name),
            ("run", "3x2x2", name), ("run", "0", name), ("run", "0", "three", "--schedule", name),
            ("serve", "2x2x2", "script", name),
            ("serve", "0", name), ("apply", "2x1x1", name, "image"),
            ("apply", "0", "three", name), ("run", "0", "three", "--image", name),
            ("serve", "0", "script", "--image", name), ("direct", name),
            ("replay", name), ("replay", "three", "--shape", "0", "--image", name),
        ]:  # fmt: skip
            expect(f"{what}: {words[0]}", ask(*words), refused_file(name, reason_of(name)))


def forbidden_file(room):
    """A file that its mode forbids, read by someone who isn't root."""
    shutil.copy(EXCHANGE, "exchange")
    for name, mode in [("exchange", 0o755), (".", 0o755), ("forbidden", 0o000)]:
        if name == "forbidden":
            shutil.copy("three", name)
        os.chmod(name, mode)
    words = [f"{room}/exchange", "plan", "forbidden"]
    if os.geteuid() == 0:
        words = ["/usr/bin/setpriv", "--reuid=65534", "--regid=65534", "--clear-groups", *words]
    expect(
        "a forbidden file",
        ask(*words[1:], program=words[0]),
        refused_file("forbidden", os.strerror(errno.EACCES)),
    )


def endless_files():
    """What never ends wants more memory than there is."""
    limit = "ulimit -v 400000;"
    for words in [
        ("plan", "/dev/zero"), ("switch", "/dev/zero"),
        ("switch", "three", "--schedule", "/dev/zero"), ("check", "/dev/zero", "plan"),
        ("check", "three", "/dev/zero"), ("draw", "/dev/zero", "plan"),
        ("draw", "three", "/dev/zero"), ("run", "3x2x2", "/dev/zero"),
        ("serve", "2x2x2", "script", "/dev/zero"), ("apply", "2x1x1", "swap", "/dev/zero"),
        ("run", "2x1x1", "swap", "--image", "/dev/zero"),
        ("direct", "/dev/zero"), ("switch", "three", "--wiring", "/dev/zero"),
        ("drive", "three", "missing", "--wiring", "/dev/zero"),
        ("replay", "/dev/zero"),
    ]:  # fmt: skip
        expect(f"an endless file: {words[0]}", under(limit, *words), NO_MEMORY)
    with open("large", "wb") as file:
        file.truncate(1 << 30)
    expect("a file beyond the memory", under(limit, "plan", "large"), NO_MEMORY)


def pieces(name, parts):
    """Writes a text into a pipe piece by piece."""
    with open(name, "wb", buffering=0) as pipe:
        for part in parts:
            pipe.write(part)


def pipes():
    """A text may come in pieces, and from a pipe; no text at all is an empty one."""
    os.mkfifo("pipe")
    for what, parts, refusal in [
        ("byte by byte", [bytes([it]) for it in THREE_TRANSFERS], None),
        ("cut in a line", [THREE_TRANSFERS[:24]], b"refused batch line 3\n"),
        ("nothing", [], b"refused batch line 1\n"),
    ]:
        for name, given in [("pipe", os.devnull), ("-", "pipe")]:
            told = "standard input" if name == "-" else "pipe"
            wanted = (
                refused_batch(told, b"".join(parts), refusal) if refusal else Ended(PLAN, b"", 0)
            )
            writer = threading.Thread(target=pieces, args=("pipe", parts))
            writer.start()
            expect(f"a pipe: {what}, as {name}", ask("plan", name, given=given), wanted)
            writer.join()


def directed(moves):
    """What `direct` answers to these moves, which is judged. It may answer any directions that
    halve each module's ends."""
    with harness.room("streams") as room:
        with open(f"{room}/moves", "wb") as file:
            file.write(moves)
        answer = ask("direct", f"{room}/moves").out
    expect("direct: its moves", plain.is_directed(moves, answer), True)
    return answer


def steadily_planned(batch):
    """What `plan --steady` answers to this batch, which is judged.
    It may answer any steady plan."""
    with harness.room("streams") as room:
        with open(f"{room}/batch", "wb") as file:
            file.write(batch)
        answer = ask("plan", f"{room}/batch", "--steady").out
    expect("plan --steady: a steady plan", steady.is_steady(batch, answer), True)
    return answer


# The words of each command with standard input for each of its files in turn,
# and the answers where that is the right file.
STEADY_PLAN = steadily_planned(THREE_TRANSFERS)
INPUTS = [
    (("plan", "-"), "three", PLAN),
    (("plan", "-", "--steady"), "three", STEADY_PLAN),
    (("switch", "-"), "three", SWITCHED),
    (("switch", "-", "--steady"), "three", switching.answer_switch(THREE_TRANSFERS, STEADY_PLAN)),
    (("switch", "-", "--schedule", "plan"), "three", SWITCHED),
    (("switch", "three", "--schedule", "-"), "plan", SWITCHED),
    (("switch", "-", "--wiring", "board"), "three", SWITCHED_THERE),
    (("switch", "three", "--wiring", "-"), "board", SWITCHED_THERE),
    (("switch", "three", "--schedule", "-", "--wiring", "board"), "plan", SWITCHED_THERE),
    (("check", "-", "plan"), "three", b"shortest 2\n"),
    (("check", "three", "-"), "plan", b"shortest 2\n"),
    (("draw", "-", "plan"), "three", picture.answer_draw(THREE_TRANSFERS, PLAN)),
    (("draw", "three", "-"), "plan", picture.answer_draw(THREE_TRANSFERS, PLAN)),
    (("run", "3x2x2", "-"), "three", plain.answer_run(b"3x2x2", THREE_TRANSFERS)),
    (
        ("run", "3x2x2", "three", "--schedule", "-"),
        "plan",
        plain.answer_run(b"3x2x2", THREE_TRANSFERS, run_by=steady.scheduled(PLAN)),
    ),
    (("run", "2x1x1", "swap", "--image", "-"), "image", plain.answer_run(b"2x1x1", SWAP, IMAGE)),
    (("apply", "2x1x1", "-", "image"), "swap", SWAPPED),
    (("apply", "2x1x1", "swap", "-"), "image", SWAPPED),
    (("direct", "-"), "moves", directed(MOVES)),
    (("serve", "2x1x1", "other", "--image", "-"), "image", b"session 0\nword 04030201\n"),
    (("serve", "2x2x2", "-"), "script", b"session 0\nword 00000000\nbye\n"),
    (
        ("serve", "2x2x2", "script", "-"),
        "script",
        b"session 0\nword 00000000\nbye\nsession 1\nword 00000000\nbye\n",
    ),
]


def pipes_as_files():
    """Each file is read once, and standard input isn't read where it is none of them: a pipe has
    its text once, and an input that is held open never ends."""
    os.mkfifo("once")
    os.mkfifo("held")
    held = os.open("held", os.O_RDWR)
    for words, given, answer in INPUTS:
        with open(given, "rb") as file:
            writer = threading.Thread(target=pieces, args=("once", [file.read()]), daemon=True)
        writer.start()
        ended = ask(*("once" if it == "-" else it for it in words), given="held")
        expect(
            f"{' '.join(words)}: a pipe, beside an input that is held open",
            ended,
            Ended(answer, b"", 0),
        )
    os.close(held)


# Streams that can't be read.
UNREADABLE = {
    "a closed input": ("exec <&-;", errno.EBADF),
    "an input that is only written": ("exec 0>/dev/null;", errno.EBADF),
    "a folder": ("exec <.;", errno.EISDIR),
}


def inputs():
    """Standard input as a file: what it has is answered,
    and one that can't be read is a file that can't be read."""
    for words, given, answer in INPUTS:
        line = " ".join(words)
        expect(f"{line}: its file", ask(*words, given=given), Ended(answer, b"", 0))
        expect(
            f"{line}: another name",
            ask(*("./-" if it == "-" else it for it in words)),
            refused_file("./-", os.strerror(errno.ENOENT)),
        )
        for what, (line_before, error) in UNREADABLE.items():
            expect(
                f"{line}: {what}",
                under(line_before, *words),
                refused_file("standard input", os.strerror(error)),
            )
        expect(
            f"{line}: an endless input",
            under("ulimit -v 400000; exec </dev/zero;", *words),
            NO_MEMORY,
        )
    nothing = refused_batch("standard input", b"", b"refused batch line 1\n")
    expect("plan -: nothing", ask("plan", "-"), nothing)
    expect("switch -: nothing", ask("switch", "-"), nothing)
    expect("serve -: nothing", ask("serve", "2x2x2", "-"), Ended(b"session 0\n", b"", 0))
    expect(
        "a shape isn't a file",
        ask("run", "-", "-", given="three"),
        refused(notes.Asked("batch", shape=b"-"), b"refused shape\n"),
    )
    expect(
        "the rest of an input",
        under("exec <behind; read line;", "switch", "-"),
        Ended(SWITCHED, b"", 0),
    )


def is_misused(ended):
    """A text on standard error that says what is wrong, nothing on standard output,
    and status 2."""
    return (
        ended.out == b""
        and b"standard input" in ended.err
        and ended.err.endswith(b"\n")
        and ended.status == 2
    )


def inputs_named_twice():
    """Standard input can be one file only, and where it is two it isn't read."""
    for words in [
        ("check", "-", "-"), ("draw", "-", "-"), ("switch", "-", "--schedule", "-"),
        ("serve", "2x2x2", "-", "-"),
        ("serve", "0", "-", "script", "-", "missing"), ("apply", "2x1x1", "-", "-"),
        ("run", "2x1x1", "-", "--image", "-"),
        ("serve", "2x1x1", "-", "--image", "-"), ("switch", "-", "--wiring", "-"),
        ("drive", "-", "missing", "--wiring", "-", "--go-on"),
    ]:  # fmt: skip
        line = " ".join(words)
        expect(f"{line}: twice", ask(*words, given="three"), is_misused)
        expect(f"{line}: twice, closed", under("exec <&-;", *words), is_misused)
        expect(
            f"{line}: twice, endless",
            under("ulimit -v 400000; exec </dev/zero;", *words),
            is_misused,
        )
        behind = ask(
            "-c",
            '"$@" 2>/dev/null; exec cat',
            "sh",
            EXCHANGE,
            *words,
            program="/bin/sh",
            given="three",
        )
        expect(f"{line}: what is behind", behind, Ended(THREE_TRANSFERS, b"", 0))


def many_settings():
    """A batch with as many transfers as there may be, all of module 0, and its schedule,
    whose picture has 3 MB."""
    numbers = range(4096)
    batch = "".join(f"push 0 {t % 64} {1 + t % 31} 0\n" for t in numbers)
    settings = "".join(f"setting {t}\n" for t in numbers)
    schedule = (
        f"settings {len(numbers)}\n{settings}busiest link 0 module 0\n"
        f"named {' '.join(map(str, numbers))}\n"
    )
    return f"batch {len(numbers)}\n{batch}".encode(), schedule.encode()


# What `plan` and `switch` tell beside their answers to that batch, and `draw` beside the picture.
WRITTEN_TWICE = (
    b"exchange: settings:33: transfers 0 and 31 both write block 0 of module 1 (lines 2 and 33)\n"
)
TOO_HIGH = (
    b"exchange: settings.plan: the picture is 265400 pixels high, and common tools draw at most "
    b"32767; --settings draws some settings alone\n"
)


def long_answers():
    """A picture of 3 MB is written whole, and so are the bytes of as many settings."""
    ended = ask("draw", "settings", "settings.plan")
    expect(
        "a long picture",
        ended == Ended(picture.answer_draw(*many_settings(), told=ended.out), TOO_HIGH, 0),
        True,
    )
    batch, schedule = many_settings()
    for options, judge in [([], plain.is_plan), (["--steady"], steady.is_steady)]:
        ended, plan = (ask(command, "settings", *options) for command in ("switch", "plan"))
        told = ended.err == plan.err == WRITTEN_TWICE and ended.status == plan.status == 0
        well = told and judge(batch, plan.out) and switching.is_switched(batch, plan.out, ended.out)
        expect(f"a long list of bytes {options}", well, True)
    ended = ask("switch", "settings", "--schedule", "settings.plan")
    expect(
        "a long list of bytes of a schedule",
        ended,
        Ended(switching.answer_switch(batch, schedule), WRITTEN_TWICE, 0),
    )


COMMANDS = {
    "an answer": ("plan", "three"),
    "a refusal": ("plan", "missing"),
    "a long answer": ("run", "16x64x256", "many"),
    "an image": ("apply", "2x1x1", "swap", "image"),
    "a long image": ("apply", "16x64x256", "many", "zeros"),
    "a batch": ("direct", "moves"),
    "a long picture": ("draw", "settings", "settings.plan", "--quiet"),
    "a steady plan": ("plan", "three", "--steady"),
    "a long steady plan": ("plan", "settings", "--steady", "--quiet"),
    "a switch's bytes": ("switch", "three"),
    "a steady plan's bytes": ("switch", "three", "--steady"),
    "a schedule's bytes": ("switch", "three", "--schedule", "plan"),
    "a board's bytes": ("switch", "three", "--wiring", "board"),
    "a long list of bytes": ("switch", "settings", "--schedule", "settings.plan", "--quiet"),
    "a help": ("--help",),
    "a session": ("serve", "2x2x2", "script"),
}


def many_reads():
    """A session ends after a million reads. Each gives a line:
    a pipe of packets gives one at a time."""
    taken, given = os.pipe2(os.O_DIRECT)
    with open("replies", "wb") as replies:
        talk = subprocess.Popen([EXCHANGE, "talk", "1x1x1"], stdin=taken, stdout=replies)
    os.close(taken)
    try:
        for _ in range(1_100_000):
            os.write(given, b"peek 0 80000800\n")
    except BrokenPipeError:
        pass
    os.close(given)
    status = talk.wait()
    with open("replies", "rb") as replies:
        lines = replies.read().splitlines()
    well = status == 1 and lines == [b"word 00000000"] * 1_000_000 + [b"ended turns"]
    expect("a million reads", well, True)


def closed_and_full_output():
    for what, words in COMMANDS.items():
        expect(f"{what} to a closed output", under("exec >&-;", *words), is_unwritten)
        expect(f"{what} to a full output", under("exec >/dev/full;", *words), is_unwritten)
        expect(
            f"{what} to an output that is only read",
            under("exec 1</dev/null;", *words),
            is_unwritten,
        )
        expect(
            f"{what}, all streams closed", under("exec <&- >&- 2>&-;", *words), Ended(b"", b"", 3)
        )
    expect(
        "an answer to a full output, errors to a full one",
        under("exec >/dev/full 2>/dev/full;", "plan", "three"),
        Ended(b"", b"", 3),
    )
    expect("no input", under("exec <&-;", "plan", "three"), Ended(PLAN, b"", 0))
    expect("a wrong word to a closed error", under("exec 2>&-;", "chart"), Ended(b"", b"", 3))
    expect("a wrong word to a full error", under("exec 2>/dev/full;", "chart"), Ended(b"", b"", 3))
    expect(
        "an answer with a closed error", under("exec 2>&-;", "plan", "three"), Ended(PLAN, b"", 0)
    )
    expect(
        "a refusal with a closed error",
        under("exec 2>&-;", "plan", "missing"),
        Ended(b"refused file\n", b"", 1),
    )
    expect(
        "a refusal with a full error",
        under("exec 2>/dev/full;", "plan", "missing"),
        Ended(b"refused file\n", b"", 1),
    )


def readers_that_go_away():
    """The reader of standard output takes some bytes, or none, and closes its end."""
    for what, words in COMMANDS.items():
        for taken in (0, 10):
            reader, writer = os.pipe()
            if taken == 0:
                os.close(reader)
            process, _, err = start([EXCHANGE, *words], out=writer)
            os.close(writer)
            if taken:
                os.read(reader, taken)
                os.close(reader)
            ended = end(process, None, err)
            # What fits into the pipe before the reader goes is written.
            is_short = taken and not what.startswith("a long ")
            expect(
                f"{what}, a reader that goes after {taken} bytes",
                ended,
                lambda it: is_unwritten(it) or is_short and it.status in (0, 1),
            )


# Lets each write to standard error take a few bytes.
SHORT = b"""
#include <stdlib.h>
#include <sys/syscall.h>
#include <unistd.h>

ssize_t write(int to, const void *bytes, size_t count) {
    size_t most = atoi(getenv("MOST"));
    return syscall(SYS_write, to, bytes, to == 2 && most < count ? most : count);
}
"""


def short_writes():
    """A line beside a refusal is told to its end,
    however few bytes standard error takes at once."""
    subprocess.run(
        ["cc", "-shared", "-fPIC", "-o", "short.so", "-x", "c", "-"], input=SHORT, check=True
    )
    for most in (1, 5, 100):
        few = {"LD_PRELOAD": os.path.abspath("short.so"), "MOST": str(most)}
        for name in ("missing", "x" * 5000):
            expect(
                f"{most} bytes at once",
                ask("plan", name, env=few),
                refused_file(name, reason_of(name)),
            )


def main():
    with harness.room("streams", enter=True) as room:
        many = [f"push {m} {b} {(m + 1) % 16} {b + 32}\n" for m in range(16) for b in range(32)]
        many = f"batch {len(many)}\n{''.join(many)}".encode()
        texts = [
            ("three", THREE_TRANSFERS),
            ("plan", PLAN),
            ("many", many),
            ("script", b"peek 0 80000800\nbye\n"),
        ]
        texts += [
            ("board", BOARD),
            ("swap", SWAP),
            ("image", IMAGE),
            ("zeros", bytes(1 << 20)),
            ("moves", MOVES),
            ("other", b"peek 0 80000800\n"),
        ]
        texts.append(("behind", b"a line that the shell reads\n" + THREE_TRANSFERS))
        for name, text in texts + list(zip(("settings", "settings.plan"), many_settings())):
            with open(name, "wb") as file:
                file.write(text)
        unreadable_files(room)
        forbidden_file(room)
        endless_files()
        pipes()
        pipes_as_files()
        inputs()
        inputs_named_twice()
        many_reads()
        long_answers()
        closed_and_full_output()
        readers_that_go_away()
        short_writes()
    REPORT.finish()


if __name__ == "__main__":
    main()
