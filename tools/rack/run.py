#!/usr/bin/env python3
"""Tries the rack of processes of examples/rack, behind the relay and the cable of examples/board:
tools/rack/run.py [COUNT] [WORD]

    racks     each case is a run: host.py fills the modules with an image, has `exchange drive` set
              the switch over one cable, and reads the modules in the end; a process for each module
              obeys its orders, by the plan, a steady plan or a schedule by hand. COUNT random
              batches follow, 20 where it isn't said. At the end the image has to be the one that
              `exchange apply` makes
    rings     modules that do what they are told for link 0 before they look at link 3 hang in a
              ring, and in a transfer within a module
    repeats   each setting of each pattern is set and moved twice, the second time by a `drive` that
              begins with it, and one that isn't the last is denied
    C         modules are examples/board/module.c, compiled by the tables of orders_to_c.py over
              channels of inmos/, and so is relay.c, which sets the switch by the tables of
              switch_to_c.py
    tables    those of each module of each pattern, and of a switch, in occam and in C, are made
              into its orders and bytes again
    boards    modules are on other links of the switch, as a wiring says, and transfers are turned
              whose links aren't there; the cable ends at slot 0, behind which a second relay is;
              and a relay does what it is asked alone, and its host is meant for it
    faults    the cable loses a byte, has one too many, or falls silent, at 20 places each; tables
              are of another schedule, slots are exchanged, a module is missing or dies in each
              setting, a second host comes, or what comes is wrong: the host says so and ends, and
              says `driven` in none
    misuse    what the programs of the examples say of wrong words, of files, modules and programs
              that are missing, and of what isn't theirs
    ends      a cable may be a terminal, which has to be raw; a switch alone and a module alone are
              handed words in parts, and the switch words that come before it has settled; the two
              loops of the relay carry the bytes of `drive` and `c004`; a cable that ends ends the
              host; one that is told to end, at any moment, says so in a line, and leaves nothing;
              where a host is ended or killed the next one goes on, or says that the board has to be
              booted

Each has a folder of its own, and as many run at once as there are processors. What isn't built yet
is proved and built first, and all is installed in a folder for the while. Another one is tried
where RACK names it. With WORD only those run that have it in their names.
"""

import contextlib
import ctypes
import fcntl
import functools
import itertools
import math
import os
import random
import re
import select
import signal
import socket
import subprocess
import sys
import tempfile
import termios
import threading
import time
import traceback
import tty
import venv
from concurrent.futures import ThreadPoolExecutor
from pathlib import Path

TOP = os.path.dirname(os.path.dirname(os.path.dirname(os.path.abspath(__file__))))
EXAMPLES = f"{TOP}/examples"
HOST, RACK, RELAY = (
    f"{EXAMPLES}/board/host.py",
    f"{EXAMPLES}/rack/rack.py",
    f"{EXAMPLES}/board/relay.py",
)
sys.path[:0] = f"{TOP}/tools", f"{TOP}/tools/hostile", f"{EXAMPLES}/board"
# Nothing is left in the folder of the examples.
sys.dont_write_bytecode = True

import harness  # noqa: E402
import host  # noqa: E402
from harness import Report  # noqa: E402
import plain  # noqa: E402
import relay  # noqa: E402
import spoil  # noqa: E402
import tables  # noqa: E402

# Bytes by which a host begins: -2 and three numbers.
WAITING = 16

# Seconds that a run has, those in which one that hangs says nothing more, and those that a host
# waits for a byte where one is missing.
LIMIT, SILENCE, PATIENCE = 300, 2, 3

RING = "batch 4\npush 0 0 1 0\npush 1 0 2 0\npush 2 0 3 0\npush 3 0 0 0\n"
WITHIN = "batch 1\npush 1 0 1 3\n"
ITSELF = "batch 2\npush 0 2 0 2\npush 0 2 1 0\n"
PULLS = "batch 2\npull 0 1 2 3\npull 2 3 0 1\n"
BACKWARDS = "batch 3\npull 2 0 0 0\npush 3 0 2 1\npush 3 1 0 1\n"
APART = "settings 3\nsetting 0\nsetting 1\nsetting 2\n"

# In place of INMOS's headers, and the words of the compiler.
INMOS, FLAGS = (
    f"{TOP}/tools/rack/inmos",
    ["-std=c89", "-Wall", "-Wextra", "-Wno-strict-prototypes", "-Werror"],
)


def read(name):
    with open(f"{EXAMPLES}/{name}", encoding="utf-8") as file:
        return file.read()


def transposition(count):
    """Block b of module m and block m of module b change places, among so many modules."""
    pairs = [(m, b) for m in range(count) for b in range(count) if m != b]
    return f"batch {len(pairs)}\n" + "".join(f"push {m} {b} {b} {m}\n" for m, b in pairs)


# Each case: its name, the shape, the batch, and the words or the schedule by which it goes.
CASES = [
    ("the plan", "3x2x2", read("three-transfers.txt"), []),
    ("the plan of a transposition", "10x10x4", transposition(10), []),
    ("the largest blocks", "2x1x256", read("swap.txt"), []),
    ("a steady plan", "4x24x1", read("patterns/three-blocks.txt"), ["--steady"]),
    ("a steady plan of a transposition", "10x10x4", transposition(10), ["--steady"]),
    ("a schedule by hand", "3x2x2", read("three-transfers.txt"), APART),
    ("a swap, one at a time", "2x1x2", read("swap.txt"), "settings 2\nsetting 0\nsetting 1\n"),
    (
        "a rotation, the other way round",
        "3x1x2",
        read("ring.txt"),
        "settings 3\nsetting 2\nsetting 1\nsetting 0\n",
    ),
    (
        "empty settings",
        "3x1x2",
        read("relay.txt"),
        "settings 4\nsetting\nsetting 1\nsetting\nsetting 0\n",
    ),
    ("a ring", "4x1x16", RING, []),
    ("a ring of all modules", "16x2x1", read("patterns/ring-shift.txt"), []),
    ("a transfer within a module", "2x4x2", WITHIN, []),
    ("a block that is sent to itself", "2x4x2", ITSELF, "settings 2\nsetting 0\nsetting 1\n"),
    ("pulls", "3x4x2", PULLS, []),
    ("two switches", "17x2x2", read("wide-rack.txt"), []),
    ("two switches, and a batch that needs one", "17x1x1", read("swap.txt"), []),
    ("no transfers", "2x1x1", "batch 0\n", []),
    ("no ring, links in turn", "3x2x2", read("three-transfers.txt"), ["--in-turn"]),
    ("a cable to slot 0", "3x2x2", read("three-transfers.txt"), ["--slot-0"]),
    ("a cable to slot 0, and two switches", "17x2x2", read("wide-rack.txt"), ["--slot-0"]),
    ("a wiring", "3x2x2", read("three-transfers.txt"), ["--wiring", "wiring"]),
    ("a wiring, and a cable to slot 0", "4x2x2", BACKWARDS, ["--wiring", "backwards", "--slot-0"]),
    ("nine modules over a wiring", "9x9x2", transposition(9), ["--wiring", "turned", "--steady"]),
]

# The wirings of these cases. The second has no link 0 of module 0, no link 3 of module 3,
# and no module 1.
WIRINGS = {
    "wiring": (
        "wiring 3\nmodule 0 link 0 at 4 link 3 at 21\nmodule 1 link 0 at 5 link 3 at 22\n"
        "module 2 link 0 at 11 link 3 at 0\n"
    ),
    "backwards": (
        "wiring 3\nmodule 0 link 0 none link 3 at 31\nmodule 2 link 0 at 30 link 3 at 29\n"
        "module 3 link 0 at 1 link 3 none\n"
    ),
    "turned": "wiring 16\n"
    + "".join(f"module {m} link 0 at {16 + m} link 3 at {m}\n" for m in range(16)),
}

# What runs with modules in C, each with the words or the schedule by which it goes.
IN_C = [
    ("the plan", "3x2x2", read("three-transfers.txt"), []),
    ("a swap", "2x1x256", read("swap.txt"), []),
    (
        "a ring, the other way round",
        "3x1x2",
        read("ring.txt"),
        "settings 3\nsetting 2\nsetting 1\nsetting 0\n",
    ),
    ("a steady plan", "4x24x1", read("patterns/three-blocks.txt"), ["--steady"]),
    ("two switches", "17x2x2", read("wide-rack.txt"), []),
]

# What hangs with links in turn.
RINGS = [("a ring", "4x1x16", RING), ("a transfer within a module", "2x4x2", WITHIN)]

# A module's program that is module.py but for what some lines change.
PROGRAM = """#!{python}
import os, signal, sys, time
sys.dont_write_bytecode = True
sys.path[:0] = ["{examples}/rack"]
import module
{change}
sys.argv[1:1] = ["{m}", "{shape}", "{batch}", "{schedule}"]
try:
    module.main()
except (EOFError, ConnectionError):
    sys.exit(module.LINK_ENDED)
"""

# It dies once it is told of setting K, stays in setting 0, gives -2 back late,
# or another number than 0.
DIES = (
    "orders = module.Module.orders\nmodule.Module.orders = lambda self, k: os.kill(os.getpid(), "
    "9) if k == {} else orders(self, k)"
)
STAYS = (
    "orders = module.Module.orders\nmodule.Module.orders = lambda self, k: "
    f"time.sleep({LIMIT}) if k == 0 else orders(self, k)"
)
WAITS = (
    "orders = module.Module.orders\nmodule.Module.orders = lambda self, k: "
    f"k == -2 and time.sleep({SILENCE}) or orders(self, k)"
)
ERRS = "sent = module.sent\nmodule.sent = lambda *told: sent(*(it + (it == 0) for it in told))"

# A relay that hands on what comes back a tenth of a second late.
LATE = f"""#!{sys.executable}
import sys, time
sys.dont_write_bytecode = True
sys.path[:0] = ["{EXAMPLES}/board"]
import relay
select = relay.select.select
relay.select.select = lambda *ends: (select(*ends), time.sleep(0.1))[0]
relay.main()
"""

# A host whose lines are read, and that reads.
PAUSED = {"stdin": subprocess.PIPE, "stderr": subprocess.DEVNULL}

# What joins link 0 of module 0 and link 3 of module 1.
# Behind that a switch isn't ready until SETTLE comes.
JOIN, SETTLE = b"\4\1\0\x11", b"\3"
LOOSE = (
    "switch.py: words come over {}, which isn't joined; have rack.py and host.py the same wiring "
    "and schedule?\n"
)

# A block of 256 words, as it comes over a link.
PARTS = [b"a" * 600, b"b" * 424]

# The rack whose cable is spoilt: the words of a run, how many bytes of the cable come after
# `driven`, and which bytes are the modules'.
SPOILT = "2x1x1", read("swap.txt"), []
TAIL = 8, 48

# From which of the bytes that come back on there are none, counted from the end where it is
# negative, and what is awaited then.
SILENT = {
    0: "-2 from the modules",
    12: "-2 from the modules",
    16: "from the relay whether it has tables",
    18: "what module 0 has",
    23: "what module 0 has",
    30: "what module 1 has",
    42: "what module 2 has, or -3 where the chain ends",
    46: "-4 from the modules, once module 0 has its words",
    50: "-4 from the modules, once module 1 has its words",
    54: "an answer of the switch to drive",
    -52: "0 from the modules, which have to do setting 0",
    -48: "what module 0 has, or -5 where the chain ends",
    -36: "the words of module 0",
    -4: "-1 from the modules, which end",
}

started = []


def stop(*_):
    """Ends all that runs, and this."""
    for run in started:
        end_all(run)
    os._exit(1)


def end_all(run):
    """Ends a program and all that it has started."""
    with contextlib.suppress(ProcessLookupError):
        os.killpg(run.pid, signal.SIGKILL)


class Room:
    """A folder in which racks and hosts run, by what is installed."""

    def __init__(self, installed, path, what, report=None):
        self.installed, self.path, self.what, self.started = installed, path, what, []
        self.report = report or Report("rack", is_silent=True)
        self.program = f"{installed}/bin/exchange"
        package = next(Path(installed).rglob("exchange/py.typed")).parent
        # What a rack that is killed leaves goes with this folder.
        places = {"EXCHANGE": self.program, "PYTHONPATH": str(package.parent), "TMPDIR": path}
        self.env = {**os.environ, **places, "PYTHONDONTWRITEBYTECODE": "1"}

    def at(self, name):
        return f"{self.path}/{name}"

    def expect(self, well, told=""):
        self.report.judge(self.what, [] if well else [str(told)])

    def also(self, part, well, told=""):
        self.report.judge(f"{self.what}: {part}", [] if well else [str(told)])

    def pipes(self, *names):
        for name in names:
            for way in "in", "out":
                os.mkfifo(self.at(f"{name}.{way}"))

    def write(self, shape, batch, schedule):
        """Writes the files of a run, whose words are those of a rack and of a host.
        Words of an option are such."""
        self.shape, self.options = shape, schedule
        Path(self.at("batch")).write_text(batch)
        Path(self.at("image")).write_bytes(
            random.Random(self.what).randbytes(4 * math.prod(map(int, shape.split("x"))))
        )
        for name, wiring in WIRINGS.items():
            Path(self.at(name)).write_text(wiring)
        if isinstance(schedule, str):
            Path(self.at("schedule")).write_text(schedule)
            self.options = ["--schedule", self.at("schedule")]

    def start(self, *words, **settings):
        settings = {
            "env": self.env,
            "cwd": self.path,
            "stdout": subprocess.PIPE,
            "stderr": subprocess.STDOUT,
            "start_new_session": True,
            **settings,
        }
        run = subprocess.Popen([sys.executable, *words], **settings)
        self.started.append(run)
        started.append(run)
        return run

    def rack(self, *options, **settings):
        return self.start(RACK, self.shape, "batch", *self.options, *options, **settings)

    def host(self, *options, cable="cable", batch="batch", **settings):
        own = [word for word in self.options if word not in ("--slot-0", "--in-turn")]
        shape = ["--shape", self.shape] if "--image" in [*own, *options] else []
        return self.start(HOST, cable, batch, *shape, *own, *options, **settings)

    def end(self, run):
        """What a program says to its end, but for the numbers of a rack's processes, and what a
        host awaits on a busy machine. No failure is told by Python."""
        try:
            told = run.communicate(timeout=LIMIT)[0].decode()
        except subprocess.TimeoutExpired:
            told = "it hangs"
        self.also("a traceback", "Traceback" not in told, told)
        return re.sub(
            (
                r"(?m)^(?:rack\.py: switch\.py \d+, |host\.py: nothing has come for 5 s; "
                r"awaited is ).*\n"
            ),
            "",
            told,
        )

    def close(self):
        """Ends what still runs."""
        for run in self.started:
            end_all(run)
            run.wait()

    def ask(self, *words):
        return subprocess.run(
            [self.program, *words], stdout=subprocess.PIPE, cwd=self.path, check=True
        ).stdout

    def orders(self, *options):
        return self.ask(
            "orders",
            "batch",
            *(word for word in self.options if word not in ("--slot-0", "--in-turn")),
            *options,
        ).decode()

    def is_left(self):
        """Whether the image that a host left is that of the program."""
        left = Path(self.at("left"))
        return left.exists() and left.read_bytes() == self.ask(
            "apply", self.shape, "batch", "image"
        )

    def programs(self, changes, tables=None):
        """Writes a program for each module, and gives the option that has a rack take them. The
        tables are those of the modules' own numbers, or of others."""
        os.makedirs(self.at("modules"))
        Path(self.at("plan")).write_bytes(self.ask("plan", "batch"))
        for m in range(int(self.shape.split("x")[0])):
            words = {
                "shape": self.shape,
                "batch": self.at("batch"),
                "schedule": self.at("schedule" if "--schedule" in self.options else "plan"),
            }
            words.update(
                {
                    "m": (tables or {}).get(m, m),
                    "change": changes.get(m, ""),
                    "python": sys.executable,
                    "examples": EXAMPLES,
                }
            )
            Path(self.at(f"modules/{m}")).write_text(PROGRAM.format(**words))
            os.chmod(self.at(f"modules/{m}"), 0o755)
        return "--modules", "modules"


class Between:
    """A cable that is spoilt at a place: it loses a byte there, has one too many, has another one,
    or is silent from there on. It leads from the host's pipes to those of a rack, which has
    begun."""

    def __init__(self, room, kind="", way=0, place=None, byte=0, options=()):
        self.goes_on = threading.Event()
        self.room, self.kind, self.way, self.place, self.byte, self.counts = (
            room,
            kind,
            way,
            place,
            bytes([byte]),
            [0, 0],
        )
        room.pipes("cable", "inner")
        self.rack = room.rack("--cable", "inner", *options)
        # Once -2 comes back all of them are there.
        self.ends = [self.said_to_the_rack(), os.open(room.at("inner.out"), os.O_RDONLY)]
        os.write(self.ends[0], b"\1\xfe\1\xff")
        room.expect(take(self.ends[1], 4) == b"\1\xfe\1\xff", "the rack isn't there")
        for number in 0, 1:
            threading.Thread(target=self.carry, args=(number,), daemon=True).start()

    def said_to_the_rack(self):
        """The end by which the rack hears, once it is there. A rack that has ended never comes."""
        while self.rack.poll() is None:
            with contextlib.suppress(OSError):
                end = os.open(self.room.at("inner.in"), os.O_WRONLY | os.O_NONBLOCK)
                os.set_blocking(end, True)
                return end
            time.sleep(0.01)
        raise ChildProcessError(self.room.end(self.rack))

    def carry(self, way):
        """Carries what one host after the other sends, or what comes back."""
        # The host, or the rack, may end at any time, and the folder.
        with contextlib.suppress(OSError):
            while True:
                # What comes back once a host has gone waits for the next one.
                far = os.open(
                    self.room.at(("cable.in", "cable.out")[way]), (os.O_RDONLY, os.O_RDWR)[way]
                )
                if self.kind == "held":
                    fcntl.fcntl(far, fcntl.F_SETPIPE_SZ, 4096)
                source, target = ((far, self.ends[0]), (self.ends[1], far))[way]
                while came := os.read(source, 1):
                    is_here = way == self.way and self.counts[way] == self.place
                    is_past = (
                        way == self.way
                        and self.place is not None
                        and self.counts[way] >= self.place
                    )
                    self.counts[way] += 1
                    if self.kind == "held":
                        if is_here:
                            self.goes_on.wait()
                    elif is_here and self.kind != "silent":
                        came = {
                            "lost": b"",
                            "more": self.byte + came,
                            "other": bytes([came[0] ^ 0x80]),
                        }[self.kind]
                    if not (is_past and self.kind == "silent"):
                        os.write(target, came)
                os.close(far)
                if way == 1:
                    return


def take(end, count):
    """So many bytes that come over an end."""
    taken = b""
    while len(taken) < count and (part := os.read(end, count - len(taken))):
        taken += part
    return taken


def is_moved(room, *case, options=()):
    """Notes whether the rack leaves what the program says."""
    room.write(*case)
    run = room.rack("--image", "image", "--image-out", "left", *options)
    told = room.end(run)
    settings = re.fullmatch(r"(?:setting \d+(?: \d+)*\n)*driven settings (\d+)\n", told)
    is_told = settings and told.count("\n") == 1 + int(settings[1])
    room.expect(run.returncode == 0 and is_told and room.is_left(), f"{case}\n{told}")


def hangs(room, *case):
    """Notes whether a rack whose links move in turn says nothing behind its only setting."""
    room.write(*case, ["--in-turn"])
    run = room.rack(stderr=subprocess.DEVNULL)
    told = run.stdout.readline()
    room.expect(
        told.startswith(b"setting 0 ") and not select.select([run.stdout], [], [], SILENCE)[0], told
    )


def refuses(room, line, front, *case, options=()):
    """Notes whether the rack isn't started, and says this, and in a second line, which begins so,
    which file it is about; {} is the folder."""
    room.write(*case)
    run = room.rack(*options)
    told = room.end(run)
    room.expect(run.returncode == 1 and told.startswith(f"{line}\n{front.format(room.path)}"), told)


def goes(room, order, is_well, *case):
    """Notes whether a rack that does settings in an order, each by a `drive` of its own,
    leaves what `apply` does."""
    room.write(*case)
    room.pipes("cable")
    run = room.rack("--cable", "cable")
    cable = host.Cable(room.at("cable"))
    count, due = host.read_orders(room.orders())
    cable.find_modules()
    shape = cable.compare(count, due)
    cable.fill(shape, Path(room.at("image")).read_bytes())
    for setting in order(range(count)):
        cable.find_modules()
        drive = host.Drive(
            cable, room.path, [host.SWITCH], room.at("batch"), *room.options, "--from", str(setting)
        )
        lines = drive.lines()
        cable.move(int(next(lines).split()[1]))
        drive.process.stdin.close()
        ended = list(lines)
        room.also(f"setting {setting} is left", ended == [f"left setting {setting}"], ended)
        drive.process.wait()
    Path(room.at("left")).write_bytes(cable.read(shape))
    cable.end_modules()
    os.close(cable.out)
    told = room.end(run)
    room.expect(run.returncode == 0 and told == "" and room.is_left() == is_well, told)


def compile_all(room, sources, *words):
    subprocess.run(
        [
            "cc",
            *FLAGS,
            *words,
            f"-I{room.path}",
            f"-I{INMOS}",
            *sources,
            f"{INMOS}/rack.c",
            "-lpthread",
        ],
        check=True,
    )


def is_moved_in_c(room, *case, by_tables=False, first=0):
    """Notes whether a rack of modules in C leaves what the program says, and one whose relay in C
    sets the switch itself, from a setting on."""
    room.write(*case)
    count, blocks, size = map(int, case[0].split("x"))
    os.makedirs(room.at("modules"))
    for m in range(count):
        Path(room.at("tables.h")).write_text(
            tables_of("orders_to_c", room.orders("--module", str(m)))
        )
        compile_all(
            room,
            [f"{EXAMPLES}/board/module.c"],
            f"-DBLOCKS={blocks}",
            f"-DBLOCK_BYTES={4 * size}",
            "-o",
            room.at(f"modules/{m}"),
        )
    if not by_tables:
        return is_moved(room, *case, options=["--modules", "modules"])
    relay_in_c(room)
    run = room.rack(
        "--modules",
        "modules",
        "--relay",
        "relay",
        "--tables",
        "--from",
        str(first),
        "--image",
        "image",
        "--image-out",
        "left",
    )
    told, moved = room.end(run), int(room.orders().split()[3])
    wanted = (
        "".join(f"moved setting {k}\n" for k in range(first, moved)) + f"moved settings {moved}\n"
    )
    room.expect(run.returncode == 0 and told == wanted and room.is_left(), told)
    # The tables of another wiring are seen. The next host fills the modules once more, and its
    # relay ends a command that was begun.
    room.pipes("cable")
    run = room.rack("--modules", "modules", "--relay", "relay", "--cable", "cable")
    Path(room.at("zeros")).write_bytes(bytes(os.path.getsize(room.at("image"))))
    other = room.host("--tables", "--wiring", "turned", "--image", "zeros")
    told = room.end(other)
    is_seen = re.fullmatch(
        r"host.py: \d+ came back, and awaited was the sum of the switch's tables, .*\n", told
    )
    room.also("a switch's other tables", other.returncode == 1 and is_seen, told)
    next(Path(room.path).glob("rack-*/board.in")).write_bytes(b"\0")
    os.remove(room.at("left"))
    told = (
        room.end(
            room.host("--tables", "--from", str(first), "--image", "image", "--image-out", "left")
        ),
        room.end(run),
    )
    room.also("the next host", told == (wanted, "") and room.is_left(), told)


def relay_in_c(room):
    """Compiles the relay by the tables of the room's batch."""
    Path(room.at("switch.h")).write_text(
        tables_of("switch_to_c", room.ask("switch", "batch", *room.options).decode())
    )
    compile_all(room, [f"{EXAMPLES}/board/relay.c"], "-DRELAY", "-o", room.at("relay"))


def does_what_it_is_asked(room, *case):
    """Notes whether a board that sets its switch itself says what it is, and takes the number of a
    setting after -3 alone. A host that means another board ends before a word moves."""
    room.write(*case)
    relay_in_c(room)
    room.pipes("cable")
    run = room.rack("--relay", "relay", "--cable", "cable")
    told = room.end(room.host("--image", "image"))
    said = "host.py: the relay sets the switch by tables of its own: that goes by --tables\n"
    room.also("a host without tables", told == said, told)
    found, ends = host.read_switch(room.ask("switch", "batch", *room.options).decode())
    there, back = (os.open(room.at(f"cable.{way}"), os.O_RDWR) for way in ("in", "out"))
    question, own = b"\3\0", b"\3\1"
    moved = host.sent(host.switch_sum(found, ends), *range(len(ends)), host.END)
    for numbers, came in (
        ([0], b""),
        ([host.READ, 0], b""),
        ([host.TABLES, 0], on_way_0(moved)),
        ([0], b""),
        ([host.TABLES, host.WAIT, 0], on_way_0(moved[:2])),
    ):
        os.write(there, on_way_0(host.sent(*numbers)) + question)
        told = take(back, len(came + own))
        room.also(f"{numbers}", told == came + own, told)
    os.write(there, b"\1\xff\1\xff")
    told = take(back, 4), room.end(run)
    room.expect(told == (b"\1\xff\1\xff", ""), told)
    os.close(there)
    os.close(back)


def on_way_0(words):
    return b"".join(bytes([host.SWITCH, byte]) for byte in words)


def has_no_tables(room, *options):
    """Notes whether a host that means a board with tables ends at one that has none."""
    room.write(*CASES[0][1:])
    room.pipes("cable")
    room.rack("--cable", "cable", *options)
    run = room.host("--tables", "--image", "image")
    told = room.end(run)
    said = "host.py: the relay has no tables of the switch, by which --tables goes\n"
    room.expect(told == said and run.returncode == 1, told)


def is_turned(room):
    """Notes whether transfers that use links which aren't there are turned, and no others, and
    those named that can't be: in batches of four modules, some of whose links aren't there."""
    draw, counts = random.Random(room.what), [0, 0]
    for _ in range(60):
        ends = [[draw.random() < 0.8 for _ in range(2)] for _ in range(4)]
        lines = [
            " ".join(
                f"link {3 * end} " + (f"at {2 * m + end}" if is_there else "none")
                for end, is_there in enumerate(pair)
            )
            for m, pair in enumerate(ends)
        ]
        wiring = "wiring 4\n" + "".join(f"module {m} {line}\n" for m, line in enumerate(lines))
        Path(room.at("wiring")).write_text(wiring)
        count = draw.randint(0, 4)
        numbers = [[draw.randrange(4), b, draw.randrange(4), 9 - b] for b in range(count)]
        batch = [" ".join(map(str, [draw.choice(["push", "pull"]), *it])) for it in numbers]
        wanted, lost = [f"batch {len(batch)}"], []
        for number, (line, (m, b, n, c)) in enumerate(zip(batch, numbers)):
            other = {"push": "pull", "pull": "push"}[line[:4]]
            ways = [
                (ends[m][0] and ends[n][1], line),
                (ends[n][0] and ends[m][1], f"{other} {n} {c} {m} {b}"),
            ]
            fit = [text for is_there, text in ways if is_there]
            wanted += fit[:1]
            lost += [] if fit else [f"transfer {number}, {line}: "]
        run = subprocess.run(
            [sys.executable, f"{EXAMPLES}/board/without_link.py", "wiring"],
            input="\n".join([f"batch {len(batch)}", *batch, ""]),
            capture_output=True,
            text=True,
            cwd=room.path,
            check=False,
        )
        counts[bool(lost)] += 1
        Path(room.at("turned")).write_text(run.stdout)
        if lost:
            said = [it.partition("without_link.py: ")[2] for it in run.stderr.splitlines()]
            is_well = run.stdout == "" and run.returncode == 1 and len(said) == len(lost)
            is_well = is_well and all(it.startswith(begun) for it, begun in zip(said, lost))
        else:
            is_well = run.stdout.splitlines() == wanted
            # It is refused where a link isn't there.
            room.ask("switch", "turned", "--wiring", "wiring")
        room.expect(is_well, f"{wiring}{batch}\n{run}")
    room.expect(min(counts) >= 10, counts)


def ends_by_tables(room, *case):
    """Notes whether a board that sets its switch itself ends
    where a module gives another number back, and its host too."""
    room.write(*case)
    relay_in_c(room)
    run = room.rack(*room.programs({0: ERRS}), "--relay", "relay", "--tables")
    said = (
        "host.py: 1 came back, and awaited was 0 from the relay, once setting 0 is moved\n"
        "rack.py: relay.py has ended with status 1\n"
    )
    room.expect((told := room.end(run)) == said and run.returncode == 1, told)


def are_told_again(room, path, words, modules):
    """Notes whether the tables of each module are made into its orders again,
    and those of the switch into its bytes."""
    room.write("1x1x1", path.read_text(), words)
    for m in range(modules):
        told = room.orders("--module", str(m))
        for language in "occam", "c":
            text = tables_of(f"orders_to_{language}", told)
            room.also(
                f"{language} of module {m}, {path} {words}",
                tables.orders(language, text) == told,
                text,
            )
    if modules <= 16:
        told = room.ask("switch", "batch", *words).decode()
        for language in "occam", "c":
            text = tables_of(f"switch_to_{language}", told)
            room.also(
                f"{language} of the switch, {path} {words}",
                tables.switch(language, text) == told,
                text,
            )


def tables_of(name, told):
    """The tables that are made of what the program prints."""
    return subprocess.run(
        [sys.executable, f"{EXAMPLES}/{name}.py"],
        input=told.encode(),
        stdout=subprocess.PIPE,
        check=True,
    ).stdout.decode()


def start_alone(room, name, *words, links):
    """Starts the switch or a module alone, with these links."""
    numbers = [link.fileno() for link in links]
    run = room.start(f"{EXAMPLES}/rack/{name}.py", *words, *map(str, numbers), pass_fds=numbers)
    for link in links:
        link.close()
    return run


def carries(room, sent, near_link, carried, said):
    """Notes what comes of words of a link at a switch that is sent these bytes: what goes on to
    link 3 of module 1, and what the switch tells at its end."""
    near, far = zip(*(socket.socketpair() for _ in range(4)))
    room.pipes("port")
    run = start_alone(room, "switch", "port", links=near)
    ports = [os.open(room.at(name), os.O_RDWR) for name in ("port.in", "port.out")]
    os.write(ports[0], sent)
    send(far[near_link], PARTS, [far[3]])
    came = hear(far[3], len(b"".join(PARTS))) if carried else b""
    for port in ports:
        os.close(port)
    found = came, room.end(run)
    room.expect(found == (carried, said), found)


def receives(room, parts, *wanted):
    """Notes what a module does that is told to receive a block, which comes in these parts: what it
    says before the last one, its acknowledge, the block that it gives back, and how it ends."""
    near, far = zip(*(socket.socketpair() for _ in range(3)))
    room.write("2x1x256", "batch 1\npush 0 0 1 0\n", "settings 1\nsetting 0\n")
    run = start_alone(room, "module", "1", "2x1x256", "batch", "schedule", links=near)
    far[2].sendall(b"\0\0\xfb\xff\xff\xff")
    early = send(far[1], parts, [far[1], far[2]])
    far[1].shutdown(socket.SHUT_WR)
    acknowledge, said = hear(far[1], 1), hear(far[2], 2 + 6 + 1024 + 2 + 2)
    last = room.end(run).splitlines()[-1:]
    found = early, acknowledge, said[:2], said[8:-4], said[-4:], last, run.returncode
    room.expect(found == wanted, found)


def send(link, parts, others):
    """Sends parts over a link, one once the one before has been seen, if the other end is there:
    what of these can be read before the last."""
    ready = []
    # The other end may be gone.
    with contextlib.suppress(BrokenPipeError, ConnectionResetError):
        for part in parts:
            ready = select.select(others, [], [], SILENCE)[0]
            link.sendall(part)
    return ready


def hear(link, count):
    """So many bytes that come over a link, or those that come before it ends
    or says nothing more."""
    taken = b""
    # The other end may be gone, and have left bytes.
    with contextlib.suppress(ConnectionResetError):
        while (
            len(taken) < count
            and select.select([link], [], [], 5 * SILENCE)[0]
            and (part := link.recv(count - len(taken)))
        ):
            taken += part
    return taken


def is_relayed(room):
    """Notes whether the relay's two loops carry the bytes between `drive` and `c004`."""
    room.pipes("port", "config")
    runs = [
        room.start(RELAY, "port", "config"),
        room.start(
            "-c",
            "import os, sys; os.execv(sys.argv[1], ['exchange', 'c004'])",
            room.program,
            stdin=os.open(room.at("config.in"), os.O_RDWR),
            stdout=os.open(room.at("config.out"), os.O_RDWR),
        ),
    ]
    told = room.ask("drive", f"{EXAMPLES}/three-transfers.txt", "port", "--go-on")
    room.expect(
        told == b"setting 0 0 2\nsetting 1 1\ndriven settings 2\n" and runs[0].wait() == 0, told
    )


def relay_ends(room, sent, status, said):
    """Notes how a relay ends whose chain has ended, and which is sent these bytes."""
    room.pipes("cable", "config")
    near, far = socket.socketpair()
    far.close()
    run = room.start(RELAY, "cable", "config", str(near.fileno()), pass_fds=[near.fileno()])
    held = [
        os.open(room.at(name), os.O_RDWR)
        for name in ("cable.in", "cable.out", "config.in", "config.out")
    ]
    os.write(held[0], sent)
    told = room.end(run)
    room.expect((run.returncode, told) == (status, said), told)


def is_moved_over_a_pty(room, *case):
    """Notes whether a rack whose cable is a terminal leaves what the program says."""
    room.write(*case)
    room.pipes("cable")
    run = room.rack("--cable", "cable")
    far, near = os.openpty()
    tty.setraw(near)
    there, back = (
        os.open(room.at("cable.in"), os.O_WRONLY),
        os.open(room.at("cable.out"), os.O_RDONLY),
    )
    for ends in (far, there), (back, far):
        threading.Thread(target=relay.carry, args=ends, daemon=True).start()
    driven = room.host("--image", "image", "--image-out", "left", cable=os.ttyname(near))
    driven.stdout.readline()
    # The terminal that it is sent signals by.
    own = Path(f"/proc/{driven.pid}/stat").read_text().rpartition(")")[2].split()[4]
    told = room.end(driven), room.end(run), own
    room.expect(
        driven.returncode == run.returncode == 0 and told[1:] == ("", "0") and room.is_left(), told
    )


def is_cooked(room):
    """Notes whether a host says what a terminal does with bytes, and reads none."""
    room.write(*CASES[0][1:])
    for change, said in (
        (lambda flags: None, "icrnl, ixon, opost, icanon, echo, isig, not min 1 time 0"),
        (lambda flags: flags[6].__setitem__(termios.VTIME, 20), "not min 1 time 0"),
        (lambda flags: flags.__setitem__(0, termios.IXON), "ixon"),
    ):
        far, near = os.openpty()
        if "icanon" not in said:
            tty.setraw(near)
            flags = termios.tcgetattr(near)
            change(flags)
            termios.tcsetattr(near, termios.TCSANOW, flags)
        name = os.ttyname(near)
        told = room.end(room.host(cable=name))
        line = (
            f"host.py: {name} isn't raw ({said}), at 38400 baud: first stty -F {name} SPEED raw "
            "-echo min 1 time 0\n"
        )
        room.also(said, told == line, told)
        os.close(far)
        os.close(near)


def ends(room, switches, *words):
    """Notes whether the host, at so many switches, ends where its cable does before one has
    answered, and drops what was there."""
    room.write("1x1x1", "batch 1\npush 0 0 0 0\n", [])
    room.pipes("cable")
    held = os.open(room.at("cable.out"), os.O_RDWR)
    # What was left of an earlier host, one byte of it a way that isn't one.
    os.write(held, b"\7\1\xfe\1\xff\1")
    run = room.host(*words)
    there = os.open(room.at("cable.in"), os.O_RDONLY)
    orders = host.orders_sum([], [[(0, "send block", 0), (3, "receive block", 0)]])
    # Where the modules wait all numbers come back.
    told = take(there, WAITING)
    room.also("it begins", told.startswith(b"\1\xfe\1\xff"), told)
    os.write(held, told)
    for awaited, reply in (
        (b"\3\0", b"\3\0"),
        (
            b"\1\xfd\1\xff",
            b"".join(bytes([1, byte]) for byte in host.sent(orders, 1, 1, host.TABLES)),
        ),
    ):
        told = take(there, len(awaited))
        room.also(f"{awaited}", told == awaited, told)
        os.write(held, reply)
    take(there, 2)
    room.also("ports", len([*Path(room.path).glob("host-*/port?.in")]) == switches)
    os.close(held)
    os.close(there)
    told = room.end(run)
    is_well = "stopped setting 0 port" in told and told.endswith(
        "host.py: the cable has ended, and awaited was an answer of the switch to drive\n"
    )
    room.expect(is_well and run.returncode == 1, told)


def is_cut(room):
    """Notes whether a host ends to which nobody at the board listens any more."""
    room.write("1x1x1", "batch 1\npush 0 0 0 0\n", [])
    room.pipes("cable")
    held = os.open(room.at("cable.out"), os.O_RDWR)
    run = room.host()
    os.close(os.open(room.at("cable.in"), os.O_RDONLY))
    found = room.end(run), run.returncode
    os.close(held)
    room.expect(found == ("host.py: the cable has ended, or drive has\n", 1), found)


def finds_the_program(room):
    """Notes whether a rack finds the program in the folder that it is started in,
    where nothing else says where it is."""
    os.symlink(room.program, room.at("exchange"))
    room.env = {
        **{name: text for name, text in room.env.items() if name != "EXCHANGE"},
        "PATH": os.defpath,
    }
    is_moved(room, *CASES[0][1:])


def is_ended(room, by):
    """Notes whether a rack, and a host, that a signal ends say so in a line each, and leave no
    folder and no process. The rack itself has no end of a link."""
    room.write(*CASES[0][1:])
    room.pipes("cable")
    run, paused = (
        room.rack("--cable", "cable", stderr=subprocess.PIPE),
        room.host("--pause", stdin=subprocess.PIPE, stderr=subprocess.PIPE),
    )
    numbers = re.findall(r" (\d+)[,\n]", run.stderr.readline().decode())
    told, made = paused.stdout.readline(), folders(room)
    numbers += Path(f"/proc/{paused.pid}/task/{paused.pid}/children").read_text().split()
    links = [
        it
        for it in Path(f"/proc/{run.pid}/fd").iterdir()
        if int(it.name) > 2 and os.readlink(it).startswith("socket:")
    ]
    for it in run, paused:
        it.send_signal(by)
    texts = [it.communicate(timeout=LIMIT)[1].decode() for it in (run, paused)]
    # This one takes over the processes whose own are gone, and waits for none of these. So what
    # wasn't waited for is still there.
    left = [number for number in numbers if os.path.exists(f"/proc/{number}")]
    found = (
        told,
        len(made),
        folders(room),
        [run.returncode, paused.returncode],
        len(numbers),
        links,
        left,
        [re.sub("host.py: nothing has come .*\n", "", text) for text in texts],
    )
    lines = [f"{name}: ended by {signal.Signals(by).name}\n" for name in ("rack.py", "host.py")]
    room.expect(
        found == (b"setting 0 0 2\n", 2, set(), [128 + by] * 2, 6, [], [], lines),
        f"{found} {texts}",
    )


def is_interrupted(room, program, seconds):
    """Notes whether a rack with its host, or a host without a rack, that are interrupted say so in
    a line each at most, so many seconds after they have begun. Setting 0 never ends."""
    room.write(*CASES[0][1:])
    room.pipes("cable")
    if program == "rack.py":
        run = room.rack(*room.programs({0: STAYS}), "--image", "image")
    else:
        run = room.host("--image", "image")
    # Until then Python has not come to the program.
    until = time.monotonic() + 10 * SILENCE
    while not (is_there := is_blocked(run.pid, signal.SIGINT)) and time.monotonic() < until:
        pass
    time.sleep(seconds)
    os.killpg(run.pid, signal.SIGINT)
    lines = room.end(run).splitlines()
    said = [it for it in lines if it != "setting 0 0 2"]
    lines = {f"{name}: ended by SIGINT" for name in ("rack.py", "host.py")}
    is_well = f"{program}: ended by SIGINT" in said and set(said) <= lines and len(said) <= 2
    is_well = is_well and is_there and folders(room) == set()
    room.expect(is_well and run.returncode == 130, f"{is_there} {said} {run}")


def is_blocked(process, number):
    """Whether a process blocks a signal."""
    with contextlib.suppress(OSError):
        status = Path(f"/proc/{process}/status").read_text()
        return bool(int(re.search(r"SigBlk:\s*(\w+)", status)[1], 16) >> (number - 1) & 1)
    return False


def is_followed(room, by, place):
    """Notes what comes of a host that a signal ends as it fills the modules, once the board has
    taken so many bytes: the next host goes on. Where the first one was killed, the next one says
    what is to be done."""
    room.write("2x8x256", read("swap.txt"), [])
    between = Between(room, "held", 0, place)
    first = room.host("--image", "image")
    while between.counts[0] < place:
        time.sleep(0.01)
    # By then it waits for the cable, which is a small one.
    time.sleep(SILENCE)
    first.send_signal(by)
    if by == signal.SIGKILL:
        first.wait()
    between.goes_on.set()
    told = room.end(first), first.returncode
    second = room.host("--image", "image", "--image-out", "left", "--patience", str(PATIENCE))
    if by == signal.SIGKILL:
        said = room.end(second)
        is_said = f"nothing has come for {PATIENCE} s; awaited was -2 from the modules" in said
        is_said = is_said and said.endswith("boot the relay and the modules again\n")
        room.expect(is_said and second.returncode == host.SILENT, said)
    else:
        line = f"host.py: ended by {signal.Signals(by).name}\n"
        said = room.end(second)
        is_well = told == (line, 128 + by) and said == "setting 0 0 1\ndriven settings 1\n"
        room.expect(is_well and room.is_left(), f"{told} {said}")


def is_followed_at_once(room):
    """Notes whether a host goes on that follows one which ended before -2 came back to it."""
    room.write(*SPOILT)
    between = Between(room, options=room.programs({0: WAITS}))
    first = room.host("--image", "image")
    while between.counts[0] < 4:
        time.sleep(0.01)
    first.terminate()
    told = room.end(first), room.end(room.host("--image", "image", "--image-out", "left"))
    driven = "setting 0 0 1\ndriven settings 1\n"
    room.expect(told == ("host.py: ended by SIGTERM\n", driven) and room.is_left(), told)


def hears_all(room):
    """Notes whether a rack ends no sooner than its host has heard what the modules say last,
    whose relay is late."""
    room.write(*CASES[0][1:])
    room.pipes("cable")
    Path(room.at("relay")).write_text(LATE)
    os.chmod(room.at("relay"), 0o755)
    run = room.rack("--cable", "cable", "--relay", "relay")
    driven = room.host()
    told = room.end(driven), room.end(run), driven.returncode, run.returncode
    room.expect(told == ("setting 0 0 2\nsetting 1 1\ndriven settings 2\n", "", 0, 0), told)


def folders(room):
    """The folders of racks and hosts that are there."""
    return {it.name for name in ("rack-*", "host-*") for it in Path(room.path).glob(name)}


def goes_on(room):
    """Notes whether a rack goes on whose host was killed in its pause before setting 1, and one
    follows that begins there. While it was there no other had the cable."""
    room.write(*CASES[0][1:])
    room.pipes("cable")
    run, paused = room.rack("--cable", "cable"), room.host("--pause", "--image", "image", **PAUSED)
    told = [paused.stdout.readline()]
    is_silent = not select.select([paused.stdout], [], [], SILENCE)[0]
    second = room.host()
    room.also(
        "a second host",
        (room.end(second), second.returncode) == ("host.py: another host has cable\n", 1),
    )
    paused.stdin.write(b"\n")
    paused.stdin.flush()
    told.append(paused.stdout.readline())
    paused.kill()
    paused.wait()
    told += [room.end(it) for it in (room.host("--from", "1", "--image-out", "left"), run)]
    room.expect(
        is_silent
        and told == [b"setting 0 0 2\n", b"setting 1 1\n", "setting 1 1\ndriven settings 2\n", ""]
        and room.is_left(),
        told,
    )


def pauses(room):
    """Notes whether modules hear of a setting once the return key is hit, and not before:
    the first of them dies by that."""
    room.write(*CASES[0][1:])
    room.pipes("cable")
    run, paused = (
        room.rack("--cable", "cable", *room.programs({0: DIES.format(0)})),
        room.host("--pause", **PAUSED),
    )
    told = paused.stdout.readline()
    time.sleep(SILENCE)
    is_there = run.poll() is None
    paused.stdin.write(b"\n")
    paused.stdin.flush()
    room.expect(
        told and is_there and room.end(run).endswith("rack.py: module 0 was killed by SIGKILL\n"),
        told,
    )


def waits(room):
    """Notes whether a host says who is awaited, waits on, and goes on once the rack is there."""
    room.write(*CASES[0][1:])
    room.pipes("cable")
    run = room.host()
    told = run.stdout.readline()
    is_said_once = not select.select([run.stdout], [], [], SILENCE)[0]
    rack = room.rack("--cable", "cable")
    room.expect(is_said_once, "it says so again")
    found = told, room.end(run), room.end(rack), run.returncode
    room.expect(
        found
        == (
            b"host.py: nothing has come for 5 s; awaited is a relay that reads cable.in\n",
            "setting 0 0 2\nsetting 1 1\ndriven settings 2\n",
            "",
            0,
        ),
        found,
    )


def ends_modules(room):
    """Notes whether the modules end where a host can't write the words that they have then."""
    room.write(*CASES[0][1:])
    room.pipes("cable")
    run, host_run = room.rack("--cable", "cable"), room.host("--image-out", "/dev/full")
    told = room.end(host_run), host_run.returncode, room.end(run), run.returncode
    driven = "setting 0 0 2\nsetting 1 1\ndriven settings 2\n"
    room.expect(
        told == (f"{driven}host.py: [Errno 28] No space left on device\n", 1, "", 0), told
    )


def host_says(room, said, cable, *words):
    """Notes whether a host ends at once, and says this."""
    room.write(*CASES[0][1:])
    for name in "file", "half.out":
        Path(room.at(name)).write_text("")
    os.mkfifo(room.at("half.in"))
    os.symlink("image", room.at("link"))
    run = room.host(*words, cable=cable)
    told = room.end(run)
    room.expect(run.returncode == 1 and told.endswith(said), told)


def is_flooded(room):
    """Notes whether a host ends to which bytes come without end before it has sent one."""
    room.pipes("cable")
    held = [os.open(room.at(f"cable.{way}"), os.O_RDWR) for way in ("in", "out")]
    room.start("-c", "import os, time\nwhile os.write(1, b'.'): time.sleep(0.1)", stdout=held[1])
    host_says(room, "host.py: cable: bytes come without end, before anything is sent\n", "cable")


def hears(room, said, replies, *words):
    """Notes whether a host ends that hears these of a board, or what it said itself, each once so
    many bytes have come, after a byte of a switch, and says this."""
    room.write("1x1x1", "batch 1\npush 0 0 0 0\n", [])
    room.pipes("cable")
    held = os.open(room.at("cable.out"), os.O_RDWR)
    run = room.host(*words)
    there = os.open(room.at("cable.in"), os.O_RDONLY)

    def reply():
        for count, numbers, *way in replies:
            told = take(there, count)
            numbers = told[1::2] if numbers is None else numbers
            pairs = (bytes([host.SWITCH_B, 0, *(way or [host.MODULES]), byte]) for byte in numbers)
            os.write(held, b"".join(pairs))

    threading.Thread(target=reply, daemon=True).start()
    told = room.end(run)
    room.expect(run.returncode == 1 and told.endswith(said), told)


def says(room, status, said, *words):
    """Notes whether a program ends with a status, and says this at the end of standard error, and
    nothing on standard output."""
    room.write("2x1x1", read("swap.txt"), [])
    run = subprocess.run(
        words,
        stdin=subprocess.DEVNULL,
        capture_output=True,
        text=True,
        cwd=room.path,
        env=room.env,
        check=False,
    )
    room.expect(run.returncode == status and run.stderr.endswith(said) and run.stdout == "", run)


def compares(room, said, case, changes, tables=None, options=None, batch=None):
    """Notes whether a host of another batch, or at modules of other programs, says how these
    differ, before a switch is set."""
    room.write(*case)
    room.pipes("cable")
    rack = room.rack("--cable", "cable", *room.programs(changes, tables))
    Path(room.at("other")).write_text(batch or case[1])
    room.options = room.options if options is None else options
    Path(room.at("file")).write_text("")
    run = room.host("--patience", str(LIMIT), batch="other")
    told = room.end(run)
    room.expect(
        run.returncode == 1 and told.endswith(said) and "driven" not in told,
        f"{told}\n{rack.poll()}",
    )


def says_what_differs(room):
    """Notes whether a rack says which link isn't joined, where its host has another wiring,
    and ends, and the host too."""
    room.write("3x2x2", read("three-transfers.txt"), ["--wiring", "wiring"])
    room.pipes("cable")
    run = room.rack("--cable", "cable")
    room.options = []
    driven = room.host()
    told = room.end(run), room.end(driven)
    is_well = "switch.py: words come over link 0 of module " in told[0] and told[0].endswith(
        "rack.py: switch.py has ended with status 1\n"
    )
    is_host_well = told[1].endswith(
        "host.py: the cable has ended, and awaited was 0 from the modules, which have to do "
        "setting 0\n"
    )
    room.expect(is_well and is_host_well and run.returncode == driven.returncode == 1, told)


def says_who_is_killed(room, m, setting, *options):
    """Notes whether a rack one of whose modules is killed in a setting says so, and ends,
    and its host too."""
    room.write("3x2x2", read("three-transfers.txt"), APART)
    room.pipes("cable")
    run = room.rack(*room.programs({m: DIES.format(setting)}), *options)
    runs = [run, room.host()] if options else [run]
    told = [room.end(it) for it in runs]
    is_well = told[0].endswith(f"rack.py: module {m} was killed by SIGKILL\n") and all(
        it.returncode == 1 for it in runs
    )
    room.expect(
        is_well and "driven" not in "".join(told) and f"setting {setting} " in told[-1], told
    )


def ends_its_host(room):
    """Notes whether a rack that fails before its host has opened the cable ends that too."""
    room.write(*CASES[0][1:])
    Path(room.at("slow")).write_text(f'#!/bin/sh\nsleep 5\nexec {room.program} "$@"\n')
    os.chmod(room.at("slow"), 0o755)
    room.env["EXCHANGE"] = room.at("slow")
    told = room.end(room.rack(*room.programs({0: "os.kill(os.getpid(), 9)"})))
    room.expect(told.endswith("rack.py: module 0 was killed by SIGKILL\n"), told)


def is_spoilt(room, kind, way, place, byte, said=r"(?m)^host\.py: |^stopped setting 0 "):
    """Notes whether a host whose cable is spoilt ends, says so, and drives no batch to its end."""
    room.write(*SPOILT)
    Between(room, kind, way, place, byte)
    run = room.host("--patience", str(PATIENCE), "--image", "image", "--image-out", "left")
    told = room.end(run)
    room.expect(
        run.returncode in (1, host.SILENT) and "driven" not in told and re.search(said, told), told
    )


def falls_silent(room, way, place, awaited):
    """Notes whether a host says what is awaited of a cable that falls silent. On a busy machine it
    may be something before: then it is tried once more, with more patience."""
    for patience in PATIENCE, 8 * PATIENCE:
        with (
            tempfile.TemporaryDirectory(dir=room.path) as path,
            contextlib.closing(Room(room.installed, path, room.what, room.report)) as inner,
        ):
            inner.write(*SPOILT)
            Between(inner, "silent", way, place)
            left = Path(inner.at("left"))
            left.write_text("old")
            run = inner.host("--patience", str(patience), "--image", "image", "--image-out", "left")
            told = inner.end(run)
            is_whole = left.read_bytes() == b"old" or inner.is_left()
            # Modules that have ended end the cable.
            for status, why in (
                (host.SILENT, f"nothing has come for {patience} s;"),
                (1, "the cable has ended, and"),
            ):
                is_told = f"host.py: {why} awaited was {awaited}" in told
                if run.returncode == status and is_told and is_whole:
                    room.expect(True)
                    return
    room.expect(False, told)


def comes_again(room, place):
    """Notes whether modules wait on for the next host where a switch answers something else at a
    place, so that `drive` stops."""
    room.write(*SPOILT)
    Between(room, "other", 1, place)
    Path(room.at("zeros")).write_bytes(bytes(8))
    first = room.host("--image", "zeros")
    told = room.end(first)
    is_told = "stopped setting 0 " in told and "driven" not in told
    second = room.host("--image", "image", "--image-out", "left")
    room.expect(
        is_told
        and first.returncode == 1
        and room.end(second).endswith("driven settings 1\n")
        and room.is_left(),
        told,
    )


def random_case(draw):
    """A shape, a batch in which no block is written twice, and a schedule of some kind."""
    shape = (draw.randint(1, 8), draw.randint(1, 4), draw.randint(1, 8))
    while True:
        batch = spoil.batch(draw, shape, draw.choice([3, 10, 20])).decode()
        transfers = plain.read_batch(batch.encode(), plain.WIDEST)
        if not plain.first_overlap(transfers):
            break
    loose = spoil.schedule_text(spoil.loose_schedule(draw, transfers), None).decode()
    return "{}x{}x{}".format(*shape), batch, draw.choice([[], ["--steady"], loose, loose])


def patterns():
    """The patterns' batches and the one of all to all,
    each with its shape and the words by which it goes."""
    for path in [
        Path(f"{EXAMPLES}/all-to-all.txt"),
        *sorted(Path(f"{EXAMPLES}/patterns").glob("*.txt")),
    ]:
        batch = path.read_text()
        if batch.startswith("batch "):
            numbers = [[int(word) for word in line.split()[1:]] for line in batch.splitlines()[1:]]
            modules = 1 + max(max(it[0], it[2]) for it in numbers)
            blocks = 1 + max(max(it[1], it[3]) for it in numbers)
            yield (
                path,
                f"{modules}x{blocks}x2",
                batch,
                ["--steady"] if "three-blocks" in path.name else [],
            )


def boards():
    """Repeats, modules in C, and tables."""
    for path, shape, batch, options in patterns():
        yield (
            goes,
            f"twice: {path.name}",
            lambda settings: [k for k in settings for _ in range(2)],
            True,
            shape,
            batch,
            options,
        )
        yield are_told_again, f"tables: {path.name}", path, options, int(shape.split("x")[0])
    yield are_told_again, "tables of a ring", Path(f"{EXAMPLES}/ring.txt"), [], 4
    Path("none").write_text("batch 0\n")
    yield are_told_again, "tables of nothing", Path("none").absolute(), [], 1
    # Module 1 sends its block on in setting 0, and receives another one in setting 1:
    # to go back to setting 0 sends that.
    back = "2x2x1", "batch 2\npush 1 0 0 0\npush 0 1 1 0\n", "settings 2\nsetting 0\nsetting 1\n"
    yield goes, "forth", lambda settings: settings, True, *back
    yield goes, "forth and back", lambda settings: [*settings, 0, 1], False, *back
    yield goes, "a new rack, and not from setting 0 on", lambda settings: settings[1:], False, *back
    for what, *case in IN_C:
        yield is_moved_in_c, f"in C: {what}", *case
    for what, *case in IN_C[:-1]:
        yield by_tables, f"in C, by the board's own tables: {what}", 0, *case
    yield (
        ends_by_tables,
        "in C, by the board's own tables: another number",
        "1x2x1",
        "batch 1\npush 0 0 0 1\n",
        [],
    )
    yield (
        does_what_it_is_asked,
        "in C, by the board's own tables: what it isn't asked",
        "2x1x2",
        read("swap.txt"),
        "settings 2\nsetting 0\nsetting 1\n",
    )
    yield has_no_tables, "a board that has no tables"
    yield has_no_tables, "a board that has no tables, and a cable to slot 0", "--slot-0"
    yield is_turned, "links that aren't on the switch"
    # Setting 0 moves nothing. Setting 1 needs what it joined.
    yield (
        by_tables,
        "in C, by the board's own tables, from setting 1 on",
        1,
        "1x3x1",
        "batch 2\npush 0 0 0 0\npush 0 1 0 2\n",
        [],
    )


def by_tables(room, first, *case):
    is_moved_in_c(room, *case, by_tables=True, first=first)


def faults(totals):
    """A cable that is spoilt, tables that differ, modules that die, and hosts that are wrong."""
    draw = random.Random("faults")
    for kind, way in itertools.product(("lost", "more"), (0, 1)):
        for place in sorted(draw.sample(range(totals[way] - TAIL[way]), 10)):
            yield (
                is_spoilt,
                f"{kind}, way {way}, byte {place}",
                kind,
                way,
                place,
                draw.choice([0, 1, 2, place % 256]),
            )
    yield (
        is_spoilt,
        "a byte that is no way",
        "more",
        1,
        0,
        7,
        r"^host\.py: the cable has lost a byte, or has one too many: 7 is no way\n$",
    )
    for place, awaited in SILENT.items():
        yield (
            falls_silent,
            f"silent from byte {place} on",
            1,
            place % totals[1] if place else 0,
            awaited,
        )
    for place in draw.sample(range(totals[0]), 20 - len(SILENT)):
        yield falls_silent, f"the board hears nothing from byte {place} on", 0, place, ""
    for place in 55, 115, totals[1] - TAIL[1] - 5:
        yield comes_again, f"another answer, byte {place}", place
    for m, setting in itertools.product((0, 2), range(3)):
        yield (
            says_who_is_killed,
            f"module {m} is killed in setting {setting}",
            m,
            setting,
            "--cable",
            "cable",
        )
    yield says_who_is_killed, "a module is killed, and the host is the rack's", 2, 1
    yield ends_its_host, "a module is killed before the rack's host begins"


def hosts():
    """Hosts that are wrong, or that modules don't fit, and those that follow a killed one,
    or come before the rack."""
    case, other = (
        ("3x2x2", read("three-transfers.txt"), APART),
        "has other tables than those of this batch and schedule",
    )
    yield (
        compares,
        "tables of another schedule",
        f"host.py: module 0 {other}\nhost.py: module 1 {other}\nhost.py: module 2 {other}\n",
        case,
        {},
        None,
        ["--schedule", f"{EXAMPLES}/three-transfers.plan.txt"],
    )
    swapped = (
        f"host.py: module 0 {other}; they are those of module 2\n"
        f"host.py: module 2 {other}; they are those of module 0\n"
    )
    yield compares, "exchanged slots", swapped, case, {}, {0: 2, 2: 0}
    yield (
        compares,
        "a module is missing",
        "host.py: the chain has 3 modules: module 3 is missing\n",
        case,
        {},
        None,
        [],
        "batch 1\npush 3 0 0 0\n",
    )
    size = (
        "module.Module.told = property(lambda self: self.t, lambda self, t: setattr(self, 't', "
        "t[:2] + b'\\1\\0\\2\\0'))"
    )
    blocks = (
        "host.py: module 1 has 1 blocks of 2 words, and module 0 has 2 of 2\n"
        "host.py: module 1 has 1 blocks, and the batch names its block 1\n"
    )
    yield compares, "a module of another size", blocks, case, {1: size}
    yield (
        compares,
        "an image of another shape",
        "host.py: the modules are 3x2x2, and not 2x3x2\n",
        case,
        {},
        None,
        ["--schedule", "schedule", "--image", "image", "--shape", "2x3x2"],
    )
    words = "modules, blocks and words\n"
    for shape, said in (
        ([], f"host.py has {os.path.getsize(HOST)} bytes, and 3x2x2 has 48\n"),
        (["--shape", "3x2x02"], f'host.py: --shape 3x2x02 isn\'t "MxKxW": {words}'),
        (["--shape", ""], f"host.py: --image has words alone: --shape MxKxW says how many {words}"),
    ):
        yield host_says, f"an image, {shape}", said, "missing", "--image", HOST, *shape
    for written, is_read in ("batch",) * 2, ("wiring",) * 2, ("image",) * 2, ("link", "image"):
        yield (
            host_says,
            f"the image would be written over {written}",
            f"host.py: --image-out {written}: that is {is_read}, which is read\n",
            "missing",
            "--wiring",
            "wiring",
            "--image",
            "image",
            "--image-out",
            written,
        )
    yield (
        compares,
        "another number comes back",
        "host.py: 1 came back, and awaited was 0 from the modules, which have to do setting 0\n",
        ("1x2x1", "batch 1\npush 0 0 0 1\n", []),
        {0: ERRS},
    )
    for cable in "file", "half":
        yield (
            host_says,
            f"a plain file for a cable, {cable}",
            f"host.py: {cable} is a plain file, and no cable\n",
            cable,
        )
    yield is_cooked, "a terminal that isn't raw"
    yield goes_on, "a host that is killed in its pause"
    yield pauses, "a pause"
    yield waits, "a host before its rack"
    yield (
        host_says,
        "--go-on",
        (
            "host.py: by --go-on drive would set the next setting before the modules have moved "
            "the blocks of this one\n"
        ),
        "cable",
        "--go-on",
    )
    yield (
        host_says,
        "standard input",
        "host.py: no file is standard input: the program reads them more than once\n",
        "cable",
        "--wiring",
        "-",
    )
    yield host_says, "a batch that is refused", "refused file\n", "cable", "--schedule", "missing"
    yield (
        host_says,
        "no such setting",
        "host.py: --from 3 names no setting\n",
        "cable",
        "--tables",
        "--from",
        "3",
    )
    yield (
        host_says,
        "no cable",
        "host.py: [Errno 2] No such file or directory: 'missing'\n",
        "missing",
    )
    yield (
        host_says,
        "an image that can't be written, before there is a cable",
        "host.py: [Errno 2] No such file or directory: 'none/left'\n",
        "missing",
        "--image-out",
        "none/left",
    )
    yield ends_modules, "an image that the disk has no room for"
    yield host_says, "a folder for a cable", "host.py: [Errno 21] Is a directory: '.'\n", "."
    yield is_flooded, "bytes come without end, before anything is sent"


def slowly(*replies):
    """These replies, one a second."""
    for it in replies:
        time.sleep(1)
        yield it


def boards_that_say_too_much():
    """Bytes without end, too many modules, and a board that can't set its switches by tables."""
    waits, own = (
        (WAITING, None),
        host.orders_sum([], [[(0, "send block", 0), (3, "receive block", 0)]]),
    )
    modules = [own, 1, 1] + [host.orders_sum([], [[]]), 1, 1] * 16
    plain, has_tables = ((2, bytes([kind]), host.KIND) for kind in (0, host.BY_TABLES))
    yield (
        hears,
        "bytes come slowly",
        "host.py: more than 32 modules answer\n",
        slowly(*[(0, b"\0")] * 6, waits, plain, (4, host.sent(*modules[:3] * 33))),
        "--patience",
        "4",
    )
    yield (
        hears,
        "bytes come without end",
        (
            "host.py: bytes come without end, and awaited was -2 from the modules, "
            "which all of them pass on\n"
        ),
        [(4, bytes(140_000))],
    )
    yield (
        hears,
        "more than 32 modules",
        "host.py: more than 32 modules answer\n",
        [waits, plain, (4, host.sent(*modules[:3] * 33))],
    )
    yield (
        hears,
        "tables, and two switches",
        "host.py: --tables is for a board with one switch\n",
        [waits, has_tables, (4, host.sent(*modules, host.TABLES))],
        "--tables",
    )


def misused():
    """Programs of the examples that are handed wrong words or texts, or lack what they need."""
    python, made_of = (
        sys.executable,
        f"""\"$EXCHANGE\" {{}} | {sys.executable} '{EXAMPLES}/{{}}.py'""",
    )
    yield (
        says,
        "misuse: a relay",
        1,
        "usage: relay.py CABLE CONFIG [CONFIG_B] [CHAIN]\n",
        python,
        RELAY,
        "--help",
        "config",
    )
    path = f"PATH={os.path.dirname(host.PROGRAM)}:{os.environ['PATH']}"
    yield (
        says,
        "misuse: a host without a program",
        1,
        "host.py: there is no program /none\n",
        "env",
        "EXCHANGE=/none",
        path,
        python,
        HOST,
        "cable",
        "batch",
    )
    yield (
        says,
        "misuse: a host's option",
        2,
        "--pause: host.py takes these, and with --cable you start it\n",
        python,
        RACK,
        "2x1x1",
        "batch",
        "--cable",
        "cable",
        "--pause",
    )
    yield (
        says,
        "misuse: no batch",
        1,
        "rack.py: [Errno 2] No such file or directory: 'missing'\n",
        python,
        RACK,
        "2x1x1",
        "missing",
    )
    yield (
        says,
        "misuse: the image over the batch",
        1,
        "rack.py: --image-out batch: that is batch, which is read\n",
        python,
        RACK,
        "2x1x1",
        "batch",
        "--image-out",
        "batch",
    )
    yield (
        says,
        "misuse: no module exchange",
        1,
        "./exchange install PREFIX puts it there, and docs/BOARD.md says how\n",
        python,
        "-IS",
        RACK,
        "2x1x1",
        "batch",
    )
    yield (
        says,
        "misuse: no orders",
        1,
        "wanted is what `exchange orders BATCH` prints\n",
        python,
        f"{EXAMPLES}/orders_to_c.py",
    )
    yield (
        says,
        "misuse: orders of two modules",
        1,
        "wanted are the orders of one module: exchange orders BATCH --module M\n",
        "sh",
        "-c",
        made_of.format("orders batch", "orders_to_occam"),
    )
    yield (
        says,
        "misuse: bytes of two switches",
        1,
        "wanted are the bytes of one switch: exchange switch BATCH\n",
        "sh",
        "-c",
        made_of.format("switch batch --switches 2", "switch_to_c"),
    )
    yield (
        says,
        "misuse: bytes of setting 1 alone",
        1,
        "wanted are the bytes of one switch: exchange switch BATCH\n",
        "sh",
        "-c",
        made_of.format("switch batch | sed 's/ 0 / 1 /'", "switch_to_c"),
    )
    yield (
        says,
        "misuse: no program to drive",
        1,
        "there is no program /none\n",
        python,
        f"{EXAMPLES}/emulator/links.py",
        "/none",
    )
    yield (
        says,
        "misuse: no pipes",
        1,
        "its first lines say how to make them and start the host\n",
        python,
        f"{EXAMPLES}/all-reduce.py",
    )
    turn = f"{EXAMPLES}/board/without_link.py"
    for what, said, *words in (
        ("no wiring", "usage: without_link.py WIRING < BATCH\n", turn),
        ("another text", "without_link.py: batch is no wiring\n", turn, "batch"),
        ("a missing wiring", "No such file or directory: 'missing'\n", turn, "missing"),
        ("no batch to turn", "without_link.py: standard input is no batch\n", turn, "wiring"),
    ):
        yield says, f"misuse: {what}", 1, said, python, *words
    yield (
        says,
        "misuse: patterns",
        2,
        "make.sh: one word at most, --check\n",
        f"{EXAMPLES}/patterns/make.sh",
        "check",
    )


def alone():
    """Racks that are refused or told to end, and a switch, a module, a relay and a host alone."""
    yield (
        refuses,
        "two transfers that write one block",
        "refused overlap 0 1",
        "exchange: batch:3: ",
        "3x1x1",
        "batch 2\npush 0 0 1 0\npush 2 0 1 0\n",
        [],
    )
    yield (
        refuses,
        "no schedule of the batch",
        "refused check missing 1",
        "exchange: {}/schedule",
        "2x1x1",
        read("swap.txt"),
        "settings 1\nsetting 0\n",
    )
    yield (
        refuses,
        "no shape",
        "refused shape",
        'exchange: "0x1x1" isn\'t "MxKxW": ',
        "0x1x1",
        "batch 0\n",
        [],
    )
    yield (
        refuses,
        "a batch of more modules",
        "refused no module 0",
        "exchange: batch:2: ",
        "1x1x1",
        "batch 1\npush 0 0 1 0\n",
        [],
    )
    unwired = "exchange: batch:2: link 0 of module 0; backwards:2 leaves it out"
    yield (
        refuses,
        "a link that isn't on the switch",
        "refused no link 0",
        unwired,
        "3x2x2",
        "batch 1\npush 0 0 2 0\n",
        ["--wiring", "backwards"],
    )
    yield (
        refuses,
        "a wiring, and two switches",
        "rack.py: a wiring is that of one switch, and 17 modules have two",
        "",
        "17x1x1",
        read("swap.txt"),
        ["--wiring", "wiring"],
    )
    whole = b"".join(PARTS)
    yield carries, "words in parts", JOIN + SETTLE, 0, whole, ""
    yield (
        carries,
        "words before the switch has settled",
        JOIN,
        0,
        b"",
        LOOSE.format("link 0 of module 0"),
    )
    yield carries, "words of link 3 before that", JOIN, 3, b"", LOOSE.format("link 3 of module 1")
    yield receives, "a block in parts", PARTS, [], b"\0", b"\0\0", whole, b"\xfb\xff\xff\xff", [], 0
    yield (
        receives,
        "a part of a block",
        PARTS[:1],
        [],
        b"",
        b"",
        b"",
        b"",
        ["module.py: a link has ended"],
        3,
    )
    yield is_relayed, "the relay alone"
    yield (
        relay_ends,
        "a relay whose chain has ended",
        b"\1\0\1\0",
        3,
        "relay.py: a link has ended\n",
    )
    yield (
        relay_ends,
        "a relay that is sent another way",
        b"\2\0",
        1,
        "relay.py: the cable has lost a byte, or has one too many: 2 is no way\n",
    )
    yield ends, "a cable that ends", 1
    yield ends, "a cable that ends, and two switches", 2, "--switches", "2"
    yield is_cut, "a cable that nobody reads any more"
    yield hears_all, "a cable whose relay is late"
    yield is_ended, "a rack that is told to end, and its host", signal.SIGTERM
    yield is_ended, "a rack that is interrupted, and its host", signal.SIGINT
    for program, seconds in itertools.product(("rack.py", "host.py"), (0, 0.05, 0.2, 0.5, 1, 2)):
        yield is_interrupted, f"{program} is interrupted after {seconds} s", program, seconds
    yield is_followed_at_once, "a host is ended before -2 comes back"
    # In a module's number, and among its words, of the first and of the second one.
    for by, place in itertools.product(
        (signal.SIGINT, signal.SIGTERM, signal.SIGKILL), (24, 5_000, 16_412, 20_000, 26_000)
    ):
        yield is_followed, f"a host is ended by {by.name} at byte {place}", by, place
    yield finds_the_program, "the program, where nothing says where it is"
    yield says_what_differs, "a host of another wiring"


def tries(count, totals):
    """What is tried: a function, a name, and what the function is given."""
    for some in misused, boards_that_say_too_much, alone, hosts:
        yield from some()
    for case in CASES:
        yield is_moved, *case
    yield is_moved_over_a_pty, "a terminal", *CASES[1][1:]
    for what, *ring in RINGS:
        yield hangs, f"{what}, links in turn", *ring
    yield from faults(totals)
    for number in range(count):
        yield is_moved, f"random batch {number}", *random_case(random.Random(f"rack {number}"))
    yield from boards()


def count_bytes(installed, report):
    """How many bytes go each way over a cable that isn't spoilt."""
    with (
        tempfile.TemporaryDirectory(dir=".") as path,
        contextlib.closing(
            Room(installed, os.path.abspath(path), "a sound cable", report)
        ) as room,
    ):
        room.write(*SPOILT)
        between = Between(room)
        told = room.end(room.host("--image", "image", "--image-out", "left"))
        room.expect(
            told == "setting 0 0 1\ndriven settings 1\n"
            and room.is_left()
            and room.end(between.rack) == "",
            told,
        )
        for text in room.report.wrong:
            report.note(text)
        return between.counts


def try_one(installed, function, what, *given):
    """What comes of a case."""
    with (
        tempfile.TemporaryDirectory(prefix="room-", dir=".") as path,
        contextlib.closing(Room(installed, os.path.abspath(path), what)) as room,
    ):
        try:
            function(room, *given)
        except BaseException:
            room.report.note(f"{what}: {traceback.format_exc()}")
        if not room.report.tried:
            room.report.note(f"{what}: it looks at nothing")
        return room.report


def try_all(installed, count, word):
    """Tries all cases side by side, and those that are wrong again, one after another."""
    host.PROGRAM, report = f"{installed}/bin/exchange", Report("rack")
    with ThreadPoolExecutor(2 * len(os.sched_getaffinity(0))) as at_once:
        cases = [it for it in tries(count, count_bytes(installed, report)) if word in it[1]]
        first = [at_once.submit(try_one, installed, *case) for case in cases]
    for case, it in zip(cases, first):
        once = functools.partial(try_one, installed, *case)
        runs = itertools.chain([it.result()], iter(once, None))
        harness.add_runs(report, case[1], [*harness.runs_of(runs.__next__)])
    report.finish(f"{len(cases)} cases, {{tried}} things looked at, {{wrong}} wrong")


def main():
    words = sys.argv[1:]
    count = int(words.pop(0)) if words and words[0].isdecimal() else 20
    signal.signal(signal.SIGTERM, stop)
    # Where nobody interrupts this one, what it starts may be interrupted all the same.
    signal.signal(signal.SIGINT, signal.default_int_handler)
    # Processes whose own are gone become this one's.
    ctypes.CDLL(None).prctl(36, 1)
    with tempfile.TemporaryDirectory(prefix="racks-") as path:
        installed = os.path.abspath(os.environ.get("RACK") or f"{path}/rack")
        if not os.environ.get("RACK"):
            subprocess.run(
                [f"{TOP}/tools/install/install.sh", installed],
                stdout=subprocess.DEVNULL,
                check=True,
            )
        # Their Python has no packages: so each starts in a fourth of the time,
        # where this one has many.
        venv.create(f"{path}/python", symlinks=True)
        sys.executable = f"{path}/python/bin/python3"
        os.chdir(path)
        try:
            try_all(installed, count, " ".join(words))
        finally:
            os.chdir("/")


if __name__ == "__main__":
    main()
