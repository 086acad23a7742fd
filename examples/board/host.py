#!/usr/bin/env python3
"""One cable to a board: over it `exchange drive` sets the switch,
and the modules hear which setting stands.

    host.py CABLE BATCH [--steady | --schedule FILE] [--wiring FILE] [--from K] [--switches 2]
            [--shape SHAPE] [--image FILE] [--image-out FILE] [--pause] [--tables]
            [--patience SECONDS]

CABLE is a device, or the two named pipes CABLE.in, to the board, and CABLE.out, from it; --steady,
--schedule, --wiring and --from are those of `drive`. Before a word moves, the tables of all modules
are compared with the orders of BATCH, and their number, blocks and words with SHAPE, which is MxKxW
and has to be there with --image. With --image the modules get the words of an image, as `apply` has
them, before the first setting, and with --image-out those that they have in the end are put into a
file, which is opened first. A rack of more than 16 modules has two switches, and one of fewer with
--switches 2. With --pause it waits for the return key before the modules hear of a setting, unless
its input has ended. With --tables the board sets its switch itself, by the tables of relay.c.

Where nothing has come for five seconds, a line on standard error says what is awaited. With
--patience it ends with status 4 where nothing has come for so many seconds. Where a signal ends it
the words that it began to send a module go first. docs/BOARD.md says more. The program is the one
that EXCHANGE names, or `exchange` on the PATH, or in this folder.
"""

import signal

if __name__ == "__main__":
    # Until chain.run takes them.
    signal.pthread_sigmask(signal.SIG_BLOCK, (signal.SIGINT, signal.SIGTERM))

import argparse
import contextlib
import errno
import fcntl
import math
import os
import random
import re
import select
import shutil
import stat
import subprocess
import sys
import tempfile
import termios
import time

# Nothing is left in the folder of the examples.
sys.dont_write_bytecode = True

from chain import (
    BY_TABLES,
    END,
    ENDING,
    FILL,
    KIND,
    MODULES,
    MOST_SETTINGS,
    ON_ONE_SWITCH,
    READ,
    SWITCH,
    SWITCH_B,
    TABLES,
    TOLD,
    WAIT,
)  # noqa: E402
from chain import must_not_be_read, numbers, orders_sum, read_orders, read_switch  # noqa: E402
from chain import run, sent, switch_sum  # noqa: E402

PROGRAM = os.path.abspath(os.environ.get("EXCHANGE") or shutil.which("exchange") or "exchange")

# Seconds without a byte after which a line says what is awaited; those for which nothing may come,
# that what an earlier host left is taken as dropped; and those in which that has to be so.
TELL, DROPPED, DROP = 5, 0.5, 10

# Bytes that nobody awaits.
MOST_HEARD = 1 << 17

# Modules that a rack has at most.
MOST = 32

# The status where nothing has come for as long as --patience says.
SILENT = 4

# Bytes that a cable is handed at once, in pairs: a pipe takes them all, or none.
PART = 512

# What a terminal that isn't raw does with bytes: words of `stty`,
# by their places in what tcgetattr gives.
COOKED = {
    0: ("PARMRK", "ISTRIP", "INLCR", "IGNCR", "ICRNL", "IXON", "IXOFF"),
    1: ("OPOST",),
    3: ("ICANON", "ECHO", "ISIG"),
}


def fail(text, status=1):
    print(f"host.py: {text}", file=sys.stderr, flush=True)
    sys.exit(status)


class Cable:
    """The cable, whose bytes are parted by their ways."""

    def __init__(self, name, patience=None):
        there, back = (
            (f"{name}.in", f"{name}.out") if os.path.exists(f"{name}.in") else (name, name)
        )
        if any(stat.S_ISREG(os.stat(end).st_mode) for end in (there, back)):
            fail(f"{name} is a plain file, and no cable")
        self.name, self.patience, self.speed = name, patience, ""
        self.going, self.begun, self.readers = bytearray(), b"", {}
        # What the modules have said, and the board that sets its switch itself;
        # and where answers of a switch go.
        self.heard, self.answers = {MODULES: bytearray()}, {}
        self.out = self.drive = None
        self.wait(lambda: self.is_open(there), f"a relay that reads {there}")
        try:
            fcntl.flock(self.out, fcntl.LOCK_EX | fcntl.LOCK_NB)
        except BlockingIOError:
            fail(f"another host has {name}")
        if os.isatty(self.out):
            self.look_at_terminal()
        self.back = os.open(back, os.O_RDONLY | os.O_NOCTTY | os.O_NONBLOCK)
        self.drop_what_comes()
        self.readers[self.back] = self.listen

    def is_open(self, there):
        """Opens the end to the board, if anybody reads there."""
        try:
            self.out = os.open(there, os.O_WRONLY | os.O_NOCTTY | os.O_NONBLOCK)
        except OSError as error:
            if error.errno != errno.ENXIO:
                raise
        return self.out is not None

    def look_at_terminal(self):
        """Ends if a terminal changes bytes, or holds them back."""
        flags = termios.tcgetattr(self.out)
        *_, speed, signs = flags
        found = [
            word.lower()
            for at, words in COOKED.items()
            for word in words
            if flags[at] & getattr(termios, word)
        ]
        if [signs[termios.VMIN], signs[termios.VTIME]] != [1, 0]:
            found.append("not min 1 time 0")
        bauds = {getattr(termios, it): it[1:] for it in dir(termios) if re.fullmatch(r"B\d+", it)}
        self.speed = f", at {bauds.get(speed, 'an unknown number of')} baud"
        if found:
            fail(
                f"{self.name} isn't raw ({', '.join(found)}){self.speed}: first "
                f"stty -F {self.name} SPEED raw -echo min 1 time 0"
            )

    def drop_what_comes(self):
        """Drops what an earlier host left on its way: until half a second long nothing comes."""
        end = time.monotonic() + DROP
        while select.select([self.back], [], [], DROPPED)[0] and os.read(self.back, 4096):
            if time.monotonic() > end:
                fail(f"{self.name}: bytes come without end, before anything is sent")

    def send(self, way, words):
        """Sends bytes, and before each of them the number of its way."""
        self.going += b"".join(bytes([way, byte]) for byte in words)

    def hand_on(self):
        """Hands the cable what it takes. A signal waits meanwhile: no byte goes twice."""
        held = signal.pthread_sigmask(signal.SIG_BLOCK, ENDING)
        try:
            del self.going[: os.write(self.out, self.going[:PART])]
        finally:
            signal.pthread_sigmask(signal.SIG_SETMASK, held)

    def finish(self):
        """Hands on the rest of what was begun. A module that lacks words would take those of the
        next host for them."""
        # A cable that has ended needs nothing.
        with contextlib.suppress(OSError):
            while self.going and select.select([], [self.out], [], TELL)[1]:
                self.hand_on()
            if self.going:
                print(
                    "host.py: nobody took the rest of what was begun: boot the relay and the "
                    "modules again",
                    file=sys.stderr,
                )

    def listen(self, back):
        """Takes what comes: answers of a switch to `drive`, and what the modules say."""
        try:
            came = os.read(back, 4096)
        except BlockingIOError:
            # The other end was closed, and is open again.
            return
        if not came:
            self.end()
        came = self.begun + came
        self.begun = came[len(came) & ~1 :]
        for way, byte in zip(came[::2], came[1::2]):
            if way in self.heard:
                self.heard[way].append(byte)
                if len(self.heard[way]) > MOST_HEARD:
                    fail(f"bytes come without end, and awaited was {self.awaited}")
            elif way in self.answers:
                os.write(self.answers[way], bytes([byte]))
            elif way not in (SWITCH, SWITCH_B):
                fail(f"the cable has lost a byte, or has one too many: {way} is no way")

    def end(self):
        """Ends, since the cable has. `drive` says at which setting it stopped."""
        if self.drive:
            self.drive.end()
        fail(f"the cable has ended, and awaited was {self.awaited}")

    def wait(self, is_there, awaited, hint=""):
        """Carries bytes until what is awaited is there. Where nothing comes,
        a line says what it is, and what may help."""
        since, is_told, self.awaited = time.monotonic(), False, awaited
        while not is_there():
            coming, going, _ = select.select(
                [*self.readers], [self.out] if self.going else [], [], 0.1
            )
            for end in coming:
                self.readers[end](end)
            if going:
                self.hand_on()
            if coming or going:
                since, is_told = time.monotonic(), False
            quiet = time.monotonic() - since
            if self.patience is not None and quiet >= self.patience:
                waited = f"nothing has come for {self.patience:g} s"
                fail(f"{waited}; awaited was {awaited}{hint}", SILENT)
            if quiet >= TELL and not is_told:
                print(
                    f"host.py: nothing has come for {TELL} s; awaited is {awaited}{hint}",
                    file=sys.stderr,
                    flush=True,
                )
                is_told = True

    def hear(self, count, awaited, way=MODULES):
        """So many bytes that come by a way."""
        heard = self.heard[way]
        self.wait(lambda: len(heard) >= count, awaited)
        came = bytes(heard[:count])
        del heard[:count]
        return came

    def tell(self, number):
        """Tells the modules a number."""
        self.send(MODULES, sent(number))

    def hear_back(self, number, awaited, way=MODULES):
        """Waits until a number comes back."""
        (came,) = numbers(self.hear(2, awaited, way))
        if came != number:
            fail(f"{came} came back, and awaited was {awaited}")

    def find_modules(self):
        """Waits until all modules wait for a setting. What comes before they say so was left of an
        earlier host, perhaps a number of its own: so they are told some that it hardly told."""
        marks = random.sample(range(MOST_SETTINGS, 1 << 15), 3)
        self.send(MODULES, sent(WAIT, *marks))
        heard = self.heard[MODULES]
        self.wait(
            lambda: heard.endswith(sent(*marks)),
            f"{WAIT} from the modules, which all of them pass on",
            f"{self.speed}; if an earlier host was killed, boot the relay and the modules again",
        )
        heard.clear()

    def ask_relay(self, by_tables):
        """Ends if the relay isn't one with tables, or is one, where the other is meant."""
        self.heard[KIND] = bytearray()
        self.send(KIND, bytes(1))
        is_found = self.hear(1, "from the relay whether it has tables", KIND)[0] == BY_TABLES
        if is_found and not by_tables:
            fail("the relay sets the switch by tables of its own: that goes by --tables")
        if by_tables and not is_found:
            fail("the relay has no tables of the switch, by which --tables goes")

    def move(self, setting):
        """Tells the modules that a setting is set, and waits until all of them are done."""
        self.tell(setting)
        self.hear_back(setting, f"{setting} from the modules, which have to do setting {setting}")

    def end_modules(self):
        self.tell(END)
        self.hear_back(END, f"{END} from the modules, which end")

    def hear_each(self, number, size=0):
        """What each module tells for a number, and the words that follow, if it has some."""
        self.tell(number)
        modules = []
        while True:
            awaited = f"what module {len(modules)} has, or {number} where the chain ends"
            head = self.hear(2, awaited)
            if head == sent(number):
                return modules
            if len(modules) == MOST:
                fail(f"more than {MOST} modules answer")
            told = numbers(head + self.hear(2 * TOLD - 2, awaited))
            modules.append((told, self.hear(size, f"the words of module {len(modules)}")))

    def compare(self, count, due, meant=None):
        """Compares the tables of all modules with the orders that they should have, and their
        number, blocks and words with a shape: the shape that they have."""
        found = [told for told, _ in self.hear_each(TABLES)]
        wanted = max(due, default=0) + 1
        if len(found) < wanted:
            fail(f"the chain has {len(found)} modules: module {len(found)} is missing")
        sums = [orders_sum(*due.get(m, ([], [[]] * count))) for m in range(len(found))]
        faults = []
        for m, (told, *shape) in enumerate(found):
            if told != sums[m]:
                whose = f"; they are those of module {sums.index(told)}" if told in sums else ""
                faults.append(
                    f"module {m} has other tables than those of this batch and schedule{whose}"
                )
            if shape != found[0][1:]:
                faults.append(
                    f"module {m} has {shape[0]} blocks of {shape[1]} words, and module 0 has "
                    f"{found[0][1]} of {found[0][2]}"
                )
            copies, settings = due.get(m, ([], []))
            block = max(
                [*copies, *(order[2] for setting in settings for order in setting)], default=0
            )
            if block >= shape[0]:
                faults.append(
                    f"module {m} has {shape[0]} blocks, and the batch names its block {block}"
                )
        own = len(found), *found[0][1:]
        if meant and meant != own:
            faults.append(f"the modules are {shape_text(own)}, and not {shape_text(meant)}")
        if faults:
            fail("\nhost.py: ".join(faults))
        return own

    def fill(self, shape, image):
        """Fills the modules with the words of an image."""
        size = len(image) // shape[0]
        for m in range(shape[0]):
            # At once: a signal doesn't come between these.
            self.send(MODULES, sent(FILL) + image[m * size : (m + 1) * size])
            self.hear_back(FILL, f"{FILL} from the modules, once module {m} has its words")

    def move_by_tables(self, first, found, ends):
        """Has the board set its switch by its own tables, and the modules move,
        from a setting on."""
        self.heard[SWITCH] = bytearray()
        self.send(SWITCH, sent(TABLES))
        self.hear_back(
            switch_sum(found, ends),
            "the sum of the switch's tables, as they are for this batch, schedule and wiring",
            SWITCH,
        )
        self.send(SWITCH, sent(first))
        for setting in range(first, len(ends)):
            self.hear_back(
                setting, f"{setting} from the relay, once setting {setting} is moved", SWITCH
            )
            print(f"moved setting {setting}", flush=True)
        self.hear_back(END, f"{END} from the relay, once all is moved", SWITCH)
        print(f"moved settings {len(ends)}", flush=True)

    def read(self, shape):
        """The words of all modules."""
        return b"".join(words for _, words in self.hear_each(READ, 4 * shape[1] * shape[2]))


class Drive:
    """`drive`, whose ports are named pipes of a folder of its own, and go over the cable."""

    def __init__(self, cable, folder, ways, *words):
        self.cable, self.printed, cable.drive = cable, b"", self
        ports = []
        for way in ways:
            ports.append(f"{folder}/port{way}")
            if not os.path.exists(f"{ports[-1]}.in"):
                self.make_port(way, ports[-1])
        batch, *options = words
        self.process = subprocess.Popen(
            [PROGRAM, "drive", batch, *ports, *options],
            stdin=subprocess.PIPE,
            stdout=subprocess.PIPE,
        )
        cable.readers[self.process.stdout.fileno()] = self.take_lines

    def make_port(self, way, port):
        os.mkfifo(f"{port}.in")
        os.mkfifo(f"{port}.out")
        # Opened to read and write, neither waits for `drive`, which opens none where it is refused.
        asked = os.open(f"{port}.in", os.O_RDWR)
        self.cable.answers[way] = os.open(f"{port}.out", os.O_RDWR | os.O_NONBLOCK)
        self.cable.readers[asked] = lambda end: self.cable.send(way, os.read(end, 4096))

    def take_lines(self, end):
        """Takes what it prints."""
        came = os.read(end, 4096)
        self.printed += came
        if not came:
            del self.cable.readers[end]

    def lines(self):
        """The lines that it prints."""
        out = self.process.stdout.fileno()
        while True:
            self.cable.wait(
                lambda: b"\n" in self.printed or out not in self.cable.readers,
                "an answer of the switch to drive",
            )
            line, feed, self.printed = self.printed.partition(b"\n")
            if not feed:
                return
            yield line.decode()

    def go_on(self):
        self.process.stdin.write(b"\n")
        self.process.stdin.flush()

    def end(self):
        """Ends its ports, and has it print to its end."""
        for answers in self.cable.answers.values():
            os.close(answers)
        self.process.stdin.close()
        self.process.stdin = None
        with contextlib.suppress(subprocess.TimeoutExpired):
            print(
                (self.printed + self.process.communicate(timeout=DROP)[0]).decode(),
                end="",
                flush=True,
            )


def words_of(arguments):
    words = argparse.ArgumentParser(
        usage=" ".join(__doc__.split("\n\n")[1].split()), allow_abbrev=False
    )
    for name in "cable", "batch":
        words.add_argument(name)
    for name in "--schedule", "--wiring", "--shape", "--image", "--image-out":
        words.add_argument(name)
    for name in "--steady", "--pause", "--tables", "--go-on":
        words.add_argument(name, action="store_true")
    words.add_argument("--from", dest="first", default="0")
    words.add_argument("--switches", choices=["2"])
    words.add_argument("--patience", type=float)
    given = words.parse_args(arguments)
    if given.go_on:
        fail(
            "by --go-on drive would set the next setting before the modules have moved the blocks "
            "of this one"
        )
    if "-" in (given.batch, given.schedule, given.wiring):
        fail("no file is standard input: the program reads them more than once")
    if given.image and not given.shape:
        fail("--image has words alone: --shape MxKxW says how many modules, blocks and words")
    if given.shape:
        if not re.fullmatch(r"[1-9]\d*x[1-9]\d*x[1-9]\d*", given.shape):
            fail(f'--shape {given.shape} isn\'t "MxKxW": modules, blocks and words')
        given.shape = tuple(map(int, given.shape.split("x")))
    return given


def shape_text(shape):
    return "x".join(map(str, shape))


def read_image(given):
    """The words of an image, if there is one."""
    if not given.image:
        return None
    with open(given.image, "rb") as file:
        image = file.read()
    size = 4 * math.prod(given.shape)
    if len(image) != size:
        fail(f"{given.image} has {len(image)} bytes, and {shape_text(given.shape)} has {size}")
    return image


def open_to_write(name):
    """Opens a file before there is anything to write. What it has stays until then."""
    return os.fdopen(os.open(name, os.O_WRONLY | os.O_CREAT, 0o666), "wb")


def ask(*words):
    """What the program prints for some words; where it refuses, this one ends as it does."""
    answer = subprocess.run(
        [PROGRAM, *words], stdout=subprocess.PIPE, stdin=subprocess.DEVNULL, check=False
    )
    if answer.returncode:
        print(answer.stdout.decode(), end="", flush=True)
        sys.exit(answer.returncode)
    return answer.stdout.decode()


def drive_all(cable, drive, given):
    """Has `drive` set setting after setting, and the modules move their blocks: its status."""
    try:
        for line in drive.lines():
            print(line, flush=True)
            word, number, *_ = line.split()
            if word == "setting":
                if given.pause:
                    sys.stdin.readline()
                cable.move(int(number))
                # All are done, and not before that the next setting may be set.
                drive.go_on()
        return drive.process.wait()
    finally:
        drive.process.kill()
        drive.process.wait()


def write_image(left, name, words):
    with left:
        left.write(words)
        if os.path.isfile(name):
            left.truncate()


def main():
    given = words_of(sys.argv[1:])
    if not shutil.which(PROGRAM):
        fail(f"there is no program {PROGRAM}")
    schedule = [
        *(["--schedule", given.schedule] if given.schedule else []),
        *(["--steady"] if given.steady else []),
    ]
    words = [given.batch, *schedule, *(["--wiring", given.wiring] if given.wiring else [])]
    count, due = read_orders(ask("orders", given.batch, *schedule))
    image = read_image(given)
    switches = ["--switches", given.switches] if given.switches else []
    by_tables = read_switch(ask("switch", *words, *switches)) if given.tables else None
    if by_tables and not (given.first.isdecimal() and int(given.first) <= count):
        fail(f"--from {given.first} names no setting")
    read = [given.batch, given.schedule, given.wiring, given.image]
    cables = [f"{given.cable}{way}" for way in ("", ".in", ".out")]
    must_not_be_read("host.py", given.image_out, *read, *cables)
    left = given.image_out and open_to_write(given.image_out)
    cable = Cable(given.cable, given.patience)
    try:
        cable.find_modules()
        cable.ask_relay(bool(by_tables))
        shape = cable.compare(count, due, given.shape)
        if by_tables and shape[0] > ON_ONE_SWITCH:
            fail("--tables is for a board with one switch")
        if image is not None:
            cable.fill(shape, image)
        status = 0
        if by_tables:
            cable.move_by_tables(int(given.first), *by_tables)
        else:
            ways = [SWITCH, SWITCH_B] if shape[0] > ON_ONE_SWITCH or switches else [SWITCH]
            with tempfile.TemporaryDirectory(prefix="host-") as folder:
                drive = Drive(cable, folder, ways, *words, "--from", given.first)
                status = drive_all(cable, drive, given)
        if status == 0:
            image = cable.read(shape) if left else b""
            cable.end_modules()
            if left:
                write_image(left, given.image_out, image)
    except BrokenPipeError:
        fail("the cable has ended, or drive has")
    finally:
        cable.finish()
    sys.exit(status)


if __name__ == "__main__":
    run("host.py", main)
