#!/usr/bin/env python3
"""A rack of processes, which is a board without a board: a switch, a relay, and a process for each
module. Over a cable examples/board/host.py has its switch set, and tells the modules which setting
stands.

    rack.py SHAPE BATCH [--steady | --schedule FILE] [--wiring FILE] [--cable CABLE] [--slot-0]
            [--modules FOLDER] [--relay FILE] [--in-turn] [OPTION OF host.py]..

Without an option all go by the plan, and this program starts host.py too, with the options that are
its own, as --image. With --cable you start it: CABLE.in and CABLE.out are named pipes. The words of
all modules are 0 at first. A line on standard error has the number of each process. Where one
fails, or is killed, the rack says which, and ends all. A rack of more than 16 modules has two
switches. With --slot-0 the cable ends at slot 0, whose relay parts the bytes, and a second relay
passes those of the switch on. With --modules the program of module M is FOLDER/M, and with --relay
that of the relay is FILE: they have the links of module.py and relay.py. With --in-turn each module
does what it is told for link 0, and then what it is told for link 3: that hangs in a ring.
docs/BOARD.md says how to run it.
"""

import signal

if __name__ == "__main__":
    # Until chain.run takes them.
    signal.pthread_sigmask(signal.SIG_BLOCK, (signal.SIGINT, signal.SIGTERM))

import argparse
import contextlib
import fcntl
import os
import queue
import socket
import subprocess
import sys
import tempfile
import threading
import time

try:
    import exchange
except ImportError:
    sys.exit(
        "rack.py: Python has no module exchange: ./exchange install PREFIX puts it there, "
        "and docs/BOARD.md says how"
    )

# Nothing is left in the folder of the examples.
sys.dont_write_bytecode = True
HERE = os.path.dirname(os.path.realpath(__file__))
BOARD = os.path.join(os.path.dirname(HERE), "board")
sys.path.append(BOARD)

from chain import (
    LINK_ENDED,
    ON_ONE_SWITCH,
    ignore_signals,
    must_not_be_read,
    run,
)  # noqa: E402

HOST = "host.py"

# Seconds that a host has to end in, once its cable or the modules have ended,
# and a process that others miss.
PATIENCE = 10


def read(path):
    with open(path, "rb") as file:
        return file.read()


def keep(name, text):
    """Writes a file, and gives its name."""
    with open(name, "wb") as file:
        file.write(text)
    return name


class Rack:
    """The processes of a board, by their names."""

    def __init__(self, folder, count):
        self.folder, self.count = folder, count
        self.started, self.ended = {}, queue.SimpleQueue()

    def start(self, name, *words, links=()):
        """Starts a program, whose last words are the numbers of its links."""
        numbers = [link.fileno() for link in links]
        # The terminal's Ctrl-C is for the rack, which ends all, and for its host.
        held = signal.pthread_sigmask(signal.SIG_BLOCK, [signal.SIGINT])
        process = self.started[name] = subprocess.Popen(
            [*words, *map(str, numbers)], stdin=subprocess.DEVNULL, pass_fds=numbers
        )
        signal.pthread_sigmask(signal.SIG_SETMASK, held)
        threading.Thread(target=self.follow, args=(name, process), daemon=True).start()

    def follow(self, name, process):
        """Waits until a process ends."""
        process.wait()
        self.ended.put(name)

    def start_all(self, cable, ports, module, wiring, given):
        """Starts the switch, the modules and the relays. Each link is a pair of sockets. Links 1
        and 2 make a chain, from the relay on."""
        links = [[socket.socketpair() for _ in (0, 3)] for _ in range(self.count)]
        chain = [socket.socketpair() for _ in range(self.count)]
        self.start(
            "switch.py",
            sys.executable,
            f"{HERE}/switch.py",
            *wiring,
            *ports,
            links=[far for pairs in links for _, far in pairs],
        )
        for m, pairs in enumerate(links):
            own = (
                [near for near, _ in pairs]
                + [chain[m][1]]
                + [near for near, _ in chain[m + 1 : m + 2]]
            )
            self.start(f"module {m}", *module(m), links=own)
        ways = (
            [self.pipes(f"slot-{number}") for number in range(len(ports))] if given.slot_0 else []
        )
        relay = (
            [os.path.abspath(given.relay)] if given.relay else [sys.executable, f"{BOARD}/relay.py"]
        )
        self.start("relay.py", *relay, cable, *(ways or ports), links=[chain[0][0]])
        for number, (way, port) in enumerate(zip(ways, ports)):
            self.start(f"relay.py {number}", sys.executable, f"{BOARD}/relay.py", way, port)
        for end in (
            end for pair in [*chain, *(pair for pairs in links for pair in pairs)] for end in pair
        ):
            end.close()

    def pipes(self, name):
        """Two named pipes of the rack's own folder, and their name."""
        for way in "in", "out":
            os.mkfifo(f"{self.folder}/{name}.{way}")
        return f"{self.folder}/{name}"

    def numbers(self):
        """The numbers of the processes."""
        return ", ".join(f"{name} {process.pid}" for name, process in self.started.items())

    def wait(self):
        """Waits until all modules have ended, and the host, if it is one of these: what to say of a
        process that fails before, if one does."""
        running = {name for name in self.started if name.startswith("module ") or name == HOST}
        while running:
            name = self.ended.get()
            # A relay or a switch that misses a module isn't what has failed.
            if self.started[name].returncode not in ((0,) if name in running else (0, LINK_ENDED)):
                return self.fault(name)
            running.discard(name)
        return None

    def fault(self, name):
        """What to say of a process that has failed: of one that was killed, or failed by itself,
        where this one ended since it misses that."""
        status = {name: self.started[name].returncode}
        with contextlib.suppress(queue.Empty):
            while True:
                is_found = set(status.values()) - {0, LINK_ENDED}
                name = self.ended.get(timeout=0.2 if is_found else PATIENCE)
                status[name] = self.started[name].returncode
        name = min(
            status, key=lambda it: (status[it] >= 0, status[it] in (0, LINK_ENDED), it == HOST)
        )
        how = (
            f"was killed by {signal.Signals(-status[name]).name}"
            if status[name] < 0
            else f"has ended with status {status[name]}"
        )
        return f"{name} {how}"

    def stop(self, cable):
        """Ends all that isn't at its end, and the cable: by that a host ends."""
        ignore_signals()
        board = [process for name, process in self.started.items() if name != HOST]
        # First all stand still: none says that it misses another one.
        for number in signal.SIGSTOP, signal.SIGKILL:
            for process in board:
                process.send_signal(number)
        for process in board:
            process.wait()
        for end in cable:
            os.close(end)
        if HOST in self.started:
            with contextlib.suppress(subprocess.TimeoutExpired):
                self.started[HOST].wait(PATIENCE)
            self.started[HOST].kill()


def wait_for_host(cable):
    """Waits until no host has the cable: what the modules said last may still be
    on its way there."""
    until = time.monotonic() + PATIENCE
    while time.monotonic() < until:
        with contextlib.suppress(BlockingIOError):
            return fcntl.flock(cable, fcntl.LOCK_EX | fcntl.LOCK_NB)
        time.sleep(0.01)


def size_of(shape, batch):
    """How many bytes the words of a rack have, of a shape that a batch fits."""
    try:
        return len(exchange.apply(shape, batch, b""))
    except exchange.Refused as refused:
        if not refused.line.startswith("refused image 0 "):
            raise
        return int(refused.line.split()[-1])


def prepare(given, batch, wiring):
    """The text of the schedule that was asked for, and what the rack may be refused for."""
    exchange.apply(given.shape, batch, bytes(size_of(given.shape, batch)))
    schedule = (
        read(given.schedule)
        if given.schedule
        else exchange.plan(batch, steady=given.steady).encode()
    )
    exchange.switch_bytes(batch, schedule, wiring)
    return schedule


def words_of(arguments):
    words = argparse.ArgumentParser(
        usage=" ".join(__doc__.split("\n\n")[1].split()), allow_abbrev=False
    )
    for name in "shape", "batch":
        words.add_argument(name)
    for name in "--schedule", "--wiring", "--cable", "--modules", "--relay", "--image-out":
        words.add_argument(name)
    for name in "--steady", "--slot-0", "--in-turn":
        words.add_argument(name, action="store_true")
    given, others = words.parse_known_args(arguments)
    # The files that the host reads are others than these.
    must_not_be_read("rack.py", given.image_out, given.batch, given.schedule, given.wiring)
    others += ["--image-out", given.image_out] if given.image_out else []
    if others and given.cable:
        words.error(f"{' '.join(others)}: host.py takes these, and with --cable you start it")
    return given, others


def main():
    given, others = words_of(sys.argv[1:])
    batch, wiring = read(given.batch), given.wiring and read(given.wiring)
    try:
        schedule = prepare(given, batch, wiring)
    except exchange.Refused as refused:
        names = {
            "batch": given.batch,
            "schedule": given.schedule or "",
            "wiring": given.wiring or "",
        }
        sys.exit("\n".join([refused.line, refused.named(**names)]))
    count = int(given.shape.split("x")[0])
    if wiring and count > ON_ONE_SWITCH:
        sys.exit(f"rack.py: a wiring is that of one switch, and {count} modules have two")
    with tempfile.TemporaryDirectory(prefix="rack-") as folder:
        rack, fault = Rack(folder, count), None
        ports = [rack.pipes(port) for port in (["a", "b"] if count > ON_ONE_SWITCH else ["board"])]
        cable = os.path.abspath(given.cable) if given.cable else rack.pipes("cable")
        # Held open, the cable doesn't end where a host ends that the next one follows.
        held = [os.open(f"{cable}.{way}", os.O_RDWR) for way in ("in", "out")]
        texts = [keep(f"{folder}/batch", batch), keep(f"{folder}/schedule", schedule)]
        wired = ["--wiring", keep(f"{folder}/wiring", wiring)] if wiring else []

        def module(m):
            if given.modules:
                return [f"{os.path.abspath(given.modules)}/{m}"]
            return [
                sys.executable,
                f"{HERE}/module.py",
                *(["--in-turn"] if given.in_turn else []),
                str(m),
                given.shape,
                *texts,
            ]

        try:
            rack.start_all(cable, ports, module, wired, given)
            if not given.cable:
                words = [cable, texts[0], "--schedule", texts[1], *wired, "--shape", given.shape]
                rack.start(HOST, sys.executable, f"{BOARD}/{HOST}", *words, *others)
            print(f"rack.py: {rack.numbers()}", file=sys.stderr, flush=True)
            fault = rack.wait()
            if given.cable and not fault:
                wait_for_host(held[0])
        finally:
            rack.stop(held)
    if fault:
        sys.exit(f"rack.py: {fault}")


if __name__ == "__main__":
    run("rack.py", main)
