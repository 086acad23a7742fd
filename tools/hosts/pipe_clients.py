"""A host and its clients over named pipes, as cases have them (`hosts.py`, `files.py`)."""

from __future__ import annotations

import array
import errno
import fcntl
import os
import subprocess
import termios
import time
from collections.abc import Mapping, Sequence

from harness import Processes, program

EXCHANGE = program()

# The words by which a host keeps its record and the image that it leaves.
KEPT = ["--record", "record", "--image-out", "left"]

# What was started in the case at hand.
PROCESSES = Processes()


def make_pipes(names: Sequence[str]) -> None:
    """Makes a pipe for each way of each client."""
    for name in names:
        os.mkfifo(f"{name}.in")
        os.mkfifo(f"{name}.out")


class Client:
    """A client, which opens the pipe by which it speaks before the one by which it hears, as the
    host does."""

    def __init__(self, name: str) -> None:
        self.name = name
        self.said = os.open(f"{name}.in", os.O_WRONLY)
        self.told = open(f"{name}.out", "rb")

    def say(self, text: str) -> None:
        os.write(self.said, text.encode())

    def hear(self) -> str:
        return self.told.readline().decode().rstrip("\n")

    def ask(self, text: str) -> str:
        self.say(f"{text}\n")
        return self.hear()

    def say_no_more(self) -> None:
        os.close(self.said)

    def hear_no_more(self) -> None:
        self.told.close()

    def leave(self) -> None:
        self.say_no_more()
        self.hear_no_more()

    def is_heard(self) -> bool:
        """Whether the host still has the pipe open by which the client speaks: it closes that where
        the session ends."""
        try:
            os.close(os.open(f"{self.name}.in", os.O_WRONLY | os.O_NONBLOCK))
        except OSError as error:
            if error.errno == errno.ENXIO:
                return False
            raise
        return True

    def wait_for_the_end(self) -> None:
        while self.is_heard():
            time.sleep(0.01)

    def unread(self) -> int:
        """How many bytes it was told, and hasn't heard yet."""
        size = array.array("i", [0])
        fcntl.ioctl(self.told, termios.FIONREAD, size)
        return size[0]


def is_replayed(shape: str) -> bool:
    """Whether the record that a host of this shape kept is replayed to the image that it left."""
    with open("left", "rb") as left:
        words = [EXCHANGE, "replay", "record", "--shape", shape]
        replay = PROCESSES.start(words, stdin=subprocess.DEVNULL)
        return replay.communicate()[0] == left.read() and replay.returncode == 0


class Host:
    """A host of clients of these names, in this environment, which records."""

    def __init__(
        self, shape: str, names: Sequence[str], *options: str, env: Mapping[str, str] | None = None
    ) -> None:
        make_pipes(names)
        self.shape, self.names = shape, names
        words = [EXCHANGE, "host", shape, *names, *options, *KEPT]
        self.process = PROCESSES.start(words, stdin=subprocess.DEVNULL, env=env)

    def is_there(self) -> bool:
        return self.process.poll() is None

    def end(self) -> tuple[list[str], int]:
        """What it printed, and its status; and a line more where what it recorded isn't replayed to
        the image that it left."""
        printed = self.process.communicate()[0].decode().splitlines()
        if not is_replayed(self.shape):
            printed.append("the record isn't replayed")
        return printed, self.process.returncode

    def ended(self, **faults: str) -> tuple[list[str], int]:
        """What it has to print, and its status, where these clients' sessions ended by a fault."""
        lines = []
        for number, name in enumerate(self.names):
            lines += [
                f"session {number} {name}",
                *([f"ended {faults[name]}"] if name in faults else []),
            ]
        return lines, 1 if faults else 0
