"""The other ends: a switch at named pipes or at a pty, in a thread of its own, which can forget,
lie, die, be late and say too much, and notes what it is sent; or `exchange c004`."""

import fcntl
import os
import select
import subprocess
import termios
import threading
import time

from chip import Chip

# Seconds that a switch has to come to its end.
LIMIT = 300

# Seconds for which a switch that waits before its answer looks whether another byte comes.
PAUSE = 0.05


class Pipes:
    """Two named pipes, NAME.in to the switch and NAME.out from it."""

    def __init__(self, name):
        self.port = name
        os.mkfifo(f"{name}.in")
        os.mkfifo(f"{name}.out")

    def open(self):
        """Opens the switch's ends, in the order in which the other side opens its own."""
        self.read = os.open(f"{self.port}.in", os.O_RDONLY)
        self.write = os.open(f"{self.port}.out", os.O_WRONLY)

    def finish(self):
        """Nothing: the other side has closed its own ends."""

    def close(self):
        os.close(self.read)
        os.close(self.write)


class Pty:
    """A pty that is set by `stty` with these words, which make it raw where none are given."""

    def __init__(self, name, modes=("raw", "-echo")):
        self.far, near = os.openpty()
        self.near = [near]
        os.symlink(os.ttyname(near), name)
        self.port = name
        subprocess.run(["stty", "-F", name, *modes], check=True)

    def open(self):
        self.read = self.write = self.far

    def finish(self):
        """Closes our own end of the near side, so that the far side sees that there is nobody."""
        try:
            os.close(self.near.pop())
        except IndexError:
            # It is closed.
            pass

    def close(self):
        self.finish()
        os.close(self.far)


class Far(threading.Thread):
    """A switch at the far end of a way. It reads until there is no more, answers each enquiry, and
    notes what it was sent.

    forgets     the number of the join or cut that it doesn't obey, from 0
    lies        an answer for the enquiry of each such number, from 0, in place of the true one
    dies        how many bytes it reads before it closes its ends; it answers none that ends there
    waits       before how many answers it looks for PAUSE whether a byte comes too early
    adds        what it says behind the enquiry of each such number
    silent      the enquiry from whose number on it answers nothing
    loses       the number of the byte that doesn't come to it, from 0
    left        what it was sent before, so that it may stand within a command
    old         answers that stand in its line at first
    piece       how many bytes it reads at once
    """

    def __init__(
        self,
        way,
        forgets=None,
        lies=None,
        dies=None,
        waits=0,
        adds=None,
        silent=None,
        loses=None,
        left=b"",
        old=b"",
        piece=4096,
    ):
        super().__init__(daemon=True)
        self.way, self.chip = way, Chip()
        self.chip.forgets = forgets
        for byte in left:
            self.chip.take(byte)
        self.lies, self.dies, self.waits, self.adds, self.piece = (
            lies or {},
            dies,
            waits,
            adds or {},
            piece,
        )
        self.silent, self.loses, self.old = silent, loses, old
        self.sent, self.enquiries, self.early = bytearray(), 0, []
        self.is_open = threading.Event()
        self.start()

    def run(self):
        self.way.open()
        self.is_open.set()
        os.write(self.way.write, self.old)
        try:
            while self.dies is None or len(self.sent) < self.dies:
                most = self.piece if self.dies is None else self.dies - len(self.sent)
                part = os.read(self.way.read, min(self.piece, most))
                if not part:
                    break
                for at, byte in enumerate(part):
                    self.hear(byte, part[at + 1 :])
        except OSError:
            # A pty whose other end is closed, or a pipe that nobody reads.
            pass
        self.way.close()

    def hear(self, byte, behind):
        """Takes a byte, behind which these came at once, and answers."""
        self.sent.append(byte)
        if len(self.sent) - 1 == self.loses:
            return
        answer = self.chip.take(byte)
        if answer is None:
            return
        number = self.enquiries
        self.enquiries += 1
        if behind or self.is_sent_more(PAUSE if number < self.waits else 0):
            self.early.append(number)
        if (self.silent is None or number < self.silent) and len(self.sent) != self.dies:
            os.write(
                self.way.write, bytes([self.lies.get(number, answer)]) + self.adds.get(number, b"")
            )

    def is_sent_more(self, seconds):
        """Whether a byte comes within so many seconds. That the other end is closed isn't one."""
        ready, _, _ = select.select([self.way.read], [], [], seconds)
        if not ready:
            return False
        count = fcntl.ioctl(self.way.read, termios.FIONREAD, b"\0" * 4)
        return any(count)

    def sent_by_now(self, wanted):
        """What it was sent, once it has read so many bytes as are wanted,
        or a second has passed."""
        for _ in range(100):
            if len(self.sent) >= len(wanted):
                break
            time.sleep(0.01)
        return bytes(self.sent)

    def heard(self):
        """What it was sent, once it has read all, and the enquiries before whose answers a byte
        came."""
        self.way.finish()
        self.join(LIMIT)
        return bytes(self.sent), self.early

    def heard_of_nobody(self):
        """The same of named pipes whose other ends nobody may have opened: they are opened and
        closed here, so that the switch comes to its end."""
        ends = [os.open(f"{self.way.port}.{way}", os.O_RDWR) for way in ("in", "out")]
        self.is_open.wait(LIMIT)
        for end in ends:
            os.close(end)
        return self.heard()


class Tee(threading.Thread):
    """`exchange c004` at the far end of named pipes, and a note of what it is sent."""

    def __init__(self, way, start):
        super().__init__(daemon=True)
        self.way, self.begin = way, start
        self.sent, self.told, self.status = bytearray(), None, None
        self.start()

    def run(self):
        self.way.open()
        chip = self.begin(self.way.write)
        try:
            while part := os.read(self.way.read, 4096):
                self.sent += part
                chip.stdin.write(part)
                chip.stdin.flush()
        except OSError:
            # A pty whose other end is closed.
            pass
        self.told = chip.communicate()[1]
        self.status = chip.returncode
        self.way.close()

    def heard(self):
        """What it was sent, what it told on standard error, and its status."""
        self.way.finish()
        self.join(LIMIT)
        return bytes(self.sent), self.told, self.status
