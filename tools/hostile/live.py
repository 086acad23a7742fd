"""Live clients of `exchange host`, each of which goes through a script over named pipes,
all at once."""

import os
import re
import select
import signal
import sys

import plain
from program import EXCHANGE, TOP, Ended, end, start
from sessions import COMMANDS

sys.path[:0] = [f"{TOP}/tools", f"{TOP}/tools/hosts"]

from pipe_clients import Client, make_pipes  # noqa: E402
from harness import Late, limit  # noqa: E402


def commands(script):
    """The commands of a script, each with all its lines: so many replies are told,
    unless the session ends before."""
    lines = re.findall(rb"[^\n]*\n|[^\n]+", script)
    while lines:
        found = COMMANDS[0][0].fullmatch(lines[0].rstrip(b"\n"))
        count = int(found[1]) if found and int(found[1]) <= plain.TRANSFERS else 0
        yield b"".join(lines[: count + 1])
        del lines[: count + 1]


class Live(Client):
    """A client that says a few commands of its script at once,
    and the next ones when it has heard the replies."""

    def __init__(self, name, script, draw):
        super().__init__(name)
        self.left, self.draw, self.heard, self.awaited = list(commands(script)), draw, b"", 0
        self.go_on()

    def go_on(self):
        """Says the next commands, if it has heard all replies,
        and closes its pipe behind the last ones."""
        if self.awaited > self.heard.count(b"\n") or self.said is None:
            return
        count = self.draw.randint(1, 8)
        now, self.left = self.left[:count], self.left[count:]
        self.awaited += len(now)
        try:
            os.write(self.said, b"".join(now))
        except BrokenPipeError:
            self.left = []
        if not self.left:
            self.say_no_more()
            self.said = None

    def hear_more(self):
        """Hears what there is, and whether there may be more."""
        part = os.read(self.told.fileno(), 1 << 16)
        self.heard += part
        if part:
            self.go_on()
        return part != b""


def talk(clients):
    """Lets clients say their scripts and hear until all their sessions have ended."""
    hearing = {client.told.fileno(): client for client in clients}
    while hearing:
        for ready in select.select(list(hearing), [], [])[0]:
            if not hearing[ready].hear_more():
                client = hearing.pop(ready)
                client.hear_no_more()
                if client.said is not None:
                    client.say_no_more()


def host(shape, names, scripts, draw, *options):
    """Starts a host of clients of these names, which go through these scripts: how it ended,
    and what each was told."""
    make_pipes(names)
    process, *ends = start([EXCHANGE, "host", shape, *names, *options])
    try:
        with limit():
            clients = [Live(name, script, draw) for name, script in zip(names, scripts)]
            talk(clients)
    except Late:
        os.kill(process, signal.SIGKILL)
        return Ended(b"", b"it hangs", end(process, *ends).status), []
    return end(process, *ends), [client.heard for client in clients]
