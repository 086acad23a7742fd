#!/usr/bin/env python3
"""The switch of a rack: a C004 that is set over its configuration link, and carries what comes over
a module's link to wherever that link feeds an output as it stands.

    switch.py [--wiring FILE] PORT [PORT] LINK..

The configuration link of a port is two named pipes, PORT.in and PORT.out. Two ports are those of
the switches A and B of a rack with more than 16 modules. The links are sockets, by their numbers:
those of link 0 and of link 3 of module 0, then of module 1, and so on. The wiring says which links
of the switch they are on. rack.py starts this program, which ends when nobody sets it any more.
"""

import argparse
import os
import select
import socket
import sys

import exchange

# What to look at where words go another way than they should.
HINT = "have rack.py and host.py the same wiring and schedule?"

# Nothing is left in the folder of the examples.
sys.dont_write_bytecode = True
sys.path.append(os.path.join(os.path.dirname(os.path.dirname(os.path.realpath(__file__))), "board"))

from chain import LINK_ENDED, read_wiring  # noqa: E402


class Chip:
    """A C004 at the other end of a port."""

    def __init__(self, port):
        self.switch = exchange.C004()
        self.read = os.open(f"{port}.in", os.O_RDONLY)
        self.write = os.open(f"{port}.out", os.O_WRONLY)

    def take(self):
        """Takes bytes of the configuration link, and answers enquiries: whether there were any."""
        sent = os.read(self.read, 4096)
        os.write(self.write, self.switch.take(sent))
        return bool(sent)

    def fed_by(self, given):
        """The outputs that an input feeds; None is no input. While commands connect, none lets data
        pass: the last byte of the state says so."""
        return (
            []
            if given is None or self.switch.state[-1]
            else [output for output in range(32) if self.switch.source(output) == given]
        )


class Wires:
    """Which inputs and outputs of the switches the modules' links are on."""

    def __init__(self, chips, links, wiring):
        self.inputs, self.outputs, self.names = {}, {}, {}
        for number, link in enumerate(links):
            module, end = divmod(number, 2)
            self.names[link] = f"link {3 * end} of module {module}"
            if wiring is not None:
                given = taken = chips[0], wiring.get((module, end))
            elif len(chips) == 1:
                given = taken = chips[0], module + 16 * end
            else:
                # A leads from the links 0 to the links 3, and B leads back.
                given, taken = (chips[end], module), (chips[1 - end], module)
            self.inputs[link], self.outputs[taken] = given, link

    def carry(self, link, words):
        """Carries what a module sends over its link."""
        chip, given = self.inputs[link]
        far = [
            self.outputs[chip, output]
            for output in chip.fed_by(given)
            if (chip, output) in self.outputs
        ]
        if not far:
            sys.exit(f"switch.py: words come over {self.names[link]}, which isn't joined; {HINT}")
        for other in far:
            other.sendall(words)


def main():
    words = argparse.ArgumentParser()
    words.add_argument("--wiring")
    words.add_argument("words", nargs="+")
    given = words.parse_args()
    links = [socket.socket(fileno=int(word)) for word in given.words if word.isdigit()]
    chips = [Chip(word) for word in given.words if not word.isdigit()]
    wiring = None
    if given.wiring:
        with open(given.wiring, encoding="utf-8") as file:
            wiring = read_wiring(file.read())
    wires = Wires(chips, links, wiring)
    setting = {chip.read: chip for chip in chips}
    while setting:
        ready = select.select([*setting, *links], [], [])[0]
        # What sets the switch came before the words that go through it,
        # though it may be seen after them.
        for read in select.select([*setting], [], [], 0)[0]:
            if not setting[read].take():
                del setting[read]
        for link in (it for it in ready if it in links):
            words = link.recv(4096)
            if words:
                wires.carry(link, words)
            else:
                links.remove(link)


if __name__ == "__main__":
    try:
        main()
    except ConnectionError:
        print("switch.py: a link has ended", file=sys.stderr)
        sys.exit(LINK_ENDED)
