#!/usr/bin/env python3
"""A module of a rack: it obeys its orders for a schedule of a batch.

    module.py [--in-turn] MODULE SHAPE BATCH SCHEDULE LINK0 LINK3 LINK1 [LINK2]

Its links are sockets, by their numbers. Over link 1 comes the number of each setting, once the
switch is set. The module hands it on over link 2 and does its orders. Once all modules after it are
done too, it gives the number back. ../board/chain.py says which other numbers there are: by them it
tells of its tables, gets its words, and gives them back. rack.py starts it.
"""

import os
import socket
import sys
from concurrent.futures import ThreadPoolExecutor

import exchange

# Nothing is left in the folder of the examples.
sys.dont_write_bytecode = True
sys.path.append(os.path.join(os.path.dirname(os.path.dirname(os.path.realpath(__file__))), "board"))

from chain import (
    END,
    FILL,
    LINK_ENDED,
    READ,
    TABLES,
    TOLD,
    WAIT,
    numbers,
    orders_sum,
    sent,
)  # noqa: E402

ACKNOWLEDGE = b"\0"


def read(path):
    with open(path, "rb") as file:
        return file.read()


class Module:
    """A module with its blocks, and with copies of those that it is told to copy."""

    def __init__(self, shape, tables, links):
        _, blocks, words = map(int, shape.split("x"))
        self.size, self.links, (self.copies, self.settings) = 4 * words, links, tables
        self.told = sent(orders_sum(*tables), blocks, words)
        self.fill(bytes(blocks * self.size))

    def fill(self, image):
        """Takes words for all its blocks, and copies those aside that it has to."""
        self.memory = [
            image[start : start + self.size] for start in range(0, len(image), self.size)
        ]
        self.aside = {block: self.memory[block] for block in self.copies}

    def orders(self, number):
        return self.settings[number] if 0 <= number < len(self.settings) else []

    def obey(self, order):
        """Moves the words of one order. Whoever sends waits until the other end has taken them,
        as on a real link."""
        number, act, block = order
        link = self.links[number]
        if act == "receive block":
            self.memory[block] = take(link, self.size)
            link.sendall(ACKNOWLEDGE)
        else:
            link.sendall(self.aside[block] if act == "send copy" else self.memory[block])
            take(link, len(ACKNOWLEDGE))


def take(link, count):
    """So many bytes that come over a link."""
    taken = link.recv(count, socket.MSG_WAITALL)
    if len(taken) < count:
        raise EOFError
    return taken


def obey_all(module, head, tail, at_once):
    """Obeys until END comes over the head of the chain."""
    number, is_filled, size = 0, False, len(module.memory) * module.size
    while number != END:
        number = numbers(take(head, 2))[0]
        is_filled = is_filled and number != WAIT
        is_passed = tail is not None and (number != FILL or is_filled)
        if is_passed:
            tail.sendall(sent(number))
        # Both links side by side.
        list(at_once.map(module.obey, module.orders(number)))
        if number == FILL:
            words = take(head, size)
            if is_passed:
                tail.sendall(words)
            else:
                module.fill(words)
                is_filled = True
        if number in (TABLES, READ):
            head.sendall(module.told)
        if number == READ:
            head.sendall(b"".join(module.memory))
        # Until all modules after it are done too.
        while is_passed and (back := take(tail, 2)) != sent(number):
            head.sendall(back + take(tail, 2 * TOLD - 2 + (size if number == READ else 0)))
        head.sendall(sent(number))


def main():
    words = [word for word in sys.argv[1:] if word != "--in-turn"]
    number, shape, batch, schedule = int(words[0]), words[1], *map(read, words[2:4])
    zero, three, head, *tail = [socket.socket(fileno=int(word)) for word in words[4:]]
    # A module without orders isn't told.
    orders = exchange.orders(batch, schedule, number) or [
        (number, [], [[] for _ in exchange.settings(schedule)])
    ]
    module = Module(shape, orders[0][1:], {0: zero, 3: three})
    with ThreadPoolExecutor(1 if "--in-turn" in sys.argv else 2) as at_once:
        obey_all(module, head, tail[0] if tail else None, at_once)


if __name__ == "__main__":
    try:
        main()
    except (EOFError, ConnectionError):
        print("module.py: a link has ended", file=sys.stderr)
        sys.exit(LINK_ENDED)
