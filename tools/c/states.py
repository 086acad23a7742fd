#!/usr/bin/env python3
"""The calls over states, against the program and against plain Python
that shares no code with the product.

    states.py STATES COUNT      STATES is the built program tools/c/states.c: COUNT streams of a
                                switch, by the program `exchange c004` and by tools/ends/chip.py
                                too; as many of an end that waits to boot, and as many states of
                                random bytes, of each
"""

import multiprocessing
import os
import random
import subprocess
import sys

TOP = os.path.dirname(os.path.dirname(os.path.dirname(os.path.abspath(__file__))))
sys.path[:0] = [f"{TOP}/tools/ends", f"{TOP}/tools/hostile"]

import chip
import ends
from harness import Report

# The statuses, and what stands in the place of an answer, as include/exchange.h has them.
DONE, REFUSED, REPLY, BOOTSTRAP, MISALIGNED, OUTSIDE, FAILED, LOOSE, NO_PORT, NO_STATE = (
    0, 1, 4, 5, 6, 7, 8, 32, 33, 34,
)  # fmt: skip

PORTS = 32


class Switch:
    """A C004 and what its state tells, by the second implementation of tools/ends."""

    def __init__(self):
        self.chip, self.is_ready, self.statuses, self.replies = (
            chip.Chip(),
            True,
            bytearray(),
            bytearray(),
        )

    def take(self, byte):
        told, begun = len(self.chip.told), [*self.chip.begun, byte]
        answer = self.chip.take(byte)
        refused = len(self.chip.told) > told
        if not refused and not self.chip.begun:
            self.is_ready = {0: False, 1: False, 3: True, 4: True}.get(begun[0], self.is_ready)
        self.statuses.append(REFUSED if refused else DONE if answer is None else REPLY)
        if answer is not None:
            self.replies.append(answer)

    def state(self):
        begun = bytes(self.chip.begun)
        outputs = bytes(self.chip.answer(output) for output in range(PORTS))
        return outputs + begun.ljust(2, b"\0") + bytes([len(begun), not self.is_ready])

    def answers(self):
        """What each output has, and what each two links are; and of a port that isn't there."""
        inputs = self.chip.switch.inputs
        yield bytes([inputs.get(output, LOOSE) for output in range(PORTS)] + [NO_PORT])
        for link in range(PORTS):
            feed = [
                self.is_ready and inputs.get(link) == other and inputs.get(other) == link
                for other in range(PORTS)
            ]
            yield bytes([*feed, NO_PORT])
        yield bytes([NO_PORT] * (PORTS + 1))


def switch_of(state):
    """The switch that has a state, or None: each is looked for by what its bytes are to be."""
    outputs, begun, count, connecting = (
        state[:PORTS],
        state[PORTS : PORTS + 2],
        state[PORTS + 2],
        state[PORTS + 3],
    )
    if (
        count > 2
        or connecting > 1
        or any(begun[count:])
        or any(it not in (0, *range(0x80, 0xA0)) for it in outputs)
    ):
        return None
    switch = Switch()
    for output, answer in enumerate(outputs):
        if answer:
            switch.chip.switch.obey(0, [answer - 0x80, output])
    for byte in begun[:count]:
        switch.take(byte)
    if REFUSED in switch.statuses or len(switch.chip.begun) != count:
        return None
    switch.is_ready, switch.statuses = not connecting, bytearray()
    return switch


class End:
    """The link's end of a module that waits to boot,
    which was written from the T414's data sheet and include/exchange.h."""

    def __init__(self, memory, base):
        self.memory, self.base = bytearray(memory), base
        self.begun, self.failed, self.statuses, self.replies = b"", False, bytearray(), bytearray()

    def take(self, byte):
        status = self.status_of(byte)
        self.statuses.append(status)
        if status not in (DONE, REPLY):
            self.begun, self.failed = b"", True

    def status_of(self, byte):
        if self.failed:
            return FAILED
        self.begun += bytes([byte])
        if self.begun[0] > 1:
            return BOOTSTRAP
        if len(self.begun) < (5 if self.begun[0] else 9):
            return DONE
        message, self.begun = self.begun, b""
        address = int.from_bytes(message[1:5], "little")
        place = address - self.base
        if address % 4:
            return MISALIGNED
        if not 0 <= place <= len(self.memory) - 4:
            return OUTSIDE
        if message[0] == 0:
            self.memory[place : place + 4] = message[5:]
            return DONE
        self.replies += self.memory[place : place + 4]
        return REPLY


class Calls:
    """The program in C that makes the calls, kept open."""

    def __init__(self, path):
        self.process = subprocess.Popen([path], stdin=subprocess.PIPE, stdout=subprocess.PIPE)

    def ask(self, line, *bytes_after):
        self.process.stdin.write(line.encode() + b"\n" + b"".join(bytes_after))
        self.process.stdin.flush()
        return [
            bytes.fromhex(part)
            for part in self.process.stdout.readline().decode().rstrip("\n").split(" ")[1:]
        ]

    def end(self):
        self.process.stdin.close()
        return self.process.wait() == 0


def stream_to_switch(draw, calls):
    """A stream of commands, mostly spoilt: what the calls give, what is wanted, and what `c004` and
    the second implementation answer."""
    text = b"".join(ends.text_of(draw) for _ in range(draw.choice((1, 1, 2, 5))))
    switch = Switch()
    for byte in text:
        switch.take(byte)
    found = calls.ask(f"c004 {len(text)}", text)
    wanted = [bytes(switch.statuses), bytes(switch.replies), switch.state(), *switch.answers()]
    return text, found, wanted


def random_message(draw, base, many):
    """A peek or a poke, mostly of a word that is there."""
    last = max(0, many - 4)
    place = draw.choice(
        (4 * draw.randrange(last // 4 + 1), draw.randrange(many + 8), -4, last, last + 4)
    )
    address = (base + place if draw.random() < 0.97 else draw.randrange(1 << 32)) % (1 << 32)
    if draw.random() < 0.9:
        address -= address % 4
    words = [address.to_bytes(4, "little"), draw.randbytes(4)]
    return b"\0" + b"".join(words) if draw.random() < 0.5 else b"\1" + words[0]


def random_memory(draw):
    many = draw.choice((0, 1, 3, 4, 5, 8, 16, 60, 64))
    base = draw.choice((0, 4, 0x80000800, 0x80000800, 0x7FFFFFFD, 0xFFFFFFF0, 0xFFFFFFFF))
    return base, draw.randbytes(many)


def stream_to_end(draw, calls):
    """A stream of messages, some of them spoilt, over some memory."""
    base, memory = random_memory(draw)
    text = bytearray(
        b"".join(random_message(draw, base, len(memory)) for _ in range(draw.randrange(12)))
    )
    if draw.random() < 0.3:
        text[draw.randrange(len(text) + 1) :] = draw.randbytes(draw.randrange(4))
    end = End(memory, base)
    for byte in text:
        end.take(byte)
    found = calls.ask(f"boot {base} {len(memory)} {len(text)}", memory, text)
    state = end.begun.ljust(8, b"\0") + bytes([len(end.begun), end.failed])
    # What stands behind the bytes that have come has no effect, and isn't said.
    found[2] = (found[2][: found[2][8]] if len(found) > 2 else b"").ljust(8, b"\0") + found[2][8:]
    return text, found, [bytes(end.statuses), bytes(end.replies), state, bytes(end.memory)]


def spoilt(draw, state):
    """The bytes of a state, of which some may be changed."""
    state = bytearray(state)
    for _ in range(draw.choice((0, 1, 1, 2))):
        at = draw.choice((draw.randrange(len(state)), len(state) - 1 - draw.randrange(4)))
        state[at] = draw.choice((draw.randrange(256), draw.randrange(4)))
    return bytes(state)


def state_of_switch(draw, calls):
    """A state, mostly one that no switch has, and a byte."""
    given = Switch()
    for byte in ends.text_of(draw):
        given.take(byte)
    state = draw.randbytes(PORTS + 4) if draw.random() < 0.1 else spoilt(draw, given.state())
    byte = draw.choice((draw.randrange(8), draw.randrange(256)))
    found = calls.ask(f"switch {byte}", state)
    switch = switch_of(state)
    if switch is None:
        answers = [bytes([NO_STATE] * (PORTS + 1))] * (PORTS + 2)
        return state, found, [bytes([NO_STATE]), b"", state, *answers]
    switch.take(byte)
    return (
        state,
        found,
        [bytes(switch.statuses), bytes(switch.replies), switch.state(), *switch.answers()],
    )


def is_begun(begun):
    """Whether these bytes are less than a whole message."""
    return not begun or begun[0] == 0 or (begun[0] == 1 and len(begun) < 5)


def state_of_end(draw, calls):
    """A state, mostly one that no end has, with a byte and a memory."""
    base, memory = random_memory(draw)
    message = random_message(draw, base, len(memory))
    begun = message[: draw.choice((len(message) - 1, draw.randrange(len(message))))]
    state = begun.ljust(8, b"\0") + bytes([len(begun), draw.random() < 0.1])
    state = draw.randbytes(10) if draw.random() < 0.1 else spoilt(draw, state)
    byte = draw.choice((0, 1, draw.randrange(256)))
    found = calls.ask(f"end {base} {len(memory)} {byte}", state, memory)
    begun, count, failed = state[:8], state[8], state[9]
    if count > 8 or failed > 1 or not is_begun(begun[:count]):
        return state, found, [bytes([NO_STATE]), b"", state, memory]
    end = End(memory, base)
    end.begun, end.failed = begun[:count], bool(failed)
    end.take(byte)
    if not failed and len(found) > 2:
        found[2] = found[2][: found[2][8]] + found[2][8:]
        wanted = end.begun + bytes([len(end.begun), end.failed])
    else:
        wanted = state
    return state, found, [bytes(end.statuses), bytes(end.replies), wanted, bytes(end.memory)]


KINDS = [stream_to_switch, stream_to_end, state_of_switch, state_of_end]


def try_some(path, first, count):
    """Compares what the calls give with what is wanted, for some of each kind; and for the streams
    of switches with what the program `exchange c004` does."""
    report, calls, text, answers = Report("states", is_silent=True), Calls(path), b"", b""
    for number in range(first, first + count):
        for kind in KINDS:
            given, found, wanted = kind(random.Random(f"{kind.__name__} {number}"), calls)
            what = f"{kind.__name__} {number}: {given.hex(' ')}"
            report.check(what, found, wanted, "streams and states by plain Python")
            if kind is stream_to_switch:
                # A reset that can't be taken for a port begins each stream:
                # the byte before it belongs to no command.
                text, answers = text + b"\xff\4" + given, answers + found[1]
    words = [ends.EXCHANGE, "c004", "--quiet"]
    program = subprocess.run(words, input=text, stdout=subprocess.PIPE, timeout=600)
    for number, (one, other) in enumerate(zip(program.stdout, answers)):
        report.check(f"answer {number} from {first} on", one, other, "answers of `c004`")
    ended = len(program.stdout), program.returncode
    report.check("the end of `c004`", ended, (len(answers), 0))
    report.check("how the program in C ends", calls.end(), True)
    return report


def main():
    path, count, report = os.path.abspath(sys.argv[1]), int(sys.argv[2]), Report("states")
    workers = os.cpu_count() or 1
    size = -(-count // workers)
    parts = [(path, first, min(size, count - first)) for first in range(0, count, size)]
    with multiprocessing.Pool(workers) as pool:
        for own in pool.starmap(try_some, parts):
            report.add(own)
    report.finish()


if __name__ == "__main__":
    main()
