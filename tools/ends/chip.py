"""A C004 in plain Python, which shares no code with the product."""

import os
import sys

TOP = os.path.dirname(os.path.dirname(os.path.dirname(os.path.abspath(__file__))))
sys.path.insert(0, f"{TOP}/tools/hostile")

import switching  # noqa: E402

ENQUIRE, RESET = 2, 4
PORTS = {**switching.PORTS, ENQUIRE: 1}

# The commands that join and cut.
TURNS = (0, 1, 5, 6)


class Chip:
    """A C004 that is handed bytes. At first it is as after a reset. It drops a byte that can't
    stand where it comes, and the command that was begun with it. It counts joins and cuts, and may
    forget one: it doesn't obey that of this number, from 0."""

    def __init__(self):
        self.switch, self.begun, self.place, self.told = switching.Switch(), [], 0, []
        self.switch.inputs = {}
        self.forgets, self.turns = None, 0

    def take(self, byte):
        """Takes a byte, and gives the answer where an enquiry ends."""
        self.place += 1
        if byte >= (32 if self.begun else len(PORTS)):
            wanted = "commands begin with 00 to 06"
            if self.begun:
                wanted = "ports are 00 to 1f, and the command is dropped"
            place = f"byte {self.place} is {byte:02x}"
            self.told.append(f"exchange: standard input: {place}; {wanted}\n")
            self.begun = []
            return None
        self.begun.append(byte)
        command, *ports = self.begun
        if len(ports) < PORTS[command]:
            return None
        self.begun = []
        if command == ENQUIRE:
            return self.answer(ports[0])
        self.turns += command in TURNS
        if not (command in TURNS and self.turns - 1 == self.forgets):
            self.switch.obey(command, ports)
        return None

    def answer(self, output):
        """The input that feeds an output, with the top bit 1, or 0 where none does."""
        return 0x80 | self.switch.inputs[output] if output in self.switch.inputs else 0
