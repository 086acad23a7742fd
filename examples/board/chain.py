"""What the programs of a board have in common: the ways of its cable, the numbers that go along its
chain of modules, and tables with their sums. host.py, relay.py, the programs of examples/rack and
those that make tables use it; docs/BOARD.md says more.

A number has two bytes, the lower one first. That
of a setting has the modules do their orders of it.
"""

import contextlib
import os
import re
import signal
import sys

# The ways of a cable. Before each byte goes the number of its way. A byte on the last one asks the
# relay what it is. It answers there, and does nothing else.
SWITCH, MODULES, SWITCH_B, KIND = 0, 1, 2, 3

# What a relay is: one passes on the bytes of the switch, the other has them as tables.
PLAIN, BY_TABLES = 0, 1

# END ends the modules, and WAIT comes back once all of them wait. For TABLES each module tells the
# sum of its tables, how many blocks it has, and how many words each. After FILL come the words of
# the first module that hasn't been filled since WAIT. For READ each module tells what it tells for
# TABLES, and its words.
END, WAIT, TABLES, FILL, READ = -1, -2, -3, -4, -5

# How many numbers a module tells for TABLES.
TOLD = 3

# Settings that a schedule has at most: from this number on none has orders.
MOST_SETTINGS = 4096

# Modules that one switch has links for.
ON_ONE_SWITCH = 16

# The status of a process that ends since another one has: rack.py then looks for that one.
LINK_ENDED = 3

# The signals that end a program. Each blocks them before it imports anything else.
ENDING = signal.SIGINT, signal.SIGTERM

LINKS = (0, 3)
IDLE = "idle"
ACTS = (IDLE, "send block", "send copy", "receive block")


class Ended(BaseException):
    """A signal ends the program."""


def ignore_signals():
    """From here on no signal ends the program: it is at its end."""
    for number in ENDING:
        signal.signal(number, signal.SIG_IGN)


def run(name, main):
    """Runs a program until its end, or until a signal: then what it began is ended,
    and one line says so."""

    def end(number, _):
        ignore_signals()
        raise Ended(number)

    try:
        for number in ENDING:
            # One that is ignored stays so.
            if signal.getsignal(number) != signal.SIG_IGN:
                signal.signal(number, end)
        signal.pthread_sigmask(signal.SIG_UNBLOCK, ENDING)
        main()
    except Ended as ended:
        number = signal.Signals(ended.args[0])
        print(f"{name}: ended by {number.name}", file=sys.stderr, flush=True)
        sys.exit(128 + number)
    except OSError as error:
        sys.exit(f"{name}: {error}")
    finally:
        ignore_signals()


def must_not_be_read(program, written, *read):
    """Ends a program that would write a file that it reads."""
    for name in filter(None, read if written else ()):
        with contextlib.suppress(OSError):
            if os.path.samefile(written, name):
                sys.exit(f"{program}: --image-out {written}: that is {name}, which is read")


def sent(*numbers):
    """Numbers, as they go along the chain."""
    return b"".join(number.to_bytes(2, "little", signed=True) for number in numbers)


def numbers(told):
    """The numbers that came along the chain."""
    return [
        int.from_bytes(told[at : at + 2], "little", signed=True) for at in range(0, len(told), 2)
    ]


def sum_of(numbers):
    """The sum of a table: 0 to 32748. Two that differ may have the same, one time in 32749."""
    found = 0
    for number in numbers:
        found = (31 * found + number + 1) % 32749
    return found


def rows(settings):
    """What a module does in each setting: for link 0 and for link 3 an act, and the block. A
    setting is the link, the act and the block of each order. Without a setting there is a row that
    is idle."""
    done = [{link: (act, block) for link, act, block in setting} for setting in settings or [[]]]
    return [[links.get(link, (IDLE, 0)) for link in LINKS] for links in done]


def orders_sum(copies, settings):
    """The sum of the tables of a module."""
    acts = [
        number
        for row in rows(settings)
        for act, block in row
        for number in (ACTS.index(act), block)
    ]
    return sum_of([len(copies), *copies, len(settings), *acts])


def read_orders(text):
    """How many settings there are in what `exchange orders` prints, and by the number of each
    module that has orders its copies and settings."""
    head, *lines = [line.split(" ") for line in text.splitlines()] or [[]]
    if head[:1] != ["modules"]:
        sys.exit("wanted is what `exchange orders BATCH` prints")
    count, modules = int(head[3]), {}
    for words in lines:
        if words[0] == "module":
            copies, settings = modules[int(words[1])] = [], [[] for _ in range(count)]
        elif words[0] == "copy":
            copies.append(int(words[2]))
        else:
            settings[int(words[1])].append((int(words[3]), " ".join(words[4:6]), int(words[6])))
    return count, modules


def orders_of_one(text):
    """The only module of what `exchange orders --module M` prints, or none,
    and its copies and settings."""
    count, modules = read_orders(text)
    if len(modules) > 1:
        sys.exit("wanted are the orders of one module: exchange orders BATCH --module M")
    return next(((module, *tables) for module, tables in modules.items()), (None, [], [[]] * count))


def read_switch(text):
    """The bytes of all settings that `exchange switch` prints for one switch,
    and where those of each end."""
    found, ends = b"", []
    for line in text.splitlines():
        word, number, *pairs = line.split()
        if word != "setting" or number != str(len(ends)) or any(len(pair) != 2 for pair in pairs):
            sys.exit("wanted are the bytes of one switch: exchange switch BATCH")
        found += bytes.fromhex("".join(pairs))
        ends.append(len(found))
    return found, ends


def read_wiring(text):
    """The links of the switch that modules are on, by the module's number,
    and by 0 for its link 0 and 1 for its link 3."""
    found = re.findall(r"module (\d+) link 0 (?:at (\d+)|none) link 3 (?:at (\d+)|none)", text)
    return {
        (int(module), end): int(at) for module, *ends in found for end, at in enumerate(ends) if at
    }


def switch_sum(found, ends):
    """The sum of the tables of a switch."""
    return sum_of([len(ends), *ends, *found])
