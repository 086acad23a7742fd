#!/usr/bin/env python3
"""`exchange drive` at switches that stand somewhere else, and `exchange c004` as one.

Each case stands in a folder of its own. Lines are held against `plan`, and the bytes that a switch
is sent against `switch`. At the other end is `exchange c004`, or far.py, which notes each byte that
comes between an enquiry and its answer: there may be none.
"""

import functools
import itertools
import os
import random
import select
import signal
import socket
import struct
import subprocess
import sys
import time

from chip import ENQUIRE, PORTS, RESET, TOP, TURNS, Chip
from far import Far, Pipes, Pty, Tee

sys.path[:0] = [f"{TOP}/tools", f"{TOP}/tools/hosts"]

import plain  # noqa: E402
import switching  # noqa: E402
import harness  # noqa: E402
from pipe_clients import EXCHANGE, PROCESSES  # noqa: E402

LIMIT, start = harness.SECONDS, PROCESSES.start

EXAMPLES = f"{TOP}/examples"
THREE = f"{EXAMPLES}/three-transfers.txt"
WIDE = f"{EXAMPLES}/wide-rack.txt"

# An enquiry of each output.
ASKED = bytes(byte for output in range(32) for byte in (ENQUIRE, output))

# The byte that ends a sequence.
END = b"\x03"

# As a switch comes up: what ends a command and resets, a join of each output to its own input, and
# the enquiries, of which these are so many.
JOINED = b"\x03\x03\x04" + bytes(byte for output in range(32) for byte in (0, output, output))
WOKEN, ENQUIRIES = JOINED + ASKED, 32

# What it is sent up to the first enquiry.
FIRST_ASKED = WOKEN[: len(JOINED) + 2]


def ask(*words, given=b""):
    """What the program prints, standard error with it, and its status."""
    run = subprocess.run(
        [EXCHANGE, *words],
        input=given,
        stdout=subprocess.PIPE,
        stderr=subprocess.STDOUT,
        timeout=LIMIT,
    )
    return run.stdout.decode(), run.returncode


def start_drive(*words):
    """Starts `drive`, with lines to come."""
    return start([EXCHANGE, "drive", *words], stdin=subprocess.PIPE)


def end_of(process, given=None):
    """The lines that a program has printed at its end, but for what it tells beside them, and its
    status."""
    printed = process.communicate(given)[0]
    lines = printed.decode().splitlines()
    return [line for line in lines if not line.startswith("exchange: ")], process.returncode


def drive(*words, given=b""):
    """Runs `drive` to its end."""
    return end_of(start_drive(*words), given)


@functools.lru_cache(maxsize=None)
def planned(path, *options):
    """What `plan` prints."""
    return ask("plan", path, "--quiet", *options)[0]


def lines_for(batch, *options):
    """What `drive` is to print, by `plan`: a line for each setting."""
    settings = [
        line[7:]
        for line in planned(os.path.abspath(batch), *options).splitlines()
        if line.startswith("setting ")
    ]
    return [f"setting {number}{transfers}" for number, transfers in enumerate(settings)]


def all_driven(lines):
    return lines + [f"driven settings {len(lines)}"], 0


def driven(settings):
    """What a switch is to be sent that is set so, setting by setting: it comes up, and behind the
    bytes of each setting that changes it are the enquiries, and the end of the sequence again."""
    sent = [b"" if setting == END else setting + ASKED + END for setting in settings]
    return [WOKEN + sent[0], *sent[1:]] if sent else []


def sent_for(batch, *options):
    """What each switch is to be sent, by `switch`."""
    sent = {}
    for line in ask("switch", batch, *options, "--quiet")[0].splitlines():
        _, _, *words = line.split()
        name = words.pop(0) if words[0] in ("a", "b") else ""
        sent.setdefault(name, []).append(bytes.fromhex("".join(words)))
    return [driven(sent[name]) for name in sorted(sent)]


def is_batch(path):
    with open(path, "rb") as file:
        return file.read(6) == b"batch "


def batches():
    """The batches among the examples."""
    for folder in EXAMPLES, f"{EXAMPLES}/patterns":
        for name in sorted(os.listdir(folder)):
            if name.endswith(".txt") and is_batch(f"{folder}/{name}"):
                yield f"{folder}/{name}"


def write_batch(name, transfers):
    """Writes a batch of pushes, each of block 0, between these modules."""
    with open(name, "w") as file:
        file.write(
            "".join([f"batch {len(transfers)}\n", *(f"push {m} 0 {n} 0\n" for m, n in transfers)])
        )


def begin_c004(out):
    """Starts a switch that answers to this descriptor."""
    return start_apart([EXCHANGE, "c004"], stdin=subprocess.PIPE, stdout=out)


def start_apart(words, **streams):
    """Starts a program, with its standard error apart."""
    return subprocess.Popen(
        words, **{"stdout": subprocess.PIPE, "stderr": subprocess.PIPE, **streams}
    )


def driven_at_c004(batch, *options, make=Pipes, switches=()):
    """What `drive` prints with `c004` at each port, and what these were sent and told."""
    wanted = sent_for(batch, *switches, *(word for word in options if word != "--go-on"))
    tees = [Tee(make(f"port{n}"), begin_c004) for n in range(len(wanted))]
    ended = drive(batch, *(tee.way.port for tee in tees), *options)
    return (ended, [tee.heard() for tee in tees]), [(b"".join(sent), b"", 0) for sent in wanted]


def put_away(*ports):
    """Takes away the pipes of ports, for the next try in this folder."""
    for port in ports:
        for name in port, f"{port}.in", f"{port}.out":
            if os.path.lexists(name):
                os.unlink(name)


# ---- `drive` at `c004`


def examples():
    """Each example, over as many ports as it needs, and over two."""
    for batch, switches in itertools.product(batches(), [(), ("--switches", "2")]):
        (ended, heard), wanted = driven_at_c004(batch, "--go-on", switches=switches)
        yield (batch, ended), (batch, all_driven(lines_for(batch)))
        yield (batch, heard), (batch, wanted)
        yield (batch, switches and len(heard)), (batch, switches and 2)
        put_away("port0", "port1")


def many_settings():
    """255 settings, each of which turns the switch."""
    write_batch("batch", [(0, 1 + t % 2) for t in range(255)])
    (ended, heard), wanted = driven_at_c004("batch", "--go-on")
    yield ended, all_driven(lines_for("batch"))
    yield len(ended[0]), 256
    yield heard, wanted


def other_schedules():
    """A steady schedule, and one that a file has."""
    thrice = f"{EXAMPLES}/patterns/three-blocks.txt"
    (ended, heard), wanted = driven_at_c004(thrice, "--go-on", "--steady")
    yield ended, all_driven(lines_for(thrice, "--steady"))
    yield heard, wanted
    put_away("port0")
    (ended, heard), wanted = driven_at_c004(
        THREE, "--schedule", f"{EXAMPLES}/one-at-a-time.plan.txt", "--go-on"
    )
    yield ended, all_driven([f"setting {n} {n}" for n in range(3)])
    yield heard, wanted


def a_pty_and_c004():
    """`c004` behind a pty that is raw."""
    (ended, heard), wanted = driven_at_c004(THREE, "--go-on", make=Pty)
    yield ended, all_driven(lines_for(THREE))
    yield heard, wanted


# ---- a board of another wiring


# The wiring that the help of `switch` and docs/SWITCHES.md show.
BOARD = (
    "wiring 3\nmodule 0 link 0 at 4 link 3 at 21\nmodule 1 link 0 at 5 link 3 at 22\n"
    "module 2 link 0 at 11 link 3 at 0\n"
)


def write_board(text=BOARD):
    """Writes a wiring, and gives the words that name it."""
    with open("board", "w") as file:
        file.write(text)
    return "--wiring", "board"


def board_text(links):
    """The wiring of modules that are on these links, two each."""
    lines = [
        f"module {m} link 0 at {link0} link 3 at {link3}\n"
        for m, (link0, link3) in enumerate(links)
    ]
    return f"wiring {len(links)}\n{''.join(lines)}"


def sent_by(wiring, batch):
    """What the switch of a board is to be sent, by the second implementation, for each setting."""
    transfers, settings = plan_of(batch)
    return driven(
        [bytes(sent) for _, _, [(_, sent)] in switching.told(transfers, settings, wiring)]
    )


def touched(sent):
    """The links that commands join or cut once it has come up, behind the first, which is a reset.
    Another reset cuts all."""
    links, left = set(), list(sent[len(WOKEN) + 1 :])
    while left:
        byte = left.pop(0)
        named = [left.pop(0) for _ in range(PORTS[byte])]
        links |= set(range(32) if byte == RESET else named if byte in TURNS else [])
    return links


def boards():
    """Each example that one switch does for, on a board whose modules are on links
    in some order."""
    chance = random.Random(52)
    for batch in batches():
        transfers, settings = plan_of(batch)
        if switching.switches_for(transfers) != [""]:
            continue
        modules = 1 + max(
            (it for transfer in transfers for it in (transfer[1], transfer[3])), default=0
        )
        links = chance.sample(range(32), 2 * chance.randint(modules, 16))
        wiring = list(zip(links[::2], links[1::2]))
        options = write_board(board_text(wiring))
        wanted = sent_by(wiring, batch)
        chip = Far(Pipes("port"))
        yield (batch, drive(batch, "port", *options, "--go-on")), (
            batch,
            all_driven(lines_for(batch)),
        )
        yield (batch, chip.heard()), (batch, (b"".join(wanted), []))
        yield (batch, sent_for(batch, *options)), (batch, [wanted])
        put_away("port")


# A board that leaves out module 1, link 3 of module 0 and both links of module 4;
# and what it is refused.
HOLES = (
    "wiring 4\nmodule 0 link 0 at 4 link 3 none\nmodule 2 link 0 at 11 link 3 at 0\n"
    "module 3 link 0 none link 3 at 22\nmodule 4 link 0 none link 3 none\n"
)
THERE = "batch 3\npush 0 0 2 0\npull 2 1 3 0\npush 0 1 3 1\n"
LACKING = {
    "push 0 0 1 0\n": "module",
    "pull 1 0 2 0\n": "module",
    "push 0 0 4 0\n": "link",
    "push 3 0 2 0\n": "link",
    "push 2 0 0 0\n": "link",
}


def a_board_with_holes():
    """A board that leaves out a module and links: `c004` behind pipes is joined by links that are
    there alone, once it has come up, and every output is asked. A batch that needs what isn't there
    is refused as by `switch`, and no port is opened.
    """
    options = write_board(HOLES)
    with open("there", "w") as file:
        file.write(THERE)
    for more in (), ("--steady",):
        (ended, heard), wanted = driven_at_c004("there", "--go-on", *options, *more)
        yield (more, ended), (more, all_driven(lines_for("there", *more)))
        yield (more, heard), (more, wanted)
        yield touched(heard[0][0]) <= {4, 11, 0, 22}, True
        put_away("port0")
    for line, what in LACKING.items():
        with open("there", "w") as file:
            file.write(f"batch 2\npush 0 0 2 1\n{line}")
        yield (line, first_line("there", "none", *options)), (line, (f"refused no {what} 1", 1))
        yield (line, first_line("there", "none", *options, "--schedule", "board")), (
            line,
            first_of(ask("switch", "there", *options)),
        )


def a_board_at_c004():
    """The board of the documents, with `c004` behind pipes and behind a pty,
    by each kind of schedule."""
    options = write_board()
    for make in Pipes, Pty:
        for more in (), ("--steady",), ("--schedule", f"{EXAMPLES}/one-at-a-time.plan.txt"):
            (ended, heard), wanted = driven_at_c004(THREE, "--go-on", *options, *more, make=make)
            lines = (
                [f"setting {n} {n}" for n in range(3)]
                if "--schedule" in more
                else lines_for(THREE, *more)
            )
            yield (more, ended), (more, all_driven(lines))
            yield (more, heard), (more, wanted)
            yield touched(heard[0][0]) <= {4, 21, 5, 22, 11, 0}, True
            put_away("port0")


def the_usual_board():
    """The usual wiring, written as one: the bytes are those without it,
    and so is where a switch that lies is found out."""
    options = write_board(board_text(switching.USUAL))
    for batch in THREE, f"{EXAMPLES}/patterns/halo.txt":
        yield sent_for(batch, *options), sent_for(batch)
        chip = Far(Pipes("port"))
        yield drive(batch, "port", *options, "--go-on"), all_driven(lines_for(batch))
        yield chip.heard(), (b"".join(sent_for(batch)[0]), [])
        put_away("port")


def lies_on_a_board():
    """A switch of a board that lies once: the output that is named is the switch's,
    also one that no module is on."""
    yield from lies_at(THREE, *write_board())


def left_alone():
    """Outputs that no module is on: what they had before is reset at first, and nothing turns them
    later. What feeds one then stops the setting behind."""
    options = write_board()
    chip = Far(Pipes("port"))
    chip.chip.switch.obey(1, [9, 30])
    yield drive(THREE, "port", *options, "--go-on"), all_driven(lines_for(THREE))
    yield touched(chip.heard()[0]) <= {4, 21, 5, 22, 11, 0}, True
    yield chip.chip.switch.inputs, {0: 4, 4: 0}
    put_away("port")
    chip = Far(Pipes("port"))
    process = start_drive(THREE, "port", *options)
    yield process.stdout.readline(), b"setting 0 0 2\n"
    yield chip.sent_by_now(sent_for(THREE, *options)[0][0]), sent_for(THREE, *options)[0][0]
    chip.chip.switch.obey(0, [3, 30])
    yield end_of(process, b"\n"), (["stopped setting 1 switch 30"], 1)


def refuses_boards():
    """Wirings that are refused, as by `switch`, and batches that name a module without one. A board
    has one switch, so two ports are refused, also where both could be opened: nothing is sent, and
    pipes with nobody at their other ends aren't opened. Nothing is made."""
    for text in (
        "",
        "wiring 0\n",
        "wiring 17\n",
        BOARD[:-1],
        BOARD.replace("22", "5"),
        BOARD.replace("22", "32"),
        BOARD + "\n",
    ):
        options = write_board(text)
        line, status = first_line(THREE, "none", *options)
        yield (line.startswith("refused wiring line "), status), (True, 1)
        yield (text, (line, status)), (text, first_of(ask("switch", THREE, *options)))
    options = write_board(
        "wiring 2\nmodule 0 link 0 at 4 link 3 at 21\nmodule 1 link 0 at 5 link 3 at 22\n"
    )
    yield first_line(THREE, "none", *options), ("refused no module 1", 1)
    yield first_line(WIDE, "none", "none", *options), ("refused no module 0", 1)
    options = write_board()
    for name in "one", "two":
        open(name, "wb").close()
    yield first_line(THREE, "one", "two", *options), ("refused ports 1", 1)
    yield [os.path.getsize(name) for name in ("one", "two")], [0, 0]
    ways = Pipes("port"), Pipes("port_b")
    yield first_line(THREE, *(way.port for way in ways), *options), ("refused ports 1", 1)
    put_away("one", "two", *(way.port for way in ways))
    yield first_line(THREE, "none", *options), ("refused port a", 1)
    yield drive(THREE, "none", "--wiring", "-")[1], 2
    yield drive(THREE, "none", "--wiring", "nowhere", "--go-on")[0][0], "refused file"
    yield sorted(os.listdir(".")), ["board"]


# ---- lines of input


def hears_in_order():
    """A setting is told once the switch has answered, and nothing is sent until a line comes."""
    chip = Far(Pipes("port"))
    first, second = sent_for(THREE)[0]
    process = start_drive(THREE, "port")
    yield process.stdout.readline(), b"setting 0 0 2\n"
    yield chip.sent_by_now(first), first
    for text in b"", b"go", b" on\r":
        process.stdin.write(text)
        process.stdin.flush()
        time.sleep(0.1)
        yield bytes(chip.sent), first
        yield process.poll(), None
    process.stdin.write(b"\n")
    process.stdin.flush()
    yield process.stdout.readline(), b"setting 1 1\n"
    yield chip.sent_by_now(first + second), first + second
    yield process.poll(), None
    yield end_of(process, b"\n"), (["driven settings 2"], 0)
    yield chip.heard(), (first + second, [])


def input_ends():
    """Input that ends: with nothing, within a line, and behind a line. Lines beyond those that are
    waited for aren't looked at."""
    first, second = sent_for(THREE)[0]
    lines = lines_for(THREE)
    for given, ended, sent in [
        (b"", (lines[:1] + ["left setting 0"], 1), first),
        (b"no line", (lines[:1] + ["left setting 0"], 1), first),
        (b"\n", (lines + ["left setting 1"], 1), first + second),
        (b"\nno line", (lines + ["left setting 1"], 1), first + second),
        (b"\n\n", all_driven(lines), first + second),
        (b"one\ntwo\nthree\n", all_driven(lines), first + second),
    ]:
        chip = Far(Pipes("port"))
        yield (given, drive(THREE, "port", given=given)), (given, ended)
        yield (given, chip.heard()), (given, (sent, []))
        put_away("port")


def no_line_comes():
    """Input that has no line and doesn't end: nothing is sent or told for two seconds, whatever
    comes without a line feed. Then it is killed."""
    chip = Far(Pipes("port"))
    first = sent_for(THREE)[0][0]
    process = start_drive(THREE, "port")
    yield process.stdout.readline(), b"setting 0 0 2\n"
    yield chip.sent_by_now(first), first
    for _ in range(20):
        process.stdin.write(b"no line feed " * 2000)
        process.stdin.flush()
        time.sleep(0.1)
        yield bytes(chip.sent), first
        yield process.poll(), None
    yield stopped_waiting(process), ([], -signal.SIGKILL)
    yield chip.heard(), (first, [])


def stopped_waiting(process):
    """The lines that a program has printed that waits and is killed, and how it ended."""
    process.kill()
    return end_of(process)


def batch_on_input():
    """A batch on standard input, which then has no lines, so that `drive` has to go on."""
    with open(THREE, "rb") as file:
        text = file.read()
    chip = Far(Pipes("port"))
    yield drive("-", "port", "--go-on", given=text), all_driven(lines_for(THREE))
    yield chip.heard(), (b"".join(sent_for(THREE)[0]), [])


# ---- other far ends


def hears_too_early():
    """The other end notes a byte that comes before an answer: behind an enquiry,
    or a little later."""
    for piece in 4096, 2:
        chip = Far(Pipes("port"), piece=piece)
        there, back = os.open("port.in", os.O_WRONLY), os.open("port.out", os.O_RDONLY)
        os.write(there, ASKED[:4])
        os.close(there)
        yield chip.heard(), (ASKED[:4], [0])
        os.close(back)
        put_away("port")


def is_late():
    """A switch that answers late, and one that reads a byte at a time. No byte may come before an
    answer."""
    for batch in THREE, WIDE:
        for ways in {"waits": 8}, {"piece": 1}:
            wanted = sent_for(batch)
            chips = [Far(Pipes(f"port{n}"), **ways) for n in range(len(wanted))]
            yield drive(batch, *(chip.way.port for chip in chips), "--go-on"), all_driven(
                lines_for(batch)
            )
            yield [chip.heard() for chip in chips], [(b"".join(sent), []) for sent in wanted]
            put_away("port0", "port1")


def plan_of(batch):
    """The transfers of a batch, and the settings of its plan, as the second implementation reads
    them."""
    with open(batch, "rb") as file:
        transfers = plain.read_batch(file.read(), plain.WIDEST)
    return transfers, plain.read_schedule(planned(batch).encode())[0]


def fault_of(batch, which, forgets):
    """The setting and the output at which a switch is found out that forgets a join or cut: none
    where it makes no odds. The outputs of B are those from 32 on."""
    transfers, settings = plan_of(batch)
    chips = {name: Chip() for name in switching.switches_for(transfers)}
    chips[which].forgets = forgets
    for number, pairs, sent in switching.told(transfers, settings):
        for name, sent_bytes in sent:
            for byte in sent_bytes:
                chips[name].take(byte)
        for name in chips:
            inputs, wanted = chips[name].switch.inputs, switching.wanted_inputs(name, pairs)
            for output in range(32):
                if inputs.get(output) != wanted.get(output):
                    return number, output + 32 * (name == "b")
    return None


def forgets():
    """A switch that doesn't obey a join or a cut, for each."""
    for batch in THREE, WIDE, f"{EXAMPLES}/patterns/halo.txt":
        transfers, settings = plan_of(batch)
        names = switching.switches_for(transfers)
        for which in names:
            for number in range(turns_of(batch, which)):
                fault = fault_of(batch, which, number)
                # The joins as it comes up are counted too.
                chips = [
                    Far(Pipes(f"port{name}"), forgets=ENQUIRIES + number if name == which else None)
                    for name in names
                ]
                lines, status = drive(batch, *(chip.way.port for chip in chips), "--go-on")
                wanted = (
                    all_driven(lines_for(batch))
                    if fault is None
                    else stopped(batch, fault[0], f"switch {fault[1]}")
                )
                yield (batch, number, (lines, status)), (batch, number, wanted)
                yield [chip.heard()[1] for chip in chips], [[] for _ in names]
                put_away(*(f"port{name}" for name in names))


def turns_of(batch, which):
    """How many joins and cuts a switch is sent."""
    transfers, settings = plan_of(batch)
    chip = Chip()
    for _, _, sent in switching.told(transfers, settings):
        for byte in dict(sent)[which]:
            chip.take(byte)
    return chip.turns


def stopped(batch, number, why):
    """What is printed where setting `number` doesn't stand."""
    return lines_for(batch)[:number] + [f"stopped setting {number} {why}"], 1


def true_answers(sent):
    """What a switch answers to each enquiry of what it is sent for each setting."""
    chip = Chip()
    return [it for it in map(chip.take, b"".join(sent)) if it is not None]


def lie_for(number, answer):
    """Another answer to the enquiry of this number: of a loose output that it has an input, or what
    no switch says; of another that it is loose, or that it has another input."""
    if answer < 0x80:
        return [0x80 | number % 32, 0xFF, 0xA0][number % 3]
    return [0x00, answer & 0x1F, answer ^ 1, answer | 0x20][number % 4]


def wide_batch():
    """A batch of two settings for two switches."""
    write_batch("wide", [(16, 0), (16, 1), (2, 17)])
    return "wide"


def lies_at(batch, *options):
    """A switch that lies once, at each output of each setting, and of two each in turn. Then it is
    silent: the lie is found out as it comes."""
    wanted = sent_for(batch, *options)
    for which, sent in enumerate(wanted):
        for number, answer in enumerate(true_answers(sent)[ENQUIRIES:]):
            asked = ENQUIRIES + number
            lie = {asked: lie_for(number, answer)}
            chips = [
                Far(Pipes(f"port{n}"), lies=lie, silent=asked + 1)
                if n == which
                else Far(Pipes(f"port{n}"))
                for n in range(len(wanted))
            ]
            ended = drive(batch, *(chip.way.port for chip in chips), *options, "--go-on")
            output = number % 32 + 32 * which
            yield (which, number, ended), (
                which,
                number,
                stopped(batch, number // 32, f"switch {output}"),
            )
            yield [chip.heard()[1] for chip in chips], [[] for _ in wanted]
            put_away("port0", "port1")


def lies():
    """One switch."""
    yield from lies_at(THREE)


def two_lie():
    """Two switches."""
    yield from lies_at(wide_batch())


def is_loose():
    """Of an answer whose top bit is 0 nothing else is read: the output is loose."""
    loose = [
        number
        for number, answer in enumerate(true_answers(sent_for(THREE)[0]))
        if number >= ENQUIRIES and answer < 0x80
    ]
    chip = Far(Pipes("port"), lies={number: 1 + number for number in loose})
    yield drive(THREE, "port", "--go-on"), all_driven(lines_for(THREE))
    yield chip.heard()[1], []


def ended_at(batch, first, second, count):
    """What is printed where a switch of two settings dies behind so many bytes: no answer comes to
    an enquiry that ends there."""
    if count == len(first + second):
        return all_driven(lines_for(batch))
    return stopped(batch, int(count >= len(first)), "port")


def dies_at_pipes():
    """A switch that dies behind byte N of two settings, for each N."""
    first, second = sent_for(THREE)[0]
    for count in range(len(first + second) + 1):
        chip = Far(Pipes("port"), dies=count)
        yield (count, drive(THREE, "port", "--go-on")), (
            count,
            ended_at(THREE, first, second, count),
        )
        yield chip.heard(), ((first + second)[:count], [])
        put_away("port")


def one_of_two_dies():
    """The same with two switches, each in turn. The other one has heard no byte
    of a later setting."""
    batch = wide_batch()
    wanted = sent_for(batch)
    for which, (first, second) in enumerate(wanted):
        for count in range(len(first + second) + 1):
            chips = [Far(Pipes(f"port{n}"), dies=count if n == which else None) for n in range(2)]
            number = int(count >= len(first))
            yield (which, count, drive(batch, "port0", "port1", "--go-on")), (
                which,
                count,
                ended_at(batch, first, second, count),
            )
            heard, early = chips[which].heard()
            yield (heard, early), ((first + second)[:count], [])
            heard, early = chips[1 - which].heard()
            before = b"".join(wanted[1 - which][:number])
            yield heard[: len(before)], before
            yield b"".join(wanted[1 - which][: number + 1]).startswith(heard), True
            yield early, []
            put_away("port0", "port1")


def dies_at_a_pty():
    """The same at a pty, for some N."""
    first, second = sent_for(THREE)[0]
    whole = len(first + second)
    for count in (
        1, 3, 4, 100, 101, 102, 163, 164, 171, 173, 235, 236, 237, 246, 248, whole - 1, whole,
    ):  # fmt: skip
        chip = Far(Pty("port"), dies=count)
        yield (count, drive(THREE, "port", "--go-on")), (
            count,
            ended_at(THREE, first, second, count),
        )
        yield chip.heard(), ((first + second)[:count], [])
        put_away("port")


def says_too_much():
    """A switch that says a byte more than it is asked: the next output is heard to have it. As it
    comes up its answers don't come in their order then."""
    Far(Pipes("port"), adds={ENQUIRIES + 4: b"\x8f"})
    yield drive(THREE, "port", "--go-on"), stopped(THREE, 0, "switch 5")
    put_away("port")
    Far(Pipes("port"), adds={4: b"\x8f"})
    yield drive(THREE, "port", "--go-on"), stopped(THREE, 0, "port")


def at_a_pty():
    """A pty that is set raw, with and without waiting for lines, and two of them."""
    for batch in THREE, WIDE:
        wanted = sent_for(batch)
        chips = [Far(Pty(f"tty{n}"), waits=4) for n in range(len(wanted))]
        lines = lines_for(batch)
        yield drive(
            batch, *(chip.way.port for chip in chips), given=b"\n" * len(lines)
        ), all_driven(lines)
        yield [chip.heard() for chip in chips], [(b"".join(sent), []) for sent in wanted]
        put_away("tty0", "tty1")


def two_kinds():
    """Two switches at ports of two kinds, a pair of pipes and a pty, each way round."""
    batch = wide_batch()
    wanted = sent_for(batch)
    for makes in (Pipes, Pty), (Pty, Pipes):
        chips = [Far(make(f"port{n}")) for n, make in enumerate(makes)]
        yield drive(batch, *(chip.way.port for chip in chips), "--go-on"), all_driven(
            lines_for(batch)
        )
        yield [chip.heard() for chip in chips], [(b"".join(sent), []) for sent in wanted]
        put_away("port0", "port1")


def is_silent():
    """A switch that answers nothing, at a pty whose reads end by themselves: it is sent one
    enquiry."""
    chip = Far(Pty("port", ["raw", "-echo", "min", "0", "time", "2"]), silent=0)
    yield drive(THREE, "port", "--go-on"), stopped(THREE, 0, "port")
    yield chip.heard(), (FIRST_ASKED, [])


def tells_the_switch_nothing():
    """Where standard output or standard error leads to the switch,
    nothing is sent or told there."""
    noted = b"exchange: %s: standard output goes there, and nothing else may\n"
    wanted = {
        "stdout": lambda name: (None, noted % name.encode(), 3),
        "stderr": lambda _: (b"refused file\n", None, 1),
    }
    for way, name, heard in (Pty, "port", Far.heard), (Pipes, "port.in", Far.heard_of_nobody):
        for stream in "stdout", "stderr":
            chip = Far(way("port"))
            with open(os.open(name, os.O_WRONLY | os.O_NOCTTY), "wb") as end:
                process = start_apart(
                    [EXCHANGE, "drive", THREE, "port", "--go-on"],
                    stdin=subprocess.DEVNULL,
                    **{stream: end},
                )
                yield (*process.communicate(), process.returncode), wanted[stream](name)
            yield heard(chip), (b"", [])
            put_away("port")


def has_both_ends():
    """`talk` at one terminal, and `c004` at one socket, have both ends of it. A terminal that is
    named is no place for a record beside standard output."""
    far, near = os.openpty()
    name = os.ttyname(near)
    subprocess.run(["stty", "-F", name, "raw", "-echo"], check=True)
    talk = [EXCHANGE, "talk", "1x1x1"]
    os.write(far, b"peek 0 80000800\nbye\n")
    yield subprocess.run(talk, stdin=near, stdout=near, stderr=near, timeout=LIMIT).returncode, 0
    yield os.read(far, 100), b"word 00000000\nbye\n"
    run = subprocess.run(
        [*talk, "--record", name],
        stdin=subprocess.DEVNULL,
        stdout=near,
        stderr=subprocess.PIPE,
        timeout=LIMIT,
    )
    told = f"exchange: {name}: standard output goes there, and nothing else may\n"
    yield (run.stderr.decode(), run.returncode), (told, 3)
    os.write(far, b"behind")
    yield os.read(near, 100), b"behind"
    here, there = socket.socketpair()
    here.sendall(b"\x02\x00")
    here.shutdown(socket.SHUT_WR)
    yield subprocess.run(
        [EXCHANGE, "c004"], stdin=there, stdout=there, stderr=there, timeout=LIMIT
    ).returncode, 0
    yield here.recv(100), b"\0"


# ---- switches as they were left


def left_by_another():
    """A switch that was left within what a drive sends, at each place of two settings, with up
    to 30 answers in its line: it comes up, and all settings stand."""
    first, second = sent_for(THREE)[0]
    chance = random.Random(69)
    for count in range(len(first + second) + 1):
        old = bytes(
            chance.choice((0, 0x80 | chance.randrange(32), chance.randrange(256)))
            for _ in range(count % 31)
        )
        for make in [Pipes, Pty] if count % 20 == 0 else [Pipes]:
            chip = Far(make("port"), left=(first + second)[:count], old=old)
            yield (count, drive(THREE, "port", "--go-on")), (count, all_driven(lines_for(THREE)))
            yield chip.heard()[0], first + second
            put_away("port")
    chip = Far(Pipes("port"), old=bytes(31))
    yield drive(THREE, "port", "--go-on"), all_driven(lines_for(THREE))
    yield chip.heard()[0], first + second
    put_away("port")


def killed():
    """Drives that are killed at a slow switch, one after another, over one pty:
    the next one drives all."""
    for count in 1, 100, 101, 102, 130, 163, 165, 172, 190, 235, 240:
        chip = Far(Pty("port"), waits=70)
        process = start_drive(THREE, "port", "--go-on")
        while len(chip.sent) < count:
            time.sleep(0.001)
        stopped_waiting(process)
        yield (count, drive(THREE, "port", "--go-on")), (count, all_driven(lines_for(THREE)))
        chip.heard()
        put_away("port")


def two_left():
    """Two switches, each left in another way."""
    batch = wide_batch()
    wanted = sent_for(batch)
    for count in range(0, len(wanted[0][0]), 7):
        chips = [
            Far(
                Pipes(f"port{n}"),
                left=b"".join(wanted[n])[: count + n],
                old=bytes([0x91] * ((count + 5 * n) % 31)),
            )
            for n in range(2)
        ]
        yield (count, drive(batch, "port0", "port1", "--go-on")), (
            count,
            all_driven(lines_for(batch)),
        )
        yield [chip.heard()[0] for chip in chips], [b"".join(sent) for sent in wanted]
        put_away("port0", "port1")


def too_many_left():
    """More old answers than can be told, and what is no answer: it doesn't go on to a setting."""
    for old in (
        bytes(32),
        b"\x05" * 40,
        b"\x9f\xff" * 16,
        b"\x91" * 31 + b"\x9f",
        b"\x91" * 40 + b"\x80\x82",
    ):
        chip = Far(Pipes("port"), old=old)
        yield drive(THREE, "port", "--go-on"), stopped(THREE, 0, "port")
        yield WOKEN.startswith(chip.heard()[0]), True
        put_away("port")


def loses_an_end():
    """A switch to which the byte doesn't come that ends the joins of a setting: all outputs answer
    rightly, and it isn't ready. It is once the setting is told."""
    first, second = sent_for(THREE)[0]
    for number, loses in enumerate(
        [len(first) - len(ASKED) - 2, len(first + second) - len(ASKED) - 2]
    ):
        chip = Far(Pipes("port"), loses=loses)
        process = start_drive(THREE, "port")
        for line in lines_for(THREE)[: number + 1]:
            yield process.stdout.readline().decode(), f"{line}\n"
            if line != lines_for(THREE)[number]:
                process.stdin.write(b"\n")
                process.stdin.flush()
        sent = b"".join([first, second][: number + 1])
        yield (sent[loses], chip.sent_by_now(sent)), (3, sent)
        yield chip.chip.switch.is_ready, True
        stopped_waiting(process)
        chip.heard()
        put_away("port")


def taken_up():
    """A schedule from each of its settings on: the first one is set as from a reset."""
    for batch in THREE, wide_batch(), f"{EXAMPLES}/patterns/halo.txt":
        transfers, settings = plan_of(batch)
        names = switching.switches_for(transfers)
        for first in range(len(settings)):
            told = list(switching.told(transfers, settings[first:]))
            wanted = [driven([bytes(dict(sent)[name]) for _, _, sent in told]) for name in names]
            chips = [Far(Pipes(f"port{n}")) for n in range(len(names))]
            ended = drive(
                batch, *(chip.way.port for chip in chips), "--go-on", "--from", str(first)
            )
            lines = lines_for(batch)
            yield (batch, first, ended), (
                batch,
                first,
                (lines[first:] + [f"driven settings {len(lines)}"], 0),
            )
            yield [chip.heard() for chip in chips], [(b"".join(sent), []) for sent in wanted]
            put_away("port0", "port1")
        yield first_line(batch, *(["none"] * len(names)), "--from", str(len(settings))), (
            f"refused no setting {len(settings)}",
            1,
        )


def keeps_lines():
    """A pty that keeps what comes until a line feed, with and without sending it back to the
    switch, and with reads that would end if it were raw: `drive` waits, as docs/SWITCHES.md says.
    It has sent one enquiry and told nothing, and is killed."""
    asked = FIRST_ASKED.replace(b"\n", b"\r\n")
    for modes, sent in [
        (["echo"], asked + b"\x80"),
        (["-echo"], asked),
        (["-echo", "min", "0", "time", "2"], asked),
    ]:
        chip = Far(Pty("port", modes))
        process = start_drive(THREE, "port", "--go-on")
        while len(chip.sent) < len(sent):
            time.sleep(0.01)
        time.sleep(1)
        yield process.poll(), None
        yield bytes(chip.sent), sent
        yield stopped_waiting(process), ([], -signal.SIGKILL)
        yield chip.heard()[0], sent
        put_away("port")


def alters_bytes():
    """A pty that is raw but for a carriage return that it puts before each line feed, which byte 0a
    is: as it comes up the switch joins output 10 to input 13, and is asked for output 13."""
    write_batch("batch", [(10, 0)])
    chip = Far(Pty("port", ["raw", "-echo", "opost", "onlcr"]))
    yield drive("batch", "port", "--go-on"), stopped("batch", 0, "port")
    yield chip.heard()[0], WOKEN.replace(b"\x0a", b"\x0d\x0a")


def at_a_file():
    """A plain file keeps what it is sent, and replies nothing."""
    with open("port", "wb"):
        pass
    yield drive(THREE, "port", "--go-on"), stopped(THREE, 0, "port")
    with open("port", "rb") as file:
        yield file.read(), FIRST_ASKED
    yield drive(THREE, "/dev/null", "--go-on"), stopped(THREE, 0, "port")


# ---- what is refused, and what can't be had


def refuses():
    """Ports that aren't wanted or can't be opened, and texts. Nothing is made, opened or sent
    before."""
    yield first_line(THREE, "one", "two"), ("refused port a", 1)
    yield first_line(WIDE, "one"), ("refused ports 2", 1)
    yield first_line(THREE, "none"), ("refused port a", 1)
    os.mkdir("folder")
    yield first_line(THREE, "folder"), ("refused port a", 1)
    with open("file", "wb"):
        pass
    yield first_line(WIDE, "file", "none"), ("refused port b", 1)
    yield os.path.getsize("file"), 0
    for text in "", "batch 1\n", "batch 1\npush 0 0 40 0\n", "batch 1\nPush 0 0 1 0\n":
        with open("batch", "w") as file:
            file.write(text)
        yield first_line("batch", "none"), first_of(ask("switch", "batch"))
    yield first_line("nowhere", "none"), first_of(ask("switch", "nowhere"))
    for text in "settings 1\nsetting 0 1 2\n", "settings 2\nsetting 0\nsetting 1\n", "settings\n":
        with open("schedule", "w") as file:
            file.write(text)
        options = "--schedule", "schedule"
        yield first_line(THREE, "none", *options), first_of(ask("switch", THREE, *options))
    for words in [
        [THREE],
        [THREE, "a", "b", "c"],
        [THREE, "a", "--steady", "--schedule", THREE],
        ["-", "a"],
        [THREE, "a", "--schedule", "-"],
        ["-", "a", "--schedule", "-", "--go-on"],
    ]:
        yield (words, drive(*words)[1]), (words, 2)
    yield sorted(os.listdir(".")), ["batch", "file", "folder", "schedule"]


def first_line(*words):
    lines, status = drive(*words, "--go-on")
    return lines[0], status


def first_of(ended):
    return ended[0].splitlines()[0], ended[1]


def output_is_full():
    """Where a setting can't be told, nothing more is sent."""
    chip = Far(Pipes("port"))
    with open("/dev/full", "wb") as full:
        process = start_apart(
            [EXCHANGE, "drive", THREE, "port", "--go-on"], stdin=subprocess.DEVNULL, stdout=full
        )
        yield (
            process.communicate()[1],
            b"exchange: a setting that is set can't be printed: "
            b"No space left on device (os error 28)\n",
        )
    yield process.returncode, 3
    yield chip.heard(), (sent_for(THREE)[0][0], [])


def refusing(which):
    """The environment in which these growths of memory are refused, as refuse.c reads it."""
    return {"LD_PRELOAD": os.environ["REFUSE_SO"], "REFUSE": which, "REFUSE_LOG": "log"}


def were_refused():
    """Whether one was refused."""
    with open("log", "rb") as file:
        return struct.unpack("@3l", file.read())[1] > 0


def growths():
    """Each growth in turn, alone and with all later ones, until none is refused."""
    for later in "", "+":
        number, is_refused = 0, True
        while is_refused:
            number += 1
            yield refusing(f"{number}{later}")
            is_refused = were_refused()


def drives_without_memory(batch, lines, *options):
    """A `drive` with each growth of memory refused in turn: nothing is sent, or all is as ever."""
    wanted, found = all_driven(lines), []
    sent = [b"".join(settings) for settings in sent_for(batch, *options)]
    for env in growths():
        chips = [Far(Pipes(f"port{n}")) for n in range(len(sent))]
        words = [EXCHANGE, "drive", batch, *(chip.way.port for chip in chips), *options, "--go-on"]
        ended = end_of(start(words, stdin=subprocess.DEVNULL, env=env))
        if ended == wanted:
            found.append("as ever")
            yield [chip.heard() for chip in chips], [(it, []) for it in sent]
        else:
            found.append("no memory")
            yield ended, (["refused no memory"], 1)
            yield [chip.heard_of_nobody() for chip in chips], [(b"", []) for _ in sent]
        put_away("port0", "port1")
    yield found[0], "no memory"
    yield found[-1], "as ever"


def no_memory():
    """Of a plan."""
    yield from drives_without_memory(THREE, lines_for(THREE))


def no_memory_steady():
    """Of a steady plan."""
    yield from drives_without_memory(THREE, lines_for(THREE, "--steady"), "--steady")


def no_memory_schedule():
    """Of a schedule that a file has."""
    options = "--schedule", f"{EXAMPLES}/one-at-a-time.plan.txt"
    yield from drives_without_memory(THREE, [f"setting {n} {n}" for n in range(3)], *options)


def no_memory_on_a_board():
    """Of a board."""
    yield from drives_without_memory(THREE, lines_for(THREE), *write_board())


def no_memory_two_ports():
    """Of two switches."""
    batch = wide_batch()
    yield from drives_without_memory(batch, lines_for(batch))


# ---- `c004`


def answers_at_once():
    """Each enquiry is answered before anything else comes."""
    chip = begin_c004(subprocess.PIPE)
    for sent, answer in [
        ("0200", b"\0"),
        ("0100110211", b"\x80"),
        ("02", b""),
        ("00", b"\x91"),
        ("0600110200", b"\0"),
    ]:
        chip.stdin.write(bytes.fromhex(sent))
        chip.stdin.flush()
        ready, _, _ = select.select([chip.stdout], [], [], LIMIT if answer else 0.1)
        yield (sent, os.read(chip.stdout.fileno(), 100) if ready else b""), (sent, answer)
    yield chip.communicate(), (b"", b"")
    yield chip.returncode, 0


def chip_ends():
    """The ways in which `c004` ends."""
    for words in [], ["--quiet"]:
        run = subprocess.run(
            [EXCHANGE, "c004", *words],
            input=b"\x2a\x02\x00\x01\x40",
            capture_output=True,
            timeout=LIMIT,
        )
        told = "exchange: standard input: byte 1 is 2a; commands begin with 00 to 06\n"
        told += (
            "exchange: standard input: byte 5 is 40; ports are 00 to 1f, and the command is "
            "dropped\n"
        )
        yield (run.stdout, run.stderr.decode(), run.returncode), (b"\0", "" if words else told, 0)
    with open("/dev/full", "wb") as full:
        run = subprocess.run(
            [EXCHANGE, "c004"],
            input=b"\x04\x02\x00\x02\x01",
            stdout=full,
            stderr=subprocess.PIPE,
            timeout=LIMIT,
        )
    yield run.returncode, 3
    read, write = os.pipe()
    os.close(read)
    run = subprocess.run(
        [EXCHANGE, "c004"], input=b"\x02\x00", stdout=write, stderr=subprocess.PIPE, timeout=LIMIT
    )
    os.close(write)
    yield run.returncode, 3
    yield drive_status("c004", "word"), 2


def drive_status(*words):
    return ask(*words)[1]


def c004_no_memory():
    """A `c004` with each growth of memory refused in turn: it answers nothing, or all as ever."""
    text, wanted, found = b"\x01\x03\x11\x02\x11\x2a\x02\x03", (b"\x83\x91", 0), []
    told = b"exchange: standard input: byte 6 is 2a; commands begin with 00 to 06\n"
    for env in growths():
        run = subprocess.run(
            [EXCHANGE, "c004"], input=text, capture_output=True, timeout=LIMIT, env=env
        )
        found.append("as ever" if (run.stdout, run.returncode) == wanted else "no memory")
        if found[-1] == "as ever":
            yield run.stderr, told
        else:
            yield (run.stdout, run.stderr, run.returncode), (b"refused no memory\n", b"", 1)
    yield found[0], "no memory"
    yield found[-1], "as ever"


def command(chance):
    """The bytes of a command."""
    byte = (
        chance.choice((0, 1, 2, 2, 2, 3, 4, 5, 6))
        if chance.random() < 0.9
        else chance.choice((0, 1, 2, 5, 6))
    )
    few = chance.choice((4, 32))
    return bytes([byte, *(chance.randrange(few) for _ in range(PORTS[byte]))])


def text_of(chance):
    """A text of commands, good or spoilt."""
    text = bytearray(b"".join(command(chance) for _ in range(chance.randrange(12))))
    for _ in range(chance.choice((0, 0, 1, 1, 2, 5))):
        at = chance.randrange(len(text) + 1)
        how = chance.randrange(4)
        if how == 0:
            text.insert(at, chance.randrange(256))
        elif how == 1:
            del text[at : at + 1]
        elif how == 2:
            del text[at:]
        else:
            text[at : at + 1] = bytes([chance.randrange(48)])
    return bytes(text)


def texts():
    """Texts of commands, good and spoilt, against the second implementation: 100 to each of 200
    switches, one after another, with a reset before each.
    A command that a text has begun goes on in the next one."""
    chance = random.Random(52)
    answered = told = 0
    for _ in range(200):
        text = b"".join(b"\x04" + text_of(chance) for _ in range(100))
        chip = Chip()
        answers = bytes(it for it in map(chip.take, text) if it is not None)
        run = subprocess.run([EXCHANGE, "c004"], input=text, capture_output=True, timeout=LIMIT)
        found, wanted = (run.stdout, run.returncode), (answers, 0)
        is_same = found == wanted and run.stderr.decode() == "".join(chip.told)
        harness.must(is_same, harness.differs("a text", found, wanted), "texts to `c004` compared")
        answered, told = answered + len(answers), told + len(chip.told)
    yield answered > 20000, True
    yield told > 5000, True


CASES = [
    hears_too_early, examples, many_settings, other_schedules, a_pty_and_c004, hears_in_order,
    input_ends, no_line_comes, batch_on_input, is_late, forgets, lies, two_lie, is_loose,
    dies_at_pipes, one_of_two_dies, dies_at_a_pty, says_too_much, at_a_pty, two_kinds, is_silent,
    tells_the_switch_nothing, has_both_ends, keeps_lines, alters_bytes, at_a_file, refuses,
    output_is_full, no_memory, no_memory_steady, no_memory_schedule, no_memory_two_ports,
    no_memory_on_a_board, left_by_another, killed, two_left, too_many_left, loses_an_end, taken_up,
    answers_at_once, chip_ends, c004_no_memory, texts, boards, a_board_with_holes, a_board_at_c004,
    the_usual_board, lies_on_a_board, left_alone, refuses_boards,
]  # fmt: skip


def main():
    chosen = [
        case
        for case in CASES
        if not sys.argv[1:] or any(word in case.__name__ for word in sys.argv[1:])
    ]
    report = harness.Report("ends")
    harness.run_cases(report, chosen, PROCESSES)
    report.finish(f"{len(chosen)} cases, {{tried}} things looked at, {{wrong}} cases wrong")


if __name__ == "__main__":
    main()
