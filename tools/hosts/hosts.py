#!/usr/bin/env python3
"""Live clients of `exchange host`, over named pipes.

Each case is a host in a folder of its own, and all of its clients. A client says a line only when
it has heard the reply to the one before, unless the case says otherwise. At the end the host has to
print a line for each client, and how its session ended where it didn't by itself. What the walks of
docs/GUIDE.md show is run in two shells, whose host records too, and the clients of
examples/all-reduce.py are run too.
"""

from __future__ import annotations

import os
import re
import shlex
import subprocess
import sys
import time
from collections.abc import Iterator
from pathlib import Path

sys.path.insert(0, str(Path(__file__).resolve().parents[1]))

import harness  # noqa: E402
from pipe_clients import EXCHANGE, KEPT, PROCESSES, Client, Host, is_replayed  # noqa: E402
from harness import EXAMPLES, REPOSITORY  # noqa: E402

Pairs = Iterator[tuple[object, object]]


def numbers() -> Pairs:
    """Two clients hand in a batch each, plan it by the number that they are told, and run it."""
    host = Host("2x1x2", ["amy", "bob"])
    amy, bob = Client("amy"), Client("bob")
    yield amy.ask("batch 1\npush 0 0 1 0"), "accepted 1"
    yield bob.ask("batch 1\npush 1 0 0 0"), "accepted 2"
    yield amy.ask("plan 2"), "refused unknown"
    yield bob.ask("plan 2"), "planned 2 settings 1"
    yield amy.ask("plan 1"), "planned 1 settings 1"
    yield bob.ask("poke 1 80000804 000000bb"), "poked"
    yield bob.ask("run 2"), "ran 2 run 1 settings 1 words 2 bits 234"
    yield amy.ask("peek 0 80000804"), "word 000000bb"
    yield amy.ask("run 1"), "ran 1 run 2 settings 1 words 2 bits 234"
    yield amy.ask("bye"), "bye"
    yield amy.hear(), ""
    bob.leave()
    yield host.end(), host.ended()


def progress() -> Pairs:
    """A client sees by `progress` how far the run of another is, while it goes. A run takes some
    milliseconds, so the client asks many times at once, and the other runs as often as it
    takes, 200 times at most."""
    pushes = "".join(
        f"push {m} {b} {(m + 1) % 32} {b + 32}\n" for m in range(32) for b in range(32)
    )
    host = Host("32x64x256", ["amy", "bob"])
    amy, bob = Client("amy"), Client("bob")
    between, falls, before = False, False, (0, 0)
    for run in range(1, 201):
        yield amy.ask(f"batch 1024\n{pushes}"[:-1]), f"accepted {run}"
        yield amy.ask(f"plan {run}"), f"planned {run} settings 32"
        amy.say(f"run {run}\n")
        while before != (run, 32):
            bob.say("progress\n" * 300)
            for _ in range(300):
                found = re.fullmatch(r"progress run (\d+) done (\d+)", bob.hear())
                now = (int(found[1]), int(found[2]))
                falls = falls or now < before
                between = between or now[0] == run and 0 < now[1] < 32
                before = now
        yield amy.hear(), f"ran {run} run {run} settings 32 words 262144 bits 30670848"
        if between:
            break
    yield falls, False
    yield between, True
    amy.leave()
    bob.leave()
    yield host.end(), host.ended()


def hangs_up() -> Pairs:
    """A client hangs up in the middle of a batch, and another within a line; a third goes on."""
    host = Host("2x1x1", ["amy", "bob", "eve"])
    amy, bob, eve = Client("amy"), Client("bob"), Client("eve")
    yield eve.ask("poke 0 80000800 000000ee"), "poked"
    amy.say("batch 2\npush 0 0 1 0\n")
    bob.say("peek 0 80")
    for client in amy, bob:
        client.leave()
        client.wait_for_the_end()
    yield eve.ask("batch 1\npush 0 0 1 0"), "accepted 1"
    yield eve.ask("plan 1"), "planned 1 settings 1"
    yield eve.ask("run 1"), "ran 1 run 1 settings 1 words 1 bits 117"
    yield eve.ask("peek 1 80000800"), "word 000000ee"
    eve.leave()
    yield host.end(), host.ended(amy="cut", bob="cut")


def hears_no_more() -> Pairs:
    """A client that hears its replies no more ends its own session alone."""
    host = Host("1x1x1", ["amy", "bob"])
    amy, bob = Client("amy"), Client("bob")
    yield amy.ask("poke 0 80000800 000000aa"), "poked"
    amy.hear_no_more()
    amy.say("peek 0 80000800\n")
    amy.wait_for_the_end()
    yield bob.ask("peek 0 80000800"), "word 000000aa"
    bob.leave()
    yield host.end(), host.ended(amy="write")
    amy.say_no_more()


def hears_late() -> Pairs:
    """A client that asks and asks, and hears nothing, until its pipe is full, holds nobody else. It
    is told all when it hears at last."""
    host = Host("2x1x1", ["amy", "bob"])
    amy, bob = Client("amy"), Client("bob")
    amy.say("progress\n" * 4000)
    before = 0
    while not (now := amy.unread()) or now > before:
        before = now
        time.sleep(0.05)
    yield 0 < now < 22 * 4000, True
    yield bob.ask("poke 0 80000800 000000bb"), "poked"
    yield bob.ask("batch 1\npush 0 0 1 0"), "accepted 1"
    yield bob.ask("plan 1"), "planned 1 settings 1"
    yield bob.ask("run 1"), "ran 1 run 1 settings 1 words 1 bits 117"
    yield bob.ask("peek 1 80000800"), "word 000000bb"
    yield amy.hear(), "progress run 0 done 0"
    yield [amy.hear() for _ in range(3999)][-1], "progress run 1 done 1"
    amy.leave()
    bob.leave()
    yield host.end(), host.ended()


def sixteen() -> Pairs:
    """Sixteen clients at once: each writes a word of its own module,
    and reads the next one's when all have."""
    names = [f"client-{k}" for k in range(16)]
    host = Host("16x1x1", names, "--workers", "4")
    clients = [Client(name) for name in names]
    for k, client in enumerate(clients):
        client.say(f"poke {k} 80000800 000000{k:02x}\n")
    yield [client.hear() for client in clients], ["poked"] * 16
    for k, client in enumerate(clients):
        client.say(f"peek {(k + 1) % 16} 80000800\n")
    yield [client.hear() for client in clients], [
        f"word 000000{(k + 1) % 16:02x}" for k in range(16)
    ]
    for client in clients:
        client.leave()
    yield host.end(), host.ended()


def comes_late() -> Pairs:
    """A client that doesn't come holds nobody else, nor does one that opens the pipe alone by which
    it speaks. Both come at last."""
    host = Host("1x1x1", ["late", "amy", "half"])
    half = os.open("half.in", os.O_WRONLY)
    amy = Client("amy")
    yield amy.ask("poke 0 80000800 000000aa"), "poked"
    yield amy.ask("peek 0 80000800"), "word 000000aa"
    amy.leave()
    yield host.is_there(), True
    os.write(half, b"peek 0 80000800\n")
    with open("half.out", "rb") as told:
        yield told.readline(), b"word 000000aa\n"
        os.close(half)
    yield host.is_there(), True
    late = Client("late")
    yield late.ask("peek 0 80000800"), "word 000000aa"
    late.leave()
    yield host.end(), host.ended()


def closes() -> Pairs:
    """A client that closes its pipes without a word ends its own session alone, and by itself."""
    host = Host("1x1x1", ["amy", "bob"])
    amy, bob = Client("amy"), Client("bob")
    amy.leave()
    amy.wait_for_the_end()
    yield bob.ask("progress"), "progress run 0 done 0"
    bob.leave()
    yield host.end(), host.ended()


def all_reduce() -> Pairs:
    """The clients of the example, which end where the rack has another shape, though some wait."""
    for shape in "16x5x2", "16x5x1", "12x5x2":
        os.mkdir(shape)
        os.chdir(shape)
        host = Host(shape, [f"{k}" for k in range(16)])
        clients = PROCESSES.start(
            [sys.executable, EXAMPLES / "all-reduce.py"], stdin=subprocess.DEVNULL
        )
        told = clients.communicate(timeout=20)[0].decode().splitlines()
        if shape == "16x5x2":
            yield told, [f"module {k} has 136" for k in range(16)]
            yield host.end(), host.ended()
        else:
            said = re.fullmatch(r"all-reduce\.py: module \d+: (refused|nothing) .*", told[0])
            yield (bool(said), clients.returncode), (True, 1)
        os.chdir("..")


def lines_of_shells() -> list[tuple[str, str, list[str]]]:
    """What docs/GUIDE.md shows of two shells: of each line the shell, the command,
    and what it prints."""
    shown, shell = [], None
    for line in (REPOSITORY / "docs/GUIDE.md").read_text(encoding="utf-8").splitlines():
        if mark := re.fullmatch(r"```(?:console (\w+))?.*", line):
            shell = mark[1] if not shell else None
        elif shell and line.startswith("$ "):
            shown.append((shell, line[2:], []))
        elif shell:
            shown[-1][2].append(line)
    return shown


def put_recorder() -> None:
    """Puts a program here that is called as the exchange is. A host that doesn't record keeps its
    record and the image that it leaves."""
    exchange = shlex.quote(EXCHANGE)
    script = Path("exchange")
    script.write_text(
        f'#!/bin/sh\ncase "$*" in\n*record*|replay*) exec {exchange} "$@" ;;\n'
        f'*) exec {exchange} "$@" {" ".join(KEPT)} ;;\nesac\n'
    )
    script.chmod(0o755)


def walk() -> Pairs:
    """What the guide shows of two shells: clients that look, and a host that is killed. The host
    that isn't told to records too."""
    put_recorder()
    shells, shown = {}, lines_of_shells()
    for name, command, wanted in shown:
        if name not in shells:
            shells[name] = PROCESSES.start(["bash"], stdin=subprocess.PIPE)
        shell, printed = shells[name], []
        shell.stdin.write(f"{command}\necho END\n".encode())
        shell.stdin.flush()
        while (line := shell.stdout.readline()) != b"END\n":
            printed.append(line.decode().rstrip("\n"))
        yield (command, printed), (command, wanted)
    yield len(shells), 2
    for shell in shells.values():
        shell.communicate()
    hosts = [words for _, words, _ in shown if words.startswith("./exchange host ")]
    shapes = [words.split()[2] for words in hosts if "--record" not in words]
    yield [is_replayed(shape) for shape in shapes], [True]


CASES = [
    numbers, progress, hangs_up, hears_no_more, hears_late, sixteen, comes_late, closes, all_reduce,
    walk,
]  # fmt: skip


def main() -> None:
    report = harness.Report("hosts")
    harness.run_cases(report, CASES, PROCESSES, times_more=harness.TIMES_MORE)
    report.finish(f"{len(CASES)} cases, {{tried}} things looked at, {{wrong}} cases wrong")


if __name__ == "__main__":
    main()
