"""What the tools share: starting the program, comparing, counting, folders, limits of time.

A tool makes one `Report`, checks everything by `Report.check`, and ends by `Report.finish`. There
is one comparison for all tools, and it counts: what a tool doesn't compare is missing in the number
that it prints. Whoever imports this has the comparison tried first (`self_test`).
"""

from __future__ import annotations

import contextlib
import functools
import os
import shutil
import signal
import subprocess
import sys
import tempfile
from collections import Counter
from collections.abc import Callable, Iterable, Iterator, Sequence
from concurrent.futures import ThreadPoolExecutor
from dataclasses import dataclass, field
from pathlib import Path
from types import FrameType
from typing import NoReturn, TypeVar

REPOSITORY = Path(__file__).resolve().parents[1]
EXAMPLES = REPOSITORY / "examples"
BUILT = REPOSITORY / "crates/exchange/out/exchange"

# Seconds that a run has. Most take far less than one, but machines differ.
SECONDS = 300

Item = TypeVar("Item")
Result = TypeVar("Result")


def program() -> str:
    """The program to try: the one that EXCHANGE names, or the built one, which is proved first.
    Where what EXCHANGE names isn't there, the tool ends."""
    if named := os.environ.get("EXCHANGE"):
        if not has_program(named):
            sys.exit(f"there is no program {named}")
        return os.path.abspath(named) if os.path.exists(named) else named
    subprocess.run([REPOSITORY / "exchange", "prove"], check=True)
    return str(BUILT)


def has_program(words: str) -> bool:
    """Whether there is a program of this name, or one that words begin with."""
    return bool(shutil.which(os.path.abspath(words)) or shutil.which([*words.split(), ""][0]))


# How many wrong things are printed, and how often a case that went wrong is run once more.
MOST_SHOWN, TIMES_MORE = 20, 3


class Wrong(Exception):
    """What is wrong with a case."""


# How many things of each kind `must` has compared in the case at hand.
COMPARED: Counter[str] = Counter()


def must(is_well: bool, why: str, kind: str = "") -> None:
    """Counts something that has to be well in the case at hand, and raises `Wrong` if it isn't."""
    COMPARED[kind] += 1
    if not is_well:
        raise Wrong(why)


@dataclass
class Report:
    """Counts what a tool compares, in all and of each kind, and says what differs."""

    tool: str
    is_silent: bool = False
    tried: int = 0
    wrong: list[str] = field(default_factory=list)
    kinds: Counter[str] = field(default_factory=Counter)

    def check(self, what: str, found: object, wanted: object, kind: str = "") -> bool:
        """Whether what was found is what is wanted. What differs is printed."""
        return self.judge(what, [] if found == wanted else [differs("", found, wanted)], kind)

    def judge(self, what: str, problems: Sequence[str], kind: str = "") -> bool:
        """Whether a judge has nothing to say. What it says is printed."""
        self.tried += 1
        self.kinds[kind] += 1
        if problems:
            self.note("\n    ".join([what, *problems]))
        return not problems

    def note(self, text: str) -> None:
        self.wrong.append(text)
        if not self.is_silent and len(self.wrong) <= MOST_SHOWN:
            print(f"{self.tool}: WRONG: {text}", flush=True)

    def add(self, other: Report) -> None:
        """Adds what another report has, such as that of another process."""
        self.tried += other.tried
        self.kinds += other.kinds
        for text in other.wrong:
            self.note(text)

    def finish(self, told: str = "{tried} tried, {wrong} wrong") -> NoReturn:
        """Says how much was tried, and ends the tool: with 1 if nothing, or something is wrong."""
        for kind, count in self.kinds.items():
            if kind:
                print(f"{self.tool}: {count} {kind}")
        print(f"{self.tool}: {told.format(tried=self.tried, wrong=len(self.wrong))}", flush=True)
        sys.exit(0 if self.tried and not self.wrong else 1)


def self_test() -> None:
    """Hands the comparison what is right and what is wrong: it has to see just the latter."""
    with open(os.devnull, "w") as nowhere, contextlib.redirect_stdout(nowhere):
        report, ends = Report("self test"), []
        report.add(attempt("", "pairs", lambda: [(1, 1), (2, 1), (1, 1)]))
        report.add(attempt("", "nothing", lambda: None))
        report.add(attempt("", "well", lambda: must(True, "it", "kind")))
        report.add(attempt("", "wrong", lambda: must(False, "it", "kind")))
        wrong, well = Report("", wrong=["it"]), Report("", tried=1)
        for later in [well] * 3, [well, wrong]:
            add_runs(report, "again", [*runs_of(iter([wrong, *later]).__next__)])
        counts = (report.tried, len(report.wrong), report.kinds["kind"])
        COMPARED.clear()
        for ending in (report, Report("nothing"), Report("well", tried=1)):
            try:
                ending.finish()
            except SystemExit as end:
                ends.append(end.code)
    python = sys.executable
    named = ("/nowhere/exchange", "/nowhere/exchange x", "/", python, f"{python} -V")
    found = [has_program(name) for name in named]
    if (counts, ends, found) != ((5, 4, 2), [1, 1, 0], [False, False, False, True, True]):
        sys.exit(f"harness: WRONG: what differs isn't seen: {counts}, {ends}, {found}")


def differs(what: str, found: object, wanted: object) -> str:
    """How what was found is told beside what is wanted."""
    return f"{what}{what and ': '}wanted {shorten(wanted)}, found {shorten(found)}"


def shorten(value: object) -> str:
    """A value as it is shown where it differs."""
    text = repr(value)
    return text if len(text) < 2000 else f"{text[:1000]} .. {text[-500:]}"


@contextlib.contextmanager
def room(prefix: str, *, enter: bool = False, where: str | None = None) -> Iterator[Path]:
    """A new folder that goes away at the end. With `enter` it is the current one meanwhile."""
    before = os.getcwd()
    with tempfile.TemporaryDirectory(prefix=f"{prefix}-", dir=where) as folder:
        try:
            if enter:
                os.chdir(folder)
            yield Path(folder)
        finally:
            os.chdir(before)


class Late(Exception):
    """Something isn't at its end in time."""


@contextlib.contextmanager
def limit(seconds: int = SECONDS) -> Iterator[None]:
    """Raises `Late` in the main thread if what is within takes longer."""

    def late(_signal: int, _frame: FrameType | None) -> NoReturn:
        raise Late(f"it hangs: {seconds} s have passed")

    before = signal.signal(signal.SIGALRM, late)
    signal.alarm(seconds)
    try:
        yield
    finally:
        signal.alarm(0)
        signal.signal(signal.SIGALRM, before)


class Processes:
    """Programs, each in a group of processes of its own, which are all ended at the end."""

    def __init__(self) -> None:
        self.started: list[subprocess.Popen[bytes]] = []

    def start(self, words: Sequence[str | Path], **streams: object) -> subprocess.Popen[bytes]:
        """Starts a program. Its output comes by one pipe, unless `streams` say otherwise."""
        settings = {"stdout": subprocess.PIPE, "stderr": subprocess.STDOUT, **streams}
        process = subprocess.Popen(words, start_new_session=True, **settings)
        self.started.append(process)
        return process

    def stop(self) -> None:
        """Ends what isn't at its end, with all that it has started."""
        while self.started:
            kill(self.started.pop())


def kill(process: subprocess.Popen[bytes]) -> None:
    """Ends a program and all that it has started."""
    with contextlib.suppress(ProcessLookupError):
        os.killpg(process.pid, signal.SIGKILL)
    process.wait()


def side_by_side(
    call: Callable[[Item], Result], items: Sequence[Item], workers: int | None = None
) -> Iterator[Result]:
    """What comes of a call for each item, in their order. As many run as there are processors."""
    with ThreadPoolExecutor(workers or len(os.sched_getaffinity(0))) as pool:
        yield from pool.map(call, items)


# A case is a function that yields pairs: what it finds, and what is wanted there. Or it compares by
# `must`.
Case = Callable[[], Iterable[tuple[object, object]] | None]


def attempt(tool: str, name: str, case: Case, seconds: int = SECONDS) -> Report:
    """What comes of a case, up to the first wrong thing. One that compares nothing is wrong."""
    own = Report(tool, is_silent=True)
    COMPARED.clear()
    try:
        with limit(seconds):
            all(own.check(name, *pair) for pair in case() or ())
    except Exception as error:
        own.note(f"{name}: {error!r}")
    own.tried, own.kinds = own.tried + COMPARED.total(), own.kinds + COMPARED
    if not own.tried:
        own.note(f"{name}: it looks at nothing")
    return own


def add_runs(report: Report, name: str, runs: Sequence[Report]) -> None:
    """Adds what came of a case that was run again where it was wrong at first: it counts as right
    only if it is right each time after that, and that is printed."""
    wrong = [it for it in runs[1:] or runs if it.wrong]
    report.add((wrong or runs)[-1])
    if len(runs) > 1 and not wrong:
        print(f"{report.tool}: {name} was run again: {runs[0].wrong}", flush=True)


def runs_of(once: Callable[[], Report], times_more: int = TIMES_MORE) -> Iterator[Report]:
    """What comes of a case, and if it is wrong of so many runs more, up to the next wrong one."""
    yield (run := once())
    while run.wrong and times_more:
        again = once()
        yield again
        times_more = 0 if again.wrong else times_more - 1


def run_cases(
    report: Report, cases: Sequence[Case], processes: Processes, seconds: int = SECONDS,
    times_more: int = 0,
) -> None:  # fmt: skip
    """Runs each case in a folder of its own, and so many times more where it is wrong."""

    def once(case: Case) -> Report:
        with room(report.tool, enter=True):
            try:
                return attempt(report.tool, case.__name__, case, seconds)
            finally:
                processes.stop()

    for case in cases:
        runs = [*runs_of(functools.partial(once, case), times_more)]
        add_runs(report, case.__name__, runs)


self_test()
