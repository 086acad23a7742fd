"""Starts the program, and says what it printed and how it ended."""

import os
import select
import signal
import sys
import time
from collections import namedtuple

TOP = os.path.dirname(os.path.dirname(os.path.dirname(os.path.abspath(__file__))))
sys.path.insert(0, f"{TOP}/tools")
EXCHANGE = os.path.abspath(os.environ.get("EXCHANGE") or f"{TOP}/crates/exchange/out/exchange")

# Where folders for files are made that the program syncs: in memory,
# where there is such a place, since a disk makes it wait.
ROOMS = "/dev/shm" if os.access("/dev/shm", os.W_OK) else None

# Seconds that a run has. Most take far less than one, but machines differ,
# and others may keep this one busy.
LIMIT = 300

# What came on standard output and on standard error, and the status; below 0 the signal that ended
# it, and None where it had to be killed.
Ended = namedtuple("Ended", "out err status")


def start(words, env=None, out=None, given=os.devnull, called=None):
    """Starts a program with these words, the first of which is also what it is called where no name
    is given, and with the file `given` on standard input: its process, and the ends of its standard
    output, which is None where `out` names a descriptor for it, and of its standard error."""
    read = os.open(given, os.O_RDONLY)
    err_end, err = os.pipe()
    out_end, ours = (None, out) if out is not None else os.pipe()
    moves = [
        (os.POSIX_SPAWN_DUP2, read, 0),
        (os.POSIX_SPAWN_DUP2, ours, 1),
        (os.POSIX_SPAWN_DUP2, err, 2),
    ]
    process = os.posix_spawn(
        words[0],
        [called or words[0], *words[1:]],
        env or {},
        file_actions=moves,
        setsigdef=[signal.SIGPIPE],
    )
    for it in [read, err] + ([ours] if out is None else []):
        os.close(it)
    return process, out_end, err_end


def gather(ends, seconds):
    """All that comes at some ends until each is closed, or None where that takes longer."""
    texts, until = {end: [] for end in ends}, time.monotonic() + seconds
    left = set(ends)
    while left:
        ready, _, _ = select.select(sorted(left), [], [], max(0, until - time.monotonic()))
        if not ready:
            return None
        for end in ready:
            part = os.read(end, 1 << 20)
            texts[end].append(part)
            if not part:
                left.remove(end)
    return [b"".join(texts[end]) for end in ends]


def end(process, out_end, err_end, seconds=LIMIT):
    """Waits for the end of what was started. What isn't at its end
    after so many seconds is killed."""
    ends = [it for it in (out_end, err_end) if it is not None]
    texts = gather(ends, seconds)
    if texts is None:
        os.kill(process, signal.SIGKILL)
    _, status = os.waitpid(process, 0)
    for it in ends:
        os.close(it)
    if texts is None:
        return Ended(b"", b"it hangs", None)
    if out_end is None:
        texts = [b"", *texts]
    return Ended(*texts, -os.WTERMSIG(status) if os.WIFSIGNALED(status) else os.WEXITSTATUS(status))


def ask(*words, program=EXCHANGE, env=None, seconds=LIMIT, given=os.devnull, called=None):
    """Runs the program to its end, with the file `given` on standard input."""
    return end(*start([program, *words], env, given=given, called=called), seconds)
