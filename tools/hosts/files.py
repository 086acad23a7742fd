#!/usr/bin/env python3
"""What the program asks of files, in its order: files.py

LIBRARIES names what refuse.c and calls.c are built to. They note each call, and let some fail or
wait. For each command stands here in which order it has to ask. A new file is locked, and looked
at, before it is written; it is put in its place once the disk has it; then the disk keeps its name.
Where the system refuses a call, the files that were there are as before, and no new file is left.
While a client waits for the disk the others don't.
"""

import errno
import fcntl
import os
import re
import shutil
import subprocess
import sys

from pathlib import Path

sys.path.insert(0, str(Path(__file__).resolve().parents[1]))

import harness  # noqa: E402
from pipe_clients import EXCHANGE, PROCESSES, Client, Host  # noqa: E402

SESSION = "session 0\nword 000000ff\n"


def write(name, text=""):
    with open(name, "w") as file:
        file.write(text)


def read(name):
    with open(name) as file:
        return file.read()


def fails(*rules):
    """Lets calls fail, each named as `sync:left:1`, by an error."""
    return {"CALLS_FAIL": ",".join(f"{rule}:{error}" for rule, error in rules)}


def ended_so(words, given=os.devnull, **environment):
    """What the program prints on both streams, and its status,
    where files do as this environment says."""
    environment["LD_PRELOAD"] = os.environ["LIBRARIES"]
    with open(given) as file:
        run = subprocess.run(
            [EXCHANGE, *words.split()],
            stdin=file,
            capture_output=True,
            timeout=harness.SECONDS,
            env=environment,
        )
    return run.stdout.decode(errors="replace"), run.stderr.decode(), run.returncode


def beside(call, script):
    """Has a script run as this call begins, which waits for its end."""
    if not os.path.exists("gate"):
        os.mkfifo("gate")
    PROCESSES.start(["sh", "-c", f"exec 3>gate; {script}"])
    return {"CALLS_WAIT": f"{call}:gate"}


# ---- the order of calls


def noted():
    """The calls that went well, as `write left`, without their repetitions. Of those that look at a
    file only one right behind its lock or its sync stands here: it says whether the name still
    leads there."""
    kept = []
    for line in read("calls").splitlines():
        when, call, name, count = re.sub(r"\bpipe\b", "stdout", line).split()
        text = f"{call} {name}"
        is_late = call != "stat" or kept[-1:] in ([f"lock {name}"], [f"sync {name}"])
        if (
            when == "end"
            and int(count) >= 0
            and call not in ("look", "read")
            and is_late
            and name != "null"
            and text != (kept or [""])[-1]
        ):
            kept.append(text)
    os.unlink("calls")
    return kept


def is_so(words, given, order, status=0, **environment):
    """What a command did, in which order, and what is wanted."""
    status_now = ended_so(words, given, CALLS_LOG="calls", **environment)[2]
    return (status_now, noted()), (status, order)


def held(name):
    """A file that is there is opened and locked, and its name still leads to it."""
    return [f"open {name}", f"lock {name}", f"stat {name}"]


def put(name, *before, folder="."):
    """A new file is written, and goes to its place once the disk has it.
    Then the disk keeps its name."""
    new = f"{name}.exchange-0"
    return [f"write {new}", f"sync {new}", *before, f"rename {new}:{name}", *keep_name(folder)]


def keep_name(folder="."):
    return [f"open {folder}", f"sync {os.path.basename(os.path.abspath(folder))}"]


RECORD, IMAGE = held("record"), held("left.exchange-0")
LAST = ["write record", "sync record", "stat record"]


def orders_of_scripts():
    """`serve` puts its record in place, and then the image."""
    write("amy.in", "poke 0 80000800 000000ff\nbye\n")
    opened, done = [*held("record.exchange-0"), *IMAGE, "open amy.in"], ["write stdout"]
    yield is_so(
        "serve 1x1x1 amy.in --record record --image-out left",
        os.devnull,
        [*opened, *put("record"), *put("left"), *done],
    )
    kept = held("left")
    opened = [*held("record"), *held("record.exchange-0"), *kept, *IMAGE, "open amy.in"]
    order = [*opened, *put("record", *held("record")), *put("left", *kept), *done]
    yield is_so("serve 1x1x1 amy.in --record record --image-out left", os.devnull, order)
    # The image is written in two parts.
    half = {"CALLS_HALF": "other.exchange-0:1"}
    yield is_so(
        "serve 1x1x1 amy.in --image-out other",
        os.devnull,
        [*held("other.exchange-0"), "open amy.in", *put("other"), *done],
        **half,
    )
    ended_so("serve 1x1x1 amy.in --image-out other", CALLS_LOG="calls", **half)
    yield re.findall("end write other.* ([0-9]+)", read("calls")), ["2", "2"]
    os.unlink("calls")
    yield sorted(os.listdir(".")), ["amy.in", "left", "other", "record"]
    # Where a name is a link, the new file is beside the file that it leads to,
    # whose folder keeps its name.
    os.mkdir("far")
    os.symlink("far/linked", "soft")
    order = [*held("linked.exchange-0"), "open amy.in", *put("linked", folder="far"), *done]
    yield is_so("serve 1x1x1 amy.in --image-out soft", os.devnull, order)


def orders_of_sessions():
    """A live record is written before each answer, with `--sync` on the disk before. Its name is
    looked at in the end, and then comes the image."""
    write("amy.in", "poke 0 80000800 000000ff\n")
    begun = ["cut record", "write record"]
    entry, synced = ["write record"], ["write record", "sync record"]
    talk = "talk 1x1x1 --record record --image-out left"
    yield is_so(talk, "amy.in", [*RECORD, *IMAGE, *begun, "write stdout", *LAST, *put("left")])
    order = [
        *RECORD,
        *keep_name(),
        *held("left"),
        *IMAGE,
        "cut record",
        "sync record",
        *synced,
        "write stdout",
        *LAST,
        *put("left", *held("left")),
    ]
    yield is_so(f"{talk} --resume --sync", "amy.in", order)
    told = ["open amy.in", "open amy.out", "lock amy.out", "cut amy.out"]
    os.mkdir("far")
    for folder in "far", ".":
        os.unlink("record")
        if folder == "far":
            os.symlink("far/record", "record")
        order = [
            *RECORD,
            *keep_name(folder),
            "cut record",
            *synced,
            *told,
            *synced,
            "write amy.out",
            *LAST,
            "write stdout",
        ]
        yield is_so("host 1x1x1 amy --record record --sync", os.devnull, order)
    order = [
        *RECORD,
        *held("left"),
        *IMAGE,
        "cut record",
        *told,
        *entry,
        "write amy.out",
        *LAST,
        *put("left", *held("left")),
        "write stdout",
    ]
    yield is_so("host 1x1x1 amy --record record --resume --image-out left", os.devnull, order)
    os.unlink("left")
    yield is_so(
        "host 1x1x1 amy --image-out left",
        os.devnull,
        [*IMAGE, *told, "write amy.out", *put("left"), "write stdout"],
    )
    os.unlink("left")
    yield is_so("talk 1x1x1 --image-out left", "amy.in", [*IMAGE, "write stdout", *put("left")])


def orders_of_readers():
    """What asks for no sessions opens each file once, in this order,
    and writes standard output alone."""
    for name in (
        "three-transfers.txt",
        "three-transfers.plan.txt",
        "patterns/gather.moves.txt",
        "before.img",
        "two-clients.record.txt",
    ):
        shutil.copy(harness.EXAMPLES / name, ".")
    batch, schedule = "three-transfers.txt", "three-transfers.plan.txt"
    words = [
        f"plan {batch} --steady",
        f"check {batch} {schedule}",
        f"draw {batch} {schedule}",
        f"switch {batch} --schedule {schedule}",
    ]
    words += [
        f"orders {batch}",
        "direct gather.moves.txt",
        f"run 3x2x2 --image before.img {batch}",
        f"apply 3x2x2 {batch} before.img",
    ]
    for order, status in ([], 0), ([f"open {batch}", "write stdout"], 1):
        found, wanted = is_so(f"plan {batch}", os.devnull, order, status)
        yield found == wanted, False
    for line in [*words, "replay two-clients.record.txt"]:
        yield is_so(
            line,
            os.devnull,
            [*(f"open {word}" for word in line.split() if "." in word), "write stdout"],
        )


# ---- calls that fail


def cannot_lock():
    """Where the file of a record, of an image or of a client can't be locked it is refused,
    and stays as it was."""
    why = "No locks available\n"
    write("amy.in")
    for words in "host 1x1x1 amy --record record", "talk 1x1x1 --record record --resume":
        yield ended_so(words, **fails(("lock:record:1", errno.ENOLCK))), (
            "refused file\n",
            f"exchange: record: {why}",
            1,
        )
        yield os.path.getsize("record"), 0
    new = fails(("lock:left.exchange-0:1", errno.ENOLCK))
    yield ended_so("serve 1x1x1 amy.in --image-out left", **new), (
        "refused file\n",
        f"exchange: left: {why}",
        1,
    )
    yield sorted(os.listdir(".")), ["amy.in", "record"]
    write("left", "old\n")
    old = fails(("lock:left:1", errno.ENOLCK))
    yield ended_so("host 1x1x1 amy --image-out left", **old), (
        "refused file\n",
        f"exchange: left: {why}",
        1,
    )
    write("amy.out", "old\n")
    told = fails(("lock:amy.out:1", errno.ENOLCK))
    yield ended_so("host 1x1x1 amy", **told), (
        "session 0 amy\nended open\n",
        f"exchange: amy.out: {why}",
        1,
    )
    yield [os.path.getsize(name) for name in ("left", "amy.out")], [4, 4]
    yield sorted(os.listdir(".")), ["amy.in", "amy.out", "left", "record"]


def cannot_open():
    """Where a client's file can't be opened, the reason is printed,
    unless it is that there is no memory."""
    write("amy.in")
    for name in "amy.in", "amy.out":
        for error, why in (
            (errno.EMFILE, f"exchange: {name}: {os.strerror(errno.EMFILE)}\n"),
            (errno.ENOMEM, ""),
        ):
            yield ended_so("host 1x1x1 amy", **fails((f"open:{name}:1", error))), (
                "session 0 amy\nended open\n",
                why,
                1,
            )


def is_cut_without_threads():
    """Where the system has no threads, a torn entry is cut off all the same, and that is said."""
    write("amy.in")
    write("record", "record-2 1x1x1 00040001 1\nclient amy\n=fd1021a9\n0 po")
    told = (
        "exchange: record: cut off: 4 bytes from line 4 on\n"
        "exchange: the system has no thread for each client; try fewer clients\n"
    )
    yield ended_so("host 1x1x1 amy --record record --resume", REFUSE="T"), (
        "refused threads\n",
        told,
        1,
    )
    yield os.path.getsize("record"), 47


def is_moved_before_the_lock():
    """A file that another takes the place of between its opening and its lock isn't written. That
    of a live record is opened again; another is refused, and a new file isn't used."""
    write("amy.in")
    for name in "record", "other":
        write(name)
    for names in "other:record", "record:gone":
        yield ended_so("host 1x1x1 amy --record record", CALLS_MOVES=names), (
            "session 0 amy\n",
            "",
            0,
        )
        yield os.path.getsize("record") > 0, True
        write("record")
    yield ended_so("serve 1x1x1 amy.in --record record", CALLS_MOVES="record:moved"), (
        "refused file\n",
        "exchange: record: another program writes it\n",
        1,
    )
    yield ended_so("serve 1x1x1 amy.in --image-out left", CALLS_MOVES="left.exchange-0:taken"), (
        "session 0\n",
        "",
        0,
    )
    yield [os.path.getsize(name) for name in ("gone", "moved", "taken", "left")], [0, 0, 0, 4]
    yield sorted(os.listdir(".")), ["amy.in", "amy.out", "gone", "left", "moved", "taken"]


def new_files_of_others():
    """A new file is none that is there, empty or locked, no pipe, and no link,
    whatever that leads to."""
    write("amy.in", "poke 0 80000800 000000ff\npeek 0 80000800\n")
    write("nothing")
    for number, make in enumerate(
        [
            write,
            os.mkfifo,
            lambda name: os.symlink("nothing", name),
            lambda name: os.symlink("nowhere", name),
        ]
    ):
        make(f"left.exchange-{number}")
    with open("left.exchange-0") as taken:
        fcntl.flock(taken, fcntl.LOCK_EX)
        yield ended_so("serve 1x1x1 amy.in --image-out left"), (
            "session 0\npoked\nword 000000ff\n",
            "",
            0,
        )
    yield sorted(os.listdir(".")), [
        "amy.in",
        "left",
        *(f"left.exchange-{number}" for number in range(4)),
        "nothing",
    ]
    yield [os.path.getsize(name) for name in ("left", "left.exchange-0", "nothing")], [4, 0, 0]
    yield (
        ended_so(
            "serve 1x1x1 amy.in --image-out left",
            **fails(("open:left.exchange-0:1", errno.EACCES)),
        ),
        ("refused file\n", "exchange: left: no new file can be made in its folder\n", 1),
    )
    # One to which another program writes before it is locked is that program's.
    os.unlink("left.exchange-0")
    written = beside("lock:left.exchange-0:1", "echo theirs >left.exchange-0")
    yield ended_so("serve 1x1x1 amy.in --image-out left", **written)[2], 0
    yield [os.path.getsize(name) for name in ("left", "left.exchange-0")], [4, 7]


def image_that_fails():
    """Where an image can't be written, kept by the disk or put in its place the status is 3, the
    old one is as before, and no new file is left."""
    write("amy.in", "peek 0 80000800\n")
    write("left", "old\n")
    wrong = [("write", errno.ENOSPC), ("sync", errno.EIO), ("rename", errno.EISDIR)]
    for call, error in wrong:
        out, err, status = ended_so(
            "serve 1x1x1 amy.in --image-out left", **fails((f"{call}:left.exchange-0:1", error))
        )
        yield (out, err, status), (
            "session 0\nword 00000000\n",
            f"exchange: left: {os.strerror(error)}\n",
            3,
        )
        yield (sorted(os.listdir(".")), read("left")), (["amy.in", "left"], "old\n")
    yield ended_so(
        "serve 1x1x1 amy.in --image-out left",
        **fails((f"sync:{os.path.basename(os.getcwd())}:1", errno.EINVAL)),
    )[2], 0
    yield os.path.getsize("left"), 4
    # Up to then no other program gets the lock of the old one.
    yield ended_so(
        "serve 1x1x1 amy.in --image-out left",
        **beside("rename:left.exchange-0:1", "flock -n left true || echo none >locked"),
    )[2], 0
    yield os.path.exists("locked"), True


def record_that_fails():
    """Where a record can't be written, or kept by the disk in the end, the status is 3 and no image
    is left. Told is the last reason."""
    write("amy.in", "peek 0 80000800\n")
    host = "host 1x1x1 amy --record record --image-out left"
    for rules, error in [
        ([("write:record:2", errno.EINTR), ("write:record:3", errno.ENOSPC)], errno.ENOSPC),
        ([("sync:record:1", errno.EIO)], errno.EIO),
    ]:
        told = (
            f"exchange: record: {os.strerror(error)}\n"
            "exchange: left: not written, since the record isn't kept\n"
        )
        yield ended_so(host, **fails(*rules))[1:], (told, 3)
        yield sorted(os.listdir(".")), ["amy.in", "amy.out", "record"]
        os.unlink("record")
    told = "exchange: record: its folder can't be synced\n"
    yield ended_so(
        f"{host} --sync", **fails((f"sync:{os.path.basename(os.getcwd())}:1", errno.EINVAL))
    ), ("refused file\n", told, 1)
    yield os.path.exists("record"), False


def has_no_null_device():
    """Without a null device the program answers, and a stream that is closed can't be written."""
    version = (harness.REPOSITORY / "rows/version.txt").read_text()
    yield ended_so("--version", **fails(("open:null:1", errno.ENOENT))), (version, "", 0)
    none = fails(*((f"open:null:{count}", errno.ENOENT) for count in (1, 2, 3)))
    run = subprocess.run(
        ["sh", "-c", '"$0" --version >&-', EXCHANGE],
        capture_output=True,
        env={"LD_PRELOAD": os.environ["LIBRARIES"], **none},
    )
    yield (run.stdout, run.stderr, run.returncode), (
        b"",
        b"exchange: the answer can't be written: Bad file descriptor (os error 9)\n",
        3,
    )
    nothing = fails(("open:null:1", errno.ENOENT), ("open:/:1", errno.EMFILE))
    yield ended_so("--version", **nothing), (
        "",
        "exchange: nothing can be opened: Too many open files (os error 24)\n",
        3,
    )


def twins():
    """Files of two devices that have one number aren't one file."""
    write("amy.in", "peek 0 80000800\n")
    for name in "record", "left":
        write(name)
    words = "serve 1x1x1 amy.in --record record --image-out left"
    yield ended_so(words, CALLS_TWINS="1"), ("session 0\nword 00000000\n", "", 0)
    yield [os.path.getsize(name) > 0 for name in ("record", "left")], [True, True]
    told = subprocess.run(
        ["stat", "-c", "%i", "record", "left"],
        capture_output=True,
        env={"LD_PRELOAD": os.environ["LIBRARIES"], "CALLS_TWINS": "1"},
    )
    yield told.stdout, b"7\n7\n"


# ---- calls that wait


def others_go_on():
    """While one client waits for the disk, another is answered whose entries are there, and calls
    are made: a third sees a run that ended. Where the disk then fails no later call is made."""
    for error in None, errno.EIO:
        for name in os.listdir("."):
            os.unlink(name)
        os.mkfifo("gate")
        # The syncs before: of the head, and of each of bob's two lines.
        rules = fails(("sync:record:4", error)) if error else {}
        env = {"LD_PRELOAD": os.environ["LIBRARIES"], "CALLS_WAIT": "sync:record:4:gate", **rules}
        host = Host("2x1x1", ["amy", "bob", "eve"], "--sync", env=env)
        amy, bob, eve = Client("amy"), Client("bob"), Client("eve")
        yield bob.ask("batch 1\npush 0 0 1 0"), "accepted 1"
        yield bob.ask("plan 1"), "planned 1 settings 1"
        amy.say("poke 0 80000800 000000aa\n")
        gate = os.open("gate", os.O_WRONLY)
        yield bob.ask("progress"), "progress run 0 done 0"
        if not error:
            bob.say("run 1\n")
            while (told := eve.ask("progress")) in (
                "progress run 0 done 0",
                "progress run 1 done 0",
            ):
                pass
            yield told, "progress run 1 done 1"
        os.close(gate)
        if not error:
            yield amy.hear(), "poked"
            yield bob.hear(), "ran 1 run 1 settings 1 words 1 bits 117"
            ends, status = [], 0
        else:
            yield amy.hear(), ""
            yield bob.ask("run 1"), ""
            yield eve.ask("progress"), "progress run 0 done 0"
            ends, status = ["ended record"], 3
        for client in amy, bob, eve:
            client.leave()
        printed = host.process.communicate()[0].decode().splitlines()
        yield printed[: 3 + 2 * len(ends)], [
            "session 0 amy",
            *ends,
            "session 1 bob",
            *ends,
            "session 2 eve",
        ]
        yield host.process.returncode, status


CASES = [
    orders_of_scripts, orders_of_sessions, orders_of_readers, cannot_lock, cannot_open,
    is_cut_without_threads, is_moved_before_the_lock, new_files_of_others, image_that_fails,
    record_that_fails, has_no_null_device, twins, others_go_on,
]  # fmt: skip

if __name__ == "__main__":
    report = harness.Report("files")
    harness.run_cases(report, CASES, PROCESSES, times_more=harness.TIMES_MORE)
    report.finish(f"{len(CASES)} cases, {{tried}} things looked at, {{wrong}} cases wrong")
