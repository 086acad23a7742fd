#!/usr/bin/env bash
# Measures how many `peek` lines a second live clients of `host` are answered:
# live.sh [ROUNDS [PROGRAM..]]
#
# One client and sixteen, in processes of their own (client.c), say a line once they have heard the
# reply to the one before, or 16 or 64 lines at once: without a record, with one, and with one whose
# entries are waited for (--sync). Each PROGRAM, as an older build, is measured beside the built
# one, and where there is a redis-server, so are clients that set eight bytes, with its record
# (appendonly), each second or always on the disk. All are measured in turn, in ROUNDS rounds, five
# unless given, and the medians are printed. Records lie in the folder that TMPDIR names.
#
# Needs python3 and a C compiler. Build the program first: ./exchange prove
set -eu
here=$(cd "$(dirname "${BASH_SOURCE[0]}")" && pwd)
exec python3 - "$here" "$@" <<'END'
import os, shutil, statistics, subprocess, sys, tempfile, time

here, rounds = sys.argv[1], int(sys.argv[2]) if len(sys.argv) > 2 else 5
programs = [f"{here}/../../crates/exchange/out/exchange", *map(os.path.abspath, sys.argv[3:])]
RECORDS = {
    "no record": [],
    "a record": ["--record", "record"],
    "--sync": ["--record", "record", "--sync"],
}
PACES = {1: 10_000, 16: 40_000, 64: 80_000}  # Lines of a client, by how many it says at once.


def heard(clients, lines, burst, *files):
    """The lines a second that these clients are answered."""
    words = ["./client", str(clients), str(lines), str(burst), *files]
    said = subprocess.run(words, capture_output=True, text=True)
    if said.returncode:
        sys.exit("live: a client isn't answered each line")
    return int(said.stdout)


def lines_of(clients, burst, waits):
    return PACES[burst] // (1 if clients == 1 else 4) // (20 if waits else 1)


def of_host(program, clients, burst, record):
    names = [f"c{k}" for k in range(clients)]
    files = [f"{name}.{end}" for name in names for end in ("in", "out")]
    for file in files:
        os.mkfifo(file)
    words = [program, "host", "1x1x1", *names, *RECORDS[record]]
    host = subprocess.Popen(words, stdout=subprocess.DEVNULL)
    answered = heard(clients, lines_of(clients, burst, record == "--sync"), burst, *files)
    if host.wait():
        sys.exit("live: the host fails")
    for file in {*files, "record"} & {*os.listdir(".")}:
        os.remove(file)
    return answered


def of_redis(clients, burst, how):
    words = ["--port", "0", "--unixsocket", "socket", "--save", ""]
    words += ["--appendonly", "yes", "--appendfsync", how]
    server = subprocess.Popen(["redis-server", *words], stdout=subprocess.DEVNULL)
    while not os.path.exists("socket"):
        time.sleep(0.01)
    answered = heard(clients, lines_of(clients, burst, how == "always"), burst, "socket")
    server.terminate()
    server.wait()
    shutil.rmtree("appendonlydir")
    return answered


with tempfile.TemporaryDirectory() as room:
    os.chdir(room)
    compiler = os.environ.get("CC", "cc")
    subprocess.run([compiler, "-O2", "-o", "client", f"{here}/client.c"], check=True)
    forms = {}
    for clients in 1, 16:
        for burst in PACES:
            at_once = "one at a time" if burst == 1 else f"{burst} at once"
            for record in RECORDS:
                for program in programs:
                    whose = "" if program == programs[0] else f", {program}"
                    form = f"{clients} clients, {at_once}, {record}{whose}"
                    forms[form] = of_host, program, clients, burst, record
            if shutil.which("redis-server"):
                for how in "everysec", "always":
                    form = f"{clients} clients, {at_once}, redis-server, {how}"
                    forms[form] = of_redis, clients, burst, how
    found = {form: [] for form in forms}
    for _ in range(rounds):
        for form, (way, *words) in forms.items():
            found[form].append(way(*words))
    for form, all_found in found.items():
        print(f"{form}: {statistics.median(all_found):.0f} ({min(all_found)} to {max(all_found)})")
    os.chdir("/")
END
