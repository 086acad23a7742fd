#!/usr/bin/env python3
"""Tries what an install puts into a folder, and the calls for programs
in Python: tools/python/run.py [COUNT]

    install     puts what its list says, stops where a file is in the way, and what it put is taken
                away again, and no more, also where it was interrupted; all that is put has one
                version
    pages       helps call the program by its name, what `man` shows has sections and each line of
                them, and shells complete commands and options, and say what they do; what is
                installed names no page and no file that isn't, and no program of a clone
    C           a program that pkg-config gives the words for,
                and one that is linked with the shared library
    Python      the examples of the module's own texts, the emulator, want of memory, long answers,
                how often a call is made, names of files, copies, memory of other kinds, and a link
                to the module
    films       of the crossbar, by the bytes that set the switch
    texts       COUNT spoilt texts, 300 where it isn't said, by the calls from Python and by the
                built program, byte for byte
    states      streams to a C004 and to the end of a link, against plain Python that shares no code
                with the product; only bytes are sent, and the memory of an end keeps its length
    threads     sixteen that call at once are answered as one alone

What isn't built yet is proved and built first. `man`, `mypy`, `pkg-config`, `zsh` and `fish` are
tried where they are there.
"""

import array
import contextlib
import copy
import itertools
import multiprocessing
import os
import pickle
import random
import re
import shutil
import signal
import subprocess
import sys
import tempfile
import time
from concurrent.futures import ThreadPoolExecutor
from pathlib import Path
from types import SimpleNamespace

TOP = os.path.dirname(os.path.dirname(os.path.dirname(os.path.abspath(__file__))))
sys.path.insert(0, f"{TOP}/tools/c")

import calls
import states
from program import EXCHANGE, ask

import harness
from harness import Report

EXAMPLES = f"{TOP}/examples"

# What a shell makes of words behind `exchange`. Where that is nothing,
# it goes on with names of files.
COMPLETED = {
    "pl": "plan",
    "plan --w": "--workers",
    "plan --st": "--steady",
    "plan --h": "--help",
    "switch --sc": "--schedule",
    "switch three-transfers.txt --schedule three": "",
    "help dra": "draw",
    "plan exam": "",
}

# How a shell is asked, with the file by which it completes as its first word. Of zsh, which
# completes at a terminal alone, it is what it would describe.
SHELLS = {
    "bash": [
        "-c",
        (
            'source "$1"; COMP_WORDS=("${@:2}"); COMP_CWORD=$(($# - 2)); _exchange exchange '
            '"${!#}" "" && echo "${COMPREPLY[@]}"'
        ),
        "bash",
    ],
    "zsh": [
        "-fc",
        (
            "_describe() { print -rl -- ${(M)${(P)2}:#$PREFIX*} }; _files() { print }; "
            "words=(${@:2}); CURRENT=$#words; PREFIX=$words[-1]; source $1"
        ),
        "zsh",
    ],
    "fish": ["-Nc", 'source $argv[1]; echo (complete -C "$argv[2..-1]")'],
}

# What stands in a shell between a word and what it does, where it says that.
BETWEEN = {"zsh": ":", "fish": "\t"}

# The sections of a page for `man`; the fourth, sixth and last but one are those of the program.
SECTIONS = [
    "NAME", "SYNOPSIS", "DESCRIPTION", "COMMANDS", "OPTIONS", "FILES", "EXIT STATUS", "EXAMPLES",
    "SEE ALSO",
]  # fmt: skip
COMPLETIONS = {
    "bash": "bash-completion/completions/exchange",
    "zsh": "zsh/site-functions/_exchange",
    "fish": "fish/vendor_completions.d/exchange.fish",
}

REPORT = Report("python")


def expect(what, well, told=""):
    """Notes whether something is as it is to be."""
    REPORT.judge(what, [] if well else [str(told)])


def run(*words, **settings):
    """Runs a program to its end: its status, and all that it printed."""
    pipes = {"stdin": subprocess.DEVNULL, "stdout": subprocess.PIPE, "stderr": subprocess.STDOUT}
    done = subprocess.run(words, text=True, check=False, **pipes, **settings)
    return done.returncode, done.stdout


def expect_run(what, wanted, *words, **settings):
    """Notes whether a program ends well and prints this."""
    status, told = run(*words, **settings)
    expect(what, (status, told) == (0, wanted), f"status {status}\n{told}")


def package_in(rack):
    """The folder of the package for Python in a folder that was installed into."""
    return next(Path(rack).rglob("exchange/py.typed")).parent


def tree(folder):
    """All that is in a folder: folders, and files with what is in them."""
    return {
        str(path): path.read_bytes() if path.is_file() else None for path in Path(folder).rglob("*")
    }


def install(what, status, *words, script="install", before=(), **settings):
    """Notes whether an install or an uninstall, behind some words of another command, has this
    status, and gives back what it told."""
    is_status, told = run(*before, f"{TOP}/tools/install/{script}.sh", *words, **settings)
    expect(what, is_status == status, f"status {is_status}\n{told}")
    return told


def try_install(room):
    """Installs into a folder that isn't there yet, and into others."""
    rack = f"{room}/rack"
    told = install("install", 0, rack)
    put = [
        line
        for line in Path(rack, "share/exchange/installed").read_text().splitlines()
        if not line.endswith("/")
    ]
    files = [name for name, text in tree(rack).items() if text is not None]
    expect(
        "all files are listed",
        sorted(files) == sorted(f"{rack}/{line}" for line in put),
        f"{files}\n{put}",
    )
    expect("all files are told", all(f"  {line}\n" in told for line in put), told)
    ways = "PATH", "PKG_CONFIG_PATH", "PYTHONPATH"
    expect(
        "how a shell, pkg-config and Python find it is told",
        re.findall(r"export (\w+)=" + re.escape(rack), told) == [*ways],
        told,
    )
    before = tree(rack)
    Path(rack, "lib/old").write_text("old")
    with open(f"{rack}/share/exchange/installed", "a") as listed:
        listed.write("lib/old\n")
    for first, is_said in (f"{rack}/bin", False), (os.path.dirname(EXCHANGE), True):
        found = {
            "PATH": f"{first}:{os.environ['PATH']}",
            "PKG_CONFIG_PATH": f"{rack}/lib/pkgconfig",
        }
        told = install("install once more", 0, "rack/", cwd=room, env={**os.environ, **found})
        expect(
            "only ways that aren't found are said",
            re.findall(r"export (\w+)=", told) == ["PATH"] * is_said + ["PYTHONPATH"],
            told,
        )
    expect("another install leaves the same, and nothing of an earlier one", tree(rack) == before)
    try_versions(rack)
    with open(f"{rack}/share/exchange/installed", "a") as listed:
        listed.write("bin/../../rack/bin/exchange\n")
    install("uninstall by a list that leads out of the folder", 1, rack, script="uninstall")
    Path(rack, "share/exchange/installed").write_bytes(before[f"{rack}/share/exchange/installed"])
    expect("nothing is taken away by it", tree(rack) == before)

    mine = f"{room}/mine"
    os.makedirs(f"{mine}/bin")
    os.makedirs(f"{mine}/share/man")
    for name in ("bin/exchange", "bin/other"):
        shutil.copy(f"{EXAMPLES}/ring.txt", f"{mine}/{name}")
    Path(mine, "bin/python3").write_text(OWN_PYTHON)
    os.chmod(f"{mine}/bin/python3", 0o755)
    before = tree(mine)
    told = install("a file in the way", 1, mine)
    expect(
        "it is named, and nothing is put",
        f"{mine}/bin/exchange is there" in told and tree(mine) == before,
        told,
    )
    os.remove(f"{mine}/bin/exchange")
    before = tree(mine)
    os.chmod(mine, 0o555)
    bound_by_modes = [] if os.geteuid() else ["setpriv", "--bounding-set=-dac_override"]
    told = install("a folder that can't be written to", 1, mine, before=bound_by_modes)
    expect(
        "that is told", "is no folder that can be written to" in told and tree(mine) == before, told
    )
    os.chmod(mine, 0o755)
    install("install beside other files", 0, mine)
    expect(
        "the module is where the folder's own python3 looks",
        os.path.exists(f"{mine}/lib/python0/site-packages/exchange/__init__.py"),
        tree(mine).keys(),
    )
    theirs = package_in(mine) / "__pycache__" / "theirs.pyc"
    theirs.parent.mkdir()
    theirs.write_text("theirs")
    shutil.rmtree(f"{mine}/lib/pkgconfig")
    os.chmod(f"{mine}/bin", 0o555)
    install(
        "uninstall where a file can't be taken away",
        1,
        mine,
        script="uninstall",
        before=bound_by_modes,
    )
    os.chmod(f"{mine}/bin", 0o755)
    install("uninstall beside other files, what is there in part", 0, mine, script="uninstall")
    left = {
        **before,
        **dict.fromkeys(map(str, list(theirs.parents)[: -len(Path(mine).parts)])),
        str(theirs): b"theirs",
    }
    expect(
        "what was there before is left, and what others put there since",
        tree(mine) == left,
        tree(mine).keys() ^ left.keys(),
    )
    install("no folder for the folder", 1, f"{room}/none/rack")
    told = install("no compiler", 1, f"{room}/none", env={**os.environ, "PATH": few_commands(room)})
    expect(
        "that it isn't there is told", told == "exchange: the command cc isn't on the PATH\n", told
    )
    install("other words", 2, "--help")
    return rack


def few_commands(room):
    """A folder with what an install needs before it looks for a compiler."""
    few = f"{room}/few-commands"
    os.mkdir(few)
    for name in "bash", "env", "dirname", "readlink", "rt":
        os.symlink(shutil.which(name), f"{few}/{name}")
    return few


def try_versions(rack):
    """The program, pkg-config, the header, the module for Python and the shared library have one
    version; of the last it is the first number."""
    version = run(f"{rack}/bin/exchange", "--version")[1].split()[1]
    told = {
        "pkg-config": re.findall(
            r"^Version: (.*)$", Path(rack, "lib/pkgconfig/exchange.pc").read_text(), re.MULTILINE
        ),
        "header": re.findall(
            r'^#define EXCHANGE_VERSION "(.*)"$',
            Path(rack, "include/exchange.h").read_text(),
            re.MULTILINE,
        ),
        "module": re.findall(
            r'^__version__ = "(.*)"$',
            Path(package_in(rack), "__init__.py").read_text(),
            re.MULTILINE,
        ),
    }
    expect(
        "all have one version",
        version and all(it == [version] for it in told.values()),
        (version, told),
    )
    major = re.findall(
        r"\(SONAME\).*\[(.*)\]", run("readelf", "-d", f"{rack}/lib/libexchange.so")[1]
    )
    shared = f"libexchange.so.{version.partition('.')[0]}"
    links = {
        str(path.relative_to(rack)): os.readlink(path)
        for path in Path(rack).rglob("*")
        if path.is_symlink()
    }
    expect(
        "the shared library has its first number, and links lead to both libraries",
        major == [shared]
        and links
        == {"lib/libexchange.so": shared, "lib/exchange/libexchange.a": "../libexchange.a"},
        (major, links),
    )


# A python3 that looks in a folder of its own.
OWN_PYTHON = """#!/bin/sh
PYTHONPATH=$(dirname "$0")/../lib/python0/site-packages exec python3 "$@"
"""

# What no install may be put into, since pkg-config can't say its name in a word.
UNNAMED = " \t\n$'\"\\#"

# A `cp` that fails the tenth time.
TENTH_FAILS = f"""#!/bin/sh
echo >>"$CALLS"
[ "$(wc -l <"$CALLS")" -lt 10 ] && exec {shutil.which("cp")} "$@"
"""


def try_interrupted(room):
    """What an install put that came to no end is taken away,
    and so are the folders that it made."""
    few, broken = f"{room}/few", f"{room}/broken"
    os.mkdir(few)
    Path(few, "cp").write_text(TENTH_FAILS)
    os.chmod(f"{few}/cp", 0o755)
    env = {**os.environ, "PATH": f"{few}:{os.environ['PATH']}", "CALLS": f"{few}/calls"}
    install("an install that is interrupted", 1, broken, env=env)
    files = [name for name, text in tree(broken).items() if text is not None]
    expect("nine files and their list are put", len(files) == 10, files)
    install("uninstall what was interrupted", 0, broken, script="uninstall")
    expect("nothing is left of it", not os.path.exists(broken), tree(broken).keys())


def try_modes(room):
    """Anybody may read what is installed and run what is a program,
    whatever the umask of who installs."""
    rack, programs = f"{room}/modes", ("bin/exchange", "lib/libexchange.so", "lib/libexchange.so.1")
    changes, before = Path(TOP, "CHANGES.md"), os.stat(f"{TOP}/CHANGES.md").st_mode
    changes.chmod(0o600)  # As in a clone that such a umask was for.
    install(
        "install with a umask, into a folder that is named from here",
        0,
        "modes",
        umask=0o077,
        cwd=room,
    )
    changes.chmod(before)
    for name in Path(rack, "share/exchange/installed").read_text().splitlines():
        page = name.removeprefix("share/doc/exchange/")
        runs = (
            name in programs
            or name[-1] == "/"
            or page != name
            and os.access(f"{TOP}/{page}", os.X_OK)
        )
        mode = os.stat(f"{rack}/{name}").st_mode & 0o777
        expect(f"the mode of {name}", mode == (0o755 if runs else 0o644), oct(mode))
    install("uninstall what a umask was for", 0, rack, script="uninstall")


def try_in_the_way(room):
    """What is in the way: a link that leads nowhere, and files whose names are parts of those that
    an earlier install is said to have put. What can't be put anywhere: the folders whose names
    pkg-config can't say in a word."""
    mine = f"{room}/own"
    os.makedirs(f"{mine}/bin")
    os.symlink("nowhere", f"{mine}/bin/exchange")
    told = install("a link that leads nowhere in the way", 1, mine)
    expect(
        "it is named, and it stays",
        f"{mine}/bin/exchange is there" in told
        and os.listdir(mine) == ["bin"]
        and os.path.islink(f"{mine}/bin/exchange"),
        told,
    )
    os.remove(f"{mine}/bin/exchange")
    os.makedirs(f"{mine}/lib")
    os.makedirs(f"{mine}/share/exchange")
    Path(mine, "share/exchange/installed").write_text(
        "share/exchange/installed\nbin/exchange.old\nold/bin/exchange\nlib/libexchange-a\n"
    )
    for name in ("bin/exchange", "lib/libexchange.a"):
        Path(mine, name).write_text("mine")
    before = tree(mine)
    told = install("files whose names are parts of others", 1, mine)
    expect(
        "both are named, and they stay",
        told.count(" is there already") == 2 and tree(mine) == before,
        told,
    )
    Path(mine, "share/exchange/installed").write_text(
        "share/exchange/installed.old\nbin/exchange\n"
    )
    before = tree(mine)
    install("uninstall by a list that doesn't name itself", 1, mine, script="uninstall")
    expect("it takes nothing away", tree(mine) == before)
    for sign in UNNAMED:
        told = install(f"a folder with {sign!r} in its name", 1, f"{room}/a{sign}b")
        expect(
            "that it can't be named is told",
            "pkg-config can't name this folder" in told and not os.path.exists(f"{room}/a{sign}b"),
            told,
        )


def try_home(room):
    """Installs where nothing is said: into the home of a user,
    whose Python finds the module without being told."""
    home = f"{room}/home"
    os.mkdir(home)
    env = {**os.environ, "HOME": home, "PYTHONDONTWRITEBYTECODE": ""}
    env.setdefault("PYENV_ROOT", os.path.expanduser("~/.pyenv"))
    told = install("install at home", 0, env=env)
    program = (
        "import exchange; print(exchange.apply('2x1x1', "
        "exchange.batch_text([exchange.Transfer('pull', 0, 0, 1, 0)]), b'aaaabbbb'))"
    )
    if (
        run("python3", "-c", "import site, sys; sys.exit(not site.ENABLE_USER_SITE)", env=env)[0]
        == 0
    ):
        expect_run(
            "a program at home", "b'bbbbbbbb'\n", "python3", "-c", program, env=env, cwd=room
        )
        expect("no way for it is said", "PYTHONPATH" not in told, told)
    install("install into a folder without a name", 2, "", env=env)
    install("uninstall from a folder without a name", 2, "", script="uninstall", env=env)
    told = install("uninstall without a home", 1, script="uninstall", env={**env, "HOME": ""})
    expect("no folder is taken for it", "/.local" not in told, told)
    install("uninstall at home", 0, script="uninstall", env=env)
    expect("nothing is left at home", os.listdir(home) == [], os.listdir(home))


def read_helps(rack):
    """All helps, where the program is found on the PATH; the first is that of the program itself.
    They call it by its name then, and say of no folder."""
    env = {**os.environ, "PATH": f"{rack}/bin:{os.environ['PATH']}"}
    top = run("exchange", "--help", env=env)[1]
    listed = top.splitlines()[top.splitlines().index("Commands:") + 1 :]
    names = [line.split()[0] for line in listed if line.startswith("  ") and "--" not in line]
    helps = {name: run("exchange", name, "--help", env=env)[1] for name in names if name != "help"}
    expect(
        "each command's example calls the program by its name",
        len(helps) > 5 and is_called_by_name(helps),
        helps,
    )
    by_path = {name: run(f"{rack}/bin/exchange", name, "--help")[1] for name in helps}
    expect("called by its path it says the same", by_path == helps, by_path)
    texts = "\n".join([top, *helps.values()])
    expect("no help says where the program is", "./exchange" not in texts, texts)
    return {"": top, **helps}


def is_called_by_name(helps):
    """Whether what stands before the usage of each command's help, which is an example,
    calls the program."""
    return all(f" exchange {name} " in text.split("Usage: ")[0] for name, text in helps.items())


def try_named(rack):
    """What is installed names no page and no file of a clone that isn't installed too,
    and no link of a page leads nowhere."""
    docs = f"{rack}/share/doc/exchange"
    links = [
        (page, link)
        for page in Path(docs).rglob("*.md")
        for link in re.findall(r"\]\(([^)\s#:]+)[)#]", page.read_text())
    ]
    named = [
        it
        for way in ("*.md", "docs/*.md", "rows/help/*", "examples/**/*")
        for it in Path(TOP).glob(way)
    ]
    missing = [it for it in named if not Path(docs, it.relative_to(TOP)).exists()]
    expect("all pages are there, and their files", not missing, missing)
    dead = [f"{page}: {link}" for page, link in links if not (page.parent / link).exists()]
    expect(f"the {len(links)} links of pages", len(links) > 100 and not dead, dead)
    for path in [f"{rack}/include/exchange.h", str(package_in(rack) / "__init__.py")]:
        named = re.findall(r"\b(?:docs/)?[A-Z]+\.md\b", Path(path).read_text())
        missing = [page for page in named if not os.path.exists(f"{docs}/{page}")]
        expect(f"the pages that {os.path.basename(path)} names", named and not missing, missing)
    for path in [*Path(docs).rglob("*.md"), *Path(docs, "rows/help").iterdir()]:
        clones = r"\./exchange (?!prove|install|uninstall|plan FILE)\w*"
        named = re.findall(clones, path.read_text())
        expect(f"the program in {path.name}", not named or path.name == "CONTRIBUTING.md", named)
    pages = "".join(it.read_text() for it in Path(rack, "share/man/man1").iterdir())
    named = re.findall(r"\S*\bexamples/\S+", pages.replace("\\-", "-").replace("\\&", ""))
    missing = [name for name in named if not (name.startswith(f"{docs}/") and os.path.exists(name))]
    expect("the files that the manual names", named and not missing, missing)


def try_page(rack, name, text):
    """The page for `man` of a command, or of the program: its sections, and the help's lines."""
    title = f"exchange-{name}".rstrip("-")
    env = {**os.environ, "MANWIDTH": "200", "LC_ALL": "C.UTF-8"}
    status, shown = run("man", "-l", f"{rack}/share/man/man1/{title}.1", env=env)
    heads = [line for line in shown.splitlines() if line in SECTIONS]
    wanted = [it for it in SECTIONS if not name or it not in ("COMMANDS", "FILES")]
    expect(f"the sections of {title}", heads == wanted, heads)
    lines = {" ".join(line.split()) for line in shown.splitlines()}
    text = re.sub(r"(?m)(^|(?<= ))examples/", f"{rack}/share/doc/exchange/examples/", text)
    text = re.sub(r"(?m)^(.*)\n\nUsage: ", rf"{title} - \1\n", text)
    if not name:
        text = re.sub(r"(?m)^  (\w+) +(?=[A-Z])", r"exchange-\1(1)\n", text)
    left_out = ("Example:", "Commands:", "exchange-help(1)", HELPS)
    missing = [it for it in text.splitlines() if " ".join(it.split()) not in lines]
    missing = [it for it in missing if it not in left_out]
    expect(f"man shows each line of the help of {title}", not missing and not status, missing)


# What the program says of its command `help`, which has no page.
HELPS = "Print this message or the help of the given subcommand(s)"


def completed(helps, shell, words, word):
    """What a shell makes of words: this word, and in some what it does, as a help says."""
    text = helps[words.split()[0]] if word[:2] == "--" else helps[""]
    does = re.search(rf"(?m)^ +(?:-\w, )?{word}(?: <[^>]+>)?  +(.*)$", text) if word else None
    return word + (BETWEEN[shell] + does[1] if does and shell in BETWEEN else "")


def try_pages(rack):
    """The helps, the pages for `man`, and what shells complete."""
    helps = read_helps(rack)
    try_named(rack)
    for name, text in helps.items() if shutil.which("man") else ():
        try_page(rack, name, text)
    told = run(
        "bash",
        "-c",
        'source "$1"; complete -p exchange',
        "bash",
        f"{rack}/share/{COMPLETIONS['bash']}",
    )
    expect("bash goes on with names of files", told[0] == 0 and " -o default " in told[1], told)
    for shell, (words, wanted) in itertools.product(
        filter(shutil.which, SHELLS), COMPLETED.items()
    ):
        expect_run(
            f"{shell} completes {words}",
            f"{completed(helps, shell, words, wanted)}\n",
            shell,
            *SHELLS[shell],
            f"{rack}/share/{COMPLETIONS[shell]}",
            "exchange",
            *words.split(),
            cwd=rack,
        )
    for shell, name in itertools.product(filter(shutil.which, SHELLS), filter(None, helps)):
        options = re.findall(r"(?m)^ +(?:-\w, )?(--[\w-]+)", helps[name])
        words = [*SHELLS[shell], f"{rack}/share/{COMPLETIONS[shell]}", "exchange", name, "--"]
        told = run(shell, *words, cwd=rack)[1]
        after = BETWEEN.get(shell, "")
        found = re.findall(rf"(?:^|\s)(--[\w-]+){after}", told)
        is_all = len(options) > 1 and {*found} == {*options}
        expect(f"{shell} completes each option of {name}", is_all, f"{told}\n{options}")


def try_c(rack, room):
    """The emulator in C, with the words of pkg-config, and with those for the shared library."""
    env = {
        **os.environ,
        "PKG_CONFIG_PATH": f"{rack}/lib/pkgconfig",
        "LD_LIBRARY_PATH": f"{rack}/lib",
    }
    source, printed = (
        f"{EXAMPLES}/emulator/emulator.c",
        Path(EXAMPLES, "emulator/printed.txt").read_text(),
    )
    ways = {"shared": [f"-I{rack}/include", f"-L{rack}/lib", "-lexchange"]}
    if shutil.which("pkg-config"):
        ways["pkg-config"] = run("pkg-config", "--cflags", "--libs", "exchange", env=env)[1].split()
    for name, words in ways.items():
        expect_run(
            f"a program in C is built: {name}", "", "cc", "-o", f"{room}/{name}", source, *words
        )
        expect_run(
            f"a program in C runs: {name}",
            printed,
            f"{room}/{name}",
            env=env if name == "shared" else {},
        )
    names = run("nm", "-D", "--defined-only", f"{rack}/lib/libexchange.so")[1].split()[2::3]
    expect(
        "the shared library gives out the calls alone",
        names == sorted(f"exchange_{name}" for name in [*calls.CALLS, *calls.OTHERS]),
        names,
    )


# A program that has memory for an image and its answer, of 2 MiB each,
# but not for what the library takes, and then has enough.
WITHOUT_MEMORY = """
import exchange, resource
image = bytes(32 * 64 * 256 * 4)
with open("/proc/self/statm") as file:
    bytes_now = int(file.read().split()[0]) * resource.getpagesize()
resource.setrlimit(resource.RLIMIT_AS, (bytes_now + (3 << 20), resource.RLIM_INFINITY))
try:
    exchange.apply("32x64x256", "batch 0\\n", image)
except MemoryError as error:
    print(error)
resource.setrlimit(resource.RLIMIT_AS, (resource.RLIM_INFINITY, resource.RLIM_INFINITY))
print(exchange.apply("32x64x256", "batch 0\\n", image) == image)
"""


# What the emulator of threads and queues says where no setting is set.
SET_NOTHING = "56 transfers in 0 settings that stood\nWRONG\n"


def try_python(module):
    """The package in this folder, and the emulator."""
    env = {**os.environ, "PYTHONPATH": os.path.dirname(module)}
    told = run(
        sys.executable, "-c", "import doctest, exchange; print(*doctest.testmod(exchange))", env=env
    )[1]
    expect(
        "the examples in the module's texts", told.startswith("0 ") and int(told[2:]) >= 25, told
    )
    printed = Path(EXAMPLES, "emulator/printed-python.txt").read_text()
    expect_run(
        "the emulator in Python",
        printed,
        sys.executable,
        f"{EXAMPLES}/emulator/emulator.py",
        env=env,
    )
    printed = Path(EXAMPLES, "emulator/printed-links.txt").read_text()
    links = [sys.executable, f"{EXAMPLES}/emulator/links.py"]
    expect_run("the emulator of threads and queues", printed, *links, env=env)
    expect_run("the same, driven", f"driven settings 7\n{printed}", *links, EXCHANGE, env=env)
    for status, last, script in (
        (5, "refused no memory", "echo refused no memory; exit 5"),
        (1, "left setting 0", f'exec {EXCHANGE} "$@" </dev/null'),
    ):
        drive = Path(os.path.dirname(module), "drive")
        drive.write_text(f"#!/bin/sh\n{script}\n")
        drive.chmod(0o755)
        ended = status, f"{last}\ndrive has ended with status {status}, so nothing is compared\n"
        expect(
            f"the same, with a drive that ends: {last}",
            (told := run(*links, drive, env=env)) == ended,
            told,
        )
        drive.unlink()
    expect(
        "the same, with a drive that sets nothing",
        (told := run(*links, shutil.which("true"), env=env)) == (1, SET_NOTHING),
        told,
    )
    stop_links(links, drive, env)
    if shutil.which("mypy"):
        try_types(os.path.dirname(module))
    expect_run(
        "want of memory",
        "exchange_apply was given no memory\nTrue\n",
        sys.executable,
        "-c",
        WITHOUT_MEMORY,
        env=env,
    )
    sys.path.insert(0, os.path.dirname(module))
    try_help(run(sys.executable, "-m", "pydoc", "exchange", env=env)[1])
    from film import try_films

    try_films(expect, EXAMPLES)
    picture = FromPython().ask(
        "draw", [calls.read("all-to-all.txt"), calls.read("all-to-all.plan.txt")]
    )
    expect("an answer that needs more room", picture == (0, calls.read("all-to-all.svg")), picture)
    try_no_schedule()
    try_settings()
    try_calls()
    try_names()
    try_copies()
    try_link(module)


def try_types(modules):
    """The types of the package and of the emulator, and a call that isn't right, by mypy."""
    with tempfile.TemporaryDirectory(prefix="types-") as room:
        Path(room, "wrong.py").write_text("import exchange\nexchange.plan(1)\n")
        words = ["mypy", "--strict", f"--cache-dir={room}/cache"]
        env = {**os.environ, "MYPYPATH": modules}
        for file, status in (f"{EXAMPLES}/emulator/emulator.py", 0), (f"{room}/wrong.py", 1):
            told = run(*words, file, env=env)
            expect(f"the types of {file}", told[0] == status, told)


def try_link(module):
    """A link to the package finds the library that was installed with it, whatever the loader
    finds, and a copy elsewhere the one that this finds."""
    program = "import exchange; print(exchange.plan('batch 0\\n'), exchange.__file__)"
    with tempfile.TemporaryDirectory(prefix="linked-") as linked:
        os.symlink(module, f"{linked}/exchange")
        shutil.copytree(module, f"{linked}/copied/exchange")
        expect_run(
            "a library without calls",
            "",
            "cc",
            "-shared",
            "-o",
            f"{linked}/libexchange.so.1",
            "-x",
            "c",
            os.devnull,
        )
        for where, found in (linked, linked), (f"{linked}/copied", str(Path(module).parents[2])):
            env = {**os.environ, "PYTHONPATH": where, "LD_LIBRARY_PATH": found}
            expect_run(
                f"the module in {where}",
                f"settings 0\nbusiest none\n {where}/exchange/__init__.py\n",
                sys.executable,
                "-c",
                program,
                env=env,
            )


def refusal_of(call_it, *given):
    """What is raised where a call refuses its texts."""
    import exchange

    try:
        return call_it(*given)
    except exchange.Refused as refused:
        return refused


def try_names():
    """What a refusal calls its texts: files by names of each kind, also by one that is no text, or
    more than a line. A list isn't a text."""
    import exchange

    run_on = [
        (exchange.apply, ["1x1x1", "batch 0\n", "x"], "image"),
        (exchange.apply, ["1x1x1", "x", ""], "batch"),
    ]
    for call_it, given, text in [
        (exchange.plan, ["x"], "batch"),
        (exchange.direct, ["x"], "moves"),
        *run_on,
    ]:
        named = {
            "mine.txt": "mine.txt",
            Path("my/mine.txt"): "my/mine.txt",
            b"mine.txt": "mine.txt",
            "a\nb": "a b",
            "a\udcff": "a?",
            "": text,
        }
        found = {
            name: refusal_of(call_it, *given).named(**{text: name}).split(":")[1].strip()
            for name in named
        }
        expect(f"the name of {text}", found == named, found)
    try:
        told = exchange.plan([exchange.Transfer("push", 0, 0, 1, 0)])
    except TypeError as error:
        told = str(error)
    expect(
        "a list is no text",
        told == "a text is str or bytes, not list; batch_text makes one of a list of transfers",
        told,
    )


def try_copies():
    """A copy has a state of its own. Memory of each kind is seen whole."""
    import exchange

    switch, memory = exchange.C004(), array.array("I", [0, 1, 2, 0x64636261])
    end = exchange.LinkEnd(memory, 0)
    for it, begins, ends in (switch, b"\2\0\x20\2", b"\0"), (end, b"\1\x0c\0\0", b"\0"):
        it.take(begins)
        for kind in (copy.copy, copy.deepcopy):
            other, before = kind(it), it.state
            told = other.take(ends)
            expect(
                "a copy has its own state",
                (it.state, other.state != before) == (before, True),
                (before, it.state, other.state),
            )
            expect(
                "a copy goes on",
                (told, getattr(other, "refused", 1)) == (it is end and b"abcd" or b"\0", 1),
                told,
            )
    # As an error is that comes from another process.
    for error in refusal_of(exchange.plan, "x"), exchange.EndFailed("why", b"abcd"):
        other = pickle.loads(pickle.dumps(error))
        expect(
            "a copy of an error",
            (str(other), vars(other)) == (str(error), vars(error)),
            vars(other),
        )


def stop_links(links, drive, env):
    """A signal ends the emulator while its `drive` waits: that ends too, and no folder is left."""
    noted = Path(f"{drive}.noted")
    drive.write_text(
        f'#!/bin/sh\necho $$ "$(dirname "$2")" >{noted}.new\nmv {noted}.new {noted}\n'
        "exec sleep 600\n"
    )
    drive.chmod(0o755)
    emulator = subprocess.Popen([*links, drive], env=env, stdout=subprocess.DEVNULL)
    opened = Path(f"/proc/{emulator.pid}/fd")
    # The signal is minded once the pipes are open.
    while emulator.poll() is None and not (
        noted.exists() and any("board.out" in os.readlink(it) for it in opened.iterdir())
    ):
        time.sleep(0.01)
    emulator.terminate()
    number, folder = noted.read_text().split()
    with contextlib.suppress(subprocess.TimeoutExpired):
        emulator.wait(20)
    left = [it for it in (folder, f"/proc/{number}") if os.path.exists(it)]
    expect(
        "the same, ended while a drive waits",
        (emulator.poll(), left) == (143, []),
        f"{emulator.poll()} {left}",
    )
    if f"/proc/{number}" in left:
        os.kill(int(number), signal.SIGKILL)
    emulator.kill()
    emulator.wait()
    drive.unlink()
    noted.unlink()


def try_help(told):
    """What pydoc shows names each call before the classes,
    and `__all__` has all calls and classes."""
    import exchange

    public = [
        name
        for name, it in vars(exchange).items()
        if getattr(it, "__module__", "") == "exchange" and name[0] != "_"
    ]
    expect("all that is public is in __all__", sorted(exchange.__all__) == sorted(public), public)
    front = told.partition("\nCLASSES\n")[0]
    missing = [name for name in public if name.islower() and f"    {name}(" not in front]
    expect(
        "pydoc names each call first", "\nCLASSES\n" in told and not missing, f"{missing}\n{front}"
    )


class Counted:
    """A library, whose calls are told in their order."""

    def __init__(self, library):
        self.library, self.told = library, []

    def __getattr__(self, name):
        return lambda *words: self.told.append(name) or getattr(self.library, name)(*words)


def try_calls():
    """A call is made once, and once more where its answer needs more room;
    also of a `str` that has half a character."""
    import exchange

    exchange._LIBRARY = counted = Counted(exchange._LIBRARY)
    try:
        told = exchange.plan("batch \ud800\n")
    except exchange.Refused as refused:
        told = refused.line
    exchange.draw(calls.read("all-to-all.txt"), calls.read("all-to-all.plan.txt"))
    exchange.apply("32x64x256", "batch 0\n", bytes(32 * 64 * 256 * 4))
    exchange._LIBRARY = SimpleNamespace(exchange_direct=lambda *_: exchange._NO_MEMORY)
    try:
        without = exchange.direct("moves 0\n")
    except MemoryError as error:
        without = str(error)
    exchange._LIBRARY = counted.library
    expect(
        "a call without memory is named", without == "exchange_direct was given no memory", without
    )
    expect("half a character is refused", told == "refused batch line 1", told)
    made = ["exchange_plan", "exchange_why", "exchange_draw", "exchange_draw", "exchange_apply"]
    expect("calls are made once", counted.told == made, counted.told)


def try_settings():
    """As many settings as there may be. Behind the first the switch stays as it is."""
    import exchange

    batch, schedule = (
        "batch 4096\n" + "push 0 0 1 0\n" * 4096,
        "settings 4096\n" + "".join(f"setting {t}\n" for t in range(4096)),
    )
    for kind in (str, str.encode, lambda it: memoryview(it.encode())):
        expect("4096 settings", exchange.settings(kind(schedule)) == [[t] for t in range(4096)])
        expect(
            "4096 transfers",
            exchange.transfers(kind(batch)) == [exchange.Transfer("push", 0, 0, 1, 0)] * 4096,
        )
    sent = [(bytes.fromhex("0401001103"),), *[(b"\3",)] * 4095]
    expect("the bytes of 4096 settings", exchange.switch_bytes(batch, schedule) == sent)


def try_no_schedule():
    """An empty text of a schedule or of a wiring is refused, as the program refuses an empty file.
    To the calls from C it would be none."""
    import exchange

    batch = calls.read("three-transfers.txt")
    ways = [
        (exchange.switch_bytes, "switch", "schedule"),
        (exchange.switch_bytes, "switch", "wiring"),
        (exchange.orders, "orders", "schedule"),
    ]
    for (call_it, name, option), text in itertools.product(ways, ("", b"", memoryview(b""))):
        try:
            told = call_it(batch, **{option: text})
        except exchange.Refused as refused:
            told = f"{refused.line}\n".encode()
        program = ask(name, f"{EXAMPLES}/three-transfers.txt", f"--{option}", os.devnull)
        expect(
            f"an empty text of a {option} is refused",
            (told, 1) == (program.out, program.status),
            told,
        )


def given_as(text):
    """A text as one of the kinds of bytes that a call takes, or as `str` where it can be that."""
    kind = (bytes, bytearray, memoryview, bytes.decode)[len(text) % 4]
    try:
        return kind(text)
    except UnicodeDecodeError:
        return text


def settings_of(batch, schedule):
    """How many settings a schedule has, or the plan of a batch where there is none."""
    import exchange

    text = exchange.plan(batch) if schedule is None else schedule
    return len(exchange.settings(text))


def orders_text(told, settings, alone):
    """The text of these orders, where each module's are told alone too."""
    if [[it] for it in told] != alone:
        return b"one module's orders differ from those of all"
    lines = [f"modules {len(told)} settings {settings}"]
    for module, copies, by_setting in told:
        own = [
            f"setting {k} link {link} {act} {block}"
            for k, setting in enumerate(by_setting)
            for link, act, block in setting
        ]
        lines += [
            f"module {module} copies {len(copies)} orders {len(own)}",
            *(f"copy block {block}" for block in copies),
            *own,
        ]
    return "".join(f"{line}\n" for line in lines).encode()


def text_of(name, answer):
    """What the program prints where a call answers this."""
    if name == "check":
        return b"shortest %d\n" % answer
    if name == "changes":
        return b"changes %d least %d\n" % answer
    if name == "orders":
        return orders_text(*answer)
    if name in ("switch", "switch_wired"):
        letters = {1: [""], 2: ["a ", "b "]}
        lines = [
            (s, it)
            for s, setting in enumerate(answer)
            for it in zip(letters[len(setting)], setting)
        ]
        return "".join(
            f"setting {s} {letter}{sent.hex(' ')}\n" for s, (letter, sent) in lines
        ).encode()
    return answer if name == "apply" else answer.encode()


def call(name, *texts):
    """What the call from Python gives that stands for this one from C,
    to which an empty text of a schedule is none."""
    import exchange

    if name == "plan_steady":
        return exchange.plan(*texts, steady=True)
    if name in ("switch", "switch_wired"):
        return exchange.switch_bytes(texts[0], texts[1] or None, *texts[2:])
    if name == "orders":
        batch, schedule = texts[0], texts[1] or None
        told = exchange.orders(batch, schedule)
        return (
            told,
            settings_of(batch, schedule),
            [exchange.orders(batch, schedule, it.module) for it in told],
        )
    return getattr(exchange, name)(*texts)


class FromPython:
    """The calls from Python, which answer as those from C do in calls.py: by a status, and by the
    bytes that the program prints."""

    def ask(self, name, given):
        return self.ask_whole(name, given)[:2]

    def why(self, name, given):
        return 0, self.ask_whole(name, given)[2]

    def ask_whole(self, name, given):
        import exchange

        try:
            return 0, text_of(name, call(name, *map(given_as, given))), b""
        except exchange.Refused as refused:
            return 1, f"{refused.line}\n".encode(), f"{refused.why}\n".encode()


def text_at(number):
    """The call of a number, and its texts."""
    name = list(calls.CALLS)[number % len(calls.CALLS)]
    return name, calls.texts_for(random.Random(f"python {number}"), name)


def try_texts(numbers):
    """Whether Python and the program answer these texts alike."""
    report = Report("python", is_silent=True)
    with harness.room("python", enter=True):
        for number in numbers:
            name, given = text_at(number)
            calls.compare(report, FromPython(), name, given)
    return report


def try_all_texts(count):
    workers = os.cpu_count() or 1
    with multiprocessing.Pool(workers) as pool:
        for own in pool.map(try_texts, [range(first, count, workers) for first in range(workers)]):
            REPORT.add(own)


# What is told where an end refuses a byte.
FAULTS = {
    states.BOOTSTRAP: "a bootstrap of {} bytes isn't taken",
    states.MISALIGNED: "the address is no multiple of four",
    states.OUTSIDE: "the memory doesn't have the address",
    states.FAILED: "the end has failed before",
}


def hand(number):
    """A stream of this number to a switch, and one to an end,
    by the module and by plain Python: what both leave."""
    import exchange

    draw = random.Random(f"state {number}")
    text = b"".join(states.ends.text_of(draw) for _ in range(3))
    at = draw.randrange(len(text) + 1)
    switch, model = exchange.C004(), states.Switch()
    replies = switch.take(text[:at])
    switch, before = exchange.C004(switch.state), switch.refused
    replies += switch.take(text[at:])
    for byte in text:
        model.take(byte)
    found = (
        replies,
        switch.state,
        before + switch.refused,
        [switch.source(o) for o in range(32)],
        switch.joined(0, 16),
    )
    inputs, refused = model.chip.switch.inputs, model.statuses.count(states.REFUSED)
    joined = model.is_ready and (inputs.get(0), inputs.get(16)) == (16, 0)
    yield found, (
        bytes(model.replies),
        model.state(),
        refused,
        [inputs.get(o) for o in range(32)],
        joined,
    )

    base, words = states.random_memory(draw)
    memory, end = bytearray(words), states.End(words, base)
    mine = exchange.LinkEnd(memory, base)
    text = b"".join(
        states.random_message(draw, base, len(words)) for _ in range(8)
    ) + draw.randbytes(draw.randrange(3))
    for byte in text:
        end.take(byte)
    failed = [it for it in end.statuses if it not in (states.DONE, states.REPLY)]
    try:
        replies, fault = mine.take(text), None
    except exchange.EndFailed as error:
        replies, fault = error.replies, str(error)
    yield (replies, fault, memory), (
        bytes(end.replies),
        FAULTS[failed[0]].format(text[end.statuses.index(failed[0])]) if failed else None,
        end.memory,
    )


def try_states(count):
    """Streams to switches and to ends, and states that there are none of."""
    import exchange

    for number in range(count):
        for pair in hand(number):
            REPORT.check(f"stream {number}", *pair, "streams to switches and to ends")
    for kind, state in [
        (exchange.C004, b"\1" * 36),
        (exchange.C004, b""),
        (lambda it: exchange.LinkEnd(bytearray(4), 0, it).take(b"\0"), b"\2" * 10),
    ]:
        try:
            kind(state)
            told = ""
        except ValueError as error:
            told = str(error)
        expect(
            "a state that there is none of",
            told
            in (
                "no C004 has this state",
                "a state has 36 bytes",
                "no end of a link has this state",
            ),
            told,
        )


def error_of(call_it, *given):
    """The kind of error that a call raises, or None."""
    try:
        call_it(*given)
    except Exception as error:
        return type(error)
    return None


def try_held():
    """Numbers that aren't bytes are no bytes that are sent, and the memory of an end keeps its
    length as long as the end is there."""
    import exchange

    switch, memory = exchange.C004(), bytearray(8)
    end = exchange.LinkEnd(memory, 0)
    for it in (switch, end):
        before = it.state
        told = [error_of(it.take, sent) for sent in ([0x104], [4, 1, 0], "04", 4, None)]
        expect("only bytes are taken", (told, it.state) == ([TypeError] * 5, before), told)
    expect(
        "the memory is held",
        (error_of(memory.extend, b"more"), error_of(memory.pop), len(memory))
        == (BufferError, BufferError, 8),
    )
    del end, it
    expect(
        "the memory is free again", (error_of(memory.extend, b"more"), len(memory)) == (None, 12)
    )


def try_ranges():
    """The first and the last port, address and module that there are, and those beside them; a name
    of no text; and bytes that are refused in several calls."""
    import exchange

    switch = exchange.C004()
    for name, asked in {
        "source": {(0,): None, (31,): None, (-1,): ValueError, (32,): ValueError},
        "joined": {
            (0, 31): None,
            (31, 0): None,
            (-1, 0): ValueError,
            (0, -1): ValueError,
            (32, 0): ValueError,
            (0, 32): ValueError,
        },
    }.items():
        found = {ports: error_of(getattr(switch, name), *ports) for ports in asked}
        expect(f"the ports of {name}", found == asked, found)
    asked = {0: None, 0xFFFFFFFF: None, -1: ValueError, 1 << 32: ValueError}
    found = {base: error_of(exchange.LinkEnd, bytearray(4), base) for base in asked}
    expect("the addresses of a memory", found == asked, found)
    asked = {0: None, 31: None, -1: ValueError, 32: ValueError, 40: ValueError}
    found = {
        module: error_of(exchange.orders, "batch 1\npush 0 0 1 0\n", None, module)
        for module in asked
    }
    expect("the modules of a rack", found == asked, found)
    found = {
        name: error_of(
            lambda name=name: exchange.Refused("refused count").named(**{name: "mine.txt"})
        )
        for name in ("moves", "foo")
    }
    expect("the names of texts", found == {"moves": None, "foo": TypeError}, found)
    counts = []
    for sent in (b"\7", b"\2\40\2", b"\37\4", b"\x20\1\x20"):
        switch.take(sent)
        counts.append(switch.refused)
    expect("bytes that are refused in several calls", counts == [1, 2, 2, 4], counts)
    end = exchange.LinkEnd(bytearray(4), 0)
    told = []
    for sent in (b"\5", b"\0"):
        try:
            end.take(sent)
        except exchange.EndFailed as error:
            told.append(str(error))
    expect(
        "an end that has failed",
        told == [FAULTS[states.BOOTSTRAP].format(5), FAULTS[states.FAILED]],
        told,
    )


def try_threads(count=16):
    """The texts that one thread alone is answered to, put to several at once,
    to each in another order."""
    asked = [text_at(number) for number in range(240)]
    wanted = [FromPython().ask(*it) for it in asked]

    def ask_all(first):
        report = Report("python", is_silent=True)
        for number in [(first * 15 + number) % len(asked) for number in range(len(asked))]:
            answer = FromPython().ask(*asked[number])
            report.check(f"text {number}", answer, wanted[number], "answers to threads at once")
            for pair in hand(number):
                report.check(f"stream {number}", *pair, "streams of threads at once")
        return report

    with ThreadPoolExecutor(count) as threads:
        for own in threads.map(ask_all, range(count)):
            REPORT.add(own)


def main():
    count = int(sys.argv[1]) if len(sys.argv) > 1 else 300
    with tempfile.TemporaryDirectory(prefix="python-") as room:
        os.environ["TMPDIR"] = work = f"{room}/work"
        os.mkdir(work)
        rack = try_install(room)
        try_interrupted(room)
        try_modes(room)
        try_in_the_way(room)
        module = str(package_in(rack))
        try_home(room)
        try_pages(rack)
        try_c(rack, room)
        try_python(module)
        try_all_texts(count)
        try_states(2 * count)
        try_held()
        try_ranges()
        try_threads()
        install("uninstall", 0, rack, script="uninstall")
        expect("nothing is left", not os.path.exists(rack), tree(rack).keys())
        expect(
            "nothing is left of what was made meanwhile", os.listdir(work) == [], os.listdir(work)
        )
    for name in ("man", "mypy", "pkg-config", "zsh", "fish"):
        if not shutil.which(name):
            print(f"python: {name} is missing, so less was tried")
    REPORT.finish()


if __name__ == "__main__":
    main()
