"""The second line of a refusal, told a second time.

This is plain Python that shares no code with the product, as plain.py, and was written from the
rules of docs/REFUSALS.md. `told` gives the line that belongs on standard error beside a refusal, or
beside a line that `talk` refuses.
"""

import re
from collections import namedtuple

import plain

QUOTED = 60
ESCAPES = {'"': '\\"', "\\": "\\\\", "\t": "\\t", "\r": "\\r"}
# Other characters that are escaped: they control a terminal, have no width,
# turn the direction of a text or break its lines.
OBEYED = {
    *range(32),
    *range(0x7F, 0xA0),
    0x61C,
    *range(0x200B, 0x2010),
    *range(0x2028, 0x202F),
    *range(0x2060, 0x2070),
    0xFEFF,
}
RULES = "small letters, single spaces, numbers of at most nine digits and no leading zero"
# Of each kind of text what an entry is, how its line begins, and of line 1, of the line of an
# entry, and of those behind the last: the form, in which N is a number and * are any more of them,
# and what is told to be wanted.
KINDS = {
    "batch": ("transfer", rb"(push|pull) ", [
        ("batch N", '"batch N", where N counts the transfers'),
        ("push N N N N", '"push I b R c" or "pull I b R c"'),
    ]),
    "moves": ("move", rb"move ",
        [("moves N", '"moves N", where N counts the moves'), ("move N N N N", '"move M b N c"')]),
    "schedule": ("setting", rb"setting( |$)", [
        ("settings N", '"settings S", where S counts the settings'),
        ("setting*", '"setting T U ..", where T, U .. are transfers, or "setting" alone'),
        ("busiest link N module N",
            '"busiest link E module M", where E is 0 or 3 and M 0 to 31, or "busiest none"'),
        ("named N*", '"named T U ..", where T, U .. are transfers, one at least'),
    ]),
    "wiring": ("module", rb"module ", [
        ("wiring N", '"wiring N", where N counts the modules, 1 to 16'),
        ("module N link 0 at N link 3 at N",
         '"module M link 0 at A link 3 at B", where M rises from line to line up to 15, '
         'A and B are 0 to 31, each used once, '
         'and "none" may replace "at A" or "at B"'),
    ]),
}  # fmt: skip
# What a line that begins so has to go on with, in the place of another form.
OTHERS = {
    "push N N N N": (b"pul", "pull N N N N"),
    "busiest link N module N": (b"busiest n", "busiest none"),
}
# The forms of a module's line in a wiring, of which the first stands for all.
MODULES = [
    f"module N link 0 {link0} link 3 {link3}"
    for link0 in ("at N", "none")
    for link3 in ("at N", "none")
]
# What stands somewhere, by how it begins; another byte is quoted.
STANDS = {
    b"\t": "a tab", b"\r": "a carriage return", b" ": "a space", b"#": "a comment",
    b"\xef\xbb\xbf": "a byte order mark",
}  # fmt: skip
# What is told of two lines that sessions haven't.
UNHEARD = {
    b"help": 'isn\'t a line of a session; "exchange talk --help" lists them',
    b"quit": 'isn\'t a line of a session; "bye" ends it',
}  # fmt: skip
# The lines of a session: N is a number, and H eight hexadecimal digits.
SENT = [
    "batch N",
    "plan N",
    "run N",
    "show N",
    "drop N",
    "peek N H",
    "poke N H H",
    "progress",
    "bye",
]
# What is told of a line of a session, and of a word, behind its quote.
QUOTES = {
    "line": (
        'isn\'t a line of a session: "batch N" and the batch\'s lines, "plan ID", "run ID", '
        '"show ID", "drop ID", "peek M A", "poke M A D", "progress" or "bye"; '
        'see "exchange talk --help"'
    ),
    "unknown": (
        'names no batch of this session; "accepted ID" gives the ID of each that it hands in'
    ),
    "unplanned": 'names a batch that has no plan yet; send "plan ID" first',
    "already": "names a batch that was already planned or run; hand it in again to run it again",
    "memory no module": "names a module that the rack doesn't have; it has {modules}",
    "memory misaligned": (
        "names an address that isn't a multiple of four; its last digit has to be 0, 4, 8 or c"
    ),
    "memory outside": (
        "names an address where there is no word; a module has its words at 80000800 to {last:08x}"
    ),
    "book full": (
        'is one batch too many for the exchange; send "drop ID" for one that isn\'t needed'
    ),
    "history full": (
        "is one call too many for the exchange; end the session, and start the program anew"
    ),
    "settings": (
        'isn\'t "A..B": two settings, counted from 0, of which the second isn\'t below the first'
    ),
    "shape": 'isn\'t "MxKxW": 1 to 32 modules, 1 to 64 blocks each, 1 to 256 words each',
}  # fmt: skip
# What a command was asked. `kind` is `moves` for `direct` alone. A text is its name, as it is told,
# and its bytes; what `talk` was sent has no name. `valid` says whether the schedule is one of the
# batch, and `enough` how many settings are enough then, where that is known.
Asked = namedtuple(
    "Asked",
    "kind list other shape range valid enough wiring",
    defaults=[("", b""), ("", b""), b"", b"", None, None, ("", b"")],
)


def shown(name):
    """A name as it is told. What a terminal wouldn't show but obey is escaped."""
    return "".join(
        ESCAPES.get(c)
        or (c if ord(c) not in OBEYED else ("\\x%02x" if c.isascii() else "\\u{%x}") % ord(c))
        for c in name
    )


def quoted(line):
    """A line between quotation marks, cut. Bytes above ASCII are escaped too."""
    cut = "".join(shown(chr(byte)) if byte < 128 else "\\x%02x" % byte for byte in line[:QUOTED])
    return f'"{cut}"' + (".." if len(line) > QUOTED else "")


def many(count, what):
    return f"{count} {what}" + ("" if count == 1 else "s")


def numbered(count, what):
    return (
        "none" if count == 0 else f"{what} 0 alone" if count == 1 else f"{what}s 0 to {count - 1}"
    )


def place_of(name, number):
    return f"{name}:{number}" if name else f"line {number} of the batch"


def line_of(text, number):
    return [*text.split(b"\n"), *[b""] * number][number - 1]


def announced(text):
    """How many entries line 1 says that there are."""
    found = re.match(rb"\w+ " + plain.NUMBER + rb"\n", text)
    return int(found[1]) if found else 0


def stop_of(line, form):
    """Where a line stops being of a form, and what is wrong there; None where it is of the form."""
    at, pieces = 0, list(form)
    while pieces:
        piece, *pieces = pieces
        if piece == "*":
            pieces = [" ", "N", "*"] if at < len(line) else []
        elif piece == "N":
            digits = re.match(rb"[0-9]*", line[at:])[0]
            if len(digits) > 1 and digits.startswith(b"0"):
                return at, "a number has a leading zero"
            if len(digits) > 9:
                return at, "a number has more than nine digits"
            if not digits:
                return at, "a number"
            at += len(digits)
        elif piece == "H":
            if len(re.match(rb"[0-9a-f]*", line[at:])[0]) != 8:
                return at, "eight digits"
            at += 8
        elif line[at : at + 1] != piece.encode():
            return at, "a space" if piece == " " else quoted(piece.encode())
        else:
            at += 1
    return (at, "the end of the line") if at < len(line) else None


def difference(line, form):
    """The first thing by which a line differs from a form, as it is told;
    None where it is of the form."""
    if isinstance(form, list):
        stops = [stop_of(line, one) for one in form]
        last = None if None in stops else max(stops, key=lambda stop: stop[0])
        return last and last[0] and told_at(line, *last)
    begins, other = OTHERS.get(form, (b"", form))
    stops = [
        stop_of(line, one)
        for one in (MODULES if form == MODULES[0] else [other if line.startswith(begins) else form])
    ]
    stop = None if None in stops else max(stops, key=lambda stop: stop[0])
    if stop is None:
        return None
    if not line:
        return "the line is empty"
    if form == "batch N" and line.startswith(b"moves "):
        return 'a text of moves begins like this; "direct" makes a batch of it'
    return told_at(line, *stop)


def told_at(line, at, wrong):
    """What is told of the place where a line stops being of a form."""
    rest = line[at:]
    if rest == b"\r":
        wrong = "there is a carriage return before the end of the line"
    elif wrong == "eight digits" and rest:
        wrong = "eight digits 0 to 9 or a to f are expected"
    elif not wrong.startswith("a number has"):
        stands = next(
            (name for front, name in STANDS.items() if rest.startswith(front)),
            quoted(rest[:1]) if rest else "the end of the line",
        )
        wrong = f"there is {stands} instead of {wrong}"
    return f"at byte {at + 1} {wrong}"


def miswired(text, number):
    """The first rule that a module's line of a wiring breaks, as it is told, where its form is
    right; None where it breaks none."""
    modules = [
        int(it)
        for it in re.findall(rb"(?m)^module (\d+) ", b"\n".join(text.split(b"\n")[1:number]))
    ]
    lines = [re.findall(rb" at (\d+)", line) for line in text.split(b"\n")[:number]]
    beyond = next((int(port) for port in lines[-1] if int(port) >= plain.PORTS), None)
    if modules[-1] >= plain.JOINED:
        return f"module {modules[-1]} is above {plain.JOINED - 1}"
    if modules[-1] <= max(modules[:-1], default=-1):
        return f"module {modules[-1]} isn't above module {modules[-2]} of the line before"
    if beyond is not None:
        return f"the switch has no link {beyond}"
    for port in lines[-1]:
        above = next((k for k, ports in enumerate(lines[:-1], 1) if port in ports), None)
        if above:
            return f"link {port.decode()} of the switch is on line {above} already"
    is_twice = len(lines[-1]) == 2 and lines[-1][0] == lines[-1][1]
    return (
        f"link {lines[-1][0].decode()} of the switch is on line {number} already"
        if is_twice
        else None
    )


def of_form(text, number, form, wanted, differs=None):
    """What is told of a line: the first thing that it hasn't of a form, if it has to be of one, or
    else what is told to differ; and what is wanted there."""
    line, is_ended = line_of(text, number), text.count(b"\n") >= number
    if not line and not is_ended:
        return (
            f"the text {'is empty' if number == 1 else 'ends before this line'}; expected {wanted}"
        )
    differs = form and difference(line, form) or differs
    if differs:
        return f"{quoted(line)}: {differs}; expected {wanted}"
    if form and not is_ended:
        return f"{quoted(line)}: the last line has no line feed at its end"
    return f"{quoted(line)}{'' if is_ended else ' without a line feed'} isn't {wanted}"


def of_line(kind, name, text, number):
    """What is told of a line whose form is wrong, or of how many lines there are,
    where they end, or go on, in this one."""
    (entry, begins, forms), line, count = KINDS[kind], line_of(text, number), announced(text)
    listed, behind = len(re.findall(rb"(?m)^" + begins, text)), number - count - 1
    ends = kind == "schedule" and behind < 1 and (not line or line.startswith(b"busiest "))
    goes_on = behind == 1 and (kind != "schedule" or re.match(begins, line))
    if number > 1 and listed != count and (ends or goes_on) and kind != "wiring":
        return f"{name}: {many(listed, entry + ' line')}, and line 1 says {count}"
    which = 0 if number == 1 else 1 + max(behind, 0)
    if which >= len(forms) or behind == 2 and line_of(text, number - 1) == b"busiest none":
        return (
            f"{place_of(name, number)}: {quoted(line)} comes after the last line; "
            "nothing may follow"
        )
    differs = (
        miswired(text, number)
        if kind == "wiring" and which == 1 and not difference(line, forms[1][0])
        else None
    )
    return f"{place_of(name, number)}: {of_form(text, number, *forms[which], differs)}"


def known(asked):
    """What is told behind a certificate's fault: the schedule's own first fault, or that it is
    valid, and how many settings are enough."""
    if not asked.valid:
        return "" if asked.valid is None else f"; {of_settings(asked)}"
    enough = f"{many(asked.enough, 'setting')} {'is' if asked.enough == 1 else 'are'} enough"
    return "; the schedule is valid, and " + (
        "none has fewer settings" if asked.enough >= announced(asked.other[1]) else enough
    )


def of_settings(asked):
    """What is told of the first fault of a schedule's settings."""
    try:
        plain.check_settings(
            plain.read_batch(asked.list[1], plain.WIDEST), plain.read_schedule(asked.other[1])[0]
        )
    except plain.Refused as why:
        what, *numbers = parts_of(f"refused {why}".encode())
        return of_check(asked, what[6:], *numbers)


def of_check(asked, what, t, u=None, module=None):
    """What is told of a schedule that the checker refuses."""
    (batch, text), (plan, schedule) = asked.list, asked.other
    (settings, _), transfers = plain.read_schedule(schedule), plain.read_batch(text, plain.WIDEST)
    held = [k for k, setting in enumerate(settings) for it in setting if it == t]
    beyond, line = (
        f"; {batch} has {numbered(len(transfers), 'transfer')}",
        f"(line {t + 2} of {batch})",
    )
    if what == "unknown":
        return f"{plan}:{held[0] + 2}: transfer {t}{beyond}"
    if what == "missing":
        return f"{plan}: transfer {t} occurs in no setting {line}"
    if what == "repeated":
        is_one = held[0] == held[1]
        often = (
            f"{len(held)} times, the first two " if len(held) > 2 else "twice " if is_one else ""
        )
        return (
            f"{plan}:{held[1] + 2}: transfer {t} occurs {often}in "
            f"setting{f' {held[0]}' if is_one else f's {held[0]} and {held[1]}'} {line}"
        )
    if what == "clash link module":
        one, other = [it for it in settings[t] if (u, module) in plain.links_of(transfers[it])][:2]
        return (
            f"{plan}:{t + 2}: transfers {one} and {other} both use link {u} of module {module} "
            f"(lines {one + 2} and {other + 2} of {batch})"
        )
    if what == "not tight":
        return (
            f"{plan}: {many(t, 'setting')}, and the certificate names "
            f"{many(u, 'transfer')}{known(asked)}"
        )
    fault = " twice " if what == "certificate repeats" else " and doesn't use the link "
    return (
        f"{plan}:{len(settings) + 3}: transfer {t} is "
        f"named{beyond if t >= len(transfers) else fault + line}{known(asked)}"
    )


def of_text(asked, what, t=0, u=0):
    """What is told of a text, a word or a line that was sent."""
    (name, text), (other, more), word = (
        asked.list,
        asked.other,
        asked.shape.decode(errors="replace"),
    )
    if what in ("batch line", "moves line", "count"):
        return of_line(asked.kind, name, text, announced(text) + 2 if what == "count" else t)
    if what == "schedule line":
        return of_line("schedule", other, more, t)
    if what == "wiring line":
        return of_line("wiring", *asked.wiring, t)
    shape = modules, blocks, words = (
        plain.read_shape(asked.shape) if word and what != "shape" else plain.WIDEST
    )
    if what in QUOTES:
        line = {"settings": asked.range, "shape": asked.shape}.get(what, line_of(text, 1))
        told = UNHEARD.get(line, QUOTES[what]) if what == "line" else QUOTES[what]
        if what == "line" and line not in UNHEARD and (differs := difference(line, SENT)):
            differs = differs.replace("{", "{{").replace("}", "}}")
            told = f'isn\'t a line of a session: {differs}; "exchange talk --help" lists the lines'
        return f"{quoted(line)} " + told.format(
            modules=numbered(modules, "module"), last=0x800007FC + 4 * blocks * words
        )
    if what == "no module" and asked.wiring[0]:
        board, wiring = asked.wiring[0], plain.read_wiring(asked.wiring[1])
        n = next(int(it) for it in line_of(text, t + 2).split(b" ")[1::2] if int(it) not in wiring)
        return f"{place_of(name, t + 2)}: module {n}; {board} doesn't have it"
    if what == "no link":
        board, wiring = asked.wiring[0], plain.read_wiring(asked.wiring[1])
        ends = zip((0, 3), (int(it) for it in line_of(text, t + 2).split(b" ")[1::2]))
        link, n = next((link, n) for link, n in ends if wiring[n][link // 3] is None)
        at = place_of(board, 2 + list(wiring).index(n))
        return f"{place_of(name, t + 2)}: link {link} of module {n}; {at} leaves it out"
    if what in ("no module", "no block"):
        at, owner = (
            (1, "a rack")
            if what == "no module"
            else (2, "a module in a rack" if word else "a module")
        )
        n = next(
            int(it) for it in line_of(text, t + 2).split(b" ")[at::2] if int(it) >= shape[at - 1]
        )
        return (
            f"{place_of(name, t + 2)}: {what[3:]} {n}; {owner}{word and f' of {word}'} has "
            f"{numbered(shape[at - 1], what[3:])}"
        )
    if what == "overlap":
        block = (
            "block {1} of module {0}".format(*plain.destination(plain.read_batch(text, shape)[u]))
            if name
            else "one block"
        )
        return (
            f"{place_of(name, u + 2)}: transfers {t} and {u} both write {block} (lines {t + 2} and "
            f"{u + 2})"
        )
    entries = "moves; a text of moves" if asked.kind == "moves" else "transfers; a batch"
    schedule, settings = (other, announced(more)) if other else ("the plan", asked.enough or 0)
    return {
        "too many": f"{place_of(name, 1)}: {announced(text)} {entries} has at most 4096",
        "no setting": f"setting {t}; {schedule} has {numbered(settings, 'setting')}",
        "no certificate": (
            f'{other}: no certificate: "busiest link E module M" and "named T U .."{known(asked)}'
        ),
        "image": f"{other}: {many(t, 'byte')}; an image of {word} has {u}",
        "threads": "the system has no thread for each client; try fewer clients",
    }[what]


def parts_of(refusal):
    """The words of a line `refused ..`, and its numbers."""
    return (
        re.sub(rb"^refused | \d+|\n", b"", refusal).decode(),
        *(int(it) for it in re.findall(rb"\d+", refusal)),
    )


def told(asked, refusal):
    """The line on standard error beside a line `refused ..`: nothing beside want of memory, and
    beside a file that can't be read."""
    what, *numbers = parts_of(refusal)
    if what in ("no memory", "file"):
        return b""
    words = (
        of_check(asked, what[6:], *numbers)
        if what.startswith("check ")
        else of_text(asked, what, *numbers)
    )
    return f"exchange: {words}\n".encode()


def overlapping(asked):
    """The line on standard error beside the plan or the bytes of a batch, where two transfers write
    one block, and nothing where no two do."""
    pair = plain.first_overlap(plain.read_batch(asked.list[1], plain.WIDEST))
    return f"exchange: {of_text(asked, 'overlap', *pair)}\n".encode() if pair else b""
