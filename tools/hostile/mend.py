"""What a second line says is wanted, put where it says so. The texts must then be refused
otherwise, or told of otherwise, or not refused at all.

This is plain Python that shares no code with the product, as plain.py.
"""

import re

import notes
import plain

# A line of each form that a second line may say is wanted, by what it says of the form first. The
# entries of a text are counted in its line 1.
RIGHT = {
    '"batch N"': "batch {}", '"push I b R c"': "push 0 0 0 0", '"moves N"': "moves {}",
    '"move M b N c"': "move 0 0 0 0",
    '"wiring N"': "wiring {}",
    '"module M link 0 at A link 3 at B"': "module {} link 0 at {} link 3 at {}",
    '"settings S"': "settings {}", '"setting T U .."': "setting",
    '"busiest link E module M"': "busiest link 0 module 0", '"named T U .."': "named 0",
}  # fmt: skip
FIRST = {"batch": "batch {}", "moves": "moves {}", "schedule": "settings {}"}


def module_behind(lines):
    """The number of a module that may stand behind the last one of these lines of a wiring."""
    found = re.match(rb"module (\d+) ", lines[-1])
    return int(found[1]) + 1 if found else 0


def numbers_for(kind, lines, number, entries):
    """The numbers that a line has where it is mended: how many entries there are, in the first
    line. In the line of a module they are its number and two links of the switch that no line above
    has."""
    if kind != "wiring":
        return [entries]
    if number == 1:
        return [min(max(entries, 1), plain.JOINED)]
    taken = {int(it) for line in lines[1 : number - 1] for it in re.findall(rb" at (\d+)", line)}
    return [
        module_behind(lines[: number - 1]),
        *[it for it in range(plain.PORTS) if it not in taken][:2],
    ]


def mended_text(kind, text, number, told):
    """The text with what is told to be wanted in a line, or with the right number of entries, or
    without what comes after the last line, or with a line feed at its end."""
    lines, entries = text.split(b"\n"), len(re.findall(rb"(?m)^" + notes.KINDS[kind][1], text))
    if told.endswith("; nothing may follow\n"):
        return b"".join(line + b"\n" for line in lines[: number - 1])
    if told.endswith(" has no line feed at its end\n"):
        return text + b"\n"
    if told.endswith((f", and line 1 says {notes.announced(text)}\n", " has at most 4096\n")):
        number, right = 1, FIRST[kind]
    else:
        wanted = re.split(r" (?:isn't|expected) (?=\")", told)[-1]
        right = next(right for form, right in RIGHT.items() if wanted.startswith(form))
    right = right.format(*numbers_for(kind, lines, number, entries))
    return b"\n".join([*lines[: number - 1], right.encode(), *(lines[number:] or [b""])])


def mended(asked, refusal):
    """What is asked, with its text mended; None where the refusal is of no line's form."""
    found = re.fullmatch(
        rb"refused (?:(batch|moves|schedule|wiring) line (\d+)|count|too many)\n?", refusal
    )
    if not found:
        return None
    kind = found[1].decode() if found[1] in (b"schedule", b"wiring") else asked.kind
    part = {"schedule": "other", "wiring": "wiring"}.get(kind, "list")
    name, text = getattr(asked, part)
    number = int(found[2]) if found[2] else notes.announced(text) + 2
    if kind == "wiring" and module_behind(text.split(b"\n")[: number - 1] or [b""]) == plain.JOINED:
        return None
    text = mended_text(kind, text, number, notes.told(asked, refusal).decode())
    return asked._replace(**{part: (name, text)})
