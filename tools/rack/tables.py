"""Reads the tables that examples/orders_to_occam.py and examples/orders_to_c.py make of orders, and
makes the orders of them again, and so with the bytes of a switch: it was written from what a table
is in each language, and shares no code with them."""

import re

# What is around a table in each language: the numbers of copies and settings, the copies,
# and the entries.
OCCAM = re.compile(
    r"-- (?:no orders|the orders of module (\d+))\nVAL INT16 sum IS (\d+) \(INT16\):\n"
    r"VAL INT n\.copies IS (\d+):\nVAL \[\]BYTE copies IS \[((?:\d+ \(BYTE\)(?:, )?)+)\]:\n"
    r"VAL INT n\.settings IS (\d+):\nVAL \[\]\[2\]\[2\]BYTE orders IS\n  \[([^:]+)\]:\n"
)
C = re.compile(
    r"/\* (?:no orders|the orders of module (\d+)) \*/\n"
    r"enum { COPIES = (\d+), SETTINGS = (\d+), SUM = (\d+) };\n"
    r"static const unsigned char copies\[\] = {([^{}]+)};\n"
    r"static const struct order orders\[\]\[2\] = {\n([^;]+)};\n"
)
ENTRY = {
    "occam": r"\[\[([a-z.]+), (\d+) \(BYTE\)\], \[([a-z.]+), (\d+) \(BYTE\)\]\]",
    "c": r"    {{([A-Z_]+), (\d+)}, {([A-Z_]+), (\d+)}},\n",
}
SWITCH = {
    "occam": (
        r"VAL INT16 sum IS (\d+) \(INT16\):\nVAL INT n\.settings IS (\d+):\n"
        r"VAL \[\]INT ends IS \[([\d, ]+)\]:\n"
        r"VAL \[\]BYTE bytes IS \[((?:#[0-9A-F]{2} \(BYTE\)(?:, )?)+)\]:\n"
    ),
    "c": (
        r"enum { SETTINGS = (\d+), SUM = (\d+) };\n"
        r"static const unsigned long ends\[\] = {([\d, ]+)};\n"
        r"static const unsigned char bytes\[\] = {([\d, ]+)};\n"
    ),
}
JOIN = {"occam": ",\n   ", "c": ""}
ACTS = {"send": "send block", "sendcopy": "send copy", "receive": "receive block"}


NUMBERS = {"idle": 0, "send": 1, "sendcopy": 2, "receive": 3}


def sum_of(numbers):
    """The sum of a table: each number and one more, in places of 31, the last the lowest,
    within 32749."""
    return sum((number + 1) * 31**place for place, number in enumerate(reversed(numbers))) % 32749


def told(acts):
    """What the names of acts say of each link, or None where it is idle."""
    return [
        ACTS.get(re.sub("[._]", "", act.lower())) if act.lower() != "idle" else None for act in acts
    ]


def read(language, text):
    """What the text of a language says: the module, the copies, and for each setting what link 0
    and link 3 do, with the block."""
    if language == "occam":
        module, added, copies, copied, settings, entries = OCCAM.fullmatch(text).groups()
    else:
        module, copies, settings, added, copied, entries = C.fullmatch(text).groups()
    found = re.findall(ENTRY[language], entries)
    # Nothing else is there, and a table has one element at least.
    assert JOIN[language].join(it[0] for it in re.finditer(ENTRY[language], entries)) == entries
    assert len(found) == max(1, int(settings)) and len(copied.split(", ")) == max(1, int(copies))
    kept = [int(re.match(r"\d+", block)[0]) for block in copied.split(", ")][: int(copies)]
    acts = [
        [
            NUMBERS[re.sub("[._]", "", it[0].lower())],
            int(it[1]),
            NUMBERS[re.sub("[._]", "", it[2].lower())],
            int(it[3]),
        ]
        for it in found
    ]
    assert int(added) == sum_of(
        [int(copies), *kept, int(settings), *(number for act in acts for number in act)]
    )
    return module, kept, [(told(it[::2]), it[1::2]) for it in found][: int(settings)]


def orders(language, text):
    """The orders of the module that these tables are made of,
    as `exchange orders --module M` prints them."""
    module, copies, settings = read(language, text)
    lines = [f"copy block {block}" for block in copies]
    for k, (acts, blocks) in enumerate(settings):
        lines += [
            f"setting {k} link {link} {act} {block}"
            for link, act, block in zip((0, 3), acts, blocks)
            if act
        ]
    head = [f"modules {int(module is not None)} settings {len(settings)}"]
    if module is not None:
        head.append(f"module {module} copies {len(copies)} orders {len(lines) - len(copies)}")
    return "\n".join([*head, *lines, ""])


def switch(language, text):
    """What these tables of a switch are made of, as `exchange switch` prints it."""
    if language == "occam":
        added, settings, ends, listed = re.fullmatch(SWITCH["occam"], text).groups()
        sent = [int(it[1:3], 16) for it in listed.split(", ")]
    else:
        settings, added, ends, listed = re.fullmatch(SWITCH["c"], text).groups()
        sent = [int(it) for it in listed.split(", ")]
    ends, settings = [int(it) for it in ends.split(", ")], int(settings)
    # An array has one element at least.
    assert len(ends) == max(1, settings) and len(sent) == max(1, ends[-1])
    ends = ends[:settings]
    sent = sent[: ends[-1] if ends else 0]
    assert int(added) == sum_of([settings, *ends, *sent])
    starts = [0, *ends]
    return "".join(
        f"setting {k} {bytes(sent[starts[k] : end]).hex(' ')}\n" for k, end in enumerate(ends)
    )
