"""Good texts, and texts that were good before something was done to them.

All is drawn from a random.Random that is handed in, so that a seed gives the same texts each time.
"""

import itertools
import re

from plain import JOINED, MODULES, PORTS, TRANSFERS

EDGES = [
    0, 1, 2, 3, 9, 10, 15, 16, 17, 31, 32, 33, 63, 64, 65, 255, 256, 257, 4095, 4096, 4097,
    999999999, 1000000000, 2**32, 2**64,
]  # fmt: skip
ODD = [
    b"", b"01", b"00", b"+1", b"-1", b"1.0", b"0x1", b"x", b" ", b"9" * 40, b"#1", b"\xef\xbb\xbf1",
]  # fmt: skip
BYTES = b'0123456789 \n\r\t\x00\xff-+xabefghiklmnprstuPUSH\\"~\x1b\x1f\x7f\x80\xc3\xe2'
# Characters of names: those that are escaped at both ends of each range, and their neighbours.
MARKS = (
    "\x01\t\n\r\x1b\x1f !\"'\\~\x7f\x80\x9f\xa0ü\u061b\u061c\u061d\u200a\u200b\u200f\u2010\u2027"
    "\u2028\u202e\u202f\u205f\u2060\u206f\u2070\ufefe\ufeff\uff00\U0001f600"
)


def batch(draw, shape, most):
    """A batch text whose transfers all fit the shape. In half of the batches no block is written
    twice; blocks that are read may be written in any."""
    modules, blocks, _ = shape
    count = draw.randint(0, most)
    apart = draw.random() < 0.5
    free = draw.sample(range(modules * blocks), min(count, modules * blocks)) if apart else []
    lines = []
    while len(lines) < count and (free or not apart):
        kind = draw.choice(["push", "pull"])
        reads = (draw.randrange(modules), draw.randrange(blocks))
        writes = (
            divmod(free.pop(), blocks)
            if apart
            else (draw.randrange(modules), draw.randrange(blocks))
        )
        own, far = (reads, writes) if kind == "push" else (writes, reads)
        lines.append(f"{kind} {own[0]} {own[1]} {far[0]} {far[1]}\n")
    return f"batch {len(lines)}\n".encode() + "".join(lines).encode()


def pattern(draw):
    """A batch text that has several transfers for each of a few pairs of links,
    mostly an even number of them."""
    modules = draw.choice([2, 3, 4, 6])
    lines = []
    for _ in range(draw.randint(1, 8)):
        line = f"push {draw.randrange(modules)} 0 {draw.randrange(modules)} 0\n"
        lines += [line] * (draw.randint(1, 3) << draw.randint(0, 3))
    draw.shuffle(lines)
    return f"batch {len(lines)}\n".encode() + "".join(lines).encode()


def both_ways(pairs):
    return [*pairs, *((n, m) for m, n in pairs)]


def ring(modules):
    return list(zip(modules, modules[1:] + modules[:1]))


def halo(modules, width):
    """Each module of a grid, in rows of this width, with those beside it, above and below it."""
    across = [(m, n) for k, (m, n) in enumerate(zip(modules, modules[1:]), 1) if k % width]
    return both_ways([*across, *zip(modules, modules[width:])])


def butterfly(modules):
    """Each module with those whose place differs in one bit."""
    places = range(len(modules))
    return [
        (modules[k], modules[k ^ 1 << bit])
        for bit in range(5)
        for k in places
        if k ^ 1 << bit in places
    ]


# The pairs of modules that share transfers, each an initiator and a responder,
# by patterns over some modules.
PATTERNS = {
    "all to all": lambda draw, modules: list(itertools.permutations(modules, 2)),
    "a gather": lambda draw, modules: [(m, modules[0]) for m in modules[1:]],
    "a scatter": lambda draw, modules: [(modules[0], m) for m in modules[1:]],
    "a ring": lambda draw, modules: ring(modules),
    "an odd cycle": lambda draw, modules: both_ways(ring(modules[(len(modules) + 1) % 2 :])),
    "a halo": lambda draw, modules: halo(modules, draw.randint(1, len(modules))),
    "a butterfly": lambda draw, modules: butterfly(modules),
    "one pair": lambda draw, modules: [(draw.choice(modules), draw.choice(modules))],
    "random pairs": lambda draw, modules: [
        (draw.choice(modules), draw.choice(modules))
        for _ in range(draw.randint(0, 2 * len(modules)))
    ],
}


def patterned(draw):
    """The name of a pattern, and a batch text of it, which has as many transfers for each pair, or
    unequally many. Most batches are small."""
    name, most, top = (
        draw.choice(list(PATTERNS)),
        draw.choices([40, 400, TRANSFERS], [90, 9, 1])[0],
        draw.choice([16, MODULES]),
    )
    modules = draw.sample(range(top), draw.randint(1, top))
    pairs = PATTERNS[name](draw, modules)
    while len(pairs) > most:
        modules = modules[1::2]
        pairs = PATTERNS[name](draw, modules)
    share = most // max(1, len(pairs))
    same, is_equal = draw.choice([share, draw.randint(0, share)]), draw.random() < 0.5
    counts = [same if is_equal else draw.randint(0, share) for _ in pairs]
    found = [pair for pair, count in zip(pairs, counts) for _ in range(count)]
    if draw.random() < 0.5:
        draw.shuffle(found)
    kinds, own, far = (
        draw.choices(them, k=len(found)) for them in (["push", "pull"], range(64), range(64))
    )
    lines = [f"{kind} {m} {b} {n} {c}\n" for kind, (m, n), b, c in zip(kinds, found, own, far)]
    return name, f"batch {len(lines)}\n{''.join(lines)}".encode()


def moves(draw, modules, most):
    """A text of moves between some of the modules. Few modules have many ends."""
    count = draw.randint(0, most)
    lines = [
        (
            f"move {draw.randrange(modules)} {draw.randrange(64)} {draw.randrange(modules)} "
            f"{draw.randrange(64)}\n"
        )
        for _ in range(count)
    ]
    return f"moves {count}\n{''.join(lines)}".encode()


def wiring(draw):
    """A wiring of some modules, most of which are few or as many as there may be. In a third of the
    cases modules and links are left out."""
    count = draw.choice([1, 2, 3, 8, JOINED, draw.randint(1, JOINED)])
    links, sparse = draw.sample(range(PORTS), 2 * count), draw.random() < 0.33
    numbers = sorted(draw.sample(range(min(count + 2, JOINED)), count)) if sparse else range(count)
    places = ["none" if sparse and draw.random() < 0.1 else f"at {link}" for link in links]
    lines = [f"module {m} link 0 {places.pop()} link 3 {places.pop()}\n" for m in numbers]
    return f"wiring {count}\n{''.join(lines)}".encode()


def image(draw, shape):
    """An image of a shape, whose length is now and then another one."""
    size = 4 * shape[0] * shape[1] * shape[2]
    if draw.random() < 0.1:
        size = max(0, draw.choice([size - 1, size + 1, size - 4, size + 4, 0, 2 * size]))
    return draw.randbytes(size)


def shape(draw):
    """A shape, mostly a small one."""
    if draw.random() < 0.05:
        return draw.randint(1, MODULES), draw.randint(1, 64), draw.randint(1, 256)
    return draw.randint(1, MODULES), draw.randint(1, 6), draw.randint(1, 4)


def colours(transfers):
    """A colour for each of the transfers, none of which shares a link with another of its colour,
    and no more colours than the busiest link has uses: an edge is coloured after the other, along
    alternating paths."""
    degree = 0
    for side in (1, 3):
        uses = [transfer[side] for transfer in transfers]
        degree = max([degree] + [uses.count(module) for module in uses])
    held = {}
    colour = [None] * len(transfers)

    def ends(t):
        return (0, transfers[t][1]), (3, transfers[t][3])

    def free(link):
        return next(c for c in range(degree) if (link, c) not in held)

    for t in range(len(transfers)):
        here, there = ends(t)
        a, b = free(here), free(there)
        # The path of colours a and b from the far link on changes its colours,
        # so that a is free there too.
        path, link, wanted = [], there, a
        while (link, wanted) in held:
            u = held[link, wanted]
            path.append(u)
            link = ends(u)[1] if ends(u)[0] == link else ends(u)[0]
            wanted = a + b - wanted
        for u in path:
            for end in ends(u):
                del held[end, colour[u]]
        for u in path:
            colour[u] = a + b - colour[u]
            for end in ends(u):
                held[end, colour[u]] = u
        colour[t] = a
        held[here, a] = held[there, a] = t
    return colour, degree


def schedule(draw, transfers, named):
    """The settings of a shortest schedule as lists, in whatever order, with the certificate (link,
    transfers) that is handed in."""
    colour, degree = colours(transfers)
    settings = [[t for t in range(len(transfers)) if colour[t] == c] for c in range(degree)]
    draw.shuffle(settings)
    for setting in settings:
        if draw.random() < 0.3:
            draw.shuffle(setting)
    return settings, named


def loose_schedule(draw, transfers):
    """The settings of any schedule of the transfers, as lists: each transfer stands in one of its
    own choice, and some may be empty."""
    settings = [[] for _ in range(draw.randint(0, len(transfers) + 1))]
    for t in draw.sample(range(len(transfers)), len(transfers)):
        free = [
            k
            for k, setting in enumerate(settings)
            if not any(links_in(transfers[t]) & links_in(transfers[u]) for u in setting)
        ]
        if not free:
            settings.append([])
            free = [len(settings) - 1]
        settings[draw.choice(free)].append(t)
    return settings


def links_in(transfer):
    """The two links that a transfer uses."""
    return {(0, transfer[1]), (3, transfer[3])}


def bend(draw, settings, certificate, count):
    """Does something to a schedule that leaves its text well formed."""
    settings = [list(setting) for setting in settings]
    link, named = certificate
    named = list(named)
    full = [setting for setting in settings if setting]
    what = draw.randrange(12)
    if what == 0 and full:
        draw.choice(full).pop()
    elif what == 1 and full:
        t = draw.choice(draw.choice(full))
        for _ in range(draw.randint(1, 3)):
            draw.choice(settings).append(t)
    elif what == 2 and settings:
        draw.choice(settings).insert(0, count + draw.randrange(3))
    elif what == 3 and full:
        draw.choice(settings).append(draw.choice(full).pop())
    elif what == 4:
        settings.insert(draw.randint(0, len(settings)), [])
    elif what == 5 and len(settings) > 1:
        settings[0] += settings.pop()
    elif what == 6 and named:
        named.append(draw.choice(named))
    elif what == 7 and len(named) > 1:
        named.remove(draw.choice(named))
    elif what == 8 and named:
        named[draw.randrange(len(named))] = draw.randrange(count + 2)
    elif what == 9 and link:
        link = (draw.choice([0, 3]), draw.randrange(MODULES))
    elif what == 10 and full:
        full[0][0], full[-1][-1] = full[-1][-1], full[0][0]
    elif what == 11 and full:
        settings = [sum(settings, [])]
    return settings, (link, named)


def schedule_text(settings, certificate):
    lines = [f"settings {len(settings)}"] + [
        " ".join(["setting", *map(str, setting)]) for setting in settings
    ]
    if certificate:
        link, named = certificate
        lines.append("busiest link {} module {}".format(*link) if link else "busiest none")
        if named:
            lines.append(" ".join(["named", *map(str, named)]))
    return "".join(line + "\n" for line in lines).encode()


def word(draw):
    return "%08x" % draw.choice([0, 1, 0xFF, 0xFFFFFFFF, draw.randrange(1 << 32)])


def address(draw, shape):
    """An address that mostly is that of a word of a module."""
    words = shape[1] * shape[2]
    known = 0x80000800 + 4 * draw.randrange(words)
    return (
        "%08x"
        % draw.choices(
            [
                known,
                draw.choice(
                    [0x80000800 - 4, 0x80000800 + 4 * words, known + 1, known + 2, 0, 0xFFFFFFFC]
                ),
            ],
            [9, 1],
        )[0]
    )


def memory_line(draw, shape, modules):
    """A line that peeks or pokes in one of the modules, or seldom in one that may not be there."""
    module = draw.choices(
        [draw.choice(modules), draw.choice([MODULES, MODULES + 1, 999999999])], [19, 1]
    )[0]
    if draw.random() < 0.5:
        return f"peek {module} {address(draw, shape)}\n"
    return f"poke {module} {address(draw, shape)} {word(draw)}\n"


def odd_line(draw):
    """A line that is no command."""
    return (
        draw.choice(
            [
                "",
                "hello",
                "plan",
                "peek 0",
                "batch",
                "progress 1",
                "bye bye",
                "run 01",
                "show 1000000000",
                "a" * 80,
            ]
        )
        + "\n"
    )


def script(draw, shape, most, numbers):
    """A script of at most so many commands, whose batches fit the shape and
    which names batches by some of these numbers."""
    lines = []
    for _ in range(draw.randint(0, most)):
        what = draw.randrange(20)
        if what < 4:
            lines.append(batch(draw, shape, 4).decode())
        elif what < 14:
            lines.append(
                f"{draw.choice(['plan', 'plan', 'run', 'run', 'show', 'drop'])} "
                f"{draw.choice(numbers)}\n"
            )
        elif what < 17:
            lines.append(memory_line(draw, shape, range(shape[0])))
        elif what < 19:
            lines.append("progress\n")
        else:
            lines.append(odd_line(draw))
    if draw.random() < 0.5:
        lines.append("bye\n")
    return "".join(lines).encode()


def crowd_script(draw, shape):
    """A script for one of many clients: it submits some batches, and then plans and runs batches by
    numbers of which some may be its own, with other lines between."""
    lines = [batch(draw, shape, 4).decode() for _ in range(draw.randint(2, 6))]
    for number in draw.sample(range(1, 81), 40):
        lines.append(f"plan {number}\nrun {number}\n")
        what = draw.randrange(30)
        if what < 3:
            lines.append(batch(draw, shape, 4).decode())
        elif what < 9:
            lines.append(memory_line(draw, shape, range(shape[0])))
        elif what < 15:
            lines.append("progress\n")
        elif what < 18:
            lines.append(f"{draw.choice(['plan', 'run', 'show', 'drop'])} {number}\n")
        elif what < 19:
            lines.append(odd_line(draw))
    if draw.random() < 0.5:
        lines.append("bye\n")
    return "".join(lines).encode()


def own_script(draw, shape, module, has_batches):
    """A script that only looks at one module, so that its replies don't depend on what other
    sessions do with theirs. Only where it has batches does it submit some, which stay within the
    module, and look at the progress."""
    lines = []
    for _ in range(draw.randint(0, 30)):
        if has_batches and draw.random() < 0.2:
            text = batch(draw, (1, *shape[1:]), 4).decode()
            lines.append(re.sub(r"(push|pull) 0 (\d+) 0", rf"\1 {module} \2 {module}", text))
        elif has_batches and draw.random() < 0.1:
            lines.append("progress\n")
        elif draw.random() < 0.3:
            lines.append(f"{draw.choice(['plan', 'run', 'show', 'drop'])} {draw.randint(0, 9)}\n")
        elif draw.random() < 0.1:
            lines.append(odd_line(draw))
        else:
            lines.append(memory_line(draw, shape, [module]))
    end = draw.choice(
        ["", "bye\n", "bye\npeek 0", "peek", "a" * 81, "batch 2\npush 0 0 0 0\n"]
        if has_batches
        else ["", "bye\n", "peek", "b" * 99]
    )
    return "".join([*lines, end]).encode()


def name(draw, text):
    """The name of a file with a few characters more."""
    for _ in range(draw.randint(1, 3)):
        at = draw.randint(0, len(text))
        text = text[:at] + draw.choice(MARKS) + text[at:]
    return text


def lose(draw, text):
    at = draw.randrange(len(text))
    return text[:at] + text[at + 1 :]


def change(draw, text):
    at = draw.randrange(len(text))
    return text[:at] + bytes([draw.choice(BYTES)]) + text[at + 1 :]


def double(draw, text):
    at = draw.randrange(len(text))
    return text[: at + 1] + text[at:]


def swap(draw, text):
    at = draw.randrange(len(text))
    return text[:at] + text[at + 1 : at + 2] + text[at : at + 1] + text[at + 2 :]


def cut(draw, text):
    return text[: draw.randrange(len(text))]


def cut_lines(draw, text):
    lines = text.splitlines(keepends=True)
    return b"".join(lines[: draw.randrange(len(lines))])


def move_line(draw, text):
    lines = text.splitlines(keepends=True)
    line = lines.pop(draw.randrange(len(lines)))
    lines.insert(draw.randint(0, len(lines)), line)
    return b"".join(lines)


def double_line(draw, text):
    lines = text.splitlines(keepends=True)
    at = draw.randrange(len(lines))
    return b"".join(lines[: at + 1] + lines[at:])


def lose_line(draw, text):
    lines = text.splitlines(keepends=True)
    del lines[draw.randrange(len(lines))]
    return b"".join(lines)


def add_behind(draw, text):
    many = [b"push 0 0 1 0\n" * 9000, b" 0" * 55000]
    return text + draw.choice(
        [b"\n", b" ", b"x", b"0", b"\r\n", b"\x00", text, b"push 0 0 1 0\n", b"named 0\n", *many]
    )


def add_return(draw, text):
    ends = [it.start() for it in re.finditer(rb"\n", text)] or [len(text)]
    at = draw.choice(ends)
    return text[:at] + draw.choice([b"\r", b" ", b"\t"]) + text[at:]


def change_number(draw, text):
    found = list(re.finditer(rb"[0-9]+", text))
    if not found:
        return text
    it = draw.choice(found)
    number = draw.choice(ODD) if draw.random() < 0.2 else str(draw.choice(EDGES)).encode()
    return text[: it.start()] + number + text[it.end() :]


def step_number(draw, text):
    found = list(re.finditer(rb"[0-9]+", text))
    if not found:
        return text
    it = draw.choice(found)
    number = max(0, int(it[0]) + draw.choice([-1, 1]))
    return text[: it.start()] + str(number).encode() + text[it.end() :]


WAYS = [
    lose, change, double, swap, cut, cut_lines, move_line, double_line, lose_line, add_behind,
    add_return, change_number, change_number, step_number, step_number,
]  # fmt: skip


def spoil(draw, text):
    """The text after one of these things, seldom after two or three, and now and then as it was."""
    for _ in range(draw.choices([0, 1, 2, 3], [1, 6, 2, 1])[0]):
        if text:
            text = draw.choice(WAYS)(draw, text)
    return text
