"""Files of rows that are too long to be written there, by their names (`MADE`)."""


def moves(pairs):
    """A text of moves between these modules, each of block 0 to block 0."""
    pairs = list(pairs)
    return "".join([f"moves {len(pairs)}\n", *(f"move {m} 0 {n} 0\n" for m, n in pairs)])


def equal_transfers(count):
    """The batch of so many equal transfers."""
    return f"batch {count}\n" + "push 0 0 1 0\n" * count


def largest_plan():
    """The plan of 4096 equal transfers."""
    settings = "".join(f"setting {t}\n" for t in range(4096))
    return (
        f"settings 4096\n{settings}busiest link 0 module 0\n"
        f"named {' '.join(map(str, range(4096)))}\n"
    )


def pushes(transfers):
    """The batch of these pushes."""
    lines = [f"push {i} {b} {r} {c}\n" for i, b, r, c in transfers]
    return "".join([f"batch {len(lines)}\n", *lines])


def counted(words):
    """The batch of so many pushes of each pair of modules: their digits, and the number."""
    words = words.split()
    return pushes(
        (int(pair[0]), 0, int(pair[1]), 0)
        for pair, count in zip(words[::2], words[1::2])
        for _ in range(int(count))
    )


# How many times over each of 32 modules sends to another one, in five ways:
# digits of base 32 say to which.
FIVE_WAYS = [
    (16, "3eknud4machgi0vjq97f5psl6218rbot"),
    (16, "1d0ukt4c8slg5efn2ba7h93vqpijrm6o"),
    (13, "3g74iohvjt52lpdaec9umnf06rb8ksq1"),
    (10, "luv6q40ibds3ctpjmankr1ogf28h79e5"),
    (8, "h384s9ta2vk67ilmqrj5cfdbup1ne0og"),
]


def five_ways():
    """The modules of both ends of these transfers, and of one more from module 31 to module 0."""
    return [
        (m, int(to, 32))
        for times, ways in FIVE_WAYS
        for _ in range(times)
        for m, to in enumerate(ways)
    ] + [(31, 0)]


def largest_image():
    """An image of 32x64x256, no two words of which are the same."""
    return b"".join((n * 0x9E3779B1 % 2**32).to_bytes(4, "little") for n in range(32 * 64 * 256))


def moves_of_all_blocks():
    """From where each block of 32x64x256 goes, and where to: as module and block each."""
    return [((m, b), ((m + b + 1) % 32, 63 - b)) for m in range(32) for b in range(64)]


def all_blocks(times=1):
    """A batch that moves all blocks of 32x64x256, those of even numbers by a push,
    so many times over."""
    lines = [
        f"push {m} {b} {n} {c}\n" if b % 2 == 0 else f"pull {n} {c} {m} {b}\n"
        for (m, b), (n, c) in moves_of_all_blocks()
    ]
    return f"batch {2048 * times}\n" + "".join(lines * times)


def moved_image():
    """The largest image, with all blocks where they go."""
    image = largest_image()
    blocks = {to: image[1024 * (64 * m + b) :][:1024] for (m, b), to in moves_of_all_blocks()}
    return b"".join(blocks[m, b] for m in range(32) for b in range(64))


# Files that are too long to stand in a row, by their names.
MADE = {
    "thousand": lambda: pushes((t % 16, 0, (7 * t + t // 16) % 16, 0) for t in range(1000)),
    "largest": lambda: equal_transfers(4096),
    "largest-plan": largest_plan,
    "last-block-often": lambda: pushes(
        (0, 0, min(t, 2047) // 64, min(t, 2047) % 64) for t in range(4096)
    ),
    "one-to-all": lambda: pushes((0, t % 64, 1 + t % 31, 0) for t in range(4096)),
    "thirty-three": lambda: equal_transfers(33),
    "sixty-four": lambda: equal_transfers(64),
    "each-to-each": lambda: pushes(
        (m, b, (m + way) % 4, b) for way in (1, 2, 3) for b in (0, 1) for m in range(4)
    ),
    "three-into-one": lambda: pushes((m, b, 0, 5 * m + b) for m in (1, 2, 3) for b in range(5)),
    "two-to-the-next": lambda: pushes((m, b, (m + 1) % 32, b) for b in (0, 1) for m in range(32)),
    "four-unequal": lambda: counted("01 6 02 3 13 2 20 3 23 1 32 2"),
    "five-unequal": lambda: counted(
        "00 1 01 3 03 4 04 7 12 11 14 3 20 7 23 3 24 4 30 4 32 3 33 7 40 3 41 11"
    ),
    "five-others": lambda: counted(
        "00 1 01 6 02 4 04 7 10 4 11 7 12 6 20 7 24 4 30 6 31 4 33 7 42 7 43 4"
    ),
    "six-unequal": lambda: counted(
        "00 7 01 3 05 8 10 8 12 7 14 3 20 3 23 8 24 3 25 4 30 6 31 3 32 8 33 7 41 8 43 6 44 4 45 6 "
        "51 4 52 3 53 3 54 8"
    ),
    "five-ways": lambda: pushes((m, 0, to, 0) for m, to in five_ways()),
    "sixteen": lambda: pushes((i, 4, r, i) for i in range(4) for r in range(4)),
    "each-module": lambda: pushes((m, 0, m, 1) for m in range(32)),
    "peeks": lambda: "peek 0 80000800\n" * 4097,
    "gather": lambda: moves((m, 0) for m in range(1, 16)),
    "scatter": lambda: moves((0, 1 + t % 31) for t in range(64 * 31)),
    "all-to-all": lambda: moves((m, n) for m in range(16) for n in range(16) if m != n),
    "many-moves": lambda: moves((t % 32, (t // 32) % 32) for t in range(4096)),
    "all-blocks": all_blocks,
    "all-blocks-twice": lambda: all_blocks(2),
    "largest-image": largest_image,
    "moved-image": moved_image,
}
