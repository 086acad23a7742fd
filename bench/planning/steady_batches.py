#!/usr/bin/env python3
"""Writes the batches that a study of steady plans compared,
each into a file of its name: steady_batches.py FOLDER

No two transfers of a batch write one block, so it can be run. Where more blocks come to a module
than it has, that can't be. Then one block is written again and again, and standard output says so.
Random batches are drawn one after another from one seed, so the order of the batches is part of
them. random_1000 has a seed of its own: of 24 seeds its steady plan costs most.
"""

import random
import sys
from collections import Counter

BLOCKS = 64  # of a module


def grid_pairs():
    """Each module of a 4x4 grid with those above and below it, and beside it."""
    for m in range(16):
        beside = [m - 1] * (m % 4 > 0) + [m + 1] * (m % 4 < 3)
        yield from ((m, n) for n in [m - 4, m + 4, *beside] if 0 <= n < 16)


def random_pairs(draw, count, modules):
    return [(draw.randrange(modules), draw.randrange(modules)) for _ in range(count)]


def permuted_pairs(draw, count, modules, most):
    """The pairs of some permutations of the modules, each permutation up to so many times."""
    for _ in range(count):
        to, times = draw.sample(range(modules), modules), draw.randrange(1, most + 1)
        yield from [pair for pair in enumerate(to) for _ in range(times)]


# Two batches that seven steps make, each of one matching of ten modules: for how many settings, and
# to which module each one sends. Steps that are as long as any make 20 and 19 of them
SEVEN_STEPS = [
    (50, "6951430782"), (25, "9265740831"), (18, "6130298475"), (42, "4026798351"),
    (53, "1860795432"), (59, "4327085619"), (35, "5361072489"),
]
SEVEN_OTHERS = [
    (26, "4718526390"), (18, "1836249075"), (55, "8423605971"), (36, "7938402651"),
    (59, "3591842607"), (49, "3098167524"), (40, "9503127864"),
]

# Two that a search found, where steady plans have more changes than the steps that make them: of
# thirteen modules and of nine, in base sixteen
EIGHT_STEPS = [
    (46, "9b653c10a4287"), (44, "18407b239ca56"), (43, "63c28917ba054"), (43, "c98a106724b53"),
    (35, "6bc237190548a"), (32, "ac295b1843706"), (18, "cb1652380a497"), (16, "39c71652b480a"),
]
SIX_STEPS = [
    (49, "148372506"), (45, "357246108"), (32, "587164032"), (30, "185074632"), (23, "873042516"),
    (8, "754036128"),
]


def step_pairs(steps):
    return [
        (m, int(to, 16))
        for settings, targets in steps
        for m, to in enumerate(targets)
        for _ in range(settings)
    ]


def each_to_each(modules):
    return [(m, n) for m in range(modules) for n in range(modules) if m != n]


def batches():
    """The name of each batch, and of each of its transfers the module that starts it
    and the one that answers."""
    draw = random.Random(7)
    yield "all_to_all", [pair for pair in each_to_each(16) for _ in range(17)]
    yield "in_rounds", each_to_each(16) * 17
    yield "halo", [pair for pair in grid_pairs() for _ in range(16)]
    yield "random_16", random_pairs(draw, 4096, 16)
    yield "random_32", random_pairs(draw, 4096, 32)
    yield "random_256", random_pairs(draw, 256, 16)
    yield "sixty_pairs", [
        pair for pair in random_pairs(draw, 60, 16) for _ in range(draw.randrange(1, 65))
    ]
    yield "gather", [(m, 0) for m in range(1, 16) for _ in range(64)]
    yield "butterfly", [(m, m ^ 1 << bit) for bit in range(4) for m in range(16) for _ in range(64)]
    yield "permutations", list(permuted_pairs(draw, 8, 32, 16))
    yield "once_each", each_to_each(32)
    yield "random_512", random_pairs(draw, 512, 32)
    yield "ten_modules", [pair for pair in each_to_each(10) for _ in range(7)]
    yield "random_800", random_pairs(draw, 800, 32)
    yield "seven_steps", step_pairs(SEVEN_STEPS)
    yield "seven_others", step_pairs(SEVEN_OTHERS)
    yield "eight_steps", sorted(step_pairs(EIGHT_STEPS))
    yield "six_steps", sorted(step_pairs(SIX_STEPS))
    yield "random_1000", random_pairs(random.Random(24), 1000, 32)


def lines(pairs):
    """The lines of the transfers. A module sends its last block, and those that come to it are its
    first ones. So no block that is sent is written, unless as many come as it has."""
    come = Counter()
    for m, n in pairs:
        yield f"push {m} {BLOCKS - 1} {n} {come[n] % BLOCKS}\n"
        come[n] += 1


for name, pairs in batches():
    with open(f"{sys.argv[1]}/{name}", "w") as file:
        file.write(f"batch {len(pairs)}\n" + "".join(lines(pairs)))
    module, count = Counter(n for _, n in pairs).most_common(1)[0]
    if count > BLOCKS:
        print(f"{name} can't be run: {count} blocks come to module {module}, which has {BLOCKS}")
