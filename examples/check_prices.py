#!/usr/bin/env python3
"""Says how many changes of the switch prices show: check_prices.py BATCH SCHEDULE PRICES

PRICES is what `exchange draw --prices BATCH SCHEDULE` prints; - is standard input. Its lines
`prices` have the prices of a step of 1, 2 .. settings: of links 0 of the 32 modules, then of
links 3. Those of a line add up to 65,536 at most. A step is a run of settings that join the same
pairs. So there are as many steps as changes, and all steps cost at most so much for each change.
The steps of a pair make up its transfers, and those in which a link is idle make up the settings in
which it is. That costs no less than the cheapest lengths that do so. A link with a transfer in each
setting has one partner throughout a step. So no step is longer than the most that it has with a
partner.
"""

import sys
from collections import Counter

MODULES, SCALE = 32, 65536


def read(name):
    """The words of each line of a file."""
    with sys.stdin if name == "-" else open(name) as lines:
        return [line.split() for line in lines]


def cheapest(number, prices):
    """What it costs at least to make up a number of lengths: prices[0] is that of length 1."""
    costs = [0]
    for n in range(1, number + 1 if any(prices) else 0):
        costs.append(min(price + costs[n - k] for k, price in enumerate(prices[:n], 1)))
    return costs[-1]


def changes_shown(pairs, settings, table):
    """How many changes the prices show of each schedule with so many settings, where they may."""
    if any(len(line) != 2 * MODULES or min(line) < 0 or sum(line) > SCALE for line in table):
        sys.exit(
            "The prices of a line aren't 64, or one is below 0, or they add up to more than 65,536."
        )
    uses = [
        sum(count for pair, count in pairs.items() if link in pair) for link in range(2 * MODULES)
    ]
    most = [
        max((count for pair, count in pairs.items() if link in pair), default=0)
        for link in range(2 * MODULES)
    ]
    if not any(uses[link] == settings and most[link] <= len(table) for link in range(2 * MODULES)):
        sys.exit(
            "There is no link with a transfer in each setting, or a step can be longer than the "
            "lines go."
        )
    total = sum(
        cheapest(count, [line[zero] + line[three] for line in table])
        for (zero, three), count in pairs.items()
    )
    total += sum(
        cheapest(settings - uses[link], [line[link] for line in table])
        for link in range(2 * MODULES)
    )
    return -(-total // SCALE)


def judged(batch, schedule, prices):
    """How many settings the schedule has, and how many changes the prices show of each
    with so many."""
    pairs = Counter(
        (int(words[1]), MODULES + int(words[3])) for words in batch if words[0] in ("push", "pull")
    )
    settings = sum(words[0] == "setting" for words in schedule)
    table = [[int(price) for price in words[1:]] for words in prices if words[0] == "prices"]
    shown = changes_shown(pairs, settings, table) if table else 0
    if prices[0][:3] != ["settings", str(settings), "shown"] or int(prices[0][3]) > shown:
        sys.exit(f"The first line isn't right: {shown} changes are shown of {settings} settings.")
    return settings, shown


def main():
    settings, shown = judged(*map(read, sys.argv[1:]))
    print(f"each schedule of {settings} settings changes the switch at least {shown} times")


if __name__ == "__main__":
    main()
