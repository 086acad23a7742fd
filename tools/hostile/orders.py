"""What `orders` tells, a second time: plain Python, as plain.py, that shares no code with the
product. It was written from the rules as docs/ORDERS.md states them. And modules that obey it: they
read the text alone, over links that are joined as each setting wants."""

from collections import defaultdict

import plain


def links_of(transfer):
    """The link that sends the words of a transfer, and the one that receives them,
    each (module, link)."""
    kind, initiator, _, responder, _ = transfer
    ends = (initiator, 0), (responder, 3)
    return ends if kind == "push" else ends[::-1]


def orders_of(transfers, settings):
    """What each module does, by its number: the blocks that it copies, and its orders, each
    (setting, link, words, block)."""
    standing = {t: k for k, setting in enumerate(settings) for t in setting}
    changed = {}
    for t, transfer in enumerate(transfers):
        if plain.source(transfer) != plain.destination(transfer):
            changed[plain.destination(transfer)] = standing[t]
    copies, orders = defaultdict(set), defaultdict(list)
    for t, transfer in enumerate(transfers):
        (module, link), (other, far) = links_of(transfer)
        block = plain.source(transfer)[1]
        is_late = changed.get((module, block), len(settings)) <= standing[t]
        if is_late:
            copies[module].add(block)
        orders[module].append((standing[t], link, "send copy" if is_late else "send block", block))
        orders[other].append((standing[t], far, "receive block", plain.destination(transfer)[1]))
    return {module: (sorted(copies[module]), sorted(orders[module])) for module in sorted(orders)}


def orders_text(transfers, settings, only=None):
    """The text of it, of all modules that have orders or of one."""
    told = {m: own for m, own in orders_of(transfers, settings).items() if only in (None, m)}
    lines = [f"modules {len(told)} settings {len(settings)}"]
    for module, (copies, orders) in told.items():
        lines.append(f"module {module} copies {len(copies)} orders {len(orders)}")
        lines += [f"copy block {block}" for block in copies]
        lines += [
            f"setting {setting} link {link} {words} {block}"
            for setting, link, words, block in orders
        ]
    return "".join(line + "\n" for line in lines).encode()


def read_orders(text):
    """What a text tells each module, by its number: the blocks that it copies, and its orders, each
    (setting, link, verb, what, block)."""
    told = {}
    for line in text.decode().splitlines()[1:]:
        words = line.split(" ")
        if words[0] == "module":
            copies, orders = told[int(words[1])] = [], []
        elif words[0] == "copy":
            copies.append(int(words[2]))
        else:
            orders.append((int(words[1]), int(words[3]), words[4], words[5], int(words[6])))
    return told


def pass_words(draw, pairs, orders, store, aside, is_cut=False):
    """Moves all words of a setting between the links of its pairs, one at a time and in any order,
    or leaves off before some of them."""
    wires = []
    for one, other in pairs:
        sends, receives = (one, other) if orders[one][0] == "send" else (other, one)
        if orders[sends][0] != "send" or orders[receives][0] != "receive":
            return False
        _, what, block = orders[sends]
        source = (sends[0], block)
        wires.append(
            (
                aside[source] if what == "copy" else store[source],
                store[receives[0], orders[receives][2]],
            )
        )
    steps = [wire for wire in wires for _ in wire[0]]
    draw.shuffle(steps)
    passed = defaultdict(int)
    for source, destination in steps[: draw.randint(0, len(steps)) if is_cut else None]:
        at = passed[id(destination)]
        destination[at] = source[at]
        passed[id(destination)] += 1
    return True


def are_moved(draw, transfers, settings, text):
    """Whether modules that obey the text move all blocks, by links that each setting of a schedule
    joins. A block has three words. One setting in three is left within its words, and done once
    more."""
    told = read_orders(text)
    places = {
        place
        for transfer in transfers
        for place in (plain.source(transfer), plain.destination(transfer))
    }
    store = {(module, block): [(module, block, j) for j in range(3)] for module, block in places}
    wanted = {place: list(words) for place, words in store.items()}
    for transfer in transfers:
        wanted[plain.destination(transfer)] = list(store[plain.source(transfer)])
    aside = {
        (module, block): list(store[module, block])
        for module, (copies, _) in told.items()
        for block in copies
    }
    for k, setting in enumerate(settings):
        pairs = [((transfers[t][1], 0), (transfers[t][3], 3)) for t in setting]
        orders = {
            (m, link): act for m, (_, own) in told.items() for when, link, *act in own if when == k
        }
        if set(orders) != {link for pair in pairs for link in pair}:
            return False
        cuts = [True, False] if draw.random() < 1 / 3 else [False]
        if not all(pass_words(draw, pairs, orders, store, aside, is_cut) for is_cut in cuts):
            return False
    return store == wanted


def answer_orders(batch, schedule, only=None):
    """What `orders` answers to the texts of a batch and of a schedule.
    A certificate isn't looked at."""
    try:
        transfers = plain.read_batch(batch, plain.WIDEST)
        settings, _ = plain.read_schedule(schedule)
        plain.check_settings(transfers, settings)
        overlap = plain.first_overlap(transfers)
        if overlap:
            raise plain.Refused("overlap {} {}".format(*overlap))
        return orders_text(transfers, settings, only)
    except plain.Refused as why:
        return f"refused {why}\n".encode()


def is_obeyed(draw, batch, schedule, answer):
    """Whether modules that obey an answer of `orders` for all modules move the blocks
    of the batch."""
    settings, _ = plain.read_schedule(schedule)
    return are_moved(draw, plain.read_batch(batch, plain.WIDEST), settings, answer)
