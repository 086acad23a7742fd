"""The controller's texts, judged a second time.

This is plain Python that shares no code with the product. It was written from the rules of the
texts as docs/ states them, for clearness alone: nothing here is quick, and nothing is clever.
"""

import re
from collections import Counter

MODULES, BLOCKS, WORDS, TRANSFERS = 32, 64, 256, 4096
WIDEST = (MODULES, BLOCKS, WORDS)
# The links of a switch, and the modules that one switch joins.
PORTS, JOINED = 32, 16

NUMBER = rb"(0|[1-9][0-9]{0,8})"
SHAPE = re.compile(NUMBER + rb"x" + NUMBER + rb"x" + NUMBER)
BATCH = re.compile(rb"batch " + NUMBER)
TRANSFER = re.compile(rb"(push|pull) " + rb" ".join([NUMBER] * 4))
MOVES = re.compile(rb"moves " + NUMBER)
MOVE = re.compile(rb"(move) " + rb" ".join([NUMBER] * 4))
SETTINGS = re.compile(rb"settings " + NUMBER)
SETTING = re.compile(rb"setting((?: (?:0|[1-9][0-9]{0,8}))*)")
BUSIEST = re.compile(rb"busiest link ([03]) module " + NUMBER)
WIRING = re.compile(rb"wiring " + NUMBER)
WIRED = re.compile(
    rb"module "
    + NUMBER
    + rb" link 0 (?:at "
    + NUMBER
    + rb"|none) link 3 (?:at "
    + NUMBER
    + rb"|none)"
)
NAMED = re.compile(rb"named((?: (?:0|[1-9][0-9]{0,8}))+)")


class Refused(Exception):
    """What is first wrong, in the words that stand behind `refused `."""


def read_shape(text):
    """The modules, blocks and words that a shape text says."""
    found = SHAPE.fullmatch(text)
    shape = tuple(int(n) for n in found.groups()) if found else (0, 0, 0)
    if not all(1 <= n <= most for n, most in zip(shape, WIDEST)):
        raise Refused("shape")
    return shape


def line_at(text, at):
    """The line that begins at a place, without its line feed, and where the next one begins.
    No line: None."""
    end = text.find(b"\n", at)
    return (None, at) if end < 0 else (text[at:end], end + 1)


def read_lines(text, shape, name, first, form):
    """The lines of a text that counts them: of each its first word, and its four numbers, which
    name two blocks of the shape."""
    line, at = line_at(text, 0)
    found = line is not None and first.fullmatch(line)
    if not found:
        raise Refused(f"{name} line 1")
    count = int(found[1])
    if count > TRANSFERS:
        raise Refused("too many")
    lines = []
    for t in range(count):
        if at == len(text):
            raise Refused("count")
        line, at = line_at(text, at)
        found = line is not None and form.fullmatch(line)
        if not found:
            raise Refused(f"{name} line {t + 2}")
        module, block, other, far = (int(n) for n in found.groups()[1:])
        if module >= shape[0] or other >= shape[0]:
            raise Refused(f"no module {t}")
        if block >= shape[1] or far >= shape[1]:
            raise Refused(f"no block {t}")
        lines.append((found[1].decode(), module, block, other, far))
    if at != len(text):
        raise Refused("count")
    return lines


def read_batch(text, shape):
    """The transfers of a batch text, each (kind, initiator, own block, responder, far block)."""
    return read_lines(text, shape, "batch", BATCH, TRANSFER)


def read_moves(text):
    """The moves of a text of moves, each two blocks: from which and to which."""
    return [((m, b), (n, c)) for _, m, b, n, c in read_lines(text, WIDEST, "moves", MOVES, MOVE)]


def numbers(words):
    return [int(word) for word in words.split()]


def read_schedule(text):
    """The settings of a schedule text, and its certificate: None where the text has no such part,
    else the link, which is None for `busiest none`, and the named transfers."""
    at, number = 0, 0

    def next_line(form):
        nonlocal at, number
        number += 1
        line, at = line_at(text, at)
        found = line is not None and form.fullmatch(line)
        if not found:
            raise Refused(f"schedule line {number}")
        return found

    settings = []
    for _ in range(int(next_line(SETTINGS)[1])):
        settings.append(numbers(next_line(SETTING)[1]))
    if at == len(text):
        return settings, None
    if line_at(text, at)[0] == b"busiest none":
        next_line(re.compile(rb"busiest none"))
        certificate = (None, [])
    else:
        link = next_line(BUSIEST)
        if int(link[2]) >= MODULES:
            raise Refused(f"schedule line {number}")
        named = numbers(next_line(NAMED)[1])
        certificate = ((int(link[1]), int(link[2])), named)
    if at != len(text):
        raise Refused(f"schedule line {number + 1}")
    return settings, certificate


def read_wiring(text):
    """The wiring that a text says: of each module that is there the two links of the switch that
    its link 0 and its link 3 are on, or None where one is on none."""
    line, at = line_at(text, 0)
    found = line is not None and WIRING.fullmatch(line)
    if not found or not 1 <= int(found[1]) <= JOINED:
        raise Refused("wiring line 1")
    wiring, taken, least = {}, [], 0
    for number in range(2, int(found[1]) + 2):
        line, at = line_at(text, at)
        found = line is not None and WIRED.fullmatch(line)
        module, *links = (it and int(it) for it in found.groups()) if found else (-1,)
        taken += [link for link in links if link is not None]
        if (
            not least <= module < JOINED
            or max(taken, default=0) >= PORTS
            or len(set(taken)) < len(taken)
        ):
            raise Refused(f"wiring line {number}")
        wiring[module], least = tuple(links), module + 1
    if at != len(text):
        raise Refused(f"wiring line {len(wiring) + 2}")
    return wiring


def links_of(transfer):
    """The two links that a transfer uses: (0, initiator) and (3, responder)."""
    return (0, transfer[1]), (3, transfer[3])


def all_links():
    return [(end, module) for end in (0, 3) for module in range(MODULES)]


def users(transfers, link):
    return [t for t, transfer in enumerate(transfers) if link in links_of(transfer)]


def most_used(transfers):
    """The links that have most uses."""
    uses = Counter(link for transfer in transfers for link in links_of(transfer))
    most = max(uses.values(), default=0)
    return [link for link in all_links() if uses[link] == most]


def busiest_links(transfers):
    """These links, each with all its transfers."""
    return [(link, users(transfers, link)) for link in most_used(transfers)]


def busiest(transfers):
    """The first of them."""
    link = most_used(transfers)[0]
    return link, users(transfers, link)


def first_repeated(found):
    """The number whose second standing comes first in a list, if one stands there twice."""
    seen = set()
    for t in found:
        if t in seen:
            return t
        seen.add(t)
    return None


def check_settings(transfers, settings):
    """Refuses what is no schedule of the transfers, by the first thing that is wrong with it."""
    all_numbers = [t for setting in settings for t in setting]
    for t in all_numbers:
        if t >= len(transfers):
            raise Refused(f"check unknown {t}")
    if first_repeated(all_numbers) is not None:
        raise Refused(f"check repeated {first_repeated(all_numbers)}")
    for t in sorted(set(range(len(transfers))) - set(all_numbers)):
        raise Refused(f"check missing {t}")
    for number, setting in enumerate(settings):
        uses = Counter(link for t in setting for link in links_of(transfers[t]))
        for end, module in sorted(uses):
            if uses[end, module] > 1:
                raise Refused(f"check clash {number} link {end} module {module}")


def check(transfers, settings, certificate):
    """How many settings a shortest schedule has, or the first thing that is wrong with this one."""
    check_settings(transfers, settings)
    link, named = certificate
    for t in named:
        if t >= len(transfers) or link not in links_of(transfers[t]):
            raise Refused(f"check wrong link {t}")
    if first_repeated(named) is not None:
        raise Refused(f"check certificate repeats {first_repeated(named)}")
    if len(settings) != len(named):
        raise Refused(f"check not tight {len(settings)} {len(named)}")
    return len(settings)


def source(transfer):
    kind, initiator, own, responder, far = transfer
    return (initiator, own) if kind == "push" else (responder, far)


def destination(transfer):
    kind, initiator, own, responder, far = transfer
    return (responder, far) if kind == "push" else (initiator, own)


def first_overlap(transfers):
    """The first two transfers that write one block, if there are any."""
    for i, first in enumerate(transfers):
        for j in range(i + 1, len(transfers)):
            if destination(first) == destination(transfers[j]):
                return i, j
    return None


def mark(module, block, word):
    """The word of a marked rack that stands there."""
    return 65536 * module + 256 * block + word


def answer_plan(text):
    """The refusal of a batch text, or None where it has to be planned."""
    try:
        read_batch(text, WIDEST)
    except Refused as why:
        return f"refused {why}\n".encode()
    return None


def is_plan(text, answer):
    """Whether the answer is a plan of the batch text: a schedule of its transfers with as many
    settings as the busiest link has uses, none of them empty, and the certificate that names that
    link and all its transfers. Numbers ascend in each setting, and settings come by their least
    numbers."""
    transfers = read_batch(text, WIDEST)
    try:
        settings, certificate = read_schedule(answer)
        if certificate is None:
            return False
        check(transfers, settings, certificate)
    except Refused:
        return False
    link, named = busiest(transfers) if transfers else (None, [])
    ascending = all(setting == sorted(setting) and setting for setting in settings)
    in_order = settings == sorted(settings, key=lambda setting: setting[0]) if ascending else False
    return ascending and in_order and certificate == (link, named) and len(settings) == len(named)


def read_both(batch, schedule):
    """The transfers of a batch text, and the settings and the certificate of a schedule text."""
    transfers = read_batch(batch, WIDEST)
    settings, certificate = read_schedule(schedule)
    if certificate is None:
        raise Refused("no certificate")
    return transfers, settings, certificate


def answer_check(batch, schedule):
    try:
        return f"shortest {check(*read_both(batch, schedule))}\n".encode()
    except Refused as why:
        return f"refused {why}\n".encode()


def planned(transfers):
    """How many settings a plan has, and the lines
    that tell how often it changes the switch: none."""
    return len(busiest(transfers)[1]), []


def report(shape, transfers, word_at, settings, changes):
    """What is told of a completed run, where word_at gives the words that were there before it."""
    moved = len(transfers) * shape[2]
    lines = [f"ran settings {settings} words {moved} bits {117 * moved}", *changes]
    for transfer in sorted(transfers, key=destination):
        words = [f"{word_at(*source(transfer), j):08x}" for j in range(shape[2])]
        lines.append("block {} {} {}".format(*destination(transfer), " ".join(words)))
    return "".join(line + "\n" for line in lines)


def read_image(shape, image):
    """What gives the words of an image: the word of a module, a block, and a number in it."""
    modules, blocks, words = shape
    if len(image) != 4 * modules * blocks * words:
        raise Refused(f"image {len(image)} {4 * modules * blocks * words}")

    def word_at(module, block, j):
        at = 4 * (words * (blocks * module + block) + j)
        return int.from_bytes(image[at : at + 4], "little")

    return word_at


def answer_run(shape, batch, image=None, run_by=planned):
    """What `run` answers, where run_by tells of the schedule of transfers what `planned` tells
    of a plan, or refuses it."""
    try:
        shape = read_shape(shape)
        transfers = read_batch(batch, shape)
        schedule = run_by(transfers)
        word_at = mark if image is None else read_image(shape, image)
        overlap = first_overlap(transfers)
        if overlap:
            raise Refused("overlap {} {}".format(*overlap))
        return report(shape, transfers, word_at, *schedule).encode()
    except Refused as why:
        return f"refused {why}\n".encode()


def answer_apply(shape, batch, image):
    """The image with the batch's blocks placed, all at once, or the refusal; and the status."""
    try:
        modules, blocks, words = shape = read_shape(shape)
        transfers = read_batch(batch, shape)
        read_image(shape, image)
        overlap = first_overlap(transfers)
        if overlap:
            raise Refused("overlap {} {}".format(*overlap))
    except Refused as why:
        return f"refused {why}\n".encode(), 1
    parts = [image[at : at + 4 * words] for at in range(0, len(image), 4 * words)]
    placed = list(parts)
    for transfer in transfers:
        (module, block), (other, far) = source(transfer), destination(transfer)
        placed[blocks * other + far] = parts[blocks * module + block]
    return b"".join(placed), 0


def refusal_of_moves(text):
    """The refusal of a text of moves, or None where it has to be directed."""
    try:
        read_moves(text)
    except Refused as why:
        return f"refused {why}\n".encode()
    return None


def is_directed(text, answer):
    """Whether the answer is a batch text of the moves, in their order, and each link has at most
    half of the ends that its module has of moves, rounded up."""
    moves = read_moves(text)
    try:
        transfers = read_batch(answer, WIDEST)
    except Refused:
        return False
    same = moves == [(source(transfer), destination(transfer)) for transfer in transfers]
    ends = [place[0] for move in moves for place in move]
    few = all(len(users(transfers, link)) <= (ends.count(link[1]) + 1) // 2 for link in all_links())
    return same and few
