"""Records of sessions, replayed a second time: plain Python, as plain.py,
that shares no code with the product."""

import math
import re
import zlib

import notes
import plain
import spoil
from plain import NUMBER, Refused
from sealed import sum_line
from sessions import HEX8, Exchange

HEAD = re.compile(rb"record-2 " + rb"x".join([NUMBER] * 3) + rb" " + HEX8 + rb" " + NUMBER)
CLIENT = re.compile(rb"client ([^\n]+)")
CLIENTS = 16

# The bytes that lines have, and a record that was torn off.
LINED = re.compile(rb"[\n -~]*")
SESSION = re.compile(NUMBER + rb" ")
BATCH = re.compile(rb"batch " + NUMBER)
SUBMITTED = re.compile(NUMBER + rb" batch " + NUMBER + rb"\n")

# What is wanted in the first line, and in that of a call, as the line on standard error says it.
ENDED = f"{notes.RULES}, a line feed at its end"
HEAD_WANTED = (
    '"record-2 MxKxW SUM N", where MxKxW is its shape, SUM the sum of its image, of eight digits, '
    "and N, at most 16, counts the lines "
    '"client NAME" after it, and then "=SUM", the sum of these lines'
)
CALL_WANTED = (
    '"S CALL", where S is the number of a session, below the number of clients if the head names '
    'any, CALL is "batch N" and the batch\'s '
    'lines, "fetch ID", "settle ID", "run ID", "show ID", "drop ID", "peek M A" or "poke M A D", '
    "ID is the number of a batch, M a module, A an "
    f"address and D a word, of eight digits 0 to 9 and a to f each: {ENDED}"
)


def submit(exchange, session, transfers):
    return f"accepted {exchange.submit(session, transfers)}"


def fetch(exchange, session, number):
    exchange.batch(session, number)
    return "fetched"


def settle(exchange, session, number):
    batch = exchange.batch(session, number)
    if batch["state"] != "waiting":
        raise Refused("already")
    batch["state"] = "planned"
    return f"planned {number} settings {len(plain.busiest(batch['transfers'])[1])}"


def run(exchange, session, number):
    """A run, which is refused where the rack hasn't a block of its batch:
    in a record a batch may be one of a larger rack."""
    batch = exchange.batches.get(number)
    if (
        batch
        and batch["owner"] == session
        and batch["state"] == "planned"
        and not plain.first_overlap(batch["transfers"])
    ):
        modules, blocks, _ = exchange.shape
        ends = [
            end
            for transfer in batch["transfers"]
            for end in (plain.source(transfer), plain.destination(transfer))
        ]
        if any(module >= modules or block >= blocks for module, block in ends):
            exchange.enter()
            raise Refused("shape")
    run, settings, words = exchange.run(session, number)
    return f"ran {number} run {run} settings {settings} words {words} bits {117 * words}"


def show(exchange, session, number):
    batch = exchange.batch(session, number)
    return f"batch {number} transfers {len(batch['transfers'])} {batch['state']}"


def drop(exchange, session, number):
    exchange.batch(session, number)
    del exchange.batches[number]
    return f"dropped {number}"


def peek(exchange, _session, module, address):
    return f"word {exchange.peek(module, address):08x}"


def poke(exchange, _session, module, address, word):
    exchange.poke(module, address, word)
    return "poked"


# The calls of one line, with the bases of their numbers.
CALLS = [
    (re.compile(form), answer, bases)
    for form, answer, bases in [
        (rb"fetch " + NUMBER, fetch, [10]),
        (rb"settle " + NUMBER, settle, [10]),
        (rb"run " + NUMBER, run, [10]),
        (rb"show " + NUMBER, show, [10]),
        (rb"drop " + NUMBER, drop, [10]),
        (rb"peek " + NUMBER + rb" " + HEX8, peek, [10, 16]),
        (rb"poke " + NUMBER + rb" " + HEX8 + rb" " + HEX8, poke, [10, 16, 16]),
    ]
]


def batch_at(text, at, count):
    """The transfers of a batch of so many that stands there, and where it ends;
    None where none does."""
    end = at
    for _ in range(count + 1):
        line, end = plain.line_at(text, end)
        if line is None:
            return None
    try:
        return plain.read_batch(text[at:end], plain.WIDEST), end
    except Refused:
        return None


def call_at(text, at):
    """What answers the call that stands there, with what it names, and where the call ends;
    None where no call does."""
    line, end = plain.line_at(text, at)
    if line is None:
        return None
    announced = BATCH.fullmatch(line)
    if announced:
        found = (
            batch_at(text, at, int(announced[1])) if int(announced[1]) <= plain.TRANSFERS else None
        )
        return found and (submit, [found[0]], found[1])
    for form, answer, bases in CALLS:
        found = form.fullmatch(line)
        if found:
            return answer, [int(word, base) for word, base in zip(found.groups(), bases)], end
    return None


def entry_at(text, at):
    """The session and the call that stand there: the session's number, what answers the call, what
    it names, and the places where the call begins and ends. No entry: None."""
    session = SESSION.match(text, at)
    call = session and call_at(text, session.end())
    return call and (int(session[1]), call[0], call[1], session.end(), call[2])


def wrong_in_batch(text, at):
    """Of the batch that a call hands in, the first wrong line's number in the record, and what is
    told of it. None where the call doesn't begin with a session's number and a line `batch N`."""
    head = SUBMITTED.match(text, at)
    if not head:
        return None
    number, count = text.count(b"\n", 0, at) + 1, int(head[2])
    if count > plain.TRANSFERS:
        return number, f"{count} transfers; a batch has at most {plain.TRANSFERS}"
    for line in re.findall(rb"[^\n]*\n|[^\n]+\Z", text[head.end() :])[:count]:
        number, batch = number + 1, b"batch 1\n" + line
        refusal = plain.answer_plan(batch)
        if refusal:
            return (
                number,
                notes.of_text(
                    notes.Asked("batch", ("", batch)), *notes.parts_of(refusal)
                ).partition(" of the batch: ")[2],
            )
    return number + 1, notes.of_form(b"", 2, *notes.KINDS["batch"][2][1])


def limit_of(names):
    """The numbers of a record's sessions are below this, whose head has these names."""
    return len(names) or 10**9


def summed(number, lines):
    """These lines of an entry of this number, and their sum."""
    return lines + sum_line(number, lines)


def end_of(count):
    """The last lines of a record of so many entries."""
    return summed(count, b"end %d\n" % count)


def lines_at(text, at, number):
    """The lines that stand there after so many entries, and where their sum ends. None:
    the record was torn off there."""
    mark = text.find(b"=", at)
    feed = text.find(b"\n", mark) if mark >= 0 else -1
    if feed < 0 and LINED.fullmatch(text, at):
        return None
    if feed < 0 or text[mark : feed + 1] != sum_line(number, text[at:mark]):
        wanted = (
            f"the start of entry {number}, or of the end, with a right sum: a byte was changed, "
            "or lines were left out, added or moved"
        )
        raise Misrecorded(f"sum {number}", text, at, wanted)
    return text[at:mark], feed + 1


def rack_line(shape, image, clients):
    """The first line of a record: of a rack of this shape that begins with these words,
    and of so many clients."""
    return b"record-2 %dx%dx%d %08x %d\n" % (*shape, zlib.adler32(image), clients)


def head_of(shape, image, names):
    """The head of a record: of a rack of this shape that begins with these words,
    and of clients of these names."""
    return summed(
        0,
        rack_line(shape, image, len(names))
        + b"".join(b"client %b\n" % name.encode() for name in names),
    )


def head_in(text):
    """The shape and the names in the head of a record, and where it ends."""
    line, at = plain.line_at(text, 0)
    found = line is not None and HEAD.fullmatch(line)
    try:
        shape = found and plain.read_shape(b"%bx%bx%b" % found.groups()[:3])
    except Refused:
        shape = None
    if not shape or int(found[5]) > CLIENTS:
        raise Misrecorded("head", text, 0, HEAD_WANTED)
    names = []
    for _ in range(int(found[5])):
        line, end = plain.line_at(text, at)
        client = line is not None and CLIENT.fullmatch(line)
        if not client or client[1] in names:
            raise Misrecorded(
                "head",
                text,
                at,
                '"client NAME", where NAME isn\'t empty and no client above has it',
            )
        names.append(client[1])
        at = end
    if not text.startswith(sum_line(0, text[:at]), at):
        raise Misrecorded("head", text, at, '"=SUM", the sum of the lines above it')
    return shape, names, at + len(sum_line(0, b""))


class Misrecorded(Refused):
    """What is first wrong with a record, the number of the line where it is, and what is told of
    that, by what is wanted there. Nothing may be."""

    def __init__(self, what, text, at, wanted):
        super().__init__(f"record {what}")
        self.line = text.count(b"\n", 0, at) + 1
        self.told = (
            f"{notes.quoted(notes.line_of(text, self.line))} comes after the last line; "
            "nothing may follow"
        )
        if wanted:
            self.told = notes.of_form(text, self.line, None, wanted)
        if wanted is HEAD_WANTED and text:
            self.told = (
                f"{notes.quoted(notes.line_of(text, 1))} doesn't begin a record of this rack; "
                f"expected {wanted}"
            )


class OtherHead(Misrecorded):
    """The head of a record on another rack than the one that begins with this image, or with zeros,
    and whose head has this first line."""

    def __init__(self, text, due, image):
        super().__init__("head", text, 0, HEAD_WANTED)
        words = "whose words are 0" if image is None else "with the words of --image"
        self.told = (
            f"{notes.quoted(notes.line_of(text, 1))}; this command's rack, {words}, "
            f"has {notes.quoted(due[:-1])} there: --image takes the "
            "record's words, and --shape its shape"
        )


class Replay:
    """A record, replayed: its whole entries, each the session, the call's text and the reply, and
    the exchange that is left. `ends` are the places where the head and each of them end, `rest` is
    what stands behind, and `ended` says whether that is the end. A shape that is given has to be
    the record's. So many entries are replayed, where a number is given."""

    def __init__(self, text, shape=None, image=None, first=None):
        own, self.names, at = head_in(text)
        self.shape, self.entries, self.ends = shape or own, [], [at]
        self.exchange = Exchange(self.shape, image, math.inf)
        due = rack_line(self.shape, self.exchange.image(), len(self.names))
        if not text.startswith(due):
            raise OtherHead(text, due, image)
        self.ended = False
        while first is None or len(self.entries) < first:
            found = lines_at(text, at, len(self.entries))
            if found is None:
                break
            lines, end = found
            self.ended = lines == b"end %d\n" % len(self.entries)
            if self.ended and end < len(text):
                raise Misrecorded("more", text, end, None)
            if self.ended:
                break
            self.entry(text, at, lines)
            at = end
            self.ends.append(at)
        self.rest = text[at:]

    def entry(self, text, at, lines):
        """Replays the entry of these lines, which stand there."""
        number, found = len(self.entries), entry_at(lines, 0)
        if not found or found[0] >= limit_of(self.names):
            fault = Misrecorded(
                f"call {number}", text, at, f"the call of entry {number}, {CALL_WANTED}"
            )
            session = SESSION.match(text, at)
            if session and int(session[1]) < limit_of(self.names):
                fault.line, fault.told = wrong_in_batch(text, at) or (fault.line, fault.told)
            raise fault
        session, answer, named, begin, end = found
        try:
            reply = answer(self.exchange, session, *named)
        except Refused as why:
            reply = f"refused {why}"
        if lines[end:] != reply.encode() + b"\n":
            raise Misrecorded(
                f"reply {number}",
                text,
                at + end,
                f"the reply of entry {number}, {notes.quoted(reply.encode())}",
            )
        self.entries.append((session, lines[begin:end].decode(), reply))


def answer_replay(text, name):
    """What `replay` prints of a record in a file of this name, what is told on standard error, and
    the status. Nothing is told where the record can be replayed, and has its end."""
    try:
        replay = Replay(text)
    except Misrecorded as why:
        return f"refused {why}\n".encode(), f"exchange: {name}:{why.line}: {why.told}\n".encode(), 1
    count = len(replay.entries)
    told = (
        f"exchange: {name}: not ended: {count} whole {'entry' if count == 1 else 'entries'} in "
        f"{replay.ends[-1]} bytes\n"
    )
    return replay.exchange.image(), b"" if replay.ended else told.encode(), 0


def call_by(draw, shape, number):
    """The text of a call, mostly one of a batch of about this number."""
    if draw.random() < 0.25:
        return spoil.batch(draw, shape, 4)
    if draw.random() < 0.3:
        return spoil.memory_line(draw, shape, range(shape[0])).encode()
    return (
        f"{draw.choice(['fetch', 'settle', 'settle', 'run', 'run', 'show', 'drop'])} "
        f"{draw.randint(1, number)}\n"
    ).encode()


def made(draw, shape, sessions, count):
    """The entries of a record of so many calls of some sessions, each a text."""
    exchange, entries = Exchange(shape), []
    while len(entries) < count:
        session, text = draw.randrange(sessions), call_by(draw, shape, exchange.given + 1)
        answer, named, _ = call_at(text, 0)
        try:
            reply = answer(exchange, session, *named)
        except Refused as why:
            reply = f"refused {why}"
        entries.append(summed(len(entries), b"%d %b%b\n" % (session, text, reply.encode())))
    return entries


def spelled(shape, entries, clients, ended=True):
    """The record of these entries on a rack that begins with zeros, by so many clients with names,
    with its end or without it."""
    names = [f"client-{number}" for number in range(clients)]
    return (
        head_of(shape, Exchange(shape).image(), names)
        + b"".join(entries)
        + (end_of(len(entries)) if ended else b"")
    )


def other_word(draw, number, entry):
    """An entry of this number, with another word in its reply, and the sum of that."""
    call, _, reply = entry.partition(b"=")[0][:-1].rpartition(b"\n")
    words = reply.split(b" ")
    words[draw.randrange(len(words))] = (
        str(draw.choice(spoil.EDGES)).encode()
        if draw.random() < 0.5
        else draw.choice([b"word", b"poked", b"refused", b"ran"])
    )
    return summed(number, call + b"\n" + b" ".join(words) + b"\n")


def summed_anew(entries):
    """These entries, with sums of their numbers."""
    return [summed(number, entry.partition(b"=")[0]) for number, entry in enumerate(entries)]


def spoilt(draw, shape, entries):
    """A record of a rack of this shape to which something was done, or nothing: a word of a reply
    changed, two entries exchanged, one left out, one twice, one of another session, all of which
    mostly with right sums; any bytes of it; its end left out, or more; or the head of another rack.
    Its head may name clients, maybe fewer than it has sessions."""
    entries, what, clients = list(entries), draw.randrange(10), draw.choice([0, 0, 2, 3])
    one, other = draw.randrange(len(entries)), draw.randrange(len(entries))
    if what == 0:
        entries[one] = other_word(draw, one, entries[one])
    elif what == 1:
        entries[one], entries[other] = entries[other], entries[one]
    elif what == 2:
        del entries[one]
    elif what == 3:
        entries.insert(other, entries[one])
    elif what == 4:
        entries[one] = b"%d %b" % (draw.randrange(4), entries[one].partition(b" ")[2])
    elif what < 7:
        return spoil.spoil(draw, spelled(shape, entries, clients))
    elif what < 9:
        text = spelled(shape, entries, clients)
        return text[: draw.randrange(len(text) + 1)]
    elif draw.random() < 0.5:
        shape = (shape[0] + 1, *shape[1:])
    if draw.random() < 0.8:
        entries = summed_anew(entries)
    return spelled(shape, entries, clients, draw.random() < 0.8)
