"""An exchange and its sessions, a second time: plain Python, as plain.py,
that shares no code with the product."""

import re

import plain
from plain import NUMBER, Refused

LINE_BYTES, MOST_BATCHES, MOST_ENTRIES = 80, 256, 65536
HEX8 = rb"([0-9a-f]{8})"
FIRST = 0x80000800


class Exchange:
    """A rack of zeros, or of an image's words, the batches that sessions have submitted, and how
    many calls there were. Of a record that is written while calls are made there may be any
    number."""

    def __init__(self, shape, image=None, most=MOST_ENTRIES):
        self.shape, self.words, self.batches, self.most = shape, {}, {}, most
        if image is not None:
            word_at = plain.read_image(shape, image)
            places = [
                (m, b, j) for m in range(shape[0]) for b in range(shape[1]) for j in range(shape[2])
            ]
            self.words = {place: word_at(*place) for place in places}
        self.entries = self.given = self.runs = 0
        self.reading = (0, 0)

    def image(self):
        """The words of the rack, as an image."""
        modules, blocks, words = self.shape
        places = [(m, b, j) for m in range(modules) for b in range(blocks) for j in range(words)]
        return b"".join(self.words.get(place, 0).to_bytes(4, "little") for place in places)

    def enter(self):
        """Makes room for a call in the history."""
        if self.entries >= self.most:
            raise Refused("history full")
        self.entries += 1

    def site(self, module, address):
        """The place of a word: module, block and number."""
        modules, blocks, words = self.shape
        if module >= modules:
            raise Refused("memory no module")
        if address % 4:
            raise Refused("memory misaligned")
        number = (address - FIRST) // 4
        if not 0 <= number < blocks * words:
            raise Refused("memory outside")
        return module, number // words, number % words

    def peek(self, module, address):
        self.enter()
        return self.words.get(self.site(module, address), 0)

    def poke(self, module, address, word):
        self.enter()
        self.words[self.site(module, address)] = word

    def submit(self, session, transfers):
        self.enter()
        if len(self.batches) >= MOST_BATCHES:
            raise Refused("book full")
        self.given += 1
        self.batches[self.given] = {"owner": session, "transfers": transfers, "state": "waiting"}
        return self.given

    def batch(self, session, number):
        """A batch of a session. The call that names it has its entry."""
        self.enter()
        found = self.batches.get(number)
        if not found or found["owner"] != session:
            raise Refused("unknown")
        return found

    def plan(self, session, number):
        """How many settings a plan has that was fetched, made and settled."""
        self.batch(session, number)
        batch = self.batch(session, number)
        if batch["state"] != "waiting":
            raise Refused("already")
        batch["state"] = "planned"
        return len(plain.busiest(batch["transfers"])[1])

    def run(self, session, number):
        """The run's number, its settings and its words."""
        batch = self.batch(session, number)
        if batch["state"] == "waiting":
            raise Refused("unplanned")
        if batch["state"] != "planned":
            raise Refused("already")
        transfers = batch["transfers"]
        overlap = plain.first_overlap(transfers)
        if overlap:
            raise Refused("overlap {} {}".format(*overlap))
        self.words |= {
            (*plain.destination(transfer), j): self.words.get((*plain.source(transfer), j), 0)
            for transfer in transfers
            for j in range(self.shape[2])
        }
        self.runs += 1
        batch["state"] = "ran"
        settings = len(plain.busiest(transfers)[1])
        self.reading = (self.runs, settings)
        return self.runs, settings, len(transfers) * self.shape[2]


class Session:
    """A session that reads a script. Each refusal is kept with what was sent: a line,
    or a batch with its lines."""

    def __init__(self, exchange, number, script, is_done_unwritten=False):
        self.exchange, self.number, self.script, self.at = exchange, number, script, 0
        self.written, self.refused, self.ended = [], [], None
        self.is_done_unwritten = is_done_unwritten

    def line(self, is_inside):
        """The next line, or None at the end, where it is kept how the session ended."""
        end = self.script.find(b"\n", self.at)
        length = (len(self.script) if end < 0 else end) - self.at
        if length > LINE_BYTES:
            self.ended = "line too long"
        elif end < 0 and (length > 0 or is_inside):
            self.ended = "cut"
        elif end >= 0:
            line = self.script[self.at : end]
            self.at = end + 1
            return line
        return None

    def serve(self, told=None):
        """The bytes that the session writes, and behind them how it ended, if that was by a fault.

        Where the lines are handed in that a session was told, each `refused no memory` among them
        is taken as it is: that command has no effect. So is `ended no memory` in a batch. Of a
        session that `ended write` its last lines are taken as they are: the command whose reply
        couldn't be kept is done or not, as was said when the session was made.
        """
        told = iter(told) if told is not None else None
        while True:
            before, line = self.at, self.line(False)
            if line is None:
                break
            reply = self.reply_to(line, next(told, None) if told else None)
            if reply is None:
                break
            self.written.append(reply + "\n")
            if reply.startswith("refused "):
                self.refused.append((reply.encode(), self.script[before : self.at]))
            if reply == "bye":
                break
        return "".join(self.written) + (f"ended {self.ended}\n" if self.ended else "")

    def reply_to(self, line, told):
        """The reply to a line: want of memory where that is what was told,
        and nothing else can be wrong with it."""
        is_command = any(form.fullmatch(line) for form, _ in COMMANDS)
        if is_command and told in ("refused no memory", "ended no memory", "ended write"):
            if told == "ended write" and self.is_done_unwritten:
                return self.do_unwritten(line)
            taken = self.take_lines(line)
            if told.startswith("ended"):
                self.ended = told.removeprefix("ended ")
            return told if taken and not self.ended else None
        try:
            return self.reply(line)
        except Refused as why:
            return f"refused {why}"

    def do_unwritten(self, line):
        """Does what a line asks for, to which no reply is kept."""
        try:
            self.reply(line)
        except Refused:
            pass
        self.ended = "write"

    def take_lines(self, line):
        """Takes the lines of a batch, where the line announces one. Whether they are all there."""
        found = COMMANDS[0][0].fullmatch(line)
        lines = (
            [self.line(True) for _ in range(int(found[1]))]
            if found and int(found[1]) <= plain.TRANSFERS
            else []
        )
        return None not in lines

    def reply(self, line):
        """The reply to a line, or None where the session ends in it."""
        for form, answer in COMMANDS:
            found = form.fullmatch(line)
            if found:
                return answer(self, *found.groups())
        raise Refused("line")

    def batch(self, count):
        if int(count) > plain.TRANSFERS:
            raise Refused("too many")
        lines = [b"batch " + count]
        for _ in range(int(count)):
            lines.append(self.line(True))
            if lines[-1] is None:
                return None
        transfers = plain.read_batch(b"".join(line + b"\n" for line in lines), self.exchange.shape)
        return f"accepted {self.exchange.submit(self.number, transfers)}"

    def plan(self, number):
        return f"planned {int(number)} settings {self.exchange.plan(self.number, int(number))}"

    def run(self, number):
        run, settings, words = self.exchange.run(self.number, int(number))
        return f"ran {int(number)} run {run} settings {settings} words {words} bits {117 * words}"

    def show(self, number):
        batch = self.exchange.batch(self.number, int(number))
        return f"batch {int(number)} transfers {len(batch['transfers'])} {batch['state']}"

    def drop(self, number):
        self.exchange.batch(self.number, int(number))
        del self.exchange.batches[int(number)]
        return f"dropped {int(number)}"

    def peek(self, module, address):
        return f"word {self.exchange.peek(int(module), int(address, 16)):08x}"

    def poke(self, module, address, word):
        self.exchange.poke(int(module), int(address, 16), int(word, 16))
        return "poked"

    def progress(self):
        return "progress run {} done {}".format(*self.exchange.reading)

    def bye(self):
        return "bye"


COMMANDS = [
    (re.compile(form), answer)
    for form, answer in [
        (rb"batch " + NUMBER, Session.batch),
        (rb"plan " + NUMBER, Session.plan),
        (rb"run " + NUMBER, Session.run),
        (rb"show " + NUMBER, Session.show),
        (rb"drop " + NUMBER, Session.drop),
        (rb"peek " + NUMBER + rb" " + HEX8, Session.peek),
        (rb"poke " + NUMBER + rb" " + HEX8 + rb" " + HEX8, Session.poke),
        (rb"progress", Session.progress),
        (rb"bye", Session.bye),
    ]
]


def answer_serve(shape, scripts, image=None):
    """What `serve` prints of scripts whose replies don't depend on the order in
    which the sessions come, and its status."""
    try:
        exchange = Exchange(plain.read_shape(shape), image)
    except Refused as why:
        return f"refused {why}\n".encode(), 1
    texts = [
        f"session {number}\n" + Session(exchange, number, script).serve()
        for number, script in enumerate(scripts)
    ]
    return "".join(texts).encode(), int(any("\nended " in text for text in texts))


def answer_talk(shape, script):
    """What `talk` prints of a script, its status, and each refusal of a line with what was sent."""
    session = Session(Exchange(plain.read_shape(shape)), 0, script)
    text = session.serve()
    return text.encode(), int(session.ended is not None), session.refused


def told_without_memory(shape, scripts, text, image=None, is_done_unwritten=False):
    """The exchange that is left where `serve` prints this of such scripts while some of its growths
    are refused; None where it may not. A command whose reply couldn't be kept is done or not, as is
    said."""
    exchange = Exchange(plain.read_shape(shape), image)
    rest = text.decode()
    for number, script in enumerate(scripts):
        head = f"session {number}\n"
        if not rest.startswith(head):
            return None
        part, _, behind = rest.removeprefix(head).partition(f"session {number + 1}\n")
        rest = f"session {number + 1}\n{behind}" if number + 1 < len(scripts) else behind
        wanted = Session(exchange, number, script, is_done_unwritten).serve(part.splitlines())
        if part != wanted:
            return None
    return exchange if rest == "" else None
