"""What `switch` tells, a second time: plain Python, as plain.py, that shares no code with the
product. It was written from the rules as docs/SWITCHES.md and docs/DECISIONS.md state them, and
from the commands of the C004's configuration link."""

import plain

# The usual wiring of the modules that one switch joins: of each the links of the switch that its
# link 0 and its link 3 are on. A board may have another one.
USUAL = [(module, plain.JOINED + module) for module in range(plain.JOINED)]
# How many ports follow each command byte that sets something.
PORTS = {0: 2, 1: 2, 3: 0, 4: 0, 5: 1, 6: 2}


def switches_for(transfers):
    """The names of the switches of a rack that has the modules of these transfers: one, which has
    no name, or A, on the way from links 0 to links 3, and B, on the way back."""
    is_wide = any(
        module >= plain.JOINED for transfer in transfers for module in (transfer[1], transfer[3])
    )
    return ["a", "b"] if is_wide else [""]


def pairs_of(transfers, setting):
    """Each initiator of a setting with its responder, by ascending initiators."""
    return sorted((transfers[t][1], transfers[t][3]) for t in setting)


def join(switch, pair, wiring):
    """The bytes that join link 0 of a module and link 3 of another: on one switch both ways at
    once, on two one way on each."""
    initiator, responder = pair
    if switch:
        return {"a": [0, initiator, responder], "b": [0, responder, initiator]}[switch]
    return [1, wiring[initiator][0], wiring[responder][1]]


def cut(switch, pair, wiring):
    """The bytes that part them: on one switch the two links, on two the output of the way."""
    initiator, responder = pair
    if switch:
        return {"a": [5, responder], "b": [5, initiator]}[switch]
    return [6, wiring[initiator][0], wiring[responder][1]]


def sent(switch, before, pairs, wiring):
    """The bytes that set a switch to pairs. Where none are known to have stood before they are a
    reset and the joins, else the cuts of the pairs that go and the joins of those that come; then
    the sequence ends."""
    if before is None:
        commands = [[4]] + [join(switch, pair, wiring) for pair in pairs]
    else:
        commands = [cut(switch, pair, wiring) for pair in before if pair not in pairs]
        commands += [join(switch, pair, wiring) for pair in pairs if pair not in before]
    return [byte for command in [*commands, [3]] for byte in command]


def told(transfers, settings, wiring=None):
    """What is told of a batch's settings, in order: of each its number, its pairs, and the name and
    the bytes of each switch."""
    switches, before = switches_for(transfers), None
    for number, setting in enumerate(settings):
        pairs = pairs_of(transfers, setting)
        yield (
            number,
            pairs,
            [(switch, sent(switch, before, pairs, wiring or USUAL)) for switch in switches],
        )
        before = pairs


def switch_text(transfers, settings, wiring=None):
    """The text of it: for each setting a line, or two where there are two switches."""
    lines = []
    for number, _, switches in told(transfers, settings, wiring):
        for switch, sent_bytes in switches:
            name = f" {switch}" if switch else ""
            lines.append(f"setting {number}{name} {bytes(sent_bytes).hex(' ')}\n")
    return "".join(lines).encode()


class Switch:
    """A C004: the input that each connected output has, and whether it passes data on.
    At first it stands anyhow."""

    def __init__(self):
        self.inputs, self.is_ready = {output: (7 * output + 3) % 32 for output in range(32)}, False

    def send(self, sent_bytes):
        """Does what bytes command, one command after another."""
        left = list(sent_bytes)
        while left:
            command, *ports = [left.pop(0) for _ in range(1 + PORTS[left[0]])]
            self.obey(command, ports)

    def obey(self, command, ports):
        if command == 0:
            self.inputs[ports[1]] = ports[0]
        if command == 1:
            self.inputs[ports[0]], self.inputs[ports[1]] = ports[1], ports[0]
        if command == 4:
            self.inputs = {}
        if command in (5, 6):
            for port in ports:
                self.inputs.pop(port, None)
        self.is_ready = command in (3, 4) or self.is_ready and command not in (0, 1)


def wanted_inputs(switch, pairs, wiring=None):
    """The input of each output where just these pairs are joined."""
    forth = {responder: initiator for initiator, responder in pairs}
    back = {initiator: responder for initiator, responder in pairs}
    if switch:
        return {"a": forth, "b": back}[switch]
    joined = [
        ((wiring or USUAL)[initiator][0], (wiring or USUAL)[responder][1])
        for initiator, responder in pairs
    ]
    return dict(joined) | {other: one for one, other in joined}


def are_set(transfers, settings, wiring=None):
    """Whether these bytes set switches that stood anyhow to the pairs of each setting in turn,
    ready, and to nothing else."""
    chips = {switch: Switch() for switch in switches_for(transfers)}
    for _, pairs, switches in told(transfers, settings, wiring):
        for switch, sent_bytes in switches:
            chips[switch].send(sent_bytes)
            if not chips[switch].is_ready or chips[switch].inputs != wanted_inputs(
                switch, pairs, wiring
            ):
                return False
    return True


def read_texts(batch, board):
    """What the texts of a batch and of a board's wiring say, where there is one: the wiring is
    looked at first, then the batch, and then one transfer after another, whether the board has what
    it needs."""
    wiring = None if board is None else plain.read_wiring(board)
    transfers = plain.read_batch(batch, plain.WIDEST)
    for t, (_, initiator, _, responder, *_) in enumerate(transfers if wiring else []):
        if initiator not in wiring or responder not in wiring:
            raise plain.Refused(f"no module {t}")
        if None in (wiring[initiator][0], wiring[responder][1]):
            raise plain.Refused(f"no link {t}")
    return transfers, wiring


def refusal(batch, board):
    """The refusal of these texts, or None where a schedule is to be made."""
    try:
        read_texts(batch, board)
    except plain.Refused as why:
        return f"refused {why}\n".encode()
    return None


def answer_switch(batch, schedule, board=None):
    """What `switch` answers to the texts of a batch, of a schedule and of a wiring.
    A certificate isn't looked at."""
    try:
        transfers, wiring = read_texts(batch, board)
        settings, _ = plain.read_schedule(schedule)
        plain.check_settings(transfers, settings)
        return switch_text(transfers, settings, wiring)
    except plain.Refused as why:
        return f"refused {why}\n".encode()


def is_switched(batch, schedule, answer, board=None):
    """Whether `switch` has to answer so, by a schedule of a batch,
    and these bytes set the switches."""
    transfers, wiring = read_texts(batch, board)
    settings, _ = plain.read_schedule(schedule)
    return answer == answer_switch(batch, schedule, board) and are_set(transfers, settings, wiring)
