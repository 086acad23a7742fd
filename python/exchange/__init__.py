"""Plans block transfers between the modules of a transputer rack, and moves the blocks: the answers
of the program `exchange` as calls.

    plan(batch)                     a schedule with the fewest settings; with steady=True, one that
                                    also changes the switch seldom
    check(batch, schedule)          how many settings a schedule has that is right and shortest
    switch_bytes(batch, schedule)   the bytes that set the switch for each setting
    orders(batch, schedule)         what each module does in each setting
    apply(shape, batch, image)      the image that a run leaves of this one
    draw(batch, schedule)           a picture of a schedule
    changes(batch, schedule)        how often a schedule changes the switch
    direct(moves)                   a batch that does the moves
    batch_text(transfers)           the text of a batch
    transfers(batch)                the transfers of a batch
    settings(schedule)              the settings of a schedule

`python3 -m pydoc exchange.plan` says more of one. Below, the classes come first.

A text is given as `str` or as bytes, and is that of the program: README.md says what a batch and a
schedule are, docs/GUIDE.md what moves are, and docs/MEMORY.md what a shape and an image are. These
pages are installed in share/doc/exchange. Modules, blocks, transfers and settings are numbered
from 0. There may be 32 modules of 64 blocks of 256 words of four bytes, and 4096 transfers.

Each call raises `Refused` where a text isn't right, and `MemoryError` where there is no memory. It
reads no file, prints nothing and keeps nothing. Threads may call side by side, and do run at once.
Don't call in a process that was forked while it had threads.

`C004` is a switch, and `LinkEnd` the end of a link of a module that waits to boot. While a thread
hands bytes to one of these, no other may use it.
"""

import ctypes
import os
from typing import Any, Iterable, List, Mapping, NamedTuple, Optional, Sequence, Tuple, Union

__version__ = "1.0.0"

__all__ = [
    "plan",
    "check",
    "switch_bytes",
    "orders",
    "apply",
    "draw",
    "changes",
    "direct",
    "batch_text",
    "transfers",
    "settings",
]
__all__ += ["Transfer", "Order", "ModuleOrders", "Refused", "C004", "LinkEnd", "EndFailed"]

Text = Union[str, bytes, bytearray, memoryview]
Name = Union[str, bytes, "os.PathLike[str]", "os.PathLike[bytes]"]

_DONE, _REFUSED, _NO_ROOM, _NO_MEMORY, _REPLY, _LOOSE, _NO_PORT, _NO_STATE = (
    0, 1, 2, 3, 4, 32, 33, 34,
)  # fmt: skip

# The numbers by which `exchange_why` knows the calls.
_NUMBERS = {
    "plan": 0,
    "plan_steady": 0,
    "check": 1,
    "switch": 2,
    "apply": 3,
    "draw": 4,
    "changes": 5,
    "direct": 6,
    "switch_wired": 7,
    "orders": 8,
}

# What the texts of a call are, in their order, where they aren't the first ones of _TEXTS.
_TEXTS_OF = {"apply": ("shape", "batch", "image"), "direct": ("moves",)}
_TEXTS = ("batch", "schedule", "wiring")

# Bytes of room for an answer at first. Most answers fit, and need no second call.
_ROOM = 1 << 16


class Refused(ValueError):
    """A text isn't right. `line` is the line of the refusal, of which docs/REFUSALS.md says what
    each means, and `why` says where, what is there, and what is expected. The exception's text is
    both.

    >>> try:
    ...     plan("batch one")
    ... except Refused as refused:
    ...     print(refused)
    refused batch line 1
    exchange: batch:1: "batch one": at byte 7 there is "o" instead of a number; expected "batch N", where N counts the transfers
    """

    def __init__(self, line: str, why: str = "", call: str = "", given: Tuple[bytes, ...] = ()):
        super().__init__("\n".join([line, why] if why else [line]))
        self.line, self.why, self._call, self._given = line, why, call, given

    def named(
        self,
        *,
        batch: Name = "",
        schedule: Name = "",
        wiring: Name = "",
        image: Name = "",
        moves: Name = "",
    ) -> str:
        """`why`, where the names of files stand in place of `batch`, `schedule`, `wiring`,
        `image` or `moves`.

        >>> try:
        ...     plan("batch one")
        ... except Refused as refused:
        ...     print(refused.named(batch="mine.txt"))
        exchange: mine.txt:1: "batch one": at byte 7 there is "o" instead of a number; expected "batch N", where N counts the transfers
        """
        names = {
            "batch": batch,
            "schedule": schedule,
            "wiring": wiring,
            "image": image,
            "moves": moves,
        }
        return _why(self._call, self._given, names) if self._call else self.why


class Transfer(NamedTuple):
    """The move of one block, a "push" or a "pull". The initiator starts it over its link 0, and the
    responder answers over its link 3.

    >>> Transfer("pull", 0, 5, 1, 6).source
    (1, 6)
    """

    kind: str
    initiator: int
    own_block: int
    responder: int
    far_block: int

    @property
    def source(self) -> Tuple[int, int]:
        """The module and the block that are read."""
        return self[1:3] if self.kind == "push" else self[3:5]

    @property
    def destination(self) -> Tuple[int, int]:
        """The module and the block that are written."""
        return self[3:5] if self.kind == "push" else self[1:3]


def batch_text(transfers: Iterable[Transfer]) -> str:
    r"""The text of a batch of transfers. It judges nothing: calls do.

    >>> batch_text([Transfer("push", 0, 0, 1, 0)])
    'batch 1\npush 0 0 1 0\n'
    """
    lines = [" ".join(map(str, transfer)) for transfer in transfers]
    return "\n".join([f"batch {len(lines)}", *lines, ""])


def transfers(batch: Text) -> List[Transfer]:
    r"""The transfers of a batch that a call took, or that `direct` made.

    >>> transfers("batch 1\npush 0 0 1 0\n")
    [Transfer(kind='push', initiator=0, own_block=0, responder=1, far_block=0)]
    """
    return [Transfer(kind, *map(int, numbers)) for kind, *numbers in _words_of(batch)[1:]]


def settings(schedule: Text) -> List[List[int]]:
    r"""The transfers that move in each setting of a schedule that `check` took,
    or that `plan` made, by their numbers.

    >>> settings("settings 2\nsetting 0 2\nsetting 1\n")
    [[0, 2], [1]]
    """
    return [
        [int(number) for number in numbers]
        for word, *numbers in _words_of(schedule)
        if word == "setting"
    ]


def plan(batch: Text, steady: bool = False) -> str:
    r"""A schedule of a batch with the fewest settings, and its certificate.
    A steady one also changes the switch seldom.

    >>> batch = "batch 4\npush 0 0 1 0\npush 0 0 2 0\npush 0 1 1 1\npush 0 1 2 1\n"
    >>> settings(plan(batch)), settings(plan(batch, steady=True))
    ([[0], [1], [2], [3]], [[0], [2], [1], [3]])
    >>> plan("batch 1\npush 0 0 1 0\n")
    'settings 1\nsetting 0\nbusiest link 0 module 0\nnamed 0\n'
    """
    return _ask("plan_steady" if steady else "plan", batch).decode()


def check(batch: Text, schedule: Text) -> int:
    r"""The number of settings of a schedule that is right, and whose certificate shows that none is
    shorter. Any other is refused.

    >>> check(
    ...     "batch 1\npush 0 0 1 0\n",
    ...     "settings 1\nsetting 0\nbusiest link 0 module 0\nnamed 0\n",
    ... )
    1
    """
    return int(_ask("check", batch, schedule).split()[1])


def switch_bytes(
    batch: Text, schedule: Optional[Text] = None, wiring: Optional[Text] = None
) -> List[Tuple[bytes, ...]]:
    r"""The bytes that set a switch for each setting in turn of a schedule of a batch, with a
    certificate or without. Where no schedule is given, it is that of `plan`. Where the batch names
    a module above 15, there are two switches, a and b, and the bytes for each. A board with one
    switch may be wired otherwise: docs/SWITCHES.md says what the text of its wiring is.

    Where a setting leaves the switch as it is, its bytes are `03` alone.

    >>> [sent.hex(" ") for (sent,) in switch_bytes("batch 1\npush 0 0 1 0\n")]
    ['04 01 00 11 03']
    >>> batch = "batch 2\npush 0 0 1 0\npush 0 1 1 1\n"
    >>> [sent.hex(" ") for (sent,) in switch_bytes(batch, plan(batch, steady=True))]
    ['04 01 00 11 03', '03']
    >>> board = "wiring 2\nmodule 0 link 0 at 4 link 3 at 5\nmodule 1 link 0 at 6 link 3 at 7\n"
    >>> [sent.hex(" ") for (sent,) in switch_bytes("batch 1\npush 0 0 1 0\n", wiring=board)]
    ['04 01 04 07 03']
    """
    given = _schedule_given(schedule)
    found: List[Tuple[bytes, ...]] = []
    answer = (
        _ask("switch", batch, given)
        if wiring is None
        else _ask("switch_wired", batch, given, wiring)
    )
    for line in answer.decode().splitlines():
        _, setting, *pairs = line.split()
        sent = bytes.fromhex("".join(pair for pair in pairs if len(pair) == 2))
        if int(setting) == len(found):
            found.append(())
        found[-1] += (sent,)
    return found


class Order(NamedTuple):
    """What a module does over link 0 or link 3 in a setting, as to one of its blocks: it sends the
    words of the block ("send block"), or those that it copied aside ("send copy"), or puts the
    words that come into the block ("receive block").
    """

    link: int
    act: str
    block: int


class ModuleOrders(NamedTuple):
    """What a module does: the blocks that it copies aside before setting 0, and its orders by their
    settings. Those of a setting are done side by side; there are two at most, and that over link 0
    comes first."""

    module: int
    copies: List[int]
    settings: List[List[Order]]


def orders(
    batch: Text, schedule: Optional[Text] = None, module: Optional[int] = None
) -> List[ModuleOrders]:
    r"""What each module does in the settings of a schedule of a batch, with a certificate or
    without, or what one module does, 0 to 31. Where no schedule is given, it is that of `plan`. A
    module without orders is left out. A batch in which two transfers write one block is refused.
    docs/ORDERS.md says how modules obey.

    >>> batch = "batch 2\npush 0 0 1 0\npush 1 0 2 0\n"
    >>> for it in orders(batch, "settings 2\nsetting 0\nsetting 1\n"):
    ...     told = [[" ".join(map(str, order)) for order in setting] for setting in it.settings]
    ...     print(it.module, it.copies, told)
    0 [] [['0 send block 0'], []]
    1 [0] [['3 receive block 0'], ['0 send copy 0']]
    2 [] [[], ['3 receive block 0']]
    """
    if module is not None and not 0 <= module < 32:
        raise ValueError("a rack has the modules 0 to 31")
    head, *lines = _ask("orders", batch, _schedule_given(schedule)).decode().splitlines()
    count, found = int(head.split()[3]), []
    for line in lines:
        words = line.split()
        if words[0] == "module":
            found.append(ModuleOrders(int(words[1]), [], [[] for _ in range(count)]))
        elif words[0] == "copy":
            found[-1].copies.append(int(words[2]))
        else:
            found[-1].settings[int(words[1])].append(
                Order(int(words[3]), " ".join(words[4:6]), int(words[6]))
            )
    return [told for told in found if module in (None, told.module)]


def apply(shape: Text, batch: Text, image: Text) -> bytes:
    r"""The image that a run of a batch leaves of an image, with as many bytes: 4 M K W for the
    shape MxKxW, by module, block and word.

    >>> apply("2x1x1", "batch 2\npush 0 0 1 0\npush 1 0 0 0\n", b"aaaabbbb")
    b'bbbbaaaa'
    """
    return _ask("apply", shape, batch, image)


def draw(batch: Text, schedule: Text) -> str:
    r"""The picture of a schedule of a batch, with a certificate or without,
    as the text of an SVG file.

    >>> draw("batch 1\npush 0 0 1 0\n", "settings 1\nsetting 0\n")[:5]
    '<svg '
    """
    return _ask("draw", batch, schedule).decode()


def changes(batch: Text, schedule: Text) -> Tuple[int, int]:
    r"""How often a schedule of a batch changes the switch, with a certificate or without, and how
    often it is shown that one with as many settings has to. Where both are the same, none with so
    few settings has fewer.

    >>> batch = "batch 4\npush 0 0 1 0\npush 0 0 2 0\npush 0 1 1 1\npush 0 1 2 1\n"
    >>> changes(batch, plan(batch)), changes(batch, plan(batch, steady=True))
    ((4, 2), (2, 2))
    """
    _, count, _, least = _ask("changes", batch, schedule).split()
    return int(count), int(least)


def direct(moves: Text) -> str:
    r"""A batch that does the moves of a text, by directions that need the fewest settings.

    >>> batch = direct("moves 2\nmove 0 0 1 0\nmove 0 1 2 0\n")
    >>> [transfer.destination for transfer in transfers(batch)], len(settings(plan(batch)))
    ([(1, 0), (2, 0)], 1)
    """
    return _ask("direct", moves).decode()


class _SwitchState(ctypes.Structure):
    """`struct exchange_c004` of exchange.h."""

    _fields_ = [
        ("outputs", ctypes.c_uint8 * 32),
        ("begun", ctypes.c_uint8 * 2),
        ("begun_count", ctypes.c_uint8),
        ("connecting", ctypes.c_uint8),
    ]


class C004:
    """An INMOS C004 that is handed the bytes of its configuration link, as `exchange c004` is. At
    first it is as after a reset, or it has the state of another one. A copy by `copy.copy` has a
    state of its own.

    A byte that can't come there is dropped, with the command that was begun;
    `refused` counts these bytes.

    >>> switch = C004()
    >>> switch.take(bytes([4, 1, 0, 17, 3, 2, 17])).hex()
    '80'
    >>> switch.source(17), switch.source(1), switch.joined(0, 17)
    (0, None, True)
    >>> C004(switch.state).joined(17, 0)
    True
    """

    def __init__(self, state: Optional[bytes] = None):
        self.refused = 0
        self._state = _SwitchState() if state is None else _state_of(_SwitchState, state)
        if state is None:
            _LIBRARY.exchange_c004_reset(ctypes.byref(self._state))
        self._answer("source", 0)

    def take(self, sent: bytes) -> bytes:
        """Hands over bytes, and gives the replies to the enquiries among them."""
        state, reply, replies = ctypes.byref(self._state), ctypes.c_uint8(), bytearray()
        for byte in bytes(memoryview(sent)):
            status = _LIBRARY.exchange_c004_take(state, byte, ctypes.byref(reply))
            if status == _REPLY:
                replies.append(reply.value)
            self.refused += status == _REFUSED
        return bytes(replies)

    def source(self, output: int) -> Optional[int]:
        """The input that feeds an output, or None where none does."""
        answer = self._answer("source", output)
        return None if answer == _LOOSE else answer

    def joined(self, link: int, other: int) -> bool:
        """Whether two links feed each other, and the switch is ready: no command has connected
        since the last that settled or reset."""
        return self._answer("joined", link, other) == 1

    @property
    def state(self) -> bytes:
        """Its state, as bytes: two switches that have the same are alike."""
        return bytes(self._state)

    def __copy__(self) -> "C004":
        other = C004(self.state)
        other.refused = self.refused
        return other

    def _answer(self, name: str, *ports: int) -> int:
        """What a call of the library answers of ports."""
        if not all(0 <= port < 32 for port in ports):
            raise ValueError("a C004 has the ports 0 to 31")
        answer = getattr(_LIBRARY, f"exchange_c004_{name}")(ctypes.byref(self._state), *ports)
        if answer == _NO_STATE:
            raise ValueError("no C004 has this state")
        return int(answer)


class _BootState(ctypes.Structure):
    """`struct exchange_boot` of exchange.h."""

    _fields_ = [
        ("begun", ctypes.c_uint8 * 8),
        ("begun_count", ctypes.c_uint8),
        ("failed", ctypes.c_uint8),
    ]


class EndFailed(ValueError):
    """The end of a link refuses a byte, and each byte after it.
    `replies` are those to what came before."""

    def __init__(self, why: str, replies: bytes = b""):
        super().__init__(why)  # A copy is made of this alone; its replies are set after that.
        self.replies = replies


# What is said of the statuses by which an end refuses a byte.
_FAULTS = {
    5: "a bootstrap of {} bytes isn't taken",
    6: "the address is no multiple of four",
    7: "the memory doesn't have the address",
    8: "the end has failed before",
}


class LinkEnd:
    """The end of a link of a T414 that waits to boot, over the module's memory: a `bytearray`,
    whose bytes have the addresses from `base` on, or what else has bytes that can be written. A
    poke (00, address, word) writes a word of it, and a peek (01, address) gives the four bytes of
    one. All are least significant byte first. Nothing is booted: `EndFailed` is raised where the
    end refuses a byte, and then for each byte until `reset`. The end holds the memory: as long as
    it is there, `extend` and whatever else would change the length of the `bytearray` raises
    `BufferError`. A copy by `copy.copy` has the same memory, and a state of its own.

    >>> memory = bytearray(8)
    >>> end = LinkEnd(memory, 0x80000800)
    >>> end.take(bytes.fromhex("00 04080080 41424344 01 04080080"))
    b'ABCD'
    >>> memory
    bytearray(b'\\x00\\x00\\x00\\x00ABCD')
    """

    def __init__(self, memory: bytearray, base: int, state: Optional[bytes] = None):
        if not 0 <= base < 1 << 32:
            raise ValueError("an address is from 0 to ffffffff hex")
        self._memory = (ctypes.c_uint8 * memoryview(memory).nbytes).from_buffer(memory)
        self._base = base
        self._state = _BootState() if state is None else _state_of(_BootState, state)
        if state is None:
            self.reset()

    def reset(self) -> None:
        """Makes it an end to which nothing has come."""
        _LIBRARY.exchange_boot_reset(ctypes.byref(self._state))

    def take(self, sent: bytes) -> bytes:
        """Hands over bytes, and gives the bytes of the words that are peeked."""
        state, memory, reply, replies = (
            ctypes.byref(self._state),
            self._memory,
            (ctypes.c_uint8 * 4)(),
            bytearray(),
        )
        for byte in bytes(memoryview(sent)):
            status = _LIBRARY.exchange_boot_take(
                state, memory, len(memory), self._base, byte, reply
            )
            if status == _REPLY:
                replies += bytes(reply)
            elif status == _NO_STATE:
                raise ValueError("no end of a link has this state")
            elif status != _DONE:
                raise EndFailed(_FAULTS[status].format(byte), bytes(replies))
        return bytes(replies)

    @property
    def state(self) -> bytes:
        """Its state, as bytes: what has come of a message, and whether it has failed."""
        return bytes(self._state)

    def __copy__(self) -> "LinkEnd":
        return LinkEnd(self._memory, self._base, self.state)  # type: ignore[arg-type]


def _state_of(kind: Any, state: bytes) -> Any:
    """A structure of these bytes."""
    if len(state) != ctypes.sizeof(kind):
        raise ValueError(f"a state has {ctypes.sizeof(kind)} bytes")
    return kind.from_buffer_copy(state)


def _load() -> ctypes.CDLL:
    """The library that is in this package, as in a wheel, or that was installed with it, or else
    the one that the system's loader finds."""
    name = "libexchange.so." + __version__.split(".")[0]
    here = os.path.dirname(os.path.realpath(__file__))
    ways = (os.path.join(here, way, name) for way in (".", "../../.."))
    library = ctypes.CDLL(next((it for it in ways if os.path.exists(it)), name))
    for name, texts in {
        "plan": 1,
        "plan_steady": 1,
        "check": 2,
        "switch": 2,
        "switch_wired": 3,
        "orders": 2,
        "apply": 3,
        "draw": 2,
        "changes": 2,
        "direct": 1,
    }.items():
        call = getattr(library, f"exchange_{name}")
        call.argtypes = [ctypes.c_char_p, ctypes.c_size_t] * (texts + 1) + [
            ctypes.POINTER(ctypes.c_size_t)
        ]
        call.restype = ctypes.c_uint8
    text, byte, port = (
        [ctypes.c_char_p, ctypes.c_size_t],
        ctypes.POINTER(ctypes.c_uint8),
        ctypes.c_uint8,
    )
    switch, end = ctypes.POINTER(_SwitchState), ctypes.POINTER(_BootState)
    for name, words in {
        "why": [port, *text * 5, ctypes.POINTER(ctypes.c_size_t)],
        "c004_reset": [switch],
        "c004_take": [switch, port, byte],
        "c004_source": [switch, port],
        "c004_joined": [switch, port, port],
        "boot_reset": [end],
        "boot_take": [end, byte, ctypes.c_size_t, ctypes.c_uint32, port, byte],
    }.items():
        call = getattr(library, f"exchange_{name}")
        call.argtypes, call.restype = words, None if name.endswith("reset") else ctypes.c_uint8
    return library


_LIBRARY = _load()


def _bytes_of(text: Text) -> bytes:
    """The bytes of a text, which nothing else can write while a call lasts."""
    if isinstance(text, str):
        return text.encode("utf-8", "surrogatepass")
    try:
        return text if isinstance(text, bytes) else bytes(memoryview(text))
    except TypeError:
        raise TypeError(
            f"a text is str or bytes, not {type(text).__name__}; batch_text makes one of a list of "
            "transfers"
        ) from None


def _words_of(text: Text) -> List[List[str]]:
    """The words of each line of a text."""
    return [line.split() for line in _bytes_of(text).decode().splitlines()]


def _schedule_given(schedule: Optional[Text]) -> bytes:
    """A schedule as calls take it that do without one: to them an empty text is none. An empty line
    is refused as an empty text is."""
    return b"" if schedule is None else _bytes_of(schedule) or b"\n"


def _ask(name: str, *texts: Text) -> bytes:
    """What a call of the library answers. include/exchange.h says what it wants,
    and what it gives."""
    given = [_bytes_of(text) for text in texts]
    words = [word for text in given for word in (text, len(text))]
    status, answer = _in_room(
        getattr(_LIBRARY, f"exchange_{name}"), words, max(_ROOM, *map(len, given))
    )
    if status == _NO_MEMORY:
        raise MemoryError(f"exchange_{name} was given no memory")
    if status == _REFUSED:
        raise Refused(answer.decode().rstrip("\n"), _why(name, given), name, tuple(given))
    return answer


def _why(call: str, given: Sequence[bytes], names: Mapping[str, Name] = {}) -> str:
    """What is said beside the refusal of these texts by this call, or nothing where there is no
    memory for it. A name is one line."""
    words = [word for text in (*given, b"", b"")[:3] for word in (text, len(text))]
    lines = [
        os.fsdecode(names.get(text, "")).replace("\n", " ") for text in _TEXTS_OF.get(call, _TEXTS)
    ]
    told = "\n".join(lines).encode("utf-8", "replace")
    status, line = _in_room(_LIBRARY.exchange_why, [_NUMBERS[call], *words, told, len(told)], _ROOM)
    return line.decode().rstrip("\n") if status == _DONE else ""


def _in_room(call: Any, words: Sequence[Any], room: int) -> Tuple[int, bytes]:
    """The status and the answer of a call, which is made once more
    where it finds too little room."""
    count, status = ctypes.c_size_t(room), _NO_ROOM
    while status == _NO_ROOM:
        out = ctypes.create_string_buffer(count.value)
        status = call(*words, out, len(out), ctypes.byref(count))
    return status, ctypes.string_at(out, count.value)
