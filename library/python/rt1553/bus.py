r"""A bus controller of MIL-STD-1553B, with the terminals on its two buses, which may be faulty on purpose.

>>> PUMP = '''
... address = 5
... [[rule]]
... direction = "both"
... subaddresses = 3
... '''
>>> controller = BusController({5: Terminal(PUMP)})
>>> result = controller.receive(5, 3, [0x11, 0x22])
>>> result.status, result.errors
(Status(address=5), ())
>>> result.handed
{5: [Received(broadcast=False, subaddress=3, words=(17, 34))]}
>>> controller.transmit(5, 3, 2, bus=Bus.B).words
(0, 0)

The result has the errors that a controller would see. Here the first reply is not sent:

>>> controller = BusController({5: Faulty(Terminal(PUMP), [FaultyReply(drop=True)])})
>>> controller.mode(5, 2).errors
(<ReplyError.NO_RESPONSE: 'no response'>,)
>>> controller.mode(5, 2).errors
()

A wrong argument raises `TypeError` or `ValueError` before anything is sent. The message says what is expected.

`copy.deepcopy` and `pickle` take the terminals of a controller along, with their states; `copy.copy` shares them:

>>> from copy import deepcopy
>>> deepcopy(controller).mode(5, 2).status
Status(address=5)
"""

from __future__ import annotations

import enum
import operator
from collections import deque
from collections.abc import Collection, Iterable, Mapping
from dataclasses import dataclass, fields
from itertools import islice
from typing import Any, Optional, Union

from . import (
    Answer, Bus, BusControl, Event, Gap, Noise, Received, SelfTest, Sent, Slot, Sync, Synchronize, Terminal, TerminalBus, Text, Word,
)  # fmt: skip

__all__ = [
    "BROADCAST", "BusController", "Faulty", "FaultyReply", "Recorder", "ReplyError", "Result", "Status", "command", "mode_command",
    "parity",
]  # fmt: skip

# the broadcast address (4.3.3.5.1.2)
BROADCAST = 31
# the mode codes that the standard names, each with its T/R bit (4.3.3.5.1.7)
_MODE_CODES = {**dict.fromkeys([*range(9), 16, 18, 19], True), **dict.fromkeys([17, 20, 21], False)}
# the single bits of a status word, by their masks (4.3.3.5.3.3 to 4.3.3.5.3.11)
_STATUS_BITS = {
    "message_error": 0x0400, "instrumentation": 0x0200, "service_request": 0x0100, "broadcast_command_received": 0x0010,
    "busy": 0x0008, "subsystem_flag": 0x0004, "dynamic_bus_control_acceptance": 0x0002, "terminal_flag": 0x0001,
}  # fmt: skip

# what may be on a bus in the time of one word; what a terminal hands over at a gap
_Heard = Union[Word, Noise]
HandedOver = Union[Received, Synchronize, SelfTest, BusControl]


# --- arguments


def _unwanted(name: str, wanted: str, value: object) -> TypeError:
    return TypeError(f"{name}: {wanted} is wanted, not {type(value).__name__}")


def _number(name: str, value: Any, least: int, most: int) -> int:
    """A number in its range. TypeError if it is not a number, ValueError if it is out of range."""
    wanted = f"a number from {least} to {most}"
    if not hasattr(type(value), "__index__"):
        raise _unwanted(name, wanted, value)
    number = int(operator.index(value))
    if not least <= number <= most:
        raise ValueError(f"{name}: {wanted} is wanted, not {number}")
    return number


def _words(words: Any) -> list[int]:
    """1 to 32 data words."""
    wanted = "a row of 1 to 32 numbers"
    if not isinstance(words, Iterable) or isinstance(words, (str, bytes, bytearray, memoryview)):
        raise _unwanted("words", wanted, words)
    first = list(islice(words, 33))
    if not 1 <= len(first) <= 32:
        raise ValueError(f"words: {wanted} is wanted, not {'more' if first else 'none'}")
    return [_number("words", word, 0, 0xFFFF) for word in first]


def _place(name: str, place: Any, most: int) -> tuple[int, int]:
    """An address up to `most`, and a subaddress for data."""
    if not isinstance(place, tuple):
        raise _unwanted(name, "a tuple of an address and a subaddress", place)
    if len(place) != 2:
        raise ValueError(f"{name}: an address and a subaddress are wanted, not {len(place)} values")
    return _number(f"{name}, address", place[0], 0, most), _number(f"{name}, subaddress", place[1], 1, 30)


# --- words


def parity(bits: int) -> int:
    """The parity bit of a valid word with these 16 bits: 17 bits have an odd number of ones (4.4.1.1).

    >>> parity(0x0001)
    0
    """
    return 1 - bin(_number("bits", bits, 0, 0xFFFF)).count("1") % 2


def _command(address: int, transmit: Any, subaddress: int, low: int) -> int:
    return _number("address", address, 0, BROADCAST) << 11 | _number("transmit", transmit, 0, 1) << 10 | subaddress << 5 | low


def command(address: int, transmit: bool, subaddress: int, count: int) -> int:
    """The 16 bits of a command word (4.3.3.5.1) to receive data words, or with `transmit` to transmit them. `address` is 0 to 31,
    where 31 is broadcast, `subaddress` 1 to 30, `count` 1 to 32.

    >>> f"{command(5, False, 3, 2):04x}"
    '2862'
    """
    return _command(address, transmit, _number("subaddress", subaddress, 1, 30), _number("count", count, 1, 32) & 31)


def mode_command(address: int, code: int, transmit: Optional[bool] = None, subaddress: int = 0) -> int:
    """The 16 bits of the command word of a mode code, 0 to 31 (4.3.3.5.1.7). `transmit` is the T/R bit. Without it, the bit comes
    from the standard's table; a code that is reserved there, 9 to 15 or 22 to 31, needs it. `subaddress` is 0 or 31, which mean
    the same (30.4.1).

    >>> f"{mode_command(5, 2):04x}"
    '2c02'
    """
    low = _number("code", code, 0, 31)
    if transmit is None:
        if low not in _MODE_CODES:
            raise ValueError(f"transmit: True or False is wanted, since mode code {low} is reserved")
        transmit = _MODE_CODES[low]
    if _number("subaddress", subaddress, 0, 31) not in (0, 31):
        raise ValueError(f"subaddress: 0 or 31 is wanted for a mode code, not {subaddress}")
    return _command(address, transmit, subaddress, low)


@dataclass(frozen=True, repr=False)
class Status:
    """A status word (4.3.3.5.3). `address` is 0 to 31, `reserved` the three reserved bits, 0 to 7. Its text names the bits set.

    >>> Status.from_bits(0x2808)
    Status(address=5, busy=True)
    >>> f"{Status(5, message_error=True).bits:04x}"
    '2c00'
    """

    address: int
    message_error: bool = False
    instrumentation: bool = False
    service_request: bool = False
    reserved: int = 0
    broadcast_command_received: bool = False
    busy: bool = False
    subsystem_flag: bool = False
    dynamic_bus_control_acceptance: bool = False
    terminal_flag: bool = False

    def __post_init__(self) -> None:
        most = {"address": 31, "reserved": 7}
        for field in fields(self):
            _number(field.name, getattr(self, field.name), 0, most.get(field.name, 1))

    def __repr__(self) -> str:
        values = {field.name: getattr(self, field.name) for field in fields(self)}
        return f"Status({', '.join(f'{name}={value}' for name, value in values.items() if value or name == 'address')})"

    @classmethod
    def from_bits(cls, bits: int) -> Status:
        """The status word of 16 bits."""
        number = _number("bits", bits, 0, 0xFFFF)
        set_bits = {name: bool(number & mask) for name, mask in _STATUS_BITS.items()}
        return cls(address=number >> 11, reserved=number >> 5 & 7, **set_bits)

    @property
    def bits(self) -> int:
        """Its 16 bits."""
        return self.address << 11 | self.reserved << 5 | sum(mask for name, mask in _STATUS_BITS.items() if getattr(self, name))


# --- terminals on a bus


class Recorder:
    """A terminal that keeps its events as a script and its answers as a transcript, which is the one that
    `rt1553.run(profile, script)` gives. What its subsystem does has to go through `step` too. A refused profile raises
    `rt1553.Refused`.

    >>> recorder = Recorder("address = 5")
    >>> BusController({5: recorder}).mode(5, 2).status
    Status(address=5)
    >>> recorder.script
    'A c 2c02\\nA gap\\nslot\\nslot\\nA gap\\n'
    >>> recorder.transcript
    'A s 2800\\n'
    """

    def __init__(self, profile: Text) -> None:
        self.profile, self.terminal = profile, Terminal(profile)
        self._events: list[str] = []
        self._answers: list[str] = []

    def step(self, event: Event) -> Optional[Answer]:
        """Plays an event, as `Terminal.step` does."""
        answer = self.terminal.step(event)
        self._events.append(event.line() + "\n")
        if answer is not None:
            self._answers.append(answer.line() + "\n")
        return answer

    @property
    def script(self) -> str:
        """The events so far, as a script."""
        return "".join(self._events)

    @property
    def transcript(self) -> str:
        """The answers so far, as a transcript."""
        return "".join(self._answers)


@dataclass(frozen=True)
class FaultyReply:
    """What is wrong with one reply of a `Faulty` terminal. Without arguments nothing is wrong.

    - `drop`: nothing is sent.
    - `delay`: the reply begins this many slots late, 0 to 1000, so a controller has given up by then (4.3.3.9).
    - `shorten`: this many words at its end are not sent, 0 to 33.
    - `lengthen`: this many data words 0000 are sent after it, 0 to 33.
    - `word`: the number of the word that the next three change: 0 for the status word, or 1 to 32. If the reply has no such
      word, they do nothing.
    - `flip`: the bits of this mask, 0 to 0xffff, are inverted. The parity bit is right for the new bits.
    - `wrong_parity`: the parity bit is wrong (4.4.1.1).
    - `noise`: the word is noise: its sync, code or bit count is wrong.
    """

    drop: bool = False
    delay: int = 0
    shorten: int = 0
    lengthen: int = 0
    word: int = 0
    flip: int = 0
    wrong_parity: bool = False
    noise: bool = False

    def __post_init__(self) -> None:
        most = {"delay": 1000, "shorten": 33, "lengthen": 33, "word": 32, "flip": 0xFFFF}
        for field in fields(self):
            _number(field.name, getattr(self, field.name), 0, most.get(field.name, 1))

    def _corrupted(self, word: Word) -> _Heard:
        if self.noise:
            return Noise(word.bus)
        bits = word.bits ^ self.flip
        return Word(word.bus, word.sync, bits, 1 - parity(bits) if self.wrong_parity else None)

    def _sent(self, reply: list[Word]) -> list[Optional[_Heard]]:
        """What is sent instead of a reply: a word or nothing in each slot."""
        if self.drop:
            return []
        words = [self._corrupted(word) if number == self.word else word for number, word in enumerate(reply)]
        more = [Word(reply[0].bus, Sync.DATA, 0)] * self.lengthen
        return [*[None] * self.delay, *words[: max(len(words) - self.shorten, 0)], *more]


class Faulty:
    """A terminal whose replies are faulty by a plan: a sequence that has for each reply in turn a `FaultyReply`, or None if nothing
    is wrong. After the end of the plan nothing is wrong. `itertools.cycle` or a generator makes a plan without end.

    A message that the terminal does not answer, such as a broadcast, takes nothing from the plan. The rest of a late reply is
    dropped when the terminal has another reply to send (4.4.3.2). `copy.deepcopy` and `pickle` keep the place in the plan. They
    refuse a generator as a plan with a TypeError.
    """

    def __init__(self, terminal: Union[Terminal, Recorder], plan: Iterable[Optional[FaultyReply]]) -> None:
        if not isinstance(terminal, (Terminal, Recorder)):
            raise _unwanted("terminal", "a Terminal or a Recorder", terminal)
        if not isinstance(plan, Iterable):
            raise _unwanted("plan", "a row of FaultyReply and None", plan)
        self.terminal, self._plan = terminal, iter(plan)
        self._left: deque[Optional[_Heard]] = deque()

    @property
    def plan_left(self) -> Optional[int]:
        """How many entries of the plan no reply has taken so far. None if the plan has no length, as a generator.

        >>> Faulty(Terminal("address = 5"), [FaultyReply(drop=True)]).plan_left
        1
        """
        left = operator.length_hint(self._plan, -1)
        return None if left < 0 else left

    def _reply(self) -> list[Word]:
        """The whole reply that the terminal begins in this slot, if it begins one."""
        reply: list[Word] = []
        while isinstance(sent := self.terminal.step(Slot()), Sent):
            reply.append(sent.heard())
        return reply

    def step(self, event: Event) -> Union[Answer, Word, Noise, None]:
        """Plays an event, as `Terminal.step` does. The answer to a slot is what is then on the bus. TypeError if the plan has
        something other than `FaultyReply` and None; that reply is sent as it is, from the next slot on."""
        if not isinstance(event, Slot):
            return self.terminal.step(event)
        if reply := self._reply():
            self._left = deque(reply)
            fault = next(self._plan, None)
            if not isinstance(fault, (FaultyReply, type(None))):
                raise _unwanted("plan", "FaultyReply or None", fault)
            if fault is not None:
                self._left = deque(fault._sent(reply))
        return self._left.popleft() if self._left else None


def _terminal_of(terminal: Union[Terminal, Recorder, Faulty]) -> Terminal:
    """The terminal that a recorder keeps or that is faulty."""
    while not isinstance(terminal, Terminal):
        terminal = terminal.terminal
    return terminal


# --- how terminals are stepped


class _OneByOne:
    """Terminals of which some are recorded or faulty: each takes each event by a call of its own."""

    def __init__(self, terminals: dict[int, Union[Terminal, Recorder, Faulty]]) -> None:
        self._terminals = terminals

    def begin(self) -> None:
        """Called before each message."""

    def tell(self, event: Event, but: Collection[int] = ()) -> dict[int, Union[Answer, Word, Noise]]:
        """Tells an event to all terminals except `but`, and returns the answers by their addresses."""
        answers = {address: terminal.step(event) for address, terminal in self._terminals.items() if address not in but}
        return {address: answer for address, answer in answers.items() if answer is not None}

    def slot(self) -> dict[Bus, _Heard]:
        """The time of one word: what is on each bus. Each terminal hears it, unless it sends there itself."""
        answers = self.tell(Slot()).items()
        sent = {address: answer.heard() if isinstance(answer, Sent) else answer for address, answer in answers}
        heard: dict[Bus, _Heard] = {}
        for bus in Bus:
            words = {address: word for address, word in sent.items() if isinstance(word, (Word, Noise)) and word.bus == bus}
            if words:
                heard[bus] = Noise(bus) if len(words) > 1 else next(iter(words.values()))
                self.tell(heard[bus], but=words)
        return heard


class _Together:
    """Terminals that are stepped in one call, on a bus of their own, where each is as long as no other controller takes it over."""

    def __init__(self, terminals: dict[int, Terminal]) -> None:
        self._terminals = terminals
        self._bus = TerminalBus()

    def __getstate__(self) -> dict[str, Any]:
        return {"_terminals": self._terminals, "_bus": TerminalBus()}

    def begin(self) -> None:
        """Takes the terminals over where they are elsewhere. Called before each message."""
        if not self._bus._seats(self._terminals.values()):
            self._bus = TerminalBus._seating(self._terminals.values())

    def tell(self, event: Event) -> dict[int, Union[Answer, Word, Noise]]:
        """Tells an event to all terminals, and returns the answers by their addresses."""
        return dict(self._bus.step(event))

    def slot(self) -> dict[Bus, _Heard]:
        """The time of one word: what is on each bus. Each terminal hears it, unless it sends there itself."""
        heard: dict[Bus, _Heard] = {}
        for answer in self.tell(Slot()).values():
            if isinstance(answer, Sent):
                heard[answer.bus] = Noise(answer.bus) if answer.bus in heard else answer.heard()
        return heard


def _is_plain(terminal: Union[Terminal, Recorder, Faulty]) -> bool:
    """Whether a terminal takes events by `Terminal.step` itself."""
    return isinstance(terminal, Terminal) and type(terminal).step is Terminal.step


# --- the bus controller


class ReplyError(enum.Enum):
    """What a bus controller sees wrong in a reply.

    - `NO_RESPONSE`: no status word came before the no-response time-out (4.3.3.9).
    - `INVALID_WORD`: a word has a wrong sync or parity bit, or is noise, as when two terminals send at once (4.4.1.1).
    - `ANOTHER_ADDRESS`: the status word has another address (4.3.3.5.3.2).
    - `MESSAGE_ERROR`: message error is set (4.3.3.5.3.3). With mode codes 2 and 18 it belongs to the previous message.
    - `WORD_COUNT`: more or fewer data words than asked for; with message error (4.4.3.4) or busy (4.3.3.5.3.8), none is correct too.
    """

    NO_RESPONSE = "no response"
    INVALID_WORD = "invalid word"
    ANOTHER_ADDRESS = "status of another address"
    MESSAGE_ERROR = "message error"
    WORD_COUNT = "wrong word count"


@dataclass(frozen=True)
class Result:
    """What a bus controller sees of a message, and what terminals hand over to their subsystems at its end.

    `status` is the status word of the terminal that got the command; in a transfer, of the receiving terminal. It is None if no
    valid status word came, and for a broadcast, which has none. `transmitter` is the status word of the transmitting terminal in
    a transfer. `words` are the valid data words that came, and `errors` is what was wrong. `handed` has what each terminal handed
    over, by its address: `Received`, `Synchronize`, `SelfTest` or `BusControl`.
    """

    status: Optional[Status]
    words: tuple[int, ...]
    errors: tuple[ReplyError, ...]
    handed: dict[int, list[HandedOver]]
    transmitter: Optional[Status] = None


def _valid(words: list[_Heard], sync: Sync) -> list[int]:
    """The bits of the words that are valid (4.4.1.1) and have this sync."""
    with_sync = [word for word in words if isinstance(word, Word) and word.sync == sync]
    return [word.bits for word in with_sync if word.parity in (None, parity(word.bits))]


def _read(reply: list[_Heard], address: int, count: int) -> tuple[Optional[Status], list[int], list[ReplyError]]:
    """The status word and the data words of a reply that should have this address and this many data words; and what is wrong."""
    if not reply:
        return None, [], [ReplyError.NO_RESPONSE]
    first, data, words = _valid(reply[:1], Sync.COMMAND), _valid(reply[1:], Sync.DATA), len(reply) - 1
    status = Status.from_bits(first[0]) if first else None
    may_lack = status is not None and (status.message_error or status.busy)
    found = {
        ReplyError.INVALID_WORD: status is None or len(data) < words,
        ReplyError.ANOTHER_ADDRESS: status is not None and status.address != address,
        ReplyError.MESSAGE_ERROR: status is not None and status.message_error,
        ReplyError.WORD_COUNT: words != count and not (words == 0 and may_lack),
    }
    return status, data, [error for error, holds in found.items() if holds]


class BusController:
    """A bus controller and the terminals on its two buses, by their addresses, 0 to 30, which have to be those of their
    profiles. Messages go one after the other, over bus A or over the one that `bus` names. It is for one thread at a time.

    Each silence is one gap, and if no reply follows it, the no-response time-out is one more. A word is heard by all but its
    sender; two words at once are noise. While the controller waits for a reply, time passes in slots.

    If each is a `Terminal`, they are stepped together, on a `TerminalBus`: the first message takes their states over, and from then on
    each `Terminal` is the one on the bus. No other thread may use them in that message. With a `Recorder`, a `Faulty` or a subclass
    that has a `step` of its own, each is stepped by itself.
    """

    def __init__(self, terminals: Mapping[int, Union[Terminal, Recorder, Faulty]]) -> None:
        if not isinstance(terminals, Mapping):
            raise _unwanted("terminals", "a mapping from addresses to terminals", terminals)
        self._terminals = {_number("address", address, 0, 30): terminal for address, terminal in terminals.items()}
        for terminal in self._terminals.values():
            if not isinstance(terminal, (Terminal, Recorder, Faulty)):
                raise _unwanted("terminals", "a Terminal, a Recorder or a Faulty", terminal)
        if len(set(map(id, self._terminals.values()))) < len(self._terminals):
            raise ValueError("terminals: a terminal of its own is wanted for each address")
        for address, terminal in self._terminals.items():
            if (own := _terminal_of(terminal).address) != address:
                raise ValueError(f"terminals: the profile of the terminal at address {address} has address {own}")
        self._line = _Together(self._terminals) if all(map(_is_plain, self._terminals.values())) else _OneByOne(self._terminals)
        self._handed: dict[int, list[HandedOver]] = {}
        # the buses that have had a word since their last gap
        self._in_use: set[Bus] = set()

    def receive(self, rt: int, subaddress: int, words: Iterable[int], *, bus: Bus = Bus.A) -> Result:
        """Tells a terminal, or all by address 31, to receive 1 to 32 data words (4.3.3.6.1, 4.3.3.6.7.1). `subaddress`: 1 to 30."""
        address, data = _number("rt", rt, 0, BROADCAST), _words(words)
        return self._message(bus, [command(address, False, subaddress, len(data))], data, [(address, 0)])

    def transmit(self, rt: int, subaddress: int, count: int, *, bus: Bus = Bus.A) -> Result:
        """Tells a terminal to transmit `count` data words, 1 to 32 (4.3.3.6.2). `rt` is 0 to 30, `subaddress` 1 to 30."""
        address = _number("rt", rt, 0, 30)
        return self._message(bus, [command(address, True, subaddress, count)], [], [(address, count)])

    def mode(
        self, rt: int, code: int, word: Optional[int] = None, *, transmit: Optional[bool] = None, subaddress: int = 0,
        bus: Bus = Bus.A,
    ) -> Result:  # fmt: skip
        """Sends a mode code, 0 to 31, to a terminal, or to all by address 31 (4.3.3.6.4 to 4.3.3.6.6, 4.3.3.6.7.3, 4.3.3.6.7.4).
        A data word goes with a code of 16 or more whose T/R bit is 0, and with no other. `transmit` and `subaddress` are as in
        `mode_command`."""
        address = _number("rt", rt, 0, BROADCAST)
        bits = mode_command(address, code, transmit, subaddress)
        has_word, transmits = bits >> 4 & 1, bits >> 10 & 1
        if (word is not None) != (has_word and not transmits):
            wanted = "a" if word is None else "no"
            raise ValueError(f"word: {wanted} data word is wanted for mode code {code} with T/R bit {transmits}")
        data = [] if word is None else [_number("word", word, 0, 0xFFFF)]
        return self._message(bus, [bits], data, [(address, has_word & transmits)])

    def transfer(self, to: tuple[int, int], from_: tuple[int, int], count: int, *, bus: Bus = Bus.A) -> Result:
        """Tells a terminal to transmit `count` data words, 1 to 32, to another one, or to all others by address 31 (4.3.3.6.3,
        4.3.3.6.7.2). `to` and `from_` are each an address and a subaddress, 1 to 30."""
        receiver, transmitter = _place("to", to, BROADCAST), _place("from_", from_, 30)
        if receiver[0] == transmitter[0]:
            raise ValueError("from_: another terminal than that of `to` is wanted")
        commands = [command(receiver[0], False, receiver[1], count), command(transmitter[0], True, transmitter[1], count)]
        return self._message(bus, commands, [], [(transmitter[0], count), (receiver[0], 0)])

    def _message(self, bus: Bus, commands: list[int], words: list[int], awaited: list[tuple[int, int]]) -> Result:
        """Sends a message and returns its result."""
        if not isinstance(bus, Bus):
            raise _unwanted("bus", "Bus.A or Bus.B", bus)
        self._handed = {}
        self._line.begin()
        self._silence(bus)
        for event in [Word(bus, Sync.COMMAND, bits) for bits in commands] + [Word(bus, Sync.DATA, bits) for bits in words]:
            self._in_use.add(bus)
            self._line.tell(event)
        self._silence(bus)
        return self._result(bus, awaited)

    def _result(self, bus: Bus, awaited: list[tuple[int, int]]) -> Result:
        """Waits for the replies of these addresses, each with this many data words, up to the first that does not come."""
        statuses: dict[int, Optional[Status]] = {}
        words: list[int] = []
        errors: list[ReplyError] = []
        for address, count in awaited:
            if address == BROADCAST or ReplyError.NO_RESPONSE in errors:
                break
            statuses[address], data, found = _read(self._reply(bus), address, count)
            words += data
            errors += found
        transmitter = statuses.get(awaited[0][0]) if len(awaited) > 1 else None
        return Result(statuses.get(awaited[-1][0]), tuple(words), tuple(errors), self._handed, transmitter)

    def _reply(self, bus: Bus) -> list[_Heard]:
        """What comes on a bus up to the next silence. If nothing comes, the no-response time-out is a gap (4.3.3.9)."""
        reply: list[_Heard] = []
        while (heard := self._slot().get(bus)) is not None:
            reply.append(heard)
        if not reply:
            self._gap(bus)
        return reply

    def _slot(self) -> dict[Bus, _Heard]:
        """The time of one word: what is on each bus. A bus on which nothing is has a silence."""
        heard = self._line.slot()
        self._in_use.update(heard)
        for bus in Bus:
            if bus not in heard:
                self._silence(bus)
        return heard

    def _silence(self, bus: Bus) -> None:
        """A gap on a bus, unless there has been one since its last word."""
        if bus in self._in_use:
            self._gap(bus)

    def _gap(self, bus: Bus) -> None:
        """A gap on a bus. What terminals hand over is kept for the result."""
        self._in_use.discard(bus)
        for address, answer in self._line.tell(Gap(bus)).items():
            if isinstance(answer, (Received, Synchronize, SelfTest, BusControl)):
                self._handed.setdefault(address, []).append(answer)
