r"""A proved remote terminal of MIL-STD-1553B, and the canonical texts of its profiles.

A terminal is made from a profile text or a canonical text and takes events. Most events have no answer. A message ends at its
gap. A reply takes time: each slot sends its next word.

>>> terminal = Terminal("address = 5")
>>> terminal.word(Bus.A, Sync.COMMAND, 0x2C02)
>>> terminal.gap(Bus.A)
>>> terminal.slot()
Sent(bus=<Bus.A: 0>, sync=<Sync.COMMAND: 0>, bits=10240)
>>> terminal.slot()

A script plays many events and returns the answers:

>>> Terminal("address = 5").play(["A c 2c02", "A gap", "slot"])
[(2, Sent(bus=<Bus.A: 0>, sync=<Sync.COMMAND: 0>, bits=10240))]

A refused text raises a fault with a number, which stays when the wording of faults changes:

>>> check("adress = 5")
Traceback (most recent call last):
  ...
rt1553.Refused: profile: root: unknown key
>>> try:
...     check("adress = 5")
... except Refused as refused:
...     print(refused.kind.name, refused.number, refused.line)
PROFILE 2 0

Texts that mean the same terminal have the same canonical text:

>>> compare("address = 5", "address = 0x05 # the same") is None
True
>>> compare("address = 5", "address = 6")
'A c 2c02\nA gap\nslot\n'
>>> canonical("address = 5").splitlines()[:2]
['rt1553 2', 'address 05']
"""

from __future__ import annotations

import copy
import ctypes
import enum
import operator
import pathlib
import struct
import threading
from collections.abc import Iterable
from dataclasses import dataclass
from typing import Any, Callable, Optional, TypeVar, Union, cast

__all__ = [
    "Answer", "Bit", "Bus", "BusControl", "Event", "Fault", "FaultKind", "Flag", "FlagName", "Gap", "Message", "NoEvent", "NoMemory",
    "NoRoom", "Noise",
    "Received", "Refused", "SelfTest", "Sent", "Slot", "Sync", "Synchronize", "Terminal", "TerminalBus", "Vector", "Word", "Write",
    "canonical", "check", "compare", "packed", "read_event", "run", "version",
]  # fmt: skip

Text = Union[str, bytes, bytearray, memoryview]
_BYTES = (bytes, bytearray, memoryview)


class Bus(enum.IntEnum):
    """One of the two buses."""

    A = 0
    B = 1


class Sync(enum.IntEnum):
    """The sync of a word: command and status sync, or data sync."""

    COMMAND = 0
    DATA = 1


class FlagName(enum.IntEnum):
    """A condition that the subsystem reports and the status word shows."""

    SERVICE = 0
    BUSY = 1
    SUBSYSTEM = 2
    TERMINAL = 3


# --- faults


class FaultKind(enum.IntEnum):
    """The kind of a fault: what it is about. `NoRoom` has NONE, since it says nothing about any text."""

    NONE = 0
    PROFILE = 1
    CANONICAL_TEXT = 2
    MEMORY = 3
    SCRIPT = 4
    STATE = 5


class Fault(Exception):
    """Why a call was not done. `number` is its number among the faults of its kind (docs/faults.md). `line` is the line of the
    canonical text, script or saved state that it names, or 0. If a run was stopped, `transcript` has the answers before the
    fault."""

    def __init__(self, text: str, kind: FaultKind = FaultKind.NONE, number: int = 0, line: int = 0) -> None:
        super().__init__(text)
        self.kind, self.number, self.line, self.transcript = kind, number, line, ""


class NoEvent(ValueError):
    """An item given to `Terminal.play` means no event. `answers` has the answers to the events before it, which are played."""

    # an exception is pickled as its text and its attributes, so the text alone has to be enough for it
    def __init__(self, text: str, answers: "Iterable[tuple[int, Answer]]" = ()) -> None:
        super().__init__(text)
        self.answers = list(answers)


class Refused(Fault):
    """A text or a saved state is refused, for its first fault."""


class NoMemory(Fault):
    """Out of memory, which says nothing about the texts."""


class NoRoom(Fault):
    """A transcript is longer than its room. The message says how many bytes it has."""


# --- events and answers

# an event as rt1553.h lays it out: what, bus, sync, parity, subaddress, number, flag, value, bits
_EVENT = struct.Struct("=BBBBBBBBH")

# the ranges of the fields of events and answers
_RANGES = {
    "bus": (0, 1), "sync": (0, 1), "parity": (0, 1), "bits": (0, 0xFFFF), "word": (0, 0xFFFF), "subaddress": (1, 30), "number": (1, 32),
    "flag": (0, 3), "value": (0, 1),
}  # fmt: skip

# the bytes before the bits, for each event that there is
_FRONTS = frozenset(
    _EVENT.pack(*numbers, 0)[:8]
    for numbers in [
        *((0, bus, sync, parity, 0, 0, 0, 0) for bus in (0, 1) for sync in (0, 1) for parity in (0, 1, 2)),
        *((what, bus, 0, 0, 0, 0, 0, 0) for what in (1, 2) for bus in (0, 1)),
        *((3, 0, 0, 0, subaddress, number, 0, 0) for subaddress in range(1, 31) for number in range(1, 33)),
        *((what, 0, 0, 0, 0, 0, 0, 0) for what in (4, 5, 7)),
        *((6, 0, 0, 0, 0, 0, flag, value) for flag in range(4) for value in (0, 1)),
    ]
)


def _kind(value: object) -> str:
    """The name of a value's type, for a TypeError."""
    return type(value).__name__


def _index(name: str, value: Any) -> int:
    """A field as a number of any size. TypeError if it is not a number."""
    if hasattr(type(value), "__index__"):
        return int(operator.index(value))
    wanted = "{}a number from {} to {}".format("None or " if name == "parity" else "", *_RANGES[name])
    raise TypeError(f"{name}: {wanted} is wanted, not {_kind(value)}")


def _number(name: str, value: object) -> int:
    """A field as a number. TypeError if it is not a number, ValueError if it is out of range."""
    number, (least, most) = _index(name, value), _RANGES[name]
    if not least <= number <= most:
        raise ValueError(f"{name} is not from {least} to {most}")
    return number


def _bus(value: object) -> str:
    return "AB"[_number("bus", value)]


def _hex(value: object, name: str = "bits") -> str:
    return f"{_number(name, value):04x}"


class _Event:
    """What all events have in common."""

    def _packed(self) -> bytes:
        raise NotImplementedError

    def _check(self) -> None:
        """TypeError if a field is not a number. Ranges are not checked."""
        for name in _RANGES:
            value = getattr(self, name, 0)
            if not (name == "parity" and value is None):
                _index(name, value)


@dataclass(frozen=True)
class Word(_Event):
    """A word on a bus, with the given parity bit or with the right one.

    >>> Word(Bus.A, Sync.COMMAND, 0x2c02).line()
    'A c 2c02'
    >>> Word(Bus.B, Sync.DATA, 0, parity=0).line()
    'B d 0000 0'
    """

    bus: Bus
    sync: Sync
    bits: int
    parity: Optional[int] = None

    def line(self) -> str:
        """The event as a line of a script."""
        parity = "" if self.parity is None else f" {_number('parity', self.parity)}"
        return f"{_bus(self.bus)} {'cd'[_number('sync', self.sync)]} {_hex(self.bits)}{parity}"

    def _packed(self) -> bytes:
        # 2 means the right parity bit in the library, but is not a parity bit here
        parity = 2 if self.parity is None else 3 if self.parity == 2 else self.parity
        return _EVENT.pack(0, self.bus, self.sync, parity, 0, 0, 0, 0, self.bits)


@dataclass(frozen=True)
class Noise(_Event):
    """Something on a bus that is not a word."""

    bus: Bus

    def line(self) -> str:
        """The event as a line of a script."""
        return f"{_bus(self.bus)} noise"

    def _packed(self) -> bytes:
        return _EVENT.pack(1, self.bus, 0, 0, 0, 0, 0, 0, 0)


@dataclass(frozen=True)
class Gap(_Event):
    """A gap on a bus, which ends a message."""

    bus: Bus

    def line(self) -> str:
        """The event as a line of a script."""
        return f"{_bus(self.bus)} gap"

    def _packed(self) -> bytes:
        return _EVENT.pack(2, self.bus, 0, 0, 0, 0, 0, 0, 0)


@dataclass(frozen=True)
class Write(_Event):
    """The subsystem writes word `number`, 1 to 32, of `subaddress`, 1 to 30."""

    subaddress: int
    number: int
    bits: int

    def line(self) -> str:
        """The event as a line of a script."""
        subaddress, number = _number("subaddress", self.subaddress), _number("number", self.number)
        return f"write {subaddress:02d} {number:02d} {_hex(self.bits)}"

    def _packed(self) -> bytes:
        return _EVENT.pack(3, 0, 0, 0, self.subaddress, self.number, 0, 0, self.bits)


@dataclass(frozen=True)
class Vector(_Event):
    """The subsystem gives a new vector word."""

    bits: int

    def line(self) -> str:
        """The event as a line of a script."""
        return f"vector {_hex(self.bits)}"

    def _packed(self) -> bytes:
        return _EVENT.pack(4, 0, 0, 0, 0, 0, 0, 0, self.bits)


@dataclass(frozen=True)
class Bit(_Event):
    """The subsystem gives a new BIT word."""

    bits: int

    def line(self) -> str:
        """The event as a line of a script."""
        return f"bit {_hex(self.bits)}"

    def _packed(self) -> bytes:
        return _EVENT.pack(5, 0, 0, 0, 0, 0, 0, 0, self.bits)


@dataclass(frozen=True)
class Flag(_Event):
    """The subsystem sets or clears a flag."""

    flag: FlagName
    value: bool

    def line(self) -> str:
        """The event as a line of a script."""
        return f"flag {FlagName(_number('flag', self.flag)).name.lower()} {_number('value', self.value)}"

    def _packed(self) -> bytes:
        return _EVENT.pack(6, 0, 0, 0, 0, 0, self.flag, self.value, 0)


@dataclass(frozen=True)
class Slot(_Event):
    """The time of one word of a reply: the next word is sent."""

    def line(self) -> str:
        """The event as a line of a script."""
        return "slot"

    def _packed(self) -> bytes:
        return _EVENT.pack(7, 0, 0, 0, 0, 0, 0, 0, 0)


Event = Union[Word, Noise, Gap, Write, Vector, Bit, Flag, Slot]


@dataclass(frozen=True)
class Sent:
    """A word is sent. The status word has command sync.

    >>> Sent(Bus.A, Sync.COMMAND, 0x2800).line()
    'A s 2800'
    """

    bus: Bus
    sync: Sync
    bits: int

    def line(self) -> str:
        """The answer as a line of a transcript."""
        return f"{_bus(self.bus)} {'sd'[_number('sync', self.sync)]} {_hex(self.bits)}"

    def heard(self) -> Word:
        """The word as the other terminals on the bus hear it."""
        return Word(self.bus, self.sync, self.bits)


@dataclass(frozen=True)
class Received:
    """Words that were received are handed over."""

    broadcast: bool
    subaddress: int
    words: tuple[int, ...]

    def line(self) -> str:
        """The answer as a line of a transcript."""
        words = "".join(f" {_hex(word, 'word')}" for word in self.words)
        return f"hand receive {'broadcast' if self.broadcast else 'own'} {_number('subaddress', self.subaddress):02d}{words}"


@dataclass(frozen=True)
class Synchronize:
    """Synchronize is handed over, or synchronize with a word."""

    word: Optional[int] = None

    def line(self) -> str:
        """The answer as a line of a transcript."""
        return "hand sync" if self.word is None else f"hand sync {_hex(self.word, 'word')}"


@dataclass(frozen=True)
class SelfTest:
    """Initiate self test is handed over."""

    def line(self) -> str:
        """The answer as a line of a transcript."""
        return "hand self-test"


@dataclass(frozen=True)
class BusControl:
    """The offer of dynamic bus control was accepted."""

    def line(self) -> str:
        """The answer as a line of a transcript."""
        return "hand bus-control"


Answer = Union[Sent, Received, Synchronize, SelfTest, BusControl]

# --- the other structs of rt1553.h

_ANSWER = struct.Struct("=BBH?BBx32H")  # what, bus, bits, broadcast, subaddress, count, words
_PLACE = struct.Struct("=Q")
_FAULT = struct.Struct("=BBB5xQ136s")  # kind, number, length, line, text
_VERSION = struct.Struct("=HHH")  # major, minor, canonical text

_DONE, _DIFFER, _REFUSED, _NO_MEMORY, _NO_ROOM = 0, 1, 2, 4, 5
_CANONICAL_ROOM, _SCRIPT_ROOM, _STATE_ROOM = 7680, 4608, 13056
_BUS_STATE_ROOM = 32 + 31 * _STATE_ROOM
# limits of scripts: the bytes of a line, the lines, and the bytes of the answer to a line
_LONGEST_LINE, _MOST_LINES, _LONGEST_ANSWER = 64, 1048576, 186

_library = ctypes.CDLL(str(pathlib.Path(__file__).with_name("librt1553.so")))
_size, _bytes, _at = ctypes.c_size_t, ctypes.c_char_p, ctypes.c_void_p
_sized = ctypes.POINTER(_size)


def _call(name: str, result: object, *arguments: object) -> Callable[..., int]:
    """A function of the library."""
    call = getattr(_library, f"rt1553_{name}")
    call.argtypes, call.restype = arguments, result
    return cast("Callable[..., int]", call)


_version = _call("version", None, _at)
_check = _call("check", ctypes.c_uint8, _bytes, _size, _at)
_canonical = _call("canonical", ctypes.c_uint8, _bytes, _size, _at, _size, _sized, _at)
_compare = _call("compare", ctypes.c_uint8, _bytes, _size, _bytes, _size, _at, _size, _sized, _at)
_run = _call("run", ctypes.c_uint8, _bytes, _size, _bytes, _size, _at, _size, _sized, _at)
_new = _call("terminal_new", ctypes.c_uint8, _bytes, _size, ctypes.POINTER(_at), _at)
_copy = _call("terminal_copy", ctypes.c_uint8, _at, ctypes.POINTER(_at), _at)
_save = _call("terminal_save", ctypes.c_uint8, _at, _at, _size, _sized, _at)
_restore = _call("terminal_restore", ctypes.c_uint8, _bytes, _size, ctypes.POINTER(_at), _at)
_play = _call("terminal_play", _size, _at, _at, _size, _at, _at, _size, _at)
_bus_new = _call("bus_new", ctypes.c_uint8, ctypes.POINTER(_at), _at)
_bus_join = _call("bus_join", ctypes.c_uint8, _at, _at)
_bus_step = _call("bus_step", ctypes.c_uint8, _at)
_bus_copy = _call("bus_copy", ctypes.c_uint8, _at, ctypes.POINTER(_at), _at)
_bus_message = _call("bus_message", ctypes.c_uint8, _at, _at, _size, _at)
_bus_terminal = _call("bus_terminal", ctypes.c_uint8, _at, _size, ctypes.POINTER(_at), _at)
_bus_save = _call("bus_save", ctypes.c_uint8, _at, _at, _size, _sized, _at)
_bus_restore = _call("bus_restore", ctypes.c_uint8, _bytes, _size, ctypes.POINTER(_at), _at)
_free = ctypes.CDLL(None).free
_free.argtypes, _free.restype = [_at], None


def _of(text: Text) -> bytes:
    """The bytes of a text, exactly as many as its length says."""
    if isinstance(text, str):
        return str.encode(text)
    if isinstance(text, _BYTES):
        return memoryview(text).tobytes()
    raise TypeError(f"a text is wanted, as str or bytes, not {_kind(text)}")


def _told(status: int, fault: ctypes.Array[ctypes.c_char], *profiles: bytes) -> Fault:
    """The fault of a refused call with these texts of profiles, as an exception."""
    kind, number, length, line, text = _FAULT.unpack(fault)
    said = text[:length].decode().rstrip("\n")
    # no text of a profile is one line without a key
    if kind == FaultKind.PROFILE and any(it and b"\n" not in it and b"=" not in it for it in profiles):
        said += " (the text of a profile is wanted, and this may be the name of a file)"
    return (NoMemory if status == _NO_MEMORY else Refused)(said, FaultKind(kind), number, line)


def version() -> tuple[int, int, int]:
    """The version of the library, major and minor, and the version of the canonical texts that it writes.

    >>> version()
    (0, 1, 2)
    """
    to = ctypes.create_string_buffer(_VERSION.size)
    _version(to)
    major, minor, canonical_text = _VERSION.unpack(to)
    return major, minor, canonical_text


# --- whole texts


def check(text: Text) -> None:
    """Raises `Refused` if a profile text or a canonical text is not accepted."""
    text, fault = _of(text), ctypes.create_string_buffer(_FAULT.size)
    if status := _check(text, len(text), fault):
        raise _told(status, fault, text)


def canonical(text: Text) -> str:
    """The canonical text of a text: equal for two texts exactly if they mean the same terminal."""
    text, fault = _of(text), ctypes.create_string_buffer(_FAULT.size)
    to, length = ctypes.create_string_buffer(_CANONICAL_ROOM), _size()
    if status := _canonical(text, len(text), to, len(to), ctypes.byref(length), fault):
        raise _told(status, fault, text)
    return to.raw[: length.value].decode()


def compare(first: Text, second: Text) -> Optional[str]:
    """None if two texts mean the same terminal, else a script that the two answer differently from power-up."""
    one, other, fault = _of(first), _of(second), ctypes.create_string_buffer(_FAULT.size)
    to, length = ctypes.create_string_buffer(_SCRIPT_ROOM), _size()
    status = _compare(one, len(one), other, len(other), to, len(to), ctypes.byref(length), fault)
    if status == _DONE:
        return None
    if status == _DIFFER:
        return to.raw[: length.value].decode()
    raise _told(status, fault, one, other)


def _room(room: object) -> int:
    """A room as a number of bytes."""
    if not isinstance(room, int):
        raise TypeError(f"room: a number of bytes is wanted, not {_kind(room)}")
    if room < 0:
        raise ValueError("room: a number of bytes isn't negative")
    return int(room)


def run(text: Text, script: Text, room: Optional[int] = None) -> str:
    """The transcript of a script, played to the terminal of a text from power-up. `room` is the number of bytes that it may have;
    without it any transcript of this script has room. ValueError if it is negative. A fault has the answers before it in
    `transcript`. `NoRoom` says how many bytes are needed.

    >>> run("address = 5", "A c 2c02\\nA gap\\nslot\\n")
    'A s 2800\\n'
    """
    text, script, fault = _of(text), _of(script), ctypes.create_string_buffer(_FAULT.size)
    # a line of a script has at most one line of a transcript as its answer, so a larger room is never filled
    enough = _LONGEST_ANSWER * min(script.count(b"\n") + 1, _MOST_LINES)
    room = enough if room is None else min(_room(room), enough)
    to, length = ctypes.create_string_buffer(max(room, 1)), _size()
    status = _run(text, len(text), script, len(script), to, room, ctypes.byref(length), fault)
    if status == _NO_ROOM:
        raise NoRoom(f"no room: {length.value} bytes are needed")
    transcript = ctypes.string_at(to, length.value).decode()
    if status:
        why = _told(status, fault, text)
        why.transcript = transcript
        raise why
    return transcript


# --- terminals


def packed(event: Event) -> bytes:
    """An event in the layout of the library. ValueError if it is not an event, because a number is out of range."""
    if not isinstance(event, _Event):
        raise TypeError(f"an event is wanted, not {_kind(event)}")
    try:
        data = event._packed()
    except struct.error:
        data = b""
    if data[:8] in _FRONTS and len(data) == _EVENT.size:
        return data
    event._check()
    raise ValueError(f"no event: {event!r}")


_FLAGS = {name.name.lower(): name for name in FlagName}
_HEX = set("0123456789abcdefABCDEF")


def _word_of(digits: str) -> int:
    if len(digits) != 4 or not _HEX.issuperset(digits):
        raise ValueError
    return int(digits, 16)


def _number_of(digits: str) -> int:
    if len(digits) != 2 or not (digits.isascii() and digits.isdigit()):
        raise ValueError
    return int(digits)


def _read(line: str) -> Optional[Event]:
    """The event of a script line, whose numbers may be out of range; None if the line does not have the form of an event."""
    fields = line.split(" ")
    try:
        if fields == ["slot"]:
            return Slot()
        if fields[0] in ("A", "B"):
            bus, rest = Bus[fields[0]], fields[1:]
            if rest == ["gap"]:
                return Gap(bus)
            if rest == ["noise"]:
                return Noise(bus)
            sync = {"c": Sync.COMMAND, "d": Sync.DATA}[rest[0]]
            parity = {(): None, ("0",): 0, ("1",): 1}[tuple(rest[2:])]
            return Word(bus, sync, _word_of(rest[1]), parity)
        if fields[0] == "write":
            subaddress, number, bits = fields[1:]
            return Write(_number_of(subaddress), _number_of(number), _word_of(bits))
        if fields[0] in ("vector", "bit"):
            (bits,) = fields[1:]
            return Vector(_word_of(bits)) if fields[0] == "vector" else Bit(_word_of(bits))
        if fields[0] == "flag":
            flag, value = fields[1:]
            return Flag(_FLAGS[flag], {"0": False, "1": True}[value])
    except (KeyError, IndexError, ValueError):
        pass
    return None


def read_event(line: str) -> Event:
    """The event of a script line without its line feed. ValueError if the line is not an event.

    >>> read_event("A c 2c02")
    Word(bus=<Bus.A: 0>, sync=<Sync.COMMAND: 0>, bits=11266, parity=None)
    >>> read_event("write 03 02 00bb")
    Write(subaddress=3, number=2, bits=187)
    """
    if not isinstance(line, str):
        raise TypeError(f"a line of a script is wanted, as str, not {_kind(line)}")
    event = _read(line)
    if event is None or event._packed()[:8] not in _FRONTS:
        raise ValueError(f"no line of a script: {line!r}")
    return event


def _packed_line(line: bytes) -> bytes:
    """The event of a script line in the layout of the library; nothing if the line is empty or a comment."""
    if not line or line[:1] == b"#":
        return b""
    return read_event(line.decode("ascii"))._packed()


def _packed_row(number_and_line: tuple[int, bytes]) -> bytes:
    """The same for a line of a whole script. The ValueError says what `run` says of the line."""
    number, line = number_and_line
    if number > _MOST_LINES:
        raise ValueError("script: too many lines")
    if len(line) > _LONGEST_LINE:
        raise ValueError(f"script: line {number} is too long")
    try:
        return _packed_line(line)
    except ValueError:
        raise ValueError(f"script: line {number}") from None


def _packed_piece(piece: Union[Event, Text]) -> bytes:
    """The events of an item of a sequence."""
    if isinstance(piece, str):
        line = _of(piece).removesuffix(b"\n")
        if len(line) > _LONGEST_LINE or b"\n" in line:
            raise ValueError(f"no line of a script: {piece!r}")
        return _packed_line(line)
    if isinstance(piece, _BYTES):
        events = _of(piece)
        if len(events) % _EVENT.size:
            raise ValueError("bytes that `packed` has not made")
        return events
    if isinstance(piece, _Event):
        return packed(piece)
    raise TypeError(f"an event, a line or bytes of `packed` is wanted, not {_kind(piece)}")


def _gathered(packed_of: Callable[[Any], bytes], row: Iterable[Any]) -> tuple[bytes, Optional[str]]:
    """The events of a sequence up to the first item that is none, and why it is none. Exceptions of the sequence pass through."""
    gathered: list[bytes] = []
    for piece in row:
        try:
            gathered.append(packed_of(piece))
        except ValueError as fault:
            return b"".join(gathered), str(fault)
    return b"".join(gathered), None


def _events_of(script: object) -> tuple[bytes, Optional[str]]:
    """The events of the argument of `Terminal.play`, as in `_gathered`."""
    if isinstance(script, str):
        lines = _of(script).split(b"\n")
        return _gathered(_packed_row, enumerate(lines if lines[-1] else lines[:-1], 1))
    if isinstance(script, _BYTES):
        return _gathered(_packed_piece, [script])
    if hasattr(type(script), "__iter__") or hasattr(type(script), "__getitem__"):
        return _gathered(_packed_piece, script)  # type: ignore[arg-type]
    raise TypeError(f"a script, as str, or a row of events, lines and bytes is wanted, not {_kind(script)}")


_BUSES, _SYNCS = tuple(Bus), tuple(Sync)


def _answer_at(front: ctypes.Array[ctypes.c_char], at: int) -> Optional[Answer]:
    """The answer at this place."""
    what = front[at][0]
    if what == 0:
        return None
    _, bus, bits, broadcast, subaddress, count, *words = _ANSWER.unpack_from(front, at)
    if what in (1, 2):
        return Sent(_BUSES[bus], _SYNCS[what - 1], bits)
    if what == 3:
        return Received(broadcast, subaddress, tuple(words[:count]))
    if what in (4, 5):
        return Synchronize(bits if what == 5 else None)
    return SelfTest() if what == 6 else BusControl()


class _Memory:
    """The memory of a terminal or of a bus. It is freed when nothing refers to it any more, so never during a call on it."""

    at: Any = None

    def __init__(self, make: Callable[..., int], *arguments: object, profile: bytes = b"") -> None:
        # calls of several threads come one after the other; a call in a signal handler comes between two others
        self.lock = threading.RLock()
        self.at, fault = _at(), ctypes.create_string_buffer(_FAULT.size)
        if status := make(*arguments, ctypes.byref(self.at), fault):
            raise _told(status, fault, profile)

    def __del__(self, free: Callable[[Any], object] = _free) -> None:
        free(self.at)


def _saved(save: Callable[..., int], memory: _Memory, room: int) -> bytes:
    """The saved state of a terminal or of a bus."""
    fault, to, length = ctypes.create_string_buffer(_FAULT.size), ctypes.create_string_buffer(room), _size()
    with memory.lock:
        status = save(memory.at, to, room, ctypes.byref(length), fault)
    if status:
        raise _told(status, fault)
    return to.raw[: length.value]


def _restored(restore: Callable[..., int], state: object) -> _Memory:
    """The memory of one in a saved state."""
    if not isinstance(state, _BYTES):
        raise TypeError(f"a saved state is wanted, as bytes, not {_kind(state)}")
    data = _of(state)
    return _Memory(restore, data, len(data))


# what a step writes: an answer, its place, and the number of answers
_Stepped = ctypes.c_char * (_ANSWER.size + 2 * _PLACE.size)


_T = TypeVar("_T", bound="Terminal")


class Terminal:
    """A remote terminal, from power-up. If several threads use it, their calls come one after the other.

    `copy.copy`, `copy.deepcopy` and `pickle` make a terminal that answers every further event as this one does. Neither knows of
    the other. What a subclass has in its `__dict__` comes with it.

    >>> terminal = Terminal('''
    ... address = 5
    ... [[rule]]
    ... direction = "receive"
    ... subaddresses = 3
    ... ''')
    >>> terminal.play([Word(Bus.A, Sync.COMMAND, 0x2862), Word(Bus.A, Sync.DATA, 0x11), Word(Bus.A, Sync.DATA, 0x22)])
    []
    >>> terminal.gap(Bus.A)
    Received(broadcast=False, subaddress=3, words=(17, 34))
    >>> terminal.slot().line()
    'A s 2800'
    """

    # its own memory; or that of a bus on which it is, its place there and its address
    __memory: Optional[_Memory] = None
    __seat: Optional[tuple[_Memory, int, int]] = None

    def __init__(self, text: Text) -> None:
        # a second call makes it anew; if the text is refused, it stays as it was
        data = _of(text)
        self.__memory, self.__seat = _Memory(_new, data, len(data), profile=data), None

    def __del__(self) -> None:
        self.__memory = self.__seat = None

    @classmethod
    def restore(cls: type[_T], state: Union[bytes, bytearray, memoryview]) -> _T:
        """A terminal in a saved state, which answers every further event as the saved one does. `Refused` if the bytes are none.
        `__init__` is not called.

        >>> try:
        ...     Terminal.restore(b"rt1553-state 2")
        ... except Refused as refused:
        ...     print(refused, refused.kind.name, refused.number, refused.line)
        saved state: line 1 STATE 1 1
        """
        terminal = cls.__new__(cls)
        terminal.__memory = _restored(_restore, state)
        return terminal

    @property
    def address(self) -> int:
        """The address of its profile, 0 to 30.

        >>> Terminal("address = 5").address
        5
        """
        line = next(it for it in self.save().split(b"\n") if it.startswith(b"address "))
        return int(line.split(b" ")[1])

    def save(self) -> bytes:
        """Its saved state, a text of ASCII (docs/library.md).

        >>> terminal = Terminal("address = 5")
        >>> terminal.play(["A c 2c02", "A gap"])
        []
        >>> Terminal.restore(terminal.save()).slot()
        Sent(bus=<Bus.A: 0>, sync=<Sync.COMMAND: 0>, bits=10240)
        """
        return _saved(_save, self.__made(), _STATE_ROOM)

    def __twin(self: _T) -> _T:
        """A terminal in the same state, without what a subclass has of its own."""
        memory, terminal = self.__made(), type(self).__new__(type(self))
        with memory.lock:
            terminal.__memory = _Memory(_copy, memory.at)
        return terminal

    def __own(self) -> dict[str, Any]:
        """What a subclass has of its own."""
        return {name: value for name, value in vars(self).items() if name not in ("_Terminal__memory", "_Terminal__seat")}

    def __copy__(self: _T) -> _T:
        terminal = self.__twin()
        vars(terminal).update(self.__own())
        return terminal

    def __deepcopy__(self: _T, memo: dict[int, Any]) -> _T:
        terminal = memo[id(self)] = self.__twin()
        vars(terminal).update(copy.deepcopy(self.__own(), memo))
        return terminal

    def __reduce__(self) -> tuple[Any, ...]:
        return type(self).restore, (self.save(),), self.__own() or None

    def __made(self) -> _Memory:
        """Its memory; of one that is on a bus, the memory of a copy. RuntimeError if it has none."""
        if seat := self.__seat:
            with seat[0].lock:
                return _Memory(_bus_terminal, seat[0].at, seat[1])
        memory = self.__memory
        if memory is None:
            raise RuntimeError("this terminal was not made by `Terminal.__init__`, or it was deleted")
        return memory

    @classmethod
    def _taken(cls: type[_T], bus: _Memory, place: int) -> Optional[_T]:
        """A terminal that goes on as the one at this place of a bus; None if there is none."""
        terminal = cls.__new__(cls)
        try:
            terminal.__memory = _Memory(_bus_terminal, bus.at, place)
        except Refused:
            return None
        return terminal

    def _sit(self, memory: _Memory, place: int, address: int) -> None:
        """From now on it is the terminal at this place of a bus, and no longer where it was."""
        self.__seat, self.__memory = (memory, place, address), None

    def _sits_on(self, memory: _Memory) -> bool:
        return self.__seat is not None and self.__seat[0] is memory

    def step(self, event: Event) -> Optional[Answer]:
        """Plays an event and returns its answer, if there is one. ValueError if its numbers mean no event; then nothing changes.

        >>> Terminal("address = 5").step(Write(31, 1, 0))
        Traceback (most recent call last):
          ...
        ValueError: no event: Write(subaddress=31, number=1, bits=0)
        """
        if seat := self.__seat:
            answers = _bus_stepped(seat[0], packed(event), seat[2])
            return answers[0][1] if answers else None
        memory, data, to = self.__made(), packed(event), _Stepped()
        at = ctypes.addressof(to)
        place = at + _ANSWER.size
        with memory.lock:
            done = _play(memory.at, data, 1, at, place, 1, place + _PLACE.size)
        if not done:
            raise ValueError(f"no event: {event!r}")
        return _answer_at(to, 0)

    def word(self, bus: Bus, sync: Sync, bits: int, parity: Optional[int] = None) -> None:
        """A word on a bus, with the given parity bit or with the right one."""
        self.step(Word(bus, sync, bits, parity))

    def noise(self, bus: Bus) -> None:
        """Something on a bus that is not a word."""
        self.step(Noise(bus))

    def gap(self, bus: Bus) -> Optional[Answer]:
        """A gap on a bus. Returns what is handed over at the end of a message."""
        return self.step(Gap(bus))

    def slot(self) -> Optional[Answer]:
        """The time of one word. Returns the next word of the reply in progress."""
        return self.step(Slot())

    def write(self, subaddress: int, number: int, bits: int) -> None:
        """The subsystem writes a word that is to be transmitted."""
        self.step(Write(subaddress, number, bits))

    def vector(self, bits: int) -> None:
        """The subsystem gives a new vector word."""
        self.step(Vector(bits))

    def bit(self, bits: int) -> None:
        """The subsystem gives a new BIT word."""
        self.step(Bit(bits))

    def flag(self, flag: FlagName, value: bool) -> None:
        """The subsystem sets or clears a flag."""
        self.step(Flag(flag, value))

    def play(self, script: Union[Text, Iterable[Union[Event, Text]]]) -> list[tuple[int, Answer]]:
        """Plays many events at once and returns the answers, each with the number of its event, from 0.

        `script` is a whole script as one text, or a sequence of events, of script lines with or without line feeds, and of bytes
        that `packed` has made, one event or more in an item. The sequence is read to its end before anything is played. Empty
        lines and lines that begin with `#` do not count as events. If an item is not an event, or `run` would refuse a line of
        the script, the events before it are played and `NoEvent`, a ValueError, has their answers. TypeError if an item has
        another type; then nothing is played.

        >>> Terminal("address = 5").play(["# ask", Word(Bus.A, Sync.COMMAND, 0x2c02), "A gap", packed(Slot()) * 33])
        [(2, Sent(bus=<Bus.A: 0>, sync=<Sync.COMMAND: 0>, bits=10240))]
        """
        events, fault = _events_of(script)
        answers = self.__played(events)
        if fault is not None:
            raise NoEvent(fault, answers)
        return answers

    def __played(self, events: bytes) -> list[tuple[int, Answer]]:
        """Plays packed events. `NoEvent` at the first whose numbers mean none."""
        if self.__seat:
            return self.__played_on_bus(events)
        memory, count = self.__made(), len(events) // _EVENT.size
        room = max(min(count, 4096), 1)
        to, places, filled = ctypes.create_string_buffer(room * _ANSWER.size), (_size * room)(), _size()
        front, played, answers = ctypes.cast(ctypes.c_char_p(events), _at).value or 0, 0, []
        with memory.lock:
            while played < count:
                done = _play(memory.at, front + played * _EVENT.size, count - played, to, places, room, ctypes.addressof(filled))
                for k in range(filled.value):
                    answers.append((played + places[k], cast("Answer", _answer_at(to, k * _ANSWER.size))))
                played += done
                if played < count and filled.value < room:
                    raise NoEvent(f"no event: number {played}", answers)
        return answers

    def __played_on_bus(self, events: bytes) -> list[tuple[int, Answer]]:
        """The same of a terminal on a bus."""
        (memory, _, address), answers = cast("tuple[_Memory, int, int]", self.__seat), []
        with memory.lock:
            for number, at in enumerate(range(0, len(events), _EVENT.size)):
                told = _bus_stepped(memory, events[at : at + _EVENT.size], address)
                if told is None:
                    raise NoEvent(f"no event: number {number}", answers)
                answers += [(number, answer) for _, answer in told]
        return answers


# --- a bus of terminals

# the places of rt1553_bus and rt1553_message in rt1553.h: an answer with its address, answers behind the front, words that are sent
_BUS_ANSWER, _BUS_FRONT, _MOST_TERMINALS, _FOR_ALL = 2 + _ANSWER.size, 14, 31, 255
_SENT, _MOST_SENT, _SENDS_DATA = struct.Struct("=BBBxH"), 66, 2
_Front = ctypes.c_char * (_BUS_FRONT + _MOST_TERMINALS * _BUS_ANSWER)
_HANDED = 16 + _MOST_SENT * _SENT.size
# the whole of rt1553_message is a multiple of 8 bytes
_Came = ctypes.c_char * (-(-(_HANDED + _MOST_TERMINALS * _BUS_ANSWER) // 8) * 8)


@dataclass(frozen=True)
class Message:
    """What comes of a message: the words that terminals send and what they hand over, in order, each with the address of its
    terminal. In place of words that collide there is a `Noise`, with the address of the first terminal that sends one."""

    sent: tuple[tuple[int, Union[Sent, Noise]], ...]
    handed: tuple[tuple[int, Answer], ...]


def _answers_at(front: ctypes.Array[ctypes.c_char], at: int, count: int) -> list[tuple[int, Answer]]:
    """So many answers from this place on, with the addresses of their terminals."""
    places = range(at, at + count * _BUS_ANSWER, _BUS_ANSWER)
    return [(front[place][0], cast("Answer", _answer_at(front, place + 2))) for place in places]


def _bus_stepped(memory: _Memory, data: bytes, address: int) -> Optional[list[tuple[int, Answer]]]:
    """Plays an event for all terminals of a bus or for one. Returns what they answer, or None if it means nothing that can happen."""
    with memory.lock:
        ctypes.memmove(memory.at, data + bytes([address]), _EVENT.size + 1)
        front = _Front.from_address(memory.at.value)
        return None if _bus_step(memory.at) else _answers_at(front, _BUS_FRONT, front[_EVENT.size + 1][0])


def _address(wanted: str, name: str, value: Any) -> int:
    """An address of a terminal. TypeError if it is not a number, ValueError if it is out of range."""
    if not hasattr(type(value), "__index__"):
        raise TypeError(f"{wanted} a number from 0 to 30 is wanted, not {_kind(value)}")
    if not 0 <= operator.index(value) <= 30:
        raise ValueError(f"{name} is not from 0 to 30")
    return int(operator.index(value))


_B = TypeVar("_B", bound="TerminalBus")


class TerminalBus:
    """Up to 31 terminals with different addresses, which hear each other and are stepped together, in one call for each event or
    message. If several threads use it, their calls come one after the other.

    What joins is a copy of a terminal, in its state: from then on the two go their own ways. `copy.copy` and `copy.deepcopy` make
    a bus whose terminals answer every further event as these do; so do `save` and `restore`, and `pickle`.

    >>> bus = TerminalBus([Terminal("address = 5"), Terminal("address = 6")])
    >>> bus.step(Word(Bus.A, Sync.COMMAND, 0x2C02))
    []
    >>> bus.step(Gap(Bus.A))
    []
    >>> bus.step(Slot())
    [(5, Sent(bus=<Bus.A: 0>, sync=<Sync.COMMAND: 0>, bits=10240))]
    """

    __memory: Optional[_Memory] = None

    def __init__(self, terminals: Iterable[Terminal] = ()) -> None:
        # a second call makes it anew; if a terminal is refused, it stays as it was
        memory = _Memory(_bus_new)
        for terminal in terminals:
            self.__joined(memory, terminal)
        self.__memory = memory

    def __del__(self) -> None:
        self.__memory = None

    def __made(self) -> _Memory:
        """Its memory. RuntimeError if it has none."""
        memory = self.__memory
        if memory is None:
            raise RuntimeError("this bus was not made by `TerminalBus.__init__`, or it was deleted")
        return memory

    def __copy__(self: _B) -> _B:
        memory, bus = self.__made(), type(self).__new__(type(self))
        with memory.lock:
            bus.__memory = _Memory(_bus_copy, memory.at)
        vars(bus).update({name: value for name, value in vars(self).items() if value is not memory})
        return bus

    def __deepcopy__(self: _B, memo: dict[int, Any]) -> _B:
        bus = memo[id(self)] = self.__copy__()
        own = {name: value for name, value in vars(bus).items() if value is not bus.__memory}
        vars(bus).update(copy.deepcopy(own, memo))
        return bus

    @classmethod
    def restore(cls: type[_B], state: Union[bytes, bytearray, memoryview]) -> _B:
        """A bus in a saved state, whose terminals answer every further event as those of the saved one do. `Refused` if the bytes
        are none. `__init__` is not called.

        >>> try:
        ...     TerminalBus.restore(b"rt1553-bus-state 2")
        ... except Refused as refused:
        ...     print(refused, refused.kind.name, refused.number, refused.line)
        saved state: line 1 STATE 1 1
        """
        bus = cls.__new__(cls)
        bus.__memory = _restored(_bus_restore, state)
        return bus

    def save(self) -> bytes:
        """Its saved state, a text of ASCII (docs/library.md).

        >>> bus = TerminalBus([Terminal("address = 5"), Terminal("address = 6")])
        >>> TerminalBus.restore(bus.save()).terminal(6).address
        6
        """
        return _saved(_bus_save, self.__made(), _BUS_STATE_ROOM)

    def __reduce__(self) -> tuple[Any, ...]:
        memory = self.__made()
        return type(self).restore, (self.save(),), {name: it for name, it in vars(self).items() if it is not memory} or None

    def terminal(self, address: int) -> Terminal:
        """A terminal that goes on as the one with this address, 0 to 30, does, which stays. ValueError if the bus has none."""
        memory, wanted = self.__made(), _address("address:", "address", address)
        with memory.lock:
            for place in range(_MOST_TERMINALS):
                terminal = Terminal._taken(memory, place)
                if terminal is None:
                    break
                if terminal.address == wanted:
                    return terminal
        raise ValueError(f"no terminal of the bus has address {wanted}")

    @classmethod
    def _seating(cls, terminals: Iterable[Terminal]) -> "TerminalBus":
        """A bus on which these terminals are from now on."""
        row = list(terminals)
        bus = cls(row)
        for place, terminal in enumerate(row):
            terminal._sit(bus.__made(), place, terminal.address)
        return bus

    def _seats(self, terminals: Iterable[Terminal]) -> bool:
        """Whether these terminals are still on it."""
        memory = self.__made()
        return all(terminal._sits_on(memory) for terminal in terminals)

    def join(self, terminal: Terminal) -> None:
        """Puts a copy of a terminal on the bus, behind the others. ValueError if a terminal of the bus has its address.

        >>> bus = TerminalBus([Terminal("address = 5")])
        >>> bus.join(Terminal("address = 5"))
        Traceback (most recent call last):
          ...
        ValueError: a terminal of the bus has address 5
        """
        self.__joined(self.__made(), terminal)

    @staticmethod
    def __joined(memory: _Memory, terminal: Terminal) -> None:
        if not isinstance(terminal, Terminal):
            raise TypeError(f"a Terminal is wanted, not {_kind(terminal)}")
        other = terminal._Terminal__made()  # type: ignore[attr-defined]
        with memory.lock, other.lock:
            status = _bus_join(memory.at, other.at)
        if status:
            raise ValueError(f"a terminal of the bus has address {terminal.address}")

    def step(self, event: Event, to: Optional[int] = None) -> list[tuple[int, Answer]]:
        """Plays an event and returns what terminals send and hand over, in the order in which they joined, each with the address of
        its terminal. Words on the same bus collide: all others hear noise. A word, noise, a gap and a slot come to all terminals;
        `to` is the address of a terminal, 0 to 30, to which an event comes alone, such as those of its subsystem. ValueError if
        this means nothing that can happen; then nothing changes.

        >>> bus = TerminalBus([Terminal("address = 5")])
        >>> bus.step(Flag(FlagName.BUSY, True), to=5)
        []
        >>> bus.step(Flag(FlagName.BUSY, True))
        Traceback (most recent call last):
          ...
        ValueError: no event for all terminals: Flag(flag=<FlagName.BUSY: 1>, value=True)
        """
        memory, data, address = self.__made(), packed(event), _FOR_ALL
        if to is not None:
            address = _address("to: None or", "to", to)
        answers = _bus_stepped(memory, data, address)
        if answers is None:
            raise ValueError(f"no event for {'all terminals' if to is None else f'terminal {address}'}: {event!r}")
        return answers

    def message(self, words: Iterable[Union[Word, Noise]]) -> Message:
        """Plays a whole message: the words of a controller, on one bus; a gap; and slots and gaps until no terminal sends anything, so
        that the reply to a transfer is in it, and the time-out if there is none. ValueError if there is no word, or they are not
        on one bus; then nothing is played.

        >>> bus = TerminalBus([Terminal("address = 5")])
        >>> bus.message([Word(Bus.A, Sync.COMMAND, 0x2C02)])
        Message(sent=((5, Sent(bus=<Bus.A: 0>, sync=<Sync.COMMAND: 0>, bits=10240)),), handed=())
        """
        memory, row, came = self.__made(), list(words), _Came()
        for word in row:
            if not isinstance(word, (Word, Noise)):
                raise TypeError(f"a Word or a Noise is wanted, not {_kind(word)}")
        data = b"".join(map(packed, row))
        if len({word.bus for word in row}) != 1:
            raise ValueError("words: 1 or more words on one bus are wanted")
        with memory.lock:
            _bus_message(memory.at, data, len(row), came)
        sent_count, handed_count = struct.unpack_from("=QQ", came)
        sent: list[tuple[int, Union[Sent, Noise]]] = []
        for place in range(min(sent_count, _MOST_SENT)):
            address, what, bus, bits = _SENT.unpack_from(came, 16 + place * _SENT.size)
            sent.append((address, Noise(_BUSES[bus]) if what > _SENDS_DATA else Sent(_BUSES[bus], _SYNCS[what - 1], bits)))
        return Message(tuple(sent), tuple(_answers_at(came, _HANDED, min(handed_count, _MOST_TERMINALS))))
