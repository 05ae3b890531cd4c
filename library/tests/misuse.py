#!/usr/bin/env python3
"""The package in the hands of a caller who errs: each row of a table is a call, and the exception or the value that it has to
end in. All are made in one process, which a write to memory that isn't the package's would end. The last line is 'N passed, M
failed'."""

import copy
import dataclasses
import faulthandler
import gc
import multiprocessing
import pickle
import random
import signal
import sys
import threading
import types
import typing

import rt1553
from rt1553 import bus
from rt1553 import (
    Bit, Bus, BusControl, Fault, FaultKind, Flag, FlagName, Gap, NoEvent, NoMemory, Noise, NoRoom, Received, Refused, SelfTest, Sent, Slot,
    Sync, Synchronize, Terminal, TerminalBus, Vector, Word, Write, packed, read_event,
)  # fmt: skip

PROFILE = "address = 5\n"
SCRIPT = "A c 2c02\nA gap\nslot\n"
ASK = [Word(Bus.A, Sync.COMMAND, 0x2C02), Gap(Bus.A), Slot()]
STATUS = Sent(Bus.A, Sync.COMMAND, 0x2800)
ANSWERED = [(2, STATUS)]
# each method with arguments that are right
METHODS = {"step": [Slot()], "word": [0, 0, 0], "noise": [0], "gap": [0], "slot": [], "write": [1, 1, 0], "vector": [0], "bit": [0],
           "flag": [0, True], "play": [[]], "save": []}
EVENTS = [Word(Bus.B, Sync.DATA, 1, 0), Noise(Bus.A), Gap(Bus.B), Write(3, 2, 0xBB), Vector(1), Bit(2), Flag(FlagName.BUSY, True), Slot()]
ANSWERS = [STATUS, Received(False, 3, (17, 34)), Synchronize(), Synchronize(0x42), SelfTest(), BusControl()]
NO_TEXT = [None, 5, -1, 5.0, True, [97], (97,), {}, object(), Slot(), str, PROFILE.splitlines()]
NO_NUMBER = ["1", 1.0, [], (), b"1", object()]


@dataclasses.dataclass
class Raises:
    """An exception of just this kind, whose text has these words."""

    kind: type
    words: str = ""

    def __eq__(self, other):
        return type(other) is self.kind and self.words in str(other)


WANTED = Raises(TypeError, "wanted")
NOT_MADE = Raises(RuntimeError, "not made")


def ended(call, arguments):
    """What a call ends in: what it gives, or what it raises."""
    try:
        return call(*arguments)
    except Exception as fault:
        return fault


def asked(terminal):
    """Whether a terminal answers to its address, by each of the ways."""
    return terminal.play(ASK) == ANSWERED and [terminal.step(event) for event in ASK] == [None, None, STATUS]


# --- texts


class LongBytes(bytes):
    """Bytes that lie of how many they are."""

    def __len__(self):
        return 1 << 40

    def __bytes__(self):
        return self


class OddText(str):
    """A text that lies of its bytes."""

    def encode(self, *_):
        return 5


def released():
    view = memoryview(b"address = 5")
    view.release()
    return view


def taking_texts():
    """Each call that takes a text, as a call of the text alone, with what it gives of `PROFILE`."""
    yield "check", rt1553.check, None
    yield "canonical", lambda text: rt1553.canonical(text)[:9], "rt1553 2\n"
    yield "compare, first", lambda text: rt1553.compare(text, PROFILE), None
    yield "compare, second", lambda text: rt1553.compare(PROFILE, text), None
    yield "run, text", lambda text: rt1553.run(text, ""), ""
    yield "Terminal", lambda text: asked(Terminal(text)), True


def texts():
    for name, call, value in taking_texts():
        for text in NO_TEXT:
            yield f"{name}, {text!r}", WANTED, call, text
        for text in ("", "\0", b"", b"\xff\xfe", "x" * 2_000_000, b"\0" * 64):
            yield f"{name}, {text[:9]!r} of {len(text)}", Raises(Refused), call, text
        yield f"{name}, the name of a file", Raises(Refused, "name of a file"), call, "pump.toml"
        yield f"{name}, a surrogate", Raises(UnicodeEncodeError), call, "\ud800"
        yield f"{name}, what was released", Raises(ValueError), call, released()
        for text in (PROFILE, PROFILE.encode(), bytearray(PROFILE, "ascii"), memoryview(PROFILE.encode()), LongBytes(PROFILE, "ascii"),
                     OddText(PROFILE), memoryview(PROFILE.encode() * 2)[: len(PROFILE)]):
            yield f"{name}, {type(text).__name__}", value, call, text
    for script in NO_TEXT:
        yield f"run, the script {script!r}", WANTED, rt1553.run, PROFILE, script
    yield "run, LongBytes", "A s 2800\n", rt1553.run, PROFILE, LongBytes(SCRIPT, "ascii")
    yield "run, a surrogate", Raises(UnicodeEncodeError), rt1553.run, PROFILE, "# \ud800"
    yield "run, no script", Raises(TypeError), rt1553.run, PROFILE
    yield "version of something", Raises(TypeError), rt1553.version, 1


def rooms():
    for room in (-1, -5, -(1 << 31), -(1 << 63), -(1 << 64), -(1 << 70)):
        yield f"the room {room}", Raises(ValueError, "negative"), rt1553.run, PROFILE, SCRIPT, room
    for room in (0, 1, 8, True, False):
        yield f"the room {room}", Raises(NoRoom), rt1553.run, PROFILE, SCRIPT, room
    for room in (None, 9, 10, 1 << 31, 1 << 46, sys.maxsize, 1 << 63, 1 << 64, (1 << 64) + 8, 1 << 70):
        yield f"the room {room}", "A s 2800\n", rt1553.run, PROFILE, SCRIPT, room
    for room in NO_NUMBER:
        yield f"the room {room!r}", WANTED, rt1553.run, PROFILE, SCRIPT, room
    yield "a room for nothing", "", rt1553.run, PROFILE, "", 0
    yield "what was answered in a room", "", lambda: ended(rt1553.run, (PROFILE, SCRIPT, 8)).transcript


# --- the life of a terminal


class Unmade(Terminal):
    """A terminal whose __init__ doesn't call that of Terminal."""

    def __init__(self):
        self.mine = 5


class Hidden(Terminal):
    """A terminal whose attributes are called as those of the package might be."""

    def __init__(self, text):
        super().__init__(text)
        self._terminal = self._front = self._memory = self._Hidden__memory = None
        self.lock = self.at = self.answers = 5


def refused_init():
    terminal = Terminal.__new__(Terminal)
    ended(terminal.__init__, ("adress = 5",))
    return terminal


def deleted(times=1):
    terminal = Terminal(PROFILE)
    for _ in range(times):
        terminal.__del__()
    return terminal


def again(*texts):
    """A terminal that is made of one text after another, refused or not."""
    terminal = Terminal(PROFILE)
    for text in texts:
        ended(terminal.__init__, (text,))
    return terminal


def lives():
    without = [("not made", lambda: Terminal.__new__(Terminal)), ("refused", refused_init), ("deleted", deleted),
               ("deleted twice", lambda: deleted(2)), ("a subclass", Unmade), ("a subclass, not made", lambda: Hidden.__new__(Hidden))]
    for name, make in without:
        for method, arguments in METHODS.items():
            yield f"{name}, {method}", NOT_MADE, getattr(make(), method), *arguments
        yield f"{name}, a script", NOT_MADE, make().play, SCRIPT
        yield f"{name}, many events", NOT_MADE, make().play, packed(Slot()) * 100_000
        for way, through in WAYS:
            yield f"{name}, {way}", NOT_MADE, through, make()
        yield f"{name}, and deleted", None, make().__del__
        yield f"{name}, shown", True, lambda make=make: "object at" in repr(make())
    for name, make in without[:4]:
        yield f"{name}, and made", True, lambda make=make: asked(made_late(make()))
    yield "a subclass has what is its own", 5, lambda: Unmade().mine
    yield "a subclass with names of its own", True, lambda: asked(Hidden(PROFILE))
    yield "no text", Raises(TypeError), Terminal
    yield "two texts", Raises(TypeError), Terminal, PROFILE, PROFILE
    for name, arguments in {"no": [], "two": [PROFILE, PROFILE], "wrong": [None], "refused": ["x"]}.items():
        yield f"made again of {name} texts", Raises(Refused if name == "refused" else TypeError), again().__init__, *arguments
    for names in (["x"], [None], ["x", PROFILE], [PROFILE] * 3, [b"", "", "\ud800"]):
        yield f"made again of {names}", True, lambda names=names: asked(again(*names))
    yield "made again, at power-up", None, powered_up
    for method, arguments in METHODS.items():
        yield f"{method} of None", Raises(AttributeError), getattr(Terminal, method), None, *arguments
        yield f"{method} of a text", Raises(AttributeError), getattr(Terminal, method), PROFILE, *arguments
        yield f"{method}, too many words", Raises(TypeError), getattr(Terminal(PROFILE), method), *arguments, 1, 2, 3, 4
        if arguments:
            yield f"{method}, too few words", Raises(TypeError), getattr(Terminal(PROFILE), method)


def made_late(terminal):
    terminal.__init__(PROFILE)
    return terminal


def powered_up():
    """What a terminal answers in a slot that was made again in the midst of its reply."""
    terminal = Terminal(PROFILE)
    terminal.play(ASK[:2])
    terminal.__init__(PROFILE)
    return terminal.slot()


def pages():
    """How many pages of memory the process has."""
    gc.collect()
    with open("/proc/self/statm") as file:
        return int(file.read().split()[1])


def grown(call):
    """By how many MB the process grows while a call is made 20,000 times; 8 or more in steps of 8."""
    for _ in range(500):
        call()
    before = pages()
    for _ in range(20_000):
        call()
    return max(0, pages() - before) * 4096 // 8_000_000 * 8


def leaks():
    terminal = Terminal(PROFILE)
    state = terminal.save()
    yield "saved", 0, grown, terminal.save
    yield "restored", 0, grown, lambda: Terminal.restore(state)
    yield "no saved state", 0, grown, lambda: ended(Terminal.restore, (state[:-1],))
    yield "copied", 0, grown, lambda: copy.copy(terminal)
    yield "pickled", 0, grown, lambda: pickle.loads(pickle.dumps(terminal))
    yield "made again", 0, grown, lambda: terminal.__init__(PROFILE)
    yield "refused again", 0, grown, lambda: ended(terminal.__init__, ("x",))
    yield "made and dropped", 0, grown, lambda: Terminal(PROFILE)
    yield "made and deleted", 0, grown, deleted
    yield "refused", 0, grown, lambda: ended(Terminal, ("x",))
    yield "not made", 0, grown, lambda: Terminal.__new__(Terminal)
    yield "in a circle", 0, grown, in_a_circle
    yield "steps", 0, grown, lambda: terminal.gap(Bus.A)
    yield "steps that are refused", 0, grown, lambda: ended(terminal.step, (Gap(2),))
    yield "and still answers", True, asked, terminal


def in_a_circle():
    terminal = Terminal(PROFILE)
    terminal.me = terminal


# --- events


def fields():
    """Each field of an event, with the event as a function of that field, and the numbers next to its range."""
    ranges = {"bus": (0, 1), "sync": (0, 1), "bits": (0, 0xFFFF), "parity": (0, 1), "subaddress": (1, 30), "number": (1, 32),
              "flag": (0, 3), "value": (0, 1)}
    for event in EVENTS:
        for field in dataclasses.fields(event):
            least, most = ranges[field.name]
            yield f"{type(event).__name__}.{field.name}", event, field.name, (least - 1, most + 1, -(1 << 70), 1 << 70, most + 256)


def events():
    terminal = Terminal(PROFILE)
    terminal.play(ASK[:2])
    for name, right, field, outside in fields():
        for value in [*NO_NUMBER, *([] if field == "parity" else [None])]:
            event = dataclasses.replace(right, **{field: value})
            refused = Raises(TypeError, f"{field}: {'None or ' * (field == 'parity')}a number from ")
            yield f"packed, {name} = {value!r}", refused, packed, event
            yield f"step, {name} = {value!r}", refused, terminal.step, event
            yield f"play, {name} = {value!r}", refused, terminal.play, [event]
            yield f"line, {name} = {value!r}", refused, event.line
        for value in outside:
            event = dataclasses.replace(right, **{field: value})
            yield f"packed, {name} = {value}", Raises(ValueError, "no event: "), packed, event
            yield f"step, {name} = {value}", Raises(ValueError, "no event: "), terminal.step, event
            yield f"play, {name} = {value}", Raises(NoEvent, "no event: "), terminal.play, [event]
            yield f"line, {name} = {value}", Raises(ValueError, field), event.line
    for event in [*NO_TEXT[:-1], "slot", packed(Slot()), STATUS, Word, Bus.A]:
        if event != Slot():
            yield f"packed, {event!r}", Raises(TypeError, "an event is wanted"), packed, event
            yield f"step, {event!r}", Raises(TypeError, "an event is wanted"), terminal.step, event
    yield "nothing changed", STATUS, terminal.slot
    for name, arguments in {"word": [None, 0, 0], "noise": [None], "gap": ["A"], "write": [1, 1, "00bb"], "vector": [[]], "bit": [1.0],
                            "flag": ["busy", True]}.items():
        yield f"{name}, {arguments}", WANTED, getattr(terminal, name), *arguments
    yield "word, parity []", Raises(TypeError, "parity: None or a number from 0 to 1 is wanted"), terminal.word, 0, 0, 0, []
    yield "word, parity 2", Raises(ValueError, "no event"), terminal.word, 0, 0, 0, 2
    for event in EVENTS:
        yield f"{event} again", event, read_event, event.line()


def read():
    for line in [None, 5, b"slot", bytearray(b"slot"), [], ["slot"], object(), Slot()]:
        yield f"read_event, {line!r}", Raises(TypeError, "a line of a script is wanted"), read_event, line
    for line in ["", "\0", "slot\n", "slot\r", "A gap\r", " slot", "slot\0", "A c \uff10\uff10\uff10\uff10", "A c 2c02 \u0661", "A c +c02",
                 "write 31 01 0000", "write 00 01 0000", "write 03 33 0000", "write 03 00 0000", "write +3 02 0000", "flag busy 2",
                 "flag BUSY 1", "\ud800",
                 "x" * 1_000_000, "A c " + "0" * 1_000_000, " " * 100_000, "A c 2c02 0 0", "vector", "bit 0 0", "# slot"]:
        yield f"read_event, {line[:20]!r}", Raises(ValueError, "no line of a script"), read_event, line


# --- answers, enumerations, exceptions


def values():
    for answer in ANSWERS:
        for field in dataclasses.fields(answer):
            if field.name not in ("broadcast", "words"):
                odd = dataclasses.replace(answer, **{field.name: "x"})
                yield f"the line of {odd}", WANTED, odd.line
                odd = dataclasses.replace(answer, **{field.name: -1})
                yield f"the line of {odd}", Raises(ValueError), odd.line
    yield "words that are none", WANTED, Received(False, 3, ["x"]).line
    yield "a word that is too large", Raises(ValueError), Received(False, 3, (1 << 16,)).line
    yield "no words", Raises(TypeError), Received(False, 3, None).line
    yield "what is heard of a word that is none", WANTED, lambda: packed(Sent("A", 0, 0).heard())
    for kind in (Bus, Sync, FlagName, FaultKind):
        for value in (None, -1, 9, "A", 1 << 70, [], 0.5):
            yield f"{kind.__name__}, {value!r}", Raises(ValueError), kind, value
        yield f"{kind.__name__}, a name", Raises(KeyError), lambda kind=kind: kind["C"]
        yield f"{kind.__name__}, another value", Raises(AttributeError), setattr, kind, kind(1).name, 5
    for value in [*EVENTS, *ANSWERS]:
        for field in dataclasses.fields(value):
            yield f"{value}, {field.name} is set", Raises(dataclasses.FrozenInstanceError), setattr, value, field.name, 0
        yield f"{type(value).__name__}, too many words", Raises(TypeError), type(value), *range(9)
    for kind in (Fault, Refused, NoMemory, NoRoom, NoEvent):
        yield f"{kind.__name__}, no words", Raises(TypeError), kind
        yield f"{kind.__name__}, too many words", Raises(TypeError), kind, *range(9)
        yield f"{kind.__name__}, None", Raises(kind, "None"), kind, None
    yield "NoEvent, answers that are none", Raises(TypeError), NoEvent, "", 5


def called():
    """Each public name without words, with far too many and with an odd one; and the annotations of what is called."""
    for name in rt1553.__all__:
        thing = getattr(rt1553, name)
        if name not in ("Slot", "SelfTest", "BusControl", "Synchronize", "TerminalBus", "version"):
            yield f"{name}()", Raises(TypeError), thing
        if name not in ("Bus", "Sync", "FlagName", "FaultKind"):
            yield f"{name} of 40 words", Raises(TypeError), thing, *[None] * 40
        yield f"{name}, an odd word", Raises(TypeError), lambda thing=thing: thing(no_such_word=1)
        for part in annotated(thing):
            yield f"{name}, annotations", True, lambda part=part: "return" in typing.get_type_hints(part)


def annotated(thing):
    """The functions of the package that a public name has, or that it is."""
    parts = [part for kind in thing.__mro__ for part in vars(kind).values()] if isinstance(thing, type) else [thing]
    return [part for part in parts if isinstance(part, types.FunctionType) and part.__code__.co_filename == rt1553.__file__]


# --- copies, saved states and pickling


class Own(Terminal):
    """A terminal with attributes of its own, and one that refers to itself."""

    def __init__(self, text):
        super().__init__(text)
        self.mine, self.me = [5], self


def pickled_by(number):
    return lambda value: pickle.loads(pickle.dumps(value, number))


WAYS = [*((f"pickle {number}", pickled_by(number)) for number in range(pickle.HIGHEST_PROTOCOL + 1)),
        ("copy", copy.copy), ("deepcopy", copy.deepcopy)]  # fmt: skip


def replying():
    """A terminal that has its status still to send."""
    terminal = Terminal(PROFILE)
    terminal.play(ASK[:2])
    return terminal


def own_after(through):
    """What becomes of the attributes of a subclass: its type, the value, whether it is shared, and to which terminal it refers."""
    terminal = Own(PROFILE)
    other = through(terminal)
    return type(other) is Own, other.mine, other.mine is terminal.mine, other.me is other, asked(other)


def changed_pickle(old, new):
    """What a pickle gives, changed by hand, of which one is to be as long as the other."""
    data = pickle.dumps(replying(), 4)
    return pickle.loads(data.replace(old, new)) if old in data and len(old) == len(new) else None


def saved():
    state = replying().save()
    first = Raises(Refused, "saved state: line 1")
    for bad in [*NO_TEXT, PROFILE, "rt1553-state 1", state.decode()]:
        yield f"restore, {bad!r}"[:60], Raises(TypeError, "a saved state is wanted, as bytes"), Terminal.restore, bad
    for bad in (b"", b"\0", b"\n", b"\xff\xfe", PROFILE.encode(), b"x" * 5_000_000, b"\n" * 5_000_000, state[1:], state.replace(b"\n", b"\r\n"),
                state.upper(), b"\xef\xbb\xbf" + state, LongBytes(b"rt1553-state 1")):
        yield f"restore, {bad[:9]!r} of {memoryview(bad).nbytes}", first, Terminal.restore, bad
    for more in (b"\n", b"\0", state, b"x" * 5_000_000):
        yield f"restore, and {len(more)} bytes", Raises(Refused, "bytes after the end"), Terminal.restore, state + more
    yield "restore, what was released", Raises(ValueError), Terminal.restore, released()
    yield "restore, nothing", Raises(TypeError), Terminal.restore
    yield "restore, two states", Raises(TypeError), Terminal.restore, state, state
    for right in (state, bytearray(state), memoryview(state), memoryview(state * 2)[: len(state)], LongBytes(state)):
        yield f"restore, {type(right).__name__}", STATUS, lambda right=right: Terminal.restore(right).slot()
    yield "save, a word", Raises(TypeError), Terminal(PROFILE).save, 1
    yield "saved again and again", {state}, lambda: {it.save() for it in [replying()] * 100}
    yield "restored again and again", state, lambda: restored_often(state, 100).save()
    yield "restored by a subclass", True, lambda: type(Own.restore(state)) is Own
    yield "restored by a terminal", STATUS, lambda: Terminal(PROFILE).restore(state).slot()
    yield "restored and made anew", None, lambda: made_late(Terminal.restore(state)) and None
    for way, through in WAYS:
        yield f"{way}, goes on", STATUS, lambda through=through: through(replying()).slot()
        yield f"{way}, and the first too", STATUS, lambda through=through: (it := replying(), through(it).slot())[0].slot()
        yield f"{way}, a subclass", (True, [5], way == "copy", way != "copy", True), own_after, through
        yield f"{way}, twice in a row", True, lambda through=through: (row := through([it := replying(), it]))[0] is row[1]
        yield f"{way} of a copy", STATUS, lambda through=through: through(through(replying())).slot()
    yield "a pickle with a digit more", Raises(Refused, "line 6"), changed_pickle, b"words 01\n", b"words 011"
    yield "a pickle of another version", first, changed_pickle, b"rt1553-state 1", b"rt1553-state 2"
    yield "a pickle without a line feed", Raises(Refused, "line 100"), changed_pickle, b"00000134\n", b"00000134 "
    other = Sent(Bus.A, Sync.COMMAND, 0x3000)
    yield "a pickle of another address", other, lambda: changed_pickle(b"\naddress 05", b"\naddress 06").slot()


def restored_often(state, times):
    """A terminal that is restored of a terminal that is restored .."""
    for _ in range(times):
        terminal = Terminal.restore(state)
        state = terminal.save()
    return terminal


def faults():
    """An exception of each kind, as the package raises it."""
    yield ended(rt1553.run, (PROFILE, SCRIPT + "slots\n"))
    yield ended(rt1553.check, ("x",))
    yield ended(rt1553.run, (PROFILE, SCRIPT, 8))
    yield ended(Terminal(PROFILE).play, ([*ASK, "A gup"],))
    yield ended(Terminal(PROFILE).play, (SCRIPT + "slots\n",))
    yield NoMemory("out of memory", FaultKind.MEMORY)
    yield Fault("x", FaultKind.SCRIPT, 1, 2)
    yield NoEvent("x")


def same_fault(one, other):
    return type(one) is type(other) and one.args == other.args and vars(one) == vars(other)


def pickles():
    for way, through in WAYS:
        for value in [*EVENTS, *ANSWERS, *Bus, *Sync, *FlagName, *FaultKind, rt1553.Event, rt1553.Answer]:
            yield f"{way}, {value}", value, through, value
        for fault in faults():
            yield f"{way}, {fault!r}", True, lambda fault=fault, through=through: same_fault(through(fault), fault)
        for name in rt1553.__all__:
            yield f"{way}, the name {name}", getattr(rt1553, name), through, getattr(rt1553, name)
        for name in bus.__all__:
            yield f"{way}, the name bus.{name}", getattr(bus, name), through, getattr(bus, name)
        for value in (bus.Status(5, busy=True), bus.FaultyReply(delay=2), bus.ReplyError.WORD_COUNT, controller().mode(5, 2)):
            yield f"{way}, {value}", value, through, value
        for terminal in (controller(), controller(bus.Recorder(PROFILE)), controller(bus.Faulty(Terminal(PROFILE), [None]))):
            yield f"{way}, a controller", controller().mode(5, 2), lambda it=terminal, through=through: through(it).mode(5, 2)
        for terminal in (deleted(), Terminal.__new__(Terminal)):
            yield "a controller of a terminal that was not made", NOT_MADE, controller, terminal
            for held in ([terminal], {"terminal": terminal}, later_in_controller(terminal)):
                if way != "copy":
                    yield f"{way}, a terminal that was not made, in a {type(held).__name__}", NOT_MADE, through, held


def controller(terminal=None):
    return bus.BusController({5: terminal or Terminal(PROFILE)})


def later_in_controller(terminal):
    """A controller of a terminal that was made when it began, and now of this one."""
    held = controller()
    held._terminals[5] = terminal
    return held


def raises_in_worker(what):
    """What a worker raises."""
    if what == "NoEvent":
        return Terminal(PROFILE).play([*ASK, "A gup"])
    if what == "a script":
        return Terminal(PROFILE).play(SCRIPT + "slots\n")
    if what == "Refused":
        return rt1553.run(PROFILE, SCRIPT + "slots\n")
    if what == "NoRoom":
        return rt1553.run(PROFILE, SCRIPT, 8)
    return Terminal(PROFILE).play(ASK) if what == "answers" else replying()


def from_worker(pool, what):
    """What comes of a worker in time."""
    return pool.apply_async(raises_in_worker, (what,)).get(timeout=20)


def workers():
    with multiprocessing.Pool(1) as pool:
        yield "NoEvent of a worker", Raises(NoEvent, "A gup"), from_worker, pool, "NoEvent"
        yield "its answers", ANSWERED, lambda: ended(from_worker, (pool, "a script")).answers
        yield "Refused of a worker", Raises(Refused, "line 4"), from_worker, pool, "Refused"
        yield "its transcript", "A s 2800\n", lambda: ended(from_worker, (pool, "Refused")).transcript
        yield "NoRoom of a worker", Raises(NoRoom), from_worker, pool, "NoRoom"
        yield "answers of a worker", ANSWERED, from_worker, pool, "answers"
        yield "a terminal of a worker", STATUS, lambda: from_worker(pool, "").slot()


# --- many events


def raising(kind):
    yield Slot()
    raise kind("mine")


class Mine(Exception):
    pass


class Row:
    """A row by its numbers alone."""

    def __getitem__(self, number):
        return [*ASK][number]


class Unready:
    def __iter__(self):
        raise TypeError("mine")


def deletes(terminal):
    yield from ASK
    terminal.__del__()


def uses(terminal):
    """A row that plays to the terminal while it is read."""
    for event in ASK:
        yield event
        terminal.play("A gap\nslot\n" * 50)


def rows():
    terminal = Terminal(PROFILE)
    terminal.play(ASK[:2])
    for script in [None, 5, 5.0, object(), Slot(), terminal, len, Slot, True]:
        yield f"play, {script!r}", WANTED, terminal.play, script
    for piece in [None, 5, 5.0, ["slot"], object(), STATUS, terminal, Slot, Bus.A]:
        yield f"play, a row with {piece!r}", Raises(TypeError, "an event, a line or bytes"), terminal.play, [Slot(), piece]
        yield f"play, a row of {piece!r}", Raises(TypeError, "an event, a line or bytes"), terminal.play, (piece for piece in [piece])
    for kind in (ValueError, TypeError, KeyError, IndexError, AttributeError, RuntimeError, MemoryError, NoEvent, Mine):
        yield f"play, a generator that raises {kind.__name__}", Raises(kind, "mine"), terminal.play, raising(kind)
    yield "play, a row that isn't ready", Raises(TypeError, "mine"), terminal.play, Unready()
    yield "nothing changed", STATUS, terminal.slot
    for piece in [b"\0", b"\0" * 9, b"\0" * 11, b"\xff" * 10, bytes([8]) + b"\0" * 9, b"\0\2" + b"\0" * 8, "slot\nslot", "# x\nslot",
                  "slot\n\n", "\r", "x" * 65, "#" + "x" * 64, "#" + "\u20ac" * 22, "\ud800", "# \ud800", " "]:
        yield f"play, {piece!r} in a row", Raises(NoEvent), terminal.play, [piece, "slot"]
        yield f"its answers behind {piece!r}", ANSWERED, lambda piece=piece: ended(Terminal(PROFILE).play, ([*ASK, piece],)).answers
    for part in (b"\0", b"\xff" * 10):
        yield f"play, {part!r}", Raises(NoEvent), terminal.play, part
    pieces = b"".join(map(packed, ASK))
    for script in [pieces, bytearray(pieces), memoryview(pieces), LongBytes(pieces), [memoryview(pieces)], iter(ASK), tuple(ASK), Row(),
                   dict.fromkeys(ASK), SCRIPT, OddText(SCRIPT), SCRIPT[:-1], ["#" + "x" * 63, *ASK],
                   ["A c 2c02\n", "A gap", "\n", "", "#\n", "slot"]]:
        yield f"play, {type(script).__name__}", ANSWERED, lambda script=script: Terminal(PROFILE).play(script)
    for script in ["", b"", [], (), {}, [b""], [""], ["\n"], "\n", "\n\n", "#", memoryview(b"")]:
        yield f"play, {script!r}", [], terminal.play, script
    yield "play, a row that deletes the terminal", NOT_MADE, lambda: (t := Terminal(PROFILE)).play(deletes(t))
    yield "play, a row that uses the terminal", ANSWERED, lambda: (t := Terminal(PROFILE)).play(uses(t))
    yield "play, a million events", 0, lambda: len(terminal.play(packed(Slot()) * 1_000_000))
    yield "play, 100,000 answers", (299_999, STATUS), lambda: terminal.play(pieces * 100_000)[-1]
    yield "and still answers", True, asked, terminal


# --- one reading of scripts


def by_run(script):
    """The transcript of a script, and by what it was refused, by `run`."""
    try:
        return rt1553.run(PROFILE, script), ""
    except Refused as fault:
        return fault.transcript, str(fault)


def by_play(script):
    """The same by `play`."""
    try:
        answers, why = Terminal(PROFILE).play(script), ""
    except NoEvent as fault:
        answers, why = fault.answers, str(fault)
    return "".join(answer.line() + "\n" for _, answer in answers), why


BREAKS = ["\r", "\x0b", "\x0c", "\x1c", "\x1d", "\x1e", "\x85", "\u2028", "\u2029", "\r\n", "\0", "\ufeff"]


def scripts():
    wanted = "A s 2800\n"
    for at in BREAKS:
        yield f"in a comment: {at!r}", (wanted, ""), by_play, f"# x{at.strip(chr(10))}slots\n{SCRIPT}"
        for script in (f"#{at}\n{SCRIPT}", f"{SCRIPT}#{at}A gup", SCRIPT.replace("\n", at), SCRIPT + at, at + SCRIPT,
                       f"{SCRIPT}slot{at}slot\n", SCRIPT.replace("\n", at + "\n"), f"{SCRIPT}\n{at}\n{SCRIPT}"):
            yield f"as run: {script!r}", by_run(script), by_play, script
    for length in (63, 64, 65, 66, 1000):
        for line in ("#" * length, "#" + "\u00e9" * (length // 2), "A gap".ljust(length), "\0" * length):
            for script in (SCRIPT + line, f"{line}\n{SCRIPT}"):
                yield f"as run: {script[:20]!r} of {len(script)}", by_run(script), by_play, script
    yield "CR LF", ("", "script: line 1"), by_play, SCRIPT.replace("\n", "\r\n")
    yield "a line of 65 bytes", (wanted, "script: line 4 is too long"), by_play, SCRIPT + "#" * 65
    yield "a line that is none", (wanted, "script: line 5"), by_play, SCRIPT + "\nA gup\n"
    yield "1,048,576 lines", (wanted, ""), by_play, SCRIPT + "\n" * 1_048_573
    for last in ("x", "\n", "x" * 65):
        script = SCRIPT + "\n" * 1_048_573 + last
        yield f"and one more: {last[:2]!r}", (wanted, "script: too many lines"), by_play, script
        yield f"by run: {last[:2]!r}", (wanted, "script: too many lines"), by_run, script
    yield "2,000 scripts at random", [], lambda: [script for script in at_random(2_000) if by_run(script) != by_play(script)]


def at_random(count):
    """Scripts of lines, of parts of lines, and of what stands in no line."""
    chosen = random.Random(1553)
    parts = ["A c 2c02\n", "A gap\n", "slot\n", "A", "B", " ", "c", "d", "gap", "noise", "slot", "write 03 02 00bb", "flag busy 1",
             "vector 00aa", "bit", "0", "1", "2C02", "#", "\n", "\t", *BREAKS]
    for _ in range(count):
        script = SCRIPT * chosen.randrange(3) + "".join(chosen.choices(parts, k=chosen.randrange(12)))
        yield script + chosen.choice(["", "\n"]) + SCRIPT


# --- threads


def on_threads(count, call):
    """What a call ends in on each of so many threads at once."""
    found = []
    threads = [threading.Thread(target=lambda: found.append(ended(call, ()))) for _ in range(count)]
    for thread in threads:
        thread.start()
    for thread in threads:
        thread.join()
    return found


def steps_many(terminal):
    """Steps of each kind, one after the other."""
    for _ in range(300):
        for event in EVENTS:
            terminal.step(event)
    return None


def copies_many(terminal):
    """Copies, saved states and steps, one after the other."""
    for _ in range(50):
        copy.copy(Terminal.restore(terminal.save())).step(Slot())
        copy.copy(terminal).step(Slot())
        steps_of_each = [terminal.step(event) for event in EVENTS]
    return steps_of_each[0]


def deleted_in_use():
    """A terminal is deleted and made anew while other threads use it: what they end in, by kind."""
    terminal = Terminal(PROFILE)

    def use():
        for _ in range(100):
            terminal.play(packed(Slot()) * 5_000)

    def disturb():
        for _ in range(300):
            terminal.__init__(PROFILE)
            terminal.__del__()

    other = threading.Thread(target=disturb)
    other.start()
    found = on_threads(4, use)
    other.join()
    return {type(end) for end in found} <= {type(None), RuntimeError}


def in_a_handler():
    """A handler of a signal uses the terminal in the midst of its calls."""
    terminal, found = Terminal(PROFILE), []
    before = signal.signal(signal.SIGALRM, lambda *_: found.append(ended(terminal.step, (Vector(5),))))
    signal.setitimer(signal.ITIMER_REAL, 0.0005, 0.0005)
    try:
        ends = {str(ended(steps_many, (terminal,))) for _ in range(5)}
        ends |= {str(ended(terminal.play, (packed(Vector(1)) * 9_000,))) for _ in range(50)}
    finally:
        signal.setitimer(signal.ITIMER_REAL, 0)
        signal.signal(signal.SIGALRM, before)
    return bool(found) and set(found) == {None} and ends == {"None", "[]"} and asked(terminal)


def threads():
    terminal, wanted = Terminal(PROFILE), [(3 * turn + 2, STATUS) for turn in range(500)]
    yield "one terminal, steps", [None] * 8, on_threads, 8, lambda: steps_many(terminal)
    yield "one terminal, saved, copied and stepped", [None] * 8, on_threads, 8, lambda: copies_many(terminal)
    terminal.flag(FlagName.BUSY, False)
    yield "one terminal, many events", [wanted] * 8, on_threads, 8, lambda: terminal.play(ASK * 500)
    yield "one terminal, many answers", [20_000] * 4, on_threads, 4, lambda: len(terminal.play(ASK * 20_000))
    # a call of this takes long in the library, where threads run side by side
    seldom = b"".join(packed(Vector(1)) * 9_999 + packed(event) for event in ASK) * 10
    wanted = [[(30_000 * turn + 29_999, STATUS) for turn in range(10)]] * 5
    yield "one terminal, few answers", [wanted] * 8, on_threads, 8, lambda: [terminal.play(seldom) for _ in range(5)]
    yield "deleted in use", True, deleted_in_use
    yield "in a handler", True, in_a_handler
    yield "and still answers", True, asked, terminal


# --- buses of terminals


class UnmadeBus(TerminalBus):
    """A bus whose __init__ doesn't call that of TerminalBus."""

    def __init__(self):
        self.mine = 5


def deleted_bus():
    it = TerminalBus([Terminal(PROFILE)])
    it.__del__()
    return it


def bus_asked(it):
    """Whether terminal 5 of a bus answers, by a message and by steps."""
    steps = [it.step(event) for event in ASK]
    return it.message(ASK[:1]) == rt1553.Message(((5, STATUS),), ()) and steps == [[], [], [(5, STATUS)]]


def bus_again(*rows):
    """A bus that is made of one row of terminals after another, refused or not."""
    it = TerminalBus([Terminal(PROFILE)])
    for row in rows:
        ended(it.__init__, (row,))
    return it


def own_of_bus(through):
    it = TerminalBus([Terminal(PROFILE)])
    it.mine = [5]
    other = through(it)
    other.mine.append(6)
    return it.mine, bus_asked(it) and bus_asked(other)


def wrong_states(bus):
    """Bytes that are no saved state of a bus, with the line that is told."""
    state = bus.save()
    lines = state.split(b"\n")
    address = next(number for number, line in enumerate(lines, 1) if line.startswith(b"address "))
    head, one = lines[0] + b"\n", state[len(lines[0]) + 1 :]
    rows = {b"": 1, head[:-1]: 1, b"x" + state: 1, b"rt1553-bus-state 2\n" + one: 1, one: 1, head + b"\n": 2, head + b"x" + one: 2,
            state[:-1]: len(lines) - 1, state[: len(state) // 2]: state[: len(state) // 2].count(b"\n") + 1,
            head + one + one: len(lines) - 2 + address, head + one + head: None, state + b"\n": None}  # fmt: skip
    for number, (bytes_, line) in enumerate(rows.items()):
        told = "saved state: bytes after the end" if line is None else f"saved state: line {line}"
        yield f"no saved state {number}", (told, line or 0), lambda bytes_=bytes_: refused_state(bytes_)
    for state in (head, head + one, bytearray(state), memoryview(state)):
        yield f"a saved state of {len(state)} bytes", bytes(state), lambda state=state: TerminalBus.restore(state).save()


def refused_state(state):
    """What is told of bytes that are no saved state of a bus, and the line."""
    try:
        TerminalBus.restore(state)
    except Refused as fault:
        return (str(fault), fault.line) if fault.kind == FaultKind.STATE and fault.number == (1 if fault.line else 2) else "another fault"
    return "restored"


def buses():
    methods = {"step": [Slot()], "join": [Terminal("address = 6")], "message": [ASK[:1]], "terminal": [5]}
    taken = Raises(ValueError, "has address 5")
    makes = {"not made": lambda: TerminalBus.__new__(TerminalBus), "a subclass": UnmadeBus, "deleted": deleted_bus}
    for name, make in makes.items():
        for method, arguments in methods.items():
            yield f"{name}, {method}", NOT_MADE, getattr(make(), method), *arguments
        yield f"{name}, copied", NOT_MADE, copy.copy, make()
        yield f"{name}, saved", NOT_MADE, make().save
        yield f"{name}, pickled", NOT_MADE, pickle.dumps, make()
        yield f"{name}, deleted", None, make().__del__
    for method, arguments in methods.items():
        yield f"{method} of None", Raises(AttributeError), getattr(TerminalBus, method), None, *arguments
        yield f"{method}, too few words", Raises(TypeError), getattr(TerminalBus(), method)
        for value in NO_TEXT:
            if value != {} and not isinstance(value, {"step": Slot, "terminal": int}.get(method, ())):
                yield f"{method} of {value!r}", Raises(TypeError), getattr(TerminalBus(), method), value
    for value in [None, 5, 5.0, object(), [None], [5], "x", b"x", [TerminalBus()], [Terminal]]:
        yield f"of {value!r}", Raises(TypeError), TerminalBus, value
    yield "of a terminal that is not made", NOT_MADE, TerminalBus, [Terminal.__new__(Terminal)]
    yield "of a terminal that was deleted", NOT_MADE, TerminalBus().join, deleted()
    yield "of two of an address", taken, TerminalBus, [Terminal(PROFILE)] * 2
    yield "of 31, and one more", taken, TerminalBus([Terminal(f"address = {k}") for k in range(31)]).join, Terminal(PROFILE)
    for row in ([], [None], None, [Terminal(PROFILE), Terminal(PROFILE)], [Terminal("address = 6"), 5], [Terminal(PROFILE)]):
        yield f"made again of {row!r:.20}", row != [], lambda row=row: bus_answers(bus_again(row))
    for value in NO_NUMBER:
        yield f"to {value!r}", WANTED, TerminalBus([Terminal(PROFILE)]).step, Slot(), value
    for value in (-1, 31, 255, 1 << 70):
        yield f"to {value}", Raises(ValueError, "0 to 30"), TerminalBus([Terminal(PROFILE)]).step, Slot(), value
    it = TerminalBus([Terminal(PROFILE)])
    for event, to in ((Vector(1), None), (Slot(), 6), (Gap(2), None), (Write(31, 1, 1), 5), (Word(0, 0, 1 << 16), None)):
        yield f"{event!r} to {to}", Raises(ValueError, "no event"), it.step, event, to
    for words in ([], [ASK[0], Noise(Bus.B)], [Word(0, 0, -1)], [Noise(2)]):
        yield f"the words {words!r}", Raises(ValueError), it.message, words
    for words in ([Slot()], [Gap(Bus.A)], [None], [5], "A c 2c02"):
        yield f"the words {words!r}", WANTED, it.message, words
    yield "and still answers", True, bus_asked, it
    yield "terminal 6", Raises(ValueError, "no terminal of the bus has address 6"), it.terminal, 6
    for address in (-1, 31, 255, 1 << 70):
        yield f"terminal {address}", Raises(ValueError, "0 to 30"), it.terminal, address
    for value in [*NO_TEXT, "rt1553-bus-state 1\n"]:
        if not isinstance(value, (bytes, bytearray, memoryview)):
            yield f"restored of {value!r:.20}", Raises(TypeError), TerminalBus.restore, value
    yield from wrong_states(it)
    yield "copied", ([5, 6], True), own_of_bus, copy.copy
    yield "pickled", ([5], True), own_of_bus, lambda it: pickle.loads(pickle.dumps(it))
    yield "deeply copied", ([5], True), own_of_bus, copy.deepcopy
    terminal = Terminal(PROFILE)
    terminal.play(ASK[:2])
    it = TerminalBus([terminal])
    yield "a terminal that joined goes its own way", (STATUS, [(5, STATUS)]), lambda: (terminal.step(Slot()), it.step(Slot()))
    yield "on threads", [True] * 8, on_threads, 8, lambda: [it.message(ASK[:1]).sent for _ in range(300)] == [((5, STATUS),)] * 300
    yield "made and dropped", 0, grown, lambda: TerminalBus([terminal])
    yield "copied often", 0, grown, lambda: copy.copy(it)
    yield "saved and restored", 0, grown, lambda: TerminalBus.restore(it.save())
    yield "no state, often", 0, grown, lambda: ended(TerminalBus.restore, (b"rt1553-bus-state 1\nrt1553-state 1\n",))
    yield "taken often", 0, grown, lambda: it.terminal(5)
    yield "no terminal, often", 0, grown, lambda: ended(it.terminal, (6,))
    yield "refused often", 0, grown, lambda: ended(it.join, (terminal,))


def bus_answers(it):
    """Whether terminal 5 of a bus answers by its status."""
    return it.message(ASK[:1]).sent == ((5, STATUS),)


def main():
    passed = failed = 0
    # a crash tells where it was, and so does a call that doesn't end
    faulthandler.enable()
    faulthandler.dump_traceback_later(900, exit=True)
    for part in (workers, texts, rooms, lives, events, read, values, called, saved, pickles, rows, scripts, threads, leaks, buses):
        for name, wanted, call, *arguments in part():
            found = ended(call, arguments)
            if type(found) is type(wanted) and found == wanted or isinstance(wanted, Raises) and wanted == found:
                passed += 1
            else:
                failed += 1
                print(f"FAILED: {part.__name__}: {name}: {found!r:.200}, and not {wanted!r:.200}")
    print(f"{passed} passed, {failed} failed")
    return 1 if failed or not passed else 0


if __name__ == "__main__":
    sys.exit(main())
