#!/usr/bin/env python3
"""What the docstrings of the package don't show: layouts, faults, numbers out of range, many events at once. The last line is
'N passed, M failed'."""

import copy
import pathlib
import pickle
import random
import re
import sys
import threading

import rt1553
from rt1553 import Bit, Bus, Flag, FlagName, Gap, Noise, Sent, Slot, Sync, Terminal, Vector, Word, Write
from told import tell

TOP = pathlib.Path(__file__).resolve().parent.parent.parent
ASK = [Word(Bus.A, Sync.COMMAND, 0x2C02), Gap(Bus.A), Slot()]
STATUS = Sent(Bus.A, Sync.COMMAND, 0x2800)


def refusal(kind, call, *words, **named):
    """What a call raises, which is to be of this kind; None where it is not."""
    try:
        call(*words, **named)
    except kind as fault:
        return fault
    return None


def sizes_in_header():
    """The sizes that the header asserts, by the name of the struct."""
    header = (TOP / "library/c/rt1553.h").read_text()
    return {name: int(size) for name, size in re.findall(r"sizeof\((rt1553_\w+)\) == (\d+)", header)}


def layouts():
    sizes = {"rt1553_event": rt1553._EVENT, "rt1553_answer": rt1553._ANSWER, "rt1553_fault": rt1553._FAULT,
             "rt1553_versions": rt1553._VERSION}
    for name, layout in sizes.items():
        yield f"the size of {name}", sizes_in_header()[name] == layout.size
    header = (TOP / "library/c/rt1553.h").read_text()
    rooms = {"CANONICAL": rt1553._CANONICAL_ROOM, "SCRIPT": rt1553._SCRIPT_ROOM, "STATE": rt1553._STATE_ROOM}
    for name, room in rooms.items():
        yield f"the room of {name}", f"RT1553_{name}_ROOM = {room}" in header


def faults():
    fault = refusal(rt1553.Refused, rt1553.check, "rt1553 2\naddress 31\n")
    wanted = ("canonical text: line 2", rt1553.FaultKind.CANONICAL_TEXT, 1, 2)
    yield "a canonical text", fault and (str(fault), fault.kind, fault.number, fault.line) == wanted
    for call in (rt1553.check, rt1553.canonical, Terminal):
        fault = refusal(rt1553.Refused, call, b"address = 31")
        yield f"{call.__name__}, a profile", fault and (fault.kind, fault.number) == (rt1553.FaultKind.PROFILE, 5)
    for first, second in (("x", "address = 5"), ("address = 5", "x")):
        fault = refusal(rt1553.Refused, rt1553.compare, first, second)
        yield "compare, a profile", fault and fault.number == 1
    fault = refusal(rt1553.Refused, rt1553.run, "address = 5", "A c 2c02\nA gap\nslot\nslots\n")
    wanted = (rt1553.FaultKind.SCRIPT, 1, 4, "A s 2800\n")
    yield "run, a line", fault and (fault.kind, fault.number, fault.line, fault.transcript) == wanted
    fault = refusal(rt1553.NoRoom, rt1553.run, "address = 5", "A c 2c02\nA gap\nslot\n", room=8)
    yield "run, no room", fault and fault.transcript == ""
    yield "bytes as text", rt1553.run(b"address = 5", b"A c 2c02\nA gap\nslot\n") == "A s 2800\n"
    yield "nothing at all", refusal(rt1553.Refused, rt1553.check, b"") is not None


def out_of_range():
    bad = [Word(2, 0, 0), Word(0, 2, 0), Word(0, 0, 0x10000), Word(0, 0, -1), Word(0, 0, 0, parity=2), Word(0, 0, 0, parity=-1),
           Noise(2), Gap(256), Write(0, 1, 0), Write(31, 1, 0), Write(1, 0, 0), Write(1, 33, 0), Write(1, 1, 1 << 16),
           Vector(-1), Bit(0x10000), Flag(4, True), Flag(0, 2)]
    terminal = Terminal("address = 5")
    terminal.play(ASK[:2])
    for event in bad:
        yield f"step, {event}", refusal(ValueError, terminal.step, event)
        yield f"play, {event}", refusal(ValueError, terminal.play, [event])
    yield "nothing changed", terminal.slot() == STATUS
    for line in ("", "A", "A c", "A c 2c0", "A c 2c02 2", "A c 2c02  1", "write 1 01 0000", "flag busy 2", "slot ", "C gap", "bit", "#"):
        yield f"read_event, {line!r}", refusal(ValueError, rt1553.read_event, line)


def many():
    terminal = Terminal("address = 5")
    wanted = [(3 * turn + 2, STATUS) for turn in range(5000)]
    yield "events", terminal.play(ASK * 5000) == wanted
    yield "packed events", terminal.play([b"".join(map(rt1553.packed, ASK)) * 5000]) == wanted
    yield "lines", terminal.play("A c 2c02\nA gap\nslot\n" * 10) == wanted[:10]
    yield "none", terminal.play([]) == [] and terminal.play("# nothing\n\n") == []
    yield "a part of one", refusal(ValueError, terminal.play, [b"\0"])
    yield "lines with line feeds", terminal.play(["A c 2c02\n", "A gap\n", "slot\n"]) == wanted[:1]
    yield "bytes alone", terminal.play(b"".join(map(rt1553.packed, ASK))) == wanted[:1]
    # those before one that is none are played, and their answers are not lost
    terminal.play(ASK[:1])
    yield "one that is none", refusal(ValueError, terminal.play, ["A gap", "A gup", "slot"])
    yield "is not passed over", terminal.slot() == STATUS
    for last in ("A gup", Word(2, 0, 0), b"\xff" * 10, b"\0"):
        fault = refusal(rt1553.NoEvent, terminal.play, [*ASK, last])
        yield f"answers before {last}", fault and fault.answers == wanted[:1]


def lines():
    events = [*ASK, Word(Bus.B, Sync.DATA, 1, 0), Word(Bus.B, Sync.DATA, 1, 1), Noise(Bus.B), Write(3, 32, 0xFFFF), Vector(1), Bit(2)]
    events += [Flag(name, value) for name in FlagName for value in (False, True)]
    for event in events:
        yield f"the line of {event}", rt1553.read_event(event.line()) == event


WAYS = [copy.copy, copy.deepcopy, lambda terminal: pickle.loads(pickle.dumps(terminal)),
        lambda terminal: Terminal.restore(terminal.save())]


def copies():
    """Terminals made of another one in the midst of a reply of two words, the second of which is written meanwhile."""
    profile = 'address = 5\n[[rule]]\ndirection = "transmit"\nsubaddresses = 3\n'
    for number, way in enumerate(WAYS):
        terminal = Terminal(profile)
        terminal.play([Word(Bus.A, Sync.COMMAND, 0x2C62), Gap(Bus.A), Slot()])
        state = terminal.save()
        other = way(terminal)
        yield f"way {number}, the same state", other.save() == state == terminal.save()
        other.write(3, 2, 0xCC)
        terminal.write(3, 2, 0xBB)
        terminal.flag(FlagName.BUSY, True)
        yield f"way {number}, neither knows of the other", [
            [answer.bits for _, answer in it.play([Slot()] * 3)] for it in (other, terminal)] == [[0, 0xCC], [0, 0xBB]]
        del terminal
        yield f"way {number}, the other is gone", other.play(ASK) == [(2, STATUS)]
    for length in range(len(state)):
        fault = refusal(rt1553.Refused, Terminal.restore, state[:length])
        if not (fault and fault.kind is rt1553.FaultKind.STATE and fault.number == 1 and fault.line == state[:length].count(b"\n") + 1):
            yield f"the first {length} bytes", False
    fault = refusal(rt1553.Refused, Terminal.restore, state + b"\n")
    yield "a byte too many", fault and (fault.number, fault.line, str(fault)) == (2, 0, "saved state: bytes after the end")


def is_reply(kind, bus, place, count, number):
    """Whether the words of a line `reply` are as docs/library.md says."""
    if kind == 0 or kind > 6 or bus > 1 or place > 255:
        return kind == bus == place == count == number == 0
    counts = {1: [0], 2: range(256), 3: range(1, 33), 4: range(256), 5: [0], 6: [0]}[kind]
    is_place = place == 0 if kind == 1 else 1 <= place <= 30 or kind != 3
    words = count if kind == 3 else int(kind == 5 and place in (16, 18, 19))
    return is_place and count in counts and number <= words


def is_message(kind, bus, command, address, count):
    """The same of a line `message`."""
    if kind == 0 or kind > 7 or bus > 1:
        return kind == bus == command == address == count == 0
    return address <= (255 if kind in (2, 4, 6) else 0) and count <= (32 if kind in (1, 5) else 0)


def tables():
    """Random words in the lines `reply` and `message` of a saved state."""
    chosen, lines = random.Random(1553), Terminal("address = 5").save().decode().split("\n")
    edges = [0, 0, 0, 1, 1, 2, 16, 18, 19, 30, 31, 32, 33, 255, 256, 0xFFFF]
    accepted = 0
    for turn in range(10_000):
        name, at, allows = (("reply", 3, is_reply), ("message", 4, is_message))[turn % 2]
        words = [chosen.randrange(9), chosen.choice([0, 0, 1, 1, 2]), *chosen.choices(edges, k=3)]
        wanted = allows(*words)
        changed = [*lines]
        changed[at] = f"{name} 01" + "".join(f" {word:04x}" for word in words)
        if name == "message" and wanted:
            changed[5] += " 1234" * words[4]
        state = "\n".join(changed).encode()
        fault = refusal(rt1553.Refused, Terminal.restore, state)
        accepted += wanted
        if not (Terminal.restore(state).save() == state if wanted and not fault else not wanted and fault and fault.line == at + 1):
            yield changed[at], False
    yield "lines that are accepted, and others", 100 < accepted < 9_900


def ownership():
    answers = []
    threads = [threading.Thread(target=lambda: answers.extend(Terminal("address = 5").play(ASK * 500))) for _ in range(8)]
    for thread in threads:
        thread.start()
    for thread in threads:
        thread.join()
    yield "eight threads", len(answers) == 8 * 500 and all(answer == STATUS for _, answer in answers)


def main():
    parts = (layouts, faults, out_of_range, many, lines, copies, tables, ownership)
    return tell((f"{part.__name__}: {name}", holds) for part in parts for name, holds in part())


if __name__ == "__main__":
    sys.exit(main())
