#!/usr/bin/env python3
"""The bus controller of the package, `rt1553.bus`: words, messages, faults on purpose, wrong arguments, and random messages whose
scripts `rt1553.run` plays again. The last line is 'N passed, M failed'."""

import copy
import itertools
import pathlib
import pickle
import random
import sys

import rt1553
from rt1553 import (
    Bit, Bus, BusControl, Flag, FlagName, Gap, Noise, Received, SelfTest, Sent, Slot, Sync, Synchronize, Terminal, TerminalBus, Vector,
    Word, Write,
)  # fmt: skip
from rt1553 import bus as tested
from rt1553.bus import (
    BROADCAST, BusController, Faulty, FaultyReply, Recorder, ReplyError, Result, Status, command, mode_command, parity,
)  # fmt: skip

TOP = pathlib.Path(__file__).resolve().parent.parent.parent
# terminals 3 and 9 are those of the messages, terminal 5 stands by and is in broadcasts alone, terminal 7 doesn't hear these
PROFILE = """address = {0}
broadcast = {1}
vector = {0}
accept_bus_control = true
[[rule]]
direction = "both"
subaddresses = "1-8"
[[rule]]
to = "broadcast"
direction = "receive"
subaddresses = "1-8"
[[mode]]
to = "both"
codes = "0-8, 16-19"
[[initial]]
subaddress = 1
words = [0x11, 0x22, 0x33]
"""
MASKS = {"message_error": 0x400, "instrumentation": 0x200, "service_request": 0x100, "broadcast_command_received": 0x10,
         "busy": 0x8, "subsystem_flag": 0x4, "dynamic_bus_control_acceptance": 0x2, "terminal_flag": 0x1}
NO_RESPONSE, INVALID_WORD, ANOTHER_ADDRESS = ReplyError.NO_RESPONSE, ReplyError.INVALID_WORD, ReplyError.ANOTHER_ADDRESS
MESSAGE_ERROR, WORD_COUNT = ReplyError.MESSAGE_ERROR, ReplyError.WORD_COUNT


def profile(address):
    return PROFILE.format(address, "false" if address == 7 else "true")


def system(faulty=None, plan=()):
    """Terminals that are recorded, one of them faulty by a plan, and their controller."""
    terminals = {address: Recorder(profile(address)) for address in (3, 5, 7, 9)}
    on_bus = {address: Faulty(it, plan) if address == faulty else it for address, it in terminals.items()}
    return terminals, BusController(on_bus)


def ended(call, *arguments, **named):
    """What a call ends in: what it gives, or what it raises."""
    try:
        return call(*arguments, **named)
    except Exception as fault:
        return fault


# --- words


def words():
    for bits in (0, 0x2862, 0x2C02, 0xFFFF, 0x8000):
        yield f"the parity of {bits:04x}", parity(bits), 1 - sum(bits >> at & 1 for at in range(16)) % 2
    answers = [Terminal("address = 5").play([Word(Bus.A, Sync.COMMAND, 0x2C02, bit), "A gap", "slot"]) != [] for bit in (0, 1)]
    yield "the parity bit that a terminal takes", answers, [parity(0x2C02) == bit for bit in (0, 1)]
    commands = [(address, transmit, subaddress, count) for address in range(32) for transmit in (False, True)
                for subaddress in range(1, 31) for count in range(1, 33)]
    wanted = [address << 11 | transmit << 10 | subaddress << 5 | count % 32 for address, transmit, subaddress, count in commands]
    yield "commands", [command(*fields) for fields in commands], wanted
    transmits = {**dict.fromkeys([*range(9), 16, 18, 19], 1), 17: 0, 20: 0, 21: 0}
    wanted = [5 << 11 | bit << 10 | code for code, bit in transmits.items()]
    yield "mode codes", [mode_command(5, code) for code in transmits], wanted
    for code, transmit in itertools.product(range(32), (False, True)):
        for subaddress in (0, 31):
            wanted = 31 << 11 | transmit << 10 | subaddress << 5 | code
            yield f"mode code {code}, {transmit}, {subaddress}", mode_command(31, code, transmit, subaddress), wanted
    yield "each status word", [Status.from_bits(bits).bits for bits in range(1 << 16)], list(range(1 << 16))
    for name, mask in MASKS.items():
        yield f"the bit {name}", Status(9, **{name: True}).bits, 0x4800 | mask
        yield f"{name}, shown", repr(Status.from_bits(0x4800 | mask)), f"Status(address=9, {name}=True)"
    yield "the reserved bits", Status.from_bits(0x28E0), Status(5, reserved=7)
    yield "the same status word", Status(5, busy=True), Status(5, busy=1)
    yield "pickled", pickle.loads(pickle.dumps(Status(5, busy=True))), Status(5, busy=True)


# --- messages


def received(address, subaddress, *bits, broadcast=False):
    return {address: [Received(broadcast, subaddress, bits)]}


def to_all(answer, *but):
    """What each terminal that hears broadcasts hands over, but for some."""
    return {address: [answer] for address in (3, 5, 9) if address not in but}


def good(address, words=(), handed=None, **named):
    """The result of a message without errors."""
    return Result(None if address is None else Status(address), tuple(words), (), handed or {}, **named)


SILENT = Result(None, (), (NO_RESPONSE,), {})
ILLEGAL = Result(Status(9, message_error=True), (), (MESSAGE_ERROR,), {})
# each message: what is asked, its result, and what it tells terminals, in lines of a script
MESSAGES = [
    ("receive", lambda it, bus: it.receive(9, 2, [0xA, 0xB], bus=bus), good(9, (), received(9, 2, 0xA, 0xB)), {
        9: "c 4842, d 000a, d 000b, gap, slot, slot, gap",
        5: "c 4842, d 000a, d 000b, gap, slot, c 4800, slot, gap",
    }),
    ("transmit", lambda it, bus: it.transmit(9, 1, 2, bus=bus), good(9, (0x11, 0x22)), {
        9: "c 4c22, gap, slot, slot, slot, slot, gap",
        5: "c 4c22, gap, slot, c 4800, slot, d 0011, slot, d 0022, slot, gap",
    }),
    ("transmit 32 words", lambda it, bus: it.transmit(3, 1, 32, bus=bus), good(3, [0x11, 0x22, 0x33, *[0] * 29]), {}),
    ("a mode code", lambda it, bus: it.mode(9, 1, bus=bus), good(9, (), {9: [Synchronize()]}), {
        9: "c 4c01, gap, slot, slot, gap",
        5: "c 4c01, gap, slot, c 4800, slot, gap",
    }),
    ("a mode code by subaddress 31", lambda it, bus: it.mode(9, 3, subaddress=31, bus=bus), good(9, (), {9: [SelfTest()]}), {
        5: "c 4fe3, gap, slot, c 4800, slot, gap",
    }),
    ("a mode code that transmits", lambda it, bus: it.mode(9, 16, bus=bus), good(9, (9,)), {
        5: "c 4c10, gap, slot, c 4800, slot, d 0009, slot, gap",
    }),
    ("a mode code with a word", lambda it, bus: it.mode(9, 17, 0x42, bus=bus), good(9, (), {9: [Synchronize(0x42)]}), {
        5: "c 4811, d 0042, gap, slot, c 4800, slot, gap",
    }),
    ("bus control", lambda it, bus: it.mode(9, 0, bus=bus),
     Result(Status(9, dynamic_bus_control_acceptance=True), (), (), {9: [BusControl()]}), {}),
    ("a transfer", lambda it, bus: it.transfer((9, 2), (3, 1), 2, bus=bus),
     good(9, (0x11, 0x22), received(9, 2, 0x11, 0x22), transmitter=Status(3)), {
        9: "c 4842, c 1c22, gap, slot, c 1800, slot, d 0011, slot, d 0022, slot, gap, slot, slot, gap",
        3: "c 4842, c 1c22, gap, slot, slot, slot, slot, gap, slot, c 4800, slot, gap",
        5: "c 4842, c 1c22, gap, slot, c 1800, slot, d 0011, slot, d 0022, slot, gap, slot, c 4800, slot, gap",
    }),
    ("a broadcast", lambda it, bus: it.receive(31, 2, [0xA], bus=bus), good(None, (), to_all(Received(True, 2, (0xA,)))), {
        5: "c f841, d 000a, gap",
        7: "c f841, d 000a, gap",
    }),
    ("a mode code to all", lambda it, bus: it.mode(31, 1, bus=bus), good(None, (), to_all(Synchronize())), {5: "c fc01, gap"}),
    ("a mode code to all, with a word", lambda it, bus: it.mode(BROADCAST, 17, 7, bus=bus), good(None, (), to_all(Synchronize(7))),
     {5: "c f811, d 0007, gap"}),
    ("a transfer to all", lambda it, bus: it.transfer((31, 2), (3, 1), 1, bus=bus),
     good(None, (0x11,), to_all(Received(True, 2, (0x11,)), 3), transmitter=Status(3)), {
        3: "c f841, c 1c21, gap, slot, slot, slot, gap",
        5: "c f841, c 1c21, gap, slot, c 1800, slot, d 0011, slot, gap",
        7: "c f841, c 1c21, gap, slot, c 1800, slot, d 0011, slot, gap",
    }),
    ("no such terminal", lambda it, bus: it.receive(20, 2, [1], bus=bus), SILENT, {5: "c a041, d 0001, gap, slot, gap"}),
    ("a transfer from no terminal", lambda it, bus: it.transfer((9, 2), (20, 1), 1, bus=bus), SILENT, {
        9: "c 4841, c a421, gap, slot, gap",
    }),
    ("a transfer to no terminal", lambda it, bus: it.transfer((20, 2), (3, 1), 1, bus=bus),
     Result(None, (0x11,), (NO_RESPONSE,), {}, Status(3)), {
        3: "c a041, c 1c21, gap, slot, slot, slot, gap, slot, gap",
        5: "c a041, c 1c21, gap, slot, c 1800, slot, d 0011, slot, gap, slot, gap",
    }),
    ("an illegal command", lambda it, bus: it.receive(9, 30, [1], bus=bus), ILLEGAL, {
        5: "c 4bc1, d 0001, gap, slot, c 4c00, slot, gap",
    }),
    ("an illegal command to transmit", lambda it, bus: it.transmit(9, 30, 2, bus=bus),
     ILLEGAL, {}),
    ("a transfer of what is illegal to transmit", lambda it, bus: it.transfer((9, 2), (3, 30), 2, bus=bus),
     Result(None, (), (MESSAGE_ERROR, NO_RESPONSE), {}, Status(3, message_error=True)), {}),
    ("a reserved mode code", lambda it, bus: it.mode(9, 9, transmit=True, bus=bus),
     ILLEGAL, {5: "c 4c09, gap, slot, c 4c00, slot, gap"}),
    ("a reserved mode code with a word", lambda it, bus: it.mode(9, 30, 5, transmit=False, bus=bus),
     ILLEGAL, {5: "c 481e, d 0005, gap, slot, c 4c00, slot, gap"}),
    ("an undefined mode code", lambda it, bus: it.mode(9, 17, transmit=True, bus=bus),
     ILLEGAL, {5: "c 4c11, gap, slot, c 4c00, slot, gap"}),
]  # fmt: skip


def script_of(bus, lines):
    """A script of lines that lack their bus."""
    return "".join(f"{line if line == 'slot' else f'{bus.name} {line}'}\n" for line in lines.split(", "))


def messages():
    for (name, ask, wanted, told), bus in itertools.product(MESSAGES, Bus):
        terminals, controller = system()
        yield f"{name}, bus {bus.name}", ask(controller, bus), wanted
        for address, lines in told.items():
            yield f"{name}, bus {bus.name}, what terminal {address} is told", terminals[address].script, script_of(bus, lines)
        # once more, whatever has been
        ask(controller, bus)
        yield from within(f"{name}, bus {bus.name}", replayed(terminals))


def within(name, rows):
    """Rows whose names say in what they stand."""
    for row, found, wanted in rows:
        yield f"{name}, {row}", found, wanted


def replayed(terminals):
    """Whether terminals that were recorded answer their scripts as they did on the bus."""
    for address, it in terminals.items():
        yield f"terminal {address}", it.transcript, rt1553.run(it.profile, it.script)


def conditions():
    terminals, controller = system()
    terminals[9].step(Flag(FlagName.BUSY, True))
    busy = Result(Status(9, busy=True), (), (), {})
    yield "busy, transmit", controller.transmit(9, 1, 3), busy
    yield "busy, receive", controller.receive(9, 1, [1]), busy
    yield "busy, a mode code", controller.mode(9, 18), Result(Status(9, busy=True), (0x4821,), (), {})
    terminals[9].step(Flag(FlagName.BUSY, False))
    yield "service request", terminals[9].step(Flag(FlagName.SERVICE, True)), None
    yield "service request, seen", controller.mode(9, 1).status, Status(9, service_request=True)
    # the transmitter of bus B is shut down by bus A: what comes there is still taken, and nothing is sent
    terminals, controller = system()
    yield "shut down", controller.mode(9, 4), good(9)
    yield "shut down, receive", controller.receive(9, 2, [7], bus=Bus.B), Result(None, (), (NO_RESPONSE,), received(9, 2, 7))
    yield "shut down, transmit", controller.transmit(9, 1, 1, bus=Bus.B), SILENT
    wanted = Result(None, (0x11,), (NO_RESPONSE,), received(9, 2, 0x11), Status(3))
    yield "shut down, a transfer to it", controller.transfer((9, 2), (3, 1), 1, bus=Bus.B), wanted
    yield "shut down, a transfer from it", controller.transfer((3, 2), (9, 1), 1, bus=Bus.B), SILENT
    yield "the other bus", controller.transmit(9, 1, 1), good(9, (0x11,))
    yield "enabled", controller.mode(9, 5), good(9)
    yield "enabled, transmit", controller.transmit(9, 1, 1, bus=Bus.B), good(9, (0x11,))
    # a receiver whose transmitter kept silent has message error
    controller.transfer((9, 2), (20, 1), 1)
    yield "the time-out, seen", controller.mode(9, 2).status, Status(9, message_error=True)
    yield "by broadcast", controller.receive(31, 2, [1]).status, None
    yield "by broadcast, seen", controller.mode(9, 2).status, Status(9, broadcast_command_received=True)
    yield from replayed(terminals)
    yield "no terminals", BusController({}).mode(5, 2), SILENT
    # a result is its own
    first = controller.receive(9, 2, [1])
    controller.receive(9, 2, [2])
    yield "an earlier result", first.handed, received(9, 2, 1)


# --- faults on purpose

SENT, FIRST_SENT = "c 4800, slot, d 0011, slot, d 0022, slot, gap", "slot, c 4800, slot, d 0011"
# each fault of a reply of status and two words: the result, and what terminal 5 is told from the first slot on
FAULTS = [
    (None, good(9, (0x11, 0x22)), f"slot, {SENT}"),
    (FaultyReply(), good(9, (0x11, 0x22)), f"slot, {SENT}"),
    (FaultyReply(drop=True), SILENT, "slot, gap"),
    (FaultyReply(drop=True, delay=2, lengthen=3), SILENT, "slot, gap"),
    (FaultyReply(delay=1), SILENT, "slot, gap"),
    (FaultyReply(shorten=1), Result(Status(9), (0x11,), (WORD_COUNT,), {}), FIRST_SENT + ", slot, gap"),
    (FaultyReply(shorten=2), Result(Status(9), (), (WORD_COUNT,), {}), "slot, c 4800, slot, gap"),
    (FaultyReply(shorten=3), SILENT, "slot, gap"),
    (FaultyReply(shorten=4), SILENT, "slot, gap"),
    (FaultyReply(shorten=33), SILENT, "slot, gap"),
    (FaultyReply(lengthen=1), Result(Status(9), (0x11, 0x22, 0), (WORD_COUNT,), {}),
     FIRST_SENT + ", slot, d 0022, slot, d 0000, slot, gap"),
    (FaultyReply(lengthen=33), Result(Status(9), (0x11, 0x22, *[0] * 33), (WORD_COUNT,), {}),
     FIRST_SENT + ", slot, d 0022, " + "slot, d 0000, " * 33 + "slot, gap"),
    (FaultyReply(shorten=1, lengthen=1), Result(Status(9), (0x11, 0), (), {}), FIRST_SENT + ", slot, d 0000, slot, gap"),
    (FaultyReply(flip=0x0800), Result(Status(8), (0x11, 0x22), (ANOTHER_ADDRESS,), {}),
     "slot, c 4000, slot, d 0011, slot, d 0022, slot, gap"),
    (FaultyReply(flip=0x0400), Result(Status(9, message_error=True), (0x11, 0x22), (MESSAGE_ERROR,), {}),
     "slot, c 4c00, slot, d 0011, slot, d 0022, slot, gap"),
    (FaultyReply(flip=0x0008, shorten=2), Result(Status(9, busy=True), (), (), {}), "slot, c 4808, slot, gap"),
    (FaultyReply(flip=0x0008, shorten=1), Result(Status(9, busy=True), (0x11,), (WORD_COUNT,), {}),
     "slot, c 4808, slot, d 0011, slot, gap"),
    (FaultyReply(flip=0xFFFF), Result(Status.from_bits(0xB7FF), (0x11, 0x22), (ANOTHER_ADDRESS, MESSAGE_ERROR), {}),
     "slot, c b7ff, slot, d 0011, slot, d 0022, slot, gap"),
    (FaultyReply(word=2, flip=0x8001), Result(Status(9), (0x11, 0x8023), (), {}), FIRST_SENT + ", slot, d 8023, slot, gap"),
    (FaultyReply(word=3, flip=0x8001), good(9, (0x11, 0x22)), f"slot, {SENT}"),
    (FaultyReply(wrong_parity=True), Result(None, (0x11, 0x22), (INVALID_WORD,), {}),
     "slot, c 4800 0, slot, d 0011, slot, d 0022, slot, gap"),
    (FaultyReply(word=1, wrong_parity=True), Result(Status(9), (0x22,), (INVALID_WORD,), {}),
     "slot, c 4800, slot, d 0011 0, slot, d 0022, slot, gap"),
    (FaultyReply(word=1, wrong_parity=True, flip=1), Result(Status(9), (0x22,), (INVALID_WORD,), {}),
     "slot, c 4800, slot, d 0010 1, slot, d 0022, slot, gap"),
    (FaultyReply(noise=True), Result(None, (0x11, 0x22), (INVALID_WORD,), {}),
     "slot, noise, slot, d 0011, slot, d 0022, slot, gap"),
    (FaultyReply(word=2, noise=True), Result(Status(9), (0x11,), (INVALID_WORD,), {}), FIRST_SENT + ", slot, noise, slot, gap"),
    (FaultyReply(word=2, noise=True, shorten=1), Result(Status(9), (0x11,), (WORD_COUNT,), {}), FIRST_SENT + ", slot, gap"),
]


def faults():
    for (fault, wanted, lines), bus in itertools.product(FAULTS, Bus):
        terminals, controller = system(9, [None, fault])
        before, _ = controller.mode(9, 2, bus=bus), controller.mode(5, 2, bus=bus)
        yield f"{fault}, the reply before", before, good(9)
        told = len(terminals[5].script)
        yield f"{fault}", controller.transmit(9, 1, 2, bus=bus), wanted
        yield f"{fault}, what is heard", terminals[5].script[told:], script_of(bus, f"c 4c22, gap, {lines}")
        yield f"{fault}, and the other bus", controller.transmit(9, 1, 1, bus=Bus(1 - bus)), good(9, (0x11,))
        yield f"{fault}, and the next reply", controller.transmit(9, 1, 1, bus=bus), good(9, (0x11,))
        yield from within(fault, replayed(terminals))


def transfers_with_faults():
    # the transmitter's status or data are wrong: the receiver doesn't answer, and has message error
    for fault, errors in ((FaultyReply(noise=True), [INVALID_WORD]), (FaultyReply(word=1, wrong_parity=True), [INVALID_WORD]),
                          (FaultyReply(shorten=1), [WORD_COUNT]), (FaultyReply(lengthen=1), [WORD_COUNT]),
                          (FaultyReply(flip=0x0800), [ANOTHER_ADDRESS]), (FaultyReply(drop=True), []), (FaultyReply(delay=2), [])):
        terminals, controller = system(3, [fault])
        result = controller.transfer((9, 2), (3, 1), 2)
        yield f"a transfer from it, {fault}", (result.status, result.errors, result.handed), (None, (*errors, NO_RESPONSE), {})
        yield f"message error after it, {fault}", controller.mode(9, 2, bus=Bus.B).status, Status(9, message_error=True)
        yield from within(fault, replayed(terminals))
    # the receiver's status is wrong or missing: the words were received
    for fault, errors, status in ((FaultyReply(drop=True), [NO_RESPONSE], None), (FaultyReply(lengthen=1), [WORD_COUNT], Status(9)),
                                  (FaultyReply(noise=True), [INVALID_WORD], None)):
        _, controller = system(9, [fault])
        wanted = (status, tuple(errors), received(9, 2, 0x11), Status(3))
        result = controller.transfer((9, 2), (3, 1), 1)
        yield f"a transfer to it, {fault}", (result.status, result.errors, result.handed, result.transmitter), wanted


def late():
    # the late status comes in the first slot of the next message, and two words at once are noise
    terminals, controller = system(9, [FaultyReply(delay=1)])
    yield "late", controller.mode(9, 1), Result(None, (), (NO_RESPONSE,), {9: [Synchronize()]})
    yield "the next message", controller.mode(3, 1), Result(None, (), (INVALID_WORD,), {3: [Synchronize()]})
    yield "what is heard", terminals[5].script, script_of(Bus.A, "c 4c01, gap, slot, gap, c 1c01, gap, slot, noise, slot, gap")
    wanted = script_of(Bus.A, "c 4c01, gap, slot, slot, gap, c 1c01, gap, slot, slot, gap")
    yield "what the late one is told", terminals[9].script, wanted
    wanted = script_of(Bus.A, "c 4c01, gap, slot, gap, c 1c01, gap, slot, slot, gap")
    yield "what the other one is told", terminals[3].script, wanted
    yield "and then", controller.mode(3, 2), good(3)
    # nobody else answers: the late words are those of another terminal
    _, controller = system(9, [FaultyReply(delay=1)])
    controller.transmit(9, 1, 1)
    yield "in a reply of nobody", controller.mode(20, 2), Result(Status(9), (0x11,), (ANOTHER_ADDRESS, WORD_COUNT), {})
    # behind the words of another one
    _, controller = system(9, [FaultyReply(delay=2)])
    controller.mode(9, 2)
    yield "behind the reply of another one", controller.mode(3, 2), Result(Status(3), (), (INVALID_WORD, WORD_COUNT), {})
    # the terminal's next reply drops the late one, on either bus
    for bus in Bus:
        _, controller = system(9, [FaultyReply(delay=1)])
        controller.transmit(9, 1, 2)
        yield f"asked again on bus {bus.name}", controller.transmit(9, 1, 1, bus=bus), good(9, (0x11,))
        yield f"and then on bus {bus.name}", controller.mode(3, 2), good(3)
    # the late reply on bus A is heard there, while bus B is asked; its silence is a gap on bus A
    terminals, controller = system(9, [FaultyReply(delay=1)])
    controller.mode(9, 2)
    yield "on the other bus", controller.transmit(3, 1, 1, bus=Bus.B), good(3, (0x11,))
    wanted = "A c 4c02, A gap, slot, A gap, B c 1c21, B gap, slot, A c 4800, B c 1800, slot, B d 0011, A gap, slot, B gap"
    yield "on the other bus, what is heard", terminals[5].script, wanted.replace(", ", "\n") + "\n"
    # a message on the bus of a late reply that isn't at its end begins with the gap that it hasn't had
    terminals, controller = system(9, [FaultyReply(delay=1)])
    controller.transmit(9, 1, 2)
    controller.mode(20, 2, bus=Bus.B)
    told = len(terminals[5].script)
    yield "in the midst of a late reply", controller.mode(3, 2).errors, (INVALID_WORD, WORD_COUNT)
    wanted = script_of(Bus.A, "gap, c 1c02, gap, slot, noise, slot, d 0022, slot, gap")
    yield "in the midst of it, what is heard", terminals[5].script[told:], wanted
    yield "and the late one is asked", controller.mode(9, 2), good(9)


def plans():
    dropped, sent = (NO_RESPONSE,), ()
    for name, plan, wanted in (
        ("a list", [FaultyReply(drop=True), None], [dropped, sent, sent, sent]),
        ("without end", itertools.cycle([None, FaultyReply(drop=True)]), [sent, dropped, sent, dropped]),
        ("a generator", (FaultyReply(drop=bool(turn % 3)) for turn in range(9)), [sent, dropped, dropped, sent]),
        ("none", [], [sent] * 4),
    ):
        _, controller = system(9, plan)
        # what isn't answered takes nothing from the plan
        controller.receive(31, 2, [1])
        controller.mode(3, 2)
        controller.mode(7, 2)
        yield f"a plan: {name}", [controller.mode(9, 2).errors for _ in range(4)], wanted
    plain = Terminal(profile(9))
    yield "a terminal that isn't recorded", BusController({9: Faulty(plain, [FaultyReply(drop=True)])}).mode(9, 2).errors, dropped
    faulty = Faulty(plain, [None, FaultyReply(drop=True)])
    yield "the rest of a plan", faulty.plan_left, 2
    BusController({9: faulty}).mode(9, 2)
    yield "the rest after a reply", faulty.plan_left, 1
    yield "the rest of a plan without a length", Faulty(plain, (None for _ in range(2))).plan_left, None
    _, controller = system(9, [5, None])
    wanted = Raised(TypeError, "plan: FaultyReply or None is wanted, not int")
    yield "a plan of something else", ended(controller.mode, 9, 2), wanted
    yield "and its reply, late", controller.mode(20, 2).errors, (ANOTHER_ADDRESS,)
    yield "and the next one", controller.mode(9, 2), good(9)


# --- copies and pickles


def copies():
    """Controllers in the midst of a late reply, with their terminals."""
    for way, through in (("deepcopy", copy.deepcopy), ("pickle", lambda it: pickle.loads(pickle.dumps(it)))):
        terminals, controller = system(9, [FaultyReply(delay=2), None, FaultyReply(shorten=1)])
        controller.receive(3, 2, [1, 2])
        controller.transmit(9, 1, 2)
        others, other = through((terminals, controller))
        told = {address: it.script for address, it in terminals.items()}
        asked = [lambda it: it.mode(3, 2), lambda it: it.transmit(9, 1, 2), lambda it: it.transmit(9, 1, 2), lambda it: it.mode(31, 17, 5)]
        found = [ask(other) for ask in asked]
        yield f"{way}, the first stays as it was", {address: it.script for address, it in terminals.items()}, told
        yield f"{way}, both go on alike", [ask(controller) for ask in asked], found
        yield f"{way}, the errors", [result.errors for result in found], [(INVALID_WORD, WORD_COUNT), (), (WORD_COUNT,), ()]
        for address, it in terminals.items():
            yield f"{way}, terminal {address}", (others[address].script, others[address].transcript), (it.script, it.transcript)
        _, controller = system(9, (None for _ in range(5)))
        yield f"{way}, a generator", ended(through, controller), Raised(TypeError, "generator")


# --- wrong arguments


class Raised:
    """An exception of just this kind, whose text has these words."""

    def __init__(self, kind, words):
        self.kind, self.words = kind, words

    def __eq__(self, other):
        return type(other) is self.kind and self.words in str(other)

    def __repr__(self):
        return f"{self.kind.__name__}: {self.words}"


NO_NUMBER = ["1", b"1", 1.0, 1j, [], (), {}, object(), int, float("nan")]


def calls(controller):
    """Each public call with arguments that are right, and the ranges of those that are numbers."""
    yield parity, {"bits": 5}, {"bits": (0, 0xFFFF)}
    fields = {"address": 5, "transmit": True, "subaddress": 3, "count": 2}
    yield command, fields, {"address": (0, 31), "transmit": (0, 1), "subaddress": (1, 30), "count": (1, 32)}
    fields = {"address": 5, "code": 2, "transmit": True, "subaddress": 0}
    yield mode_command, fields, {"address": (0, 31), "code": (0, 31), "transmit": (0, 1), "subaddress": (0, 31)}
    yield Status, {"address": 5}, {"address": (0, 31), "reserved": (0, 7), **dict.fromkeys(MASKS, (0, 1))}
    yield Status.from_bits, {"bits": 5}, {"bits": (0, 0xFFFF)}
    yield FaultyReply, {}, {"drop": (0, 1), "delay": (0, 1000), "shorten": (0, 33), "lengthen": (0, 33), "word": (0, 32),
                            "flip": (0, 0xFFFF), "wrong_parity": (0, 1), "noise": (0, 1)}
    yield controller.receive, {"rt": 9, "subaddress": 2, "words": [1]}, {"rt": (0, 31), "subaddress": (1, 30)}
    yield controller.transmit, {"rt": 9, "subaddress": 2, "count": 1}, {"rt": (0, 30), "subaddress": (1, 30), "count": (1, 32)}
    ranges = {"rt": (0, 31), "code": (0, 31), "word": (0, 0xFFFF), "transmit": (0, 1), "subaddress": (0, 31)}
    yield controller.mode, {"rt": 9, "code": 17, "word": 5}, ranges
    yield controller.transfer, {"to": (9, 2), "from_": (3, 1), "count": 1}, {"count": (1, 32)}


MAY_LACK = {("mode", "word"), ("mode", "transmit"), ("mode_command", "transmit")}


def numbers(controller):
    """Each number of each call, out of its range and none."""
    for call, right, ranges in calls(controller):
        for name, (least, most) in ranges.items():
            why = f"{name}: a number from {least} to {most} is wanted, not "
            for value in (least - 1, most + 1, 1 << 70, -1 << 70):
                yield f"{call.__name__}, {name}={value}", call, {**right, name: value}, Raised(ValueError, f"{why}{value}")
            for value in [*NO_NUMBER, *([] if (call.__name__, name) in MAY_LACK else [None])]:
                wanted = Raised(TypeError, why + type(value).__name__)
                yield f"{call.__name__}, {name}={value!r}", call, {**right, name: value}, wanted


def wrong_words():
    """What is no row of 1 to 32 words, with what it ends in."""
    why = "words: a row of 1 to 32 numbers is wanted, not "
    for words in (None, 5, "ab", b"ab", bytearray(2), memoryview(b"ab"), int, object()):
        yield words, Raised(TypeError, why + type(words).__name__)
    for words in ([], (), range(0)):
        yield words, Raised(ValueError, why + "none")
    for words in ([0] * 33, itertools.count()):
        yield words, Raised(ValueError, why + "more")
    for word in [None, *NO_NUMBER]:
        yield [1, word], Raised(TypeError, f"words: a number from 0 to 65535 is wanted, not {type(word).__name__}")
    for word in (-1, 1 << 16):
        yield [1, word], Raised(ValueError, f"words: a number from 0 to 65535 is wanted, not {word}")
    yield (1 // number for number in (1, 0)), Raised(ZeroDivisionError, "")


def wrong_places():
    """An argument of `transfer` that is wrong, with what it ends in."""
    for name, most in (("to", 31), ("from_", 30)):
        for value in (None, 5, "ab", [9, 2], {9, 2}, object()):
            why = f"{name}: a tuple of an address and a subaddress is wanted, not "
            yield name, value, Raised(TypeError, why + type(value).__name__)
        for value in ((), (9,), (9, 2, 1)):
            yield name, value, Raised(ValueError, f"{name}: an address and a subaddress are wanted, not {len(value)} values")
        for address in (-1, most + 1):
            yield name, (address, 2), Raised(ValueError, f"{name}, address: a number from 0 to {most} is wanted, not {address}")
        for subaddress in (0, 31):
            why = f"{name}, subaddress: a number from 1 to 30 is wanted, not "
            yield name, (9, subaddress), Raised(ValueError, f"{why}{subaddress}")
        yield name, ("9", 2), Raised(TypeError, f"{name}, address: a number")
    yield "from_", (9, 1), Raised(ValueError, "from_: another terminal")


def others(controller):
    """What is wrong otherwise."""
    for words, wanted in wrong_words():
        yield f"receive, {words!r}", controller.receive, {"rt": 9, "subaddress": 2, "words": words}, wanted
    for name, value, wanted in wrong_places():
        right = {"to": (9, 2), "from_": (3, 1), "count": 1}
        yield f"transfer, {name}={value!r}", controller.transfer, {**right, name: value}, wanted
    for bus in (None, 0, 1, 2, "A", b"A", 0.0, Sync.COMMAND, [], object()):
        wanted = Raised(TypeError, f"bus: Bus.A or Bus.B is wanted, not {type(bus).__name__}")
        for call, arguments, _ in calls(controller):
            if call.__name__ in ("receive", "transmit", "mode", "transfer"):
                yield f"{call.__name__}, bus={bus!r}", call, {**arguments, "bus": bus}, wanted
    for name, call in (("address", mode_command), ("rt", controller.mode)):
        for code in (9, 15, 22, 31):
            wanted = Raised(ValueError, f"transmit: True or False is wanted, since mode code {code} is reserved")
            yield f"mode code {code}", call, {name: 5, "code": code}, wanted
        for subaddress in (1, 30):
            wanted = Raised(ValueError, f"subaddress: 0 or 31 is wanted for a mode code, not {subaddress}")
            yield f"mode code by {subaddress}", call, {name: 5, "code": 2, "subaddress": subaddress}, wanted
    for code, transmit in ((17, None), (20, None), (21, False), (16, False), (30, False)):
        wanted = Raised(ValueError, f"word: a data word is wanted for mode code {code} with T/R bit 0")
        yield f"mode code {code} without a word", controller.mode, {"rt": 9, "code": code, "transmit": transmit}, wanted
    for code, transmit in ((2, None), (16, None), (17, True), (0, False), (15, False)):
        wanted = Raised(ValueError, f"word: no data word is wanted for mode code {code} with T/R bit ")
        yield f"mode code {code} with a word", controller.mode, {"rt": 9, "code": code, "word": 0, "transmit": transmit}, wanted


def made_wrong():
    """What isn't made of wrong arguments."""
    terminal = Terminal(profile(9))
    for value in (None, 5, "ab", [terminal], {5}, terminal, object()):
        wanted = Raised(TypeError, "terminals: a mapping from addresses to terminals is wanted")
        yield f"BusController, {value!r}", BusController, {"terminals": value}, wanted
    for address in (-1, 31, 1 << 70):
        wanted = Raised(ValueError, "address: a number from 0 to 30 is wanted")
        yield f"BusController, address {address}", BusController, {"terminals": {address: terminal}}, wanted
    for address in ("9", None, 1.0, (9,)):
        wanted = Raised(TypeError, "address: a number from 0 to 30 is wanted")
        yield f"BusController, address {address!r}", BusController, {"terminals": {address: terminal}}, wanted
    for value in (None, 5, profile(9), Terminal, object(), [terminal], FaultyReply()):
        wanted = Raised(TypeError, "terminals: a Terminal, a Recorder or a Faulty is wanted")
        yield f"BusController, terminal {value!r:.40}", BusController, {"terminals": {9: value}}, wanted
        wanted = Raised(TypeError, "terminal: a Terminal or a Recorder is wanted")
        yield f"Faulty, {value!r:.40}", Faulty, {"terminal": value, "plan": []}, wanted
    wanted = Raised(TypeError, "terminal: a Terminal or a Recorder is wanted, not Faulty")
    yield "Faulty, one that is faulty", Faulty, {"terminal": Faulty(terminal, []), "plan": []}, wanted
    wanted = Raised(ValueError, "terminals: a terminal of its own is wanted for each address")
    yield "a terminal twice", BusController, {"terminals": {9: terminal, 10: terminal}}, wanted
    wanted = Raised(ValueError, "terminals: the profile of the terminal at address 10 has address 9")
    for name, other in (("a terminal", terminal), ("a recorder", Recorder(profile(9))), ("a faulty one", Faulty(Recorder(profile(9)), []))):
        yield f"{name} at another address", BusController, {"terminals": {10: other}}, wanted
    for plan in (None, 5, FaultyReply(), FaultyReply, object()):
        wanted = Raised(TypeError, "plan: a row of FaultyReply and None is wanted")
        yield f"Faulty, the plan {plan!r}", Faulty, {"terminal": terminal, "plan": plan}, wanted
    for text in (None, 5, [], object(), terminal):
        yield f"Recorder, {text!r}", Recorder, {"profile": text}, Raised(TypeError, "a text is wanted")
    yield "Recorder, a text that is refused", Recorder, {"profile": "address = 31"}, Raised(rt1553.Refused, "")
    for name, step in (("Recorder", Recorder(profile(9)).step), ("Faulty", Faulty(terminal, []).step)):
        for event in (None, 5, "slot", Slot, Sent(Bus.A, Sync.DATA, 0), object()):
            yield f"{name}.step, {event!r}", step, {"event": event}, Raised(TypeError, "an event is wanted")
        for event in (Write(31, 1, 0), Vector(1 << 16)):
            yield f"{name}.step, {event}", step, {"event": event}, Raised(ValueError, "no event")
    for value in (None, "no response ", 5, []):
        yield f"ReplyError, {value!r}", ReplyError, {"value": value}, Raised(ValueError, "is not a valid ReplyError")


def wrong_arguments():
    terminals, controller = system()
    for name, call, arguments, wanted in [*numbers(controller), *others(controller), *made_wrong()]:
        yield name, ended(call, **arguments), wanted
    for call in (BusController, Faulty, Recorder, Result, Status, parity, command, mode_command, controller.receive,
                 controller.transmit, controller.mode, controller.transfer):
        yield f"{call.__name__}, no arguments", type(ended(call)), TypeError
        yield f"{call.__name__}, too many", type(ended(call, *range(12))), TypeError
        yield f"{call.__name__}, another name", type(ended(call, wrong=1)), TypeError
    yield "nothing was sent", {address: it.script for address, it in terminals.items()}, dict.fromkeys(terminals, "")
    for value in (Status(5), FaultyReply(), good(5)):
        yield f"{value} is set", type(ended(setattr, value, "address", 5)).__name__, "FrozenInstanceError"
    yield "each public name is there", [name for name in tested.__all__ if not hasattr(tested, name)], []
    shut = Recorder(profile(9))
    yield "what is refused isn't recorded", (ended(shut.step, Write(31, 1, 0)), shut.script), (Raised(ValueError, "no event"), "")
    deleted = Terminal(profile(9))
    deleted.__del__()
    yield "a terminal that was deleted", ended(BusController, {9: deleted}), Raised(RuntimeError, "deleted")


# --- random messages

ADDRESSES, WITNESS = [3, 9, 5, 10, 12, 17, 30], 29
MESSAGES_OF_A_SEED = 300


def on_the_bus():
    """Terminals of `PROFILE` and of the example profiles, and one to which nothing is said."""
    texts = {3: profile(3), 9: profile(9), WITNESS: f"address = {WITNESS}"}
    for path in sorted((TOP / "examples/profiles").glob("*.toml")):
        text = path.read_text()
        texts[int(rt1553.canonical(text).split("\n")[1].split(" ")[1])] = text
    return {address: Recorder(text) for address, text in texts.items()}


def subsystem(chosen):
    """Something that a subsystem does."""
    bits = chosen.randrange(1 << 16)
    return chosen.choice([Write(chosen.randrange(1, 4), chosen.randrange(1, 33), bits), Vector(bits), Bit(bits),
                          Flag(chosen.choice(list(FlagName)), chosen.random() < 0.3)])


def count_of(chosen):
    return chosen.choice([1, 2, 3, chosen.randrange(1, 33)])


def random_message(controller, chosen):
    """A message of any kind, to terminals that are there or not, legal or not."""
    bus, subaddress = Bus(chosen.random() < 0.3), chosen.choice([1, 2, 3, chosen.randrange(1, 31)])
    rt, other = chosen.sample([*ADDRESSES, 20], 2)
    to = BROADCAST if chosen.random() < 0.2 else rt
    kind = chosen.randrange(4)
    if kind == 0:
        return controller.receive(to, subaddress, [chosen.randrange(1 << 16) for _ in range(count_of(chosen))], bus=bus)
    if kind == 1:
        return controller.transmit(rt, subaddress, count_of(chosen), bus=bus)
    if kind == 2:
        return controller.transfer((to, subaddress), (other, chosen.randrange(1, 4)), count_of(chosen), bus=bus)
    code, transmit = chosen.randrange(32), chosen.random() < 0.5
    if code not in (*range(9), *range(16, 22)) or chosen.random() < 0.1:
        word = 5 if code > 15 and not transmit else None
        return controller.mode(to, code, word, transmit=transmit, subaddress=chosen.choice([0, 31]), bus=bus)
    return controller.mode(to, code, 5 if code in (17, 20, 21) else None, bus=bus)


def seen_by_all(results, terminals):
    """What the results say that terminals sent and handed over, and what they themselves say. No terminal is faulty."""
    said = {"handed over": [], "statuses": [], "words": []}
    for result in results:
        said["handed over"] += [(address, answer.line()) for address, answers in result.handed.items() for answer in answers]
        said["statuses"] += [status.bits for status in (result.transmitter, result.status) if status]
        said["words"] += result.words
    lines = [(address, line) for address, it in terminals.items() for line in it.transcript.splitlines()]
    found = {"handed over": [(address, line) for address, line in lines if line.startswith("hand")],
             "statuses": [int(line[4:], 16) for _, line in lines if line[2:4] == "s "],
             "words": [int(line[4:], 16) for _, line in lines if line[2:4] == "d "]}
    for name in said:
        yield f"what was {name}", sorted(said[name]), sorted(found[name])


def on_buses(script):
    """The lines of a script but for what its subsystem did."""
    return [line for line in script.splitlines() if line == "slot" or line[:2] in ("A ", "B ")]


def with_its_own(it, witness):
    """What a terminal was told, with its own words put in where it sent them; they are noise where another one sent at once."""
    sent = {number: answer.heard().line() for number, answer in Terminal(it.profile).play(it.script) if isinstance(answer, Sent)}
    heard, own = [], None
    for number, line in enumerate(it.script.splitlines()):
        if line == "slot" or line[:2] in ("A ", "B "):
            there = witness[len(heard)] if len(heard) < len(witness) else None
            if own and there != line:
                heard.append(f"{own[0]} noise" if there == f"{own[0]} noise" else own)
                own = None
            heard.append(line)
        own = sent.get(number, own)
    return heard


def silences(lines, time_outs):
    """Whether each silence is one gap, and one more where no reply came."""
    more = [at for at, line in enumerate(lines) if line[2:] == "gap" and lines[at - 2 : at] == [line, "slot"]]
    yield "as many time-outs as results have", len(more), time_outs
    for bus in "AB":
        on_it = [(at, line) for at, line in enumerate(lines) if line[0] == bus]
        twice = [at for (_, before), (at, line) in zip(on_it, on_it[1:]) if before == line == f"{bus} gap"]
        yield f"no other gap behind a gap of bus {bus}", set(twice) - set(more), set()


def random_messages(seed, plans):
    """Random messages to terminals of which these are faulty by their plans."""
    chosen, terminals, results = random.Random(seed), on_the_bus(), []
    controller = BusController({**terminals, **{address: Faulty(terminals[address], plan) for address, plan in plans.items()}})
    for _ in range(MESSAGES_OF_A_SEED):
        if chosen.random() < 0.3:
            terminals[chosen.choice(ADDRESSES)].step(subsystem(chosen))
        results.append(random_message(controller, chosen))
    yield from replayed(terminals)
    witness = on_buses(terminals[WITNESS].script)
    for address, it in terminals.items():
        if address not in plans:
            yield f"terminal {address} is told all but its own words", with_its_own(it, witness), witness
    if not plans:
        yield from seen_by_all(results, terminals)
        yield from silences(witness, sum(NO_RESPONSE in result.errors for result in results))


def faulty_replies(seed):
    """A plan without end."""
    chosen = random.Random(seed)
    most = {"drop": 1, "delay": 40, "shorten": 5, "lengthen": 5, "flip": 0xFFFF, "noise": 1, "wrong_parity": 1}
    while True:
        name = chosen.choice(list(most))
        yield chosen.choice([None, FaultyReply(word=chosen.randrange(4), **{name: chosen.randrange(most[name] + 1)})])


class Alike:
    """Controllers that are asked the same, of which each has to see the same."""

    def __init__(self, *controllers):
        self.controllers, self.differing = list(controllers), []

    def __getattr__(self, name):
        def ask(*arguments, **named):
            first, *others = [getattr(it, name)(*arguments, **named) for it in self.controllers]
            self.differing += [(name, arguments, first, it) for it in others if it != first]
            return first

        return ask


def stepped_together(seed):
    """Terminals on a bus beside those that are recorded, and so stepped one by one. Other controllers take those of the bus over."""
    chosen, recorded = random.Random(seed), on_the_bus()
    plain = {address: Terminal(it.profile) for address, it in recorded.items()}
    alike = Alike(BusController(recorded), BusController(plain))
    for number in range(MESSAGES_OF_A_SEED):
        if chosen.random() < 0.3:
            address, event = chosen.choice(ADDRESSES), subsystem(chosen)
            yield "what a subsystem does", plain[address].step(event), recorded[address].step(event)
        random_message(alike, chosen)
        if number % 60 == 20:
            alike.controllers[1] = BusController(plain)
        elif number % 60 == 40:
            plain, alike.controllers[1] = pickle.loads(pickle.dumps((plain, alike.controllers[1])))
    yield "what controllers see", alike.differing, []
    wanted = {address: it.terminal.save() for address, it in recorded.items()}
    yield "the states", {address: it.save() for address, it in plain.items()}, wanted


def random_event(chosen):
    """An event for all, or for one terminal, that is there or not."""
    on = Bus(chosen.random() < 0.3)
    if chosen.random() < 0.2:
        return subsystem(chosen), chosen.choice([*ADDRESSES, 20])
    bits = command(chosen.choice([*ADDRESSES, BROADCAST]), chosen.random() < 0.5, chosen.randrange(1, 4), chosen.randrange(1, 4))
    word = chosen.choice([Word(on, Sync.COMMAND, bits), Word(on, Sync.DATA, chosen.randrange(1 << 16)), Noise(on)])
    return (chosen.choice([word, word, word, Gap(on), Slot(), Slot(), Slot()]),)


def saved_buses(seed):
    """A bus beside one that is saved, copied or pickled again and again, anywhere."""
    chosen = random.Random(seed)
    bus = TerminalBus(it.terminal for it in on_the_bus().values())
    ways = [lambda it: TerminalBus.restore(it.save()), copy.copy, copy.deepcopy, lambda it: pickle.loads(pickle.dumps(it))]
    ways.append(lambda it: TerminalBus(map(it.terminal, on_the_bus())))
    other, differing = copy.copy(bus), []
    for _ in range(600):
        if chosen.random() < 0.1:
            other = chosen.choice(ways)(other)
            differing += [] if other.save() == bus.save() else ["its state"]
        event = random_event(chosen)
        one, two = repr(ended(bus.step, *event)), repr(ended(other.step, *event))
        differing += [] if one == two else [(event, one, two)]
    yield "what comes of events", differing, []


def random_traffic():
    for seed in range(10):
        yield from within(f"seed {seed}, together", stepped_together(seed))
        yield from within(f"seed {seed}, saved", saved_buses(seed))
        yield from within(f"seed {seed}", random_messages(seed, {}))
        yield from within(f"seed {seed}, faulty", random_messages(seed, {9: faulty_replies(seed), 12: faulty_replies(seed + 100)}))


def main():
    passed = failed = 0
    for part in (words, messages, conditions, faults, transfers_with_faults, late, plans, copies, wrong_arguments, random_traffic):
        for name, found, wanted in part():
            if wanted == found:
                passed += 1
            else:
                failed += 1
                print(f"FAILED: {part.__name__}: {name}: {found!r:.300}, and not {wanted!r:.300}")
    print(f"{passed} passed, {failed} failed")
    return 1 if failed or not passed else 0


if __name__ == "__main__":
    sys.exit(main())
