"""The messages of a run for a terminal, by the definitions of `crates/terminal_messages/specs`, one function for each definition.

What the terminal does is asked of the model of the rules in `rules.py`. Nothing is kept from event to event but the events told.
"""

import play
import rules

BITS = ["error", "instrumentation", "service", "reserved1", "reserved2", "reserved3", "broadcast", "busy", "subsystem", "accept", "terminal"]


class Watched(rules.Terminal):
    """A terminal that notes what starts and ends messages."""

    def __init__(self, setup):
        super().__init__(setup)
        self.notes = []

    def start(self, bus, command):
        super().start(bus, command)
        self.notes.append(("started", bus))

    def end_in_error(self):
        self.notes.append(("in error", self.message.bus))
        super().end_in_error()

    def complete(self, bus, command, data):
        cell, busy = rules.cell_of(command), self.flags["busy"]
        if not self.is_legal(command):
            end = "illegal"
        elif busy and ("mode" not in cell[0] or cell[1] in (16, 17)):
            end = "busy"
        else:
            end = "done"
        self.notes.append((end, bus))
        return super().complete(bus, command, data)


def is_command(event):
    return event[0] == "word" and event[2][0] == "c" and rules.is_valid(event[2])


def bus_of(event):
    return event[1] if event[0] in ("word", "noise", "gap") else None


class Told:
    """An event with what it was."""

    def __init__(self, terminal, history, line, event):
        bus = bus_of(event)
        self.index, self.line, self.event, self.bus = len(history), line, event, bus
        self.replied = terminal.reply.bus if terminal.reply else None
        self.ignored = bus is not None and self.replied == bus
        message = terminal.message
        self.awaits = bool(message and message.bus == bus and message.phase == "waiting")
        terminal.notes = []
        self.answer = terminal.step(event)
        self.starts = any(it[0] == "started" for it in terminal.notes)
        ends = [it for it in terminal.notes if it[0] in ("in error", "illegal", "busy", "done")]
        assert len(ends) <= 1 and all(it[1] == bus for it in ends)
        self.ends = ends[0][0] if ends else None
        self.command = message.command if ends and message and message.bus == bus else None
        self.engaged = {it.bus for it in (terminal.message, terminal.reply) if it}
        self.for_it = event[0] == "word" and terminal.is_for_it(event[2])
        self.sent_bus = self.answer[1] if self.answer and self.answer[0] in ("status", "data") else None
        self.part = self.part_of(terminal.setup, history)

    def part_of(self, setup, history):
        if not is_command(self.event):
            return "plain"
        bits, message = self.event[2][1], message_on(history, self.bus)
        if self.ignored:
            return "unheard"
        if message and message.takes_second(bits):
            return "second"
        if self.starts:
            return "first"
        if self.bus in self.engaged:
            return "status" if self.awaits else "within"
        if message and message.takes_status(setup.address, bits):
            return "status"
        return "first"

    def begins_on(self, bus):
        return self.part == "first" and self.bus == bus

    def closes(self, bus):
        elsewhere = (self.part == "first" or self.starts) and self.bus not in (None, bus)
        return self.begins_on(bus) or (elsewhere and bus not in self.engaged)

    def concerns(self, bus):
        return not self.ignored and bus in (self.bus, self.sent_bus)

    def is_invalid(self):
        return self.event[0] == "noise" or (self.event[0] == "word" and not rules.is_valid(self.event[2]))

    def datum(self):
        if self.event[0] == "word" and self.event[2][0] == "d" and rules.is_valid(self.event[2]):
            return self.event[2][1]
        return self.answer[2] if self.answer and self.answer[0] == "data" else None

    def bits(self):
        return self.event[2][1] if self.event[0] == "word" else 0


def second_in(told):
    return next((it.bits() for it in told if it.part == "second"), None)


class Message:
    """A message: `later` in order."""

    def __init__(self, bus, first, later, closer=None):
        self.bus, self.first, self.later, self.closer = bus, first, later, closer

    def takes_second(self, bits):
        first = self.first.bits()
        return (not self.later and rules.receives_data(first) and rules.is_transmit(bits)
                and not rules.is_broadcast(bits) and bits >> 11 != first >> 11)  # fmt: skip

    def to_answer(self, own):
        second = second_in(self.later)
        commands = [self.first.bits()] if second is None else [second, self.first.bits()]
        answering = [it >> 11 for it in commands if it >> 11 not in (own, 31)]
        return answering[sum(it.part == "status" for it in self.later):]

    def takes_status(self, own, bits):
        left = self.to_answer(own)
        came = [it for it in self.later if it.bus is not None]       # the terminal's own reply needs no gap behind it
        return bool(came) and came[-1].event[0] == "gap" and left[:1] == [bits >> 11] and bits & 0x2E0 == 0

    def end_so_far(self, setup, count):
        """How it stands after so many of the events that belong to it."""
        if count == 0:
            first = self.first
            if first.starts:
                return ("open",)
            return ("ignored", "during a reply" if first.part == "unheard" else "no gap after a command") if first.for_it else ("other",)
        it, before = self.later[count - 1], self.later[:count - 1]
        end = self.end_so_far(setup, count - 1)
        if it.starts:
            end = ("open",)
        elif end == ("in error", "wrong word count") and it.datum() is not None and self.has_too_few(setup, before):
            end = ("in error", "gap within")
        return end_after(end, it, before)

    def has_too_few(self, setup, before):
        second = second_in(before)
        expected = 0 if second is not None and second >> 11 == setup.address else rules.expected(self.first.bits())
        return len([it for it in before if it.datum() is not None]) < expected

    def ended(self, setup):
        end, closer = self.end_so_far(setup, len(self.later)), self.closer
        if closer is None:
            return end
        if closer.bus == self.bus:
            return end_after(end, closer, [])
        return ("superseded",) if closer.starts and end == ("open",) else end

    def unsent(self):
        closer = self.closer
        if closer and closer.starts and closer.bus != self.bus and closer.replied == self.bus:
            return "reply dropped by a command on the other bus"
        for it in reversed(self.later):
            if it.ends in ("illegal", "busy", "done") and not rules.is_broadcast(it.command) and self.bus not in it.engaged:
                return "transmitter shut down"
        return None


def end_after(end, it, before):
    if it.ends == "in error":
        if it.event[0] != "gap":
            return ("in error", "invalid word or noise" if it.is_invalid() else "no status from the transmitter")
        if it.awaits:
            return ("in error", "no status from the transmitter")
        if any(x.is_invalid() for x in before):
            return ("in error", "invalid word or noise")
        return ("in error", "command within" if any(x.part == "within" for x in before) else "wrong word count")
    return (it.ends,) if it.ends else end


def message_on(history, bus):
    """The message on a bus: the last that began there, with what belongs to it, unless it is over."""
    for place in range(len(history) - 1, -1, -1):
        if history[place].closes(bus):
            if not history[place].begins_on(bus):
                return None
            return Message(bus, history[place], [it for it in history[place + 1:] if it.concerns(bus)])
    return None


def in_turn(messages):
    return sorted((it for it in messages if it), key=lambda it: it.first.index)


def closed_by(history, told):
    closed = [message_on(history, bus) for bus in "AB" if told.closes(bus)]
    for it in closed:
        if it:
            it.closer = told
    return in_turn(closed) + ([Message(told.bus, told, [])] if told.part == "unheard" else [])


def messages_of(setup, events):
    terminal, history, closed = Watched(setup), [], []
    for line, event in events:
        told = Told(terminal, history, line, event)
        closed += closed_by(history, told)
        history.append(told)
    return closed + in_turn([message_on(history, bus) for bus in "AB"]), history


def command_of(bits):
    """A command as JSON has it."""
    is_mode = rules.is_mode(bits)
    return {"word": f"{bits:04x}", "address": bits >> 11, "subaddress": rules.subaddress_of(bits),
            "count": None if is_mode else rules.count_of(bits), "code": bits & 31 if is_mode else None}  # fmt: skip


def told_row(setup, numbers, message):
    """A message as JSON has it, without what mode codes are called."""
    first, later = message.first, message.later
    second, end, unsent = second_in(later), message.ended(setup), message.unsent()
    data = [it.datum() for it in later if it.datum() is not None]
    status = next((it.answer[2] for it in later if it.answer and it.answer[0] == "status"), None)
    handed = [it.answer for it in later if it.answer and it.answer[0] not in ("status", "data")]
    assert len(handed) <= 1
    bits = first.bits()
    kind = "transfer" if second is not None else "mode" if rules.is_mode(bits) else "tx" if rules.is_transmit(bits) else "rx"
    return {"number": numbers[first.index], "line": first.line, "bus": message.bus, "kind": kind, "command": command_of(bits),
            "transmitter": None if second is None else command_of(second), "ended": end[0],
            "why": unsent or (end[1] if len(end) > 1 else None), "data": [f"{it:04x}" for it in data[:64]], "left_out": len(data[64:]),
            "status": None if status is None else f"{status:04x}",
            "bits": [] if status is None else [it for i, it in enumerate(BITS) if status >> (10 - i) & 1],
            "handed": play.answer_line(handed[0]).removeprefix("hand ") if handed else None}  # fmt: skip


def rows_of(setup, events):
    """The messages of numbered events, as JSON has them, in the order in which they are over."""
    messages, history = messages_of(setup, events)
    begun = [it.index for it in history if it.part in ("first", "unheard")]
    numbers = {index: number for number, index in enumerate(begun, 1)}
    return [told_row(setup, numbers, it) for it in messages]
