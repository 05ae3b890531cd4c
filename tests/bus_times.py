"""Runs of a remote terminal on two buses, in real times, and the tables that a bus monitor writes of them.

    bus_times.py table SEED [FORM [FAULT]]              prints a table; FORM is `words` or `messages`
    bus_times.py count TOOL [TABLES [FIRST [FAULT]]]    what TOOL, a built rt1553-tool, says of the tables of so many seeds, and of which
                                                        conforming units it convicts; FAULT is one of `FAULTS`, or `all`

Times are in microseconds, with fractions. A word sounds for 20, but for a clock that is up to 0.1% off (MIL-STD-1553B, 4.3.3.3). A silence is
counted from the end of a word to the begin of the next: 2 less than the time from mid-parity to mid-sync of which the standard tells.

**The unit** is the model of the rules (tests/model/rules.py), to which a subsystem does something at times. It hears a word when the word ends.
It takes a silence for a gap from 2 on, at the latest when its reply is due or another word begins on that bus: some units at once, others at
a random time in between. A reply begins after a silence of 2 to 10 (4.3.3.8); its words are contiguous. A valid command for the unit on the other
bus drops what is not sent; the word that sounds then ends whole, or is cut. In a transfer between terminals the unit waits for the status
word through a silence of at least 12 (4.3.3.9: 14 from mid-parity to mid-sync), and for the first data word until 54 to 60 from the
mid-parity of the receive command to its mid-sync (Notice 2, 30.9). Both limits belong to the unit and are drawn. Behind its status word to a
reset or to the begin of a self test, or behind one of these to all, some units hear nothing for a while (Notice 2, 30.4.3, 30.4.4).

**The others** are controllers and terminals. One controller plays message after message, or goes over to the other bus before a
message or its reply has ended, or two buses have controllers of their own. Other terminals reply after a silence of 2 to 10, too late, or not at
all. Data words are missing or too many, words are noise, messages are broken by silence, words come that belong to no message.

What the standard leaves open is drawn, or left out:

- When a unit takes a silence for a gap while a word on the other bus ends meanwhile: such a run is `undecided`.
- Words of the two buses whose order the monitor can't tell, since its resolution is too coarse: such a table is `close`.
- A second sender on a bus at the same time garbles both. It is left out: no controller sends on a bus while the unit may reply there.
- What a unit sends during the milliseconds of a reset or a self test. It hears nothing then, or does both at once.
- Whether a reset acts whose status word is cut. That word ends whole."""

import collections
import copy
import csv
import functools
import heapq
import io
import itertools
import pathlib
import random
import sys
import tempfile
import tomllib
from dataclasses import dataclass
from typing import Optional

if __name__ == "__main__":
    sys.path.append(str(pathlib.Path(__file__).resolve().parent / "model"))

import decided
import play
import random_scripts
import rules
from programs import run, write_files

WORD = 20.0
PROFILES = range(16)
RESOLUTIONS = (1, 0.1, 0.02)
MODES = ("alone", "over", "both")
OTHERS = (7, 9, 13)
BROADCAST = 31
# silences: the shortest before a reply or between messages, the longest before a reply, and the shortest that is no response
LEAST, LATEST, NO_RESPONSE = 2.0, 10.0, 12.0
# from the mid-parity of the receive command to the mid-sync of the first data word
FIRST_DATA = (54.0, 60.0)
MID_PARITY, MID_SYNC = 0.5, 1.5
# for how long a unit may hear nothing behind its status word to mode codes 8 and 3
RECOVERIES = {8: 5_000.0, 3: 100_000.0}
# a silence after which a conforming unit sends nothing
SILENT = 10.5
UNSEEN = ("write", "vector", "bit", "flag")


# ---- words on two buses


@dataclass
class Sounded:
    """A word on a bus, as a monitor tells it: "c", "d" or "s", its bits, whether it is valid, whether the unit sent it, and of which message."""

    begin: float
    bus: str
    kind: str
    bits: int
    valid: bool
    own: bool
    message: int


@dataclass
class Seen:
    """An event of the unit, or what it sent in a slot, with its word if it has one."""

    time: float
    event: tuple
    sent: Optional[tuple] = None
    word: Optional[Sounded] = None
    ended: float = 0.0  # of a gap: when the silence began


class Clock:
    """Does what is due, in the order of time. A process is a generator of the times at which it goes on."""

    def __init__(self):
        self.now, self.due, self.number = 0.0, [], itertools.count()

    def at(self, time, act):
        """Does this at that time, or now if it is over."""
        time = max(time, self.now)
        heapq.heappush(self.due, (time, next(self.number), act))

    def start(self, process):
        time = next(process, None)
        if time is not None:
            self.at(time, functools.partial(self.start, process))

    def run(self):
        while self.due:
            self.now, _, act = heapq.heappop(self.due)
            act()


class Buses:
    """What sounds on the buses: since when each is free, of which message its words are, and all words."""

    def __init__(self, clock):
        self.clock, self.words = clock, []
        self.free, self.message = {"A": 0.0, "B": 0.0}, {"A": 0, "B": 0}

    def begin(self, bus, kind, bits, valid=True, own=False, lasting=WORD):
        """A word begins now. No two may sound on one bus."""
        now = self.clock.now
        assert now >= self.free[bus], f"two words sound on bus {bus} at {now}"
        word = Sounded(now, bus, kind, bits, valid, own, self.message[bus])
        self.words.append(word)
        self.free[bus] = now + lasting
        return word


# ---- the unit


class Unit:
    """A unit that conforms. Where it `recovers`, it may hear nothing for a while after a reset or a self test."""

    def __init__(self, clock, buses, setup, draw, recovers):
        self.clock, self.buses, self.draw = clock, buses, draw
        self.terminal, self.log = rules.Terminal(setup), []
        self.ended = {"A": None, "B": None}  # when the word ended behind which no gap has come
        self.sounding = None  # its own word
        self.lasting = WORD * draw.uniform(0.999, 1.001)
        self.prompt, self.cuts = draw.random() < 0.5, draw.random() < 0.5
        self.patience, self.first_data = draw.uniform(NO_RESPONSE, 40), draw.uniform(*FIRST_DATA)
        self.recovers = draw.random() < 0.5 and recovers
        self.recovery, self.deaf_until = 0.0, 0.0  # how long from its next status word on it may be deaf, and until when it is
        self.missed = {"A": -WORD, "B": -WORD}  # when the last word ended that it did not hear

    def take(self, event, word=None, ended=0.0):
        """Takes an event, and notes it if it is seen on the buses."""
        answer = self.terminal.step(event)
        sent = answer if answer and answer[0] in ("status", "data") else None
        if event[0] not in UNSEEN:
            self.log.append(Seen(self.clock.now, event, sent, word, ended))
        return sent

    def subsystem(self):
        """The subsystem does something now and then."""
        turn = self.draw.randrange(12)
        if turn < 2:
            self.take(("flag", self.draw.choice(rules.FLAGS), self.draw.randrange(2)))
        elif turn == 2:
            self.take(("write", self.draw.choice((29, 30)), self.draw.randint(1, 3), self.draw.getrandbits(16)))
        elif turn == 3:
            self.take((self.draw.choice(("vector", "bit")), self.draw.getrandbits(16)))

    def begins(self, bus):
        """Another begins a word on a bus: if it was silent before, that was a gap."""
        ended = self.ended[bus]
        if ended is not None and self.clock.now - ended > 1:
            self.gap(bus)
        self.ended[bus] = None

    def recovery_of(self, command):
        """How long the unit may be deaf behind a command: that is a reset, or begins a self test, and is legal."""
        cell = rules.cell_of(command)
        return RECOVERIES.get(cell[1], 0.0) if cell and "mode" in cell[0] and self.terminal.is_legal(command) else 0.0

    def deafen(self, recovery, word=None):
        """From now on the unit hears nothing, for a while; but for one whose status word was cut."""
        if word and not word.valid:
            return
        self.deaf_until = self.clock.now + self.draw.uniform(0, self.draw.choice((300, 1000, recovery)))
        self.ended = {"A": None, "B": None}

    def is_deaf(self, word):
        """Whether the unit does not hear a word: it began when the unit was deaf, or follows one that was not heard without a gap."""
        is_deaf = word.begin < max(self.deaf_until, self.missed[word.bus] + 1)
        if is_deaf:
            self.missed[word.bus] = self.clock.now
        return is_deaf

    def hears(self, word):
        """A word of another ends."""
        if self.is_deaf(word):
            return
        self.subsystem()
        reply, sync = self.terminal.reply, "d" if word.kind == "d" else "c"
        self.take(("word", word.bus, rules.valid_word(sync, word.bits)) if word.valid else ("noise", word.bus), word)
        if reply and self.terminal.reply is not reply:
            self.cut(reply)
        now = self.ended[word.bus] = self.clock.now
        response = self.draw.uniform(LEAST, LATEST)
        latency = LEAST if self.prompt else self.draw.uniform(LEAST, response)
        self.clock.at(now + latency, functools.partial(self.silence, word.bus, now, response))
        self.clock.at(now + SILENT, functools.partial(self.stays_silent, word.bus, now))

    def cut(self, reply):
        """A start on the other bus has dropped a reply. Some units cut the word that sounds."""
        word = self.sounding
        if word and self.buses.free[word.bus] > self.clock.now and self.cuts and not reply.resets:
            word.valid = False

    def silence(self, bus, ended, response):
        """The silence is a gap now, if it lasts."""
        if self.ended[bus] == ended:
            self.gap(bus, response)

    def gap(self, bus, response=LATEST):
        """A gap: a reply may begin, or the wait for another terminal."""
        ended, self.ended[bus] = self.ended[bus], None
        reply, message = self.terminal.reply, self.terminal.message
        phase = message and message.phase
        recovery = self.recovery_of(message.command) if self.recovers and message and message.bus == bus and not message.followed else 0.0
        self.take(("gap", bus), ended=ended)
        if self.terminal.reply is not reply:
            self.recovery = recovery
            self.clock.at(ended + response, functools.partial(self.send, self.terminal.reply))
        elif recovery and rules.is_broadcast(message.command):
            self.deafen(recovery)
        if message and message.phase == "waiting" != phase:
            receive_ended = ended - WORD
            self.clock.at(ended + self.patience, functools.partial(self.no_status, bus, message))
            self.clock.at(receive_ended - MID_PARITY + self.first_data, functools.partial(self.no_data, bus, message))

    def no_status(self, bus, message):
        """The unit gives up waiting for a status word, if it waits and none has begun."""
        if self.terminal.message is message and message.phase == "waiting" and self.buses.free[bus] <= self.clock.now:
            self.take(("gap", bus), ended=self.clock.now)

    def no_data(self, bus, message):
        """The unit gives up waiting for the first data word, if its sync has not come."""
        if self.terminal.message is not message or message.followed:
            return
        last = next(it for it in reversed(self.buses.words) if it.bus == bus)
        waits = message.phase == "waiting" and last.kind != "d"
        if waits or last.begin + MID_SYNC > self.clock.now or self.buses.free[bus] <= self.clock.now:
            self.take(("gap", bus), ended=self.clock.now)

    def send(self, reply):
        """Sends the next word of a reply, if nothing has dropped it."""
        if self.terminal.reply is not reply:
            return
        word = self.sounding = self.buses.begin(reply.bus, "", 0, own=True, lasting=self.lasting)
        kind, _, word.bits = self.take(("slot",), word)
        word.kind = kind[0]
        self.clock.at(self.buses.free[reply.bus], functools.partial(self.send, reply))
        if self.recovery:
            self.clock.at(self.buses.free[reply.bus], functools.partial(self.deafen, self.recovery, word))
            self.recovery = 0.0

    def may_send(self, bus):
        """Whether a reply is in progress on a bus, or a gap would begin one."""
        terminal = copy.deepcopy(self.terminal)
        terminal.step(("gap", bus))
        is_due = terminal.reply is not None and terminal.reply.bus == bus
        return is_due or self.buses.free[bus] > self.clock.now

    def stays_silent(self, bus, ended):
        """Notes a slot in which a unit sends nothing, if none could still begin a reply."""
        if self.buses.free[bus] == ended and not self.terminal.reply:
            self.take(("slot",))


# ---- the controllers and the other terminals


class Controllers:
    """The controllers and the other terminals. Where they are `plain`, a monitor can tell what they send in rows of messages."""

    def __init__(self, clock, buses, unit, setup, draw, plain):
        self.clock, self.buses, self.unit, self.draw, self.plain = clock, buses, unit, draw, plain
        self.own, self.plays = setup.address, 0
        self.idle, self.until = {"A": True, "B": True}, {"A": 0.0, "B": 0.0}
        self.lasting = WORD * draw.uniform(0.999, 1.001)
        self.late = draw.random() < 0.5

    def chance(self, of):
        return self.draw.random() * of < 1

    # words

    def say(self, bus, kind, bits, valid=True):
        """A word, contiguous with the one before."""
        word = self.buses.begin(bus, kind, bits, valid, lasting=self.lasting)
        self.unit.begins(bus)
        self.clock.at(self.buses.free[bus], functools.partial(self.unit.hears, word))
        yield self.buses.free[bus]

    def noise(self, bus):
        yield from self.say(bus, self.draw.choice("cds"), self.draw.getrandbits(16), valid=False)

    def words(self, bus, words, broken=True):
        """Contiguous words. Some are missing or noise, or come behind noise or a silence, in which no reply can be due."""
        self.until[bus] = self.clock.now + WORD * len(words)
        for number, (kind, bits) in enumerate(words):
            turn = self.draw.randrange(100)
            if turn == 0 and (kind == "d" or not self.plain):
                continue
            if turn == 1 and not self.plain:
                yield from self.noise(bus)
            if turn == 2 and broken and kind == "d" and 0 < number < len(words) - 1 and not self.plain:
                yield self.clock.now + self.draw.uniform(LEAST, 40)
            yield from self.say(bus, kind, bits, valid=self.plain or turn != 3)

    def data(self, count):
        """As many data words, or one more or less."""
        count += self.draw.choice((-1, 1)) if self.chance(30) else 0
        return [("d", self.draw.getrandbits(16)) for _ in range(count)]

    def other(self, bus, address, count):
        """Another terminal replies with as many data words: in time, too late or not at all."""
        turn = self.draw.randrange(6)
        if turn == 0:
            return
        late = turn < 3 and self.late
        yield self.buses.free[bus] + (self.draw.uniform(LATEST, 65) if late else self.draw.uniform(LEAST, LATEST))
        if self.unit.may_send(bus):
            yield from self.answered(bus)
            return
        yield from self.words(bus, [("s", address << 11 | self.draw.getrandbits(11)), *self.data(count)])

    # silences

    def answered(self, bus):
        """Waits for a reply of the unit and, where one comes, for its end."""
        ended = self.buses.free[bus]
        yield ended + self.draw.uniform(NO_RESPONSE, self.draw.choice((13, 40)))
        while self.buses.free[bus] + 1 > self.clock.now:
            yield self.buses.free[bus] + 1

    def gap(self, bus):
        """The silence between messages."""
        most = self.draw.choice((4, 20, 60, 198, 198 if self.draw.randrange(3) else 1000))
        yield max(self.clock.now, self.buses.free[bus] + self.draw.uniform(LEAST, most))

    # messages

    def place(self):
        return 32 * self.draw.choice((29, 30, 30, 2))

    def count(self):
        return self.draw.choice((1, 2, 2, 2, 3, 3, 5, 32))

    def command(self, address, transmit, place, low):
        return ("c", address << 11 | transmit << 10 | place | low % 32)

    def address(self):
        """The unit's address, or all."""
        return self.draw.choice((self.own, self.own, BROADCAST))

    def to_unit(self, bus):
        count = self.count()
        yield from self.words(bus, [self.command(self.own, 0, self.place(), count), *self.data(count)])
        yield from self.answered(bus)

    def from_unit(self, bus):
        yield from self.words(bus, [self.command(self.own, 1, self.place(), self.count())])
        yield from self.answered(bus)

    def mode(self, bus):
        """Mode codes to the unit or to all. Those that ask for what the unit keeps come often."""
        code = self.draw.choice((2, 2, 2, 2, 2, 18, 18, 18, 4, 5, 8, *range(20)))
        transmit, address = int(code != 17), self.address() if code not in (2, 18) else self.own
        words = [self.command(address, transmit, self.draw.choice((0, 992)), code)]
        yield from self.words(bus, words + (self.data(1) if code == 17 else []))
        if address == self.own:
            yield from self.answered(bus)

    def to_all(self, bus):
        count = self.count()
        yield from self.words(bus, [self.command(BROADCAST, 0, self.place(), count), *self.data(count)])

    def other_to_unit(self, bus):
        """A transfer from another terminal to the unit, or to all."""
        address, other, count = self.address(), self.draw.choice(OTHERS), self.count()
        yield from self.words(bus, [self.command(address, 0, self.place(), count), self.command(other, 1, 64, count)])
        yield from self.other(bus, other, count)
        yield from self.answered(bus)

    def unit_to_other(self, bus):
        """A transfer from the unit to another terminal, or to all."""
        address, count = self.draw.choice((*OTHERS, BROADCAST)), self.count()
        sent = len(self.buses.words)
        yield from self.words(bus, [self.command(address, 0, 64, count), self.command(self.own, 1, self.place(), count)])
        yield from self.answered(bus)
        if address != BROADCAST and any(it.own and it.bus == bus for it in self.buses.words[sent:]):
            yield from self.other(bus, address, 0)

    def to_other(self, bus):
        address, count = self.draw.choice(OTHERS), self.count()
        yield from self.words(bus, [self.command(address, 0, 64, count), *self.data(count)])
        yield from self.other(bus, address, 0)

    def from_other(self, bus):
        address, count = self.draw.choice(OTHERS), self.count()
        yield from self.words(bus, [self.command(address, 1, 64, count)])
        yield from self.other(bus, address, count)

    def loose(self, bus):
        """Words that are no message."""
        words = [(self.draw.choice("ccd"), self.draw.getrandbits(16)) for _ in range(self.draw.randint(1, 3))]
        yield from self.words(bus, words, broken=False)
        yield from self.answered(bus)

    def twice(self, bus):
        """Two commands to the unit without a gap."""
        words = [self.command(self.address(), 1, *self.draw.choice(((0, 2), (0, 18), (self.place(), 1)))) for _ in range(2)]
        yield from self.words(bus, words)
        yield from self.answered(bus)

    def message(self, bus):
        """A message, of whatever kind."""
        kinds = [self.to_unit, self.from_unit, self.mode, self.mode, self.mode, self.to_all, self.other_to_unit, self.other_to_unit,
                 self.unit_to_other, self.to_other, self.from_other]  # fmt: skip
        yield from self.draw.choice(kinds if self.plain else [*kinds, self.loose, self.twice])(bus)

    def play(self, bus):
        """A message, and the silence behind it. The words that sound on its bus meanwhile are the message's."""
        self.plays += 1
        self.idle[bus], self.buses.message[bus] = False, self.plays
        yield from self.message(bus)
        yield from self.gap(bus)
        self.idle[bus] = True

    # controllers

    def alone(self, messages):
        """Message after message."""
        for _ in range(messages):
            yield from self.play("B" if self.chance(3) else "A")

    def over(self, messages):
        """A controller that does not wait for the end of a message before it goes over to the other bus."""
        bus = "A"
        for _ in range(messages):
            while not self.idle[bus]:
                yield self.clock.now + self.draw.uniform(1, 7)
            self.clock.start(self.play(bus))
            soon = self.clock.now + self.draw.uniform(0, 20)
            near = self.until[bus] + self.draw.uniform(-45, 30)
            yield max(soon, self.draw.choice((near, near, self.clock.now + self.draw.uniform(0, 200))))
            bus = rules.other_bus(bus) if not self.chance(5) else bus

    def on(self, bus, messages):
        """Message after message on a bus."""
        yield self.draw.uniform(0, 200)
        for _ in range(messages):
            yield from self.play(bus)

    def start(self, mode, messages):
        if mode == "both":
            self.clock.start(self.on("A", messages // 2))
            self.clock.start(self.on("B", messages // 2))
        else:
            self.clock.start({"alone": self.alone, "over": self.over}[mode](messages))


# ---- runs


@dataclass
class Run:
    """What sounded, in the order of time, and what the unit saw and sent."""

    setup: rules.Setup
    mode: str
    plain: bool
    words: list
    log: list


@functools.lru_cache(maxsize=None)
def setup_of(number):
    """The terminal of a profile."""
    return play.setup_of(tomllib.loads(random_scripts.profile_of(number)))


def run_of(seed, recovers=True):
    """The run of a seed: the profile is the seed's remainder by 16. The unit may be deaf after a reset or a self test where it `recovers`."""
    draw, clock, setup = random.Random(seed), Clock(), setup_of(seed % len(PROFILES))
    buses = Buses(clock)
    unit = Unit(clock, buses, setup, draw, recovers)
    mode, plain = draw.choice(MODES), draw.random() < 0.5
    Controllers(clock, buses, unit, setup, draw, plain).start(mode, draw.randint(4, 12))
    clock.run()
    return Run(setup, mode, plain, buses.words, unit.log)


def recording_of(run):
    """What the unit saw and sent, for `decided`."""
    return [(it.event, it.sent) for it in run.log]


# ---- what a table doesn't tell


def rounded(time, resolution):
    """A time as the monitor writes it."""
    return round(time / resolution) * resolution


def shown_time(seen, resolution):
    """When the table shows an event to have been: a word of another at its end, one of the unit at its begin."""
    return rounded(seen.word.begin, resolution) + (0 if seen.word.own else WORD)


def is_for_unit(run, seen):
    """Whether an event is a command that the unit hears."""
    if seen.event[0] != "word" or seen.event[2][0] != "c":
        return False
    address = seen.event[2][1] >> 11
    return address == run.setup.address or (address == BROADCAST and run.setup.broadcast)


def is_close(run, resolution):
    """Whether the table doesn't tell the order of a command for the unit and a word of the other bus."""
    seen = [it for it in run.log if it.word]
    for number, one in enumerate(seen):
        for other in itertools.takewhile(lambda it: it.time < one.time + 2 * resolution + 1, seen[number + 1 :]):
            swapped = other.word.bus != one.word.bus and shown_time(other, resolution) < shown_time(one, resolution) + 1e-6
            if swapped and (is_for_unit(run, one) or is_for_unit(run, other)):
                return True
    return False


def is_undecided(run, resolution):
    """Whether a command for the unit ended on one bus while the unit had not yet taken a silence on the other for a gap, though it may have."""
    commands = [it for it in run.log if is_for_unit(run, it)]
    gaps = [it for it in run.log if it.event[0] == "gap"]
    return any(gap.ended + 1 - resolution < it.time < gap.time and it.word.bus != gap.event[1] for gap in gaps for it in commands)


def is_late(run, resolution):
    """Whether a status word came later than the longest response time, which a table of messages doesn't tell."""
    last = {"A": 0.0, "B": 0.0}
    for word in run.words:
        if word.kind == "s" and word.begin - last[word.bus] > NO_RESPONSE - resolution:
            return True
        last[word.bus] = word.begin + WORD
    return False


# ---- faults of the unit


def replies_of(run):
    """What the unit sent: the words of each reply."""
    replies = []
    for seen in (it for it in run.log if it.word and it.word.own and it.word.valid):
        last = replies[-1][-1].word if replies else None
        if last and last.bus == seen.word.bus and seen.word.begin - last.begin < WORD + 1:
            replies[-1].append(seen)
        else:
            replies.append([seen])
    return replies


def change(seen, bits):
    """The unit sends other bits."""
    seen.word.bits, seen.sent = bits, (*seen.sent[:2], bits)


def withhold(run, seen):
    """The unit sends nothing there."""
    run.words = [it for it in run.words if it is not seen.word]
    seen.sent = seen.word = None


def free_after(run, bus, time):
    """When the next word begins on a bus, from a time on."""
    return min((it.begin for it in run.words if it.bus == bus and it.begin >= time), default=float("inf"))


def insert(run, begin, bus, kind, bits):
    """The unit sends a word more."""
    word = Sounded(begin, bus, kind, bits, True, True, max((it.message for it in run.words if it.bus == bus and it.begin < begin), default=0))
    run.words = sorted([*run.words, word], key=lambda it: it.begin)
    seen = Seen(begin, ("slot",), ({"s": "status", "d": "data"}[kind], bus, bits), word)
    run.log = sorted([*run.log, seen], key=lambda it: it.time)


def wrong_bit(run, draw, replies):
    """A bit of a word."""
    seen = draw.choice(draw.choice(replies))
    change(seen, seen.word.bits ^ 1 << draw.randrange(16))
    return True


def wrong_status(run, draw, replies):
    """A bit of a status word that no flag decides."""
    seen = draw.choice(replies)[0]
    change(seen, seen.word.bits ^ draw.choice((0x400, 0x200, 0x80, 0x40, 0x20, 0x10, 0x2)))
    return True


def missing_word(run, draw, replies):
    """A word of a reply with data is missing."""
    longer = [it for it in replies if len(it) > 1]
    if longer:
        withhold(run, draw.choice(draw.choice(longer)))
    return bool(longer)


def missing_reply(run, draw, replies):
    """A whole reply is missing."""
    for seen in draw.choice(replies):
        withhold(run, seen)
    return True


def late_reply(run, draw, replies):
    """A whole reply comes after the longest response time."""
    reply, late = draw.choice(replies), draw.uniform(LATEST + 3, 30)
    words = [it.word for it in reply]
    if free_after(run, words[0].bus, words[-1].begin + 1) < words[-1].begin + late + WORD + LEAST:
        return False
    for seen, word in zip(reply, words):
        withhold(run, seen)
        word.begin += late
    run.words = sorted([*run.words, *words], key=lambda it: it.begin)
    return True


def wrong_count(run, draw, replies):
    """A data word more or less behind a reply."""
    reply = draw.choice(replies)
    last = reply[-1].word
    if len(reply) > 1 and draw.random() < 0.5:
        withhold(run, reply[-1])
        return True
    if free_after(run, last.bus, last.begin + WORD - 1) < last.begin + 2 * WORD + LEAST:
        return False
    insert(run, last.begin + WORD, last.bus, "d", draw.getrandbits(16))
    return True


def reply_too_many(run, draw, replies):
    """A status word in a silence in which nothing is to be sent."""
    silences = [it for it in run.log if it.word and free_after(run, it.word.bus, it.word.begin + 1) > it.word.begin + 2 * WORD + LATEST + LEAST]
    if silences:
        word = draw.choice(silences).word
        status = run.setup.address << 11
        insert(run, word.begin + WORD + draw.uniform(LEAST, LATEST), word.bus, "s", status)
    return bool(silences)


FAULTS = {it.__name__: it for it in (wrong_bit, wrong_status, missing_word, missing_reply, late_reply, wrong_count, reply_too_many)}


def faulty_run(seed, fault):
    """The run of a seed, with this fault; None where it has no place for it. The unit is never deaf, which would excuse it."""
    run, draw = run_of(seed, recovers=False), random.Random(seed)
    replies = replies_of(run)
    return run if replies and FAULTS[fault](run, draw, replies) else None


# ---- tables


def time_text(time, resolution):
    """A time as the monitor writes it."""
    return f"{rounded(time, resolution):.{ {1: 0, 0.1: 1, 0.02: 2}[resolution]}f}"


def table_text(header, rows):
    """A table with these rows."""
    file = io.StringIO()
    csv.writer(file, lineterminator="\n").writerows([header, *rows])
    return file.getvalue()


def word_table(run, resolution):
    """The table of a run with a row for each word."""
    rows = [(time_text(it.begin, resolution), it.bus, it.kind, f"{it.bits:04x}", "" if it.valid else "manchester") for it in run.words]
    return table_text(("time", "bus", "sync", "word", "error"), rows)


def message_row(words, resolution):
    """The row of a message with these words, or None where a row can't tell them."""
    kinds, bits = "".join(it.kind for it in words), [it.bits for it in words]
    commands = len(kinds) - len(kinds.lstrip("c"))
    contiguous = all(it.kind == "s" or it.begin - last.begin < WORD + 1 for last, it in itertools.pairwise(words))
    if not contiguous or not all(it.valid for it in words) or not is_row(kinds, commands, bits):
        return None
    texts = {kind: [f"{it.bits:04x}" for it in words[commands:] if it.kind == kind] for kind in "ds"}
    status, status2 = (*texts["s"], "", "")[:2]
    second = f"{bits[1]:04x}" if commands == 2 else ""
    return (time_text(words[0].begin, resolution), words[0].bus, f"{bits[0]:04x}", second, " ".join(texts["d"]), status, status2)


def is_row(kinds, commands, bits):
    """Whether words are those of a row: one command with data and a status word in its order, or the two commands of a transfer."""
    rest = kinds[commands:].replace("dd", "d").replace("dd", "d").replace("dd", "d")
    if commands == 2:
        return not rules.is_transmit(bits[0]) and rules.is_transmit(bits[1]) and rest in ("", "s", "sd", "ss", "sds")
    return commands == 1 and rest in (("", "s", "sd") if rules.is_transmit(bits[0]) else ("", "d", "s", "ds"))


def message_table(run, resolution):
    """The table of a run with a row for each message, or None where rows of messages can't tell it."""
    messages = {}
    for word in run.words:
        messages.setdefault(word.message, []).append(word)
    rows = [message_row(it, resolution) for it in messages.values()]
    return None if None in rows else table_text(("time", "bus", "command", "command2", "data", "status", "status2"), rows)


FORMS = {"words": word_table, "messages": message_table}


# ---- verdicts


VERDICTS = {0: "passed", 1: "failed", 2: "refused", 3: "not judged"}


def write_profiles(folder):
    """The profiles; that of terminal N has the number N / 2."""
    write_files(folder, {f"{number}.toml": random_scripts.profile_of(number) for number in PROFILES})


def resolution_of(seed):
    """The resolution of the monitor."""
    return RESOLUTIONS[seed // len(PROFILES) % len(RESOLUTIONS)]


def left_open(one, form, resolution):
    """What the times of a table leave open, in a word, or nothing."""
    if is_close(one, resolution):
        return "close"
    if form == "messages" and is_late(one, resolution):
        return "late"
    return "undecided" if is_undecided(one, resolution) else ""


def judged(tool, folder, seed, one, form):
    """What the tool says of a run in a form, a verdict and the lines that it printed; None where that form can't tell the run."""
    table = FORMS[form](one, resolution_of(seed))
    if not table:
        return None
    write_files(folder, {"table.csv": table})
    made = run(tool, "recording", "table.csv", "--address", str(one.setup.address), folder=folder)
    if made.status:
        return VERDICTS[made.status], made.errors.decode()
    write_files(folder, {"script": made.output})
    said = run(tool, "verify", "--any-subsystem", f"{one.setup.address // 2}.toml", "script", folder=folder)
    return VERDICTS[said.status], (said.output + said.errors).decode()


# ---- what a table leaves open that hides a fault


def is_word(item):
    """Whether this item of a script is a word that was heard or sent, or noise."""
    return not item.removeprefix("#? ").endswith(("gap", "slot"))


def items_of(script):
    """What a script has: words, `A s 2800` for one that the unit sent, and gaps and silent slots, which may be open."""
    items = []
    for line in script.splitlines():
        if line.startswith("#> "):
            items[-1] = line
        elif line and not line.startswith("# "):
            items.append(line)
    return items


def true_items(run):
    """The same of what the unit saw and sent."""
    items = []
    for seen in run.log:
        kind, *rest = seen.event
        if seen.sent:
            items.append(f"#> {seen.sent[1]} {seen.sent[0][0]} {seen.sent[2]:04x}")
        elif kind == "word":
            items.append(f"{rest[0]} {rest[1][0]} {rest[1][1]:04x}")
        else:
            items.append(" ".join((*rest, kind)))
    return items


def stretches(items):
    """The words of a script, and what comes before each and behind the last."""
    words, between = [], [[]]
    for item in items:
        if is_word(item):
            words.append(item)
            between.append([])
        else:
            between[-1].append(item)
    return words, between


def script_text(words, between):
    """The script of words and what comes between them."""
    items = [it for pair in itertools.zip_longest(between, ([it] for it in words), fillvalue=[]) for part in pair for it in part]
    return "".join(f"slot\n{it}\n" if it.startswith("#> ") else f"{it}\n" for it in items)


def with_slots(told, true):
    """What comes between two words, with the silent slots that truly were there."""
    return told if any("slot" in it for it in told) else [*told, *(it for it in true if it == "slot")]


def with_gaps(told, true):
    """The same, with the gaps that truly came."""
    return [it for it in true if it != "slot" or any("slot" in it for it in told)]


def hidden_by(tool, folder, one):
    """What a script leaves open of a run with a fault that passes: `slots` that it does not state, `gaps` that may have come, `both`, who was
    the `sender` of a word, or the `order` of words; nothing where it fails with all of these as they were."""
    words, told = stretches(items_of((folder / "script").read_text(encoding="ascii")))
    true_words, true = stretches(true_items(one))
    if words != true_words:
        return "order" if sorted(words) == sorted(true_words) else "sender"
    for name, change in {"slots": with_slots, "gaps": with_gaps, "both": lambda _, true: true}.items():
        write_files(folder, {"script": script_text(words, [change(*it) for it in zip(told, true)])})
        if run(tool, "verify", "--any-subsystem", f"{one.setup.address // 2}.toml", "script", folder=folder).status == 1:
            return name
    return ""


def explained(one):
    """Whether some behaviour of the subsystem explains what the unit saw and sent, in the true order."""
    recording = recording_of(one)
    return decided.explained(one.setup, recording) == len(recording)


# ---- counts


def counted(tool, seeds, fault):
    """The verdicts of these seeds, by form, mode and what is left open, or with a fault by form and whether it is explained; the
    conforming units that fail; and what hides the faults that pass in tables of words."""
    counts, failures, hidden = collections.Counter(), [], collections.Counter()
    with tempfile.TemporaryDirectory() as folder:
        write_profiles(folder)
        for seed, form in itertools.product(seeds, FORMS):
            one = faulty_run(seed, fault) if fault else run_of(seed)
            said = one and judged(tool, folder, seed, one, form)
            if said:
                left = left_open(one, form, resolution_of(seed))
                kind = one.mode if not fault else "explained" if explained(one) else "a fault"
                counts[form, kind, left or "clear", said[0]] += 1
                if kind == "a fault" and said[0] == "passed" and form == "words":
                    hidden[hidden_by(tool, pathlib.Path(folder), one) or f"nothing: {seed}"] += 1
                if said[0] == "failed" and not fault:
                    failures.append((seed, form, one.mode, left, resolution_of(seed), said[1].splitlines()[0]))
    return counts, failures, hidden


def lines_of(counts):
    """The counts, a line for each kind."""
    names = list(VERDICTS.values())
    yield " ".join(f"{it:>10}" for it in ("form", "", "times", *names))
    for kind in sorted({it[:3] for it in counts}):
        yield " ".join(f"{it:>10}" for it in (*kind, *(counts[(*kind, name)] for name in names)))


def count(tool, tables="1600", first="0", fault=""):
    seeds = range(int(first), int(first) + int(tables))
    for name in FAULTS if fault == "all" else [fault]:
        counts, failures, hidden = counted(pathlib.Path(tool).resolve(), seeds, name)
        print(name or "conforming units", *lines_of(counts), *failures, *hidden.items(), sep="\n", flush=True)


def table(seed, form="words", fault=""):
    one = faulty_run(int(seed), fault) if fault else run_of(int(seed))
    print(one and FORMS[form](one, resolution_of(int(seed))) or "no table can tell this run\n", end="")


def main():
    job, *rest = sys.argv[1:]
    {"table": table, "count": count}[job](*rest)


if __name__ == "__main__":
    main()
