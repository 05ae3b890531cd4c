"""`rt1553-tool bus` against the bus of tests/model, over random terminals and random controllers: transcript and warnings, and of some
terminals what comes to them and what they answer to that alone. And `bus --check` over random schedules.

What the counts name has to happen often.
"""

import collections
import random
import re
from typing import NamedTuple

import buses
import exchanges
import play
import pytest
import rules
import run_messages
from programs import Given, run, write_files

SEEDS, BUSES = 20, 250
# in the buses of each seed
OFTEN = {
    "messages received, own": 100, "messages received, broadcast": 200,
    "transfers received, own": 100, "transfers received, broadcast": 200, "transmitters of a broadcast transfer": 80,
    "status words heard by who waits": 600, "waits ended by what terminals send": 60, "waits that end in error": 150, "other errors": 600,
    "superseded messages": 50, "dropped replies": 40, "slots in which both buses carry words": 30, "collisions": 120,
    "gaps during a reply": 200, "commands taken for a status word": 70, "buses without a warning": 20,
    "mode code 4, own": 30, "mode code 4, broadcast": 4, "mode code 5, own": 45, "mode code 5, broadcast": 6,
    "selected shutdowns and overrides": 45, "replies that a shutdown keeps back": 60,
    "mode code 8, own": 25, "mode code 8, broadcast": 4, "resets": 35,
    "mode code 2, own": 250, "mode code 18, own": 50, "lines of a subsystem": 350, "noise": 45, "words of wrong parity": 60,
}  # fmt: skip


@pytest.mark.parametrize("seed", range(SEEDS))
def test_random_buses(tool, rt1553, seed, tmp_path, count_runs):
    draw, counts = random.Random(seed), collections.Counter()
    profiles = buses.profiles_of(draw)
    write_files(tmp_path, {name: text for name, (text, _) in profiles.items()})
    for number in range(BUSES):
        names, bus, wanted = buses.random_run(draw, profiles, counts)
        write_files(tmp_path, {"script": b"".join(it + b"\n" for it in wanted.lines)})
        given = run(tool, "bus", *names, "script", folder=tmp_path)
        assert given == (0, "".join(f"{it}\n" for it in wanted.transcript).encode(), "".join(wanted.warnings).encode()), number
        counts["buses without a warning"] += not wanted.warnings
        assert wanted.warnings or bus.together <= 1
        if number % 10 == 0 or "A collision" in wanted.transcript:
            check_alone(tool, rt1553, draw.choice(names), names, bus, wanted, tmp_path)
    assert {name: counts[name] for name, least in OFTEN.items() if counts[name] < least} == {}
    count_runs(BUSES)


def check_alone(tool, rt1553, name, names, bus, wanted, folder):
    """What comes to a terminal, and what it answers to that alone."""
    address = name[:2]
    alone = run(tool, "bus", *names, "script", "--alone", address, folder=folder)
    assert alone.status == 0
    assert [it for _, it in play.events_of(alone.output) if it] == bus.came[int(address)]
    answers = "".join(f"{it[3:]}\n" for it in wanted.transcript if it.startswith(f"{address} "))
    assert run(rt1553, "run", name, "/dev/stdin", stdin=alone.output, folder=folder) == (0, answers.encode(), b"")


CHECK_SEEDS, SCHEDULES = 4, 100
# in the schedules of each seed
CHECKED = {
    "well": 100, "neither": 150, "in the run": 12, "both, and not the same": 15, "all end well": 1, "lines of a subsystem": 80,
    "no profile has address": 40, "no terminal takes the broadcast": 40, "illegal": 150, "busy": 8, "done: transmitter shut down": 3,
    "in error: wrong word count": 20, "in error: no status from the transmitter": 1,
    "takes it for no message": 20, "ignored: during a reply": 1, "commands of two lines in a message": 10,
    "in every order": 1, "leaves: in a message": 20,
    "leaves: with its transmitter shut down": 10, "leaves: busy": 20, "leaves: with message error in the status that it keeps": 50,
    "loads to 100 %": 10, "loads over 100 %": 20, "rated: data": 40, "rated: data to all": 5, "rated: mode code": 20, "rated: mode code to all": 4,
    "rated: transfer": 20, "rated: transfer to all": 4, "legal for some words": 10, "not legal": 30, "transfers without words": 20,
}  # fmt: skip


class Message(NamedTuple):
    """A message of a schedule: its line, and what the controller puts."""

    line: str
    bus: str
    commands: list
    data: list

    def events(self, present):
        """The lines of a script for it, where these terminals are on the bus."""
        first, *second = self.commands
        words = [f"{self.bus} d {it:04x}" for it in self.data]
        lines = [f"{self.bus} c {it:04x}" for it in self.commands]
        if not second:
            return [*lines, *words, f"{self.bus} gap", *["slot"] * reply_of(first)]
        to, sender = first >> 11, second[0] >> 11
        lines += [f"{self.bus} gap", *(["slot"] * reply_of(second[0]) if sender in present else [f"{self.bus} c {sender << 11:04x}", *words])]
        receivers = {*present} - {sender} if to == 31 else {*present} & {to}
        if sender in present and not receivers:
            return lines
        return [*lines, f"{self.bus} gap", *["slot"] * (to != 31)]


def reply_of(command):
    """How many words the reply to a command has that is done."""
    if rules.is_broadcast(command):
        return 0
    if rules.is_mode(command):
        return 1 + (rules.is_transmit(command) and command & 31 >= 16)
    return 1 + rules.is_transmit(command) * rules.count_of(command)


class Schedule:
    """1 to 12 messages for some terminals that look random, with lines of subsystems between them, and strange lines in some."""

    def __init__(self, draw, addresses):
        self.draw, self.addresses = draw, addresses
        self.subaddresses, self.most = [*draw.sample(range(1, 31), 2), 30], draw.choice([1, 4, 4, 32])
        # what a schedule is like differs from one to the other
        self.busy, self.absent = draw.choice([0, 0.3, 0.7]), draw.choice([0, 0, 0.1])
        self.all, self.strange = draw.choice([0, 0.1, 0.4]), draw.choice([0, 0, 0.4])
        kinds = [self.receive, self.transmit, self.mode_code, self.mode_code, self.shutdown, self.transfer, self.subsystem, self.subsystem]
        kinds = draw.sample(kinds, draw.choice([3, 6, len(kinds)])) + [self.receive, self.transfer]
        self.lines, length = [], draw.randint(1, 12)
        while sum(isinstance(it, Message) for it in self.lines) < length:
            self.lines += self.strangers() if draw.random() < self.strange else []
            line = draw.choice(kinds)()
            if self.strange and isinstance(line, Message) and draw.random() < 0.3:
                # with which the message may make a transfer
                self.lines.append(f"{line.bus} c {self.receive().commands[0]:04x}")
            self.lines.append(line)

    def own(self):
        """The address of a terminal, or one without a profile."""
        return self.draw.randrange(31) if self.draw.random() < self.absent else self.draw.choice(self.addresses)

    def address(self):
        return 31 if self.draw.random() < self.all else self.own()

    def words(self, count):
        return [self.draw.getrandbits(16) for _ in range(count)]

    def message(self, fields, commands, count):
        bus, data = self.draw.choice("AAB"), self.words(count)
        line = f"{bus} {fields}" + ":" * bool(data) + "".join(f" {it:04x}" for it in data)
        return Message(line, bus, commands, data)

    def receive(self, transmit=0):
        address, subaddress, count = self.address(), self.draw.choice(self.subaddresses), self.draw.randint(1, self.most)
        command = address << 11 | transmit << 10 | subaddress << 5 | count % 32
        return self.message(f"{['rx', 'tx'][transmit]} {named(address)} {subaddress} {count}", [command], count * (1 - transmit))

    def transmit(self):
        return self.receive(1)

    def transfer(self):
        sender, to, count = self.own(), self.address(), self.draw.randint(1, self.most)
        while to == sender:
            to = self.draw.randrange(32)
        at, of = self.draw.choices(self.subaddresses, k=2)
        commands = [to << 11 | at << 5 | count % 32, sender << 11 | 1 << 10 | of << 5 | count % 32]
        return self.message(f"rx {named(to)} {at} {count} from {sender} {of}", commands, count)

    def mode_code(self, codes=(0, 1, 2, 3, 6, 7, 8, 16, 17, 18, 19)):
        """One of the standard as it is there, mostly, or with any T/R, and at subaddress 31."""
        address, code = self.address(), self.draw.choice(codes)
        if self.draw.randrange(4):
            transmit, at, fields = rules.MODE_CODES[code][0], 0, f"mode {named(address)} {code}"
        else:
            code, transmit, at = self.draw.choice([code, self.draw.randrange(32)]), self.draw.randrange(2), self.draw.choice([0, 31])
            fields = f"mode {named(address)} {code} {['rx', 'tx'][transmit]}" + " 31" * (at == 31)
        return self.message(fields, [address << 11 | transmit << 10 | at << 5 | code], int(not transmit and code >= 16))

    def shutdown(self):
        return self.mode_code((4, 4, 4, 5))

    def subsystem(self):
        bits, address = self.draw.getrandbits(16), self.draw.choice(self.addresses)
        write = f"write {self.draw.choice(self.subaddresses):02} {self.draw.randint(1, self.most):02} {bits:04x}"
        flag = f"flag busy {int(self.draw.random() < self.busy)}"
        return f"{address:02} {self.draw.choice([write, flag, flag])}"

    def strangers(self):
        """Events, status and data words that belong to no message, and lines that say nothing."""
        bus, message = self.draw.choice("AAB"), self.draw.choice([self.receive, self.transmit, self.mode_code])()
        command, gap = f"{bus} c {message.commands[0]:04x}", f"{bus} gap"
        others = [gap, "slot", f"{bus} noise", f"{bus} d 0000", f"{bus} status {self.own()}", f"{bus} data 0011", "", "# A tx 5 1 1"]
        return self.draw.choice([[command], [command], [command, gap], [command, gap], [command, gap, "slot"], *([it] for it in others)])


def named(address):
    return "all" if address == 31 else f"{address}"


def event_of(line):
    """The line of a script for one that is no message."""
    status = re.fullmatch(r"([AB]) status (\d+)", line)
    return f"{status[1]} c {int(status[2]) << 11:04x}" if status else line.replace("data", "d")


def commands_of(row, came):
    """The words of the commands of a message, by the numbers of their lines; it begins at a place of what came to its terminal."""
    later = [(number, event[2][1]) for number, event in came[row["line"]:] if event[0] == "word" and event[1] == row["bus"]]
    return later[:1 + (row["transmitter"] is not None)]


def rows_of(setups, numbered, counts):
    """The messages of each terminal with their commands, of numbered lines of a script on a bus of these, and the warnings."""
    bus = buses.Bus(setups, counts)
    events, warnings = {it.address: [] for it in setups}, []
    for number, line in numbered:
        warning = bus.take(line.encode())[1]
        warnings += [f"schedule:{number}: warning: {warning}\n"] if warning else []
        for address, came in bus.came.items():
            events[address] += [(number, it) for it in came[len(events[address]):]]
    rows = {}
    for it in setups:
        came = events[it.address]
        told = run_messages.rows_of(it, [(place, event) for place, (_, event) in enumerate(came)])
        rows[it.address] = [(row, commands_of(row, came)) for row in told]
        counts["commands of two lines in a message"] += sum(len({number for number, _ in commands}) > 1 for _, commands in rows[it.address])
    return rows, warnings


def legal_there(setup, command):
    """What is legal where a command is illegal, docs/bus.md."""
    counts = [it for it in range(1, 33) if (cell := rules.cell_of(command & ~31 | it % 32)) and setup.legal(cell)]
    place = f"{'broadcast ' * rules.is_broadcast(command)}{['receive', 'transmit'][rules.is_transmit(command)]} {rules.subaddress_of(command)}"
    if not counts:
        return f"{place} is not legal"
    ranges = ",".join(f"{low}-{high}" if low < high else f"{low}" for low, high in exchanges.ranges_of(counts))
    return f"{place} is legal for {ranges} word{'s' * (counts != [1])}"


def result_of(setup, rows, number, command):
    """How a terminal ended the message of a line that has this command for it, or None where it did so well."""
    ends = [(it["ended"], it["why"]) for it, commands in rows if (number, command) in commands and it["ended"] != "other"]
    if not ends:
        return "takes it for no message"
    (ended, why), = ends
    there = legal_there(setup, command) if ended == "illegal" and not rules.is_mode(command) else None
    causes = ", ".join(it for it in (why, there) if it)
    return None if (ended, why) == ("done", None) else ended + (f": {causes}" if causes else "")


def reasons_of(message, number, setups, rows):
    """Why a message does not end well, docs/bus.md."""
    reasons, at = [], {it.address: it for it in setups}
    # the transmitter of a transfer is first
    for command in reversed(message.commands):
        if command >> 11 == 31:
            # the transmitter of the transfer is no receiver of it
            hearers = [it.address for it in setups if it.broadcast and it.address not in [other >> 11 for other in message.commands]]
            results = {it: result_of(at[it], rows[it], number, command) for it in sorted(hearers)}
            reasons += ["no terminal takes the broadcast"] * (None not in results.values())
        elif command >> 11 in rows:
            results = {command >> 11: result_of(at[command >> 11], rows[command >> 11], number, command)}
        else:
            results = {}
            reasons.append(f"no profile has address {command >> 11:02}")
        reasons += [f"terminal {address:02}: {result}" for address, result in results.items() if result]
    return "; ".join(reasons)


def data_words(command):
    """How many data words the standard's format has for a command to which a terminal replies."""
    return int(command & 31 >= 16) if rules.is_mode(command) else rules.count_of(command)


def time_of(message, response, gap):
    """How long a message takes, in microseconds, docs/bus.md."""
    first, *second = message.commands
    if second:
        statuses, words = 1 + (not rules.is_broadcast(first)), 2 + data_words(second[0])
    elif rules.is_broadcast(first):
        statuses, words = 0, 1 + (0 if rules.is_transmit(first) else data_words(first))
    else:
        statuses, words = 1, 1 + data_words(first)
    return 20 * (words + statuses) + response * statuses + gap


def rated(draw, lines):
    """A schedule, in most with comments that tell rates between its lines."""
    if draw.random() < 0.4:
        return lines
    found = []
    for line in lines:
        if draw.random() < 0.3:
            found.append(f"# rate {draw.choice([0, 1, 3, 25, 50, 64, 400, draw.randint(1, 10 ** 6), 10 ** 6])}")
        found.append(line)
    return found


def load_told(lines, response, gap, counts):
    """The lines that tell the load of a schedule."""
    groups, rate = [], None
    for line in lines:
        if isinstance(line, Message):
            if rate:
                groups[-1][1].append(line)
        elif line.startswith("# rate "):
            rate = int(line[7:])
            groups.append((rate, []))
    told, busy = [], {}
    for rate, messages in groups:
        for bus in "AB":
            times = [time_of(it, response, gap) for it in messages if it.bus == bus]
            if times:
                told.append(f"rate {rate}: {counted(len(times))}, {sum(times)} us of each {10 ** 6 // rate} us on bus {bus}")
                busy[bus] = busy.get(bus, 0) + rate * sum(times)
    for bus, time in sorted(busy.items()):
        tenths, over = -(-time // 1000), ": more than the bus has" if time > 10 ** 6 else ""
        told.append(f"load: {tenths // 10}.{tenths % 10} % of bus {bus}{over}")
        counts["loads over 100 %" if over else "loads to 100 %"] += 1
    counts.update(kind_of(it) for _, messages in groups for it in messages)
    return told


def kind_of(message):
    """What a message is, by its format."""
    first, *second = message.commands
    kind = "transfer" if second else "mode code" if rules.is_mode(first) else "data"
    return f"rated: {kind}{' to all' if rules.is_broadcast(first) else ''}"


def left_at(terminal):
    """How a terminal is left that is not clear, docs/bus.md."""
    waiting = [bus for bus, words in sorted(terminal.run.items()) if any(word is not None and terminal.is_for_it(word) for word in words)]
    if terminal.message:
        return f"in a message on bus {terminal.message.bus}"
    if waiting:
        return f"with a word and no gap behind it on bus {waiting[0]}"
    if terminal.reply:
        return "with a reply to send"
    if terminal.shut_down:
        return f"with its transmitter shut down on bus {min(terminal.shut_down)}"
    return "busy" if terminal.flags["busy"] else "with message error in the status that it keeps" if terminal.kept & 0x400 else None


def left_by(setups, events):
    """What is told of what the events of a line leave behind, alone from power-up; None where each terminal is clear then."""
    bus = buses.Bus(setups, collections.Counter())
    for event in events:
        bus.take(event.encode())
    found = [f"leaves terminal {address:02} {how}" for address, it in bus.terminals.items() if (how := left_at(it))]
    return found[0] if found else None


def judged(schedule, setups, counts, times):
    """What is told of a schedule, with the status and the warnings."""
    present = [it.address for it in setups]
    events = [it.events(present) if isinstance(it, Message) else [event_of(it)] for it in schedule]
    run_rows, warnings = rows_of(setups, [(number, event) for number, its in enumerate(events, 1) for event in its], counts)
    told, messages, wrong = [], 0, 0
    for number, message in enumerate(schedule, 1):
        if not isinstance(message, Message):
            continue
        alone_rows, _ = rows_of(setups, [(number, it) for it in events[number - 1]], collections.Counter())
        alone, in_run = (reasons_of(message, number, setups, it) for it in (alone_rows, run_rows))
        messages, wrong = messages + 1, wrong + bool(alone or in_run)
        if alone == in_run:
            told += [f"schedule:{number}: {alone}"] if alone else []
            counts["neither" if alone else "well"] += 1
        else:
            told += [f"schedule:{number}: {it} # {mark}" for it, mark in ((alone, "alone"), (in_run, "in the run")) if it]
            counts["both, and not the same" if alone and in_run else "alone" if alone else "in the run"] += 1
        for it in {*alone.split("; "), *in_run.split("; ")} - {""}:
            counts["legal for some words"] += " is legal for " in it
            counts["not legal"] += it.endswith(" is not legal")
            counts[re.sub(r"^terminal \d\d: | \d\d$|[:,] [a-z ]+ \d+ is (not )?legal.*", "", it)] += 1
    counts["all end well"] += not wrong
    lefts = [f"schedule:{number}: {left}" for number, its in enumerate(events, 1) if (left := left_by(setups, its))]
    counts.update(re.sub(r"^.*: leaves terminal \d\d (.*?)( on bus [AB])?$", r"leaves: \1", it) for it in lefts)
    counts["in this order" if lefts else "in every order"] += not wrong
    told += lefts + load_told(schedule, *times, counts)
    well = "all end well; in another order some may not" if lefts else "each ends well, in every order"
    told.append(counted(messages) + (f", {wrong} of them do{'es' * (wrong == 1)}n't end well" if wrong else f": {well}"))
    return Given(int(wrong > 0), "".join(f"{it}\n" for it in told).encode(), "".join(warnings).encode())


def counted(messages):
    """A number of messages in words."""
    return f"{messages} message" + "s" * (messages != 1)


def loosened(output):
    """What is told, with the reasons of a line sorted: the page gives no order of those of several terminals."""
    lines = [re.split("( # .*)", line) for line in output.decode().splitlines()]
    return [(sorted(line.split(": ", 1)[-1].split("; ")), line.split(": ", 1)[0], *mark) for line, *mark in lines]


def written(draw, message, setups, counts):
    """The line of a message: in a transfer from a terminal of these, without its words in some."""
    if len(message.commands) == 1 or message.commands[1] >> 11 not in [it.address for it in setups] or draw.random() < 0.5:
        return message.line
    counts["transfers without words"] += 1
    return message.line.split(":")[0]


@pytest.mark.parametrize("seed", range(CHECK_SEEDS))
def test_check(tool, seed, tmp_path, count_runs):
    """`bus --check` of random schedules: what is told of each message, the load, the last line, the status and the warnings."""
    draw, rates, words, counts = random.Random(seed), random.Random(f"rates {seed}"), random.Random(f"words {seed}"), collections.Counter()
    profiles = buses.profiles_of(draw)
    write_files(tmp_path, {name: text for name, (text, _) in profiles.items()})
    for number in range(SCHEDULES):
        names = [f"{it:02}.{draw.randrange(buses.VARIANTS)}" for it in draw.sample(range(31), draw.randint(1, 4))]
        setups = [profiles[it][1] for it in names]
        schedule = Schedule(draw, [it.address for it in setups])
        parts, times = rated(rates, schedule.lines), rates.choice([(12, 4), (12, 4), (rates.randint(0, 1000), rates.randint(0, 1000))])
        lines = [written(words, it, setups, counts) if isinstance(it, Message) else it for it in parts]
        write_files(tmp_path, {"schedule": "".join(f"{it}\n" for it in lines)})
        options = [] if times == (12, 4) else ["--response", f"{times[0]}", "--gap", f"{times[1]}"]
        given = run(tool, "bus", "--check", *options, *names, "schedule", folder=tmp_path)
        wanted = judged(parts, setups, counts, times)
        assert given._replace(output=loosened(given.output)) == wanted._replace(output=loosened(wanted.output)), (number, names, lines)
        # in the order of the commands, that of a transmitter first, then of the addresses, where nothing strange is
        assert given == wanted or schedule.strange, (number, names, lines)
    assert {name: counts[name] for name, least in CHECKED.items() if counts[name] < least} == {}
    count_runs(SCHEDULES)


ORDER_SEEDS = 40
EVERY_ORDER = ": each ends well, in every order\n"
# in the schedules of all seeds
ORDERED = {"in every order": 60, "runs in another order": 200, "shutdowns": 40}


def test_every_order(tool, tmp_path, count_runs):
    """The lines of a schedule that is said to end well in every order do so in random orders, some of them left out and some twice; and
    none with a shutdown is said to."""
    draw, counts = random.Random("orders"), collections.Counter()
    profiles = buses.profiles_of(draw)
    write_files(tmp_path, {name: text for name, (text, _) in profiles.items()})

    def told(names, lines):
        counts["runs"] += 1
        write_files(tmp_path, {"schedule": "".join(f"{it}\n" for it in lines)})
        return run(tool, "bus", "--check", *names, "schedule", folder=tmp_path)

    for _ in range(ORDER_SEEDS):
        names = [f"{it:02}.{draw.randrange(buses.VARIANTS)}" for it in draw.sample(range(31), draw.randint(1, 4))]
        schedule = Schedule(draw, [profiles[it][1].address for it in names])
        singles = [it.line if isinstance(it, Message) else it for it in schedule.lines]
        whole = [it for it in singles if told(names, [it]).output.decode().endswith(EVERY_ORDER)]
        for _ in range(8 if whole else 0):
            given = told(names, draw.choices(whole, k=draw.randint(1, 12)))
            assert given.status == 0 and given.output.decode().endswith(EVERY_ORDER), (names, whole)
            counts["runs in another order"] += 1
        counts["in every order"] += len(whole)
        shutdown = f"{draw.choice('AB')} mode {schedule.addresses[0]} 4"
        lines = draw.sample([*whole, shutdown], len(whole) + 1)
        assert EVERY_ORDER not in told(names, lines).output.decode(), (names, lines)
        counts["shutdowns"] += 1
    assert {name: counts[name] for name, least in ORDERED.items() if counts[name] < least} == {}
    count_runs(counts["runs"])
