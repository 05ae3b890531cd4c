"""Terminals on one bus, docs/bus.md, as a model over that of one terminal in `rules.py`, and controllers that look random.

It was written from the page and from docs/terminal.md, and takes nothing from the program. Where the page gives no order, that of
the addresses holds, and bus A comes before bus B.
"""

import re
import tomllib

import canonical
import pieces
import play
import rules

# how many profiles there are for an address
VARIANTS = 3

ADDRESSED = re.compile(rb"([0-9]{2}) ((?:write|vector|bit|flag) .*)")
EARLY = "a gap while terminal {:02} replies: another terminal can begin its reply"
TAKEN = "a command to terminal {:02}, for whose status word another terminal waits, which takes it for that"


class Counted(rules.Terminal):
    """A terminal that counts what happens to it."""

    def __init__(self, setup, counts):
        self.counts = None
        super().__init__(setup)
        self.counts = counts

    def reset(self):
        super().reset()
        if self.counts is not None:
            self.counts["resets"] += 1

    def start(self, bus, command):
        if self.message:
            self.counts["transmitters of a broadcast transfer" if self.message.bus == bus else "superseded messages"] += 1
        if self.reply:
            self.counts["dropped replies"] += 1
        super().start(bus, command)

    def end_in_error(self):
        self.counts["waits that end in error" if self.message.phase == "waiting" else "other errors"] += 1
        super().end_in_error()

    def begin_reply(self, bus, command, words, resets=False):
        if not rules.is_broadcast(command) and bus in self.shut_down:
            self.counts["replies that a shutdown keeps back"] += 1
        super().begin_reply(bus, command, words, resets)

    def handed_over(self, command, cell, code, accepts, data):
        """Only of messages that are done."""
        if code is not None:
            self.counts[f"mode code {code}, {'broadcast' if rules.is_broadcast(command) else 'own'}"] += 1
        return super().handed_over(command, cell, code, accepts, data)


class Bus:
    """Terminals, by their addresses, on one bus."""

    def __init__(self, setups, counts):
        self.terminals = {it.address: Counted(it, counts) for it in sorted(setups, key=lambda it: it.address)}
        self.counts = counts
        self.came = {address: [] for address in self.terminals}
        self.together = 0

    def replying(self):
        return [address for address, it in self.terminals.items() if it.reply]

    def awaited(self, bus):
        """The addresses of terminals for whose status words others wait on a bus, to reply themselves then: not those of a broadcast."""
        messages = [it.message for it in self.terminals.values()]
        waiting = [it for it in messages if it and it.bus == bus and it.phase == "waiting" and not rules.is_broadcast(it.command)]
        return self.terminals.keys() & {it.awaited for it in waiting}

    def take(self, line):
        """The lines of the transcript for a line of the script, and its warning or None."""
        taken = self.take_one(line)
        self.together = max(self.together, len(self.replying()))
        return taken

    def take_one(self, line):
        if found := ADDRESSED.fullmatch(line):
            self.counts["lines of a subsystem"] += 1
            return self.comes_to(int(found[1]), play.read_event(found[2])), None
        event = play.read_event(line)
        if event is None:
            return [], None
        if event == ("slot",):
            return self.slot(), None
        warning = self.warning(event)
        self.counts[event[0]] += 1
        return [said for address in self.terminals for said in self.comes_to(address, event)], warning

    def warning(self, event):
        """What the line of an event of the controller breaks."""
        if event[0] == "gap" and self.replying():
            self.counts["gaps during a reply"] += 1
            return EARLY.format(self.replying()[0])
        if event[0] == "word" and not rules.is_valid(event[2]):
            self.counts["words of wrong parity"] += 1
        elif event[0] == "word" and event[2][0] == "c" and event[2][1] >> 11 in self.awaited(event[1]):
            self.counts["commands taken for a status word"] += 1
            return TAKEN.format(event[2][1] >> 11)
        return None

    def comes_to(self, address, event):
        """An event that comes to a terminal, and what it hands over, as lines."""
        terminal = self.terminals[address]
        self.came[address].append(event)
        phase = terminal.message.phase if terminal.message else None
        answer = terminal.step(event)
        if answer and answer[0] == "received":
            kind = "transfers" if phase == "after the awaited status" else "messages"
            self.counts[f"{kind} received, {'broadcast' if answer[1] else 'own'}"] += 1
        return [f"{address:02} {play.answer_line(answer)}"] if answer else []

    def slot(self):
        """A slot: all send before what is sent comes to any."""
        lines, sent = [], {"A": [], "B": []}
        for address, terminal in self.terminals.items():
            self.came[address].append(("slot",))
            if answer := terminal.step(("slot",)):
                kind, bus, bits = answer
                lines.append(f"{address:02} {play.answer_line(answer)}")
                sent[bus].append((address, rules.valid_word("c" if kind == "status" else "d", bits)))
        self.counts["slots in which both buses carry words"] += bool(sent["A"] and sent["B"])
        for bus, words in sent.items():
            if len(words) > 1:
                lines.append(f"{bus} collision")
                self.counts["collisions"] += 1
            self.hear(bus, words)
        return lines

    def hear(self, bus, words):
        """What some send on a bus comes to the others: the word, or noise where it collides."""
        speakers = [address for address, _ in words]
        for address, terminal in self.terminals.items():
            if words and address not in speakers:
                waited = terminal.message and terminal.message.bus == bus and terminal.message.phase == "waiting"
                self.comes_to(address, ("word", bus, words[0][1]) if len(words) == 1 else ("noise", bus))
                if waited:
                    went_on = terminal.message and terminal.message.phase == "after the awaited status"
                    self.counts["status words heard by who waits" if went_on else "waits ended by what terminals send"] += 1


class Controller:
    """A controller that looks random, with the lines that it puts: it plays them to a bus of its own to know who replies."""

    def __init__(self, draw, bus, subaddresses):
        self.draw, self.bus, self.subaddresses = draw, bus, subaddresses
        self.lines, self.transcript, self.warnings = [], [], []
        # what a controller is like differs from one to the other
        self.strange, self.lost = draw.choice([0, 0, 0.02, 0.1]), draw.choice([0, 0, 0.01, 0.05])
        self.hasty, self.parities = draw.choice([0, 0, 0.1, 0.4]), draw.choice([0, 0.1])
        self.counts = draw.choice([(1, 1), (1, 4), (1, 4), (1, 32)])
        kinds = [self.receive, self.transmit, self.mode_code, self.mode_code, self.shutdown, self.transfer, self.to_all, self.superseded,
                 self.subsystem, self.subsystem, self.status_asked, self.taken, self.early, self.anything]  # fmt: skip
        self.kinds = draw.sample(kinds, draw.choice([3, 6, len(kinds)])) + [self.transfer]

    def play(self, length):
        while len(self.lines) < length:
            self.draw.choice(self.kinds)()
        return self

    # lines

    def put(self, text):
        """A line, without fail."""
        self.lines.append(text.encode())
        answers, warning = self.bus.take(self.lines[-1])
        self.transcript += answers
        if warning:
            self.warnings.append(f"script:{len(self.lines)}: warning: {warning}\n")

    def line(self, text):
        """A line, that may be lost, or have something strange before it."""
        if self.draw.random() < self.lost:
            return
        if self.draw.random() < self.strange:
            self.stranger()
        self.put(text)

    def word(self, bus, kind, bits):
        parity = ""
        if self.draw.random() < self.parities:
            parity = f" {(bits.bit_count() + (self.draw.random() < 0.7)) % 2}"
        self.line(f"{bus} {kind} {bits:04x}{parity}")

    def command(self, bus, address, transmit, subaddress, low):
        self.word(bus, "c", address << 11 | transmit << 10 | subaddress << 5 | low % 32)

    def data(self, bus, count):
        for _ in range(count):
            self.word(bus, "d", self.draw.getrandbits(16))

    def slots(self):
        """The slots of all replies, or too few."""
        while self.bus.replying() and self.draw.random() > self.hasty / 8:
            self.line("slot")

    def answered(self, bus):
        """A gap, and the slots of what it begins."""
        self.line(f"{bus} gap")
        self.slots()

    # parts

    def a_bus(self):
        return self.draw.choice("AAB")

    def terminal(self):
        return self.draw.choice(list(self.bus.terminals))

    def address(self):
        """Mostly that of a terminal, or all."""
        return self.draw.choice([self.terminal()] * 6 + [31, self.draw.randrange(31)])

    def subaddress(self):
        return self.draw.choice(self.subaddresses)

    def place(self):
        return self.subaddress(), self.draw.randint(*self.counts)

    def receive(self):
        bus, (subaddress, count) = self.a_bus(), self.place()
        self.command(bus, self.address(), 0, subaddress, count)
        self.data(bus, count + self.draw.choice([0] * 12 + [1, -1]))
        self.answered(bus)

    def transmit(self):
        bus, (subaddress, count) = self.a_bus(), self.place()
        self.command(bus, self.address(), 1, subaddress, count)
        self.answered(bus)

    def mode_code(self):
        bus, code = self.a_bus(), self.draw.choice([0, 1, 2, 3, 6, 7, 8, 8, 16, 17, 18, 19, self.draw.randrange(32)])
        self.command(bus, self.address(), int(code != 17), self.draw.choice([0, 31]), code)
        self.data(bus, int(code in (17, 20, 21)))
        self.answered(bus)

    def shutdown(self):
        """A transmitter shutdown or its override, selected ones too."""
        bus, code = self.a_bus(), self.draw.choice([4, 4, 5, 5, 5, 20, 21])
        self.bus.counts["selected shutdowns and overrides"] += code >= 20
        self.command(bus, self.address(), int(code < 20), self.draw.choice([0, 31]), code)
        self.data(bus, int(code >= 20))
        self.answered(bus)

    def status_asked(self):
        bus = self.a_bus()
        for address in self.draw.sample(list(self.bus.terminals), 2):
            self.command(bus, address, 1, 0, self.draw.choice([2, 2, 18]))
            self.answered(bus)

    def transfer(self):
        """From a terminal to another one, or to all."""
        bus, (subaddress, count) = self.a_bus(), self.place()
        self.command(bus, self.draw.choice([self.terminal(), self.terminal(), 31]), 0, subaddress, count)
        self.command(bus, self.draw.choice([self.terminal()] * 12 + [self.draw.randrange(31)]), 1, self.subaddress(), count)
        self.answered(bus)
        self.answered(bus)

    def to_all(self):
        bus, (subaddress, count) = self.a_bus(), self.place()
        self.command(bus, 31, 0, subaddress, count)
        self.data(bus, count)
        self.answered(bus)

    def superseded(self):
        """A message, a reply or a transfer that a command on the other bus drops."""
        bus, (subaddress, count), address = self.a_bus(), self.place(), self.terminal()
        transmit = self.draw.randrange(2)
        self.command(bus, address, transmit, subaddress, count)
        if transmit:
            self.line(f"{bus} gap")
            for _ in range(self.draw.randint(0, count)):
                self.line("slot")
        elif self.draw.randrange(2):
            self.command(bus, self.terminal(), 1, self.subaddress(), count)
            self.line(f"{bus} gap")
            for _ in range(self.draw.randint(0, count)):
                self.line("slot")
        else:
            self.data(bus, self.draw.randint(0, count))
        other = rules.other_bus(bus)
        self.command(other, self.draw.choice([address, address, address, self.address()]), 1, subaddress, count)
        self.draw.choice([self.answered, self.answered, lambda it: self.line(f"{it} gap")])(other)
        self.draw.choice([self.answered, lambda it: None])(bus)

    def taken(self):
        """A transfer whose sender stays silent, since a message to it was disturbed; then a command to that sender."""
        bus, (subaddress, count) = self.a_bus(), self.place()
        receiver, sender = self.draw.sample(list(self.bus.terminals), 2)
        self.command(bus, sender, 0, subaddress, count)
        self.command(bus, self.draw.choice([receiver, receiver, 31]), 0, subaddress, count)
        self.command(bus, sender, 1, self.subaddress(), count)
        self.line(f"{bus} gap")
        self.command(bus, sender, 0, self.subaddress(), count)
        self.data(bus, count)
        self.answered(bus)

    def early(self):
        """A transfer put while a terminal replies that is not done with its words: at its gap another one begins to reply."""
        bus, (subaddress, count), left = self.a_bus(), self.place(), self.draw.choice([1, 1, 2, 3])
        self.command(bus, self.terminal(), 1, self.subaddress(), count)
        self.line(f"{bus} gap")
        for _ in range(count + 1 - left):
            self.line("slot")
        self.command(bus, self.draw.choice([self.terminal(), self.terminal(), 31]), 0, subaddress, count)
        self.command(bus, self.terminal(), 1, self.subaddress(), count)
        self.answered(bus)
        self.answered(bus)
        self.status_asked()

    def subsystem(self):
        address, bits = self.terminal(), self.draw.getrandbits(16)
        flag = f"flag {self.draw.choice(rules.FLAGS)} {int(self.draw.random() < 0.3)}"
        write = f"write {self.subaddress():02} {self.draw.randint(1, self.counts[1]):02} {bits:04x}"
        event = self.draw.choice([f"vector {bits:04x}", f"bit {bits:04X}", flag, write, write, write])
        self.put(f"{address:02} {event}")

    def anything(self):
        """A word, noise, a gap or a slot that belongs to no message, or no event."""
        bus, bits = self.a_bus(), self.draw.getrandbits(16)
        self.put(self.draw.choice([f"{bus} c {bits:04x}", f"{bus} d {bits:04X}", f"{bus} noise", f"{bus} gap", "slot", "", f"# {bits}"]))

    def stranger(self):
        self.draw.choice([self.anything, self.anything, self.subsystem])()


# --- random runs


def profiles_of(draw):
    """For each address some profiles by their names, as texts, with what their terminals are at power-up."""
    profiles = {}
    for name in (f"{address:02}.{variant}" for address in range(31) for variant in range(VARIANTS)):
        text, _ = pieces.profile_of(draw.randrange(1 << 30))
        text = re.sub(r"address = \d+", f"address = {int(name[:2])}", text, count=1)
        profile = tomllib.loads(text)
        if draw.randrange(3) == 0:
            text = canonical.text_of(canonical.reached_of(profile))
        profiles[name] = text, play.setup_of(profile)
    return profiles


def random_run(draw, profiles, counts):
    """The names of 2 to 31 profiles, their bus, and a controller that has played to it."""
    addresses = draw.sample(range(31), draw.choice([2, 2, 3, 4, 5, draw.randint(6, 31), draw.randint(2, 31)]))
    names = [f"{it:02}.{draw.randrange(VARIANTS)}" for it in addresses]
    bus = Bus([profiles[it][1] for it in names], counts)
    return names, bus, Controller(draw, bus, [*draw.sample(range(1, 31), 2), 30]).play(draw.choice([30, 100, 300]))
