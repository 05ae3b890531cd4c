"""Messages that look random, played to the model of the rules in `rules.py`.

    random_scripts.py digests         what tests/test_texts.py compares
    random_scripts.py vectors FILE    scripts with their transcripts, as a table: the cases slots-NNNN of tests/vectors/scripts.txt

The same words give the same numbers, so that both can be made anew and compared.
"""

import pathlib
import sys
import tomllib

sys.path.append(str(pathlib.Path(__file__).resolve().parent.parent))

import play  # noqa: E402
import programs  # noqa: E402
import rules  # noqa: E402
import vector_tables  # noqa: E402

MASK = 0xFFFFFFFF
REQUIRED = [("own mode", code) for code in (2, 4, 5, 8)]
# the first bits of a command to another terminal and to all, and the bit of a command to transmit
OTHER, ALL, TRANSMIT = 7 << 11, 31 << 11, 1 << 10


class Messages:
    """Messages to this terminal, to others and between them, a few of whose events are lost, preceded by noise or of
    wrong parity, with more slots or fewer than they need. What comes while a reply is in progress is heard or not, as the
    rules say."""

    def __init__(self, setup, subaddresses, seed, note):
        self.terminal, self.subaddresses, self.seed, self.note = rules.Terminal(setup), subaddresses, seed, note
        self.own = setup.address << 11

    def word(self):
        self.seed = (self.seed * 1664525 + 1013904223) & MASK
        return self.seed >> 16

    def draw(self, below):
        return self.word() % below

    def take(self, event):
        self.note(event, self.terminal.step(event))

    def feed(self, event):
        """An event on a bus, that may be lost or preceded by noise."""
        chance = self.draw(24)
        if chance == 0:
            return
        if chance == 1:
            self.take(("noise", event[1]))
        self.take(event)

    def say(self, bus, kind, bits):
        """A word on a bus, whose parity is wrong now and then."""
        word = rules.valid_word(kind, bits)
        if self.draw(24) == 0:
            word = (*word[:2], 1 - word[2])
        self.feed(("word", bus, word))

    def command(self, bus, bits):
        self.say(bus, "c", bits)

    def data(self, bus, count):
        for _ in range(count):
            self.say(bus, "d", self.word())

    def status_of_other(self, bus):
        """The status word of another terminal, whatever its bits."""
        self.command(bus, OTHER + self.draw(2048))

    def gap(self, bus):
        """A gap, and some slots; now and then the subsystem does something before one."""
        self.feed(("gap", bus))
        for _ in range(self.draw(6)):
            if self.draw(6) == 0:
                self.subsystem()
            self.take(("slot",))

    def subsystem(self):
        turn = self.draw(4)
        if turn == 0:
            self.take(("vector", self.word()))
        elif turn == 1:
            self.take(("bit", self.word()))
        elif turn == 2:
            self.take(("flag", rules.FLAGS[self.draw(4)], int(self.draw(4) == 3)))
        else:
            self.take(("write", self.subaddresses[self.draw(2)], 1 + self.draw(3), self.word()))

    def receive(self, bus, command, count):
        self.command(bus, command)
        self.data(bus, count)
        self.gap(bus)

    def transmit(self, bus, command):
        self.command(bus, command)
        self.gap(bus)

    def receives_from_other(self, bus, place, count):
        self.command(bus, (self.own if self.draw(2) == 0 else ALL) + place + count)
        self.command(bus, OTHER + TRANSMIT + 64 + count)
        self.feed(("gap", bus))
        self.status_of_other(bus)
        self.data(bus, count)
        self.gap(bus)

    def transmits_to_other(self, bus, place, count):
        self.command(bus, OTHER + 64 + count)
        self.transmit(bus, self.own + TRANSMIT + place + count)
        self.status_of_other(bus)
        self.gap(bus)

    def message(self):
        bus = "B" if self.draw(4) == 0 else "A"
        turn = self.draw(15)
        place = 32 * self.subaddresses[self.draw(2)]
        count = 1 + self.draw(3)
        if turn == 0:
            self.receive(bus, self.own + place + count, count)
        elif turn == 1:
            self.transmit(bus, self.own + TRANSMIT + place + count)
        elif turn == 2:
            self.transmit(bus, self.own + TRANSMIT + self.draw(20))
        elif turn == 3:
            self.receive(bus, ALL + place + count, count)
        elif turn == 4:
            self.transmit(bus, ALL + TRANSMIT + self.draw(9))
        elif turn == 5:
            self.receives_from_other(bus, place, count)
        elif turn == 6:
            self.command(bus, ALL + place + count)
            self.transmit(bus, self.own + TRANSMIT + place + count)
        elif turn == 7:
            self.receive(bus, (self.own if self.draw(2) == 0 else ALL) + 17, 1)
        elif turn in (8, 9):
            self.subsystem()
        elif turn == 10:
            self.command(bus, self.own + place + count)
        elif turn == 11:
            self.command(bus, self.word())
        elif turn == 12:
            self.transmits_to_other(bus, place, count)
        elif turn == 13:
            self.receive(bus, OTHER + place + count, count)
        else:
            # a reset, and the last command asked for on the other bus
            self.transmit(bus, self.own + TRANSMIT + 8)
            self.transmit(rules.other_bus(bus), self.own + TRANSMIT + 18)


# digests


class Digest:
    """What is kept of all that was answered."""

    def __init__(self):
        self.value, self.answers = 2166136261, {}

    def mix(self, *values):
        for value in values:
            self.value = ((self.value ^ value) * 16777619) & MASK

    def note(self, _event, answer):
        if answer is None:
            return
        name, *rest = answer
        self.answers[name] = self.answers.get(name, 0) + 1
        if name in ("status", "data"):
            self.mix((1 if rest[0] == "A" else 2) + (0 if name == "status" else 8), rest[1])
        elif name == "received":
            self.mix(3 + rest[0], rest[1], *rest[2])
        else:
            self.mix({"synchronize": 5, "synchronize with": 6, "self test": 7, "bus control": 8}[name], *rest)


def digest(legal, options=True, wraparound=30):
    setup = rules.Setup(address=5, legal=legal, broadcast=options, wraparound=wraparound, accept=options, vector=0x00AA,
                        bit=0x00BB)
    digest = Digest()
    messages = Messages(setup, (29, 30), 1553, digest.note)
    for _ in range(10000):
        messages.message()
    return f"0x{digest.value:08x}, of {digest.answers}"


def digests():
    print("every cell legal:", digest(lambda cell: True))
    print("some cells legal:", digest(lambda cell: cell in [*REQUIRED, ("own mode", 18), ("own mode", 6)]))
    print("every cell legal, wraparound at 29:", digest(lambda cell: True, wraparound=29))
    print("every cell legal, no wraparound:", digest(lambda cell: True, wraparound=0))
    print("every cell legal, options off:", digest(lambda cell: True, options=False))


# vectors

VECTORS = 16
PROFILE = """\
address = {address}
broadcast = {broadcast}
wraparound = {wraparound}
accept_bus_control = true
vector = 0x00aa
bit = 0x00bb

[[rule]]
to = "both"
direction = "both"
subaddresses = "{subaddresses}"
counts = "{counts}"

[[mode]]
to = "both"
codes = "{codes}"

[[initial]]
subaddress = 30
words = [1, 2, 3]
"""


def line_of(event):
    """The line of an event, with the parity of a word only where it is wrong."""
    name, *rest = event
    if name == "word":
        parity = "" if rules.is_valid(rest[1]) else f" {rest[1][2]}"
        return f"{rest[0]} {rest[1][0]} {rest[1][1]:04x}{parity}"
    if name in ("noise", "gap"):
        return f"{rest[0]} {name}"
    if name == "write":
        return f"write {rest[0]:02} {rest[1]:02} {rest[2]:04x}"
    if name in ("vector", "bit"):
        return f"{name} {rest[0]:04x}"
    return " ".join(map(str, event))


def truth(value):
    return "true" if value else "false"


def run_case(name, profile, lines, transcript):
    """The case of a script and its transcript."""
    files = {f"{name}.toml": profile, f"{name}.script": "".join(f"{line}\n" for line in lines)}
    return programs.Row(name, ("run", *files), output="".join(f"{line}\n" for line in transcript), files=files)


def profile_of(number):
    """The profile of this number, up to 15."""
    return PROFILE.format(
        address=number * 2,
        broadcast=truth(number % 4 > 0),
        wraparound=("true", "29", "true", "false")[number % 4],
        subaddresses=("1-30", "29", "30")[number % 3],
        counts=("1-32", "1-2")[number % 2],
        codes=("0-31", "0-8", "16-19", "6-18")[number % 4])


def slots_case(number):
    """The case of the messages of a number, up to 15."""
    text = profile_of(number)
    lines, transcript = [], []

    def note(event, answer):
        lines.append(line_of(event))
        if answer:
            transcript.append(play.answer_line(answer))

    messages = Messages(play.setup_of(tomllib.loads(text)), (29, 30), number, note)
    while len(lines) < 200:
        messages.message()
    return run_case(f"slots-{number:04}", text, lines, transcript)


def main():
    job, *rest = sys.argv[1:]
    if job == "digests":
        digests()
    else:
        vector_tables.write(pathlib.Path(*rest), [vector_tables.block_of(slots_case(it)) for it in range(VECTORS)])


if __name__ == "__main__":
    main()
