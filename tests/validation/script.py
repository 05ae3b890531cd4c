"""Scripts that state their answers (docs/script.md): what comes, and behind each event the line that answers it.

There is no model of a terminal here. A message is written together with the answer that the standard asks for, by the
sections that plan.py names: the status bits, the data words, what is handed over. Nothing is carried from one message to the next.

Names of answers are those of the plan: CS is a clear status, ME message error in the status, NR no response.
"""

import textwrap
from itertools import product

CS, ME, SR, BCR, BUSY, SSF, DBA, TF = 0, 0x400, 0x100, 0x10, 8, 4, 2, 1
NR = None

# the address of the terminal under test, that of another terminal, and that of all
OWN, OTHER, ALL = 5, 6, 31
BUSES = ("A", "B")
SUBADDRESSES = range(1, 31)
MODE_SUBADDRESSES = (0, 31)
COUNTS = (1, 2, 31, 32)

# the mode commands of the standard that serve two buses, as T/R and code, and those of them that may be broadcast
MODES = {(1, code) for code in (0, 1, 2, 3, 4, 5, 6, 7, 8, 16, 18, 19)} | {(0, 17)}
BROADCAST_MODES = {(1, code) for code in (1, 3, 4, 5, 6, 7, 8)} | {(0, 17)}

# the vector word and the BIT word of the profile `full`
VECTOR, BIT = 0x1234, 0x5678


def other_bus(bus):
    return "B" if bus == "A" else "A"


def held(subaddress, count):
    """The words that the profile `full` holds at power-up."""
    return [subaddress * 256 + number for number in range(1, count + 1)]


def pattern(subaddress, count, salt=0):
    """Words to be received, all unlike."""
    return [(0xA5C3 + 0x0841 * subaddress + 0x0107 * count + 0x1235 * k + salt) & 0xFFFF for k in range(count)]


# ---- words, as a script writes them behind the bus


def command(address, transmit, subaddress, low):
    return f"c {address << 11 | transmit << 10 | subaddress << 5 | low & 31:04x}"


def own(transmit, subaddress, low):
    return command(OWN, transmit, subaddress, low)


def status_of(address, bits=0):
    return f"c {address << 11 | bits:04x}"


def data(words):
    return [f"d {word:04x}" for word in words]


def bits_of(word):
    return int(word.split()[1], 16)


def with_wrong_parity(word):
    return f"{word} {bits_of(word).bit_count() % 2}"


def with_other_sync(word):
    return ("d" if word[0] == "c" else "c") + word[1:]


FAULTS = {
    "parity": ("wrong parity", with_wrong_parity),
    "noise": ("a wrong length or a bi-phase error", lambda word: "noise"),
    "sync": ("the other sync", with_other_sync),
}


# ---- messages to the terminal, as their words


def receive(subaddress, words, count=None, address=OWN):
    return [command(address, 0, subaddress, len(words) if count is None else count), *data(words)]


def transmit(subaddress, count, address=OWN):
    return [command(address, 1, subaddress, count)]


def mode(code, transmits=1, subaddress=0, word=None, address=OWN):
    return [command(address, transmits, subaddress, code), *data([] if word is None else [word])]


def received(subaddress, words, to="own"):
    """What is handed over of words that were received."""
    return " ".join([f"receive {to} {subaddress:02}", *(f"{word:04x}" for word in words)])


# ---- scripts


def comment(text):
    return textwrap.wrap(text, 64, initial_indent="# ", subsequent_indent="# ", break_long_words=False)


def answer(line):
    """The comment that states an answer, `#> LINE`; what has no room there follows behind `#+`."""
    if len(line) <= 61:
        return ["#> " + line]
    first, *more = textwrap.wrap(line, 61)
    return ["#> " + first, *("#+ " + text for text in more)]


class Script:
    def __init__(self, name, clauses, about, profile="full", address=OWN):
        self.name, self.profile, self.address = name, profile, address
        source = "Plan" if clauses.startswith("5.") else "Standard"
        self.lines = [f"# Profile: {profile}.toml", f"# {source}: {clauses}", *comment(about)]

    def text(self):
        return "\n".join(self.lines) + "\n"

    def case(self, title):
        """Begins a case of a family."""
        self.lines += ["", *comment(f"Case: {title}")]

    def variants(self):
        """Each bus with each subaddress of mode commands: a case of its own."""
        for bus, subaddress in product(BUSES, MODE_SUBADDRESSES):
            self.case(f"subaddress {subaddress}, bus {bus}")
            yield bus, subaddress

    def note(self, text):
        self.lines += ["", *comment(text)]

    # what comes, and what answers it

    def subsystem(self, *lines):
        self.lines += lines

    def on(self, bus, *words):
        """Words, noise and gaps on a bus."""
        self.lines += [f"{bus} {word}" for word in words]

    def slots(self, number):
        """Slots in which nothing is sent."""
        self.lines += ["slot"] * number

    def answers(self, line):
        self.lines += answer(line)

    def sends(self, bus, status, words=()):
        """Slots in which the terminal sends its status and data words."""
        for word in [f"s {self.address << 11 | status:04x}", *data(words)]:
            self.slots(1)
            self.answers(f"{bus} {word}")

    def replies(self, bus, status, words=(), slots=1):
        """The answer after a gap: NR, or the status and data words; and slots behind it in which nothing is sent."""
        if status is not NR:
            self.sends(bus, status, words)
        self.slots(slots)

    def message(self, bus, words, status=CS, sent=(), hand=None, slots=1):
        """A whole message with its gap, what is handed over there and the answer."""
        self.on(bus, *words, "gap")
        if hand:
            self.answers("hand " + hand)
        self.replies(bus, status, sent, slots)

    # messages to the terminal

    def transmits(self, bus, subaddress, count, status=CS, sent=None, slots=1):
        if sent is None:
            sent = [] if status is NR or status & (ME | BUSY) else held(subaddress, count)
        self.message(bus, transmit(subaddress, count), status, sent, slots=slots)

    def receives(self, bus, subaddress, words, status=CS, used=None, slots=1):
        if used is None:
            used = status is not NR and not status & (ME | BUSY)
        hand = received(subaddress, words) if used else None
        self.message(bus, receive(subaddress, words), status, hand=hand, slots=slots)

    def mode(self, bus, code, status=CS, sent=(), transmits=1, subaddress=0, word=None, hand=None, slots=1):
        self.message(bus, mode(code, transmits, subaddress, word), status, sent, hand, slots)

    def reports(self, bus, status, subaddress=0):
        """Transmit status word."""
        self.mode(bus, 2, status, subaddress=subaddress)

    def good(self, bus="A", status=CS):
        """A valid legal message."""
        self.transmits(bus, 1, 1, status)

    def wrong(self, bus, words, kept=ME):
        """A message that isn't answered, and the status that is kept after it."""
        self.message(bus, words, NR)
        self.reports(bus, kept)

    # messages to all

    def hears(self, bus, subaddress, words, used=True, slots=1):
        hand = received(subaddress, words, "broadcast") if used else None
        self.message(bus, receive(subaddress, words, address=ALL), NR, hand=hand, slots=slots)

    def hears_mode(self, bus, code, transmits=1, subaddress=0, word=None, hand=None, slots=1):
        self.message(bus, mode(code, transmits, subaddress, word, ALL), NR, hand=hand, slots=slots)

    # transfers with another terminal

    def takes(self, bus, subaddress, words, status=CS, other=OTHER, theirs=None, bits=0, address=OWN, used=True, slots=1):
        """A transfer that the terminal receives; `bits` are those of the other's status."""
        count = len(words)
        self.on(bus, *receive(subaddress, [], count, address), *transmit(theirs or subaddress, count, other), "gap")
        self.slots(count + 1)
        hand = received(subaddress, words, "own" if address == OWN else "broadcast") if used else None
        self.message(bus, [status_of(other, bits), *data(words)], status if address == OWN else NR, hand=hand, slots=slots)

    def gives(self, bus, subaddress, count, status=CS, sent=None, other=OTHER, slots=1):
        """A transfer that the terminal transmits."""
        self.on(bus, *receive(subaddress, [], count, other), *transmit(subaddress, count), "gap")
        self.replies(bus, status, held(subaddress, count) if sent is None else sent, slots)
        self.message(bus, [status_of(other)], NR, slots=slots)
