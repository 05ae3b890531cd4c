"""The rules of the remote terminal, docs/terminal.md, as a model of their own.

It was written from that page and takes nothing from the program. `play.py` plays scripts to it, and
`random_scripts.py` plays messages that look random, for digests and for cases.

An event is a tuple, in which a bus is "A" or "B":

    ("word", bus, (kind, bits, parity))     kind is "c" for the command sync, "d" for the data sync
    ("noise", bus)    ("gap", bus)    ("slot",)
    ("write", subaddress, number, word)    ("vector", word)    ("bit", word)    ("flag", name, value)

What answers it is None or a tuple:

    ("status", bus, word)    ("data", bus, word)                       in a slot
    ("received", by_broadcast, subaddress, words)    ("synchronize",)    ("synchronize with", word)
    ("self test",)    ("bus control",)                                 at a gap
"""

from dataclasses import dataclass, field
from typing import Callable, Optional

# the mode codes: T/R, and whether one may be legal by broadcast
MODE_CODES = {0: (1, False), 1: (1, True), 2: (1, False), 3: (1, True), 4: (1, True), 5: (1, True), 6: (1, True),
              7: (1, True), 8: (1, True), 16: (1, False), 17: (0, True), 18: (1, False), 19: (1, False)}
FLAGS = ("service", "busy", "subsystem", "terminal")


def valid_word(kind, bits):
    """The valid word of a sync and 16 bits: the ones among 17 bits are odd in number."""
    return (kind, bits, 1 - bits.bit_count() % 2)


def is_valid(word):
    return word is not None and word == valid_word(*word[:2])


def is_broadcast(command):
    return command >> 11 == 31


def is_transmit(command):
    return command >> 10 & 1 == 1


def subaddress_of(command):
    return command >> 5 & 31


def is_mode(command):
    return subaddress_of(command) in (0, 31)


def count_of(command):
    return command & 31 or 32


def cell_of(command):
    """The cell of a command, or None."""
    if is_mode(command):
        code = command & 31
        if code not in MODE_CODES or MODE_CODES[code][0] != is_transmit(command):
            return None
        if is_broadcast(command):
            return ("broadcast mode", code) if MODE_CODES[code][1] else None
        return ("own mode", code)
    if is_transmit(command):
        return None if is_broadcast(command) else ("own transmit", subaddress_of(command), count_of(command))
    return ("broadcast receive" if is_broadcast(command) else "own receive", subaddress_of(command), count_of(command))


def expected(command):
    """How many data words are to follow a command."""
    if is_transmit(command):
        return 0
    if is_mode(command):
        return 1 if command & 31 >= 16 else 0
    return count_of(command)


def receives_data(command):
    return not is_transmit(command) and not is_mode(command)


def other_bus(bus):
    return "B" if bus == "A" else "A"


@dataclass
class Setup:
    """What a terminal is at power-up."""

    address: int
    legal: Callable[[tuple], bool]                    # of a cell
    broadcast: bool = False
    wraparound: int = 30                              # the subaddress, or 0 for none
    accept: bool = False
    vector: int = 0
    bit: int = 0
    initial: dict = field(default_factory=dict)       # the words held, by subaddress and number


@dataclass
class Message:
    """A message in progress: at most one on both buses."""

    bus: str
    command: int
    phase: str = "collecting"                         # or "waiting", or "after the awaited status"
    awaited: Optional[int] = None                     # the address whose status it waits for
    followed: list = field(default_factory=list)      # words, and None for noise


@dataclass
class Reply:
    """A reply in progress: what is still to be sent, a word a slot."""

    bus: str
    words: list                                       # "status", "vector", "last command", "bit", (subaddress, number)
    resets: bool                                      # whether the status is that of a reset


class Terminal:
    def __init__(self, setup):
        self.setup = setup
        self.flags = dict.fromkeys(FLAGS, 0)
        self.run = {"A": [], "B": []}                 # words, and None for noise
        self.message = None
        self.reply = None
        self.reset()

    def reset(self):
        """Back to power-up, but for flags and runs."""
        self.held = dict(self.setup.initial)
        self.vector, self.bit = self.setup.vector, self.setup.bit
        self.shut_down = set()
        self.inhibited = False
        self.kept = self.setup.address << 11
        self.last = 0

    def step(self, event):
        """Takes an event, and gives what answers it."""
        name, *rest = event
        if name in ("word", "noise", "gap") and self.reply and self.reply.bus == rest[0]:
            return None                               # the terminal doesn't hear what comes while it sends
        if name == "word":
            self.hear(*rest)
        elif name == "noise":
            self.hear(rest[0], None)
        elif name == "gap":
            return self.gap(rest[0])
        elif name == "slot":
            return self.slot()
        elif name == "write":
            self.held[rest[0], rest[1]] = rest[2]
        elif name == "vector":
            self.vector = rest[0]
        elif name == "bit":
            self.bit = rest[0]
        elif name == "flag":
            self.flags[rest[0]] = rest[1]
        return None

    # what is legal, and which status

    def is_legal(self, command):
        return cell_of(command) is not None and bool(self.setup.legal(cell_of(command)))

    def spares_kept(self, command):
        """Own mode codes 2 and 18, where they are legal, report the kept status and leave it."""
        return cell_of(command) in (("own mode", 2), ("own mode", 18)) and self.is_legal(command)

    def fresh(self, command):
        return (self.setup.address << 11) + 0x10 * is_broadcast(command)

    def formed(self, command, error=False, accept=False):
        flags = self.flags
        shown = flags["terminal"] and not self.inhibited
        return (self.fresh(command) + 0x400 * error + 0x100 * flags["service"] + 0x8 * flags["busy"]
                + 0x4 * flags["subsystem"] + 0x2 * accept + 0x1 * shown)

    # messages

    def is_for_it(self, word):
        if not is_valid(word) or word[0] != "c":
            return False
        return word[1] >> 11 == self.setup.address or (is_broadcast(word[1]) and self.setup.broadcast)

    def hear(self, bus, word):
        """A word that comes on a bus, or None for noise."""
        message = self.message if self.message and self.message.bus == bus else None
        if message and message.phase == "waiting":
            if is_valid(word) and word[0] == "c" and word[1] >> 11 == message.awaited:
                message.phase = "after the awaited status"
                self.run[bus].append(word)
                return
            self.end_in_error()
            message = None
        if self.is_for_it(word) and self.starts(bus, message, word[1]):
            self.start(bus, word[1])
        elif message:
            message.followed.append(word)
        self.run[bus].append(word)

    def starts(self, bus, message, command):
        """Whether a word for the terminal starts a message."""
        if message is None:
            return not any(self.is_for_it(word) for word in self.run[bus])
        # the transmitter of a broadcast transfer
        return (message.phase == "collecting" and not message.followed and is_broadcast(message.command)
                and receives_data(message.command) and is_transmit(command) and command >> 11 == self.setup.address)

    def start(self, bus, command):
        if self.reply and self.reply.bus != bus:
            self.reply = None                         # with a reset that hasn't acted
        self.message = Message(bus, command)
        if not self.spares_kept(command):
            self.kept = self.fresh(command)
        if cell_of(command) != ("own mode", 18):
            self.last = command

    def end_in_error(self):
        command = self.message.command
        self.kept = self.kept | 0x400 if self.spares_kept(command) else self.formed(command, error=True)
        self.message = None

    def gap(self, bus):
        """A gap: it ends the run of its bus, and a message there. Gives what is handed over."""
        self.run[bus] = []
        message = self.message
        if not message or message.bus != bus:
            return None
        words = message.followed
        if message.phase != "waiting":
            is_data = all(is_valid(word) and word[0] == "d" for word in words)
            if is_data and len(words) == expected(message.command):
                self.message = None
                return self.complete(bus, message.command, [word[1] for word in words])
            if message.phase == "collecting" and self.is_transfer(message.command, words):
                message.phase, message.awaited, message.followed = "waiting", words[0][1] >> 11, []
                return None
        self.end_in_error()
        return None

    def is_transfer(self, command, words):
        """Whether another terminal was told to transmit what this one is to receive."""
        if not receives_data(command) or len(words) != 1 or not is_valid(words[0]) or words[0][0] != "c":
            return False
        return is_transmit(words[0][1]) and words[0][1] >> 11 not in (self.setup.address, 31)

    # messages that ended well

    def complete(self, bus, command, data):
        """What a message that ended well does at its gap."""
        cell = cell_of(command)
        if not self.is_legal(command):
            self.kept = self.formed(command, error=True)
            self.begin_reply(bus, command, [])
            return None
        code = cell[1] if "mode" in cell[0] else None
        if self.flags["busy"] and (code is None or code in (16, 17)):
            self.kept = self.formed(command)
            self.begin_reply(bus, command, [])
            return None
        if code in (6, 7):
            self.inhibited = code == 6
        if code in (4, 5):
            (self.shut_down.add if code == 4 else self.shut_down.discard)(other_bus(bus))
        accepts = cell == ("own mode", 0) and self.setup.accept
        if not self.spares_kept(command):
            self.kept = self.formed(command, accept=accepts)
        if cell[0] in ("own receive", "broadcast receive") and cell[1] == self.setup.wraparound:
            self.held.update({(cell[1], number): word for number, word in enumerate(data, 1)})
        self.begin_reply(bus, command, self.data_words(cell), resets=code == 8)
        return self.handed_over(command, cell, code, accepts, data)

    def data_words(self, cell):
        """The data words that a reply sends after its status, by what they are."""
        if cell[0] == "own transmit":
            return [(cell[1], number) for number in range(1, cell[2] + 1)]
        words = {("own mode", 16): ["vector"], ("own mode", 18): ["last command"], ("own mode", 19): ["bit"]}
        return words.get(cell, [])

    def handed_over(self, command, cell, code, accepts, data):
        if cell[0] in ("own receive", "broadcast receive"):
            return ("received", is_broadcast(command), cell[1], data)
        if accepts:
            return ("bus control",)
        if code == 17:
            return ("synchronize with", data[0])
        return {1: ("synchronize",), 3: ("self test",)}.get(code)

    # replies

    def begin_reply(self, bus, command, words, resets=False):
        """A reply begins, where the command was to the own address and the transmitter is on. Where none begins,
        nothing is sent later either, and a reset acts at once."""
        if not is_broadcast(command) and bus not in self.shut_down:
            self.reply = Reply(bus, ["status", *words], resets)
        elif resets:
            self.reset()

    def slot(self):
        """A slot: the next word of the reply, as it is now."""
        reply = self.reply
        if not reply:
            return None
        word = reply.words.pop(0)
        if not reply.words:
            self.reply = None
        if word != "status":
            return ("data", reply.bus, self.value_of(word))
        status = ("status", reply.bus, self.kept)
        if reply.resets:
            self.reset()
        return status

    def value_of(self, word):
        if word == "vector":
            return self.vector
        if word == "bit":
            return self.bit
        if word == "last command":
            return self.last
        return self.held.get(word, 0)
