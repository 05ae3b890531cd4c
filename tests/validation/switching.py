"""5.2.1.8 bus switching: a valid command comes on the other bus in each phase of a message, and of its answer.

Only the second command is answered, on its bus. What was done at the gap of the first message stays done.
"""

from dataclasses import dataclass

from script import (
    ALL, BCR, BIT, BUSES, BUSY, CS, ME, NR, OTHER, OWN, Script, bits_of, data, held, mode, other_bus, receive, received,
    transmit, with_wrong_parity,
)


def is_meant(word):
    """Whether a command word is to the terminal or to all."""
    return bits_of(word) >> 11 in (OWN, ALL)


@dataclass
class First:
    """A message on one bus, subaddress 3."""

    words: list                # up to the gap that ends it, a waiting gap among them
    hand: str = ""             # what is handed over at its gap
    reply: tuple = ()          # the words that answer it, the first of them the status
    kept: int = CS             # the status that is kept from its gap on
    after: tuple = ("gap",)    # what comes on its bus behind the answer

    def command(self):
        return next(word for word in self.words if is_meant(word))

    def begun(self):
        """The numbers of words with which the message is begun."""
        start = self.words.index(self.command()) + 1
        return range(start, len(self.words) + 1)

    def kept_from_start(self):
        return BCR if bits_of(self.command()) >> 11 == ALL else CS


RECEIVED = received(3, [1, 2, 3])
FIRSTS = {
    "receive": First(receive(3, [1, 2, 3]), RECEIVED, ("s 2800",)),
    "transmit": First(transmit(3, 3), reply=("s 2800", "d 0301", "d 0302", "d 0303")),
    "synchronize": First(mode(1), "sync", ("s 2800",)),
    "synchronize with data word": First(mode(17, 0, word=1), "sync 0001", ("s 2800",)),
    "reset": First(mode(8), reply=("s 2800",)),
    "transmit vector word": First(mode(16), reply=("s 2800", "d 1234")),
    "transmit BIT word": First(mode(19), reply=("s 2800", "d 5678")),
    "illegal command": First(mode(9), reply=("s 2c00",), kept=ME),
    "transfer, receiver": First(["c 2863", "c 3463", "gap", "c 3000", *data([1, 2, 3])], RECEIVED, ("s 2800",)),
    "transfer, transmitter": First(["c 3063", "c 2c63"], reply=("s 2800", "d 0301", "d 0302", "d 0303"),
                                   after=("gap", "c 3000", "gap")),
    "broadcast": First(receive(3, [1, 2], address=ALL), received(3, [1, 2], "broadcast"), kept=BCR),
    "broadcast synchronize": First(mode(1, address=ALL), "sync", kept=BCR),
    "broadcast synchronize with data word": First(mode(17, 0, word=1, address=ALL), "sync 0001", kept=BCR),
    "transfer to all, receiver": First(["c f862", "c 3462", "gap", "c 3000", *data([1, 2])],
                                       received(3, [1, 2], "broadcast"), kept=BCR),
}


def second_messages(first, kept):
    """The messages on the other bus: the words, what answers them, and the answer's words."""
    yield receive(4, [0xAA, 0xBB]), received(4, [0xAA, 0xBB]), CS, []
    yield transmit(4, 2), None, CS, held(4, 2)
    yield mode(1), "sync", CS, []
    yield mode(19), None, CS, [BIT]
    yield mode(2), None, kept, []
    yield mode(18), None, kept, [bits_of(first.command())]
    yield ["c 2881", "c 3481", "gap", "c 3000", "d 00cc"], received(4, [0xCC]), CS, []
    yield ["c 3081", "c 2c81"], None, CS, held(4, 1)
    yield mode(10), None, ME, []
    yield receive(4, [0xDD], address=ALL), received(4, [0xDD], "broadcast"), NR, []


def families():
    for title, first in FIRSTS.items():
        yield during_message(title, first)
        if first.reply:
            yield during_reply(title, first)
            yield words_on_its_own_bus(title, first)
    yield shutdown_during_reply()
    yield not_switched()
    yield not_switched_broadcast()
    yield there_and_back()


def start(title, what, about):
    return Script(f"5.2.1.8_{what}_{title.replace(',', '').replace(' ', '_')}", "5.2.1.8", about)


def switch(script, bus, begin, rest, first, kept):
    """The first message up to the switch, then each kind of second message on the other bus. What is left of the first
    comes while the second is under way, or after it."""
    for words, hand, status, sent in second_messages(first, kept):
        second = next(number for number, word in enumerate(words) if is_meant(word)) + 1
        for between in (True, False):
            begin()
            script.on(other_bus(bus), *words[:second])
            if between:
                rest()
            script.message(other_bus(bus), words[second:], status, sent, hand)
            if not between:
                rest()


def during_message(title, first):
    script = start(title, "during", f"First message: {title}. The other bus speaks in each phase of it.")
    for number in first.begun():
        script.case(f"{number} of its words and gaps have come")
        for bus in BUSES:
            def begin():
                script.good(bus)
                script.on(bus, *first.words[:number])

            def rest():
                script.on(bus, *first.words[number:], *first.after)

            switch(script, bus, begin, rest, first, first.kept_from_start())
    return script


def during_reply(title, first):
    script = start(title, "answering", f"First message: {title}. The other bus speaks while the terminal answers.")
    for number in range(len(first.reply)):
        script.case(f"{number} words of the answer were sent")
        for bus in BUSES:
            def begin():
                script.good(bus)
                script.on(bus, *first.words, "gap")
                if first.hand:
                    script.answers("hand " + first.hand)
                for word in first.reply[:number]:
                    script.slots(1)
                    script.answers(f"{bus} {word}")

            def rest():
                script.slots(len(first.reply) - number)
                script.on(bus, *first.after)

            switch(script, bus, begin, rest, first, first.kept)
    return script


def words_on_its_own_bus(title, first):
    script = start(title, "own_bus", f"First message: {title}. Words on its own bus while the terminal answers: not heard.")
    noises = {
        "a gap": ["gap"],
        "noise": ["noise"],
        "data": ["d 0001"],
        "a command of another terminal": transmit(3, 1, OTHER),
        "transmit status word and a gap": [*mode(2), "gap"],
        "transmitter shutdown and a gap": [*mode(4), "gap"],
        "a receive message": [*receive(4, [7]), "gap"],
        "a broadcast message": ["gap", *receive(4, [7], address=ALL), "gap"],
        "a command that is cut off": receive(4, [7], 2),
    }
    for what, words in noises.items():
        script.case(what)
        for bus in BUSES:
            for number in range(len(first.reply)):
                script.on(bus, *first.words, "gap")
                if first.hand:
                    script.answers("hand " + first.hand)
                for place, word in enumerate(first.reply):
                    if place == number:
                        script.on(bus, *words)
                    script.slots(1)
                    script.answers(f"{bus} {word}")
                script.note("what comes behind the last word is heard, without a gap")
                script.reports(bus, first.kept)
                script.reports(other_bus(bus), first.kept)
                script.good(other_bus(bus))
    return script


def shutdown_during_reply():
    script = Script("5.2.1.8_answering_shutdown", "5.2.1.8, 5.2.1.5.2",
                    "Transmitter shutdown was done at its gap: what takes over on the other bus is carried out, not answered.")
    for bus in BUSES:
        script.case(f"bus {bus}")
        other = other_bus(bus)
        script.on(bus, *mode(4), "gap")
        script.receives(other, 4, [7, 8], NR, used=True)
        script.good(other, NR)
        script.good(bus)
        script.mode(bus, 5)
        script.good(other)
        script.note("the override: it was done as well")
        script.mode(bus, 4)
        script.on(bus, *mode(5), "gap")
        script.good(other)
        script.note("shut down before: it takes over, and the message of the first bus is dropped")
        script.mode(bus, 4)
        script.on(bus, *receive(3, [1], 2))
        script.receives(other, 3, [7, 8], NR, used=True)
        script.on(bus, *data([2]), "gap")
        script.slots(1)
        script.mode(bus, 5)
    return script


# what comes on the other bus and is no valid command for the terminal
NO_COMMANDS = {
    "a command with wrong parity": [with_wrong_parity("c 2c63")],
    "noise": ["noise"],
    "a gap": ["gap"],
    "data": ["d 2c63"],
    "a command to another terminal": ["c 3463"],
    "a message to another terminal": ["c 3062", "d 0001", "d 0002"],
    "data and a gap": ["d 0000", "gap"],
    "the answer of another terminal": ["c 3462", "gap", "c 3000", "d 0001", "d 0002", "gap"],
    "noise, a gap and noise": ["noise", "gap", "noise"],
    "a receive message with a wrong command": [with_wrong_parity("c 2863"), "d 0001", "gap"],
}


def not_switched():
    script = Script("5.2.1.8_not_switched", "5.2.1.8",
                    "What comes on the other bus and is no valid command for the terminal disturbs neither message nor answer.")
    for title, words in NO_COMMANDS.items():
        script.case(title)
        for bus in BUSES:
            other = other_bus(bus)
            script.on(bus, *receive(3, [10, 11], 3))
            script.on(other, *words)
            script.message(bus, ["d 000c"], hand=received(3, [10, 11, 12]))
            script.on(other, "gap")
            script.on(bus, *transmit(3, 3))
            script.on(other, *words)
            script.message(bus, [], CS, held(3, 3))
            script.on(other, "gap")
            script.on(bus, "c 2862", "c 3462", "gap")
            script.on(other, *words)
            script.message(bus, ["c 3000", *data([1, 2])], hand=received(3, [1, 2]))
            script.on(other, "gap")
            script.note("while it answers: before the status, and before each word")
            for place in range(4):
                script.on(bus, *transmit(3, 3), "gap")
                for number, word in enumerate(["s 2800", *data(held(3, 3))]):
                    if number == place:
                        script.on(other, *words)
                    script.slots(1)
                    script.answers(f"{bus} {word}")
                script.on(other, "gap")
    return script


def not_switched_broadcast():
    script = Script("5.2.1.8_not_switched_broadcast", "5.2.1.8",
                    "Without the broadcast option a command to all on the other bus disturbs nothing.", "no_broadcast")
    for bus in BUSES:
        script.case(f"bus {bus}")
        script.on(bus, *receive(3, [1], 3))
        script.on(other_bus(bus), *mode(1, address=ALL), "gap")
        script.message(bus, data([2, 3]), hand=received(3, [1, 2, 3]))
        script.on(bus, *transmit(3, 2), "gap")
        script.sends(bus, CS, held(3, 1))
        script.on(other_bus(bus), *mode(1, address=ALL), "gap")
        script.slots(1)
        script.answers(f"{bus} d 0302")
        script.good(bus)
    return script


def there_and_back():
    script = Script("5.2.1.8_there_and_back", "5.2.1.8", "A message, or an answer, goes to the other bus and comes back.")
    for bus in BUSES:
        other = other_bus(bus)
        script.case(f"a receive message, bus {bus}")
        script.on(bus, *receive(3, [1], 3))
        script.on(other, *receive(3, [1, 2], 3), "gap")
        script.message(other, [], NR)
        script.reports(other, ME)
        script.on(bus, "gap")
        script.on(bus, *receive(3, [1], 3))
        script.on(other, *receive(3, [1, 2], 3))
        script.on(bus, "gap", *receive(3, [4, 5], 3))
        script.on(other, "gap")
        script.message(bus, data([6]), hand=received(3, [4, 5, 6]))
        script.reports(other, CS)
        script.case(f"an answer, bus {bus}")
        script.on(bus, *transmit(3, 3), "gap")
        script.sends(bus, CS, held(3, 1))
        script.on(other, *transmit(4, 3), "gap")
        script.sends(other, CS, held(4, 2))
        script.on(bus, *transmit(5, 3), "gap")
        script.sends(bus, CS, held(5, 3))
        script.slots(2)
        script.on(other, "gap")
        script.reports(other, CS)
        script.case(f"with busy, which ends, bus {bus}")
        script.subsystem("flag busy 1")
        script.on(bus, *receive(3, [1]))
        script.transmits(other, 3, 1, BUSY)
        script.on(bus, "gap")
        script.reports(bus, BUSY)
        script.subsystem("flag busy 0")
        script.on(bus, *receive(3, [1]))
        script.transmits(other, 3, 1)
        script.on(bus, "gap")
        script.reports(bus, CS)
    return script
