"""A bus of 31 terminals and a controller: what each sends is heard by all others, and is printed with who sent it.

Prints what bus31.c prints.
"""

from __future__ import annotations

from rt1553 import Bus, FlagName, Received, Sent, Sync, Terminal

BROADCAST = 31

# subaddress 1 in both directions, subaddress 2 by broadcast, some mode codes, and two words to begin with
PROFILE = """address = {0}
broadcast = true
vector = {1}
[[rule]]
direction = "both"
subaddresses = 1
[[rule]]
to = "broadcast"
direction = "receive"
subaddresses = 2
[[mode]]
to = "both"
codes = "1, 16, 17"
[[initial]]
subaddress = 1
words = [{2}, {3}]
"""

TERMINALS = [Terminal(PROFILE.format(i, 0x1000 + i, 0x2000 + i, 0x3000 + i)) for i in range(31)]


def command(address: int, transmits: int, subaddress: int, count: int) -> int:
    """A command word."""
    return address << 11 | transmits << 10 | subaddress << 5 | (count & 31)


def gap(bus: Bus) -> None:
    """A gap, which ends a message for all. Each subsystem holds words of subaddress 1 ready to be transmitted."""
    for address, terminal in enumerate(TERMINALS):
        if handed := terminal.gap(bus):
            print(f"{address:02d} {handed.line()}")
            if isinstance(handed, Received) and handed.subaddress == 1:
                for number, word in enumerate(handed.words, 1):
                    terminal.write(1, number, word)


def slot() -> bool:
    """The time of one word. Whether a terminal sent one, which all others heard."""
    is_sent = False
    for address, terminal in enumerate(TERMINALS):
        if isinstance(sent := terminal.slot(), Sent):
            print(f"{address:02d} {sent.line()}")
            for other in TERMINALS:
                if other is not terminal:
                    other.step(sent.heard())
            is_sent = True
    return is_sent


def send(bus: Bus, sync: Sync, bits: int) -> None:
    """The controller sends a word."""
    print(f"bc {bus.name} {'cd'[sync]} {bits:04x}")
    for terminal in TERMINALS:
        terminal.word(bus, sync, bits)


def message(bus: Bus, commands: list[int], words: list[int]) -> None:
    """A message of the controller, and then replies, each ended by a gap, till the bus stays silent."""
    for bits in commands:
        send(bus, Sync.COMMAND, bits)
    for bits in words:
        send(bus, Sync.DATA, bits)
    gap(bus)
    while slot():
        while slot():
            pass
        gap(bus)


def main() -> None:
    for i in range(31):  # transmit status word
        message(Bus.A, [command(i, 1, 0, 2)], [])
    message(Bus.A, [command(0, 0, 1, 2)], [0xCAFE, 0x0001])  # two words for terminal 0 ..
    for i in range(30):  # .. go from each to the next
        message(Bus.A, [command(i + 1, 0, 1, 2), command(i, 1, 1, 2)], [])
    message(Bus.B, [command(30, 1, 1, 2)], [])  # .. and from the last to the controller
    message(Bus.A, [command(BROADCAST, 0, 2, 2), command(7, 1, 1, 2)], [])  # terminal 7 transmits to all others
    message(Bus.A, [command(BROADCAST, 0, 0, 17)], [0x0042])  # synchronize with data word
    message(Bus.A, [command(4, 1, 0, 2)], [])
    TERMINALS[9].flag(FlagName.BUSY, True)
    message(Bus.A, [command(9, 1, 1, 2)], [])  # busy: its status alone
    TERMINALS[9].flag(FlagName.BUSY, False)
    message(Bus.A, [command(9, 1, 1, 2)], [])
    for i in range(0, 31, 10):  # transmit vector word
        message(Bus.B, [command(i, 1, 0, 16)], [])
    message(Bus.A, [command(12, 0, 1, 2)], [0x0001])  # a word too few: no reply ..
    message(Bus.A, [command(12, 1, 0, 2)], [])  # .. but message error


if __name__ == "__main__":
    main()
