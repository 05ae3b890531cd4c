"""A polling loop over 31 terminals, addresses 0 to 30: each cycle begins with a broadcast, and asks each terminal for two words.

A terminal that has more to say sets service request; its vector word then names the subaddress and how many words there are.
"""

from __future__ import annotations

from rt1553 import FlagName, Terminal
from rt1553.bus import BROADCAST, BusController

PROFILE = """address = {}
broadcast = true
[[rule]]
direction = "transmit"
subaddresses = "1, 2"
[[mode]]
to = "both"
codes = "16, 17"
"""

TERMINALS = {address: Terminal(PROFILE.format(address)) for address in range(31)}
CONTROLLER = BusController(TERMINALS)


def report(address: int, words: list[int]) -> None:
    """The subsystem of a terminal has words at subaddress 2 for the controller."""
    for number, word in enumerate(words, 1):
        TERMINALS[address].write(2, number, word)
    TERMINALS[address].vector(2 << 5 | len(words))
    TERMINALS[address].flag(FlagName.SERVICE, True)


def poll(address: int) -> str:
    """What a terminal says, as a line; nothing where it says nothing new."""
    result = CONTROLLER.transmit(address, 1, 2)
    if result.errors or result.status is None:
        return ", ".join(error.value for error in result.errors)
    if result.status.service_request:
        (vector,) = CONTROLLER.mode(address, 16).words
        words = CONTROLLER.transmit(address, vector >> 5, vector & 31).words
        TERMINALS[address].flag(FlagName.SERVICE, False)
        return f"vector word {vector:04x}, words {' '.join(f'{word:04x}' for word in words)}"
    return "busy" if result.status.busy else " ".join(f"{word:04x}" for word in result.words if word)


for cycle in range(1, 4):
    synchronized = CONTROLLER.mode(BROADCAST, 17, cycle).handed
    print(f"cycle {cycle}: {len(synchronized)} terminals are synchronized")
    TERMINALS[cycle].write(1, 1, 0xAA00 + cycle)
    if cycle == 2:
        report(30, [0x0BAD, 0x0CAB, 0x0DAD])
    TERMINALS[7].flag(FlagName.BUSY, cycle == 3)
    for address in TERMINALS:
        if said := poll(address):
            print(f"  terminal {address}: {said}")
