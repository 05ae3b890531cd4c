"""A small controller that asks again on the other bus, tested against a terminal whose replies are faulty by a plan."""

from __future__ import annotations

from typing import Optional

from rt1553 import Bus, Terminal
from rt1553.bus import BusController, Faulty, FaultyReply

PROFILE = """
address = 5
[[rule]]
direction = "transmit"
subaddresses = 3
[[initial]]
subaddress = 3
words = [0x11, 0x22]
"""

# each test: the faults of the first reply and of the second, and whether the words come
TESTS: list[tuple[str, list[Optional[FaultyReply]], bool]] = [
    ("all is well", [], True),
    ("nothing is sent", [FaultyReply(drop=True)], True),
    ("the reply is late", [FaultyReply(delay=1)], True),
    ("a word too few", [FaultyReply(shorten=1)], True),
    ("a word too many", [FaultyReply(lengthen=1)], True),
    ("a status of terminal 4", [FaultyReply(flip=0x0800)], True),
    ("a wrong parity bit", [FaultyReply(word=2, wrong_parity=True)], True),
    ("noise for a status", [FaultyReply(noise=True)], True),
    ("nothing, and then noise", [FaultyReply(drop=True), FaultyReply(word=1, noise=True)], False),
    ("another word, parity right", [FaultyReply(word=1, flip=0x8000)], False),
]


class Retrying:
    """Asks on one bus, and where a reply has errors once more on the other one."""

    def __init__(self, controller: BusController) -> None:
        self.controller, self.seen = controller, ""

    def words(self, rt: int, subaddress: int, count: int) -> tuple[int, ...]:
        """The words of a terminal; none where both replies have errors. `seen` says what came on the buses."""
        self.seen = ""
        for bus in Bus:
            result = self.controller.transmit(rt, subaddress, count, bus=bus)
            self.seen += f"  {bus.name}: {', '.join(error.value for error in result.errors) or 'good'}"
            if not result.errors:
                return result.words
        return ()


for name, plan, is_good in TESTS:
    retrying = Retrying(BusController({5: Faulty(Terminal(PROFILE), plan)}))
    as_wanted = (retrying.words(5, 3, 2) == (0x11, 0x22)) == is_good
    print(f"{'passed' if as_wanted else 'FAILED'}  {name:26}{retrying.seen}")
