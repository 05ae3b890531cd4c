"""Two terminals on one bus, driven like the loops of python-can: what is sent is a message, and `recv` waits for the next.

A bus controller asks the terminal of address 3 to transmit two words to that of address 9 (MIL-STD-1553B, 4.3.3.6.3).
"""

from __future__ import annotations

from collections import deque
from collections.abc import Iterator
from dataclasses import dataclass
from typing import Optional

from rt1553 import Answer, Bus, Event, Gap, Sent, Slot, Sync, Terminal, Word

TRANSMITTER = """
address = 3
[[rule]]
direction = "transmit"
subaddresses = 7
counts = 2
[[initial]]
subaddress = 7
words = [0x1234, 0xabcd]
"""

RECEIVER = """
address = 9
[[rule]]
direction = "receive"
subaddresses = 4
counts = 2
"""


@dataclass(frozen=True)
class Message:
    """What someone on the bus did: sent a word, left a gap, or handed something over to its subsystem."""

    sender: str
    line: str


class VirtualBus:
    """A bus with terminals. `send` is what its controller sends; `recv` lets time pass until something comes back."""

    def __init__(self, channel: Bus, terminals: dict[str, Terminal]) -> None:
        self.channel, self.terminals = channel, terminals
        self.seen: deque[Message] = deque()

    def _played(self, event: Event, but: str = "") -> Iterator[tuple[str, Answer]]:
        """Plays an event to all terminals but one, and gives what they answer."""
        for name, terminal in self.terminals.items():
            if name != but and (answer := terminal.step(event)):
                yield name, answer

    def send(self, event: Event) -> None:
        """The bus controller sends a word, or is silent for a gap."""
        self.seen.append(Message("controller", event.line()))
        self.seen.extend(Message(name, answer.line()) for name, answer in self._played(event))

    def _slot(self) -> bool:
        """The time of one word: who is in a reply sends its next word, and all others hear it."""
        sent = [(name, answer) for name, answer in self._played(Slot()) if isinstance(answer, Sent)]
        for name, answer in sent:
            self.seen.append(Message(name, answer.line()))
            for _ in self._played(answer.heard(), but=name):
                raise AssertionError("a word is answered at its gap")
        return bool(sent)

    def recv(self) -> Optional[Message]:
        """The next message; None when the bus stays silent."""
        if not self.seen and self._slot():
            # the reply goes on till a slot without a word, which is a gap
            while self._slot():
                pass
            self.seen.extend(Message(name, answer.line()) for name, answer in self._played(Gap(self.channel)))
        return self.seen.popleft() if self.seen else None

    def __iter__(self) -> Iterator[Message]:
        while message := self.recv():
            yield message


def main() -> None:
    bus = VirtualBus(Bus.A, {"transmitter": Terminal(TRANSMITTER), "receiver": Terminal(RECEIVER)})
    bus.send(Word(Bus.A, Sync.COMMAND, 0x4882))  # receive: address 9, subaddress 4, 2 words
    bus.send(Word(Bus.A, Sync.COMMAND, 0x1CE2))  # transmit: address 3, subaddress 7, 2 words
    bus.send(Gap(Bus.A))
    for message in bus:
        print(f"{message.sender:11} {message.line}")


if __name__ == "__main__":
    main()
