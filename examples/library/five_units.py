"""A controller that polls the five units of examples/documents, tested against them on one bus: a second of its schedule, first
with all units well, and then with an engine controller that falls silent."""

from __future__ import annotations

import pathlib

from rt1553 import Bus, Received, Terminal
from rt1553.bus import BusController, Faulty, FaultyReply, Result

DOCUMENTS = pathlib.Path(__file__).resolve().parent.parent / "documents"
INERTIAL, DISPLAY, ENGINE, STORES, RECORDER = 4, 7, 9, 12, 19
NAMES = ["inertial-unit", "display", "engine-controller", "stores-station", "recorder"]
FRAMES, FAILURES = 50, 3


class Poller:
    """In each of 50 frames a second the attitude goes to the recorder, and in every second one what the engine does to the display. A
    message that fails comes once more on the other bus; a unit that fails so three times in a row is no longer asked."""

    def __init__(self, controller: BusController) -> None:
        self.controller = controller
        self.failed: dict[int, int] = {}

    def transfer(self, to: tuple[int, int], from_: tuple[int, int], count: int) -> None:
        if self.failed.get(from_[0], 0) >= FAILURES:
            return
        for bus in Bus:
            if not self.controller.transfer(to, from_, count, bus=bus).errors:
                self.failed[from_[0]] = 0
                return
        self.failed[from_[0]] = self.failed.get(from_[0], 0) + 1

    def frame(self, number: int) -> None:
        self.transfer((RECORDER, 2), (INERTIAL, 1), 11)
        if number % 2 == 0:
            self.transfer((DISPLAY, 1), (ENGINE, 1), 16)


class Seen(BusController):
    """A controller that notes what each unit receives."""

    def __init__(self, terminals: dict[int, Terminal | Faulty]) -> None:
        super().__init__(terminals)
        self.received: dict[int, list[tuple[int, ...]]] = {address: [] for address in terminals}

    def transfer(self, to: tuple[int, int], from_: tuple[int, int], count: int, *, bus: Bus = Bus.A) -> Result:
        result = super().transfer(to, from_, count, bus=bus)
        for address, handed in result.handed.items():
            self.received[address] += [it.words for it in handed if isinstance(it, Received)]
        return result


def units() -> dict[int, Terminal | Faulty]:
    """The five units, by their addresses."""
    terminals = [Terminal((DOCUMENTS / f"{name}.toml").read_text(encoding="utf-8")) for name in NAMES]
    return {terminal.address: terminal for terminal in terminals}


def second(terminals: dict[int, Terminal | Faulty]) -> tuple[Poller, Seen]:
    seen = Seen(terminals)
    poller = Poller(seen)
    for number in range(FRAMES):
        inertial = terminals[INERTIAL]
        assert isinstance(inertial, Terminal)
        inertial.write(1, 1, number)  # a new attitude in each frame
        poller.frame(number)
    return poller, seen


def main() -> None:
    poller, seen = second(units())
    attitudes = [words[0] for words in seen.received[RECORDER]]
    print(f"all well: the recorder has {len(attitudes)} attitudes, {attitudes[:3]} first; the display {len(seen.received[DISPLAY])} of the engine")
    terminals = units()
    engine = terminals[ENGINE]
    assert isinstance(engine, Terminal)
    terminals[ENGINE] = Faulty(engine, [None] * 10 + [FaultyReply(drop=True)] * 100)
    poller, seen = second(terminals)
    print(f"a silent engine: failures {poller.failed}, the display has {len(seen.received[DISPLAY])}")


if __name__ == "__main__":
    main()
