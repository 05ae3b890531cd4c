#!/usr/bin/env python3
"""Messages a second on a bus of 31 terminals, from C and from Python, over the library in bin/library: buses.py

Each message tells a terminal in turn to receive or to transmit 16 words. The time is that of the processor, the least of five runs, and
without what it takes to begin. Nothing here is a test.
"""
import pathlib
import subprocess
import sys
import tempfile
import time

TOP = pathlib.Path(__file__).resolve().parent.parent
LIBRARY = TOP / "bin/library"
sys.path.insert(0, str(LIBRARY / "python"))
import rt1553  # noqa: E402
from rt1553 import Bus, Sync, Word  # noqa: E402
from rt1553.bus import BusController, Faulty, command  # noqa: E402

PROFILE = "address = {}\n[[rule]]\ndirection = \"both\"\nsubaddresses = 3\n"
TURNS, MOST, WORDS = 5, 31, list(range(1, 17))


def terminals():
    return {address: rt1553.Terminal(PROFILE.format(address)) for address in range(MOST)}


def in_c(program, messages):
    """The seconds that the program of bench/buses.c takes."""
    spent = subprocess.run(["python3", TOP / "bench/processor_time.py", program, str(messages)], check=True, capture_output=True)
    return int(spent.stdout) / 1_000_000


def in_python(play, messages):
    """The seconds that so many messages take, each played by its number."""
    before = time.process_time()
    for number in range(messages):
        play(number // 2 % MOST, number & 1)
    return time.process_time() - before


def main():
    bus = rt1553.TerminalBus(terminals().values())
    together, one_by_one = BusController(terminals()), BusController({address: Faulty(it, []) for address, it in terminals().items()})
    data = [Word(Bus.A, Sync.DATA, bits) for bits in WORDS]

    def by_bus(address, transmit):
        words = [Word(Bus.A, Sync.COMMAND, command(address, bool(transmit), 3, len(WORDS)))]
        bus.message(words if transmit else words + data)

    def by(controller):
        def play(address, transmit):
            if transmit:
                controller.transmit(address, 3, len(WORDS))
            else:
                controller.receive(address, 3, WORDS)

        return play

    with tempfile.TemporaryDirectory() as folder:
        program = f"{folder}/buses"
        words = ["cc", "-O2", "-I", LIBRARY / "include", "-o", program, TOP / "bench/buses.c", LIBRARY / "lib/librt1553.a"]
        subprocess.run(words, check=True)
        rows = {
            "C, rt1553_bus_message": (200_000, lambda count: in_c(program, count) - in_c(program, 0)),
            "Python, TerminalBus.message": (20_000, lambda count: in_python(by_bus, count)),
            "Python, BusController": (5_000, lambda count: in_python(by(together), count)),
            "Python, BusController, each terminal by itself": (200, lambda count: in_python(by(one_by_one), count)),
        }
        for name, (count, seconds) in rows.items():
            print(f"{name}: {count / min(seconds(count) for _ in range(TURNS)):.0f} messages a second")


if __name__ == "__main__":
    main()
