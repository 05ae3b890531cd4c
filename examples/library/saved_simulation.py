"""A simulation that is saved to a file and gone on with in another process: saved_simulation.py FILE

Without the file it begins. Each call plays two cycles and saves it. In a cycle the controller adds a number to the sum that
terminal 5 keeps at its wraparound subaddress, and terminal 9 receives the sum in a transfer.
"""

from __future__ import annotations

import pathlib
import pickle
import sys

from rt1553 import Terminal
from rt1553.bus import BusController, Recorder

PROFILE = """address = {}
[[rule]]
direction = "both"
subaddresses = "4, 30"
"""


def begun() -> tuple[int, Recorder, BusController]:
    """No cycle yet: the terminals are at power-up, and what terminal 9 meets is recorded."""
    recorder = Recorder(PROFILE.format(9))
    return 0, recorder, BusController({5: Terminal(PROFILE.format(5)), 9: recorder})


def main(file: pathlib.Path) -> None:
    cycle, recorder, controller = pickle.loads(file.read_bytes()) if file.exists() else begun()
    for _ in range(2):
        cycle += 1
        (total,) = controller.transmit(5, 30, 1).words
        controller.receive(5, 30, [total + cycle])
        result = controller.transfer(to=(9, 4), from_=(5, 30), count=1)
        print(f"cycle {cycle}: {total} + {cycle}, terminal 9: {result.handed[9]}")
    print(f"saved: terminal 9 has met {len(recorder.script.splitlines())} events")
    file.write_bytes(pickle.dumps((cycle, recorder, controller)))


if __name__ == "__main__":
    main(pathlib.Path(sys.argv[1]))
