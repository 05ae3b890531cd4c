#!/usr/bin/env python3
"""`TerminalBus` in step with the bus of tests/model, over random terminals and random controllers. Anywhere on the way the bus is saved
and restored, copied, pickled, or made anew of its terminals. The last line is 'N passed, M failed'."""

import collections
import copy
import pathlib
import pickle
import random
import sys

TOP = pathlib.Path(__file__).resolve().parent.parent.parent
sys.path.insert(0, str(TOP / "tests/model"))

import buses  # noqa: E402
from rt1553 import Terminal, TerminalBus, read_event  # noqa: E402
from told import tell  # noqa: E402

SEEDS, BUSES = 10, 100
WAYS = {
    "restored": lambda bus, addresses: TerminalBus.restore(bus.save()),
    "copied": lambda bus, addresses: copy.copy(bus),
    "pickled": lambda bus, addresses: pickle.loads(pickle.dumps(bus)),
    "made anew": lambda bus, addresses: TerminalBus(map(bus.terminal, addresses)),
}


def played(bus, line):
    """What terminals answer to a line of a script."""
    if not line or line.startswith(b"#"):
        return []
    if found := buses.ADDRESSED.fullmatch(line):
        return bus.step(read_event(found[2].decode()), to=int(found[1]))
    return bus.step(read_event(line.decode()))


def rows():
    turns = collections.Counter()
    for seed in range(SEEDS):
        draw = random.Random(1000 + seed)
        profiles = buses.profiles_of(draw)
        for number in range(BUSES):
            names, _, wanted = buses.random_run(draw, profiles, collections.Counter())
            addresses = sorted(int(it[:2]) for it in names)
            bus = TerminalBus(Terminal(profiles[it][0]) for it in sorted(names))
            transcript, often = [], draw.choice([0.01, 0.05, 0.2])
            for line in wanted.lines:
                if draw.random() < often:
                    way = draw.choice(list(WAYS))
                    bus = WAYS[way](bus, addresses)
                    turns[way] += 1
                transcript += [f"{address:02} {answer.line()}" for address, answer in played(bus, line)]
            yield f"seed {seed}, bus {number}", transcript == [it for it in wanted.transcript if not it.endswith("collision")]
    yield "each way often", all(turns[way] > 1000 for way in WAYS)


if __name__ == "__main__":
    sys.exit(tell(rows()))
