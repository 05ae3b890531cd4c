#!/usr/bin/env python3
"""A day of traffic: from a monitor's table to a verdict for each of five terminals, with times and memory.

    python3 bench/day.py TOOL [WORDS]    a build of rt1553-tool; 10,000,000 words

The model of the rules (tests/model) plays messages to the terminals of examples/profiles, whose subsystems do something now and then.
A table has each word, with its time, bus and sync. Two units have a fault late in the day: one sets a reserved bit of its status, one
leaves out the last word of a reply, which is its status word in a day of 10,000,000 words. For each terminal the table becomes a recording, which is judged. Nothing here is a test.
"""
import os
import pathlib
import random
import subprocess
import sys
import tempfile
import time
import tomllib

TOP = pathlib.Path(__file__).resolve().parent.parent
sys.path.insert(0, str(TOP / "tests/model"))
import play  # noqa: E402
import rules  # noqa: E402

WORD, GAP = 20.0, 6.0
TRANSMIT, ALL = 1 << 10, 31 << 11
MODES = [TRANSMIT | code for code in (2, 4, 5, 16, 18, 19)]


class Unit:
    """A terminal with its profile, and the number of the reply that has a fault, if one has."""

    def __init__(self, name, fault_at, fault):
        self.path = TOP / f"examples/profiles/{name}.toml"
        setup = play.setup_of(tomllib.loads(self.path.read_text(encoding="utf-8")))
        self.terminal, self.address, self.fault_at, self.fault, self.replies = rules.Terminal(setup), setup.address, fault_at, fault, 0

    def reply(self, bus):
        """What it sends after a gap on a bus."""
        self.terminal.step(("gap", bus))
        words = []
        while answer := self.terminal.step(("slot",)):
            words.append((answer[0][0], answer[2]))
        self.replies += bool(words)
        if words and self.replies == self.fault_at:
            return self.fault(words)
        return words


def reserved_bit(words):
    return [(words[0][0], words[0][1] | 0x20), *words[1:]]


def word_too_few(words):
    return words[:-1]


class Day:
    """The table that a monitor writes."""

    def __init__(self, file, units, draw):
        self.file, self.units, self.draw, self.time, self.words = file, units, draw, 0.0, 0
        file.write("time,bus,sync,word\n")

    def put(self, bus, sync, bits):
        self.file.write(f"{self.time:.3f},{bus},{sync},{bits:04x}\n")
        self.time += WORD
        self.words += 1

    def subsystem(self, unit):
        draw = self.draw
        turn = draw.randrange(3)
        if turn == 0:
            unit.terminal.step(("flag", draw.choice(("service", "busy", "subsystem", "terminal")), draw.randrange(4) // 3))
        elif turn == 1:
            unit.terminal.step(("vector", draw.getrandbits(16)))
        else:
            unit.terminal.step(("write", draw.randrange(1, 31), draw.randrange(1, 33), draw.getrandbits(16)))

    def message(self):
        draw = self.draw
        unit, bus = draw.choice(self.units), "A" if draw.randrange(8) else "B"
        if draw.randrange(3) == 0:
            self.subsystem(unit)
        count, turn = draw.randrange(1, 17), draw.randrange(20)
        to = ALL if turn == 0 else unit.address << 11
        command = to | (draw.choice(MODES) if turn == 1 else draw.randrange(1, 31) << 5 | count | (0 if turn < 10 else TRANSMIT))
        heard = self.units if to == ALL else [unit]
        data = [draw.getrandbits(16) for _ in range(count)] if not command & TRANSMIT else []
        for sync, kind, bits in [("c", "c", command), *(("d", "d", bits) for bits in data)]:
            self.put(bus, sync, bits)
            for it in heard:
                it.terminal.step(("word", bus, rules.valid_word(kind, bits)))
        self.time += GAP
        for it in heard:
            for sync, bits in it.reply(bus):
                self.put(bus, sync, bits)
        self.time += GAP


def measured(words, **how):
    """Runs a command: its status, seconds of processor time and most memory in MB."""
    began = time.time()
    process = subprocess.Popen(words, **how)
    _, status, used = os.wait4(process.pid, 0)
    process.returncode = os.waitstatus_to_exitcode(status)
    return process.returncode, time.time() - began, used.ru_maxrss / 1024


def main():
    if len(sys.argv) not in (2, 3):
        sys.exit(__doc__)
    tool, words = str(pathlib.Path(sys.argv[1]).resolve()), int((sys.argv[2:] or ["10000000"])[0])
    each = words // 60
    units = [
        Unit("smallest", 0, None),
        Unit("sensor", each, reserved_bit),
        Unit("display", 0, None),
        Unit("store_station", each, word_too_few),
        Unit("broadcast_listener", 0, None),
    ]
    with tempfile.TemporaryDirectory() as room:
        table, script = f"{room}/day.csv", f"{room}/day.script"
        with open(table, "w", encoding="ascii") as file:
            day = Day(file, units, random.Random(1553))
            while day.words < words:
                day.message()
        print(f"{day.words} words, {os.path.getsize(table) / 1e6:.0f} MB of CSV, {day.time / 1e6:.0f} s of bus time")
        for unit in units:
            with open(script, "wb") as file:
                _, made, most = measured([tool, "recording", table, "--address", str(unit.address)], stdout=file)
            lines, size = subprocess.check_output(["wc", "-lc", script], text=True).split()[:2]
            with open(f"{room}/said", "w+", encoding="utf-8") as said:
                status, judged, memory = measured([tool, "verify", "--any-subsystem", str(unit.path), script], stdout=said)
                said.seek(0)
                verdict = said.readline().strip().replace(room, "") or "explained"
            print(f"terminal {unit.address}: table to script {made:.1f} s, {most:.0f} MB; {lines} lines, {int(size) / 1e6:.0f} MB; "
                  f"verdict {judged:.1f} s, {memory:.0f} MB: status {status}, {verdict}")


if __name__ == "__main__":
    main()
