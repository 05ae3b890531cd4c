#!/usr/bin/env python3
"""Rows with worked answers: a terminal, what happens from power-up, and what answers each event.

    rows.py FOLDER    writes each row as FOLDER/NAME.script, and its profile in FOLDER/profiles

In the files *.txt beside this one a row begins with a line `== NAME`. Its profile follows, a line `--`, and then its
script, which states its answers (docs/script.md): an event behind which nothing is stated is answered by nothing. The
rows that are alike for each mode code or each phase of a message are made here, from what the standard says of each.
"""

import itertools
import pathlib
import sys
from typing import NamedTuple, Optional

ROWS = pathlib.Path(__file__).resolve().parent
sys.path.insert(0, str(ROWS.parent / "validation"))

from script import answer  # noqa: E402


class Row(NamedTuple):
    name: str
    profile: str
    script: str

    def transcript(self):
        """The answers that the script states, in their order."""
        text = ""
        for line in self.script.splitlines():
            if line.startswith("#> "):
                text += f"\n{line[3:]}"
            elif line.startswith("#+ "):
                text += f" {line[3:]}"
        return text[1:] + "\n" if text else ""


def rows_of(file):
    """The rows of a file."""
    for block in ("\n" + file.read_text(encoding="ascii")).split("\n== ")[1:]:
        head, script = block.split("\n--\n")
        name, profile = head.split("\n", 1)
        yield Row(f"{file.stem}: {name}", profile + "\n", f"{script.strip()}\n" if script else "")


# Rows that are alike

EQUIPMENT = "address = 5\nbroadcast = true\naccept_bus_control = true\nvector = 0x00aa\nbit = 0x00bb\n"
# all that can be legal, and nothing but the mode codes 2, 4, 5 and 8 to the own address
EVERYTHING = f"""{EQUIPMENT}rule = [{{to = "both", direction = "both", subaddresses = "1-30"}}]
mode = [{{to = "both", codes = "0-31"}}]
"""
NOTHING = EQUIPMENT
REQUIRED = (2, 4, 5, 8)
BUSES = (("A", "B"), ("B", "A"))


class Code(NamedTuple):
    """What a mode code does where it is legal: its T/R, the data word that comes with it, whether it may be legal by
    broadcast, the status and the words of its reply, those while the terminal is busy, and what it hands over."""

    code: int
    transmit: bool = True
    word: Optional[int] = None
    broadcast: bool = True
    status: int = 0x2800
    words: tuple = ()
    busy_status: int = 0x2808
    busy_words: tuple = ()
    hand: str = ""

    def message(self, address, busy):
        """The terminal is made busy or not, and hears the code."""
        lines = [f"flag busy {int(busy)}", f"A c {address + 0x400 * self.transmit + self.code:04x}"]
        return lines if self.word is None else [*lines, f"A d {self.word:04x}"]

    def handed(self, busy):
        """What it hands over."""
        return "" if busy and self.code == 17 else self.hand


CODES = (
    Code(0, broadcast=False, status=0x2802, busy_status=0x280A, hand="hand bus-control"),
    Code(1, hand="hand sync"),
    Code(2, broadcast=False, busy_status=0x2800),
    Code(3, hand="hand self-test"),
    Code(4),
    Code(5),
    Code(6),
    Code(7),
    Code(8),
    Code(16, broadcast=False, words=(0x00AA,)),
    Code(17, transmit=False, word=0x1234, hand="hand sync 1234"),
    Code(18, broadcast=False, words=(0x0000,), busy_status=0x2800, busy_words=(0x0000,)),
    Code(19, broadcast=False, words=(0x00BB,), busy_words=(0x00BB,)),
)


def replies(bus, status=None, words=()):
    """The slots of a reply, if there is one, and one more."""
    sent = [] if status is None else [f"{bus} s {status:04x}", *(f"{bus} d {word:04x}" for word in words)]
    return [line for it in sent for line in ("slot", *answer(it))] + ["slot"]


def gap(bus, status=None, words=(), hand=""):
    """A gap, what is handed over there, and what is replied."""
    return [f"{bus} gap", *(answer(hand) if hand else ()), *replies(bus, status, words)]


def asked(status):
    """The status that is kept, which is asked for on bus A."""
    return ["A c 2c02", *gap("A", status)]


def row(name, profile, *lines):
    return Row(name, profile, "\n".join([*lines, ""]))


def own_codes():
    """Each mode code to the own address, legal and illegal, while the terminal is busy and while it is not. No profile
    makes codes 2, 4, 5 and 8 illegal."""
    for code in CODES:
        for busy, when in ((False, ""), (True, " while busy")):
            status, words = (code.busy_status, code.busy_words) if busy else (code.status, code.words)
            message = code.message(0x2800, busy)
            yield row(f"code {code.code}{when}", EVERYTHING, *message, *gap("A", status, words, code.handed(busy)))
            if code.code not in REQUIRED:
                illegal = gap("A", 0x2C08 if busy else 0x2C00)
                yield row(f"code {code.code} where it is illegal{when}", NOTHING, *message, *illegal)


def kept_after(code, busy):
    """The status that is kept after a code by broadcast. Where the code can't be legal so, it has message error; after
    a reset it is that of power-up."""
    if code.broadcast and code.code == 8:
        return 0x2800
    return (0x2810 if code.broadcast else 0x2C10) + 8 * busy


def broadcast_codes():
    """The same by broadcast."""
    for code in CODES:
        for busy, when in ((False, ""), (True, " while busy")):
            message = code.message(0xF800, busy)
            hand = code.handed(busy) if code.broadcast else ""
            heard = [*gap("A", hand=hand), *asked(kept_after(code, busy))]
            yield row(f"code {code.code} by broadcast{when}, and its status", EVERYTHING, *message, *heard)
            illegal = [*gap("A"), *asked(0x2C18 if busy else 0x2C10)]
            yield row(f"illegal code {code.code} by broadcast{when}", NOTHING, *message, *illegal)


def codes_without_a_cell():
    """Each code with the T/R, bit 10, that the table doesn't give, to the own address and by broadcast. A data word
    follows codes of 16 or more that receive."""
    listed = {(it.code, it.transmit) for it in CODES}
    for code, transmit in itertools.product(range(32), (True, False)):
        if (code, transmit) in listed:
            continue
        name = f"code {code} with bit 10 {'set' if transmit else 'clear'}"
        words = [] if transmit or code < 16 else ["A d 1234"]
        low = 0x400 * transmit + code
        yield row(name, EVERYTHING, f"A c {0x2800 + low:04x}", *words, *gap("A", 0x2C00))
        heard = [f"A c {0xF800 + low:04x}", *words, *gap("A"), *asked(0x2C10)]
        yield row(f"{name} by broadcast, and its status", EVERYTHING, *heard)


# what comes on a bus, and the phase of a message or of a reply that it leads to
PHASES = (
    ("before a reply", ("c 2c61", "gap")),
    ("in a reply", ("c 2c61", "gap", "slot")),
    ("after a command", ("c 2862",)),
    ("after a data word", ("c 2862", "d 1111")),
    ("after both commands of a transfer", ("c 2862", "c 3c82")),
    ("after noise", ("c 2862", "noise")),
    ("while a status is awaited", ("c 2862", "c 3c82", "gap")),
    ("after the awaited status", ("c 2862", "c 3c82", "gap", "c 3800")),
)


def superseding_commands():
    """A command on the other bus in each phase is answered alone."""
    for phase, words in PHASES:
        for first, second in BUSES:
            before = []
            for word in words:
                before += ["slot", *answer(f"{first} s 2800")] if word == "slot" else [f"{first} {word}"]
            after = [f"{second} c 2c02", *gap(first), *gap(second, 0x2800)]
            yield row(f"superseded on bus {first} {phase}", EVERYTHING, *before, *after)


def words_after_a_command():
    """32 words after a command for 32 are handed over, 33 are a message in error."""
    handed = "hand receive own 03" + "".join(f" {k:04x}" for k in range(32))
    for count, status, hand, kept in ((32, 0x2800, handed, 0x2800), (33, None, "", 0x2C00)):
        words = [f"A d {k:04x}" for k in range(count)]
        yield row(f"{count} words", EVERYTHING, "A c 2860", *words, *gap("A", status, hand=hand), *asked(kept))


def rows():
    """All rows."""
    for file in sorted(ROWS.glob("*.txt")):
        yield from rows_of(file)
    for family in (own_codes, broadcast_codes, codes_without_a_cell, superseding_commands, words_after_a_command):
        yield from family()


def write(folder):
    (folder / "profiles").mkdir(parents=True, exist_ok=True)
    for number, it in enumerate(rows()):
        (folder / "profiles" / f"row_{number:03}.toml").write_text(it.profile, encoding="ascii")
        with open(folder / f"{it.name}.script", "x", encoding="ascii") as file:
            file.write(f"# Profile: row_{number:03}.toml\n{it.script}")


if __name__ == "__main__":
    write(pathlib.Path(sys.argv[1]))
