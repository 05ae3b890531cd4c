"""The canonical text by the rules of docs/canonical-text.md and docs/profile.md, apart from the program.

    canonical.py write FILE          the canonical text, version 2, of a profile without faults or of a canonical text
    canonical.py first FILE          the text of version 1 that means the same, where there is one
    canonical.py check FILE          `ok`, or the fault of a canonical text of either version
    canonical.py compare P Q         `same`, or the script for two that differ in their wraparound subaddress alone
    canonical.py changes FILE [STEP] how many texts that differ from the canonical text in one byte (in each one, or in
                                     each STEPth) are canonical texts of either version

The files of examples/canonical were written by it, and so were the answers of tests/vectors/wraparound.txt (wraparound.py)
and the canonical texts of tests/vectors/profiles.txt. The numbers that crates/changes has to print come from it.
"""

import re
import sys
import tomllib
from dataclasses import dataclass, replace

OWN_CODES, BROADCAST_CODES, REQUIRED_CODES = 0x000F01FF, 0x000201FA, 0x00000134

# the only wraparound subaddress of version 1, and what `wraparound = true` means
SWITCHED = 30


@dataclass(frozen=True)
class Reached:
    """What can be reached of a terminal. Masks by subaddress from 1; words by subaddress, those that can be sent."""

    address: int
    broadcast: bool
    receive: tuple
    transmit: tuple
    heard: tuple
    own_codes: int
    heard_codes: int
    accept: bool
    vector: int
    bit: int
    wrap: int
    words: tuple

    def can_wrap(self, s):
        """Whether words can be received at this subaddress and transmitted from it."""
        return bool((self.receive[s - 1] or self.heard[s - 1]) and self.transmit[s - 1])

    def wrapping(self):
        return [s for s in range(1, 31) if self.can_wrap(s)]


class Fault(Exception):
    """What is wrong with a canonical text."""


# ---- a profile without faults


def numbers(ranges):
    """The set that a whole number, or a text of ranges, names."""
    if isinstance(ranges, int):
        return {ranges}
    named = set()
    for item in ranges.replace(" ", "").split(","):
        low, _, high = item.partition("-")
        named |= set(range(int(low), int(high or low) + 1))
    return named


def says_last(entries, default):
    """What the last of some entries says."""
    return entries[-1].get("legal", True) if entries else default


def is_legal(profile, to, direction, subaddress, count):
    return says_last(
        [
            rule
            for rule in profile.get("rule", [])
            if rule.get("to", "own") in (to, "both")
            and rule["direction"] in (direction, "both")
            and subaddress in numbers(rule["subaddresses"])
            and count in numbers(rule.get("counts", "1-32"))
        ],
        False,
    )


def count_masks(profile, to, direction):
    return tuple(
        sum(1 << n - 1 for n in range(1, 33) if is_legal(profile, to, direction, s, n))
        for s in range(1, 31)
    )


def code_mask(profile, to):
    possible, default = (OWN_CODES, REQUIRED_CODES) if to == "own" else (BROADCAST_CODES, 0)
    mask = 0
    for code in range(32):
        modes = [
            mode
            for mode in profile.get("mode", [])
            if mode.get("to", "own") in (to, "both") and code in numbers(mode["codes"])
        ]
        if possible >> code & 1 and says_last(modes, bool(default >> code & 1)):
            mask |= 1 << code
    return mask


def initial_words(profile):
    """The words of power-up that a profile gives, by subaddress and number."""
    words = {}
    for entry in profile.get("initial", []):
        for index, word in enumerate(entry["words"]):
            words[entry["subaddress"], entry.get("at", 1) + index] = word
    return words


def sent_words(profile, transmit):
    """The words of power-up, of each subaddress up to its largest legal transmit count."""
    words = initial_words(profile)
    return tuple(
        tuple(words.get((s, i), 0) for i in range(1, mask.bit_length() + 1))
        for s, mask in enumerate(transmit, 1)
    )


def chosen_subaddress(profile):
    """The wraparound subaddress that a profile chooses, 0 for none."""
    chosen = profile.get("wraparound", True)
    if isinstance(chosen, bool):
        return SWITCHED if chosen else 0
    return chosen


def reached_of(profile):
    broadcast = profile.get("broadcast", False)
    transmit = count_masks(profile, "own", "transmit")
    own_codes = code_mask(profile, "own")
    reached = Reached(
        address=profile["address"],
        broadcast=broadcast,
        receive=count_masks(profile, "own", "receive"),
        transmit=transmit,
        heard=count_masks(profile, "broadcast", "receive") if broadcast else (0,) * 30,
        own_codes=own_codes,
        heard_codes=code_mask(profile, "broadcast") if broadcast else 0,
        accept=bool(own_codes & 1) and profile.get("accept_bus_control", False),
        vector=profile.get("vector", 0) if own_codes >> 16 & 1 else 0,
        bit=profile.get("bit", 0) if own_codes >> 19 & 1 else 0,
        wrap=0,
        words=sent_words(profile, transmit),
    )
    wrap = chosen_subaddress(profile)
    return replace(reached, wrap=wrap) if wrap in reached.wrapping() else reached


# ---- the canonical text


def mask_lines(name, masks):
    return [f"{name} {s:02} {mask:08x}" for s, mask in enumerate(masks, 1)]


def wraparound_lines(reached, version):
    """The line of wraparound, if the text of this version has one."""
    if version == 2:
        return [f"wraparound {reached.wrap:02}"] if reached.wrapping() else []
    if reached.wrap not in (0, SWITCHED):
        raise Fault("no text of version 1")
    return [f"wraparound {reached.wrap == SWITCHED:d}"] if reached.can_wrap(SWITCHED) else []


def text_of(reached, version=2):
    lines = [f"rt1553 {version}", f"address {reached.address:02}", f"broadcast {reached.broadcast:d}"]
    lines += mask_lines("own-receive", reached.receive) + mask_lines("own-transmit", reached.transmit)
    if reached.broadcast:
        lines += mask_lines("broadcast-receive", reached.heard)
    lines.append(f"own-mode {reached.own_codes:08x}")
    if reached.broadcast:
        lines.append(f"broadcast-mode {reached.heard_codes:08x}")
    if reached.own_codes & 1:
        lines.append(f"accept {reached.accept:d}")
    if reached.own_codes >> 16 & 1:
        lines.append(f"vector {reached.vector:04x}")
    if reached.own_codes >> 19 & 1:
        lines.append(f"bit {reached.bit:04x}")
    lines += wraparound_lines(reached, version)
    for s, words in enumerate(reached.words, 1):
        if words:
            lines.append(f"initial {s:02} " + " ".join(f"{word:04x}" for word in words))
    return "\n".join(lines) + "\n"


class Lines:
    """What is left of a text, and the number of the line that was taken last."""

    def __init__(self, text):
        self.rest, self.number = text, 0

    def wrong(self):
        return Fault(f"line {self.number}")

    def take(self, pattern):
        """What the groups of the pattern hold in the next line, which has to be so."""
        self.number += 1
        line, end, self.rest = self.rest.partition(b"\n")
        found = re.fullmatch(pattern, line.decode("latin-1")) if end else None
        if not found:
            raise self.wrong()
        return found.groups()

    def mask(self, pattern):
        return int(self.take(pattern + " ([0-9a-f]{8})")[0], 16)

    def masks(self, name):
        return tuple(self.mask(f"{name} {s:02}") for s in range(1, 31))

    def codes(self, name, possible, required):
        codes = self.mask(name)
        if codes & ~possible or codes & required != required:
            raise self.wrong()
        return codes

    def word(self, name):
        return int(self.take(f"{name} ([0-9a-f]{{4}})")[0], 16)

    def wrap(self, version, reached):
        """The wraparound subaddress, by the line that says it in this version, if one does."""
        if version == 2:
            asked = ["00"] + [f"{s:02}" for s in reached.wrapping()]
            return int(self.take(f"wraparound ({'|'.join(asked)})")[0]) if asked[1:] else 0
        if not reached.can_wrap(SWITCHED):
            return 0
        return SWITCHED if self.take("wraparound ([01])")[0] == "1" else 0


def read(text):
    """What a canonical text of either version means, line by line."""
    lines = Lines(text)
    version = int(lines.take("rt1553 ([12])")[0])
    address = int(lines.take("address ([0-2][0-9]|30)")[0])
    broadcast = lines.take("broadcast ([01])")[0] == "1"
    receive, transmit = lines.masks("own-receive"), lines.masks("own-transmit")
    heard = lines.masks("broadcast-receive") if broadcast else (0,) * 30
    own_codes = lines.codes("own-mode", OWN_CODES, REQUIRED_CODES)
    heard_codes = lines.codes("broadcast-mode", BROADCAST_CODES, 0) if broadcast else 0
    accept = bool(own_codes & 1) and lines.take("accept ([01])")[0] == "1"
    vector = lines.word("vector") if own_codes >> 16 & 1 else 0
    bit = lines.word("bit") if own_codes >> 19 & 1 else 0
    reached = Reached(
        address, broadcast, receive, transmit, heard, own_codes, heard_codes, accept, vector, bit, wrap=0, words=()
    )
    wrap = lines.wrap(version, reached)
    words = []
    for s, mask in enumerate(transmit, 1):
        form = rf"initial {s:02}((?: [0-9a-f]{{4}}){{{mask.bit_length()}}})"
        words.append(tuple(int(word, 16) for word in lines.take(form)[0].split()) if mask else ())
    if lines.rest:
        raise Fault("bytes after the end")
    return replace(reached, wrap=wrap, words=tuple(words))


def load(path):
    with open(path, "rb") as file:
        text = file.read()
    if text.startswith((b"rt1553 1\n", b"rt1553 2\n")):
        return read(text)
    return reached_of(tomllib.loads(text.decode()))


# ---- two that differ in their wraparound subaddress alone


def least_count(mask):
    return (mask & -mask).bit_length()


def command(address, transmit, subaddress, count):
    return f"A c {address << 11 | transmit << 10 | subaddress << 5 | count % 32:04x}"


def compared(p, q):
    """The lines that tell two terminals apart, made for the address of the first, or `same`."""
    if p == q:
        return ["same"]
    if replace(p, wrap=0) != replace(q, wrap=0):
        raise Fault("these differ in something else")
    s = p.wrap or q.wrap
    address, mask = (p.address, p.receive[s - 1]) if p.receive[s - 1] else (31, p.heard[s - 1])
    n, m = least_count(mask), least_count(p.transmit[s - 1])
    words = [0xFFFF - p.words[s - 1][0]] + [0] * (n - 1)
    lines = [command(address, 0, s, n)] + [f"A d {word:04x}" for word in words] + ["A gap"]
    # a slot for each word of a reply; a broadcast has none
    lines += ["slot"] * (address != 31)
    return lines + [command(p.address, 1, s, m), "A gap"] + ["slot"] * (m + 1)


# ---- changed texts


def is_canonical(text):
    try:
        read(text)
    except Fault:
        return False
    return True


def changed_texts(text, step):
    """How many texts that differ from this one in one byte, of each `step`, are canonical texts."""
    accepted = 0
    for at in range(0, len(text), step):
        for other in range(256):
            changed = text[:at] + bytes([other]) + text[at + 1 :]
            if other != text[at] and is_canonical(changed):
                accepted += 1
    return accepted


def answer(job, paths):
    if job == "check":
        load(paths[0])
        return "ok\n"
    if job == "compare":
        return "\n".join(compared(*map(load, paths))) + "\n"
    if job == "changes":
        text = text_of(load(paths[0])).encode()
        accepted = changed_texts(text, int(paths[1]) if paths[1:] else 1)
        return f"{len(text)} bytes: {accepted} changed texts are accepted\n"
    return text_of(load(paths[0]), {"write": 2, "first": 1}[job])


def main():
    _, job, *paths = sys.argv
    try:
        sys.stdout.write(answer(job, paths))
    except Fault as fault:
        sys.exit(f"canonical text: {fault}")


if __name__ == "__main__":
    main()
