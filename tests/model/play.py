"""Plays scripts (docs/script.md) to the model of the rules in `rules.py`.

    play.py run PROFILE.toml SCRIPT        its transcript, its fault and its status
    play.py slots PROFILE.toml SCRIPT [N]  the script with as many slots after each gap as its reply has words, and N more

The transcripts of examples/scripts and of tests/vectors/scripts.txt were written by `run`. It takes profiles without faults.
"""

import functools
import re
import sys
import tomllib

import canonical
import rules

MOST_LINES, LONGEST_LINE = 1_048_576, 64
MASKS = {
    "own mode": lambda profile: canonical.code_mask(profile, "own"),
    "broadcast mode": lambda profile: canonical.code_mask(profile, "broadcast"),
}
WAYS = {
    "own receive": ("own", "receive"),
    "own transmit": ("own", "transmit"),
    "broadcast receive": ("broadcast", "receive"),
}


class Fault(Exception):
    """What stops a script: the text that the program tells."""


def setup_of(profile):
    """What a terminal of a profile without faults is at power-up."""
    masks = {name: mask_of(profile) for name, mask_of in MASKS.items()}

    @functools.cache
    def legal(cell):
        if cell[0] in masks:
            return bool(masks[cell[0]] >> cell[1] & 1)
        return canonical.is_legal(profile, *WAYS[cell[0]], *cell[1:])

    return rules.Setup(
        address=profile["address"],
        legal=legal,
        broadcast=profile.get("broadcast", False),
        wraparound=canonical.chosen_subaddress(profile),
        accept=profile.get("accept_bus_control", False),
        vector=profile.get("vector", 0),
        bit=profile.get("bit", 0),
        initial=canonical.initial_words(profile),
    )


def read_event(line):
    """The event of a line, None for an empty line and a comment."""
    if line == b"" or line.startswith(b"#"):
        return None
    if line == b"slot":
        return ("slot",)
    if found := re.fullmatch(rb"([AB]) ([cd]) ([0-9a-fA-F]{4})(?: ([01]))?", line):
        bus, kind, bits, parity = (part and part.decode() for part in found.groups())
        word = rules.valid_word(kind, int(bits, 16))
        return ("word", bus, word if parity is None else (*word[:2], int(parity)))
    if found := re.fullmatch(rb"([AB]) (noise|gap)", line):
        return (found[2].decode(), found[1].decode())
    if found := re.fullmatch(rb"write (0[1-9]|[12][0-9]|30) (0[1-9]|[12][0-9]|3[0-2]) ([0-9a-fA-F]{4})", line):
        return ("write", int(found[1]), int(found[2]), int(found[3], 16))
    if found := re.fullmatch(rb"(vector|bit) ([0-9a-fA-F]{4})", line):
        return (found[1].decode(), int(found[2], 16))
    if found := re.fullmatch(rb"flag (service|busy|subsystem|terminal) ([01])", line):
        return ("flag", found[1].decode(), int(found[2]))
    raise Fault("line {}")


def answer_line(answer):
    """The line of an answer."""
    name, *rest = answer
    if name in ("status", "data"):
        return f"{rest[0]} {name[0]} {rest[1]:04x}"
    if name == "received":
        to = "broadcast" if rest[0] else "own"
        return f"hand receive {to} {rest[1]:02}" + "".join(f" {word:04x}" for word in rest[2])
    if name == "synchronize with":
        return f"hand sync {rest[0]:04x}"
    return {"synchronize": "hand sync", "self test": "hand self-test", "bus control": "hand bus-control"}[name]


def lines_of(script):
    lines = script.split(b"\n")
    return lines if lines[-1] else lines[:-1]


def events_of(script):
    """The lines of a script with their events, up to the first fault, which is raised."""
    for number, line in enumerate(lines_of(script), 1):
        if number > MOST_LINES:
            raise Fault("too many lines")
        if len(line) > LONGEST_LINE:
            raise Fault(f"line {number} is too long")
        try:
            yield line, read_event(line)
        except Fault as fault:
            raise Fault(str(fault).format(number)) from None


def transcript(terminal, events):
    """The lines of the transcript."""
    answers = (terminal.step(event) for event in events if event)
    return [answer_line(answer) for answer in answers if answer]


def with_slots(terminal, script, more=0):
    """A script with slots: after each gap as many as its reply has words, and some more. What follows a fault stays as
    it is."""
    taken, lines = 0, []
    try:
        for line, event in events_of(script):
            taken += 1
            lines.append(line)
            if event:
                terminal.step(event)
            while terminal.reply:
                lines.append(b"slot")
                terminal.step(("slot",))
            if event and event[0] == "gap":
                lines += [b"slot"] * more
    except Fault:
        lines += lines_of(script)[taken:]
    return b"\n".join(lines) + (b"\n" if script.endswith(b"\n") else b"")


def run(terminal, script):
    status = 0
    try:
        for _, event in events_of(script):
            for line in transcript(terminal, [event]):
                print(line)
    except Fault as fault:
        print(f"script: {fault}", file=sys.stderr)
        status = 2
    return status


def main():
    job, profile, script, *more = sys.argv[1:]
    with open(profile, "rb") as file:
        terminal = rules.Terminal(setup_of(tomllib.load(file)))
    with open(script, "rb") as file:
        text = file.read()
    if job == "run":
        sys.exit(run(terminal, text))
    sys.stdout.buffer.write(with_slots(terminal, text, *map(int, more)))


if __name__ == "__main__":
    main()
