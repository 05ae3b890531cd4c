#!/usr/bin/env python3
"""Writes further cases for vectors.py, as the table cases.txt in a folder: cases.py FOLDER

Random messages to the terminals of the example profiles, and what each of the 31 terminals of examples/library/bus31.py meets.
The transcripts are those of the model of the rules, tests/model/rules.py. Says where the package or the kept transcript
of the bus differs from the model; the last line is 'N passed, M failed'.
"""

import contextlib
import importlib.util
import io
import pathlib
import sys
import tomllib

TOP = pathlib.Path(__file__).resolve().parent.parent.parent
sys.path[:0] = [str(TOP / it) for it in ("tests/model", "tests")]

import play  # noqa: E402
import random_scripts  # noqa: E402
import rt1553  # noqa: E402
import rules  # noqa: E402
import vector_tables  # noqa: E402
from told import tell  # noqa: E402

EVENTS = 4000


def random_case(name, profile, seed):
    """Random messages to the terminal of a profile, as one list of events to the package. Also whether it answers as the model."""
    lines, transcript = [], []

    def note(event, answer):
        lines.append(random_scripts.line_of(event))
        if answer:
            transcript.append(play.answer_line(answer))

    messages = random_scripts.Messages(play.setup_of(tomllib.loads(profile)), (1 + seed % 4, 30), seed, note)
    while len(lines) < EVENTS:
        messages.message()
    is_right = [answer.line() for _, answer in rt1553.Terminal(profile).play(lines)] == transcript
    return random_scripts.run_case(name, profile, lines, transcript), is_right


class Recorded(rt1553.Terminal):
    """A terminal that notes its events and its answers."""

    made = []

    def __init__(self, text):
        super().__init__(text)
        self.text, self.lines, self.transcript = text, [], []
        self.made.append(self)

    def step(self, event):
        answer = super().step(event)
        self.lines.append(event.line())
        if answer:
            self.transcript.append(answer.line())
        return answer


def printed_by_bus():
    """What examples/library/bus31.py prints, over terminals that are recorded."""
    source = importlib.util.spec_from_file_location("bus31", TOP / "examples/library/bus31.py")
    bus, rt1553.Terminal = importlib.util.module_from_spec(source), Recorded
    source.loader.exec_module(bus)
    with contextlib.redirect_stdout(io.StringIO()) as printed:
        bus.main()
    return printed.getvalue()


def bus_case(number, terminal):
    """What a terminal of the bus met. Also whether it answered as the model."""
    model = rules.Terminal(play.setup_of(tomllib.loads(terminal.text)))
    transcript = play.transcript(model, map(play.read_event, (line.encode() for line in terminal.lines)))
    return random_scripts.run_case(f"bus31-{number:02d}", terminal.text, terminal.lines, transcript), terminal.transcript == transcript


def main(folder):
    cases = [random_case(f"random-{path.stem}-{seed}", path.read_text(), seed)
             for path in sorted((TOP / "examples/profiles").glob("*.toml")) for seed in range(4)]  # fmt: skip
    is_printed = printed_by_bus() == (TOP / "examples/library/bus31.transcript").read_text()
    cases += [bus_case(*it) for it in enumerate(Recorded.made)]
    vector_tables.write(pathlib.Path(folder, "cases.txt"), [vector_tables.block_of(case) for case, _ in cases])
    return tell([*((case.name, is_right) for case, is_right in cases), ("bus31, what is printed", is_printed)])


if __name__ == "__main__":
    sys.exit(main(*sys.argv[1:]) if len(sys.argv) == 2 else __doc__)
