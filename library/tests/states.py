#!/usr/bin/env python3
"""Saved states: states.py FOLDER PLAYER..

Random scripts are cut after a random event. One player saves the terminal there, in a process of its own; another process, of the same
player or of another, restores it and plays the rest. The saved state is to be the text that docs/library.md gives for the state of the
model of the rules, tests/model/rules.py, and the transcript of the rest is to be the model's. Says how often each kind of state came;
each has to come. The last line is 'N passed, M failed'.
"""

import collections
import itertools
import pathlib
import random
import subprocess
import sys
import tomllib

TOP = pathlib.Path(__file__).resolve().parent.parent.parent
sys.path.insert(0, str(TOP / "tests/model"))

import canonical  # noqa: E402
import play  # noqa: E402
import random_scripts  # noqa: E402
import rules  # noqa: E402
from told import tell  # noqa: E402

SCRIPTS, EVENTS, CUTS = 80, 400, 10_000
CODES = {"not done": 1, "own receive": 2, "own transmit": 3, "broadcast receive": 4, "own mode": 5, "broadcast mode": 6}
KINDS = [
    "no message", "words collected", "a command to transmit taken", "spoilt", "waiting", "resumed", "resumed, a command taken",
    "resumed, spoilt", "no reply", "a reset pending", "the reply of a message that was not done", "a broadcast", "message error",
    "transmitter A shut down", "transmitter B shut down", "terminal flag inhibited", *rules.FLAGS, "words written", "words wrapped around",
    *(f"reply, word {number}" for number in range(33)),
]  # fmt: skip


class Terminal(rules.Terminal):
    """The model, which keeps to which message a reply belongs."""

    answered, words, received = [], 0, []

    def begin_reply(self, bus, command, words, resets=False):
        kind, *place = rules.cell_of(command) if self.is_done(command) else ("not done",)
        self.answered, self.words = [CODES[kind], "AB".index(bus), *place, 0, 0][:4], len(words)
        super().begin_reply(bus, command, words, resets)

    def is_done(self, command):
        """Whether a message that ended well is neither illegal nor kept from being done by the busy flag."""
        return self.is_legal(command) and not (self.flags["busy"] and (not rules.is_mode(command) or command & 31 in (16, 17)))


class Messages(random_scripts.Messages):
    """Messages, long replies with a slot for each word, and transfers with a command behind the status that is awaited."""

    def message(self):
        bus, turn, place = "AB"[self.draw(2)], self.draw(8), 32 * self.subaddresses[self.draw(2)]
        transmits = random_scripts.OTHER + random_scripts.TRANSMIT + 65
        if turn == 0:
            self.command(bus, self.own + random_scripts.TRANSMIT + place + self.draw(32))
            self.take(("gap", bus))
            for _ in range(self.draw(50)):
                self.take(("slot",))
        elif turn == 1:
            self.command(bus, self.own + place + 1)
            self.command(bus, transmits)
            self.feed(("gap", bus))
            self.status_of_other(bus)
            self.command(bus, transmits)
            self.gap(bus)
        else:
            super().message()


# --- what a saved state is


def collected(terminal, followed):
    """What was collected: 0 for data words, 1 for a command to another terminal to transmit, 2 for anything else; then the address
    of that terminal, and the words."""
    words = [word[1] for word in followed if rules.is_valid(word) and word[0] == "d"]
    if len(words) == len(followed) <= 32:
        return 0, 0, words
    if len(followed) == 1 and rules.is_valid(followed[0]):
        address = followed[0][1] >> 11
        if rules.is_transmit(followed[0][1]) and address not in (terminal.setup.address, 31):
            return 1, address, []
    return 2, 0, []


def message_line(terminal):
    """The five words of the line `message`, and the words that were collected."""
    message = terminal.message
    if message is None:
        return [0] * 5, []
    front = "AB".index(message.bus), message.command
    if message.phase == "waiting":
        return [4, *front, message.awaited, 0], []
    kind, address, words = collected(terminal, message.followed)
    return [kind + (1 if message.phase == "collecting" else 5), *front, address, len(words)], words


def reply_line(terminal):
    if terminal.reply is None:
        return [0] * 5
    return [*terminal.answered, 1 + terminal.words - len(terminal.reply.words)]


def state_of(terminal):
    """The lines of a saved state before the canonical text: a name, a number and words."""
    heard = [any(terminal.is_for_it(word) for word in terminal.run[bus]) for bus in "AB"]
    off = [bus in terminal.shut_down for bus in "AB"]
    status = [bool(terminal.kept & mask) for mask in (0x400, 0x100, 0x10, 0x8, 0x4, 0x2, 0x1)]
    message, words = message_line(terminal)
    yield "bits", 1, [*heard, *terminal.flags.values(), terminal.inhibited, *off, *status]
    yield "registers", 1, [terminal.vector, terminal.bit, terminal.last]
    yield "reply", 1, reply_line(terminal)
    yield "message", 1, message
    yield "words", 1, words
    for subaddress in range(1, 31):
        yield "held", subaddress, [terminal.held.get((subaddress, number), 0) for number in range(1, 33)]


def text_of(terminal, canonical_text):
    lines = [f"{name} {number:02}{''.join(f' {word:04x}' for word in words)}\n" for name, number, words in state_of(terminal)]
    return "".join(["rt1553-state 1\n", *lines, canonical_text])


def kinds_of(terminal):
    """The kinds of states to which the state of a terminal belongs."""
    message, reply = message_line(terminal)[0], reply_line(terminal)
    yield KINDS[message[0]]
    yield f"reply, word {reply[4]}" if reply[0] else "no reply"
    changed = {place for place, word in terminal.held.items() if word != terminal.setup.initial.get(place, 0)}
    facts = {
        "a reset pending": terminal.reply and terminal.reply.resets,
        "the reply of a message that was not done": reply[0] == 1,
        "a broadcast": terminal.kept & 0x10,
        "message error": terminal.kept & 0x400,
        **{f"transmitter {bus} shut down": bus in terminal.shut_down for bus in "AB"},
        "terminal flag inhibited": terminal.inhibited,
        **terminal.flags,
        "words written": any(subaddress != terminal.setup.wraparound for subaddress, _ in changed),
        "words wrapped around": any(terminal.held.get(place) == word for place, word in terminal.received if place in changed),
    }
    yield from (kind for kind, holds in facts.items() if holds)


# --- scripts and their cuts


def profile_of(number):
    """A profile as those of tests/vectors, mostly with all word counts."""
    return random_scripts.PROFILE.format(
        address=number % 31, broadcast=random_scripts.truth(number % 4 > 0), wraparound=("true", "29", "true", "false")[number % 4],
        subaddresses=("1-30", "29", "30")[number % 3], counts=("1-32", "1-32", "1-2")[number % 5 % 3],
        codes=("0-31", "0-31", "0-8", "16-19", "6-18")[number % 7 % 5])  # fmt: skip


class Script:
    """A random script and what the model answers each event. After some events it is cut, more often where a message or a reply is in
    progress: the text of the state there, and its kinds."""

    def __init__(self, number):
        self.profile, self.lines, self.answers, self.states, self.kinds = profile_of(number), [], [], {}, {}
        self.chosen = random.Random(number)
        read = tomllib.loads(self.profile)
        reached = canonical.reached_of(read)
        setup = play.setup_of(read)
        setup.wraparound, setup.accept, setup.vector, setup.bit = reached.wrap, reached.accept, reached.vector, reached.bit
        setup.initial = {(place, at): word for place, words in enumerate(reached.words, 1) for at, word in enumerate(words, 1)}
        messages = Messages(setup, (29, 30), number, self.note)
        messages.terminal = self.terminal = Terminal(setup)
        self.canonical_text = canonical.text_of(reached)
        while len(self.lines) < EVENTS:
            messages.message()

    def note(self, event, answer):
        self.lines.append(random_scripts.line_of(event) + "\n")
        self.answers.append(play.answer_line(answer) + "\n" if answer else "")
        if answer and answer[0] == "received" and answer[2] == self.terminal.setup.wraparound:
            self.terminal.received = [((answer[2], at), word) for at, word in enumerate(answer[3], 1)]
        if self.chosen.random() < (0.6 if self.terminal.message or self.terminal.reply else 0.15):
            self.states[len(self.lines)] = text_of(self.terminal, self.canonical_text)
            self.kinds[len(self.lines)] = list(kinds_of(self.terminal))


def scripts_in(folder):
    """The scripts, by their names; their files are written into the folder."""
    scripts = {}
    for number in range(SCRIPTS):
        scripts[f"{number:03}"] = script = Script(number)
        (folder / f"{number:03}.toml").write_text(script.profile)
        (folder / f"{number:03}.script").write_text("".join(script.lines))
    return scripts


def run(folder, player, word, cuts):
    """What a player prints of these cuts; nothing where it fails."""
    (folder / "cuts").write_text("".join(f"{name} {lines}\n" for name, lines in cuts))
    done = subprocess.run([player, word, "cuts"], cwd=folder, stdin=subprocess.DEVNULL, capture_output=True, text=True, timeout=300, check=False)
    if done.returncode:
        print(f"FAILED: {player} {word}: {done.returncode}, {done.stderr[-300:]}")
    return done.stdout


def transcripts_in(printed):
    """What stands behind each line that names a cut."""
    transcripts, at = {}, None
    for line in printed.splitlines(keepends=True):
        if line[0].isdigit():
            name, lines = line.split()
            at = name, int(lines)
            transcripts[at] = ""
        else:
            transcripts[at] += line
    return transcripts


def rows(folder, players):
    scripts = scripts_in(folder)
    cuts = [(name, lines) for name, script in scripts.items() for lines in script.states]
    yield f"{len(cuts)} cuts", len(cuts) >= CUTS
    # each pair of players gets as many
    pairs = dict(zip(cuts, itertools.cycle(itertools.product(players, players))))
    for player in players:
        run(folder, player, "save", [cut for cut in cuts if pairs[cut][0] == player])
    found = {}
    for player in players:
        found |= transcripts_in(run(folder, player, "resume", [cut for cut in cuts if pairs[cut][1] == player]))
    for name, lines in cuts:
        saved, script = folder / f"{name}-{lines}.state", scripts[name]
        yield f"{saved}, by {pairs[name, lines][0]}", saved.exists() and saved.read_text() == script.states[lines]
        yield f"{saved}, resumed by {pairs[name, lines][1]}", found.get((name, lines)) == "".join(script.answers[lines:])
    came = collections.Counter(itertools.chain.from_iterable(kinds for script in scripts.values() for kinds in script.kinds.values()))
    for kind in KINDS:
        print(f"{came[kind]:6} {kind}")
        yield kind, came[kind] > 0


def main(folder, *players):
    return tell(rows(pathlib.Path(folder), players))


if __name__ == "__main__":
    sys.exit(main(*sys.argv[1:]) if len(sys.argv) > 2 else __doc__)
