"""Scripts given to a built program piece by piece, against the model of the rules in `rules.py`.

    pieces.py PROGRAM COUNT [SEED] [--jobs N] [--keep FOLDER]

Makes COUNT random scripts, number SEED first, each for a random profile, and gives them to `PROGRAM run PROFILE
/dev/stdin`, or to PROGRAM alone, through a pipe. A piece is written only when the program has taken the one before and
has written all answers to it, so each read of the program ends where a piece does: at every kind of place, as a block of
a file would. Standard output, standard error and status have to be those of the model, to the byte.

A difference is told with its number: `pieces.py PROGRAM 1 NUMBER` plays that script again, and `--keep` leaves it in a
folder, with its profile and what was wanted. The last line is `N passed, M failed`. It is no part of the gate.
"""

import argparse
import bisect
import collections
import fcntl
import functools
import multiprocessing
import os
import pathlib
import random
import struct
import sys
import tempfile
import termios
import time
import tomllib

import play
import rules

MOST_LINES, BLOCK = play.MOST_LINES, 65_536
STANDARD = "address = 5"
# how many scripts in a row have the same profile
SCRIPTS_A_PROFILE = 16
# how many scripts a worker plays before it tells how they went
SCRIPTS_A_CHUNK = 32
# how long the program may take for a piece, in seconds, and how long when it was once stuck
PATIENCE, LITTLE_PATIENCE = 20, 0.2


# ---- profiles


def ranges_of(chance, low, high):
    """A text of ranges within these bounds."""
    if chance.random() < 0.4:
        return f'"{low}-{high}"'
    parts = []
    for _ in range(chance.randint(1, 3)):
        first = chance.randint(low, high)
        last = chance.randint(first, high)
        parts.append(f"{first}-{last}" if last > first else f"{first}")
    return f'"{", ".join(parts)}"'


@functools.lru_cache(4)
def profile_of(number):
    """The text of a profile, and what its terminal is at power-up."""
    chance = random.Random(number)
    lines = [f"address = {chance.choice([0, 5, 30, chance.randint(0, 30)])}"]
    truth = lambda: chance.choice(["true", "false"])
    if chance.random() < 0.8:
        lines.append(f"broadcast = {chance.choice(['true', 'true', 'false'])}")
    if chance.random() < 0.5:
        lines.append(f"wraparound = {chance.choice(['true', 'false', str(chance.randint(1, 30))])}")
    if chance.random() < 0.5:
        lines.append(f"accept_bus_control = {truth()}")
    for word in ("vector", "bit"):
        if chance.random() < 0.7:
            lines.append(f"{word} = {chance.randrange(65536)}")
    if chance.random() < 0.7:
        lines += ["[[rule]]", 'to = "both"', 'direction = "both"', 'subaddresses = "1-30"']
    for _ in range(chance.randint(0, 3)):
        to, way = chance.choice(["own", "broadcast", "both"]), chance.choice(["receive", "transmit", "both"])
        lines += ["[[rule]]", f'to = "{to}"', f'direction = "{way}"', f"subaddresses = {ranges_of(chance, 1, 30)}"]
        lines += [f"counts = {ranges_of(chance, 1, 32)}", f"legal = {truth()}"]
    if chance.random() < 0.7:
        lines += ["[[mode]]", 'to = "both"', f"codes = {ranges_of(chance, 0, 31)}"]
    if chance.random() < 0.5:
        # none of the codes that have to be legal
        codes = ", ".join(map(str, chance.sample([0, 1, 3, 6, 7, 16, 17, 18, 19], 3)))
        lines += ["[[mode]]", f'to = "{chance.choice(["own", "both"])}"', f'codes = "{codes}"', "legal = false"]
    for _ in range(chance.randint(0, 3)):
        at = chance.randint(1, 32)
        words = [chance.randrange(65536) for _ in range(chance.randint(1, 33 - at))]
        lines += ["[[initial]]", f"subaddress = {chance.randint(1, 30)}", f"at = {at}", f"words = {words}"]
    text = "\n".join(lines) + "\n" if number % 8 else STANDARD
    return text, play.setup_of(tomllib.loads(text))


# ---- scripts

# bytes beside those that digits and names have, as wrong ones
NEAR = b"\0\t\r /:;?@GHZ[`ghz{\x7f\x80\xb0\xff"


class Script:
    """A script that looks random: messages of all kinds, and lines of all kinds in and between them."""

    def __init__(self, chance, address, length):
        self.chance, self.address, self.lines = chance, address, []
        # what a script is made of differs from script to script
        self.strange = chance.choice([0, 0, 0.05, 0.3])
        self.changed = chance.choice([0, 0, 0.05, 0.3])
        self.lost = chance.choice([0, 0, 0.02, 0.1])
        self.cased = chance.choice([str.lower, str.lower, str.upper, self.any_case])
        self.parities = chance.choice([0, 0, 0.03, 0.3])
        self.subaddresses = [chance.randint(1, 30) for _ in range(3)] + [30]
        self.counts = chance.choice([(1, 1), (1, 4), (1, 32), (32, 32)])
        kinds = [self.receive, self.transmit, self.mode_code, self.transfer, self.to_all, self.superseded, self.silent,
                 self.anything, self.notes, self.subsystem, self.status_asked]
        kinds = chance.sample(kinds, chance.choice([1, 2, 4, len(kinds)])) + [self.receive]
        while len(self.lines) < length:
            first = len(self.lines)
            chance.choice(kinds)()
            if chance.random() < self.changed and len(self.lines) > first:
                at = chance.randrange(first, len(self.lines))
                self.lines[at] = self.look_alike(self.lines[at])

    def any_case(self, digits):
        return "".join(self.chance.choice([digit.upper(), digit.lower()]) for digit in digits)

    def is_rare(self):
        return self.chance.random() < self.strange

    # lines

    def line(self, text):
        """A line, that may be lost, or have something strange before it."""
        if self.chance.random() < self.lost:
            return
        if self.is_rare():
            self.stranger()
        self.lines.append(text.encode())

    def digits(self, bits):
        return self.cased(f"{bits:04x}")

    def look_alike(self, line):
        """Another line that has as many bytes, mostly, and can stand in this one's place in a message."""
        turn, on_bus = self.chance.randrange(5), line[:1] in (b"A", b"B")
        if turn < 2 and on_bus:
            return (b"B" if line.startswith(b"A") else b"A") + line[1:]
        if turn == 2 and on_bus and len(line) == 8:
            return line[:2] + (b"d" if line[2:3] == b"c" else b"c") + line[3:]
        if turn == 3 and on_bus and len(line) == 8:
            return line + self.chance.choice([b" 0", b" 1"])
        return b"#" + line[1:]

    def word(self, bus, kind, bits):
        parity = ""
        if self.chance.random() < self.parities:
            right = 1 - bits.bit_count() % 2
            parity = f" {right if self.chance.random() < 0.8 else 1 - right}"
        self.line(f"{bus} {kind} {self.digits(bits)}{parity}")

    def random_word(self):
        return self.chance.choice([0, 0xFFFF, *[self.chance.randrange(65536)] * 6])

    def data(self, bus, count):
        for _ in range(count):
            self.word(bus, "d", self.random_word())

    def command(self, bus, address, transmit, subaddress, low):
        self.word(bus, "c", address << 11 | transmit << 10 | subaddress << 5 | low % 32)

    def gap(self, bus):
        self.line(f"{bus} gap")

    def slots(self, count):
        for _ in range(count):
            self.line("slot")

    def answered(self, bus, words=0):
        """A gap, and the slots of a reply: all, or some too few or too many."""
        self.gap(bus)
        more = self.chance.choice([0] * 8 + [1, 3, 20, -1, -2, -words // 2])
        self.slots(max(0, 1 + words + more))

    # parts

    def bus(self):
        return self.chance.choice("AAB")

    def other_address(self):
        return self.chance.choice([address for address in range(31) if address != self.address])

    def any_address(self):
        return self.chance.choice([self.address] * 6 + [31, 31, self.other_address()])

    def place(self):
        """A subaddress, and how many words."""
        return self.chance.choice(self.subaddresses), self.chance.randint(*self.counts)

    def receive(self):
        bus, (subaddress, count) = self.bus(), self.place()
        address = self.any_address()
        self.command(bus, address, 0, subaddress, count)
        self.data(bus, count + self.chance.choice([0] * 12 + [1, -1]))
        self.answered(bus)

    def transmit(self):
        bus, (subaddress, count) = self.bus(), self.place()
        self.command(bus, self.chance.choice([self.address] * 8 + [31]), 1, subaddress, count)
        self.answered(bus, count)

    def mode_code(self):
        bus = self.bus()
        code = self.chance.choice([0, 1, 2, 3, 4, 5, 6, 7, 8, 16, 17, 18, 19, self.chance.randrange(32)])
        transmit = (code != 17) ^ (self.chance.random() < 0.05)
        self.command(bus, self.any_address(), transmit, self.chance.choice([0, 31]), code)
        self.data(bus, int(code >= 16 and not transmit))
        self.answered(bus, self.chance.choice([0, code >= 16]))

    def status_asked(self):
        bus = self.bus()
        self.command(bus, self.address, 1, 0, self.chance.choice([2, 2, 2, 18]))
        self.answered(bus, 1)

    def transfer(self):
        """Between this terminal and another one, in either direction."""
        bus, (subaddress, count), other = self.bus(), self.place(), self.other_address()
        if self.chance.random() < 0.4:
            self.command(bus, other, 0, subaddress, count)
            self.command(bus, self.address, 1, subaddress, count)
            self.answered(bus, count)
            self.command(bus, other, 0, 0, 0)
            self.gap(bus)
            return
        self.command(bus, self.chance.choice([self.address, self.address, 31]), 0, subaddress, count)
        self.command(bus, other, 1, subaddress, count)
        self.gap(bus)
        if self.chance.random() < 0.9:
            self.command(bus, other, 0, 0, 0)
            self.data(bus, count)
        self.answered(bus)

    def to_all(self):
        """This terminal as the transmitter of a broadcast transfer."""
        bus, (subaddress, count) = self.bus(), self.place()
        self.command(bus, 31, 0, subaddress, count)
        self.command(bus, self.address, 1, subaddress, count)
        self.answered(bus, count)

    def superseded(self):
        """A message or a reply that a command on the other bus drops."""
        bus, (subaddress, count) = self.bus(), self.place()
        transmit = self.chance.randrange(2)
        self.command(bus, self.address, transmit, subaddress, count)
        if transmit:
            self.gap(bus)
            self.slots(self.chance.randint(0, count + 1))
        else:
            self.data(bus, self.chance.randint(0, count))
        self.command(rules.other_bus(bus), self.any_address(), 1, subaddress, count)
        if not transmit:
            self.chance.choice([self.gap, self.answered])(bus)
        self.answered(rules.other_bus(bus), count)

    def silent(self):
        self.slots(self.chance.choice([1, 2, 12, 13, 14, 40, self.chance.randint(1, 200)]))

    def anything(self):
        """A word, noise or a gap that belongs to no message."""
        turn = self.chance.randrange(4)
        if turn < 2:
            self.word(self.bus(), "cd"[turn], self.random_word())
        else:
            self.line(f"{self.bus()} {('noise', 'gap')[turn - 2]}")

    def notes(self):
        """Comments and empty lines."""
        for _ in range(self.chance.choice([1, 1, 3, 20])):
            self.lines.append(self.chance.choice([b"", self.comment(), self.comment()]))

    def comment(self):
        length = self.chance.choice([0, 1, 14, 15, 16, 17, 62, 63, self.chance.randint(0, 63)])
        return b"#" + self.chance.randbytes(length).replace(b"\n", b"\r")

    def subsystem(self):
        turn, bits = self.chance.randrange(6), self.digits(self.random_word())
        if turn == 0:
            self.line(f"vector {bits}")
        elif turn == 1:
            self.line(f"bit {bits}")
        elif turn == 2:
            self.line(f"flag {self.chance.choice(rules.FLAGS)} {int(self.chance.random() < 0.4)}")
        else:
            self.line(f"write {self.chance.choice(self.subaddresses):02} {self.chance.randint(1, 32):02} {bits}")

    def stranger(self):
        """What stands in the midst of something else."""
        kind = self.chance.randrange(10)
        bus, bits = self.bus(), self.random_word()
        if kind < 2:
            self.lines.append(self.chance.choice([b"", self.comment()]))
        elif kind == 2:
            self.lines.append(f"{bus} noise".encode())
        elif kind == 3:
            self.lines.append(f"{bus} gap".encode())
        elif kind == 4:
            self.lines += [b"slot"] * self.chance.choice([1, 1, 2, 5])
        elif kind == 5:
            self.lines.append(f"{bus} d {self.digits(bits)}".encode())
        elif kind == 6:
            self.lines.append(f"{bus} c {self.digits(bits)}".encode())
        elif kind == 7:
            self.lines.append(f"{bus} c {self.digits(self.address << 11 | bits & 0x7FF)}".encode())
        elif kind == 8:
            self.lines.append(f"{bus} d {self.digits(bits)} {bits.bit_count() % 2}".encode())
        else:
            strange, self.strange = self.strange, 0
            self.subsystem()
            self.strange = strange


def refused(chance, line):
    """A line that looks like this one and is refused, nearly always."""
    turn = chance.randrange(8)
    if turn == 0:
        return line + chance.choice([b"\r", b" ", b"\t", b"0", b"\0", b" 2", b" #"])
    if turn == 1:
        return chance.choice([b" ", b"\xef\xbb\xbf", b"\0", b"\r"]) + line
    if turn == 2:
        return line.replace(b" ", chance.choice([b"  ", b"\t", b""]), 1)
    if turn == 3:
        return line.swapcase() if chance.random() < 0.5 else line[:1].swapcase() + line[1:]
    if turn == 4:
        return b"#" * chance.choice([65, 66, 100, 1000, 70_000])
    if turn == 5:
        return chance.choice([b"write 00 01 0000", b"write 31 01 0000", b"write 01 00 0000", b"write 01 33 0000", b"slots",
                              b"C gap", b"A c 123", b"A s 2800", b"flag busy 2", b"flag on 1", b"A d 00000", b"B gap\r"])
    at = chance.randrange(len(line) + 1)
    if turn == 6:
        return line[:at]
    return line[:at] + bytes([chance.choice(NEAR)]) + line[at + 1 :]


def length_of(chance):
    """How many lines a script has, about."""
    low, high = chance.choices([(1, 20), (20, 100), (100, 600), (600, 3_000), (8_000, 20_000)],
                               [40, 40, 16, 3, 1])[0]
    return chance.randint(low, high)


def script_of(chance, address):
    """The bytes of a script."""
    lines = Script(chance, address, length_of(chance)).lines
    if chance.random() < 0.001:
        # as many lines as there may be, or some more or fewer
        more = chance.choice([0, 0, 1, -1, chance.randint(2, 70), chance.randint(0, len(lines))])
        lines = [chance.choice([b"", b"#", b"slot"])] * (MOST_LINES - len(lines) + more) + lines
    if chance.random() < 0.12:
        at = chance.randrange(len(lines))
        lines[at] = refused(chance, lines[at])
    end = b"\r\n" if chance.random() < 0.005 else b"\n"
    return end.join(lines) + (b"" if chance.random() < 0.15 else end)


# ---- what is wanted


def wanted_of(setup, script):
    """The transcript, the error and the status of a script, and how many bytes of the transcript are written when so
    many bytes of the script are there: the places where an answer stands, and what is written there."""
    terminal, transcript, places, written = rules.Terminal(setup), [], [0], [0]
    at = length = 0
    error, status = "", 0
    try:
        for line, event in play.events_of(script):
            at += len(line) + 1
            answer = terminal.step(event) if event else None
            if answer:
                transcript.append(play.answer_line(answer) + "\n")
                length += len(transcript[-1])
                places.append(at)
                written.append(length)
    except play.Fault as fault:
        error, status = f"script: {fault}\n", 2
    return "".join(transcript).encode(), error.encode(), status, places, written


# ---- pieces

SMALL = [1, 1, 2, 3, 4, 5, 6, 7, 8, 9, 10, 12, 13, 15, 16, 17, 31, 32, 33, 63, 64, 65, 127, 128, 129, 383, 384, 385]
LARGE = [1_000, 4_095, 4_096, 4_097, 32_768, BLOCK - 1, BLOCK, BLOCK + 1, 100_000]
MOST_PIECES = 1_000


def found_places(chance, script):
    """Places of one kind in a script: at line feeds, commands, gaps, slots, in words, with one byte before or behind."""
    mark = chance.choice([b"\n", b"\n", b" c ", b" d ", b" gap", b"slot\n", b"\nslot", b"#", b"\n\n", b"write", b"\nA", b"\nB"])
    by = chance.choice([-1, 0, 1, 2, 3, 4, 5, 6, 7, 8, 9])
    places, at = [], script.find(mark)
    while at >= 0 and len(places) < 20_000:
        places.append(at + by)
        at = script.find(mark, at + 1)
    return places


def cuts_of(chance, script):
    """Where a script is cut, in order, its end last."""
    end, turn = len(script), chance.randrange(8)
    if turn == 0 or not end:
        places = []
    elif turn < 3:
        # all of one size, from somewhere on
        size = chance.choice(SMALL + LARGE)
        first = chance.randrange(end) if size * MOST_PIECES < end else 0
        places = range(first, end, size)[: MOST_PIECES]
    elif turn == 3:
        largest = chance.choice([10, 100, 1_000, 2 * BLOCK])
        places, at = [], 0
        while at < end and len(places) < MOST_PIECES:
            at += chance.randint(1, largest)
            places.append(at)
    elif turn == 4:
        places = [chance.randrange(end) for _ in range(chance.choice([1, 2, 10]))]
    else:
        places = found_places(chance, script)
        many = chance.choice([1, 3, MOST_PIECES])
        if len(places) > many:
            places = chance.sample(places, many)
    # and no piece is too large to be one
    large = range(chance.choice([BLOCK, BLOCK + 1]), end, BLOCK) if end < 20 * BLOCK else []
    return sorted({place for place in (*places, *large) if 0 < place < end} | {end})


# ---- the program


class Stuck(Exception):
    """The program doesn't go on: why."""


class Output:
    """A file in memory that a program writes to."""

    def __init__(self):
        self.file = os.memfd_create("output")

    def empty(self):
        os.ftruncate(self.file, 0)
        os.lseek(self.file, 0, os.SEEK_SET)

    def length(self):
        return os.fstat(self.file).st_size

    def bytes(self):
        return os.pread(self.file, self.length(), 0)


def held_in(pipe):
    """How many bytes of a pipe have not been read."""
    return struct.unpack("i", fcntl.ioctl(pipe, termios.FIONREAD, b"\0\0\0\0"))[0]


class Run:
    """A run of the program, that is given its script through a pipe."""

    patience = PATIENCE

    def __init__(self, words, output, errors):
        for file in (output, errors):
            file.empty()
        read_end, self.pipe = os.pipe()
        self.output, self.status = output, None
        self.process = os.posix_spawnp(words[0], words, os.environ, file_actions=[
            (os.POSIX_SPAWN_DUP2, read_end, 0),
            (os.POSIX_SPAWN_DUP2, output.file, 1),
            (os.POSIX_SPAWN_DUP2, errors.file, 2)])
        os.close(read_end)

    def has_ended(self):
        if self.status is None:
            process, status = os.waitpid(self.process, os.WNOHANG)
            if process:
                self.status = os.waitstatus_to_exitcode(status)
        return self.status is not None

    def wait(self, is_done, why):
        """Waits until this is so, or the program has ended."""
        turns, until = 0, None
        while not is_done():
            turns += 1
            os.sched_yield()
            if turns % 64 == 0:
                if self.has_ended():
                    return
                until = until or time.monotonic() + self.patience
                if time.monotonic() > until:
                    Run.patience = LITTLE_PATIENCE
                    os.kill(self.process, 9)
                    raise Stuck(why)
                time.sleep(0.0001)

    def give(self, piece, written):
        """Gives a piece, and waits until it is taken and so many bytes of the transcript are written."""
        try:
            while piece:
                piece = piece[os.write(self.pipe, piece) :]
        except BrokenPipeError:
            self.wait(lambda: False, "it closed its input and goes on")
            return
        self.wait(lambda: held_in(self.pipe) == 0, "a piece is not read")
        self.wait(lambda: self.output.length() >= written, "an answer is not handed on before more is read")

    def end(self):
        os.close(self.pipe)
        if self.status is None:
            self.wait(lambda: False, "it doesn't end")
        return self.status


def difference(name, wanted, given):
    """Where two outputs differ, or nothing."""
    if wanted == given:
        return []
    at = len(os.path.commonprefix([wanted, given]))
    line = wanted.count(b"\n", 0, at) + 1
    start = wanted.rfind(b"\n", 0, at) + 1
    return [f"{name} from line {line} on: {wanted[start : at + 60]!r} is wanted, given is {given[start : at + 60]!r}"]


def play_pieces(words, script, cuts, wanted, output, errors):
    """Gives a script in pieces, and tells what is not as it is wanted."""
    transcript, error, status, places, written = wanted
    run = Run(words, output, errors)
    try:
        start = 0
        for cut in cuts:
            # a last line without its line feed is answered at the end alone
            run.give(script[start:cut], written[bisect.bisect_right(places, cut) - 1])
            start = cut
            if run.status is not None:
                break
        given = run.end()
    except Stuck as stuck:
        os.waitpid(run.process, 0)
        os.close(run.pipe)
        return [str(stuck)]
    wrong = difference("the transcript", transcript, output.bytes()) + difference("the error", error, errors.bytes())
    return wrong + ([f"the status is {given} and not {status}"] if given != status else [])


class Worker:
    """What a process needs to play many scripts."""

    def __init__(self, program, keep):
        self.program, self.keep = program, keep
        self.output, self.errors = Output(), Output()
        self.folder = tempfile.TemporaryDirectory()
        self.profile = pathlib.Path(self.folder.name, "profile.toml")
        self.written = None

    def play(self, number):
        """What is wrong with the script of this number."""
        chance = random.Random(number)
        text, setup = profile_of(number // SCRIPTS_A_PROFILE)
        script = script_of(chance, setup.address)
        cuts = cuts_of(chance, script)
        wanted = wanted_of(setup, script)
        words = [self.program, "run", str(self.profile), "/dev/stdin"]
        if text == STANDARD and chance.random() < 0.5:
            words = [self.program]
        if text != self.written:
            self.profile.write_text(text)
            self.written = text
        wrong = play_pieces(words, script, cuts, wanted, self.output, self.errors)
        if wrong and self.keep:
            contents = {"toml": text.encode(), "script": script, "stdout": wanted[0], "stderr": wanted[1],
                        "cuts": " ".join(map(str, cuts)).encode() + b"\n"}
            for ending, content in contents.items():
                pathlib.Path(self.keep, f"{number}.{ending}").write_bytes(content)
        return [f"{number}: {it}" for it in wrong[:1]], len(cuts), len(script)


worker = None


def begin(*words):
    global worker
    worker = Worker(*words)


def play_chunk(numbers):
    counts, wrong = collections.Counter(), []
    for number in numbers:
        found, pieces, length = worker.play(number)
        wrong += found
        counts.update(scripts=1, failed=bool(found), pieces=pieces, bytes=length, long=length > BLOCK)
    return counts, wrong


def main():
    parser = argparse.ArgumentParser(description="Gives random scripts to a program in pieces.")
    parser.add_argument("program")
    parser.add_argument("count", type=int)
    parser.add_argument("seed", type=int, nargs="?", default=1)
    parser.add_argument("--jobs", type=int, default=1, help="how many scripts are played at a time")
    parser.add_argument("--keep", help="the folder in which scripts are left that fail")
    asked = parser.parse_args()
    if asked.keep:
        os.makedirs(asked.keep, exist_ok=True)
    last = asked.seed + asked.count
    chunks = [range(it, min(it + SCRIPTS_A_CHUNK, last)) for it in range(asked.seed, last, SCRIPTS_A_CHUNK)]
    began, counts = time.monotonic(), collections.Counter()
    with multiprocessing.Pool(asked.jobs, begin, (os.path.abspath(asked.program), asked.keep)) as pool:
        for found, wrong in pool.imap_unordered(play_chunk, chunks):
            counts += found
            for it in wrong:
                print(it, flush=True)
    took = time.monotonic() - began
    print(f"{counts['scripts'] / took:.0f} scripts a second; {counts['pieces']} pieces, {counts['bytes']} bytes, "
          f"{counts['long']} scripts longer than a block")
    print(f"{counts['scripts'] - counts['failed']} passed, {counts['failed']} failed")
    sys.exit(counts["failed"] > 0)


if __name__ == "__main__":
    main()
