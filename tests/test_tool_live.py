"""`rt1553-tool live`, also two terminals on one bus, and `rt1553-tool words`: programs that answer line by line."""

import os
import subprocess
import threading

import pytest
from programs import Row, check_row, encoded, run, with_files, write_files

FIVE = {"five": "address = 5\n"}
MANY = 1500000
LIVE = with_files(
    FIVE,
    Row("live: a status", "live five", 0, ".\n.\nA s 2800\n.\n", stdin="A c 2c02\nA gap\nslot\n"),
    Row("live: a refused line changes nothing", "live five", 0,
        ".\n? column 6: a space at the end: nothing may follow the last field\n.\n.\n.\n.\nA s 2800\n.\n",
        stdin="A c 2c02\nA gap \n# so\n\nA gap\nslot"),
    Row("live: a line that is no text", "live five", 0,
        ".\n? column 3: after a bus, c, d, gap or noise is expected\n.\n.\nA s 2800\n.\n",
        stdin=b"A c 2c02\nA g\xffp\nA gap\nslot\n"),
    Row("live: no lines", "live five"),
    Row("live: lines of 64 and of 65 bytes", "live five", 0,
        ".\n? column 65: over 64 bytes before the line feed\n.\n.\n.\nA s 2800\n.\n",
        stdin=f"#{' ' * 63}\n#{' ' * 64}\nA c 2c02\nA gap\nslot\n"),
    Row("live: a million and a half lines", "live five", 0, ".\n" * MANY, stdin="slot\n" * MANY),
)

# words of the bus by their fields, and back
NO_ADDRESS = "? an address is 0 to 30, or all for a command\n"
WORDS = [
    Row("words of fields", "words", 0,
        "c 2862 0\nc 2c62 1\nc 2860 1\nc 2c13 1\nc fc01 0\nc 2811 1\nc 2fe1 0\nc 2809 1\ns 2c08 1\nd 1234 0\n",
        stdin="rx 5 3 2\ntx 5 3 2\nrx 5 3 32\nmode 5 19 tx\nmode all 1\nmode 5 17\nmode 5 1 tx 31\nmode 5 9 rx\nstatus 5 error busy\ndata 1234\n"),
    Row("fields of words", "words", 0,
        "# so\n\nrx 5 3 2\nrx 5 3 2\nmode 5 19 tx # transmit BIT word\nmode all 1 tx # synchronize\nmode 5 1 tx 31 # synchronize\n"
        "mode 5 9 rx # always illegal\nstatus 5 error busy\nstatus 5 instrumentation reserved1 reserved2 reserved3 terminal\ndata 1234\n"
        "c fbc1 1\n",
        stdin="# so\n\nc 2862\nc 2862 0\nc 2c13\nc fc01\nc 2fe1\nc 2809\ns 2c08\ns 2AE1\nd 1234 # what\nrx all 30 1"),
    Row("words: the address 31", "words", 1,
        f"{NO_ADDRESS * 4}status 31 # no terminal has this address\nstatus 31 terminal # no terminal has this address\n"
        f"{NO_ADDRESS}s 2808 0\nc 2862 0\n",
        stdin="rx 31 3 2\nstatus 31\nstatus all\nmode 31 2\ns f800\ns f801 1\nstatus 31 # no terminal has this address\nstatus 5 busy busy\n"
              "rx\t5 3  2\r\n"),
    Row("words: capitals, and a carriage return that ends no line", "words", 1,
        "d 00af 1\ndata 00af\n? a count is 1 to 32\nc 2862 0\n", stdin="data 00AF\nd 00AF\nrx 5 3 2\r 1\n\x0crx 5 3 2 \r\n"),
    Row("words: nothing raw is written back", "words", 0,
        "# \\x1b[31m\\x7f\\x09\\x0d\n# \\xc3\\xa4 \\xe2\\x80\\xae\\xff \\ end\n#\n",
        stdin=b"# \x1b[31m\x7f\t\r\n# \xc3\xa4 \xe2\x80\xae\xff \\ end\n#\n"),
    Row("words that are refused", "words", 1,
        f"? the parity bit of this word is 0\n{NO_ADDRESS}? a subaddress is 1 to 30\n"
        "? a count is 1 to 32\n? a count is 1 to 32\n? after a mode code comes tx or rx; a reserved code needs it\n"
        "? a mode code is 0 to 31\n? the subaddress of a mode code is 0 or 31\n"
        "? a status has error, instrumentation, service, reserved1 to 3, broadcast, busy, subsystem, accept, terminal\n"
        "? a line begins with rx, tx, mode, status, data, c, s or d\n? a word is four hexadecimal digits\n? nothing may follow the last field\nc 2862 0\n"
        "? a line begins with rx, tx, mode, status, data, c, s or d\n",
        stdin=b"c 2862 1\nrx 32 3 2\nrx 5 31 2\nrx 5 3 33\nrx 5 3\nmode 5 9\nmode 5 32\nmode 5 1 tx 30\nstatus 5 none\nx\nc 286\nc 2862 0 x\n"
              b"rx 5 3 2\n\xff\n"),
    Row("words: long lines", "words", 1,
        f"c 2862 0\n? a line has at most 128 bytes\n#{' ' * 127}\n? a line has at most 128 bytes\nc 2862 0\n",
        stdin=f"rx 5 3 2{' ' * 120}\nrx 5 3 2{' ' * 121}\n#{' ' * 127}\n#{' ' * 128}\nrx 5 3 2"),
]
ONE_LONG_LINE = [
    Row("live: a line of 200 MB takes no memory", "live five", files=FIVE,
        output="? column 65: over 64 bytes before the line feed\n.\n"
               "? column 1: no event begins like this: it is A, B, slot, write, vector, bit or flag\n.\n"),
    Row("words: a line of 200 MB takes no memory", "words", output="? a line has at most 128 bytes\nc 2862 0\n"),
]  # fmt: skip


@pytest.mark.parametrize("row", LIVE + WORDS, ids=lambda it: it.name)
def test_lines(tool, row, tmp_path):
    check_row(tool, row, tmp_path)


@pytest.mark.parametrize("row", ONE_LONG_LINE, ids=lambda it: it.name)
def test_one_long_line(tool, row, tmp_path):
    """The program has 64 MiB of memory; another line follows the long one."""
    write_files(tmp_path, row.files)
    with open(tmp_path / "stdin", "wb") as file:
        for _ in range(200):
            file.write(b"x" * 1000000)
        file.write(b"\nrx 5 3 2\n")
    with open(tmp_path / "stdin", "rb") as file:
        given = subprocess.run(["prlimit", "--as=67108864", tool, *row.words.split()], cwd=tmp_path, stdin=file, capture_output=True, check=False)
    assert (given.stdout, given.stderr) == (encoded(row.output), b"")


def test_live_lines_of_a_named_pipe(tool, tmp_path):
    write_files(tmp_path, FIVE)
    os.mkfifo(tmp_path / "fifo")
    threading.Thread(target=lambda: (tmp_path / "fifo").write_bytes(b"slot\n" * MANY), daemon=True).start()
    with open(tmp_path / "fifo", "rb") as pipe:
        given = subprocess.run([tool, "live", "five"], cwd=tmp_path, stdin=pipe, stdout=subprocess.PIPE, timeout=60, check=False)
    assert given.stdout == b".\n" * MANY


@pytest.mark.parametrize("kind, numbers", [("c", range(0x10000)), ("s", range(0xF800)), ("d", range(0x10000))], ids=["c", "s", "d"])
def test_each_word_and_back(tool, kind, numbers):
    """Each word gives its fields, and they give the word; of a status word but those with the address 31, which are refused."""
    words = [b"%s %04x" % (kind.encode(), it) for it in numbers]
    fields = run(tool, "words", stdin=b"\n".join(words) + b"\n")
    back = run(tool, "words", stdin=fields.output)
    assert (fields.errors, back.errors) == (b"", b"")
    assert [it[:6] for it in back.output.splitlines()] == words


def test_no_status_word_that_can_be_said_has_the_address_31(tool):
    words = "".join(f"s {it:04x}\n" for it in range(0xF800, 0x10000))
    back = run(tool, "words", stdin=run(tool, "words", stdin=words).output)
    assert sum(it.startswith(b"? ") for it in back.output.splitlines()) == 2048


class Terminal:
    """A live terminal in a process of its own, which ends after a minute at the latest."""

    def __init__(self, program, profile):
        self.process = subprocess.Popen([program, "live", profile], stdin=subprocess.PIPE, stdout=subprocess.PIPE, text=True, bufsize=1)
        self.timer = threading.Timer(60, self.process.kill)
        self.timer.start()

    def write(self, text):
        self.process.stdin.write(text)
        self.process.stdin.flush()

    def play(self, line):
        """The lines that answer an event, which end at a dot."""
        self.write(f"{line}\n")
        answers = []
        for answer in self.process.stdout:
            if answer == ".\n":
                return answers
            answers.append(answer.rstrip("\n"))
        raise EOFError(f"the terminal ended at: {line}")

    def end(self):
        """The status that it ends with, once its input ends."""
        self.process.stdin.close()
        status = self.process.wait(timeout=60)
        self.process.stdout.close()
        self.timer.cancel()
        return status


def test_live_answers_before_the_next_line(tool, tmp_path):
    write_files(tmp_path, FIVE)
    terminal = Terminal(tool, tmp_path / "five")
    terminal.write("A c 2c02\nA gap\nslot\n")
    lines = [terminal.process.stdout.readline() for _ in range(4)]
    terminal.end()
    assert lines == [".\n", ".\n", "A s 2800\n", ".\n"]


# the transmitter, address 3, holds two words at subaddress 7; the receiver, address 9, takes two words at subaddress 4
TWO = {
    "transmitter": 'address = 3\n[[rule]]\ndirection = "transmit"\nsubaddresses = 7\ncounts = 2\n'
                   "[[initial]]\nsubaddress = 7\nwords = [0x1234, 0xabcd]\n",
    "receiver": 'address = 9\n[[rule]]\ndirection = "receive"\nsubaddresses = 4\ncounts = 2\n',
}
TRANSFER = {
    "both commands and the gap": [[]] * 6,
    "the transmitter": ["A s 1800", "A d 1234", "A d abcd"],
    "handed over": ["hand receive own 04 1234 abcd"],
    "the receiver": ["A s 4800"],
}


def as_event(answer):
    """What a terminal sends, as the others hear it: its status word has command sync."""
    bus, kind, bits = answer.split()
    return f"{bus} {'c' if kind == 's' else kind} {bits}"


def reply(sender, others):
    """Gives slots to a terminal till it sends no more, and plays what it sends to the others. What was sent, by lines."""
    sent = []
    while answer := sender.play("slot"):
        sent += answer
        for other in others:
            other.play(as_event(answer[0]))
    return sent


def transfer(transmitter, receiver):
    """A transfer from a terminal to another one (MIL-STD-1553B, 4.3.3.6.3): what each sends, and what is handed over.

    The receive command is for address 9, subaddress 4, 2 words; the transmit command for address 3, subaddress 7, 2 words.
    """
    heard = [it.play(line) for line in ("A c 4882", "A c 1ce2", "A gap") for it in (transmitter, receiver)]
    first = reply(transmitter, [receiver])
    handed = receiver.play("A gap")
    transmitter.play("A gap")
    return dict(zip(TRANSFER, (heard, first, handed, reply(receiver, [transmitter]))))


@pytest.fixture(scope="module")
def transfers(tool, tmp_path_factory):
    """Two transfers on one bus, one behind the other, and the statuses with which both terminals end."""
    folder = tmp_path_factory.mktemp("two")
    write_files(folder, TWO)
    terminals = [Terminal(tool, folder / name) for name in TWO]
    played = [transfer(*terminals) for _ in range(2)]
    return played, [it.end() for it in terminals]


@pytest.mark.parametrize("turn", [0, 1], ids=["first", "second"])
@pytest.mark.parametrize("part", TRANSFER)
def test_terminal_transmits_to_another_one(transfers, turn, part):
    assert transfers[0][turn][part] == TRANSFER[part]


def test_two_terminals_end_with_their_input(transfers):
    assert transfers[1] == [0, 0]
