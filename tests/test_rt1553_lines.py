"""`rt1553 run`: each kind of line, taken and refused, how many there may be, and answers that take time."""

import pytest
from known_texts import ASK, FILES
from programs import TOP, Row, check_row
from vector_tables import unescaped

MOST = 1_048_576
TAKEN = r"""

#
# any bytes: \t \r \0 \xff \xc3\xa4
#23456789-123456789-123456789-123456789-123456789-123456789-1234
A gap
slot
B noise
A d FFff 0
B c 2C02 1
write 01 01 0000
write 30 32 ffff
vector 00aa
bit 00AA
flag service 1
flag busy 0
flag subsystem 1
flag terminal 0
"""
REFUSED = r"""
\r
\0
\xff
 # no comment
A
A x
A gap\r
A gap\0
A\tgap
A  gap
A gap\x20
 A gap
a gap
C gap
A GAP
A gap 0
A noise 1
A c
A c 2c0
A c 2c022
A c 0x2c
A c +c02
A c 2g02
A c 2c02 2
A c 2c02 01
A c 2c02 0 0
A c 2c02\xc3\xa4
A e 2c02
slot 1
A slot
Slot
slots
slot\r
 slot
write 3 01 0000
write 00 01 0000
write 31 01 0000
write 03 00 0000
write 03 33 0000
write 03 01
write +3 01 0000
vector
vector 00a
bit 00aaa
flag busy
flag busy 2
flag Busy 1
flag accept 1
rt1553 1
A23456789-123456789-123456789-123456789-123456789-123456789-1234
"""
LINE_4, TOO_LONG, TOO_MANY = "script: line 4\n", "script: line 4 is too long\n", "script: too many lines\n"
BYTES_59 = "23456789-" + "123456789-" * 5


def script_row(name, script, status=0, output="", errors="", profile="five"):
    """A script that is played to one of the known profiles."""
    return Row(f"run, {name}", f"run {profile} script", status, output, errors, files={profile: FILES[profile], "script": script})


def behind_a_message(name, text, errors=""):
    """A text behind one message, which is answered."""
    return script_row(name, ASK.encode() + unescaped(text), 2 if errors else 0, "A s 2800\n", errors)


def line_rows():
    """Each line of the tables, with and without a line feed behind it."""
    for kind, lines, errors in (("taken", TAKEN, ""), ("refused", REFUSED, LINE_4)):
        for line in lines[1:-1].split("\n"):
            yield behind_a_message(f"a line {kind}: {line}", line + "\n", errors)
            yield behind_a_message(f"a last line {kind}: {line}", line, errors)


def up_to(count):
    """As many lines as this: one message, and comments."""
    return ASK + "#\n" * (count - 3)


LINE_ROWS = [
    *line_rows(),
    behind_a_message("a comment of 65 bytes", f"#{BYTES_59}12345\n", TOO_LONG),
    behind_a_message("a comment of 65 bytes with its CR", f"#{BYTES_59}1234\r\n", TOO_LONG),
    behind_a_message("a bad line of 65 bytes", f"A{BYTES_59}12345\n", TOO_LONG),
    behind_a_message("a last line of 65 bytes", f"#{BYTES_59}12345", TOO_LONG),
    behind_a_message("the first of two faults", "# right\nA x\nA y\n", "script: line 5\n"),
    behind_a_message("a line of 100,000 bytes", "0" * 100_000, TOO_LONG),
    script_row("lines that end in CR LF", "A c 2c02\r\nA gap\r\n", 2, "", "script: line 1\n"),
    script_row("a last line without its line feed", ASK[:-1], 0, "A s 2800\n"),
]
LENGTH_ROWS = [
    script_row("1,048,576 lines", "\n" * MOST),
    script_row("a line feed more", "\n" * (MOST + 1), 2, "", TOO_MANY),
    script_row("1,048,576 lines of which the last lacks its line feed", up_to(MOST - 3) + "B c 2c02\nB gap\nslot", 0, "A s 2800\nB s 2800\n"),
    script_row("a byte more", up_to(MOST) + "A", 2, "A s 2800\n", TOO_MANY),
    script_row("a long line more", up_to(MOST) + "0" * 80 + "\n", 2, "A s 2800\n", TOO_MANY),
    script_row("a bad line before too many", up_to(MOST - 1) + "A x\nA gap\n", 2, "A s 2800\n", f"script: line {MOST}\n"),
]
# the longest reply, 33 slots, and the longest answer, 32 words handed over
WORDS = [f"{0xFF00 + k:04x}" for k in range(1, 33)]
SLOTS = "slot\n" * 33
WRITTEN = "".join(f"write 03 {k:02} {word}\n" for k, word in enumerate(WORDS, 1))
ON_A, ON_B = ("".join(f"{bus} d {word}\n" for word in WORDS) for bus in "AB")
ANSWER_ROWS = [
    script_row("32 words sent", f"{WRITTEN}A c 2c60\nA gap\n{SLOTS}", 0, f"A s 2800\n{ON_A}", profile="whole"),
    script_row("32 words received", f"B c 2860\n{ON_B}B gap\n{SLOTS}", 0, f"hand receive own 03 {' '.join(WORDS)}\nB s 2800\n", profile="whole"),
]
# replies that take time, each on one line: a profile, what happens, and the transcript
REPLIES = """\
five|A c 2c02, A gap|
five|slot, A c 2c02, slot, A gap, slot, slot|A s 2800
five|A c 2c05, A gap, flag busy 1, slot, slot|A s 2800
two|A c 2c62, A gap, slot, write 03 02 00bb, slot, slot|A s 2800, A d 000a, A d 00bb
two|A c 2c62, A gap, slot, A c 2c02, A gap, slot, slot, A c 2c02, A gap, slot|A s 2800, A d 000a, A d 000b, A s 2800
two|A c 2c62, A gap, slot, B c 2c02, slot, B gap, slot|A s 2800, B s 2800
two|A c 2c62, A gap, slot, B c 3402, B noise, B gap, slot, slot|A s 2800, A d 000a, A d 000b
vector|A c 2c08, A gap, vector 1234, slot, A c 2c10, A gap, slot, slot|A s 2800, A s 2800, A d 00aa
vector|vector 1234, A c 2c08, A gap, B c 2c10, B gap, slot, slot|B s 2800, B d 1234
five|A c 2c04, A gap, slot, B c 2c08, B gap, B c 2c02, B gap, slot|A s 2800, B s 2800
five|flag service 1, A c 2c08, A gap, flag service 0, B c 2c02, B gap, slot|B s 2900
"""


def reply_rows():
    for number, line in enumerate(REPLIES.splitlines(), 1):
        profile, events, transcript = line.split("|")
        script, output = ("".join(f"{it}\n" for it in text.split(", ") if it) for text in (events, transcript))
        yield script_row(f"reply {number}: {events}", script, 0, output, profile=profile)


def example_rows():
    """Each script of the examples, over the profile that its first line names."""
    for path in sorted(TOP.glob("examples/scripts/*.script")):
        profile = TOP / "examples/profiles" / path.read_text().split("\n")[0].removeprefix("# Profile: ")
        transcript = path.with_suffix(".transcript").read_bytes()
        yield Row(f"examples/scripts/{path.stem}", ("run", str(profile), str(path)), 0, transcript)


@pytest.mark.parametrize("row", [*LINE_ROWS, *LENGTH_ROWS, *ANSWER_ROWS, *reply_rows(), *example_rows()], ids=lambda it: it.name[:60])
def test_script(rt1553, row, tmp_path):
    check_row(rt1553, row, tmp_path)
