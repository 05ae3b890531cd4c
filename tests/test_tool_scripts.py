"""Scripts as they are written: `rt1553-tool expand`, `check-script`, and the lines that are refused."""

import os
import re
import subprocess

import pytest
from example_profiles import TABLES
from programs import TOP, Row, check_row, run, with_files, write_files

MESSAGES = """\
# to 5
A rx 5 3 2: 0001 00af
A tx 5 14 2
A mode 5 17: 1234
A mode 5 2
A mode 5 18
B rx all 3 1: 0001
A rx 5 3 1 from 6 4: 00ff
B status 6 busy
slot
#> A s 2800

A c 2c02"""
EXPANDED_FILES = {
    "messages": MESSAGES,
    "refused": "A rx 5 3 2: 0001\nA gap\nA rx 5 31 2\nA tx 5 1 1: 0001\nC gap\nA rx 5 3 1 from 5 4: 0001\n",
    "five": "address = 5\n",
    "check": "A mode 5 2\n#> A s 2800\n\nA mode 5 2\n#> A s 2c00\nA c 2c02\nA gap\nslot\n",
    "misplaced": "# one\nA rx 5 3 1: 0001\n#> A s 2c00\n#> hand receive own 03 0001\n",
}
# a terminal with the words 1 and 2 at subaddress 1, and messages whose answers are stated behind them
NINE = """\
address = 9
[[rule]]
direction = "both"
subaddresses = "1-3"
[[initial]]
subaddress = 1
words = [1, 2]
"""
ANSWERS = """\
A tx 9 1 2
#> A s 4800
#> A d 0001
#~ A d ....
# to it
A rx 9 3 1: 00ff
#> hand receive own
#+ 03 00ff
#> A s 4800
A rx 9 3 1 from 5 4: 0007
#> hand receive own 03 0007
#> A s 4800
A rx 5 4 2 from 9 1: 0000 0000
#> A s 4800
#> A d 0001
#> A d 0002
"""
WRONG = ANSWERS.replace("0002", "0003").replace("03 0007", "03 0008")
MANY = {"many": "A rx 5 3 1: 0001\n" * 262145}
EXPANDED = with_files(
    EXPANDED_FILES,
    Row("messages", "expand messages", 0,
        "# to 5\nA c 2862\nA d 0001\nA d 00af\nA gap\nslot\nA c 2dc2\nA gap\nslot\nslot\nslot\nA c 2811\nA d 1234\nA gap\nslot\nA c 2c02\n"
        "A gap\nslot\nA c 2c12\nA gap\nslot\nslot\nB c f861\nB d 0001\nB gap\nA c 2861\nA c 3481\nA gap\nA c 3000\nA d 00ff\nA gap\nslot\n"
        "B c 3008\nslot\n#> A s 2800\n\nA c 2c02\n"),
    Row("capital digits in messages", "expand capitals", 0, "A c 2862\nA d 00af\nA d ff00\nA gap\nslot\n", files={"capitals": "A rx 5 3 2: 00AF fF00\n"}),
    Row("a carriage return that ends a message", "expand returns", 2, files={"returns": "A tx 5 1 2\r\n"},
        errors="returns:1:11: error: a carriage return: a line ends in a line feed alone\n"),
    Row("messages that are not there", "expand none", 4, errors="file: cannot read none: no such file\n"),
    Row("messages that are verified, by the lines of their file", "verify --expand five check", 1,
        "check:4: expected A s 2c00, came A s 2800\ncheck:8: expected nothing, came A s 2800\ncheck: differences: 2\n"),
    Row("messages that verify refuses", "verify --expand five refused", 2,
        errors="refused:1:17: error: a data word is wanted: one space and four hexadecimal digits\n"),
    Row("messages that draw refuses", "draw --expand five refused", 2,
        errors="refused:1:17: error: a data word is wanted: one space and four hexadecimal digits\n"),
    Row("an answer that no event of a message is left for", "verify --expand five misplaced", 2,
        errors="misplaced:4: error: the event before it cannot have this answer\n"),
    Row("answers behind messages", "verify --expand nine stated", files={"nine": NINE, "stated": ANSWERS}),
    Row("wrong answers behind messages, by the lines of their file", "verify --expand nine wrong", 1,
        "wrong:10: expected hand receive own 03 0008, came hand receive own 03 0007\nwrong:13: expected A d 0003, came A d 0002\n"
        "wrong: differences: 2\n", files={"nine": NINE, "wrong": WRONG}),
    Row("a word that is not stated behind a message", "verify --expand nine short", 1,
        "short:1: expected nothing, came A d 0001\nshort: differences: 1\n", files={"nine": NINE, "short": "A tx 9 1 1\n#> A s 4800\n"}),
    Row("expanded answers", "expand --for nine short", 0,
        "A c 4c21\nA gap\nslot\n#> A s 4800\nslot\n", files={"nine": NINE, "short": "A tx 9 1 1\n#> A s 4800\n"}),
    Row("an expanded script that would be too long", "expand many", 2, errors="many: script: too many lines\n", files=MANY),
    Row("too many messages to verify", "verify --expand five many", 2, errors="many: script: too many lines\n", files=MANY),
)

MESSAGE = "a message and no event: `expand` writes its events, and --expand reads messages"
FLAG = "a flag is service, busy, subsystem or terminal, in small letters"
ASK = "A c 2c02\nA gap\nslot\n"
ANSWERED = with_files(
    {**EXPANDED_FILES, "ask": ASK, "asks": ASK * 349525},
    Row("answers", "answers five ask", 0, f"{ASK}#> A s 2800\n"),
    Row("answers of messages", "answers --expand five message", 0, f"# status\n{ASK}#> A s 2800\n", files={"message": "# status\nA mode 5 2\n"}),
    Row("answers of messages that are refused", "answers --expand five refused", 2,
        errors="refused:1:17: error: a data word is wanted: one space and four hexadecimal digits\n"),
    Row("a stated answer that no event of a message is left for", "answers --expand five misplaced", 2,
        errors="misplaced:4: error: the event before it cannot have this answer\n"),
    Row("messages without --expand", "answers five message", 2,
        errors=f"message:1:3: error: {MESSAGE}\n", files={"message": "A mode 5 2\n"}),
    Row("no script", "answers five none", 4, errors="file: cannot read none: no such file\n"),
    Row("no profile", "answers none ask", 4, errors="file: cannot read none: no such file\n"),
    Row("a script that would be too long", "answers five asks", 2, errors="asks: script: too many lines\n"),
)

# where each of these stops being a line of a script, and why
LINES = [
    ("A gap\r", 6, "a carriage return: a line ends in a line feed alone"),
    ("\r", 1, "a carriage return: a line ends in a line feed alone"),
    ("\ufeffA gap", 1, "a byte order mark: save the file as UTF-8 without it"),
    ("A gap ", 6, "a space at the end: nothing may follow the last field"),
    ("A  gap", 3, "a second space: fields are separated by exactly one"),
    (" A gap", 1, "a space at the front: a line begins with its first field"),
    ("A\tgap", 2, "a tab: fields are separated by one space"),
    ("A gap # the end", 7, "a comment after a field: a comment is a line of its own"),
    ("A c 0x2862", 6, "a word is four hexadecimal digits, without a mark"),
    ("A c 2862h", 9, "a word is four hexadecimal digits, without a mark"),
    ("A c 862", 8, "a word is four hexadecimal digits, without a mark"),
    ("A d", 4, "a word is four hexadecimal digits, without a mark"),
    ("vector 1", 9, "a word is four hexadecimal digits, without a mark"),
    ("write 3 2 00bb", 7, "a subaddress is two digits, 01 to 30"),
    ("write 31 01 0000", 7, "a subaddress is two digits, 01 to 30"),
    ("write", 6, "a subaddress is two digits, 01 to 30"),
    ("write 03 00 0000", 10, "the number of a word is two digits, 01 to 32"),
    ("write 03 33 0000", 10, "the number of a word is two digits, 01 to 32"),
    ("write 03 02 00b", 16, "a word is four hexadecimal digits, without a mark"),
    ("a c 2862", 1, "names have one spelling: A, B, slot, write, vector, bit, flag, c, d, gap, noise"),
    ("A C 2862", 3, "names have one spelling: A, B, slot, write, vector, bit, flag, c, d, gap, noise"),
    ("A Gap", 3, "names have one spelling: A, B, slot, write, vector, bit, flag, c, d, gap, noise"),
    ("C gap", 1, "no event begins like this: it is A, B, slot, write, vector, bit or flag"),
    ("A", 2, "after a bus, c, d, gap or noise is expected"),
    ("A gup", 3, "after a bus, c, d, gap or noise is expected"),
    ("A s 2800", 3, "the terminal's own words are no events; the status word of another terminal is written as a word with c"),
    ("A c 2862 2", 10, "a parity bit is 0 or 1"),
    ("A c 2862 1 1", 11, "nothing may follow the last field"),
    ("slot 1", 5, "nothing may follow the last field"),
    ("bit 0001 0", 9, "nothing may follow the last field"),
    *((f"A {it}", 3, MESSAGE) for it in ("rx 5 3 1: 0001", "tx 5 3 1", "mode 5 2", "status 6 0", "data 0001")),
    ("flag", 5, FLAG),
    ("flag bussy 1", 6, FLAG),
    ("flag Busy 1", 6, FLAG),
    ("flag busy", 10, "a flag is set by 1 and taken back by 0"),
    ("flag busy on", 11, "a flag is set by 1 and taken back by 0"),
    (f"#{0:064}", 65, "over 64 bytes before the line feed"),
]


def refused(line, column, reason):
    """The rows of a line that is refused."""
    return with_files(
        {"five": "address = 5\n", "refused": f"slot\n{line}\n"},
        Row(f"check-script: {line}", "check-script refused", 2, f"refused:2:{column}: error: {reason}\n"),
        Row(f"verify: {line}", "verify five refused", 2, errors=f"refused:2:{column}: error: {reason}\n"),
        Row(f"draw: {line}", "draw five refused", 2, errors=f"refused:2:{column}: error: {reason}\n"),
        Row(f"answers: {line}", "answers five refused", 2, errors=f"refused:2:{column}: error: {reason}\n"),
    )


REFUSED = [row for it in LINES for row in refused(*it)]
CHECKED_FILES = {
    "good": "A c 2c02\n\n# a comment\nA gap\nslot",
    "more": "A gup\nslot\nB gap \nslot",
}
CHECKED = with_files(
    CHECKED_FILES,
    Row("check-script: no line is refused", "check-script good"),
    Row("check-script: each line, each script", "check-script good none more", 4,
        "more:1:3: error: after a bus, c, d, gap or noise is expected\nmore:3:6: error: a space at the end: nothing may follow the last field\n",
        "file: cannot read none: no such file\n"),
)
EXAMPLES = [it for part in ("scripts", "validation/scripts") for it in sorted((TOP / "examples" / part).glob("*.script"))]
SCRIPTS = {
    **{f"{it.parent.parent.name}-{it.stem}": it.read_bytes() for it in EXAMPLES},
    **{f"vectors-{name}": text for name, text in TABLES["scripts"].files.items() if name.endswith(".script")},
}


@pytest.fixture
def folder(tmp_path):
    write_files(tmp_path, EXPANDED_FILES)
    return tmp_path


@pytest.mark.parametrize("row", [*EXPANDED, *ANSWERED], ids=lambda it: it.name)
def test_expand(tool, row, tmp_path):
    check_row(tool, row, tmp_path)


@pytest.mark.parametrize("profile", sorted(TOP.glob("examples/profiles/*.toml")), ids=lambda it: it.stem)
def test_stated_answers_pass(tool, profile, tmp_path, count_runs):
    """What is stated is all that is added, and the terminal passes it, if anything is stated; another passes it exactly if it is stated of
    that one, too."""
    scripts = sorted(TOP.glob("examples/scripts/*.script"))
    for script in scripts:
        answered = run(tool, "answers", profile, script)
        assert (answered.status, answered.errors) == (0, b"")
        assert b"".join(it for it in answered.output.splitlines(True) if it[:3] not in (b"#> ", b"#+ ")) == script.read_bytes()
        (tmp_path / "answered").write_bytes(answered.output)
        passed = (0, b"") if b"#> " in answered.output else (3, b"answered: not judged: the script states no answer\n")
        assert run(tool, "verify", profile, "answered", folder=tmp_path)[:2] == passed
        for other in TOP.glob("examples/profiles/*.toml"):
            is_same = run(tool, "answers", other, script).output == answered.output
            assert run(tool, "verify", other, "answered", folder=tmp_path).status == (passed[0] if is_same else 1)
    count_runs(len(scripts))


def test_messages_that_are_refused(tool, folder):
    given = run(tool, "expand", "refused", folder=folder)
    assert (given.status, given.output) == (2, b"")
    places = [":".join(line.split(":")[:4]) for line in given.errors.decode().splitlines()]
    assert places == [f"refused:{it}: error" for it in ("1:17", "3:8", "4:12", "5:1", "6:17")]


def test_expanded_script_stays_as_it_is(tool, folder):
    expanded = run(tool, "expand", "messages", folder=folder).output
    write_files(folder, {"expanded": expanded})
    assert run(tool, "check-script", "expanded", folder=folder).status == 0
    assert run(tool, "expand", "expanded", folder=folder).output == expanded


def test_report_of_messages_has_the_lines_of_their_file(tool, folder):
    given = run(tool, "verify", "--expand", "--format", "json", "five", "check", folder=folder)
    assert re.findall(rb'"line":[0-9]*', given.output) == [b'"line":4', b'"line":8']


def test_messages_are_drawn_as_their_script(tool, folder):
    write_files(folder, {"expanded": run(tool, "expand", "messages", folder=folder).output})
    drawn = [run(tool, "draw", *words, folder=folder).output for words in (["--expand", "five", "messages"], ["five", "expanded"])]
    # but for the lines, which are those of each file
    bare = [re.sub(rb'(line |class="digits number"[^>]*>)\d+', rb"\1", it) for it in drawn]
    assert bare[0] == bare[1] and b"<svg" in bare[0]


@pytest.mark.parametrize("row", REFUSED + CHECKED, ids=lambda it: it.name[:60])
def test_check_script(tool, row, tmp_path):
    check_row(tool, row, tmp_path)


@pytest.mark.parametrize("name", SCRIPTS, ids=lambda it: it[:60])
def test_check_script_refuses_what_run_refuses(tool, rt1553, name, tmp_path):
    write_files(tmp_path, {"five": "address = 5\n", "script": SCRIPTS[name]})
    given = run(tool, "check-script", "script", folder=tmp_path)
    assert (given.status, given.errors) == (run(rt1553, "run", "five", "script", folder=tmp_path).status, b"")


@pytest.mark.skipif(not os.path.exists("/dev/full"), reason="there is no /dev/full")
def test_failed_write_is_told_once(tool, tmp_path):
    write_files(tmp_path, CHECKED_FILES)
    with open("/dev/full", "wb") as full:
        given = subprocess.run([tool, "lint", "none", "more", "more"], cwd=tmp_path, stdout=full, stderr=subprocess.PIPE, check=False)
    assert (given.returncode, given.stderr.count(b"output: write failed")) == (4, 1)
