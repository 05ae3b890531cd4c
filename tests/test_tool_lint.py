"""What `rt1553-tool lint` tells of profiles: each fault and what has no effect, FILE:LINE:COLUMN."""

import pytest
from example_profiles import ALL, VECTORS
from programs import TOP, Row, check_row, run, with_files, write_files
from schemas import misfits_of_lines

UP = '[[rule]]\ndirection = "up"\n'
# each kind of fault, and each reason for which something has no effect
TEXTS = sorted((TOP / "tests/tool/lint").glob("*.toml"))
# characters that control a terminal or turn the direction of text
CONTROLS = [*range(0x20), *range(0x7F, 0xA0), 0x200E, 0x200F, *range(0x2028, 0x202F), *range(0x2066, 0x206A), 0xFEFF]
SHORT = {0: "\\0", 9: "\\t", 10: "\\n", 13: "\\r"}

LINT = with_files(
    {
        "five": "address = 5\n",
        "two": 'address = 31\n\n[[rule]]\ndirection = "receive"\nsubadress = 3\nsubaddresses = "1-3"\n',
        "open": "address = 5\n[[rule]\n",
        "again": "address = 5\nvector = 1\naddress = 6\n",
        "crlf": 'address = 5\r\n\r\n[[rule]]\r\ndirection = "up"\r\nsubaddresses = 1\r\n',
        "inline": 'address = 5\nrule = [\n  { direction = "both", subaddresses = 1 },\n  { direction = "up", subaddresses = 2 },\n]\n',
        "required": 'address = 5\n\n[[mode]]\ncodes = "2, 8"\nlegal = false\n',
        "many": f"address = 5\n{UP * 257}",
        "canonical": "rt1553 2\naddress 05\nbroadcast 2\n",
        "far": "address = 5\n" + "# a comment\n" * 4996 + f"{UP}subaddresses = 1\n",
        "order": "address = 5\nzeta = 1\nalpha = 2\n",
        "lot": "address = 5\n[[mode]]\ncodes = 17\n" + "".join(f"{it} = 1\n" for it in "mlkjihgfedcba"),
        "blanks": "address = 5\n\t broadcast = 3\n",
        "idle": "address = 5\nvector = 7\n",
        "first": 'address = 5\n\n[[rule]]\ndirection = "receive"\nsubaddresses = 1\nlegal = false\n',
        "held": "address = 5\n\n[[initial]]\nsubaddress = 4\nwords = [1]\n",
    },
    Row("lint: two faults", "lint two", 2,
        "two:1:1: error: profile: root: address is out of range: 31; allowed is a whole number from 0 to 30\n"
        'two:5:1: error: profile: rule 1: unknown key "subadress"; known are to, direction, subaddresses, counts, legal\n'),
    Row("lint: no TOML", "lint open", 2, "open:2:8: error: profile: not TOML: unclosed array table, expected `]]`\n"),
    Row("lint: a key given twice", "lint again", 2, "again:3:1: error: profile: not TOML: duplicate key\n"),
    Row("lint: lines that end in CR and LF", "lint crlf", 2,
        'crlf:4:1: error: profile: rule 1: direction is out of range: "up"; allowed is "receive", "transmit" or "both"\n'),
    Row("lint: a rule in brackets", "lint inline", 2,
        'inline:2:1: error: profile: rule 2: direction is out of range: "up"; allowed is "receive", "transmit" or "both"\n'),
    Row("lint: codes that must be legal", "lint required", 2,
        "required:3:1: error: profile: mode code 2 must be legal; mode 1 makes it illegal\n"
        "required:3:1: error: profile: mode code 8 must be legal; mode 1 makes it illegal\n"),
    Row("lint: 257 rules", "lint many", 2,
        "many:514:1: error: profile: root: rule has too many items: an array of 257 items; allowed is at most 256 tables [[rule]]\n"),
    Row("lint: a canonical text that is refused", "lint canonical", 2, 'canonical:3:1: error: canonical text: line 3: a line like "broadcast 0" is expected\n'),
    Row("lint: a fault far down", "lint far", 2,
        'far:4999:1: error: profile: rule 1: direction is out of range: "up"; allowed is "receive", "transmit" or "both"\n'),
    Row("lint: unknown keys, the first of the text first", "lint order", 2,
        'order:2:1: error: profile: root: unknown key "zeta", "alpha"; known are address, broadcast, wraparound, accept_bus_control, vector, '
        "bit, rule, mode, initial\n"),
    Row("lint: more unknown keys than are told", "lint lot", 2,
        'lot:4:1: error: profile: mode 1: unknown key "m", "a", "b", "c", "d", "e", "f", "g", "h", "i", .. and 3 more; known are to, codes, '
        "legal\n"),
    Row("lint: blanks before a key", "lint blanks", 2,
        "blanks:2:3: error: profile: root: broadcast has the wrong kind: 3; allowed is true or false\n"),
    Row("lint: a word that no mode code asks for", "lint idle", 1, "idle:2:1: warning: vector has no effect: mode code 16 is not legal\n"),
    Row("lint: the first rule alone", "lint first", 1, "first:3:1: warning: rule 1 has no effect: its commands are illegal without it\n"),
    Row("lint: the first initial entry alone", "lint held", 1,
        "held:3:1: warning: initial 1 has no effect: no command to transmit is legal there\n"),
    Row("lint: files that are fine, refused and not there", "lint five open none idle", 4,
        "open:2:8: error: profile: not TOML: unclosed array table, expected `]]`\n"
        "idle:2:1: warning: vector has no effect: mode code 16 is not legal\n",
        "file: cannot read none: no such file\n"),
    Row("lint: JSON", "lint --format json idle", 1,
        '{"file":"idle","line":2,"column":1,"severity":"warning","number":null,"name":null,"message":"vector has no effect: mode code 16 is '
        'not legal"}\n'),
    Row("lint: a fault as JSON", "lint again --format json", 2,
        '{"file":"again","line":3,"column":1,"severity":"error","number":1,"name":"NotToml","message":"profile: not TOML: duplicate key"}\n'),
)


# what is no TOML, where, the message of the TOML library, and what is likely meant
VALUE = "invalid value, expected a string, number, boolean, date-time, array or inline table"
HINTED = [
    ("broadcast = True", 13, VALUE, "true and false have small letters, and there is no yes and no"),
    ("broadcast = yes", 13, VALUE, "true and false have small letters, and there is no yes and no"),
    ("vector = 09", 10, VALUE, "a number has no 0 in front"),
    ("vector = FFFF", 10, VALUE, "hexadecimal digits come after 0x, with a small x"),
    ("vector = 0X12ab", 10, VALUE, "hexadecimal digits come after 0x, with a small x"),
    ("vector = 12h", 10, VALUE, "hexadecimal digits come after 0x, with a small x"),
    ("direction = receive", 13, VALUE, "a text stands between quotes"),
    ("subaddresses = 1-3", 16, "invalid date-time", 'ranges stand between quotes, as "1-3"'),
    ("counts = 1, 2", 11, "unexpected key or value, expected newline, `#`", 'several numbers stand between quotes, as "1, 3"'),
]
LINT += [
    Row(f"lint: no TOML: {text}", "lint wrong", 2, f"wrong:2:{column}: error: profile: not TOML: {message}; {hint}\n", files={"wrong": f"address = 5\n{text}\n"})
    for text, column, message, hint in HINTED
]
LINT.append(Row("lint: a canonical text with carriage returns", "lint canonical", 2,
            "canonical:1:8: error: profile: not TOML: key with no value, expected `=`; a line of a canonical text ends in a line feed, without a carriage return\n",
            files={"canonical": "rt1553 2\r\naddress 05\r\n"}))


@pytest.mark.parametrize("row", LINT, ids=lambda it: it.name)
def test_lint(tool, row, tmp_path):
    check_row(tool, row, tmp_path)


def test_768_findings_each_on_its_line(tool, tmp_path):
    write_files(tmp_path, {"each": "address = 5\n" + "[[rule]]\ndirection = 7\ncounts = 33\n" * 256})
    given = run(tool, "lint", "each", folder=tmp_path)
    assert sorted(int(it.split(b":")[1]) for it in given.output.splitlines()) == list(range(2, 770))


@pytest.mark.parametrize("path", TEXTS, ids=lambda it: it.stem)
def test_lint_of_a_text(tool, path):
    given = run(tool, "lint", path.name, folder=path.parent)
    assert (given.output, given.errors) == (path.with_suffix(".txt").read_bytes(), b"")


@pytest.mark.parametrize("name", ALL)
def test_nothing_to_say(tool, name):
    assert run(tool, "lint", ALL[name]) == (0, b"", b"")


@pytest.mark.parametrize("name", VECTORS, ids=lambda it: it[:60])
def test_lint_refuses_what_check_refuses(tool, rt1553, name, tmp_path):
    """And its JSON fits the schema."""
    write_files(tmp_path, {"it": VECTORS[name]})
    given = run(tool, "lint", "it", folder=tmp_path)
    told = run(tool, "lint", "--format", "json", "it", folder=tmp_path)
    assert given.status in (0, 1, 2)
    assert (given.status == 2, given.errors) == (run(rt1553, "check", "it", folder=tmp_path).status == 2, b"")
    assert (told.status, misfits_of_lines(told.output, "docs/lint.schema.json")) == (given.status, [])


@pytest.mark.parametrize("code", CONTROLS, ids=lambda it: f"U+{it:04X}")
def test_nothing_raw_is_shown(tool, code, tmp_path):
    """A character in the name of a key and in a value is told by its escape."""
    write_files(tmp_path, {"profile.toml": f'address = "x\\u{code:04x}y"\n"k\\u{code:04x}z" = 1\n'})
    given = run(tool, "lint", "profile.toml", folder=tmp_path)
    text = given.output.decode()
    escape = SHORT.get(code, f"\\u{{{code:x}}}")
    assert [it for it in text.replace("\n", "") if ord(it) in CONTROLS] == []
    assert given.status == 2
    key, value = text.split("\n")[:-1]
    assert f'"k{escape}z"' in key
    assert f'"x{escape}y"' in value
