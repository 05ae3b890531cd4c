"""`rt1553` and canonical texts: of the examples, of both versions, cut, damaged, and with each line for wraparound."""

import pytest
import vector_tables
from known_texts import FULL, PLAIN, canonical, changed, wrapping
from programs import TOP, Row, check_row

WRAPAROUND = vector_tables.read(vector_tables.FOLDER / "wraparound.txt").files
BEHIND = "bytes after the end"


def refused(name, text, fault):
    """A canonical text that is refused."""
    return Row(name, "check damaged", 2, "", f"canonical text: {fault}\n", files={"damaged": text})


def both_texts(name, profile, text):
    """A profile and its canonical text, checked, written and compared."""
    rows = (
        Row(f"check {name}", "check profile", 0, "ok\n"),
        Row(f"canon {name}", "canon profile", 0, text),
        Row(f"canon of the canonical text of {name}", "canon text", 0, text),
        Row(f"compare {name} with its canonical text", "compare profile text", 0, "same\n"),
    )
    return [it._replace(files={"profile": profile, "text": text}) for it in rows]


def first_version(name, profile, text, first):
    """The text of version 1 that means the same as a profile and its text."""
    rows = (
        Row(f"check version 1 of {name}", "check first", 0, "ok\n"),
        Row(f"canon of version 1 of {name}", "canon first", 0, text),
        Row(f"compare version 1 of {name} with its profile", "compare first profile", 0, "same\n"),
        Row(f"compare {name} with its version 1", "compare text first", 0, "same\n"),
    )
    return [it._replace(files={"profile": profile, "text": text, "first": first}) for it in rows]


def profile_rows():
    """The profiles of the examples and of the wraparound cases, with their texts."""
    for path in sorted(TOP.glob("examples/profiles/*.toml")):
        yield from both_texts(path.stem, path.read_bytes(), (TOP / f"examples/canonical/{path.stem}.rt1553").read_bytes())
    for file in (it for it in WRAPAROUND if it.endswith(".toml")):
        name = file.removesuffix(".toml")
        texts = WRAPAROUND[file], WRAPAROUND[f"{name}.rt1553"]
        yield from both_texts(f"wraparound/{name}", *texts)
        if f"{name}.first.rt1553" in WRAPAROUND:
            yield from first_version(f"wraparound/{name}", *texts, WRAPAROUND[f"{name}.first.rt1553"])


# what begins like a canonical text of neither version is TOML, and none; a first line alone is a text cut short
FIRST_LINES = r"""
rt1553 3\n|profile: not TOML
rt1553 0\n|profile: not TOML
rt1553 12\n|profile: not TOML
rt1553 02\n|profile: not TOML
rt1553 1\r\n|profile: not TOML
rt1553 2\r\n|profile: not TOML
rt1553 2 \n|profile: not TOML
rt1553  2\n|profile: not TOML
rt1553 1|profile: not TOML
rt1553 2|profile: not TOML
rt1553|profile: not TOML
rt1553 1\n|canonical text: line 2
rt1553 2\n|canonical text: line 2
"""


def first_line_rows():
    for line, fault in (it.split("|") for it in FIRST_LINES[1:-1].split("\n")):
        yield Row(f"first line: {line}", "check damaged", 2, "", f"{fault}\n", files={"damaged": vector_tables.unescaped(line)})


# the line that is wrong; a line in place of that of a number; and what is behind the end then
DAMAGES = (
    (2, 2, "address 31", ""),
    (3, 3, "broadcast 2", ""),
    (64, 3, "broadcast 1", ""),
    (4, 4, "own-receive 01 0000000A", ""),
    (64, 64, "own-mode 00000034", ""),
    (64, 64, "own-mode 00200134", ""),
    (65, 64, "own-mode 00000135", ""),
    (65, 64, "own-mode 00010134", ""),
    (65, 40, "own-transmit 07 00000012", ""),
    (65, 40, "own-transmit 07 00000012", "initial 07 0000 0000 0000 0000\n"),
)


def damaged_rows(version):
    """The least text of a version with a wrong line; cut behind each line and inside it; and with a line feed more."""
    least = canonical(version)
    for wrong, number, line, after in DAMAGES:
        row = refused(f"damaged, version {version}: {number}:{line}", changed(number, line, after, least), f"line {wrong}")
        yield from (row, row._replace(name=f"canon, {row.name}", words="canon damaged"))
    lines = least.splitlines(True)
    for k in range(1, 64):
        fault = f"line {k + 1}"
        yield refused(f"cut after {k} lines, version {version}", "".join(lines[:k]), fault)
        yield refused(f"cut inside line {k + 1}, version {version}", "".join(lines[: k + 1])[:-3], fault)
    yield refused(f"one line feed more, version {version}", least + "\n", BEHIND)


# the line of wraparound in both versions, where words wrap at a subaddress: what stands there, and what is written for it, or its fault
WRAPAROUND_LINES = """\
2|07|wraparound 07|wraparound 07
2|07|wraparound 00|wraparound 00
2|07||line 65
2|07|wraparound 09|line 65
2|07|wraparound 30|line 65
2|07|wraparound 31|line 65
2|07|wraparound 39|line 65
2|07|wraparound 99|line 65
2|07|wraparound 7|line 65
2|07|wraparound 0|line 65
2|07|wraparound 1|line 65
2|07|wraparound 007|line 65
2|07|wraparound  07|line 65
2|07|wraparound 07 |line 65
2|07|wraparound 0a|line 65
2|07|wraparound|line 65
2|07|Wraparound 07|line 65
2|30|wraparound 30|wraparound 30
2|30|wraparound 00|wraparound 00
2|30|wraparound 1|line 65
2|30|wraparound 0|line 65
2|30|wraparound 01|line 65
2|30|wraparound 07|line 65
2|30||line 65
2|01|wraparound 01|wraparound 01
2|01|wraparound 1|line 65
1|07||wraparound 00
1|07|wraparound 07|line 65
1|07|wraparound 00|line 65
1|07|wraparound 0|line 65
1|07|wraparound 1|line 65
1|01|wraparound 1|line 65
1|30|wraparound 1|wraparound 30
1|30|wraparound 0|wraparound 00
1|30|wraparound 2|line 65
1|30|wraparound 01|line 65
1|30|wraparound 00|line 65
1|30|wraparound 30|line 65
1|30||line 65
"""


def wraparound_text(version, subaddress, line):
    """A text in which words can be received at a subaddress and transmitted from it, with a line for wraparound, if any."""
    return wrapping(int(version), [int(subaddress)], f"{line and line + chr(10)}initial {subaddress} 0000\n")


def wraparound_rows():
    for version, subaddress, line, answer in (it.split("|") for it in WRAPAROUND_LINES.splitlines()):
        name = f"version {version}, words wrap at {subaddress}: {line}"
        row = refused(name, wraparound_text(version, subaddress, line), answer)._replace(words="canon damaged")
        if answer.startswith("wraparound"):
            row = row._replace(status=0, output=wraparound_text(2, subaddress, answer), errors="")
        yield row
    # where words are received but not transmitted, or transmitted but not received, there is no such line
    for version in (1, 2):
        for way, fault in (("own_receive", BEHIND), ("own_transmit", "line 65")):
            yield refused(f"version {version}, {way} 30 alone", canonical(version, **{way: {30: 1}}, end="wraparound 00\n"), fault)


def alternating_rules(count):
    """Rules for all subaddresses and counts, legal in turn and not: after 256 of them nothing is legal, after 255 all is."""
    rule = '[[rule]]\ndirection = "both"\nsubaddresses = "1-30"\nlegal = {}\n'
    return "address = 5\n" + "".join(rule.format(("false", "true")[k % 2]) for k in range(1, count + 1))


ALL_LEGAL = canonical(own_receive=FULL, own_transmit=FULL)
RULE_ROWS = [
    Row("256 rules", "canon rules", 0, PLAIN, files={"rules": alternating_rules(256)}),
    Row("255 rules", "canon rules", 0, ALL_LEGAL, files={"rules": alternating_rules(255)}),
]
ROWS = [*profile_rows(), *first_line_rows(), *damaged_rows(1), *damaged_rows(2), *wraparound_rows(), *RULE_ROWS]


@pytest.mark.parametrize("row", ROWS, ids=lambda it: it.name[:60])
def test_canonical_text(rt1553, row, tmp_path):
    check_row(rt1553, row, tmp_path)


def test_sizes_of_texts():
    sizes = [(text.count("\n"), len(text)) for text in (PLAIN, ALL_LEGAL, WRAPAROUND["largest-default.rt1553"].decode())]
    assert sizes == [(64, 1520), (95, 6664), (129, 7618)]
    assert len(WRAPAROUND["largest-default.first.rt1553"]) == 7617
