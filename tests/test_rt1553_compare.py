"""`rt1553 compare`: pairs of profiles that differ in one thing, and the script that shows it."""

from typing import NamedTuple

import pytest
from known_texts import ASK, FILES, wrapping
from programs import Row, check_row, run, write_files


class Pair(NamedTuple):
    """What two profiles of address 5 have besides, and the script that tells one terminal from the other."""

    name: str
    one: str
    other: str
    script: str

    def files(self):
        return {"p": f"address = 5\n{self.one}", "q": f"address = 5\n{self.other}", "script": self.script}


def rule(direction, subaddresses, counts=1, more=""):
    return f'[[rule]]\n{more}direction = "{direction}"\nsubaddresses = {subaddresses}\ncounts = {counts}\n'


def slots(count):
    return "slot\n" * count


def zeros(count):
    return "A d 0000\n" * count


HEARD_31 = rule("receive", 3, 31, 'to = "broadcast"\n')
WORD = rule("transmit", 7, '"2, 5"') + "[[initial]]\nsubaddress = 7\nat = 4\nwords = "
AT_7, AT_30, AT_30_OF_32 = rule("both", 7), rule("both", 30), rule("both", 30, 32)
WRAP_AT_7 = "A c 28e1\nA d ffff\nA gap\nslot\nA c 2ce1\nA gap\nslot\nslot\n"
WRAP_AT_8 = "A c 2901\nA d ffff\nA gap\nslot\nA c 2d01\nA gap\nslot\nslot\n"
PAIRS = [
    Pair("the broadcast option", "broadcast = true\n", "", f"A c fc02\nA gap\n{ASK}"),
    Pair("an own receive cell", rule("receive", 3, 2), "", "A c 2862\nA d 0000\nA d 0000\nA gap\nslot\n"),
    Pair("a broadcast receive cell of 31 words", f"broadcast = true\n{HEARD_31}", "broadcast = true\n",
         f"A c f87f\n{zeros(31)}A gap\n{ASK}"),
    Pair("an own mode code", '[[mode]]\ncodes = "3, 7"\n', "", "A c 2c03\nA gap\nslot\n"),
    Pair("a broadcast mode code", 'broadcast = true\n[[mode]]\nto = "broadcast"\ncodes = 4\n', "broadcast = true\n", f"A c fc04\nA gap\n{ASK}"),
    Pair("the vector word", "vector = 1\n[[mode]]\ncodes = 16\n", "[[mode]]\ncodes = 16\n", "A c 2c10\nA gap\nslot\nslot\n"),
    Pair("the BIT word", "bit = 1\n[[mode]]\ncodes = 19\n", "[[mode]]\ncodes = 19\n", "A c 2c13\nA gap\nslot\nslot\n"),
    Pair("an initial word", f"{WORD}[4]\n", f"{WORD}[5]\n", f"A c 2ce5\nA gap\n{slots(6)}"),
    Pair("wraparound", f"wraparound = false\n{AT_30}", AT_30, "A c 2bc1\nA d ffff\nA gap\nslot\nA c 2fc1\nA gap\nslot\nslot\n"),
    Pair("wraparound at 7 or none", f"wraparound = 7\n{AT_7}", AT_7, WRAP_AT_7),
    # the longest script: 70 events
    Pair("wraparound of 32 words", f"wraparound = false\n{AT_30_OF_32}", AT_30_OF_32,
         f"A c 2bc0\nA d ffff\n{zeros(31)}A gap\nslot\nA c 2fc0\nA gap\n{slots(33)}"),
]  # fmt: skip


@pytest.mark.parametrize("words", ("compare p q", "compare q p"))
@pytest.mark.parametrize("pair", PAIRS, ids=lambda it: it.name)
def test_pair(rt1553, pair, words, tmp_path):
    check_row(rt1553, Row(pair.name, words, 1, pair.script, files=pair.files()), tmp_path)


@pytest.mark.parametrize("pair", PAIRS, ids=lambda it: it.name)
def test_two_transcripts(rt1553, pair, tmp_path):
    write_files(tmp_path, pair.files())
    one, other = (run(rt1553, "run", it, "script", folder=tmp_path) for it in "pq")
    assert one.status == other.status == 0 and one.output != other.output


# a chosen wraparound subaddress
BOTH_AT_7_AND_8 = rule("both", '"7, 8"')
AT_7_OR_8 = {"p": f"address = 5\nwraparound = 7\n{BOTH_AT_7_AND_8}", "q": f"address = 5\nwraparound = 8\n{BOTH_AT_7_AND_8}"}
CHOSEN = {"p": f"address = 5\nwraparound = 7\n{AT_7}", "script": "A c 28e1\nA d beef\nA gap\nslot\nA c 2ce1\nA gap\nslot\nslot\n"}
NOT_AT_30 = {"p": f"address = 5\nwraparound = 7\n{BOTH_AT_7_AND_8}{AT_30}",
             "script": "A c 2bc1\nA d beef\nA gap\nslot\nA c 2fc1\nA gap\nslot\nslot\n"}  # fmt: skip
# nothing can be transmitted from 7
UNREACHED = {it: f"address = 5\nwraparound = {chosen}\n{rule('receive', 7)}{AT_30}" for it, chosen in (("p", "7"), ("q", "false"))}
ROWS = [
    Row("what can not be reached", "compare p five", 0, "same\n",
        files={"p": "address = 5\nwraparound = false\nvector = 7\n", "five": FILES["five"]}),
    Row("wraparound at 7", "run p script", 0, "hand receive own 07 beef\nA s 2800\nA s 2800\nA d beef\n", files=CHOSEN),
    Row("canon, wraparound at 7", "canon p", 0, wrapping(2, [7], "wraparound 07\ninitial 07 0000\n"), files=CHOSEN),
    # what comes at 30 is not held there then
    Row("wraparound at 7 and not at 30", "run p script", 0, "hand receive own 30 beef\nA s 2800\nA s 2800\nA d 0000\n", files=NOT_AT_30),
    Row("compare: wraparound at 7 or 8", "compare p q", 1, WRAP_AT_7, files=AT_7_OR_8),
    Row("compare: wraparound at 8 or 7", "compare q p", 1, WRAP_AT_8, files=AT_7_OR_8),
    Row("compare: wraparound at 7, which is not reached", "compare p q", 0, "same\n", files=UNREACHED),
]  # fmt: skip
# a profile, the script that `compare` gives for 7 and 8, and the last line of the transcript
LAST_ANSWERS = [
    ("wraparound at 7 or 8, the first", "p", WRAP_AT_7, "A d ffff"),
    ("wraparound at 7 or 8, the second", "q", WRAP_AT_7, "A d 0000"),
    ("wraparound at 8 or 7, the first", "q", WRAP_AT_8, "A d ffff"),
    ("wraparound at 8 or 7, the second", "p", WRAP_AT_8, "A d 0000"),
]


@pytest.mark.parametrize("row", ROWS, ids=lambda it: it.name)
def test_comparison(rt1553, row, tmp_path):
    check_row(rt1553, row, tmp_path)


@pytest.mark.parametrize("name, profile, script, last", LAST_ANSWERS, ids=[it[0] for it in LAST_ANSWERS])
def test_last_answer(rt1553, name, profile, script, last, tmp_path):
    write_files(tmp_path, {**AT_7_OR_8, "script": script})
    given = run(rt1553, "run", profile, "script", folder=tmp_path)
    assert (given.status, given.output.decode().splitlines()[-1]) == (0, last)


def test_canon_of_a_wraparound_that_is_not_reached(rt1553, tmp_path):
    write_files(tmp_path, UNREACHED)
    given = run(rt1553, "canon", "p", folder=tmp_path)
    assert (given.status, [it for it in given.output.decode().splitlines() if "wraparound" in it]) == (0, ["wraparound 00"])
