"""`rt1553-tool verify` over small scripts: differences, warnings, what is refused, masks and summaries."""

import pytest
from programs import TOP, Row, check_row, run, with_files

ASK = "A c 2c02\nA gap\nslot\n"
RECEIVED = "A c 2862\nA d 0001\nA d 00af\nA gap\n"
JUNIT = '<?xml version="1.0" encoding="UTF-8"?>\n<testsuites tests="1" failures="0" errors="0" skipped="0" time="0">\n'

# what is said of an answer that no terminal gives
NO_ANSWER = 'no terminal answers so: an answer is a line that run prints, as "A s 2800", "A d 0001" or "hand receive own 01 0011"'
SCRIPTS = {
    "five": "address = 5\n",
    "good": f"{ASK}# of the terminal\n\n#> A s 2800\n",
    "wrong": f"{ASK}#> A s 2c00\nslot\n#> A d 0000\nA gap\n",
    "silent": ASK[:-1],
    "gap": "A gap\n",
    "refused": "A c 2c02\nA gap\nslot \n",
    "long": "A gap\n#> hand sync 12345678901234567890123456789012345678901234567890123456789\n",
    "first": "#> A s 2800\nslot\n",
    "twice": f"{ASK}#> A s 2800\n#> A s 2800\n",
    "word": "A c 2c02\n#> A s 2800\nA gap\nslot\n",
    "hand": "A c 2c02\nA gap\n#> A s 2800\nslot\n",
    "slot": f"{ASK}#> hand sync\n",
    "on": f"{ASK}#+ A s 2800\n",
    "idle": "# Nothing happens.\n\n",
    "halves": f"{ASK}#> A s\n#| nothing\n#+ 2800\n",
    "near": f"# A s > 2800\n#\n#| A s 2c00\n# + 1\n##> A s 2800\n{ASK}#> A s 2800\n",
}
MOST_LINES = {"lines": "\n" * 1048576}
ONE_MORE = {"lines": "\n" * 1048577}
VERIFY = with_files(
    SCRIPTS,
    Row("nothing differs", "verify five good"),
    Row("an answer in two parts", "verify five halves"),
    Row("two events differ", "verify five good wrong good", 1,
        "wrong:3: expected A s 2c00, came A s 2800\nwrong:5: expected A d 0000, came nothing\nwrong: differences: 2\n"),
    Row("an answer that is not stated", "verify five silent", 1,
        "silent:3: expected nothing, came A s 2800\nsilent: differences: 1\n",
        "silent: warning: the script states no answer\n"),
    Row("a script without an event", "verify five idle", 3, "idle: not judged: the script has no event\n"),
    Row("a script that states no answer", "verify five gap", 3, "gap: not judged: the script states no answer\n"),
    Row("nothing is judged of one script", "verify five idle good", 3, "idle: not judged: the script has no event\n"),
    Row("nothing is judged of the last script", "verify five good gap", 3, "gap: not judged: the script states no answer\n"),
    Row("nothing is judged of one script, and one differs", "verify five idle wrong gap", 1,
        "idle: not judged: the script has no event\nwrong:3: expected A s 2c00, came A s 2800\nwrong:5: expected A d 0000, came nothing\n"
        "wrong: differences: 2\ngap: not judged: the script states no answer\n"),
    Row("nothing is judged of one script, and one is refused", "verify five refused idle", 2, "idle: not judged: the script has no event\n",
        "refused:3:5: error: a space at the end: nothing may follow the last field\n"),
    Row("nothing is judged of one script, and one is not there", "verify five idle none", 4, "idle: not judged: the script has no event\n",
        "file: cannot read none: no such file\n"),
    Row("a line of no script", "verify five refused", 2,
        errors="refused:3:5: error: a space at the end: nothing may follow the last field\n"),
    Row("a line that is too long", "verify five long", 2, errors="long:2:65: error: over 64 bytes before the line feed\n"),
    Row("an answer without an event", "verify five first", 2, errors="first:1: error: the event before it cannot have this answer\n"),
    Row("two answers to an event", "verify five twice", 2, errors="twice:5: error: the event before it cannot have this answer\n"),
    Row("an answer to a word", "verify five word", 2, errors="word:2: error: the event before it cannot have this answer\n"),
    Row("a word that is sent at a gap", "verify five hand", 2, errors="hand:3: error: the event before it cannot have this answer\n"),
    Row("what is handed over in a slot", "verify five slot", 2, errors="slot:4: error: the event before it cannot have this answer\n"),
    Row("an answer goes on that was not begun", "verify five on", 2, errors="on:4: error: the event before it cannot have this answer\n"),
    Row("a refused script, and others", "verify five refused silent", 2,
        "silent:3: expected nothing, came A s 2800\nsilent: differences: 1\n",
        "refused:3:5: error: a space at the end: nothing may follow the last field\nsilent: warning: the script states no answer\n"),
    Row("a script that is not there", "verify five none good", 4, errors="file: cannot read none: no such file\n"),
    Row("a profile that is not there", "verify none good", 4, errors="file: cannot read none: no such file\n"),
    Row("a profile that is refused", "verify silent good", 2, errors="silent:1:3: error: profile: not TOML: key with no value, expected `=`\nsilent: hint: it begins like a script, and a profile is expected here\n"),
    Row("comments that are none", "verify five near"),
    Row("check-script: comments that are none", "check-script near"),
    Row("a profile that is too large", "verify large good", 4, errors="file: too large large: at most 1,048,576 bytes\n", files={"large": bytes(1048577)}),
    Row("as many lines as may be", "verify five lines", 3, "lines: not judged: the script has no event\n", files=MOST_LINES),
    Row("check-script: as many lines as may be", "check-script lines", files=MOST_LINES),
    Row("too many lines", "verify five lines", 2, errors="lines: script: too many lines\n", files=ONE_MORE),
    Row("check-script: too many lines", "check-script lines", 2, "lines:1048577:1: error: a script has at most 1,048,576 lines\n", files=ONE_MORE),
)


def mistyped(line, column):
    """The rows of a comment that looks like a stated answer, and the column of its first byte that doesn't fit."""
    reason = "looks like a stated answer and is a comment: one space comes after #>, #~ or #+, and none before it"
    return with_files(
        {"five": "address = 5\n", "mistyped": f"{ASK}{line}\n"},
        Row(f"mistyped: {line}", "verify five mistyped", 2, errors=f"mistyped:4:{column}: error: {reason}\n"),
        Row(f"mistyped, check-script: {line}", "check-script mistyped", 0, f"mistyped:4:{column}: warning: {reason}\n"),
    )


MISTYPED = [
    *mistyped("#>A s 5000", 3),
    *mistyped("# > A s 2800", 2),
    *mistyped("# ~ *", 2),
    *mistyped("#>", 3),
    *mistyped("#>\tA s 2800", 3),
    *mistyped("#>> A s 2800", 3),
    *mistyped("#~A", 3),
    *mistyped("#+2800", 3),
]



def impossible(name, text, line):
    """The row of an answer that no terminal gives."""
    return with_files({"five": "address = 5\n", "impossible": text},
                      Row(f"no terminal answers so: {name}", "verify five impossible", 2, errors=f"impossible:{line}: error: {NO_ANSWER}\n"))


# answers that no terminal gives, and answers in capitals
GAP = "A c 2c02\nA gap\n"
POSSIBLE = [
    *impossible("three digits", f"{ASK}#> A s 280\n", 4),
    *impossible("another sync", f"{ASK}#> A c 2800\n", 4),
    *impossible("a small letter of the bus", f"{ASK}#> a s 2800\n", 4),
    *impossible("before the next event", f"{ASK}#> A s 280\n\nslot\n#> A s 2\n", 4),
    *impossible("behind a possible part", f"{ASK}#> A s 2800\n\n#+ 0\n", 4),
    *impossible("hand alone", f"{GAP}#> hand\nslot\n", 3),
    *impossible("hand and another word", f"{GAP}#> hand\n#+ over\nslot\n", 3),
    *impossible("no subaddress of data", f"{GAP}#> hand receive own 31 0001\n", 3),
    *impossible("a subaddress of one digit", f"{GAP}#> hand receive own 3 0001\n", 3),
    *impossible("a mask of no subaddress", f"{GAP}#~ hand receive own 4. 0001\n", 3),
    *impossible("no word", f"{GAP}#> hand receive broadcast 03\n", 3),
    *impossible("33 words", f"{GAP}#> hand receive broadcast 03\n" + "#+ 0001 0002 0003\n" * 11, 3),
    *with_files(
        {
            "five": "address = 5\n",
            "capitals": "A c 2c02\nA d 0000\nA gap\nslot\nA c 2c02\nA gap\nslot\n#> A s 2C00\n",
            "capital_mask": "A c 2c02\nA d 0000\nA gap\nslot\nA c 2c02\nA gap\nslot\n#~ A s\n#+ 2C..\n",
            "handed": f"{GAP}#> hand\n#+ self-test\nslot\n#> A s 2800\n",
            "words": f"{GAP}#> hand receive broadcast 30\n" + "#+ 0001 0002 0003 0004\n" * 8,
        },
        Row("capital digits", "verify five capitals capital_mask"),
        Row("hand goes on", "verify five handed", 1, "handed:2: expected hand self-test, came nothing\nhanded: differences: 1\n"),
        Row("32 words", "verify five words", 1,
            "words:2: expected hand receive broadcast 30" + " 0001 0002 0003 0004" * 8 + ", came nothing\nwords: differences: 1\n"),
    ),
]

# answers stated by masks, and on the bus alone
MASKS = with_files(
    {
        "receiver": 'address = 5\n[[rule]]\nsubaddresses = 3\ndirection = "receive"\ncounts = 2\n',
        "masked": f"{ASK}#~ A s 2...\n",
        "dots": f"{ASK}#~ A . 2800\n",
        "longer": f"{ASK}#~ A s 2...0\n",
        "shorter": f"{ASK}#~ A s 2..\n",
        "some": f"{ASK}#~ *\n",
        "missing": "A c 2c02\nA gap\n#~ *\nslot\n#~ A s ....\nslot\n#~ *\n",
        "literal": f"{ASK}#> A s ....\n",
        "going": f"{RECEIVED}#~ hand receive own 03\n#+ .... 00a.\nslot\n#~ A s 2.00\n",
        "star_goes": f"{RECEIVED}#~ *\n#+ 0001\n",
        "twice_masked": f"{ASK}#> A s 2800\n#~ *\n",
        "word_masked": "A c 2c02\n#~ *\n",
        "hand_masked": "A c 2c02\nA gap\n#~ A s ....\n",
        "bus": f"{RECEIVED}slot\n#> A s 2800\n",
        "stated": f"{RECEIVED}#> hand receive own 03 0001 00ae\nslot\n#> A s 2800\n",
        "silent_bus": f"{RECEIVED}slot\n",
    },
    Row("a mask", "verify receiver masked some going"),
    Row("a dot stands for no letter but a to f", "verify receiver dots", 2, errors=f"dots:4: error: {NO_ANSWER}\n"),
    Row("a mask of more bytes", "verify receiver longer", 2, errors=f"longer:4: error: {NO_ANSWER}\n"),
    Row("a mask of fewer bytes", "verify receiver shorter", 2, errors=f"shorter:4: error: {NO_ANSWER}\n"),
    Row("no line where some line is stated", "verify receiver missing", 1,
        "missing:2: expected *, came nothing\nmissing:6: expected *, came nothing\nmissing: differences: 2\n"),
    Row("a dot in an answer without a mask", "verify receiver literal", 2, errors=f"literal:4: error: {NO_ANSWER}\n"),
    Row("a mask counts as an answer", "verify --summary receiver masked", 0,
        "masked: passed (answers: 1)\nno clause: 1 of 1 scripts pass\nall: 1 of 1 scripts pass\n"),
    Row("any line that goes on", "verify receiver star_goes", 2, errors="star_goes:6: error: the event before it cannot have this answer\n"),
    Row("a mask behind an answer", "verify receiver twice_masked", 2,
        errors="twice_masked:5: error: the event before it cannot have this answer\n"),
    Row("any line behind a word", "verify receiver word_masked", 2,
        errors="word_masked:2: error: the event before it cannot have this answer\n"),
    Row("a mask of a word behind a gap", "verify receiver hand_masked", 2,
        errors="hand_masked:3: error: the event before it cannot have this answer\n"),
    Row("a hand-over that is not stated", "verify receiver bus", 1,
        "bus:4: expected nothing, came hand receive own 03 0001 00af\nbus: differences: 1\n"),
    Row("the same on the bus alone", "verify --bus-only receiver bus"),
    Row("a hand-over that is stated, on the bus alone", "verify --bus-only receiver stated", 1,
        "stated:4: expected hand receive own 03 0001 00ae, came hand receive own 03 0001 00af\nstated: differences: 1\n"),
    Row("a word that is not stated, on the bus alone", "verify --bus-only receiver silent_bus", 1,
        "silent_bus:5: expected nothing, came A s 2800\nsilent_bus: differences: 1\n",
        "silent_bus: warning: the script states no answer\n"),
)

# what passes by the clauses and the profiles that scripts name
SUMMARIES = with_files(
    {
        "folder/five.toml": "address = 5\n",
        "folder/six.toml": "address = 6\n",
        "one": f"# Profile: five.toml\n# Plan: 5.2.10, 5.2.2\n{ASK}#> A s 2800\n",
        "two": "# It is so.\n# Profile: six.toml\n# Standard: 30.1\n" + "A c 3402\nA gap\nslot\n#> A s 3000\n" * 2,
        "wrong": f"# Profile: five.toml\n# Plan: 5.2.2\n{ASK}#> A s 2c00\n",
        "bare": "# Plan: 5.2.2\n",
        "late": "A gap\n# Profile: five.toml\n",
        "strange": "# Profile: seven.toml\nA gap\n",
        "broken": "# Profile: five.toml\n# Plan: 5.2.3\nslot \n",
        "list": f"# Profile: five.toml\n# Plan: 1, 1, 2, ,all\n{ASK}#> A s 2800\n",
        "idle": "A gap\n",
        "outside": "# Profile: ../five\n",
    },
    Row("a summary", "verify --summary folder/five.toml one", 0,
        "one: passed (answers: 1)\nclause 5.2.2: 1 of 1 scripts pass\nclause 5.2.10: 1 of 1 scripts pass\nall: 1 of 1 scripts pass\n"),
    Row("each script names its profile", "verify --profiles folder one two"),
    Row("a summary over two profiles", "verify --summary --profiles folder one two wrong", 1,
        "one: passed (answers: 1)\ntwo: passed (answers: 2)\nwrong:5: expected A s 2c00, came A s 2800\nwrong: differences: 1\n"
        "clause 5.2.2: 1 of 2 scripts pass\nclause 5.2.10: 1 of 1 scripts pass\nclause 30.1: 1 of 1 scripts pass\nall: 2 of 3 scripts pass\n"),
    Row("a script that names no profile", "verify --profiles folder bare one", 2, errors="bare: script: no line '# Profile: NAME' at its front\n"),
    Row("a profile that is named behind an event", "verify --profiles folder late", 2,
        errors="late: script: no line '# Profile: NAME' at its front\n"),
    Row("a named profile that is not there", "verify --profiles folder strange", 4, errors="file: cannot read folder/seven.toml: no such file\n"),
    Row("a summary of scripts that are refused", "verify --summary --profiles folder broken none", 4,
        "clause 5.2.3: 0 of 1 scripts pass\nno clause: 0 of 1 scripts pass\nall: 0 of 2 scripts pass\n",
        "broken:3:5: error: a space at the end: nothing may follow the last field\nfile: cannot read none: no such file\n"),
    Row("no script is named", "verify --profiles folder", 3, errors="arguments: verify takes a script or several\n"),
    Row("a folder without a name", ("verify", "--profiles", "", "one"), 4, errors="file: the name of a file is empty\n"),
    Row("a clause named twice, an empty one, and one called all", "verify --summary --profiles folder list", 0,
        "list: passed (answers: 1)\nclause 1: 1 of 1 scripts pass\nclause 2: 1 of 1 scripts pass\nclause all: 1 of 1 scripts pass\n"
        "all: 1 of 1 scripts pass\n"),
    Row("a summary of a script of which nothing is judged", "verify --summary folder/five.toml one bare idle", 3,
        "one: passed (answers: 1)\nbare: not judged: the script has no event\nidle: not judged: the script states no answer\n"
        "clause 5.2.2: 1 of 2 scripts pass, 1 not judged\nclause 5.2.10: 1 of 1 scripts pass\nno clause: 0 of 1 scripts pass, 1 not judged\n"
        "all: 1 of 3 scripts pass, 2 not judged\n"),
    Row("a profile outside of the folder", "verify --profiles folder outside", 2,
        errors="outside: script: the profile that it names is outside the folder\n"),
)


@pytest.mark.parametrize("row", VERIFY + MISTYPED + POSSIBLE + MASKS + SUMMARIES, ids=lambda it: it.name)
def test_verify(tool, row, tmp_path):
    check_row(tool, row, tmp_path)


def test_summary_of_the_protocol_tests(tool):
    """Each of them passes."""
    scripts = [it for part in ("scripts", "choices") for it in sorted((TOP / "examples/validation" / part).glob("*.script"))]
    words = ["verify", "--summary", "--profiles", "examples/validation/profiles", *(it.relative_to(TOP) for it in scripts)]
    given = run(tool, *words, folder=TOP)
    assert (given.status, given.errors) == (0, b"")
    lines = given.output.splitlines()
    assert lines[-1] == b"all: 154 of 154 scripts pass"
    assert b"clause 5.2.1.1.1: 9 of 9 scripts pass" in lines
