"""`rt1553` with files by their names: which fault is told first, and what a profile file may be."""

import pytest
from known_texts import ASK, PLAIN, files_named, sized
from programs import Row, check_row, write_files
from vector_tables import unescaped

A_FOLDER = {"folder/file": ""}
UNREAD = "A x\n"
LONG = "x" * 250
OUT_OF_RANGE = "profile: root: address is out of range\n"
ASK_SIX = "A c 3402\nA gap\nslot\n"


def job(name, words, status=0, output="", errors="", script=ASK):
    """A row with those known files that its words name, and a script. What stands on the standard input, `run` does not read."""
    files = {**files_named(words), **({"script": script} if "script" in words else {}), **(A_FOLDER if "folder" in words else {})}
    return Row(name, words, status, output, errors, UNREAD if words.startswith("run") else "", files)


ROWS = [
    job("check", "check five", 0, "ok\n"),
    job("check --", "check -- five", 0, "ok\n"),
    job("canon", "canon five", 0, PLAIN),
    job("canon of a canonical text", "canon canonical", 0, PLAIN),
    job("check of a canonical text", "check canonical", 0, "ok\n"),
    job("canon of a canonical text of version 1", "canon first", 0, PLAIN),
    job("a last line feed", "check cut", 2, "", "canonical text: line 64\n"),
    job("one line feed more", "canon trailing", 2, "", "canonical text: bytes after the end\n"),
    job("compare, the same", "compare five also-five", 0, "same\n"),
    job("compare, the same file", "compare five five", 0, "same\n"),
    # a file with itself is read and loaded like any other
    job("compare, a refused profile with itself", "compare bad bad", 2, "", OUT_OF_RANGE),
    job("compare, a refused canonical text with itself", "compare cut cut", 2, "", "canonical text: line 64\n"),
    job("compare, a file too large with itself", "compare over over", 4, "", "file: too large over\n"),
    job("compare, an absent file with itself", "compare missing missing", 4, "", "file: cannot read missing\n"),
    job("compare with a canonical text", "compare canonical five", 0, "same\n"),
    job("address-and-option, the addresses", "compare five six", 1, ASK),
    job("the first one is asked", "compare six five", 1, ASK_SIX),
    job("a refused profile", "check bad", 2, "", OUT_OF_RANGE),
    job("the first refused text", "compare five bad", 2, "", OUT_OF_RANGE),
    job("the largest profile file", "check largest", 0, "ok\n"),
    job("one byte more", "check over", 4, "", "file: too large over\n"),
    job("too large before absent", "compare over missing", 4, "", "file: too large over\n"),
    job("absent before refused", "compare bad missing", 4, "", "file: cannot read missing\n"),
    job("no such file", "canon missing", 4, "", "file: cannot read missing\n"),
    job("a folder", "check folder", 4, "", "file: cannot read folder\n"),
    Row("an empty name", ("check", ""), 4, "", "file: cannot read \n"),
    Row("a name of more lines", ("check", "a\nb\1"), 4, "", "file: cannot read a\\nb\\u{1}\n"),
    Row("a name with a quote and a backslash", ("check", '"\\'), 4, "", 'file: cannot read \\"\\\\\n'),
    Row("a name with an accent", ("check", "é".encode()), 4, "", "file: cannot read é\n"),
    Row("a name of 250 bytes", ("check", LONG), 4, "", f"file: cannot read {LONG}\n"),
    job("run", "run five script", 0, "A s 2800\n"),
    job("run --", "run -- five script", 0, "A s 2800\n"),
    job("run of a canonical text", "run canonical script", 0, "A s 2800\n"),
    job("run of a canonical text of version 1", "run first script", 0, "A s 2800\n"),
    job("run of the largest profile file", "run largest script", 0, "A s 2800\n"),
    job("run of the empty file", "run five /dev/null"),
    job("run, an absent profile", "run missing script", 4, "", "file: cannot read missing\n"),
    job("run, an absent script", "run five absent", 4, "", "file: cannot read absent\n"),
    job("run, both absent", "run missing absent", 4, "", "file: cannot read missing\n"),
    job("run, a profile that is a folder", "run folder script", 4, "", "file: cannot read folder\n"),
    Row("run, an empty name of a profile", ("run", "", "script"), 4, "", "file: cannot read \n", UNREAD, {"script": ASK}),
    Row("run, an empty name of a script", ("run", "five", ""), 4, "", "file: cannot read \n", UNREAD, files_named("five")),
    job("run, a profile file too large", "run over script", 4, "", "file: too large over\n"),
    job("run, too large before absent", "run over absent", 4, "", "file: too large over\n"),
    job("run, absent before refused", "run bad absent", 4, "", "file: cannot read absent\n"),
    job("run, a refused profile", "run bad script", 2, "", OUT_OF_RANGE),
    job("run, a refused canonical text", "run cut script", 2, "", "canonical text: line 64\n"),
    job("run, bytes after a canonical text", "run trailing script", 2, "", "canonical text: bytes after the end\n"),
    job("run, the profile is refused first", "run bad script", 2, "", OUT_OF_RANGE, script=UNREAD),
    job("run, a script that is a folder", "run five folder", 4, "", "input: read failed\n"),
]  # fmt: skip
SIZES = (8191, 8192, 8193, 16384, 16385)  # about that of the blocks in which files are read
SIZED_ROWS = [Row(f"a profile of {it} bytes", "canon sized", 0, PLAIN, files={"sized": sized(it)}) for it in SIZES]
# their last bytes count
SIZED_ROWS += [Row(f"a profile of {it} bytes, the last line wrong", "canon sized", 2, "", "profile: not TOML\n",
                   files={"sized": sized(it, "\nbit=x\n")}) for it in SIZES]  # fmt: skip

# whole profiles, and their faults
REFUSED_PROFILES = r"""
address = 5\naddress = 6|not TOML
address = 5 # \xff|not TOML
|root: address is missing
address = 5\nspeed = 3|root: unknown key
address = "5"|root: address has the wrong kind
address = 5\nbroadcast = 1|root: broadcast has the wrong kind
address = 5\nwraparound = "30"|root: wraparound has the wrong kind
address = 5\nwraparound = 1.0|root: wraparound has the wrong kind
address = 5\nwraparound = []|root: wraparound has the wrong kind
address = 5\nwraparound = {}|root: wraparound has the wrong kind
address = 5\nwraparound = 0|root: wraparound is out of range
address = 5\nwraparound = 31|root: wraparound is out of range
address = 5\nwraparound = -1|root: wraparound is out of range
address = 5\nwraparound = 0\nbroadcast = 0|root: broadcast has the wrong kind
address = 5\nwraparound = 0\naccept_bus_control = 0|root: wraparound is out of range
address = 5\nbit = 65536|root: bit is out of range
address = 5\n[rule]|root: rule has the wrong kind
address = 5\nrule = [[]]|rule 1: rule has the wrong kind
address = 5\n[[rule]]\nsubaddresses = 3|rule 1: direction is missing
address = 5\n[[rule]]\ndirection = "receive"\nsubaddresses = "1,,2"|rule 1: subaddresses is not a list of ranges
address = 5\n[[rule]]\ndirection = "receive"\nsubaddresses = 3\ncounts = "4-2"|rule 1: counts is out of range
address = 5\n[[mode]]\ncodes = 1\n[[mode]]\nto = "all"\ncodes = 1|mode 2: to is out of range
address = 5\n[[mode]]\ncode = 1|mode 1: unknown key
address = 5\n[[mode]]\ncodes = "0-31"\nlegal = false|mode code 2 must be legal
address = 5\n[[initial]]\nsubaddress = 3\nat = 32\nwords = [1, 2]|initial 1: words has too many items
address = 5\n[[initial]]\nsubaddress = 3\nwords = [70000, "x"]|initial 1: words is out of range
"""


def modes(count):
    return "address = 5\n" + "[[mode]]\ncodes = 1\n" * count


PROFILE_ROWS = [
    *(Row(f"run, profile: {fault}", "run refused script", 2, "", f"profile: {fault}\n", files={"refused": unescaped(text), "script": ASK})
      for text, fault in (it.split("|") for it in REFUSED_PROFILES.strip("\n").split("\n"))),
    Row("run, profile: 257 mode entries", "run refused script", 2, "", "profile: root: mode has too many items\n",
        files={"refused": modes(257), "script": ASK}),
    Row("run, profile: 256 mode entries", "run most script", 0, "A s 2800\n", files={"most": modes(256), "script": ASK}),
]  # fmt: skip


@pytest.mark.parametrize("row", ROWS + PROFILE_ROWS, ids=lambda it: it.name)
def test_file(rt1553, row, tmp_path):
    check_row(rt1553, row, tmp_path)


@pytest.mark.parametrize("row", SIZED_ROWS, ids=lambda it: it.name)
def test_sized_file(rt1553, row, tmp_path):
    size = int(row.name.split()[3])
    write_files(tmp_path, row.files)
    assert (tmp_path / "sized").stat().st_size == size
    check_row(rt1553, row, tmp_path)
