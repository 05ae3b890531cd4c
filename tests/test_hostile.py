"""Nothing that comes from a file or an argument reaches a terminal raw.

Names of files, keys and values of profiles, comments and stated answers of scripts, lines of words and arguments have each
control character and each character that turns the direction of writing. What is printed has none of them, and each fault is
one line. A test has a run for each character.
"""

from typing import NamedTuple

import pytest
from programs import run, write_files

CONTROLS = [chr(it) for it in range(1, 32)] + [chr(127)] + [chr(it) for it in range(128, 160)]
TURNING = [chr(it) for it in [*range(0x2028, 0x202F), *range(0x2066, 0x206A)]]
HOSTILE = CONTROLS + TURNING
# what is never printed; the last one stands for bytes that are no UTF-8
NEVER = {*HOSTILE, "\ufffd"} - {"\n"}
FILES = {"five": "address = 5\n", "named": "# Profile: five\nA gap\n"}


class Row(NamedTuple):
    """`PROGRAM WORDS` with these files: how many lines of faults there are, and the statuses that may be. None is anything.

    In words, input and files and their names `~` stands for the character, and `^` for it in a TOML string.
    """

    name: str
    words: tuple
    faults: "int | None" = None
    status: "int | None" = None
    files: dict = {}
    stdin: str = ""
    characters: list = HOSTILE
    program: str = "tool"


def rows_of(name, files, *rows, **same):
    """Rows over the same files: each a text of words, the lines of faults and the status."""
    return [Row(f"{name}: {words}", tuple(words.split()), faults, status, files, **same) for words, faults, status in rows]


ABSENT = rows_of(
    "absent", {},
    ("lint no~file", 1, 4), ("toml no~file", 1, 4), ("explain no~file", 1, 4), ("live no~file", 1, 4), ("acceptance no~file", 1, 4),
    ("check-script no~file", 1, 4), ("verify five no~file", 1, 4), ("draw five no~file", 1, 4), ("differ five no~file", 1, 4),
    ("verify --format json five no~file", 1, 4), ("verify --format junit five no~file", 1, 4), ("verify --format html five no~file", 1, 4),
    ("verify --profiles no~file named", 1, 4), ("import no~file", 1, 4), ("expand no~file", 1, 4),
) + rows_of("absent: rt1553", {}, ("check no~file", 1, 4), ("canon no~file", 1, 4), program="rt1553")  # fmt: skip
REFUSED = [
    *rows_of("refused", {"pro~file": "address = 31\n"},
             ("lint pro~file", 0, 2), ("toml pro~file", 1, 2), ("explain pro~file", 1, 2), ("live pro~file", 1, 2), ("acceptance pro~file", 1, 2),
             ("lint --format json pro~file no~file", 1, 4), ("lint --format sarif pro~file no~file", 1, 4)),
    *rows_of("refused", {"scr~ipt": "A gap\nA gup\n"}, ("check-script scr~ipt", 0, 2), ("verify five scr~ipt", 1, 2), ("draw five scr~ipt", 1, 2)),
    *rows_of("refused", {"res~ults": "number\n"}, ("acceptance --against res~ults five", 1, 2)),
    *rows_of("refused", {"scr~ipt": "kind\nA gup\n"}, ("import scr~ipt", 2, 2), ("expand scr~ipt", 2, 2)),
]  # fmt: skip
NAMES = [
    *rows_of("another", {"pro~file": "address = 6\n"}, ("differ five pro~file", 0, 1)),
    *rows_of("differs", {"scr~ipt": "A c 2c02\nA gap\nslot\n"},
             ("verify --summary five scr~ipt", 1, 1), ("verify --format json five scr~ipt", 1, 1), ("verify --format junit five scr~ipt", 1, 1),
             ("verify --format html five scr~ipt", 1, 1), ("draw --html five scr~ipt", 0, 0)),
]  # fmt: skip
# arguments that clap repeats
ARGUMENTS = [Row(f"arguments: {' '.join(it)}", it, None, 3) for it in (
    ("li~nt",), ("explain", "five", "mo~re"), ("explain", "--fo~rmat", "five"), ("lint", "--format", "te~xt", "five"))]  # fmt: skip
# keys, texts and syntax of a profile
PROFILES = [row for name, faults, text in (
    ("key", 1, 'address = 5\n"ke^y" = 1\n'),
    ("text", 2, 'address = 5\n[[rule]]\ndirection = "u^p"\nsubaddresses = "1^"\n'),
    ("syntax", 1, "address = 5\nx~y = [\n"),
) for row in [
    *rows_of(name, {"it": text}, ("lint it", 0, 2), ("lint --format sarif it", 0, 2), ("toml it", faults, 2)),
    *rows_of(f"{name}: rt1553", {"it": text}, ("check it", 1, 2), program="rt1553"),
]]  # fmt: skip
# names of columns and rows, kinds and values of a table
TABLE = 'kind,name,value,"col~umn",words,subaddress\naddress,,5,,,\nreceive,"na~me",,,2,1\n'
TABLES = [
    *rows_of("names", {"table": TABLE}, ("import table", 1, 0)),
    *rows_of("names", {
        "table": TABLE,
        "one": 'address = 5\n[[rule]]\ndirection = "receive"\nsubaddresses = 1\ncounts = 2\n',
        "stated": "A c 2822\nA d 0001\nA d 0002\nA gap\nslot\n#> A s 2801\n",
    }, ("explain --names table one", 0, 0), ("explain --names table --format json one", 0, 0), ("differ --names table five one", 0, 1),
       ("differ --names table --format json five one", 0, 1), ("verify --names table one stated", 0, 1),
       ("verify --names table --format json one stated", 0, 1), ("verify --names table --format junit one stated", 0, 1),
       ("verify --names table --format html one stated", 0, 1), ("draw --names table one stated", 1, 0),
       ("draw --names table --html one stated", 1, 0)),
    *rows_of("a kind", {"table": 'kind,value\n"ki~nd",""\n'}, ("import table", None, 2)),
    *rows_of("a value", {"table": 'kind,value\n"address","5~6"\n'}, ("import table", None, 2)),
    *rows_of("messages", {"messages": "A rx 5 3 1: 00~1\n~A gap\n"}, ("expand messages", None, 2)),
]  # fmt: skip
# comments that name something, stated answers, lines of words and of a live terminal
IN_A_LINE = [it for it in HOSTILE if it != "\n"]
CLAUSE = {"clause": "# Plan: \r~[2Kall: 9 of 9 scripts pass\nA gap\n"}
STATED = {"stated": "A c 2c02\nA gap\nslot\n#> A s ~\n#+ ~x\n"}
SCRIPTS = [
    *rows_of("a clause", CLAUSE, ("verify --summary five clause", 0, 3), ("verify --format json five clause", 0, 3),
             ("verify --format junit five clause", 0, 3), ("verify --format html five clause", 0, 3), characters=IN_A_LINE),
    *rows_of("an answer", STATED, ("verify five stated", 1, 2), ("verify --format json five stated", 1, 2),
             ("verify --format junit five stated", 1, 2), ("verify --format html five stated", 1, 2), characters=IN_A_LINE),
    *rows_of("a profile", {"names": "# Profile: no~ne\nA gap\n"}, ("verify --profiles . names", 1, 4), characters=IN_A_LINE),
    Row("words", ("words",), 0, None, stdin="# ~\nrx ~\nx~\nc 2862 ~\n", characters=IN_A_LINE),
    Row("live", ("live", "five"), 0, 0, stdin="A~\n# ~\n", characters=IN_A_LINE),
]  # fmt: skip
# names of the files of a bus, and of messages
BUSES = rows_of(
    "bus", {
        "ta~ble": 'kind,name,value,words,subaddress\naddress,,5,,\ntransmit,"na~me",,2,1\n', "ot~her": "kind,name,value\naddress,,6\n",
        "scr~ipt": "A tx 5 1 2\n",
    },
    *(row for more in ("", "--format json ", "--format junit ") for row in (
        (f"bus --check {more}--names ta~ble five scr~ipt", 0, 1), (f"bus --check {more}--names ot~her five scr~ipt", 1, 2),
        (f"bus --check {more}--names ta~ble --names ta~ble five scr~ipt", 1, 2), (f"bus --check {more}five no~file", 1, 4),
    )),
) + rows_of("bus: a rate", {"rates": "# rate 5~\n"}, ("bus --check five rates", 1, 0), characters=[it for it in HOSTILE if it not in "\n"])  # fmt: skip
# names in an acceptance test and in what is compared with it
ACCEPTANCE = rows_of(
    "acceptance", {
        "table": 'kind,name,value,words,subaddress\naddress,,5,,\nreceive,"na~me",,2,1\n',
        "replies": "number,reply\n" + "".join(f"{number},2c00\n" for number in range(1, 1936)),
    },
    ("acceptance --names table five", 0, 0), ("acceptance --names table --format csv five", 0, 0),
    ("acceptance --names table --format json five", 0, 0), ("acceptance --names table --against replies five", 0, 1),
    *((f"acceptance --names table --against replies --format {it} five", 0, 1) for it in ("json", "junit", "html")),
    characters=["\x1b", "\x85", "\u202e", "\n"],
)  # fmt: skip
ROWS = ABSENT + REFUSED + NAMES + ARGUMENTS + PROFILES + TABLES + SCRIPTS + BUSES + ACCEPTANCE


def found_in(given, row):
    """What is raw in what a run printed, and the lines of faults and the status where the row states them."""
    # a table ends its lines in CR LF (RFC 4180)
    output = given.output.replace(b"\r\n", b"\n") if "csv" in row.words else given.output
    raw = NEVER & set((output + given.errors).decode("utf-8", "replace"))
    lines, status = given.errors.count(b"\n"), given.status
    return sorted(f"U+{ord(it):04X}" for it in raw), lines if row.faults is not None else None, status if row.status is not None else None


def with_character(text, it):
    return text.replace("~", it).replace("^", f"\\u{ord(it):04X}")


@pytest.mark.parametrize("row", ROWS, ids=lambda it: it.name[:60])
def test_hostile(build, row, tmp_path, count_runs):
    found = {}
    for it in row.characters:
        write_files(tmp_path, {**FILES, **{with_character(name, it): with_character(text, it) for name, text in row.files.items()}})
        words = [with_character(word, it) for word in row.words]
        found[it] = found_in(run(getattr(build, row.program), *words, stdin=with_character(row.stdin, it), folder=tmp_path), row)
    assert found == {it: ([], row.faults, row.status) for it in row.characters}
    count_runs(len(row.characters))


OTHERS = [
    *rows_of("no UTF-8", {"bytes": b"# Plan: \xff\x9b1m\nA c 2c02\nA gap\nslot\n#> A s \xff\n"}, ("verify --summary five bytes", 1, 2)),
    Row("no UTF-8: words", ("words",), 0, stdin=b"# \xff\n\xff\n"),
    Row("no UTF-8: an argument", (b"lint", b"\xff"), 1, 3),
    Row("an empty name", ("explain", ""), 1, 4),
    *(row for name in ("../five", "/five", "a/../../five") for row in rows_of(
        f"outside of the folder: {name}", {"outside": f"# Profile: {name}\nA gap\n"}, ("verify --profiles . outside", 1, 2))),
]  # fmt: skip


@pytest.mark.parametrize("row", OTHERS, ids=lambda it: it.name[:60])
def test_hostile_others(tool, row, tmp_path):
    """What is no UTF-8, and names that are empty or lead elsewhere."""
    write_files(tmp_path, {**FILES, **row.files})
    assert found_in(run(tool, *row.words, stdin=row.stdin, folder=tmp_path), row) == ([], row.faults, row.status)
