"""Tables of results that `rt1553-tool acceptance --against` compares, files that can't be read or written, and progress."""

import contextlib
import csv
import io
import os
import re
import subprocess
import xml.etree.ElementTree as xml
from typing import NamedTuple

import canonical
import pytest
from exchanges import LARGEST, SMALLEST, filled_of, modelled, results_in, results_text, told_by_against
from programs import Given, Row, check_row, run, write_files
from reports import Digests, HTML, VERSIONS, objects_of
from schemas import misfits

# the exchanges of the largest test
TOTAL = 3931
NO_REPLY = "not `none`, or 1 to 33 words of four hexadecimal digits"
NOT_A_NUMBER = "not the number of an exchange"
AGAINST = ("acceptance", "profile", "--against", "results")
REFUSED = [
    ("", "row 1, column 1: no header"),
    ("\n\r\n", "row 1, column 1: no header"),
    ("1,none\n2,2800\n", "row 1, column 3: no column is named number"),
    ("n,reply\n1,none\n", "row 1, column 3: no column is named number"),
    ("Number,reply\n1,none\n", "row 1, column 3: no column is named number"),
    ("number,answer\n1,none\n", "row 1, column 3: no column is named reply"),
    ("number,tries,command,data,expected,handed\r\n1,,fc02,,none,\r\n", "row 1, column 7: no column is named reply"),
    ("number\n1\n", "row 1, column 2: no column is named reply"),
    ("number,reply,number\n1,none,1\n", "row 1, column 3: a second column is named number"),
    ("reply,number,note,reply\nnone,1,,none\n", "row 1, column 4: a second column is named reply"),
    ("number,reply\n1\n", "row 2, column 2: not as many fields as the header"),
    ("number,reply\n1,none\n2,2800,\n", "row 3, column 3: not as many fields as the header"),
    ("number,reply\n0,none\n", f"row 2, column 1: {NOT_A_NUMBER}"),
    ("number,reply\n1,none\n4294967296,none\n", f"row 3, column 1: {NOT_A_NUMBER}"),
    ("number,reply\none,none\n", f"row 2, column 1: {NOT_A_NUMBER}"),
    ("number,reply\n+1,none\n", f"row 2, column 1: {NOT_A_NUMBER}"),
    ("number,reply\n1 1,none\n", f"row 2, column 1: {NOT_A_NUMBER}"),
    ("reply,number\nnone,1\n2c00,2\nnone,1\n", "row 4, column 2: the number of an earlier row"),
    ("number,reply\n1,\n", f"row 2, column 2: {NO_REPLY}"),
    ("number,reply\n1,none\n2,280\n", f"row 3, column 2: {NO_REPLY}"),
    ("number,reply\n2,28 00\n", f"row 2, column 2: {NO_REPLY}"),
    ("number,reply\n2,NONE\n", f"row 2, column 2: {NO_REPLY}"),
    (f"reply,number\n{' '.join(['2800'] * 34)},3\n", f"row 2, column 1: {NO_REPLY}"),
    (f"number,reply\n1,none\n{TOTAL + 1},none\n2,2800\n", "row 3: no exchange has this number"),
    ("number,reply\n1,none\n4294967295,none\n", "row 3: no exchange has this number"),
    # rows are lines of the text, from 1
    ("\ufeffnumber,reply\r\n\r\n1,none\r\n\r\n0,none\r\n", f"row 5, column 1: {NOT_A_NUMBER}"),
    ('note,number,reply\n"two\nlines",1,none\n,0,none\n', f"row 4, column 2: {NOT_A_NUMBER}"),
]
DATE = "2026-11-28T12:00:00Z"
WITHOUT = "arguments: --format junit and html, --any-subsystem and --date are for --against\n"
DATES = "arguments: --date is a date and a time, as 2026-01-31T12:00:00, also with Z or an offset\n"
OUT_OF_RANGE = "profile:1:1: error: profile: root: address is out of range: 31; allowed is a whole number from 0 to 30\n"
FILES = {"profile": LARGEST, "results": "number,reply\n1,none\n"}
FAILING = [
    Row("--against with --format csv", (*AGAINST, "--format", "csv"), 3, errors="arguments: --against excludes --format csv\n", files=FILES),
    Row("--against with --date as text", (*AGAINST, "--date", DATE), 3, errors="arguments: --date is not for text\n", files=FILES),
    Row("--against with a date that is none", (*AGAINST, "--format", "json", "--date", "today"), 3, errors=DATES, files=FILES),
    Row("a report without --against: junit", ("acceptance", "profile", "--format", "junit"), 3, errors=WITHOUT, files=FILES),
    Row("a report without --against: html", ("acceptance", "profile", "--format", "html"), 3, errors=WITHOUT, files=FILES),
    Row("--date without --against", ("acceptance", "profile", "--format", "json", "--date", DATE), 3, errors=WITHOUT, files=FILES),
    Row("--any-subsystem without --against", ("acceptance", "profile", "--any-subsystem"), 3, errors=WITHOUT, files=FILES),
    Row("results that are not there", AGAINST, 4, errors="file: cannot read results: no such file\n", files={"profile": LARGEST}),
    Row("results that are a folder", AGAINST, 4, errors="file: cannot read results: it is a folder\n", files={"profile": LARGEST, "results/in": ""}),
    Row("a profile that is not there", ("acceptance", "profile"), 4, errors="file: cannot read profile: no such file\n"),
]  # fmt: skip
WRITES = [("acceptance", "profile"), ("acceptance", "profile", "--format", "csv"), ("acceptance", "profile", "--format", "json"), AGAINST]


@pytest.fixture
def largest(tmp_path):
    """The exchanges of the test of the profile in the test's folder."""
    write_files(tmp_path, {"profile": LARGEST})
    return modelled(canonical.load(tmp_path / "profile"))


@pytest.mark.parametrize("text, fault", REFUSED, ids=[f"{number} {fault}"[:60] for number, (_, fault) in enumerate(REFUSED, 1)])
def test_refused(shipped, text, fault, tmp_path):
    check_row(shipped.tool, Row("", AGAINST, 2, errors=f"results: results: {fault}\n", files={"profile": LARGEST, "results": text}), tmp_path)


# ---- tables that are compared


def csv_text(rows, quoting=csv.QUOTE_MINIMAL, end="\n"):
    """Rows as CSV."""
    text = io.StringIO()
    csv.writer(text, lineterminator=end, quoting=quoting).writerows(rows)
    return text.getvalue()


def results_of(row_of, exchanges, header="number,reply", quoting=csv.QUOTE_MINIMAL):
    """A table of the replies with this header, whose rows a function gives by number and reply."""
    replies = [(number, " ".join(reply) or "none") for number, reply in results_in(exchanges).items()]
    return csv_text([header.split(","), *(row_of(*it) for it in replies)], quoting)


def with_commands(change, exchanges, number=None):
    """The table with the command of the row of this number changed, or of each row."""
    rows = list(csv.reader(io.StringIO(filled_of(exchanges))))
    for row in rows[1:]:
        if number in (None, int(row[0])):
            row[2] = change(row[2])
    return csv_text(rows, end="\r\n")


def reversed_rows(exchanges):
    """The table with its last row first."""
    header, *rows = filled_of(exchanges).splitlines(True)
    return "".join([header, *reversed(rows)])


# tables that say what the exchanges say
SAME = {
    "lines that end in LF": lambda it: filled_of(it).replace("\r\n", "\n"),
    "no end of the last line": lambda it: filled_of(it).removesuffix("\r\n"),
    "a byte order mark": lambda it: "\ufeff" + filled_of(it),
    "rows the other way round": reversed_rows,
    "empty lines": lambda it: "\n\n" + filled_of(it).replace("\r\n", "\n\n"),
    "more columns, in another order": lambda it: results_of(lambda number, reply: (f'a, "b"\n{number}', reply, number), it, "note,reply,number"),
    "capital digits": lambda it: results_of(lambda number, reply: (number, reply if reply == "none" else reply.upper()), it),
    "quoted fields": lambda it: results_of(lambda number, reply: (number, reply), it, quoting=csv.QUOTE_ALL),
    "numbers with zeros before them": lambda it: results_of(lambda number, reply: (f"{number:08}", reply), it),
    "commands in capital letters": lambda it: with_commands(str.upper, it),
}
ANOTHER_COMMAND = {"another command": lambda word: f"{int(word, 16) ^ 1:04x}", "a command of three digits": lambda word: word[1:]}
MISSING = {
    "no rows": ((), [f"no result for 1 to {TOTAL}", f"{TOTAL} of {TOTAL} exchanges have no result: no verdict"]),
    "one row": ((1,), [f"no result for 2 to {TOTAL}", f"{TOTAL - 1} of {TOTAL} exchanges have no result: no verdict"]),
    "rows that are missing": (
        [number for number in range(1, TOTAL) if number != 12 and not 100 <= number <= 200],
        ["no result for 12", "no result for 100 to 200", f"no result for {TOTAL}", f"103 of {TOTAL} exchanges have no result: no verdict"],
    ),
}


def against(tool, folder, text):
    """What the program tells of a table of results."""
    write_files(folder, {"results": text})
    return run(tool, *AGAINST, folder=folder)


@pytest.mark.parametrize("name", SAME)
def test_same(shipped, largest, name, tmp_path):
    told = f"all {TOTAL} exchanges are answered as by this terminal: it is the same terminal\n"
    assert against(shipped.tool, tmp_path, SAME[name](largest)) == Given(0, told.encode(), b"")


@pytest.mark.parametrize("name", ANOTHER_COMMAND)
def test_another_command(shipped, largest, name, tmp_path):
    told = "results: results: row 4, column 3: another command than that of this exchange\n"
    assert against(shipped.tool, tmp_path, with_commands(ANOTHER_COMMAND[name], largest, 3)) == Given(2, b"", told.encode())


@pytest.mark.parametrize("name", MISSING)
def test_missing_rows(shipped, largest, name, tmp_path):
    numbers, told = MISSING[name]
    rows = filled_of(largest).split("\r\n")
    text = "\n".join(rows[number] for number in [0, *numbers])
    assert against(shipped.tool, tmp_path, text) == Given(1, "".join(f"{line}\n" for line in told).encode(), b"")


def test_other_replies_and_a_missing_row(shipped, largest, tmp_path):
    long = next(number for number, it in enumerate(largest, 1) if len(it.reply()) == 33)
    words = largest[long - 1].reply()
    results = {**results_in(largest), 1: ("2c10",), long: words[:-1]}
    del results[7]
    told = ["1: broadcast transmit status word: illegal: expected none, came 2c10",
            f"{long}: {largest[long - 1].tries}: expected {' '.join(words)}, came {' '.join(words[:-1])}",
            "no result for 7", f"2 of {TOTAL} exchanges are answered otherwise: it is another terminal"]  # fmt: skip
    assert told_by_against(largest, results).output.decode().splitlines() == told
    assert against(shipped.tool, tmp_path, results_text(results)) == told_by_against(largest, results)


# ---- reports


def report(tool, folder, form, *words):
    """What the program reports of the results in a folder, in a format."""
    return run(tool, *AGAINST, "--format", form, *words, folder=folder)


class Told(NamedTuple):
    """A reply that differs, as a report tells it."""

    line: int
    number: int
    command: str
    tries: str
    word: int
    expected: list
    came: list

    def text(self):
        """As a line of JUnit, behind the line of its row."""
        replies = [" ".join(it) or "none" for it in (self.expected, self.came)]
        return f"{self.number}: command {self.command}, word {self.word}: {self.tries}: expected {replies[0]}, came {replies[1]}"


def differing(largest):
    """A table with other replies and a missing row, and the differences that a report tells."""
    long = next(number for number, it in enumerate(largest, 1) if number > 102 and len(it.reply()) > 3)
    reply = list(largest[long - 1].reply())
    came = [*reply[:2], f"{int(reply[2], 16) ^ 1:04x}"]
    results = {**results_in(largest), 2: ("2800",), 102: (), long: came}
    del results[7]
    wrong = {2: (list(largest[1].reply()), ["2800"], 1), 102: (list(largest[101].reply()), [], 1), long: (reply, came, 3)}
    told = [Told(number + (number < 7), number, largest[number - 1].command, largest[number - 1].tries, word, expected, came)
            for number, (expected, came, word) in sorted(wrong.items())]  # fmt: skip
    return results_text(results), told


def verdict(count):
    """The last line where so many replies differ."""
    return f"{count} of {TOTAL} exchanges are answered otherwise: it is another terminal"


def test_report_in_json(shipped, largest, tmp_path):
    text, told = differing(largest)
    write_files(tmp_path, {"results": text})
    given = report(shipped.tool, tmp_path, "json", "--date", DATE)
    (one,) = objects_of(given.output.decode())
    assert (given.status, misfits(one, "docs/verify.schema.json")) == (1, [])
    assert [Told(**it) for it in one["differences"]] == told
    assert (one["missing"], one["verdict"]) == ([{"first": 7, "last": 7}], verdict(3))
    assert (one["file"], one["profile"], one["passes"], one["answers"], one["date"]) == ("results", "profile", False, TOTAL, DATE)
    assert {it: one[it] for it in VERSIONS} == VERSIONS
    digests = Digests(shipped.tool, tmp_path)
    assert [one["sha256"], one["profile_sha256"], one["canonical_sha256"]] == [digests.of("results"), digests.of("profile"), digests.canonical("profile")]


def test_report_in_junit(shipped, largest, tmp_path):
    text, told = differing(largest)
    write_files(tmp_path, {"results": text})
    given = report(shipped.tool, tmp_path, "junit", "--date", DATE)
    suite = xml.fromstring(given.output).find("testsuite")
    assert (given.status, suite.get("name"), suite.get("timestamp"), suite.get("failures")) == (1, "rt1553-tool acceptance", DATE, "1")
    case = suite.find("testcase")
    assert (case.get("name"), case.get("classname"), case.get("assertions")) == ("results", "profile", str(TOTAL))
    failure = case.find("failure")
    assert failure.get("message") == verdict(3)
    assert failure.text.splitlines() == [*(f"results:{it.line}: {it.text()}" for it in told), "results: no result for 7"]


def marked(words, others):
    """The words of a reply as a page has them: each that the other reply has not in its place is marked."""
    return [(it, it != other) for it, other in zip(words, [*others, *[None] * 33])]


def words_of(cell):
    """The words in a cell, and which are marked."""
    parts = [(cell.text, False), *(it for bold in cell for it in ((bold.text, True), (bold.tail, False)))]
    return [(word, is_marked) for text, is_marked in parts for word in (text or "").split() if word != "none"]


def test_report_as_page(shipped, largest, tmp_path):
    text, told = differing(largest)
    write_files(tmp_path, {"results": text})
    given = report(shipped.tool, tmp_path, "html")
    page = xml.fromstring(given.output)
    rows = [list(row) for row in page.iter(f"{HTML}tr") if len(list(row)) == 7 and row[0].tag == f"{HTML}td"]
    assert [["".join(cell.itertext()) for cell in row[:5]] for row in rows] == [[str(it) for it in (one.line, one.number, one.tries, one.command, one.word)] for one in told]
    assert [[words_of(row[5]), words_of(row[6])] for row in rows] == [[marked(one.expected, one.came), marked(one.came, one.expected)] for one in told]
    texts = ["".join(it.itertext()) for it in page.iter(f"{HTML}p")]
    assert (given.status, texts, page.find(f".//{HTML}h1").text) == (1, [verdict(3), "no result for 7"], f"Acceptance test of a unit: {verdict(3)}")


def test_report_with_names(shipped, largest, tmp_path):
    """Each format has the name of the message, or that it has none; the verdict stays."""
    text, told = differing(largest)
    table = "kind,value,code,name\naddress,5,,\nmode,,2,<status>\n"
    write_files(tmp_path, {"results": text, "names": table})
    words = ("--names", "names")
    (one,) = objects_of(report(shipped.tool, tmp_path, "json", *words).output.decode())
    assert (misfits(one, "docs/verify.schema.json"), [it["name"] for it in one["differences"]]) == ([], ["<status>", None, None])
    failure = xml.fromstring(report(shipped.tool, tmp_path, "junit", *words).output).find(".//failure")
    assert failure.text.splitlines()[0] == f'results:3: {told[0].text().replace("2: ", "2: " + chr(34) + "<status>" + chr(34) + ": ", 1)}'
    rows = [list(row) for row in xml.fromstring(report(shipped.tool, tmp_path, "html", *words).output).iter(f"{HTML}tr") if len(list(row)) == 8]
    assert ["".join(row[2].itertext()) for row in rows[1:]] == ['"<status>"', "", ""]


@pytest.mark.parametrize("form", ["json", "junit", "html"])
def test_report_of_the_same(shipped, largest, form, tmp_path):
    write_files(tmp_path, {"results": filled_of(largest)})
    given = report(shipped.tool, tmp_path, form)
    passed = {"json": b'"passes":true', "junit": b'failures="0" errors="0"', "html": b"None: every file passes."}
    assert (given.status, given.errors, passed[form] in given.output) == (0, b"", True)


def test_report_of_any_subsystem(shipped, largest, tmp_path):
    number = next(number for number, it in enumerate(largest, 1) if it.reply() == ("2800",))
    results = {**results_in(largest), number: ("2c00",)}
    write_files(tmp_path, {"results": results_text(results)})
    (one,) = objects_of(report(shipped.tool, tmp_path, "json", "--any-subsystem").output.decode())
    told = Told(number + 1, number, largest[number - 1].command, largest[number - 1].tries, 1, ["2800"], ["2c00"])
    assert [Told(**it) for it in one["differences"]] == [told]
    assert one["verdict"] == f"no behaviour of the subsystem explains exchange {number} of {TOTAL}: it is another terminal"


def test_missing_rows_of_any_subsystem(shipped, largest, tmp_path):
    results = results_in(largest)
    del results[9], results[12]
    write_files(tmp_path, {"results": results_text(results)})
    told = f"no result for 9\nno result for 12\n2 of {TOTAL} exchanges have no result, and from 9 on nothing is judged: no verdict\n"
    assert run(shipped.tool, *AGAINST, "--any-subsystem", folder=tmp_path) == Given(1, told.encode(), b"")


# ---- files that fail, and progress


@pytest.mark.parametrize("row", FAILING, ids=lambda it: it.name)
def test_failing(shipped, row, tmp_path):
    check_row(shipped.tool, row, tmp_path)


def test_results_that_are_too_large(shipped, tmp_path):
    write_files(tmp_path, FILES)
    os.truncate(tmp_path / "results", 4_194_305)
    assert run(shipped.tool, *AGAINST, folder=tmp_path) == Given(4, b"", b"file: too large results: at most 4,194,304 bytes\n")


@pytest.mark.parametrize("words", WRITES, ids=" ".join)
def test_profile_that_is_refused(shipped, words, tmp_path):
    check_row(shipped.tool, Row("", words, 2, errors=OUT_OF_RANGE, files={**FILES, "profile": "address = 31\n"}), tmp_path)


@pytest.mark.parametrize("words", WRITES, ids=" ".join)
def test_output_that_is_full(shipped, words, tmp_path):
    write_files(tmp_path, FILES)
    with open("/dev/full", "wb") as full:
        done = subprocess.run([shipped.tool, *words], cwd=tmp_path, stdin=subprocess.DEVNULL, stdout=full, stderr=subprocess.PIPE, check=False)
    assert (done.returncode, done.stderr) == (4, b"output: write failed\n")


def read_all(file):
    """What is written to a terminal, until nobody writes to it any more: that is an error of the system."""
    shown = b""
    with contextlib.suppress(OSError):
        while piece := os.read(file, 65536):
            shown += piece
    return shown


def test_progress(shipped, tmp_path):
    """Where somebody looks at the standard error alone, the exchanges are counted there, and the line is empty at the end."""
    write_files(tmp_path, {"profile": SMALLEST})
    quiet = run(shipped.tool, "acceptance", "profile", folder=tmp_path).output
    master, slave = os.openpty()
    words = [shipped.tool, "acceptance", "profile"]
    done = subprocess.run(words, cwd=tmp_path, stdin=subprocess.DEVNULL, stdout=subprocess.PIPE, stderr=slave, check=False)
    os.close(slave)
    shown = read_all(master)
    os.close(master)
    steps = range(64, len(re.findall(rb"^# ", quiet, re.M)) + 1, 64)
    wanted = "".join(f"\r{number} exchanges" for number in steps) + "\r\x1b[K"
    assert (done.returncode, done.stdout == quiet, shown.decode()) == (0, True, wanted)
