"""The reports of `rt1553-tool` that machines read: `verify` and `coverage` in each format, and `lint` as SARIF.

Plays the protocol tests, and scripts made here that pass, differ, are refused or can't be read. Names of files, clauses, answers,
keys and values of profiles have each character that would mean something in XML, JSON or HTML or to a terminal. A report has no time but
a date that is given, so that it is the same each time. What each must be like is in tests/reports.py.
"""

import datetime
import hashlib
import json
import os
import subprocess
from typing import NamedTuple

import pytest
import reports
from programs import TOP, Row, check_row, run, with_files, write_files

# what means something in XML, HTML, JSON or a URI, or is no text of XML, or lies beyond the first plane
MARKED = ["<", ">", "&", '"', "'", "\\", "]]>", "-->", "%", "#", "?", ":", " ", "{", "é", "\ufffe", "\uffff", "\U0001f600", "\U000e0001"]
HOSTILE = [*reports.CONTROLS, *reports.TURNING, *MARKED]
FORMATS = ["json", "junit", "html"]
GOOD = "A c 2c02\nA gap\nslot\n#> A s 2800\n"
SILENT = "A c 2c02\nA gap\nslot\n"
FIVE = {"five": "address = 5\n"}

SMALL = {
    **FIVE,
    "good": f"# Plan: 5.2.1, 5.2.1.1\n{GOOD}",
    "wrong": f"# Plan: 5.2.1\n{SILENT}#> A s 2c00\nslot\n#> A d 0000\nA gap\n{GOOD}{SILENT}",
    "broken": "A c 2c02\nA gap\nslot \n",
    "empty": "# a comment\n",
    "unstated": "A gap\n",
}
FOLDER = {
    **FIVE,
    "six": "address = 6\n",
    "one": f"# Profile: five\n# Plan: 2\n{GOOD}",
    "two": f"# Profile: six\n# Standard: 10\n{GOOD}",
    "bare": f"# Plan: 2\n{GOOD}",
    "away": f"# Profile: ../five\n{GOOD}",
    "gone": f"# Profile: seven\n{GOOD}",
}
LONG = {f"long{count}": "slot\n" * count + "#> A s 2800\n" for count in (4096, 4097)}
HOSTILE_SCRIPTS = {
    **{f"scr{it}ipt{at}": f"# Profile: pro{it}file\n# Plan: 5{it}2, x{it}, y\n{SILENT}#> A s {it}\n#+ {it}x\n" for at, it in enumerate(HOSTILE)},
    "bytes": b"# Profile: \xff\n# Plan: \xff\x9b1m\nA c 2c02\nA gap\nslot\n#> A s \xff\n",
}
HOSTILE_FILES = {**FIVE, **HOSTILE_SCRIPTS, **{f"pro{it}file": "address = 5\n" for it in HOSTILE}}


class Verified(NamedTuple):
    """Scripts that are verified together, by `verify WORDS NAMES` in a folder with these files, or in this repository."""

    name: str
    words: list
    names: list
    files: "dict | None"


VERIFIED = [
    Verified("small scripts", ["five"], ["good", "wrong", "broken", "none"], SMALL),
    Verified("nothing differs", ["five"], ["good"], SMALL),
    Verified("scripts that show nothing", ["five"], ["empty", "unstated", "good"], SMALL),
    Verified("a script of which nothing is judged, and others", ["five"], ["unstated", "wrong", "broken"], SMALL),
    Verified("a script that is refused alone", ["five"], ["broken"], SMALL),
    Verified("each script names its profile", ["--profiles", "."], ["one", "two", "bare", "away", "gone", "none", "one"], FOLDER),
    *(Verified(f"{name[4:]} events", ["five"], [name], {**FIVE, name: text}) for name, text in LONG.items()),
    Verified("60 messages that differ", ["five"], ["each"], {**FIVE, "each": SILENT * 60}),
    Verified("1025 messages that differ", ["five"], ["many"], {**FIVE, "many": SILENT * 1025}),
    Verified("hostile names, clauses and answers", ["--profiles", "."], [*HOSTILE_SCRIPTS], HOSTILE_FILES),
    Verified("hostile clauses and answers", ["five"], [*HOSTILE_SCRIPTS], HOSTILE_FILES),
    Verified("hostile names that are not there", ["five"], [f"no{it}ne" for it in HOSTILE], FIVE),
    Verified("the protocol tests", ["--profiles", "examples/validation/profiles"],
             [str(it.relative_to(TOP)) for part in ("scripts", "choices") for it in sorted((TOP / "examples/validation" / part).glob("*"))], None),
]  # fmt: skip
# what is drawn on a page: the lines of the messages that differ, of the first 1,024
DRAWN = {
    "small scripts": ("wrong", [2, 3, 4, 6, 8, 13, 14, 15]),
    "4096 events": ("long4096", [*range(4033, 4097)]),
    "4097 events": ("long4097", [4097]),
    "60 messages that differ": ("each", [*range(1, 181)]),
    "1025 messages that differ": ("many", [*range(1, 3073)]),
}


@pytest.fixture(scope="module")
def shown(tool):
    return reports.Shown(tool)


@pytest.fixture
def verify(tool, tmp_path):
    """Verifies scripts in a format, or with other options."""
    def verify(it, *options):
        write_files(tmp_path, it.files or {})
        return run(tool, "verify", *options, *it.words, *it.names, folder=tmp_path if it.files else TOP)

    return verify


@pytest.mark.parametrize("it", VERIFIED, ids=lambda it: it.name)
@pytest.mark.parametrize("form", FORMATS)
def test_report(tool, verify, shown, it, form, tmp_path):
    """Each format says the same as the text format, has the same status and the same faults, and is the same each time."""
    told = reports.Told(verify(it, "--summary"), [shown[name] for name in it.names])
    given = verify(it, "--format", form)
    assert (given.status, reports.lines_of(given.errors)) == (told.status, told.told)
    profile = it.words[0] if len(it.words) == 1 else None
    found = reports.look_at_json(verify(it, "--format", "json").output.decode(), told, it.names, profile, shown)
    folder = tmp_path if it.files else TOP
    reports.look_at_digests(found, reports.Digests(tool, folder, "" if profile else it.words[1]))
    reports.look_at_rules(found, folder)
    assert given == verify(it, "--format", form)
    if form == "junit":
        reports.look_at_junit(given.output.decode(), found, shown)
    elif form == "html":
        reports.look_at_page(given.output.decode(), found, told.clauses, shown)


@pytest.mark.parametrize("it", [it for it in VERIFIED if it.name in DRAWN], ids=lambda it: it.name)
def test_messages_that_are_drawn(verify, it):
    name, lines = DRAWN[it.name]
    assert reports.drawn_lines(verify(it, "--format", "html").output.decode(), name) == lines


def test_profiles_in_a_report(verify):
    it = next(it for it in VERIFIED if it.files is FOLDER)
    found = reports.objects_of(verify(it, "--format", "json").output.decode())
    assert [one["profile"] for one in found] == ["five", "six", None, "../five", "seven", None, "five"]


ROWS = with_files(
    SMALL,
    *(Row(f"--summary beside {it}", f"verify --summary --format {it} five good", 3, errors="arguments: --summary is for --format text alone\n") for it in FORMATS),
    *(Row(f"a profile that is not there: {it}", f"verify --format {it} none good", 4, errors="file: cannot read none: no such file\n") for it in FORMATS),
)  # fmt: skip


# a report to the byte: of the scripts `good`, `wrong` and `none`, with digests of `five`, of its canonical text, and of the scripts

JSON = """\
{{"file":"good","profile":"five","passes":true,"result":"passes","answers":1,"warning":null,"clauses":["5.2.1","5.2.1.1"],"differences":[],"fault":null,\
"sha256":"{good}",{rest}
{{"file":"wrong","profile":"five","passes":false,"result":"differs","answers":3,"warning":null,"clauses":["5.2.1"],"differences":[\
{{"line":4,"rule":"Plan: 5.2.1","expected":"A s 2c00","came":"A s 2800"}},{{"line":6,"rule":"Plan: 5.2.1","expected":"A d 0000","came":null}},\
{{"line":15,"rule":"Plan: 5.2.1","expected":null,"came":"A s 2800"}}],"fault":null,"sha256":"{wrong}",{rest}
{{"file":"none","profile":"five","passes":false,"result":"not played","answers":null,"warning":null,"clauses":[],"differences":[],\
"fault":"file: cannot read none: no such file","sha256":null,{rest}
"""
REST = """\
"profile_sha256":"{five}","canonical_sha256":"{canonical}","names":null,"names_sha256":null,"program":"0.1","toolchain":"{kit}",\
"canonical":"2","date":"2026-01-31T12:00:00Z"}}"""
JUNIT = """\
<?xml version="1.0" encoding="UTF-8"?>
<testsuites tests="3" failures="1" errors="1" skipped="0" time="0">
<testsuite name="rt1553-tool verify" tests="3" failures="1" errors="1" skipped="0" time="0" timestamp="2026-01-31T12:00:00Z">
<properties>
<property name="program" value="0.1"/>
<property name="toolchain" value="{kit}"/>
<property name="canonical" value="2"/>
</properties>
<testcase name="good" classname="five" assertions="1" time="0">
<properties>
<property name="sha256" value="{good}"/>
{profile}<property name="clause" value="5.2.1"/>
<property name="clause" value="5.2.1.1"/>
</properties>
</testcase>
<testcase name="wrong" classname="five" assertions="3" time="0">
<properties>
<property name="sha256" value="{wrong}"/>
{profile}<property name="clause" value="5.2.1"/>
</properties>
<failure message="differences: 3">wrong:4: expected A s 2c00, came A s 2800 # Plan: 5.2.1
wrong:6: expected A d 0000, came nothing # Plan: 5.2.1
wrong:15: expected nothing, came A s 2800 # Plan: 5.2.1
</failure>
</testcase>
<testcase name="none" classname="five" time="0">
<properties>
{profile}</properties>
<error message="file: cannot read none: no such file"/>
</testcase>
</testsuite>
</testsuites>
"""
PROFILE = '<property name="profile_sha256" value="{five}"/>\n<property name="canonical_sha256" value="{canonical}"/>\n'
DATED = ["--date", "2026-01-31T12:00:00Z"]


@pytest.mark.parametrize("form, text", [("json", JSON), ("junit", JUNIT)], ids=["json", "junit"])
def test_to_the_byte(tool, form, text, tmp_path):
    write_files(tmp_path, SMALL)
    digests = reports.Digests(tool, tmp_path)
    fields = {**{it: digests.of(it) for it in ("five", "good", "wrong")}, "canonical": digests.canonical("five"), "kit": reports.VERSIONS["toolchain"]}
    text = text.format(rest=REST.format(**fields), profile=PROFILE.format(**fields), **fields)
    given = run(tool, "verify", "--format", form, *DATED, "five", "good", "wrong", "none", folder=tmp_path)
    assert given == (4, text.encode(), b"file: cannot read none: no such file\n")


# dates, tables of names, messages, and recordings that are read on

DATES = ["2026-01-31T12:00:00", "2024-02-29T23:59:59Z", "2000-02-29T00:00:00+14:00", "0001-01-01T00:00:00-00:30", "9999-12-31T23:59:59+05:45"]
NO_DATES = ["", "2026-01-31", "12:00:00", "2026-01-31 12:00:00", "2026-01-31T12:00", "2026-1-31T12:00:00", "2026-01-31T12:00:00z", "2026-01-31t12:00:00",
            "2026-01-31T12:00:00.5", "2026-01-31T12:00:00+1:00", "2026-01-31T12:00:00+0100", "2026-01-31T12:00:00+14:01", "2026-01-31T12:00:00+01:60",
            "2026-01-31T12:00:00ZZ", "2026-13-01T12:00:00", "2026-00-01T12:00:00", "2026-04-31T12:00:00", "2026-01-00T12:00:00", "2025-02-29T12:00:00",
            "1900-02-29T12:00:00", "0000-01-01T12:00:00", "2026-01-31T24:00:00", "2026-01-31T12:60:00", "2026-01-31T12:00:60", "20260131T120000",
            " 2026-01-31T12:00:00", "2026-01-31T12:00:00 ", "２026-01-31T12:00:00", "12026-01-31T12:00:00", "2026/01/31T12:00:00", "x026-01-31T12:00:00"]  # fmt: skip
NAMED = {
    **SMALL,
    "na<m>es.csv": "kind,value,subaddress,words,code,name\naddress,5,,,,\nmode,,,,2,status\n",
    "messages": "A mode 5 2\n",
    "refused messages": "A mode 5 2\nx\n",
}


@pytest.mark.parametrize("form", FORMATS)
@pytest.mark.parametrize("date", DATES)
def test_date(tool, shown, form, date, tmp_path):
    datetime.datetime.fromisoformat(date)
    it = Verified("", ["five"], ["good", "wrong"], SMALL)
    look_at_all(tool, shown, it, form, tmp_path, date=date)


@pytest.mark.parametrize("date", NO_DATES)
def test_no_date(tool, date, tmp_path):
    write_files(tmp_path, SMALL)
    given = run(tool, "verify", "--format", "json", f"--date={date}", "five", "good", folder=tmp_path)
    assert given == (3, b"", b"arguments: --date is a date and a time, as 2026-01-31T12:00:00, also with Z or an offset\n")


@pytest.mark.parametrize("words", [[], ["--summary"], ["--format", "text"]], ids=" ".join)
def test_date_of_a_text(tool, words, tmp_path):
    write_files(tmp_path, SMALL)
    assert run(tool, "verify", *words, *DATED, "five", "good", folder=tmp_path) == (3, b"", b"arguments: --date is not for text\n")


def look_at_all(tool, shown, it, form, folder, words=(), date=None, names=None):
    """A report of a profile and scripts with these words and this date, which its JSON and the text tell too. The objects of JSON."""
    write_files(folder, it.files)
    told = reports.Told(run(tool, "verify", "--summary", *words, *it.words, *it.names, folder=folder), [shown[name] for name in it.names])
    words = ["verify", *words, *(["--date", date] if date else []), *it.words, *it.names, "--format"]
    given, lines = (run(tool, *words, form, folder=folder).output.decode() for form in (form, "json"))
    found = reports.look_at_json(lines, told, it.names, it.words[0], shown)
    reports.look_at_digests(found, reports.Digests(tool, folder), names, date)
    if form == "junit":
        reports.look_at_junit(given, found, shown)
    elif form == "html":
        reports.look_at_page(given, found, told.clauses, shown)
    return found


@pytest.mark.parametrize("form", FORMATS)
def test_table_of_names(tool, shown, form, tmp_path):
    it = Verified("", ["five"], ["good"], NAMED)
    look_at_all(tool, shown, it, form, tmp_path, ["--names", "na<m>es.csv"], names="na<m>es.csv")


def test_digest_of_messages(tool, shown, tmp_path):
    """With --expand it is that of the file of messages; one of messages that are refused has none."""
    it = Verified("", ["five"], ["messages"], NAMED)
    found = look_at_all(tool, shown, it, "json", tmp_path, ["--expand"])
    assert found[0]["sha256"] == hashlib.sha256(NAMED["messages"].encode()).hexdigest()
    given = run(tool, "verify", "--expand", "--format", "json", "five", "refused messages", folder=tmp_path)
    assert given.status == 2
    assert reports.objects_of(given.output.decode())[0]["sha256"] is None


RECORDED = "# 100.0\nA c 2c02\nA gap\n# 126.0\nslot\n#> A s 2800\n# 1000.0\nA c 2c02\nA gap\nslot\n"
TOLD = "unit:10: no reply to RT 5 mode code 2 at 1000.0: recorded nothing; the terminal sends A s 2800\n"


def test_difference_of_a_recording(tool, tmp_path):
    """What was recorded, what the terminal sends, what is wrong, and the time: in each format."""
    write_files(tmp_path, {**FIVE, "unit": RECORDED})
    told = {form: run(tool, "verify", "--any-subsystem", "--format", form, "five", "unit", folder=tmp_path) for form in ("text", *FORMATS)}
    assert {form: it.status for form, it in told.items()} == dict.fromkeys(told, 1)
    text = {form: it.output.decode() for form, it in told.items()}
    assert text["text"] == f"{TOLD}unit: differences: 1\n"
    (one,) = reports.objects_of(text["json"])
    assert reports.misfits(one, "docs/verify.schema.json") == []
    assert one["differences"] == [{"line": 10, "message": "RT 5 mode code 2", "time": "1000.0", "fault": "no reply", "recorded": None, "sends": "A s 2800"}]
    assert f'<failure message="differences: 1">{TOLD}</failure>' in text["junit"]
    tables = reports.body_of(text["html"]).findall(f"{reports.HTML}table")
    rows = [["line", "message", "time", "fault", "recorded", "the terminal sends"],
            ["10", "RT 5 mode code 2", "1000.0", "no reply", "nothing", "A s 2800"]]  # fmt: skip
    assert rows in [reports.rows_in(it) for it in tables]


# a unit that is busy, then sends words of its own, and one too few
GAVE = "A c 2821\nA d 0001\nA gap\n# 7\nslot\n#> A s 2808\nA gap\nslot\n#? A gap\nA C\nA gap\nslot\n#> A s 2800\nslot\n#> A d 1111\nslot\nA gap\n"
BOTH = "address = 5\n[[rule]]\ndirection = \"both\"\nsubaddresses = \"1\"\ncounts = \"1-2\"\n"
DRAWN_RECORDINGS = {
    "from power-up": (GAVE.replace("A C", "A c 2C22"), [], 16),
    "later": (f"A gap\nA gap\nB gap\nB gap\nslot\n{GAVE.replace('A C', 'A c 2c22 0')}", ["--already-on"], 21),
    "before a slot that is left open": (f"{GAVE.replace('A C', 'A c 2c22')}A c 2c02\nA gap\n#? slot\n", [], 16),
}


@pytest.mark.parametrize("name", DRAWN_RECORDINGS)
def test_drawing_of_a_recording(tool, name, tmp_path):
    """What was recorded is drawn, at its lines, with what the subsystem did, and the slot that differs is marked."""
    text, options, line = DRAWN_RECORDINGS[name]
    write_files(tmp_path, {"both": BOTH, "unit": text})
    page = run(tool, "verify", "--any-subsystem", *options, "--format", "html", "both", "unit", folder=tmp_path).output.decode()
    titles = [reports.words_of(it) for it in reports.body_of(page).iter(f"{reports.SVG}title")]
    wanted = [f"line {line - 4}: slot, A s 2800, status of 5", f"line {line - 2}: write 01 01 1111, write at 1, word 1",
              f"line {line - 2}: slot, A d 1111, data", f"line {line}: slot, A d 0000, data", f"expected at line {line}: nothing"]  # fmt: skip
    assert [it for it in titles if it in wanted] == wanted, titles


LINES = "# a recording\n" + "slot\n" * 400_000
LONG_RECORDINGS = {
    "passes": LINES + GOOD, "differs at its begin": "A c 2c02\nA gap\nslot\n#> A s 2c00\n" + LINES,
    "is refused": "slot \n" + LINES, "names no profile": LINES,
}  # fmt: skip


@pytest.mark.parametrize("form", FORMATS)
@pytest.mark.parametrize("name", LONG_RECORDINGS)
def test_digest_of_a_long_recording(tool, form, name, tmp_path):
    """It is of the whole file, from a pipe too, also where the first megabyte already differs or is refused."""
    text = LONG_RECORDINGS[name].encode()
    write_files(tmp_path, {**FIVE, "long": text})
    words = ["--profiles", "."] if name == "names no profile" else ["five"]
    for given in (run(tool, "verify", "--any-subsystem", "--format", form, *words, "long", folder=tmp_path),
                  run(tool, "verify", "--any-subsystem", "--format", form, *words, "/dev/stdin", stdin=text, folder=tmp_path)):  # fmt: skip
        assert given.output.decode().count(hashlib.sha256(text).hexdigest()) == 1


@pytest.mark.parametrize("row", ROWS, ids=lambda it: it.name)
def test_rows(tool, row, tmp_path):
    check_row(tool, row, tmp_path)


@pytest.mark.skipif(not os.path.exists("/dev/full"), reason="there is no /dev/full")
@pytest.mark.parametrize("form", FORMATS)
def test_failed_write(tool, form, tmp_path):
    write_files(tmp_path, SMALL)
    with open("/dev/full", "wb") as full:
        words = [tool, "verify", "--format", form, "five", "wrong", "wrong"]
        given = subprocess.run(words, cwd=tmp_path, stdout=full, stderr=subprocess.PIPE, check=False)
    assert (given.returncode, given.stderr) == (4, b"output: write failed\n")


def test_text_is_the_default(tool, tmp_path):
    write_files(tmp_path, SMALL)
    given = run(tool, "verify", "--format", "text", "five", "wrong", folder=tmp_path)
    assert given == run(tool, "verify", "five", "wrong", folder=tmp_path)
    assert given.status == 1


# what recordings show, as a page

COVERED = {
    "few": 'address = 5\nbroadcast = true\n[[rule]]\nto = "both"\ndirection = "receive"\nsubaddresses = "1-2"\ncounts = "1-2"\n',
    "came": f"{GOOD}A c 2821\nA d 1234\nA gap\nslot\n#> A s 2808\nA c f841\nA d 0001\nA gap\nA c 2822\nA d 0001\nA gap\n",
    "illegal": "A c 2c61\nA gap\nslot\n#> A s 2c00\nA c 2802\nA gap\nslot\n#> A s 2c00\nA c fc02\nA gap\n",
    "unnamed.csv": "kind,value,subaddress,words,name\naddress,5,,,\n",
}


class Covered(NamedTuple):
    """A profile, recordings and a table of names, or None, and the files."""

    name: str
    profile: str
    recordings: list
    names: "str | None" = None
    files: dict = COVERED


def covered_with(it):
    """A profile, a recording and a name that have this text in them."""
    files = {f"few{it}": "address = 5\n", f"came{it}": "A c 2c02\nA gap\n",
             "names.csv": f'kind,value,subaddress,words,code,name\naddress,5,,,,\nmode,,,,2,"na{it}me"\n'}  # fmt: skip
    return Covered(ascii(it), f"few{it}", [f"came{it}"], "names.csv", files)


COVERAGES = [
    Covered("a recording", "few", ["came"]),
    Covered("two recordings", "few", ["came", "illegal"]),
    Covered("no name", "few", ["came", "illegal"], "unnamed.csv"),
    *(covered_with(it) for it in HOSTILE if it != '"'),
]


@pytest.mark.parametrize("it", COVERAGES, ids=lambda it: it.name)
def test_coverage(tool, shown, it, tmp_path):
    write_files(tmp_path, it.files)
    words = ["coverage", *(["--names", it.names] if it.names else []), it.profile, *it.recordings, "--format"]
    told, page = (run(tool, *words, form, folder=tmp_path) for form in ("json", "html"))
    assert [(given.status, given.errors) for given in (told, page)] == [(0, b"")] * 2
    reports.look_at_coverage(page.output.decode(), json.loads(told.output), it.profile, it.recordings, bool(it.names), shown)


# profiles as SARIF

LINTED = {
    "idle": "address = 5\nvector = 7\n",
    "two": 'address = 31\n\n[[rule]]\ndirection = "up"\nsubadress = 3\n',
    "open": "x = [\n",
    "canonical": "rt1553 2\naddress 05\nbroadcast 2\n",
    **FIVE,
    "a b%c#d?e:f": "address = 5\nbit = 1\n",
    **{f"pro{it}file": f'address = 5\n"k{it}" = "{it}"\n' for it in HOSTILE},
    "deep": "address = 5\nvector = 7\n" + "".join(f"[[initial]]\nsubaddress = {it}\nwords = [{', '.join(['1'] * 32)}]\n" for it in range(1, 31)),
}


@pytest.fixture
def sarif(tool, tmp_path):
    """The run of SARIF over files, beside the same as JSON."""
    write_files(tmp_path, LINTED)

    def sarif(*names):
        given, told = (run(tool, "lint", "--format", form, *names, folder=tmp_path) for form in ("sarif", "json"))
        assert (given.status, given.errors) == (told.status, told.errors)
        return reports.look_at_sarif(given.output.decode(), [json.loads(line) for line in reports.lines_of(told.output)])

    return sarif


@pytest.mark.parametrize("name", LINTED, ids=ascii)
def test_sarif(sarif, name):
    sarif(name)


def test_sarif_of_a_path_from_the_root(sarif, tmp_path):
    sarif(str(tmp_path / "idle"))


def test_sarif_of_all_files(sarif, tmp_path):
    sarif(*LINTED, str(tmp_path / "idle"), "none", "two")


@pytest.mark.parametrize("name", ["five", "none"])
def test_sarif_without_results(sarif, name):
    assert sarif(name)["results"] == []


def test_sarif_rules(sarif):
    rules = [it["id"] for it in sarif("idle", "two", "open", "canonical")["tool"]["driver"]["rules"]]
    assert rules == ["NoEffect", "OutOfRange", "UnknownKey", "Missing", "NotToml", "Line"]
