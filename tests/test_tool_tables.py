"""Tables: what `rt1553-tool import` makes of them, and the names that they give to messages (`--names`)."""

import json
import xml.etree.ElementTree as xml

import pytest
from programs import TOP, Row, check_row, run, write_files
from schemas import misfits, misfits_of_lines

DOCUMENTS = sorted((TOP / "examples/documents").glob("*.csv"))
FAULTY = sorted((TOP / "tests/tool/import").glob("*.csv"))
IMPORTS = [
    *(Row(f"the faults of {it.name}", f"import {it.name}", 2, files={it.name: it.read_bytes()},
          errors="".join(f"{it.name}:{line}\n" for line in it.with_suffix(".told").read_text().splitlines())) for it in FAULTY),
    Row("semicolons, quotes and CR LF", "import office.csv", 0, "address = 5\n", files={"office.csv": 'kind;value\r\n"address";"5"\r\n'}),
    Row("a byte order mark, and an address that is too large", "import marked.csv", 2,
        errors='marked.csv:2:2: error: value: "0x1f": allowed is 0 to 30\n', files={"marked.csv": "\ufeffkind,value\naddress,0x1f\n"}),
    Row("a table that is not UTF-8", "import bytes.csv", 2,
        errors="bytes.csv: table: row 2: not UTF-8\n", files={"bytes.csv": b"kind,value\naddress,\xff\n"}),
    Row("a table that is not there", "import none", 4, errors="file: cannot read none: no such file\n"),
]  # fmt: skip


@pytest.mark.parametrize("path", DOCUMENTS, ids=lambda it: it.stem)
def test_table_of_a_document(tool, path, tmp_path):
    """It gives the profile beside it, warns of no column but the remarks, and of messages with all counts; `lint` says nothing."""
    write_files(tmp_path, {path.name: path.read_bytes()})
    given = run(tool, "import", path.name, folder=tmp_path)
    assert (given.status, given.output) == (0, path.with_suffix(".toml").read_bytes())
    warned = (': warning: the column "remarks" is left out; known are kind, value, subaddress, words, code, to, initial, legal, name', ": warning: words: empty, so all counts 1 to 32: is this meant?")
    assert [it for it in given.errors.decode().splitlines() if not it.endswith(warned)] == []
    assert run(tool, "lint", path.with_suffix(".toml")).status == 0


@pytest.mark.parametrize("row", IMPORTS, ids=lambda it: it.name)
def test_import(tool, row, tmp_path):
    check_row(tool, row, tmp_path)


# names in ASCII and in Unicode, with quotes, a control character and one that turns the direction of writing
NAMES = """\
kind,value,subaddress,words,code,to,legal,initial,name
address,5,,,,,,,unit
broadcast,yes,,,,,,,
receive,,1,2,,,,,speed
receive,,2,2,,,,,Höhe über NN
receive,,3,"1-4, 8",,,,,settings
receive,,4,2,,,,,"a ""b"" \\ c"
receive,,1,2,,broadcast,,,"e\x1b[2Kf\u202eg"
transmit,,2,4,,,,0001 0002,速度
transmit,,6,1-2,,,,,short
transmit,,6,4,,,,,long
mode,,,,1,both,,,time tick
mode,,,,"16,19",,,,words
"""
NAMED_FILES = {
    "names.csv": NAMES,
    "wrong.csv": "kind,value,words\naddress,31,\nrecieve,,2\n",
    "nameless.csv": "kind,value\naddress,5\n",
    "replies": "number,reply,name\n1,none,x\n2,2c00,\n1028,2800,settings\n1030,2c00,settings\n",
    "v": "A c 2862\nA d 0001\nA d 0002\nA gap\nslot\n#> A s 2c00\nA c 2c22\nA gap\nslot\n#> A s 2800\n"
         "A c 2c02 1\nB c 3462\nA c fc01\nA gap\n",
    "own": "# Profile: named.toml\nA c f822\nA d 0001\nA d 0002\nA gap\n#> hand receive broadcast 01 0001\n",
    "six.csv": "kind,value,subaddress,words,name\naddress,5,,,\n" + "".join(f"receive,,{it},1,name {it}\n" for it in range(1, 7)),
    "none.toml": "address = 5\n",
    "general.csv": "kind,value,subaddress,words,name\naddress,5,,,\nreceive,,1,1,\nreceive,,1-6,1-32,other\n",
    "w": "A c 2821\nA d 0001\nA gap\nslot\n#> A s 2800\nA c 2841\nA d 0001\nA gap\nslot\n#> A s 2800\n",
}  # fmt: skip
CHANGES = [("counts = 4", "counts = 3"), ('"1-4, 8"', '"1-3, 5"'), ('codes = "16,19"', "codes = 16"), ("words = [0x0001, 0x0002]", "words = [0x0001, 0x0003]")]
FAULTS = (
    'wrong.csv:2:2: error: value: "31": allowed is 0 to 30\nwrong.csv:3:1: error: kind: "recieve": allowed is address, broadcast, '
    'wraparound, accept_bus_control, vector, bit, receive, transmit, both, mode\n'
)
# commands that take names
WITH_NAMES = ["explain named.toml", "differ named.toml changed.toml", "verify named.toml v", "draw --html named.toml v", "acceptance named.toml"]
NAMED = [
    Row("explain with names", "explain --names names.csv named.toml", 0,
        "remote terminal 5\nbroadcast:   heard\nwraparound:  none\nvector word: 0000\nBIT word:    0000\n\n"
        "subaddresses    receive           transmit               broadcast receive\n"
        '1               2 "speed"         -                      2 "e\\u{1b}[2Kf\\u{202e}g"\n'
        '2               2 "Höhe über NN"  4 "速度"               -\n3               1-4,8 "settings"  -                      -\n'
        '4               2 "a \\"b\\" \\\\ c"  -                      -\n6               -                 1-2 "short", 4 "long"  -\n\n'
        'words at power-up\n 2: 0001 0002\n\nmode codes\n 1: synchronize "time tick"\n 2: transmit status word\n 4: transmitter shutdown\n'
        ' 5: override transmitter shutdown\n 8: reset remote terminal\n16: transmit vector word "words"\n19: transmit BIT word "words"\n\n'
        'mode codes by broadcast\n 1: synchronize "time tick"\n'),
    Row("differ with names", "differ --names names.csv named.toml changed.toml", 1,
        'receive 3 "settings":                     counts 4,8 in named.toml, 5 in changed.toml\n'
        'transmit 2,6 "速度", "short", "long":     counts 4 → 3\nmode code 19 (transmit BIT word) "words": legal in named.toml alone\n'
        'word 2 of subaddress 2 "速度":            0002 in named.toml, 0003 in changed.toml\n'),
    Row("verify with names", "verify --names names.csv named.toml v", 1,
        'v:4: "settings": expected nothing, came hand receive own 03 0001 0002\nv:5: "settings": expected A s 2c00, came A s 2800\n'
        "v:9: expected A s 2800, came A s 2c00\nv: differences: 3\n"),
    Row("results compared, with names", "acceptance --names names.csv --against replies named.toml", 1,
        '2: transmit status word: legal: expected 2c10, came 2c00\n1030: "settings": receive 3, 4 words: legal: expected 2800, came 2c00\n'
        "no result for 3 to 1027\nno result for 1029\nno result for 1031 to 3873\n"
        "2 of 3873 exchanges are answered otherwise: it is another terminal\n"),
    Row("a table of names that is not there", "verify --names none named.toml v", 4, errors="file: cannot read none: no such file\n"),
    Row("verify with names, each script with its profile", "verify --names names.csv --profiles folder own", 1,
        'own:5: "e\\u{1b}[2Kf\\u{202e}g": expected hand receive broadcast 01 0001, came hand receive broadcast 01 0001 0002\n'
        "own: differences: 1\n"),
    Row("a row without a name hides those behind it", "verify --names general.csv six.toml w", 1,
        'w:3: expected nothing, came hand receive own 01 0001\nw:8: "other": expected nothing, came hand receive own 02 0001\n'
        "w: differences: 2\n"),
    Row("a line with more than five names", "differ --names six.csv six.toml none.toml", 1,
        'receive 1-6 "name 1", "name 2", "name 3", "name 4", "name 5", ..: count 1 legal in six.toml alone\n'),
    Row("a table of names with faults", "explain --names wrong.csv named.toml", 2, errors=FAULTS),
    *(Row(f"faults of a table: {it}", it.replace(" ", " --names wrong.csv ", 1), 2, errors=FAULTS) for it in WITH_NAMES),
]


@pytest.fixture
def folder(tool, tmp_path):
    """A folder with a table of names, its profile, and another profile, by which four things change."""
    write_files(tmp_path, NAMED_FILES)
    named = run(tool, "import", "names.csv", folder=tmp_path).output.decode()
    changed = named
    for old, new in CHANGES:
        assert old in changed
        changed = changed.replace(old, new)
    six = run(tool, "import", "six.csv", folder=tmp_path).output
    write_files(tmp_path, {"named.toml": named, "changed.toml": changed, "folder/named.toml": named, "six.toml": six})
    return tmp_path


@pytest.mark.parametrize("row", NAMED, ids=lambda it: it.name)
def test_names(tool, row, folder):
    check_row(tool, row, folder)


def test_names_of_a_table_for_another_address(tool, folder):
    write_files(folder, {"six.csv": NAMES.replace("address,5", "address,6")})
    given = run(tool, "explain", "--names", "six.csv", "named.toml", folder=folder)
    assert given.status == 0
    assert b"six.csv: warning: a table for address 6, and a profile for another" in given.errors.splitlines()


@pytest.mark.parametrize("words", WITH_NAMES)
def test_table_without_names(tool, words, folder):
    """It is warned of, and leaves all as it is."""
    word, *rest = words.split()
    without = run(tool, *words.split(), folder=folder)
    warned = b"nameless.csv:1:3: warning: no column is named name, so no message has a name\n"
    assert run(tool, word, "--names", "nameless.csv", *rest, folder=folder) == without._replace(errors=warned + without.errors)


def without_comments(script):
    return [it for it in script.splitlines() if not it.startswith(b"# ")]


def test_acceptance_test_with_names(tool, folder):
    """It passes, no line of it is too long, and but for its comments it is the one without names."""
    plain = run(tool, "acceptance", "named.toml", folder=folder)
    given = run(tool, "acceptance", "--names", "names.csv", "named.toml", folder=folder)
    assert (plain.status, given.status) == (0, 0)
    write_files(folder, {"with": given.output})
    assert run(tool, "verify", "named.toml", "with", folder=folder).status == 0
    assert without_comments(plain.output) == without_comments(given.output)
    lines = given.output.decode().splitlines()
    assert '# receive 3, 5 words: illegal "settings"' in lines
    assert '# receive 2, 2 words: legal "Höhe über NN"' in lines
    assert max(len(it) for it in given.output.split(b"\n")) <= 64


def test_acceptance_test_with_names_as_a_table(tool, folder):
    given = run(tool, "acceptance", "--format", "csv", "--names", "names.csv", "named.toml", folder=folder)
    lines = given.output.replace(b"\r", b"").decode().split("\n")
    assert lines[0] == "number,tries,command,data,expected,handed,name"
    assert lines[1027] == '1027,"receive 3, 1 word: legal",2861,0000,2800,receive own 03 0000,settings'


def test_reports_with_names(tool, folder):
    """The names of messages stand beside what differs, in JSON and in JUnit."""
    told, suite = (run(tool, "verify", "--names", "names.csv", "--format", it, "named.toml", "v", folder=folder).output for it in ("json", "junit"))
    assert [(it["line"], it["name"]) for it in json.loads(told)["differences"]] == [(4, "settings"), (5, "settings"), (9, None)]
    assert xml.fromstring(suite).find(".//failure").text == (
        'v:4: "settings": expected nothing, came hand receive own 03 0001 0002\n'
        'v:5: "settings": expected A s 2c00, came A s 2800\nv:9: expected A s 2800, came A s 2c00\n')  # fmt: skip


@pytest.mark.parametrize("words", ["explain named.toml", "differ named.toml changed.toml", "acceptance named.toml", "verify named.toml v"])
def test_schema_with_names(tool, words, folder):
    """JSON with names fits its schema, and but for line feeds has printable characters of ASCII alone."""
    word, *rest = words.split()
    output = run(tool, word, "--names", "names.csv", "--format", "json", *rest, folder=folder).output
    schema = f"docs/{word}.schema.json"
    assert (misfits_of_lines(output, schema) if word in ("acceptance", "verify") else misfits(json.loads(output), schema)) == []
    assert [it for it in output if not (0x20 <= it <= 0x7E or it == 0x0A)] == []
