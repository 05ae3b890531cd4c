"""Profiles in other forms: `rt1553-tool explain`, `differ` and `toml`, beside what `rt1553` tells of the same profiles."""

import json

import pytest
from example_profiles import ALL, TABLES, VECTORS, WITH_TOML
from programs import Row, check_row, run, with_files, write_files
from schemas import misfits

# what may be a profile, with the canonical texts that are printed
CANONICAL = {f"{table}-{row.name}.stdout": row.output for table, it in TABLES.items() for row in it.rows if row.output.startswith(b"rt1553 ")}
TEXTS = {**{name: path.read_bytes() for name, path in ALL.items()}, **VECTORS, **CANONICAL}
COMPARED = {f"{table}-{row.name}": row for table, it in TABLES.items() for row in it.rows if "compare" in row.words}

EXPLAINED = with_files(
    {
        "five": "address = 5\n",
        "six": 'address = 6\nbroadcast = true\naccept_bus_control = true\nbit = 0x1234\n'
               '[[rule]]\ndirection = "both"\nsubaddresses = "1-3,30"\ncounts = "1-4,32"\n'
               '[[rule]]\nto = "broadcast"\ndirection = "receive"\nsubaddresses = 2\n'
               '[[mode]]\ncodes = "0,19"\n[[mode]]\nto = "broadcast"\ncodes = 1\n[[initial]]\nsubaddress = 3\nwords = [0, 0x0301]\n',
        "stdin": "",
    },
    Row("the smallest profile explained", "explain five", 0,
        "remote terminal 5\nbroadcast:   not heard\nwraparound:  none\n\nno word count is legal at any subaddress\n\nmode codes\n"
        " 2: transmit status word\n 4: transmitter shutdown\n 5: override transmitter shutdown\n 8: reset remote terminal\n"),
    Row("the same as JSON", "explain --format json five", 0,
        '{"address":5,"broadcast":false,"wraparound":null,"accept_bus_control":null,"vector":null,"bit":null,"subaddresses":[],'
        '"mode_codes":[{"code":2,"name":"transmit status word"},{"code":4,"name":"transmitter shutdown"},{"code":5,"name":"override '
        'transmitter shutdown"},{"code":8,"name":"reset remote terminal"}],"broadcast_mode_codes":[]}\n'),
    Row("a profile explained", "explain six", 0,
        "remote terminal 6\nbroadcast:   heard\nwraparound:  at subaddress 30\nbus control: accepted\nBIT word:    1234\n\n"
        "subaddresses    receive         transmit        broadcast receive\n1,3,30          1-4,32          1-4,32          -\n"
        "2               1-4,32          1-4,32          1-32\n\nwords at power-up\n 3: 0000 0301\n\nmode codes\n 0: dynamic bus control\n"
        " 2: transmit status word\n 4: transmitter shutdown\n 5: override transmitter shutdown\n 8: reset remote terminal\n"
        "19: transmit BIT word\n\nmode codes by broadcast\n 1: synchronize\n"),
    Row("another format", "explain --format none six", 3,
        errors="error: invalid value 'none' for '--format <format>'\n  [possible values: text, json]\n\nFor more information, try '--help'.\n"),
    Row("a refused profile explained", "explain stdin", 2, errors="stdin:1:1: error: profile: root: address is missing; allowed is a whole number from 0 to 30\n"),
)  # fmt: skip
DIFFERING = with_files(
    {
        "five": "address = 5\n",
        "six": "address = 6\n",
        "eight": 'address = 5\n[[rule]]\ndirection = "receive"\nsubaddresses = 3\ncounts = "1-8"\n',
        "four": 'address = 5\n[[rule]]\ndirection = "receive"\nsubaddresses = 3\ncounts = "1-4"\n[[mode]]\ncodes = "16"\n',
        "nine": 'address = 5\n[[rule]]\ndirection = "receive"\nsubaddresses = 3\ncounts = "9"\n'
                '[[rule]]\ndirection = "transmit"\nsubaddresses = "1,3,5,7,9,11,13,15"\ncounts = "2"\n',
        "ten": 'address = 5\n[[rule]]\ndirection = "receive"\nsubaddresses = 3\ncounts = "10"\n'
               '[[rule]]\ndirection = "transmit"\nsubaddresses = "1,3,5,7,9,11,13,15"\ncounts = "3-4"\n',
    },
    Row("the same", "differ five five"),
    Row("the same as JSON", "differ --format json five five", 0, "[]\n"),
    Row("another address", "differ five six", 1, "address: 5 in five, 6 in six\n"),
    Row("word counts and a mode code", "differ eight four", 1,
        "receive 3:                           counts 5-8 legal in eight alone\nmode code 16 (transmit vector word): legal in four alone\n"),
    Row("word counts of both", "differ nine ten", 1,
        "receive 3:                   counts 9 → 10\ntransmit 1,3,5,7,9,11,13,15: counts 2 in nine, 3-4 in ten\n"),
    Row("columns as wide as they have to be", "explain nine", 0,
        "remote terminal 5\nbroadcast:   not heard\nwraparound:  none\n\nsubaddresses      receive         transmit        broadcast receive\n"
        "1,5,7,9,11,13,15  -               2               -\n3                 9               2               -\n\nmode codes\n"
        " 2: transmit status word\n 4: transmitter shutdown\n 5: override transmitter shutdown\n 8: reset remote terminal\n"),
    Row("word counts with their script", "differ --scripts eight four", 1,
        "receive 3:                           counts 5-8 legal in eight alone\n    A c 2865\n    A d 0000\n    A d 0000\n    A d 0000\n"
        "    A d 0000\n    A d 0000\n    A gap\n    slot\nmode code 16 (transmit vector word): legal in four alone\n    A c 2c10\n    A gap\n"
        "    slot\n"),
    Row("word counts as JSON", "differ --scripts --format json five six", 1,
        '[{"what":"address","subaddresses":[],"numbers":[],"first":"5","second":"6","script":["A c 2c02","A gap","slot"]}]\n'),
    Row("a profile that is not there", "differ five none", 4, errors="file: cannot read none: no such file\n"),
)  # fmt: skip
AS_TOML = [
    Row("the smallest profile as TOML", "toml five", 0, "address = 5\n", files={"five": "address = 5\n"}),
    Row("the TOML of a refused profile", "toml thirty_one", 2,
        errors="thirty_one:1:1: error: profile: root: address is out of range: 31; allowed is a whole number from 0 to 30\n", files={"thirty_one": "address = 31\n"}),
]  # fmt: skip


@pytest.mark.parametrize("row", EXPLAINED + DIFFERING + AS_TOML, ids=lambda it: it.name)
def test_profiles(tool, row, tmp_path):
    check_row(tool, row, tmp_path)


@pytest.mark.parametrize("name", TEXTS, ids=lambda it: it[:60])
def test_toml(tool, rt1553, name, tmp_path):
    """The TOML of a profile means the same terminal; no entry of it says that something isn't legal. What `check` refuses is refused."""
    write_files(tmp_path, {"given": TEXTS[name]})
    given = run(tool, "toml", "given", folder=tmp_path)
    if run(rt1553, "check", "given", folder=tmp_path).status:
        assert (given.status, given.output) == (2, b"")
        return
    assert given.status == 0
    write_files(tmp_path, {"profile.toml": given.output})
    assert run(rt1553, "canon", "profile.toml", folder=tmp_path) == run(rt1553, "canon", "given", folder=tmp_path)
    assert not given.output.startswith(b"rt1553 ")
    assert [it for it in given.output.splitlines() if it.startswith(b"legal")] == []


# what `explain --format json` tells, beside the canonical text


def canonical_fields(text):
    """A canonical text as {name, or (name, subaddress): its fields}."""
    fields = {}
    for line in text.splitlines()[1:]:
        name, *rest = line.split(" ")
        if name.split("-")[-1] in ("receive", "transmit", "initial"):
            fields[name, int(rest[0])] = rest[1:]
        else:
            fields[name] = rest
    return fields


def numbers(mask, first):
    return [it + first for it in range(32) if int(mask, 16) >> it & 1]


def words_held(fields, subaddress):
    """The initial words of a subaddress, without the zeros at their end."""
    words = [int(word, 16) for word in fields.get(("initial", subaddress), [])]
    while words and not words[-1]:
        words.pop()
    return words


def wanted_of(fields):
    """What of a canonical text the JSON is to tell."""
    rows = []
    for it in range(1, 31):
        counts = [numbers(fields.get((kind, it), ["0"])[0], 1) for kind in ("own-receive", "own-transmit", "broadcast-receive")]
        if any(counts):
            rows.append([it, *counts, words_held(fields, it)])
    codes = [numbers(fields.get(kind, ["0"])[0], 0) for kind in ("own-mode", "broadcast-mode")]
    word = {key: int(fields[key][0], 16) if key in fields else None for key in ("vector", "bit")}
    return int(fields["address"][0]), fields["broadcast"] == ["1"], rows, codes, word


def told_in(explained):
    rows = [[row[key] for key in ("subaddress", "receive", "transmit", "broadcast_receive", "words")] for row in explained["subaddresses"]]
    codes = [[code["code"] for code in explained[key]] for key in ("mode_codes", "broadcast_mode_codes")]
    return explained["address"], explained["broadcast"], rows, codes, {key: explained[key] for key in ("vector", "bit")}


@pytest.mark.parametrize("name", WITH_TOML)
def test_explained_as_json(tool, rt1553, name):
    path = WITH_TOML[name]
    given = run(tool, "explain", "--format", "json", path)
    assert (given.status, given.errors) == (0, b"")
    assert misfits(json.loads(given.output), "docs/explain.schema.json") == []
    assert told_in(json.loads(given.output)) == wanted_of(canonical_fields(run(rt1553, "canon", path).output.decode()))


# in what two profiles differ


@pytest.mark.parametrize("name", WITH_TOML)
def test_schema_of_differ(tool, name):
    given = run(tool, "differ", "--scripts", "--format", "json", ALL["profiles-sensor"], WITH_TOML[name])
    assert misfits(json.loads(given.output), "docs/differ.schema.json") == []


@pytest.mark.parametrize("name", COMPARED, ids=lambda it: it[:60])
def test_differ_beside_compare(tool, name, tmp_path):
    """It finds something where `compare` does, and refuses what it refuses."""
    row = COMPARED[name]
    write_files(tmp_path, row.files)
    given = run(tool, "differ", "--scripts", *row.words[1:], folder=tmp_path)
    assert given.status == row.status
    assert (given.output != b"") == (given.status == 1)


def transcript(program, profile, script):
    return run(program, "run", profile, "/dev/stdin", stdin="".join(f"{line}\n" for line in script)).output


def lines_of(entries):
    """How many lines tell these entries: word counts of both at the same subaddresses, one behind the other, stand in one."""
    joined = 0
    for before, after in zip(entries, entries[1:]):
        counts = before["what"] in ("receive", "transmit", "broadcast receive")
        same = all(before[key] == after[key] for key in ("what", "subaddresses"))
        joined += counts and same and (before["first"], after["first"]) == ("legal", "illegal")
    return len(entries) - joined


@pytest.mark.parametrize("first", ALL)
@pytest.mark.parametrize("second", ALL)
def test_scripts_tell_profiles_apart(tool, rt1553, first, second):
    """Nothing differs exactly if `compare` finds nothing; each script tells the profiles apart, and the first difference has one."""
    first, second = ALL[first], ALL[second]
    status = run(rt1553, "compare", first, second).status
    given = run(tool, "differ", "--scripts", "--format", "json", first, second)
    text = run(tool, "differ", first, second)
    assert (given.status, given.errors, text.status, text.errors) == (min(status, 1), b"", min(status, 1), b"")
    entries = json.loads(given.output)
    assert bool(entries) == (status != 0)
    assert len(text.output.splitlines()) == lines_of(entries)
    assert [it for it in entries if it["first"] == it["second"]] == []
    assert [it for it in entries if it["script"] and transcript(rt1553, first, it["script"]) == transcript(rt1553, second, it["script"])] == []
    assert not entries or entries[0]["script"]
