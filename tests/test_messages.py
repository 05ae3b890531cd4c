"""The messages of runs, `rt1553-tool messages`: beside those of a model for messages that look random, and as text, CSV and JSON."""

import csv
import io
import json
import random
import subprocess
import tomllib

import play
import pytest
import random_scripts
import rules
import run_messages
from programs import Row, check_row, run, with_files, write_files
from schemas import misfits_of_lines

RUNS = 300
COLUMNS = ["number", "line", "bus", "kind", "address", "subaddress", "code", "words", "command", "transmitter", "ended", "why", "data",
           "status", "bits", "handed"]  # fmt: skip

FIVE = 'address = 5\nbroadcast = true\n[[rule]]\nto = "both"\ndirection = "both"\nsubaddresses = "3"\ncounts = 2\n'
NAMES = "kind,name,subaddress,words,value\naddress,,,,5\nreceive,\"speed, h\u00f6he\",3,2,\n"
HEADER = "number    line bus kind      RT sub words ended\n"
SCRIPT = """\
A c 2862
A d 0011
A d 0022
A gap
slot
B c f862
B d 0001
B d 0002
B gap
A c 2c62
A gap
slot
slot
slot
# a transfer from terminal 6, and one between two others
A c 2862
A c 3462
A gap
A c 3000
A d 0003
A d 0004
A gap
slot
A c 3862
A c 3462
A gap
A c 3000
A d 0005
A d 0006
A gap
A c 3800
A gap
flag busy 1
A c 2862
A d 0007
A d 0008
A gap
slot
A c 2863
A gap
A c 2c64
A gap
slot
"""
TEXT = f"""{HEADER}\
     1       1 A   rx         5   3     2 done; data 0011 0022; status 2800; hand receive own 03 0011 0022
     2       6 B   rx       all   3     2 done; data 0001 0002; hand receive broadcast 03 0001 0002
     3      10 A   tx         5   3     2 done; data 0000 0000; status 2800
     4      16 A   transfer   5   3     2 done; from 6 3; data 0003 0004; status 2800; hand receive own 03 0003 0004
     5      24 A   transfer   7   3     2 other; from 6 3; data 0005 0006
     6      34 A   rx         5   3     2 busy; data 0007 0008; status 2808 busy
     7      39 A   rx         5   3     3 in error, wrong word count
     8      41 A   tx         5   3     4 illegal; status 2c08 error busy
"""
FILES = {"five": FIVE, "script": SCRIPT, "names.csv": NAMES, "bad": "A c 2c02\nA gap\nslot\nA c 2c02\nA gup\n", "long": "A gap\n#" + "x" * 64 + "\n",
         "messages": "A rx 5 3 2: 0011 0022\nA mode 5 2\n"}  # fmt: skip
LINES = TEXT.splitlines(keepends=True)
ASKED = "A c 2c02\nA gap\nslot\n"
DONE = "     1       1 A   mode       5   2       done; status 2800\n"
OTHERWISE = "warning: the terminal sends another word than is stated; of a recording, play the script of verify --any-subsystem --witness\n"
ALL = "arguments: --format messages excludes --rt, --subaddress, --errors and --names\n"
TOLD = with_files(
    FILES,
    Row("messages as text", "messages five script", 0, TEXT),
    Row("messages of an address", "messages five script --rt 7", 0, HEADER + LINES[5]),
    Row("messages of a transmitter", "messages five script --rt 6", 0, HEADER + LINES[4] + LINES[5]),
    Row("messages by broadcast", "messages five script --rt all", 0, HEADER + LINES[2]),
    Row("messages of a subaddress", "messages five script --subaddress 4", 0, HEADER),
    Row("messages that were not done", "messages five script --errors", 0, HEADER + "".join(LINES[6:])),
    Row("messages with names", "messages --names names.csv five script --rt 5 --errors", 0,
        HEADER + LINES[6].replace("busy; data", 'busy; "speed, höhe"; data')
        + LINES[7].replace("count\n", 'count; "speed, höhe"\n') + LINES[8]),
    Row("lines of messages that are expanded", "messages --expand five messages", 0,
        HEADER + LINES[1] + "     2       2 A   mode       5   2       done; status 2800\n"),
    Row("a refused line, behind a message", "messages five bad", 2,
        HEADER + DONE,
        errors="bad:5:3: error: after a bus, c, d, gap or noise is expected\n"),
    Row("a long line", "messages five long", 2, HEADER, errors="long:2:65: error: over 64 bytes before the line feed\n"),
    Row("messages of a recording", "messages five recorded", 0, HEADER + DONE, f"recorded:3: {OTHERWISE}", files={"recorded": f"{ASKED}#> A s 2801\n"}),
    Row("messages of a script with its answers", "messages five stated", 0, HEADER + DONE, files={"stated": f"{ASKED}#> A s 2800\n"}),
    Row("messages for expand", "messages --format messages five script", 0, """\
A rx 5 3 2: 0011 0022
B rx all 3 2: 0001 0002
A tx 5 3 2
A rx 5 3 2 from 6 3: 0003 0004
A c 3862
A c 3462
A gap
A c 3000
A d 0005
A d 0006
A gap
A c 3800
A gap
flag busy 1
A rx 5 3 2: 0007 0008
A c 2863
A gap
A c 2c64
A gap
slot
"""),
    Row("messages for expand, of a fault", "messages --format messages five bad", 2, errors="bad:5:3: error: after a bus, c, d, gap or noise is expected\n"),
    Row("messages for expand, of a long line", "messages --format messages five long", 2, errors="long:2:65: error: over 64 bytes before the line feed\n"),
    Row("messages for expand, of an address", "messages --format messages --rt 5 five script", 3, errors=ALL),
    Row("messages for expand, of a subaddress", "messages --format messages --subaddress 3 five script", 3, errors=ALL),
    Row("messages for expand, those in error", "messages --format messages --errors five script", 3, errors=ALL),
    Row("messages for expand, with names", "messages --format messages --names names.csv five script", 3, errors=ALL),
    Row("an address that no terminal has", "messages five script --rt 31", 3, errors="arguments: --rt is 0 to 30, or all\n"),
    Row("an address that is no number", "messages five script --rt +5", 3, errors="arguments: --rt is 0 to 30, or all\n"),
    Row("a subaddress that is too large", "messages five script --subaddress 32", 3, errors="arguments: --subaddress is 0 to 31\n"),
    Row("no script", "messages five none", 4, HEADER[:0], errors="file: cannot read none: no such file\n"),
)  # fmt: skip


@pytest.mark.parametrize("row", TOLD, ids=lambda it: it.name)
def test_messages(tool, row, tmp_path):
    check_row(tool, row, tmp_path)


def test_drawing_of_a_recording(tool, tmp_path):
    """It warns of the first word that the terminal sends otherwise."""
    write_files(tmp_path, {"five": FIVE, "recorded": f"{ASKED}#> A s 2801\n"})
    given = run(tool, "draw", "five", "recorded", folder=tmp_path)
    assert (given.status, given.errors.decode()) == (0, f"recorded:3: {OTHERWISE}")


def played(number, count=40):
    """A profile, and a script of so many messages that looks random with its events, by a number."""
    profile = random_scripts.profile_of(number % 16)
    setup, lines, events = play.setup_of(tomllib.loads(profile)), [], []

    def note(event, _answer):
        lines.append(random_scripts.line_of(event))
        events.append((len(lines), event))

    messages = random_scripts.Messages(setup, (29, 30), number, note)
    for _ in range(count):
        messages.message()
    return profile, setup, "".join(f"{it}\n" for it in lines), events


def wild(number, count=60):
    """The same of so many events, each at random: on both buses words, of few commands, that begin, continue and supersede messages."""
    profile, draw = random_scripts.profile_of(number % 16), random.Random(number)
    setup, lines, events = play.setup_of(tomllib.loads(profile)), [], []
    for _ in range(count):
        bus, turn = draw.choice("AAB"), draw.random()
        if turn < 0.4:
            address = draw.choice([setup.address, setup.address, 6, 7, 31])
            place, low = draw.choice([(0, draw.choice([2, 4, 5, 8, 17, 18, 20])), (29, 1), (29, 2), (30, 1)])
            word = rules.valid_word("c", address << 11 | draw.randrange(2) << 10 | place << 5 | low)
        elif turn < 0.45:
            word = rules.valid_word("c", draw.choice([6, 7]) << 11 | draw.choice([0, 0, 0x400, 0x20]))
        else:
            word = rules.valid_word("d", draw.randrange(1 << 16))
        if turn < 0.6:
            event = ("word", bus, word if draw.random() < 0.97 else (*word[:2], 1 - word[2]))
        elif turn < 0.78:
            event = ("gap", bus)
        elif turn < 0.97:
            event = ("slot",)
        else:
            event = draw.choice([("noise", bus), ("flag", "busy", draw.randrange(2))])
        lines.append(random_scripts.line_of(event))
        events.append((len(lines), event))
    return profile, setup, "".join(f"{it}\n" for it in lines), events


def without_names(row):
    """A row of JSON without what mode codes are called."""
    for it in (row["command"], row["transmitter"]):
        if it is not None:
            assert (it.pop("mode") is None) == (it["code"] is None)
    return row


def test_messages_of_the_model(tool, tmp_path):
    """The rows are those of the model, and fit their schema."""
    ends = set()
    for number in range(2 * RUNS):
        profile, setup, script, events = (played, wild)[number % 2](number)
        write_files(tmp_path, {"profile": profile, "script": script})
        given = run(tool, "messages", "--format", "json", "profile", "script", folder=tmp_path)
        assert (given.status, given.errors) == (0, b"")
        rows = run_messages.rows_of(setup, events)
        assert [without_names(json.loads(it)) for it in given.output.splitlines()] == rows, number
        ends |= {(it["ended"], it["why"]) for it in rows}
        if number < 20:
            assert misfits_of_lines(given.output, "docs/messages.schema.json") == []
    assert {it for it, _ in ends} >= {"done", "busy", "illegal", "in error", "superseded", "ignored", "other"}
    assert {it for _, it in ends} >= {"wrong word count", "invalid word or noise", "command within", "gap within",
                                      "no status from the transmitter", "transmitter shut down", "during a reply",
                                      "no gap after a command", "reply dropped by a command on the other bus"}  # fmt: skip


def test_messages_share_what_is_sent(rt1553, tool, tmp_path):
    """The status words, and what is handed over, of the messages of a run are those of its transcript, in its order."""
    for number in range(RUNS):
        profile, _, script, _ = (played, wild)[number % 2](number)
        write_files(tmp_path, {"profile": profile, "script": script})
        answers = run(rt1553, "run", "profile", "script", folder=tmp_path).output.decode().splitlines()
        rows = [json.loads(it) for it in run(tool, "messages", "--format", "json", "profile", "script", folder=tmp_path).output.splitlines()]
        assert [it["status"] for it in rows if it["status"]] == [it.split()[2] for it in answers if it[2:4] == "s "], number
        assert [f"hand {it['handed']}" for it in rows if it["handed"]] == [it for it in answers if it.startswith("hand ")], number


def test_messages_as_a_table(tool, tmp_path):
    """CSV has what JSON has, with names and without."""
    write_files(tmp_path, FILES)
    for names in ([], ["--names", "names.csv"]):
        words = ["messages", *names, "five", "script", "--format"]
        objects = [json.loads(it) for it in run(tool, *words, "json", folder=tmp_path).output.splitlines()]
        text = run(tool, *words, "csv", folder=tmp_path).output.decode()
        header, *rows = csv.reader(io.StringIO(text, newline=""))
        assert header == [*COLUMNS, *["name"][: len(names)]]
        assert text.count("\r\n") == len(rows) + 1
        assert [dict(zip(header, it, strict=True)) for it in rows] == [in_cells(it) for it in objects]


def in_cells(row):
    """A row of JSON as the cells of CSV."""
    command, second = row["command"], row["transmitter"]
    cells = [row["number"], row["line"], row["bus"], row["kind"], "all" if command["address"] == 31 else command["address"],
             command["subaddress"], command["code"], command["count"], command["word"], second and second["word"], row["ended"], row["why"],
             " ".join(row["data"]), row["status"], " ".join(row["bits"]), row["handed"]]  # fmt: skip
    told = dict(zip(COLUMNS, ("" if it is None else str(it) for it in cells), strict=True))
    return {**told, "name": row["name"] or ""} if "name" in row else told


def commands():
    """Each command word, as a message that looks random, with its line."""
    for bits in range(1 << 16):
        address, transmit, subaddress, low = bits >> 11, bits >> 10 & 1, bits >> 5 & 31, bits & 31
        name, count = ("all" if address == 31 else address), low or 32
        words = 0 if transmit else (low >= 16 if subaddress in (0, 31) else count)
        data = "".join(f" {bits * 7 + it * 40503 & 0xFFFF:04x}" for it in range(words))
        if subaddress in (0, 31):
            text = f"mode {name} {low} {'tx' if transmit else 'rx'}{' 31' * (subaddress == 31)}"
        else:
            text = f"{'tx' if transmit else 'rx'} {name} {subaddress} {count}"
        yield f"{'AB'[bits % 3 == 0]} {text}{':' * bool(words)}{data}\n"


def transfers():
    """Transfers from each terminal, of which terminal 5 is to send words that are no matter."""
    for of in range(31):
        for to in {0, 5, 30, 31} - {of}:
            word = " 0000" if of == 5 else " 8001"
            yield f"A rx {'all' if to == 31 else to} {1 + to % 30} {1 + of} from {of} {1 + of % 30}:{word * (1 + of)}\n"


def test_messages_that_were_expanded(tool, tmp_path):
    """The message of each command word, and transfers, are expanded and gathered again."""
    messages = [*commands(), *transfers()]
    for front in range(0, len(messages), 16384):
        text = "".join(messages[front : front + 16384])
        write_files(tmp_path, {"five": FIVE, "messages": text})
        write_files(tmp_path, {"script": run(tool, "expand", "--for", "five", "messages", folder=tmp_path).output})
        told = run(tool, "messages", "--format", "messages", "five", "script", folder=tmp_path)
        assert (told.status, told.errors) == (0, b"")
        assert told.output.decode() == text


@pytest.mark.parametrize("part", range(8))
def test_messages_expanded_again(tool, part, tmp_path, count_runs):
    """10,000 runs that look random, of 1 to 7 messages, are gathered, and give their events again."""
    kinds = set()
    for number in range(1250 * part, 1250 * (part + 1)):
        profile, _, script, _ = played(number, 1 + number % 7)
        write_files(tmp_path, {"profile": profile, "script": script})
        told = run(tool, "messages", "--format", "messages", "profile", "script", folder=tmp_path)
        assert (told.status, told.errors) == (0, b"")
        write_files(tmp_path, {"messages": told.output})
        assert run(tool, "expand", "--for", "profile", "messages", folder=tmp_path).output.decode() == script
        kinds |= {it.split()[1] for it in told.output.decode().splitlines() if it[:1] in "AB"}
    assert kinds >= {"rx", "tx", "mode", "c", "d", "gap", "noise"}
    count_runs(1250)


def test_messages_to_a_closed_pipe(tool, tmp_path):
    write_files(tmp_path, {**FILES, "long": SCRIPT * 2000})
    with subprocess.Popen([tool, "messages", "five", "long"], cwd=tmp_path, stdout=subprocess.PIPE, stderr=subprocess.PIPE) as ended:
        ended.stdout.close()
        assert (ended.wait(60), ended.stderr.read()) == (141, b"")
