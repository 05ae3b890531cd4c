"""The drawings of `rt1553-tool draw` beside the scripts, the transcripts of `rt1553 run` and the model of tests/model.

Looks at the drawing and the page of each protocol test, of each example, and of scripts made here, with all status bits, all mode
codes, long messages and much that looks random (tests/drawings.py tells what is looked at).
"""

import functools
import json
import random
import re
import xml.etree.ElementTree as xml

import drawings
import pytest
import random_scripts
import rules
from drawings import HTML, MOST_OF_NAME, SVG, classes
from programs import TOP, Row, check_row, run, write_files


def examples():
    """Profiles and scripts: those of the protocol tests, by the profile that each names, and the examples."""
    folder = TOP / "examples/validation"
    for script in sorted(folder.glob("scripts/*.script")):
        yield folder / "profiles" / re.match(r"# Profile: (.*)\n", script.read_text())[1], script
    for script in sorted(TOP.glob("examples/messages/*.script")):
        yield script.parent / "terminal.toml", script
    for script in sorted(TOP.glob("examples/scripts/*.script")):
        for profile in sorted(TOP.glob("examples/profiles/*.toml")):
            yield profile, script


ALL = """address = 5
broadcast = true
accept_bus_control = true
[[rule]]
direction = "receive"
subaddresses = "1-30"
counts = "1-32"
[[rule]]
direction = "transmit"
subaddresses = "1-30"
counts = "1-32"
[[rule]]
to = "broadcast"
direction = "receive"
subaddresses = "1-30"
counts = "1-32"
[[mode]]
codes = "0-8,16-19"
[[mode]]
to = "broadcast"
codes = "1,3-8,17"
"""


def status_lines():
    """Transfers in which the status word of the other terminal has each of its bits alone, all of them, and some."""
    for bits in [0, *(1 << at for at in range(11)), 0x7FF, 0x700, 0x1F, 0x10C, 0x4E1]:
        yield from ("A c 2862", "A c 3462", "A gap", f"A c {0x3000 + bits:04x}", "A d 0011", "A d ffff", "A gap", "slot", "slot")


def flag_lines():
    """Each flag and all of them, with a status word behind."""
    for name in rules.FLAGS:
        yield from (f"flag {name} 1", "B c 2c02", "B gap", "slot", "B c ffe1", "B d 0001", "B gap", "B c 2c02", "B gap", "slot")
    yield from ("A c 2c00", "A gap", "slot", "A c 2c0d", "A gap", "slot", "A c 2c02", "A gap", "slot")


def mode_lines():
    """Each mode code, to this terminal, to all and to another one, to transmit and to receive."""
    for code in range(32):
        for address in (5, 31, 6):
            for way in (0, 1):
                word = [f"A d {code:04x}"] if code >= 16 and not way else []
                yield from (f"A c {address << 11 | way << 10 | 31 * 32 * (code % 2) | code:04x}", *word, "A gap", "slot", "slot")


def long_lines():
    """The longest messages, and what goes on without end."""
    words = [f"A d {at * 0x0101:04x}" for at in range(32)]
    yield from ("A c 2860", *words, "A gap", "slot", "A c 2c60", "A gap", *["slot"] * 34)
    yield from ("A c f860", "A c 3460", "A gap", "A c 37ff", *words, "A gap", "slot")
    yield from ("A c 3060", "A c 2c60", "A gap", *["slot"] * 33, "A gap", "A c 3411", "A gap", "A c 2c02", "A gap", "slot")
    yield from [*["A noise"] * 70, "A gap", *["write 30 32 ffff"] * 70, *["slot"] * 70, *["B gap"] * 70, *["B d 1234 0"] * 70]


def transfer_lines():
    """Transfers on both buses: some are superseded, some end in error, some are followed by what isn't the status."""
    yield from """A c 2862|A c 3462|A gap|B c 2c02|B gap|slot|A c 3000|A gap|A c 3000|A gap
A c 2862|A c 3462|A gap|A c 3800|A gap|A c 2862|A c 3462|A gap|B c 3000|A c 3000 1|A gap
A c 3062|A c 2c62|A gap|slot|slot|slot|B c 3000|A c 3000|A gap|A c 3000|A gap
A c 3062|A c 2c62|A gap|slot|slot|A c 3000|slot|flag busy 1|A c 3001|A gap
A c 3062|A noise|A c 2c62|A gap|slot|slot|slot|A c 3000|A gap|A c f862|A c 2c62|A gap|slot|slot|slot|slot
B c 3062|B c 2c02|B gap|slot|B c 3001|B gap|B c 3001|B gap|A c 2862|B c 3000|A d 0001|A d 0002|A gap|slot""".replace("\n", "|").split("|")


def comment_lines():
    """Comments that state answers where none can be."""
    return ["#> A s 2800", "#+ more", "A c 2c02", "#> hand sync", "A gap", "slot", "#> A s 2800", "#> A s 2800", "#+", ""]


def random_lines(seed):
    """Messages that look random, to a terminal that may do all."""
    lines = []
    subaddresses = [1 + seed % 30, 1 + seed * 7 % 30]
    messages = random_scripts.Messages(drawings.setup_of(ALL), subaddresses, seed, lambda event, answer: lines.append(random_scripts.line_of(event)))
    while len(lines) < (3900 if seed == 1 else 40 + 5 * seed):
        messages.message()
    return lines[:4096]


@functools.lru_cache(maxsize=None)
def shuffled_lines():
    """Events of other scripts in another order, five times."""
    shuffled = random.Random(1553)
    events = [*status_lines(), *mode_lines(), *flag_lines()]
    return [shuffled.sample(events, 300) for _ in range(5)]


# scripts that are made here, each when it is played
MADE = {
    **{it.__name__: it for it in (status_lines, flag_lines, mode_lines, long_lines, transfer_lines, comment_lines)},
    "none": lambda: [],
    "alone": lambda: ["slot"],
    "gap_alone": lambda: ["B gap"],
    "most": lambda: ["slot"] * 4096,
    **{f"random-{seed}": functools.partial(random_lines, seed) for seed in range(1, 31)},
    **{f"shuffled-{at}": lambda at=at: shuffled_lines()[at] for at in range(5)},
}


@pytest.mark.parametrize("profile, script", examples(), ids=lambda it: it.stem)
def test_drawing(build, profile, script):
    drawings.look_at(build.tool, build.rt1553, profile, script)


@pytest.mark.parametrize("name", MADE)
def test_drawing_of_what_is_made(build, name, tmp_path):
    write_files(tmp_path, {"all.toml": ALL, "script": "".join(f"{line}\n" for line in MADE[name]())})
    drawings.look_at(build.tool, build.rt1553, tmp_path / "all.toml", tmp_path / "script")


@pytest.mark.parametrize("script", sorted(TOP.glob("examples/messages/*.script")), ids=lambda it: it.stem)
def test_drawing_beside_its_script(tool, script):
    """examples/messages has the drawing of each script, as `draw` makes it."""
    assert drawings.printed(tool, "draw", script.parent / "terminal.toml", script) == script.with_suffix(".svg").read_text()


# names of messages: long ones, wide ones, and such as mean something else in a page
NAMES = [
    "speed", 'a "b" \\ c', "<b>&amp;</b>'", "W" * 90, "m" * 40, "m" * 41, "\u901f" * 60, "\u901f" * 40, "\u00e4\u01c4" * 30, "e\u0301" * 20,
    "\u2026" * 41, "\U0001f600" * 12,
]  # fmt: skip


def shown(name):
    """A name as it is printed, without the quotes around it."""
    return re.sub(r"""(["'\\])""", r"\\\1", name)


@pytest.fixture
def named(tmp_path):
    """A folder with a table of names, and with a script that has a message at each of its subaddresses and one without a name."""
    quoted = (name.replace('"', '""') for name in NAMES)
    messages = [f"A c {5 << 11 | at << 5 | 2:04x}\nA d 0001\nA d 0002\nA gap\nslot\n" for at in range(1, len(NAMES) + 2)]
    write_files(tmp_path, {
        "all.toml": ALL,
        "names.csv": "kind,value,subaddress,words,name\naddress,5,,,\n" + "".join(f'receive,,{at},2,"{name}"\n' for at, name in enumerate(quoted, 1)),
        "empty.csv": "kind,value\naddress,5\n",
        "script": "".join(messages),
    })  # fmt: skip
    return tmp_path


def test_names_in_a_drawing(tool, named):
    """Each name stands above its message, cut where it is long, and all of it in the title; with `--html` also in the summary."""
    words = ["--names", named / "names.csv", named / "all.toml", named / "script"]
    svg = xml.fromstring(drawings.printed(tool, "draw", *words))
    drawn = [message for message in svg.iter(f"{SVG}g") if "message" in classes(message)]
    drawings.look_at_drawing(svg)
    summaries = list(xml.fromstring(drawings.printed(tool, "draw", "--html", *words)).iter(f"{HTML}summary"))
    wanted = []
    for at, name in enumerate([*NAMES, None], 1):
        whole = "" if name is None else f' "{shown(name)}"'
        short = whole if len(whole) <= MOST_OF_NAME + 3 else f' "{shown(name)[:MOST_OF_NAME]}\u2026"'
        title = f"message {at}, line {5 * at - 4}: to 5: receive {at}, 2 words{whole}; status of 5"
        wanted.append((f"message {at}{short}", title, title))
    headings = [next(it for it in message if "name" in classes(it)).text for message in drawn]
    titles = [message.find(f"{SVG}title").text for message in drawn]
    assert list(zip(headings, titles, [it.text for it in summaries])) == wanted
    assert len(drawn) == len(wanted)


def drawn(tool, folder, script, *words):
    """The drawing of a script to a terminal that may do all."""
    write_files(folder, {"all.toml": ALL, "script": script})
    return xml.fromstring(drawings.printed(tool, "draw", *words, folder / "all.toml", folder / "script"))


def test_set_bits_have_colours(tool, tmp_path):
    """Message error, busy and other bits each have a colour of their own, which the names of the bits in the box tell too."""
    lines = "".join(f"{line}\n" for line in status_lines())
    seen = {}
    for group in drawn(tool, tmp_path, lines).iter(f"{SVG}g"):
        for box in group.findall(f"{SVG}rect"):
            told = " ".join(it.text for it in group.findall(f"{SVG}text"))
            for it in set(classes(box)) & set(drawings.BITS):
                seen.setdefault(it, []).append(told)
    assert set(seen) == set(drawings.BITS)
    assert all("error" in told for told in seen["error"]) and all("busy" in told and "error" not in told for told in seen["busy"])
    assert not any("busy" in told or "error" in told for told in seen["flagged"]) and len(seen["flagged"]) >= 9


def test_gap_is_as_wide_with_a_hand_over(tool, tmp_path):
    """A message of which words are handed over has the same columns on its bus as one that is illegal, and hands nothing over."""
    widths = []
    for subaddress in (3, 31):
        svg = drawn(tool, tmp_path, f"A c {0x2802 | subaddress << 5:04x}\nA d 0001\nA d 0002\nA gap\nslot\nA d 0003\n")
        widths.append([(it.get("x"), it.get("width")) for it in svg.iter(f"{SVG}rect") if "area" in classes(it)])
    assert widths[0] and [it[1] for it in widths[0]] == [it[1] for it in widths[1]] == ["24"]


def test_message_of_32_words_is_folded(tool, tmp_path):
    """It stands in rows that are no wider than paper, each of which tells which message it is of."""
    words = "".join(f"A d {at:04x}\n" for at in range(32))
    svg = drawn(tool, tmp_path, f"A c 2860\n{words}A gap\nslot\n")
    assert float(svg.get("width")) <= drawings.PAPER
    names = [it.text for it in svg.iter(f"{SVG}text") if "name" in classes(it) and it.text.startswith("message")]
    assert names == ["message 1", *["message 1, continued"] * 2]
    (message,) = drawings.look_at_drawing(svg)
    assert [it.line for it in message[2]] == list(range(1, 36))


def test_drawing_is_light(tool, tmp_path):
    """A drawing alone stands on white, in the dark too: only a page has colours for the dark."""
    svg = drawn(tool, tmp_path, "A c 2c02\nA gap\nslot\n")
    first = next(it for it in svg if it.tag != f"{SVG}title")
    assert classes(first) == ["paper"] and (first.get("width"), first.get("height")) == (svg.get("width"), svg.get("height"))
    assert "prefers-color-scheme" not in xml.tostring(svg, encoding="unicode")


def test_list_of_messages(tool, named):
    """The page begins with the list of messages, with their names; what means something in HTML is escaped."""
    words = ["--names", named / "names.csv", named / "all.toml", named / "script"]
    page = drawings.printed(tool, "draw", "--html", *words)
    root = xml.fromstring(page)
    rows = [json.loads(it) for it in drawings.printed(tool, "messages", "--format", "json", *words).splitlines()]
    assert [row["name"] for row in rows] == [*NAMES, None]
    folds = [it for it in root.iter(f"{HTML}details") if it.find(f"{HTML}div") is not None]
    drawings.look_at_list(root, [{**row, "name": row["name"] and escaped_name(row["name"])} for row in rows], folds)
    assert page.index('<table id="messages">') < page.index("<svg") and "<b>" not in page


def test_lines_of_messages(tool, tmp_path):
    """With `--expand` the drawings and the list of a page have the lines of the file."""
    write_files(tmp_path, {"all.toml": ALL, "script": "# speed\nA rx 5 3 2: 0001 0002\n#> hand receive own 03 0001 0002\n#> A s 2800\n\n"
                                                      "A rx 5 3 2 from 9 1: 0003 0004\nflag busy 1\nA tx 5 3 2\nA c 2c02\nA gap\nslot\n"})
    words = ["--expand", tmp_path / "all.toml", tmp_path / "script"]
    rows = [json.loads(it) for it in drawings.printed(tool, "messages", "--format", "json", *words).splitlines()]
    assert [it["line"] for it in rows] == [2, 6, 8, 9]
    root = xml.fromstring(drawings.printed(tool, "draw", "--html", *words))
    folds = [it for it in root.iter(f"{HTML}details") if it.find(f"{HTML}div") is not None]
    drawings.look_at_list(root, rows, folds)
    svg = xml.fromstring(drawings.printed(tool, "draw", *words))
    numbers = [int(it.text) for it in svg.iter(f"{SVG}text") if "number" in classes(it)]
    assert numbers == [*[2] * 5, *[6] * 8, 7, *[8] * 5, 9, 10, 11]


def escaped_name(name):
    """A name as the list has it."""
    return re.sub(r"([\\\"'])", r"\\\1", name)


WRONG = """A c 2c02
A gap
slot
#> A s 2c00
A c 2c62
A gap
slot
#> A s 2800
slot
slot
#> A d 1234
A c 2862
A d 0001
A d 0002
A gap
#> hand receive own 04 0001 0002
slot
#> A s 2808
slot
#> A d 0000
A c 2862
A d 0001
A d 0002
A gap
#> hand receive own 03 0001 0003
slot
#> A s 2800
slot
A gap
A c 2c02
A gap
slot
"""


def test_what_differs_is_marked(tool, tmp_path):
    """On the page of `verify` what differs is marked in its drawing, with what was expected beside it, and nothing else is."""
    write_files(tmp_path, {"all.toml": ALL, "wrong": WRONG})
    page = run(tool, "verify", "--format", "html", "all.toml", "wrong", folder=tmp_path)
    told = run(tool, "verify", "all.toml", "wrong", folder=tmp_path).output.decode()
    wanted = {int(it[1]): it[2] for it in re.finditer(r"wrong:(\d+): expected (.*?), came ", told)}
    assert len(wanted) == 8 and (page.status, page.errors) == (1, b"")
    marked, framed = {}, set()
    for svg in xml.fromstring(page.output.decode()).iter(f"{SVG}svg"):
        if "key" in classes(svg):
            continue
        for message in drawings.look_at_drawing(svg):
            for column in message[2]:
                for shape, group in column.shapes():
                    if "expected" in classes(shape):
                        texts = [it.text for it in group.iter(f"{SVG}text")]
                        whole = group.find(f"{SVG}title").text.partition(": ")[2]
                        assert texts == ["expected", whole if len(whole) <= 24 else whole[:24] + " .."]
                        marked[column.line] = whole
                    if drawings.DIFFERS in classes(shape):
                        framed.add(column.line)
    assert marked == wanted
    assert framed == {line for line in wanted if "came nothing" not in told.splitlines()[[*wanted].index(line)]}


def test_table_without_names_changes_no_drawing(tool, named):
    words = [named / "all.toml", named / "script"]
    assert drawings.printed(tool, "draw", "--names", named / "empty.csv", *words) == drawings.printed(tool, "draw", *words)


ROWS = [
    Row("draw: a script that is refused", "draw five refused", 2,
        errors="refused:3:5: error: a space at the end: nothing may follow the last field\n",
        files={"five": "address = 5\n", "refused": "A c 2c02\nA gap\nslot \n"}),
    Row("draw: too many events", "draw five most", 2,
        errors="most: script: too many events to draw\n", files={"five": "address = 5\n", "most": "slot\n" * 4097}),
]  # fmt: skip


@pytest.mark.parametrize("row", ROWS, ids=lambda it: it.name)
def test_what_is_not_drawn(tool, row, tmp_path):
    check_row(tool, row, tmp_path)


def test_as_many_events_as_may_be(tool, tmp_path):
    write_files(tmp_path, {"five": "address = 5\n", "most": "slot\n" * 4096})
    given = run(tool, "draw", "five", "most", folder=tmp_path)
    assert (given.status, given.errors) == (0, b"")
    assert b"</svg>" in given.output.splitlines()[-1]
