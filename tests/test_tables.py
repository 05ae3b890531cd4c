"""Random tables of interface control documents: written by `export` and read by `import`, and tables with faults.

`export` of a random profile, imported again, has the canonical text of the profile. A random table in any layout that a spreadsheet
saves means the profile that is written here of its rows; with up to ten faults planted in it, each is told once, with its row and column."""

import random
import re
from typing import NamedTuple, Optional

import canonical
import complete_test
import pytest
from profile_texts import toml_of, trimmed
from programs import Given, run, write_files

# how many random cases each item has, of each kind
BATCH, CASES, FAULTS = 50, 1000, 10
BATCHES = [f"{it}-{it + BATCH - 1}" for it in range(0, CASES, BATCH)]
SETTINGS = ["address", "broadcast", "wraparound", "accept_bus_control", "vector", "bit"]
MESSAGES = ["receive", "transmit", "both"]
KINDS = [*SETTINGS, *MESSAGES, "mode"]
COLUMNS = ["kind", "value", "subaddress", "words", "code", "to", "initial", "legal", "name"]
KNOWN = ", ".join(COLUMNS)
# what a column becomes in an entry of a profile
KEYS = {"subaddress": "subaddresses", "words": "counts", "code": "codes", "to": "to", "legal": "legal"}
# columns whose texts may have capitals
IN_CAPITALS = ["kind", "to", "legal"]
# faults of a row that has some kind: a column, a text for it, and what is told behind both
OF_SETTING = {
    "address": (["31", "4294967296", "99999999999999999999"], "allowed is 0 to 30"),
    "broadcast": (["2"], "allowed is yes or no"),
    "wraparound": (["31"], "allowed is yes, no or 1 to 30"),
    "accept_bus_control": (["x"], "allowed is yes or no"),
}
OF_WORD = (["x", "65536", "0x123456789"], "allowed is 0 to 65535, or 0x0000 to 0xffff")
OF_ENTRY = [
    ("kind", "recieve", f"allowed is {', '.join(KINDS)}"),
    ("to", "all", "allowed is own, broadcast or both"),
    ("legal", "maybe", "allowed is yes or no"),
]
OF_MODE = [("code", it, 'allowed is 0 to 31, as "1-3, 5"') for it in ("32", "1-", "", "4294967296")]
OF_MESSAGE = [("words", it, 'allowed is 1 to 32, as "1-3, 5"') for it in ("33", "a", "02-Aug")]
WITHOUT_INITIAL = [("subaddress", it, 'allowed is 1 to 30, as "1-3, 5"') for it in ("31", "", "9999999999")]
WITH_INITIAL = [
    ("subaddress", "1-2", "allowed beside initial words is 1 to 30, one number"),
    ("initial", "12345", 'allowed is at most 32 words of 1 to 4 hexadecimal digits, as "0001 00ff"'),
]


class Fault(NamedTuple):
    """A fault that is planted: the row that has it, by its index; the column, or None for the last; and what is told, of a column behind
    its name and its text."""

    row: int
    column: Optional[str]
    text: str


# ---- random rows, and the profile that they mean


def takes(kind):
    """The columns in which a row of this kind may have text, besides its kind and its name."""
    if kind in SETTINGS:
        return ["value"]
    if kind == "mode":
        return ["code", "to", "legal"]
    return ["subaddress", "words", "to", "legal", *(["initial"] if kind == "transmit" else [])]


def ranges(draw, low, high):
    first = draw.randint(low, high)
    last = draw.randint(first, high)
    return draw.choice([f"{first}", f"{first}-{last}", f"{first}, {last}", f"{first}-{last} , {high}"])


def name(draw):
    return draw.choice(["", "", "speed", "pages, one each", 'a "name"', "Größe; Höhe", "速度", "two\nlines", "=1+1"])


def setting_row(draw, kind):
    address, word = draw.randrange(31), draw.randrange(65536)
    values = {
        "address": [f"{address}", f"0x{address:x}"],
        "broadcast": ["yes", "true", "TRUE", "no", "false", "FALSE"],
        "wraparound": ["yes", "no", f"{draw.randint(1, 30)}"],
        "accept_bus_control": ["no", "FALSE"],
    }
    return {"kind": kind, "value": draw.choice(values.get(kind, [f"{word}", f"0x{word:04X}"])), "name": name(draw)}


def scope(draw):
    return {"to": draw.choice(["", "", "own", "broadcast", "both"]), "legal": draw.choice(["", "", "yes", "true", "no"])}


def message_row(draw, kind):
    row = {"kind": kind, "subaddress": ranges(draw, 1, 30), "words": draw.choice(["", ranges(draw, 1, 32)]), **scope(draw)}
    if kind == "transmit" and draw.random() < 0.5:
        words = [f"{draw.randrange(65536):{draw.choice(['x', '04X'])}}" for _ in range(draw.randint(1, 32))]
        row.update(subaddress=f"{draw.randint(1, 30)}", initial=draw.choice([" ", "  "]).join(words))
    return {**row, "name": name(draw)}


def mode_row(draw):
    # 2, 4, 5 and 8 have to be legal
    return {"kind": "mode", "code": draw.choice(["1", "16-19", "3, 6-7", "0", "20-31"]), **scope(draw), "name": name(draw)}


def rows_of(draw):
    """The rows of a table without fault, in any order."""
    kinds = ["address", *draw.sample(SETTINGS[1:], draw.randrange(len(SETTINGS)))]
    rows = [setting_row(draw, kind) for kind in kinds]
    rows += [message_row(draw, draw.choice(MESSAGES)) for _ in range(draw.randrange(12))]
    rows += [mode_row(draw) for _ in range(draw.randrange(4))]
    draw.shuffle(rows)
    return rows


def value(text):
    """The text of a field as a value of TOML."""
    if text in ("yes", "true", "TRUE"):
        return "true"
    if text in ("no", "false", "FALSE"):
        return "false"
    if text.isascii() and (text.isdigit() or text.startswith("0x")):
        return str(int(text, 16 if text.startswith("0x") else 10))
    return f"'{text}'"


def profile_of(rows):
    """The profile that the rows mean."""
    lines = [f"{row['kind']} = {value(row['value'])}" for row in rows if row["kind"] in SETTINGS]
    for row in rows:
        fields = [f"{KEYS[column]} = {value(text)}" for column, text in row.items() if column in KEYS and text]
        if row["kind"] in MESSAGES:
            lines += ["[[rule]]", f"direction = '{row['kind']}'", *fields]
        elif row["kind"] == "mode":
            lines += ["[[mode]]", *fields]
        if row.get("initial"):
            words = ", ".join(f"{int(word, 16)}" for word in row["initial"].split())
            lines += ["[[initial]]", f"subaddress = {row['subaddress']}", f"words = [{words}]"]
    return "\n".join(lines) + "\n"


class Layout:
    """How a table is saved: the order of its columns, what stands between fields, blanks, quotes, capitals, line ends, a byte order mark."""

    def __init__(self, draw):
        self.draw, self.blanks, self.case = draw, draw.choice([0, 0.1]), draw.choice([str, str, str.capitalize, str.upper])
        self.columns = draw.sample(COLUMNS, len(COLUMNS))
        if draw.random() < 0.3:
            self.columns.insert(draw.randrange(1, 5), "remarks")
        self.between, self.end = draw.choice(",;\t"), draw.choice(["\n", "\r\n", "\r"])
        self.quotes_all, self.mark = draw.random() < 0.3, draw.choice(["", "\ufeff"])

    def field(self, text):
        if self.draw.random() < self.blanks:
            text = f" {text}  "
        return '"' + text.replace('"', '""') + '"' if self.quotes_all or any(c in text for c in ',;"\n\t') else text

    def cell(self, column, text):
        return self.case(text) if column in IN_CAPITALS else text

    def empty(self):
        """Perhaps an empty row."""
        return self.between * (len(self.columns) - 1) + self.end if self.draw.random() < self.blanks else ""

    def record(self, fields):
        return self.between.join(map(self.field, fields)) + self.end

    def records(self, header, rows):
        """The header and the rows as they are saved, each behind an empty row, perhaps."""
        cells = [[self.case(it) for it in header], *([*(self.cell(it, row.get(it, "")) for it in self.columns), *row.get("more", [])] for row in rows)]
        return [(self.empty(), self.record(it)) for it in cells]

    def saved(self, header, rows):
        """The text, and the line on which each record begins, the header first."""
        records = self.records(header, rows)
        text = "".join(empty + record for empty, record in records)
        end = "\n" if "\n" in text else "\r"
        lines = []
        for number, (empty, _) in enumerate(records):
            line = 1 + ("".join(map("".join, records[:number])) + empty).count(end)
            # no two rows have one line, also where rows end in carriage returns and a field has a line feed
            lines.append(max([line, *(it + 1 for it in lines[-1:])]))
        return self.mark + text, lines

    def warnings(self, header, rows, lines):
        """What is warned of, without the name of the file."""
        left_out = [(at, it) for at, it in enumerate(header, 1) if it not in COLUMNS]
        counts = [(line, row) for line, row in zip(lines[1:], rows) if row["kind"] in MESSAGES and not row.get("words")]
        decimals = [line for line, row in zip(lines[1:], rows) if row["kind"] in ("vector", "bit") and re.fullmatch("[0-9]{4}", row["value"])]
        return [
            *(f'{lines[0]}:{at}: warning: the column "{self.case(it)}" is left out; known are {KNOWN}' for at, it in left_out),
            *([f"{lines[0]}:{len(header) + 1}: warning: no column is named words, so all counts 1 to 32: is this meant?"]
              if "words" not in header and counts and "kind" in header else []),
            *(f"{line}:{header.index('words') + 1}: warning: {self.case('words')}: empty, so all counts 1 to 32: is this meant?"
              for line, _ in counts if "kind" in header and "words" in header),
            *(f"{line}:{header.index('value') + 1}: warning: {self.case('value')}: decimal, since it has no 0x: is this meant?"
              for line in decimals if "kind" in header),
        ]  # fmt: skip


# ---- faults


def ways_of(draw, row):
    """The faults that can be planted in a row."""
    kind = row["kind"]
    extra = draw.choice([column for column in COLUMNS if column not in ("kind", "name", *takes(kind))])
    ways = [(extra, "1", "a row of this kind takes nothing here")]
    if kind in SETTINGS:
        texts, told = OF_SETTING.get(kind, OF_WORD)
        return [*ways, *(("value", text, told) for text in texts)]
    ways += OF_ENTRY
    if kind == "mode":
        return ways + OF_MODE
    return ways + OF_MESSAGE + (WITH_INITIAL if row.get("initial") else WITHOUT_INITIAL)


def plant(draw, rows):
    """Plants up to ten faults, each in a row of its own."""
    faults = []
    for index in draw.sample(range(len(rows)), min(len(rows), draw.randint(1, FAULTS))):
        if draw.random() < 0.1:
            rows[index]["more"] = [""]
            faults.append(Fault(index, None, "fields, and the header has"))
        else:
            column, text, told = draw.choice(ways_of(draw, rows[index]))
            rows[index][column] = text
            faults.append(Fault(index, column, told))
    if len(faults) < FAULTS and draw.random() < 0.3:
        rows.append(setting_row(draw, "address"))
        faults.append(Fault(len(rows) - 1, "kind", "an earlier row has this setting"))
    return faults


def told_of(layout, rows, lines, fault):
    """The line in which a fault is told, without the name of the file."""
    number = len(layout.columns)
    if fault.column is None:
        return f"{lines[fault.row + 1]}:{number}: error: {number + 1} {fault.text} {number}"
    text = layout.cell(fault.column, rows[fault.row][fault.column])
    said = f'"{text}"' if text else "empty"
    return f"{lines[fault.row + 1]}:{layout.columns.index(fault.column) + 1}: error: {layout.case(fault.column)}: {said}: {fault.text}"


def break_header(draw, header, rows):
    """Plants a fault in the header; gives the number of the column where it is told, and how."""
    if draw.random() < 0.5:
        header[header.index("kind")] = "kinds"
        return 1, "no column is named kind"
    column = draw.choice(COLUMNS)
    header.append(column)
    for row in rows:
        row["more"] = [""]
    return len(header), f"a second column is named {column}"


def with_faults(draw, layout, rows):
    """A table with faults in the header or in the rows, and the lines in which they are told."""
    header = list(layout.columns)
    if draw.random() < 0.1:
        at, why = break_header(draw, header, rows)
        text, lines = layout.saved(header, rows)
        return text, [f"{lines[0]}:{at}: error: {why}", *layout.warnings(header, rows, lines)]
    faults = plant(draw, rows)
    text, lines = layout.saved(header, rows)
    return text, [*(told_of(layout, rows, lines, it) for it in faults), *layout.warnings(header, rows, lines)]


# ---- what the programs do


def told(given, status=0):
    """The errors of a run that ends so, sorted, without the name of the table."""
    assert given.status == status
    return sorted(line.removeprefix("table.csv:") for line in given.errors.decode().splitlines())


def check_exported(build, folder, draw):
    """A random profile, exported and imported again, has its canonical text."""
    p = complete_test.draw_terminal(draw)
    text = canonical.text_of(trimmed(p))
    write_files(folder, {"profile": toml_of(draw, p) if draw.random() < 0.5 else text})
    table = run(build.tool, "export", "profile", folder=folder)
    write_files(folder, {"table.csv": table.output})
    profile = run(build.tool, "import", "table.csv", folder=folder)
    write_files(folder, {"imported": profile.output})
    assert (told(table), told(profile)) == ([], [])
    assert run(build.rt1553, "canon", "imported", folder=folder) == Given(0, text.encode(), b"")


def check_imported(build, folder, draw):
    """A random table means the profile of its rows."""
    layout, rows = Layout(draw), rows_of(draw)
    text, lines = layout.saved(layout.columns, rows)
    write_files(folder, {"table.csv": text, "wanted": profile_of(rows)})
    given = run(build.tool, "import", "table.csv", folder=folder)
    assert told(given) == sorted(layout.warnings(layout.columns, rows, lines))
    write_files(folder, {"given": given.output})
    assert run(build.rt1553, "compare", "given", "wanted", folder=folder) == Given(0, b"same\n", b"")


def check_faults(build, folder, draw):
    """The faults of a table are all that is told of it, besides what is warned of."""
    text, wanted = with_faults(draw, Layout(draw), rows_of(draw))
    write_files(folder, {"table.csv": text})
    given = run(build.tool, "import", "table.csv", folder=folder)
    assert (told(given, 2), given.output) == (sorted(wanted), b"")


@pytest.mark.parametrize("check", [check_exported, check_imported, check_faults], ids=lambda it: it.__name__.removeprefix("check_"))
@pytest.mark.parametrize("batch", BATCHES)
def test_table(build, check, batch, count_runs, tmp_path):
    first, last = map(int, batch.split("-"))
    for number in range(first, last + 1):
        print("case", number)
        check(build, tmp_path, random.Random(f"{check.__name__} {number}"))
    count_runs(last + 1 - first)
