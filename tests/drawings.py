"""What a drawing of `rt1553-tool draw` must be like.

It is well-formed; each event has a column, in its order, with the number of its line and a title that says it; each word that comes,
is sent or is handed over has a box, with its digits; a status word that the terminal waits for is drawn as one; no text leaves its
box, in a font wider than most, nor the name of a message its place; no row is wider than a page of paper, and only a message that is
goes on in the next one; a gap is as wide whatever is handed over at it; a status word with bits has a colour of its own; a drawing is
light, and each of its colours has another one on a page in the dark.
"""

import json
import math
import re
import tomllib
import unicodedata
import xml.etree.ElementTree as xml

import play
import rules
import run_messages
from programs import succeed

SVG, HTML = "{http://www.w3.org/2000/svg}", "{http://www.w3.org/1999/xhtml}"
# how wide the characters from the space to the tilde are in DejaVu Sans, in thousandths of its size; its Mono has one width
SANS = [int(it) for it in """
    318 401 460 838 636 950 780 275 390 390 500 838 318 361 318 337 636 636 636 636 636 636 636 636 636 636 337 337 838 838 838 531
    1000 684 686 698 770 632 575 775 752 295 295 656 557 863 748 787 603 787 695 635 611 732 684 989 685 611 685 390 337 390 838 500
    500 613 635 550 635 615 352 635 634 278 278 579 278 974 634 612 635 635 411 521 392 634 592 818 592 592 525 636 337 636 838
""".split()]
MONO, SIZE = 602, 12
# the same for others: those of a double width in a terminal, those that combine with the one before, and the widest letters of DejaVu Sans
DOUBLE, COMBINING, WIDEST = 1000, 0, 1480
# how many characters of a name stand in a drawing at most
MOST_OF_NAME = 40
# a row is at most as wide as the paper, and a message has no more events
PAPER, LONGEST = 960, 64
# how wide a gap is at least, and a digit with what stands around a number
NARROW, DIGIT, AROUND = 24, 7.3, 8
# the classes that colour set bits of status words, and what the row of one shows that differs from what is stated
BITS, DIFFERS = ("error", "busy", "flagged"), "differing"
# how many messages are folded together where there are more
TOGETHER = 50


def printed(*words):
    """The text that a program prints, which has to end well."""
    return succeed(*words).decode()


def setup_of(profile):
    """The terminal of the model, by the text of a profile."""
    return play.setup_of(tomllib.loads(profile))


# text and boxes


def classes(it):
    return it.get("class", "").split()


def width_of_char(it):
    """How wide a character is at most."""
    if it <= "~":
        return SANS[ord(it) - 32]
    if unicodedata.combining(it):
        return COMBINING
    return DOUBLE if unicodedata.east_asian_width(it) in "WF" else WIDEST


def width_of(text):
    """How wide a `text` is that stands in a drawing."""
    said = text.text or ""
    each = (MONO if "digits" in classes(text) else width_of_char(it) for it in said)
    return sum(each) * SIZE / 1000


def number(it, name):
    return float(it.get(name))


def span_of(text):
    """From where to where a `text` goes."""
    width, at = width_of(text), number(text, "x")
    return (at, at + width) if "name" in classes(text) else (at - width / 2, at + width / 2)


def look_at_box(group):
    """The lines of a box stay in it, one below the other, all of one size."""
    box = next(it for it in group.iter(f"{SVG}rect") if "box" in classes(it))
    left, top = number(box, "x"), number(box, "y")
    right, bottom = left + number(box, "width"), top + number(box, "height")
    tops = []
    for text in group.iter(f"{SVG}text"):
        assert text.text, "a line of a box is empty"
        start, end = span_of(text)
        assert left + 2 <= start and end <= right - 2, f"'{text.text}' leaves its box"
        assert top + SIZE <= number(text, "y") <= bottom - 4, f"'{text.text}' stands above or below its box"
        tops.append(number(text, "y"))
    assert all(b - a >= SIZE + 2 for a, b in zip(tops, tops[1:])), "lines of a box cover each other"
    return left, right


# what is drawn


class Column:
    """A column of a message: the number of its line, and its boxes and marks, each with its title."""

    def __init__(self, line):
        self.line, self.middle, self.groups = int(line.text), number(line, "x"), []
        self.span = span_of(line)

    def shapes(self):
        """Each box and mark, with what it is in."""
        for group in self.groups:
            shape = [it for it in group if it.tag != f"{SVG}title" and it.tag != f"{SVG}text" and "area" not in classes(it)]
            assert len(shape) == 1, "a mark has one shape"
            yield shape[0], group

    def marks(self):
        """For each box its class, its digits and its title; for a gap and a slot without a word their class."""
        for shape, group in self.shapes():
            digits = [it.text for it in group.iter(f"{SVG}text") if "digits" in classes(it)]
            kinds = [it for it in classes(shape) if it not in ("box", *BITS, DIFFERS)]
            assert len(kinds) == 1, "a mark is of one kind"
            yield kinds[0], " ".join(digits), group.find(f"{SVG}title").text


def columns_of(message):
    columns = []
    for it in message:
        if it.tag == f"{SVG}text" and "number" in classes(it):
            columns.append(Column(it))
        elif it.tag == f"{SVG}g":
            assert it.get("role") == "img" and it.find(f"{SVG}title") is not None, "a mark has no title or no role"
            columns[-1].groups.append(it)
    return columns


def look_at_column_place(column, ends, right):
    """A column stands behind the one before, up to the right end of its message; so does each of its boxes in its lane."""
    assert ends["number"] <= column.span[0] and column.span[1] <= right, "the number of a line has no room"
    ends["number"] = column.span[1]
    for shape, group in column.shapes():
        if "box" in classes(shape):
            left, end = look_at_box(group)
            lane = middle_of(shape)
            assert ends.get(lane, ends["begin"]) <= left and end <= right, "a box goes into another column"
            ends[lane] = end
        if "gap" in classes(shape):
            area = next(it for it in group if "area" in classes(it))
            wanted = max(NARROW, math.ceil(DIGIT * len(str(column.line))) + AROUND)
            assert number(area, "width") == wanted, f"the gap of line {column.line} is not as wide as others"
            lane, left = middle_of(shape), number(area, "x")
            assert ends.get(lane, ends["begin"]) <= left and left + wanted <= right, "a gap goes into another column"
            ends[lane] = left + wanted


def look_at_message(message, right):
    """What of a message stands in a row: its columns one behind the other, up to its right end, and its name has room."""
    assert message.get("role") == "img" and message.find(f"{SVG}title").text, "a message has no title or no role"
    columns = columns_of(message)
    name = next(it for it in message if "name" in classes(it))
    assert span_of(name)[1] + 2 <= right, "the name of a message goes into the next one"
    edge = message.find(f"{SVG}line")
    at = number(edge, "x1")
    ends = {"begin": at, "number": at}
    for column in columns:
        look_at_column_place(column, ends, right)
    told = re.match(r"message (\d+)(, continued$)?", name.text)
    assert (classes(edge) == ["edge", "fold"]) == bool(told[2]), "an edge tells something else than the name"
    return int(told[1]), message.find(f"{SVG}title").text, columns, bool(told[2])


def whole_messages(pieces):
    """Messages, by what of them stands in rows."""
    messages = []
    for at, title, columns, is_continued in pieces:
        if is_continued:
            assert messages and messages[-1][:2] == (at, title), "what is continued did not begin"
            messages[-1][2].extend(columns)
        else:
            messages.append((at, title, columns))
    return messages


def middle_of(shape):
    """How far down a box or a gap has its middle."""
    if shape.tag == f"{SVG}rect":
        return number(shape, "y") + number(shape, "height") / 2
    return (number(shape, "y1") + number(shape, "y2")) / 2


def look_at_row(row, width):
    """A row: it has just the lanes in which something stands, their names have room, and it fits on paper."""
    messages = [it for it in row if "message" in classes(it)]
    lanes = {number(it, "y1"): number(it, "x1") for it in row if "lane" in classes(it)}
    used = {middle_of(it) for it in row.iter() if {"box", "gap"} & set(classes(it))}
    assert set(lanes) == used, "a lane is empty, or something stands in none"
    names = [it for it in row if it.tag == f"{SVG}text"]
    assert len(names) == len(lanes) + 1, "a lane has no name"
    assert all(span_of(it)[1] <= at for it in names for at in lanes.values()), "the name of a lane goes into the lane"
    assert width <= PAPER, "a row is wider than paper"
    edges = [number(it.find(f"{SVG}line"), "x1") for it in messages] + [width]
    return [look_at_message(it, edge) for it, edge in zip(messages, edges[1:])]


def look_at_drawing(svg):
    """A drawing: it has a name and a role, and all stands within. Gives its messages."""
    title = svg.find(f"{SVG}title").text
    assert svg.get("role") == "img" and title and svg.get("aria-label") == title, "a drawing has no title or no role"
    _, _, width, height = map(float, svg.get("viewBox").split())
    assert (width, height) == (number(svg, "width"), number(svg, "height")), "a drawing has two sizes"
    for it in svg.iter(f"{SVG}rect"):
        assert number(it, "y") + number(it, "height") <= height if it.get("y") else True, "something stands below the drawing"
    rows = [it for it in svg if "row" in classes(it)]
    widths = [max(number(it, "x2") for it in row if "lane" in classes(it)) if any("lane" in classes(it) for it in row) else width for row in rows]
    assert all(it <= width for it in widths), "a row goes out of the drawing"
    pieces = [look_at_row(row, at) for row, at in zip(rows, widths)]
    for before, row in zip(pieces, pieces[1:]):
        assert not row[0][3] or len(before[-1][2]) > 0, "a row goes on with nothing"
    return whole_messages([piece for row in pieces for piece in row])


# what is to be drawn


def mark_of_event(event, is_status):
    """The class and the digits of an event's box, where it has one."""
    name, *rest = event
    if name == "word":
        kind, bits, _ = rest[1]
        if not rules.is_valid(rest[1]):
            return "wrong", f"{bits:04x}"
        return {"c": "status" if is_status else "command", "d": "data"}[kind], f"{bits:04x}"
    if name == "gap":
        return "gap", ""
    if name == "noise":
        return "wrong", ""
    return "given", "" if name == "flag" else f"{rest[-1]:04x}"


def mark_of_answer(line):
    """The class and the digits of the box of a line of a transcript."""
    words = line.split(" ")
    if words[0] != "hand":
        return "sent", words[2]
    if words[1] == "receive":
        return "handed", " ".join(words[4:7] + [".."] * (len(words) > 7))
    return "handed", words[2] if len(words) > 2 and re.fullmatch("[0-9a-f]{4}", words[2]) else ""


def is_behind(told, bus):
    """Whether an event comes behind what is drawn of the message on a bus: with another, or from the subsystem when the terminal is done."""
    return told.closes(bus) if told.event[0] in ("word", "noise", "gap", "slot") else bus not in told.engaged


def look_at_run(setup, script, messages):
    """The columns of a drawing beside the events of the script, and its messages beside those of the run, by the model."""
    columns = [(message, it) for message in messages for it in message[2]]
    events = [(at, event) for at, (_, event) in enumerate(play.events_of(script), 1) if event]
    assert [it[1].line for it in columns] == [at for at, _ in events], "the columns are not those of the events, in their order"
    assert [it[0] for it in messages] == list(range(1, len(messages) + 1)), "the messages are not numbered from 1"
    last, bus = None, None
    for (message, column), told in zip(columns, run_messages.messages_of(setup, events)[1]):
        is_over = bus is not None and is_behind(told, bus)
        may_end = last is None or is_over or len(last[2]) == LONGEST
        assert may_end if message is not last else not is_over, f"line {told.line}: a message is broken, or two are drawn as one"
        bus = told.bus if told.part in ("first", "second") else None if is_over else bus
        look_at_column(column, told.line, told.event, told.part == "status", play.answer_line(told.answer) if told.answer else "")
        last = message
    for name, title, columns in messages:
        assert title.startswith(f"message {name}, line {columns[0].line}" if columns else f"message {name}")


def look_at_bits(column, shape):
    """A status word with bits has a colour of its own, by the worst of them, and no other box has."""
    kind, digits, _ = next(it for (other, _), it in zip(column.shapes(), column.marks()) if other is shape)
    title = next(group for other, group in column.shapes() if other is shape).find(f"{SVG}title").text
    bits = int(digits, 16) & 0x7FF if kind in ("status", "sent") and "status of" in title else 0
    wanted = ["error"] if bits & 0x400 else ["busy"] if bits & 8 else ["flagged"] if bits else []
    assert [it for it in classes(shape) if it in BITS] == wanted, f"line {column.line} has another colour than {wanted}"


def look_at_column(column, at, event, is_status, line):
    for shape, _ in column.shapes():
        look_at_bits(column, shape)
    marks = list(column.marks())
    wanted = [] if event[0] == "slot" else [mark_of_event(event, is_status)]
    wanted += [mark_of_answer(line)] if line else [("silence", "")] if event[0] == "slot" else []
    assert [it[:2] for it in marks] == wanted, f"line {at} is drawn as {marks}, not as {wanted}"
    for _, digits, title in marks:
        said = re.match(r"line (\d+): ([^,]*)", title)
        assert said and int(said[1]) == at and play.read_event(said[2].encode()) == event, f"the title '{title}' isn't of line {at}"
        assert not line or f", {line}" in title or title.count(",") == 0, f"the title '{title}' lacks {line}"


# colours


def rules_of(style):
    """The rules of a style sheet without blocks: what is said of each selector."""
    return {name: dict(it.split(":", 1) for it in said.split(";")) for name, said in re.findall(r"([^{}]+)\{([^{}]*)\}", style)}


def colours(rule):
    return {name: said for name, said in rule.items() if name in ("fill", "stroke") and said != "none"}


def brightness(colour):
    digits = colour[1:] if len(colour) == 7 else "".join(it * 2 for it in colour[1:])
    parts = [int(digits[at : at + 2], 16) / 255 for at in (0, 2, 4)]
    red, green, blue = (it / 12.92 if it <= 0.03928 else ((it + 0.055) / 1.055) ** 2.4 for it in parts)
    return 0.2126 * red + 0.7152 * green + 0.0722 * blue


def contrast(one, other):
    low, high = sorted((brightness(one), brightness(other)))
    return (high + 0.05) / (low + 0.05)


DARK = "@media screen and (prefers-color-scheme:dark){text{"


def look_at_sheet(sheet):
    """Text can be read on each box, and each line is seen."""
    for name in ("paper", "command", "status", "data", "wrong", "sent", "given", "handed", *BITS, "expected"):
        assert contrast(sheet["text"]["fill"], sheet[f".{name}"]["fill"]) >= 4.5, f"text is hard to read on {name}"
    for name in (".name", ".number"):
        assert contrast(sheet[name]["fill"], sheet[".paper"]["fill"]) >= 4.5, f"{name} is hard to read"
    for name in ("lane", "edge", "gap", "box", "wrong", *BITS, DIFFERS, "expected"):
        assert contrast(sheet[f".{name}"]["stroke"], sheet[".paper"]["fill"]) >= 3, f"{name} is hardly seen"
    fills = [sheet[f".{name}"]["fill"] for name in ("status", "sent", *BITS)]
    assert len(set(fills)) == len(fills), "bits have no colour of their own"


def look_at_style(style):
    """The style of a drawing: one size of text, on white, and nothing for the dark."""
    light = rules_of(style)
    assert "@" not in style and "prefers" not in style, "a drawing has a style for the dark"
    assert light[".paper"]["fill"] == "#fff", "a drawing is not on white"
    assert re.findall(r"(\d+)px", light["text"]["font"]) == [str(SIZE)] and "font-size" not in style, "text has more than one size"
    look_at_sheet(light)


def look_at_dark_style(style, sheet):
    """The style of a page: each colour of its drawings has another one in the dark, or is seen there too."""
    assert sheet.count(style + DARK) == 1, "the page lacks a style"
    tail = sheet.partition(style + DARK)[2].partition("}}")[0]
    light, dark = rules_of(style), rules_of("text{" + tail + "}")
    for name, rule in light.items():
        wanted = set(colours(rule))
        assert wanted <= set(colours(dark.get(name, {}))), f"{name} has no colour in the dark"
    look_at_sheet({**light, **dark})


def look_at_list(root, rows, folds):
    """The list of a page: the rows of `messages`, in which each number leads to the drawing of the message of its line."""
    table = next(it for it in root.iter(f"{HTML}table") if it.get("id") == "messages")
    heads = ["".join(it.itertext()) for it in table.iter(f"{HTML}th")]
    listed = [["".join(it.itertext()) for it in row] for row in table.find(f"{HTML}tbody")]
    assert listed == [list_cells(row) for row in rows], "the list has other rows than `messages`"
    assert all(len(heads) == len(it) for it in listed), "a row has other cells than the head"
    ids = [it.get("id") for it in root.iter() if it.get("id")]
    assert len(ids) == len(set(ids)), "two things have one name"
    for row, of in zip(rows, table.find(f"{HTML}tbody")):
        links = [it.get("href") for it in of.iter(f"{HTML}a")]
        assert links == [f"#line-{row['line']}"], f"the row of line {row['line']} leads to {links}"
        here = [fold for fold in folds if any(it.get("id") == links[0][1:] for it in fold.iter())]
        assert len(here) == 1, f"line {row['line']} is drawn in {len(here)} messages"
        group = next(it for it in here[0].iter(f"{SVG}text") if it.get("id") == links[0][1:])
        assert group.text == str(row["line"]) and "number" in classes(group), "a row leads to another line"
        wrong = row["ended"] not in ("other", "done") or row["why"] is not None
        assert (of.get("class") == "differs") == wrong, f"the row of line {row['line']} is marked wrongly"


def list_cells(row):
    """The cells of a row of `messages --format json`, as the list has them."""
    command = row["command"]
    place = f"mode {command['code']}" if command["code"] is not None else str(command["subaddress"])
    count = "" if command["count"] is None else str(command["count"])
    ended = row["ended"] if row["why"] is None else f"{row['ended']}: {row['why']}"
    status = "" if row["status"] is None else " ".join([row["status"], *row["bits"]])
    sender = row["transmitter"]
    told = "" if sender is None else f"{sender['address']} " + (str(sender["subaddress"]) if sender["code"] is None else f"mode {sender['code']}")
    data = " ".join(row["data"]) + (f" and {row['left_out']} more" if row["left_out"] else "")
    return [str(row["number"]), str(row["line"]), row["bus"], row["kind"], "all" if command["address"] == 31 else str(command["address"]), place,
            count, told, row.get("name") or "", ended, data, status, row["handed"] or ""]  # fmt: skip


def look_at_code(root):
    """The page has one program, which loads nothing and sends nothing."""
    codes = list(root.iter(f"{HTML}script"))
    assert len(codes) == 1 and not codes[0].attrib, "the page loads a program"
    assert not re.search(r"https?:|fetch|import|XMLHttp|eval|innerHTML|src", codes[0].text), "the program of the page does too much"
    for it in root.iter():
        assert not it.get("src") and not any(name.startswith("on") for name in it.attrib), "the page loads something"
    assert root.find(f".//{HTML}p[@id='choice']").get("hidden"), "without its program the page shows what does nothing"


def look_at_page(page, drawn, style, rows):
    """A page: the list of messages, a drawing of each below a line that tells it, what the colours say, and a program of its own."""
    root = xml.fromstring(page)
    metas = {it.get("name"): it.get("content") for it in root.iter(f"{HTML}meta")}
    assert "width=device-width" in metas.get("viewport", ""), "the page tells no viewport"
    look_at_code(root)
    sheet = root.find(f"{HTML}head/{HTML}style").text
    assert "@page" in sheet and "@media print" in sheet, "the page lacks a style"
    look_at_dark_style(style, sheet)
    shapes = [space + shape for space in (SVG, HTML) for shape in ("rect", "line", "circle")]
    keys = {classes(it)[-1] for key in root.iter(f"{HTML}ul") for it in key.iter() if it.tag in shapes}
    wanted = {"command", "status", "data", "wrong", "sent", "given", "handed", "gap", "silence", *BITS}
    assert keys == wanted, f"the page tells other colours: {keys}"
    folds = [it for it in root.iter(f"{HTML}details") if it.find(f"{HTML}div") is not None]
    told = [it.find(f"{HTML}summary").text for it in folds]
    svgs = [it.find(f"{HTML}div/{SVG}svg") for it in folds]
    assert told == [it.find(f"{SVG}title").text for it in svgs] == [it[1] for it in drawn], "a fold doesn't tell its message"
    outer = [it for it in root.iter(f"{HTML}details") if it not in folds]
    together = -(-len(drawn) // TOGETHER) - (len(drawn) % TOGETHER == 1) if len(drawn) > TOGETHER else 0
    assert len(outer) == together, "messages are not folded together"
    here = [message for svg in svgs for message in look_at_drawing(svg)]
    look_at_list(root, rows, folds)
    flat = [[(it.line, list(it.marks())) for it in message[2]] for message in here]
    assert flat == [[(it.line, list(it.marks())) for it in message[2]] for message in drawn], "the page draws something else"


def look_at(tool, program, profile, script):
    """The drawing and the page of a script, beside the script, its transcript and the model."""
    svg = xml.fromstring(printed(tool, "draw", profile, script))
    messages = look_at_drawing(svg)
    style = svg.find(f"{SVG}style").text
    look_at_style(style)
    look_at_run(setup_of(profile.read_text()), script.read_bytes(), messages)
    answers = printed(program, "run", profile, script).splitlines()
    drawn = [it[:2] for message in messages for column in message[2] for it in column.marks() if it[0] in ("sent", "handed")]
    assert drawn == [mark_of_answer(it) for it in answers], "the answers are not those of the transcript"
    rows = [json.loads(it) for it in printed(tool, "messages", "--format", "json", profile, script).splitlines()]
    look_at_page(printed(tool, "draw", "--html", profile, script), messages, style, rows)
