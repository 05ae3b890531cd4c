"""The exchanges of acceptance tests: by the model, and in the forms in which `rt1553-tool acceptance` writes and compares them."""

import csv
import functools
import io
import json
import re
from typing import NamedTuple

import complete_test
import play
import rules
from programs import Given

COLUMNS = ["number", "tries", "command", "data", "expected", "handed"]
MODE_NAMES = {
    0: "dynamic bus control",
    1: "synchronize",
    2: "transmit status word",
    3: "initiate self test",
    4: "transmitter shutdown",
    5: "override transmitter shutdown",
    6: "inhibit terminal flag bit",
    7: "override inhibit terminal flag bit",
    8: "reset remote terminal",
    16: "transmit vector word",
    17: "synchronize with data word",
    18: "transmit last command",
    19: "transmit BIT word",
}
SMALLEST = "address = 5\n"
# the most events: of each subaddress the wraparound is tried by 32 words each way
LARGEST = """address = 5
broadcast = true
[[mode]]
to = "both"
codes = "0-31"
[[rule]]
direction = "both"
subaddresses = "1-30"
counts = 32
[[rule]]
to = "broadcast"
direction = "receive"
subaddresses = "1-30"
"""
EXCHANGE = re.compile(
    r"# (?P<tries>.+)\nA c (?P<command>[0-9a-f]{4})\n(?P<data>(?:A d [0-9a-f]{4}\n)*)A gap\n"
    r"(?:#> (?P<handed>hand .+(?:\n\#\+ .+)*)\n)?(?P<slots>(?:slot\n(?:#> A [sd] [0-9a-f]{4}\n)?)*)"
)
SLOT = re.compile(r"slot\n(?:#> (.+)\n)?")


class Exchange(NamedTuple):
    """An exchange of the test, and what the terminal answers. `sent` has for each slot the line of what is sent, or nothing."""

    tries: str
    command: str
    data: tuple
    handed: str
    sent: tuple

    def reply(self):
        """The words that are sent."""
        return tuple(line[-4:] for line in self.sent if line)

    def events(self):
        """How many events it has."""
        return 1 + len(self.data) + 1 + len(self.sent)


# ---- by the model


def label(unit, command):
    """What a command tries, and whether it is legal to the terminal."""
    cell = rules.cell_of(command)
    if rules.is_mode(command):
        asked = MODE_NAMES[command & 31]
    else:
        words = rules.count_of(command)
        way = "transmit" if rules.is_transmit(command) else "receive"
        asked = f"{way} {rules.subaddress_of(command)}, {words} word{'s' * (words != 1)}"
    legal = cell is not None and unit.setup.legal(cell)
    return f"{'broadcast ' * rules.is_broadcast(command)}{asked}: {'legal' if legal else 'illegal'}"


def answer_of(answer):
    """The line of an answer, empty for none."""
    return play.answer_line(answer) if answer else ""


def played(unit, command, data, slots):
    """What a terminal of the model hands over in an exchange, and the line of what it sends in each slot."""
    before = [unit.step(("word", "A", rules.valid_word("c", command)))]
    before += [unit.step(("word", "A", rules.valid_word("d", word))) for word in data]
    assert not any(before), "a word is answered"
    return answer_of(unit.step(("gap", "A"))), tuple(answer_of(unit.step(("slot",))) for _ in range(slots))


@functools.lru_cache(maxsize=8)
def modelled(p):
    """The exchanges of the test of a terminal, as the model answers them."""
    unit = complete_test.terminal(p)
    found = []
    for command, data, slots in complete_test.exchanges(p):
        words = tuple(f"{word:04x}" for word in data)
        found.append(Exchange(label(unit, command), f"{command:04x}", words, *played(unit, command, data, slots)))
    return found


def replies_of(exchanges, other):
    """What another terminal of the model hands over and sends in these exchanges."""
    unit = complete_test.terminal(other)
    answers = (played(unit, int(it.command, 16), [int(word, 16) for word in it.data], len(it.sent)) for it in exchanges)
    return [it._replace(handed=handed, sent=sent) for it, (handed, sent) in zip(exchanges, answers)]


# ---- as they are written


def stated(answer):
    """The lines that state an answer: seven words of data on the first, twelve on each other."""
    words = answer.split(" ")
    if words[:2] != ["hand", "receive"]:
        return [f"#> {answer}"]
    data = words[4:]
    more = [data[k : k + 12] for k in range(7, len(data), 12)]
    return ["#> " + " ".join(words[:4] + data[:7]), *("#+ " + " ".join(part) for part in more)]


def numbered(exchanges):
    """The lines of the script, and of each event the number of its line and the answer that is stated of it."""
    lines, events = [], []

    def take(event, answer=""):
        lines.append(event)
        events.append((len(lines), answer))
        if answer:
            lines.extend(stated(answer))

    for it in exchanges:
        lines.append(f"# {it.tries}")
        take(f"A c {it.command}")
        for word in it.data:
            take(f"A d {word}")
        take("A gap", it.handed)
        for answer in it.sent:
            take("slot", answer)
    return lines, events


def script_of(exchanges):
    """The script."""
    return "".join(f"{line}\n" for line in numbered(exchanges)[0])


def transcript_of(exchanges):
    """What `run` prints of the script."""
    return "".join(f"{line}\n" for it in exchanges for line in (it.handed, *it.sent) if line)


def fields_of(number, it):
    """The row of an exchange in the table."""
    return [str(number), it.tries, it.command, " ".join(it.data), " ".join(it.reply()) or "none", it.handed.removeprefix("hand ")]


def table_of(exchanges):
    """The table in CSV."""
    text = io.StringIO()
    writer = csv.writer(text, lineterminator="\r\n")
    writer.writerow(COLUMNS)
    writer.writerows(fields_of(number, it) for number, it in enumerate(exchanges, 1))
    return text.getvalue()


def filled_of(exchanges):
    """The table with what is expected as the replies of a unit."""
    return table_of(exchanges).replace("expected", "reply", 1)


def json_of(exchanges):
    """The table in JSON, a line for each exchange."""
    rows = ([number, it.tries, it.command, it.data, it.reply() or None, it.handed.removeprefix("hand ") or None]
            for number, it in enumerate(exchanges, 1))  # fmt: skip
    return "".join(json.dumps(dict(zip(COLUMNS, row)), separators=(",", ":")) + "\n" for row in rows)


def read_script(text):
    """The exchanges of a script; writing them again gives the same script."""
    found = [Exchange(it["tries"], it["command"], tuple(it["data"].replace("A d ", "").split()),
                      (it["handed"] or "").replace("\n#+ ", " "), tuple(SLOT.findall(it["slots"])))
             for it in EXCHANGE.finditer(text)]  # fmt: skip
    check_lines(script_of(found), text)
    return found


# ---- as `verify` and `acceptance --against` compare them


def told_by_verify(exchanges, other, name):
    """What `verify` tells of the script of these exchanges, a file of this name, to the profile of another terminal."""
    events, came = numbered(exchanges)[1], numbered(replies_of(exchanges, other))[1]
    lines = [f"{name}:{line}: expected {wanted or 'nothing'}, came {answer or 'nothing'}\n"
             for (line, wanted), (_, answer) in zip(events, came) if answer != wanted]  # fmt: skip
    if lines:
        lines.append(f"{name}: differences: {len(lines)}\n")
    return Given(1 if lines else 0, "".join(lines).encode(), b"")


def results_in(exchanges):
    """The replies of these exchanges by their numbers."""
    return {number: it.reply() for number, it in enumerate(exchanges, 1)}


def results_text(results):
    """A table of results."""
    return "number,reply\n" + "".join(f"{number},{' '.join(reply) or 'none'}\n" for number, reply in results.items())


def ranges_of(numbers):
    """Rising numbers as their first and last ones, where they follow one another."""
    found = []
    for number in numbers:
        if found and found[-1][1] == number - 1:
            found[-1][1] = number
        else:
            found.append([number, number])
    return found


def told_by_against(exchanges, results, name="results"):
    """What `acceptance --against` tells of these results, a file of this name with a row for each in their order."""
    wanted, total = results_in(exchanges), len(exchanges)
    if max(results, default=0) > total:
        return Given(2, b"", f"{name}: results: row {max(results) + 1}: no exchange has this number\n".encode())
    differing = [number for number, reply in sorted(results.items()) if reply != wanted[number]]
    missing = [number for number in wanted if number not in results]
    lines = [f"{number}: {exchanges[number - 1].tries}: expected {' '.join(wanted[number]) or 'none'}, came {' '.join(results[number]) or 'none'}"
             for number in differing]  # fmt: skip
    lines += [f"no result for {first}" + (f" to {last}" if last > first else "") for first, last in ranges_of(missing)]
    if differing:
        lines.append(f"{len(differing)} of {total} exchanges are answered otherwise: it is another terminal")
    elif missing:
        lines.append(f"{len(missing)} of {total} exchanges have no result: no verdict")
    else:
        lines.append(f"all {total} exchanges are answered as by this terminal: it is the same terminal")
    return Given(1 if differing or missing else 0, "".join(f"{line}\n" for line in lines).encode(), b"")


# ---- comparing long texts


def check_lines(given, wanted):
    """Compares long texts. A failure shows the first line that differs."""
    for number, (one, other) in enumerate(zip(given.splitlines(True), wanted.splitlines(True)), 1):
        assert one == other, f"line {number}: {one!r}, and not {other!r}"
    assert len(given) == len(wanted)
