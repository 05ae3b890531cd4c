"""The schema of profiles beside what `rt1553-tool lint` tells of them: a profile that is accepted fits the schema, and one with a fault
that the schema can see doesn't."""

import json
import random
import re
import tomllib

import pytest
import vector_tables
from programs import TOP, run, write_files
from schemas import misfits

SCHEMA = "editors/profile.schema.json"
GENERATED = 4000
RULE = 'address = 5\n[[rule]]\ndirection = "receive"\n'
ONE, INITIAL = f"{RULE}subaddresses = 1\n", "address = 5\n[[initial]]\nsubaddress = "

# what people mistype: each is refused by the program and by the schema
TYPOS = [
    "", "adress = 5\n", "address = 31\n", "address = -1\n", 'address = "5"\n',
    "address = 5\nbroadcast = 1\n", 'address = 5\nwraparound = "30"\n', "address = 5\nwraparound = 0\n", "address = 5\nwraparound = 31\n",
    "address = 5\nvector = 65536\n", "address = 5\nbit = true\n", "address = 5\nvektor = 1\n",
    'address = 5\n[rule]\ndirection = "receive"\nsubaddresses = 1\n',
    "address = 5\n[[rule]]\nsubaddresses = 1\n", RULE,
    'address = 5\n[[rule]]\ndirection = "recieve"\nsubaddresses = 1\n', 'address = 5\n[[rule]]\ndirection = "Receive"\nsubaddresses = 1\n',
    f"{RULE}subaddress = 1\n", f"{RULE}subaddresses = 0\n", f'{RULE}subaddresses = "0-3"\n', f'{RULE}subaddresses = "31"\n',
    f'{RULE}subaddresses = "1..3"\n', f'{RULE}subaddresses = "1;3"\n', f'{RULE}subaddresses = "1,,3"\n', f"{RULE}subaddresses = [1, 2]\n",
    f"{ONE}counts = 33\n", f'{ONE}counts = "0"\n', f'{ONE}counts = "all"\n', f'{ONE}legal = "no"\n',
    'address = 5\n[[rule]]\nto = "all"\ndirection = "receive"\nsubaddresses = 1\n',
    "address = 5\n[[mode]]\ncode = 1\n", "address = 5\n[[mode]]\ncodes = 32\n", 'address = 5\n[[mode]]\ncodes = "1 - 32"\n',
    'address = 5\n[[mode]]\ncodes = 1\ndirection = "receive"\n',
    f"{INITIAL}1\n", f"{INITIAL}1\nwords = 1\n", f"{INITIAL}31\nwords = [1]\n", f"{INITIAL}1\nat = 0\nwords = [1]\n",
    f"{INITIAL}1\nwords = [70000]\n", f"{INITIAL}1\nwords = {[0] * 33}\n", "address = 5\n" + "[[mode]]\ncodes = 1\n" * 257,
]  # fmt: skip
FILES = {str(it.relative_to(TOP)): it.read_bytes() for folder in ("examples", "tests/tool") for it in sorted((TOP / folder).rglob("*.toml"))}
FILES |= {f"{table}/{name}": text for table, it in vector_tables.tables().items() for name, text in it.files.items() if name.endswith(".toml")}
EXAMPLES = sorted(str(it.relative_to(TOP)) for it in [*TOP.glob("examples/*/*.toml"), *TOP.glob("examples/validation/profiles/*.toml")])


# --- generated profiles: mostly fine, some with a fault

draw = random.Random()


def number(low, high):
    """A whole number as a text of TOML, now and then just out of range or of another kind."""
    kind = draw.randrange(120)
    if kind == 0:
        return str(draw.choice([low - 1, high + 1]))
    if kind == 1:
        return draw.choice(['"1"', "true", "1.5", "[1]"])
    value = draw.randint(low, high)
    return draw.choice([str(value), hex(value)])


def spaced(value):
    """A number of a text of ranges, with blanks and zeros."""
    return " " * draw.choice([0, 0, 0, 1, 2]) + str(value).zfill(draw.choice([1, 1, 2, 3])) + " " * draw.choice([0, 0, 1])


def item(low, high):
    """A number or a pair of numbers of a text of ranges, spelled in one of many ways."""
    first, second = sorted(draw.choices(range(low, high + 1), k=2), reverse=draw.randrange(40) == 0)
    return draw.choice([spaced(first), f"{spaced(first)}-{spaced(second)}"])


def ranges(low, high):
    """What names several numbers, now and then with a fault."""
    if draw.random() < 0.3:
        return number(low, high)
    text = ",".join(item(low, high) for _ in range(draw.randint(1, 4)))
    if draw.randrange(40) == 0:
        place = draw.randrange(len(text) + 1)
        text = text[:place] + draw.choice(["-", ",", " ", "x", "\\t", "0", "9", "+"]) + text[place:]
    return f'"{text}"'


def words():
    """An array of words."""
    return f"[{', '.join(number(0, 65535) for _ in range(draw.choice([0, 1, 2, 5, 8])))}]"


def truth():
    """True or false, seldom another thing."""
    return draw.choice(["true", "false"] * 40 + ["0", '"true"'])


def choice(*texts):
    """One of these texts, seldom another one."""
    return f'"{draw.choice(list(texts) * 30 + ["", "all"])}"'


# each table: its keys with what writes their values, and how often each is there
ROOT = {"address": (lambda: number(0, 30), 0.99), "broadcast": (truth, 0.5),
        "wraparound": (lambda: draw.choice([truth, lambda: number(1, 30)])(), 0.5), "accept_bus_control": (truth, 0.3),
        "vector": (lambda: number(0, 65535), 0.4), "bit": (lambda: number(0, 65535), 0.4)}  # fmt: skip
TABLES = {
    "rule": {"to": (lambda: choice("own", "broadcast", "both"), 0.5), "direction": (lambda: choice("receive", "transmit", "both"), 0.99),
             "subaddresses": (lambda: ranges(1, 30), 0.99), "counts": (lambda: ranges(1, 32), 0.6), "legal": (truth, 0.3)},
    "mode": {"to": (lambda: choice("own", "broadcast", "both"), 0.5), "codes": (lambda: ranges(0, 31), 0.99), "legal": (truth, 0.1)},
    "initial": {"subaddress": (lambda: number(1, 30), 0.99), "at": (lambda: number(1, 32), 0.3), "words": (words, 0.99)},
}  # fmt: skip


def table(keys):
    """The lines of a table, in any order."""
    lines = [f"{name} = {value()}" for name, (value, often) in keys.items() if draw.random() < often]
    if draw.randrange(150) == 0:
        lines.append(f"{draw.choice(['rules', 'count', 'Legal'])} = 1")
    draw.shuffle(lines)
    return "".join(f"{line}\n" for line in lines)


def generated():
    """A profile."""
    text = table(ROOT)
    for name, keys in TABLES.items():
        text += "".join(f"[[{name}]]\n{table(keys)}" for _ in range(draw.choice([0, 0, 1, 1, 2, 4])))
    return text


# --- what lint tells


def faults_of(tool, folder, texts):
    """The faults that `lint` tells of texts, each with its name and message, by the names of the texts."""
    found = {name: [] for name in texts}
    write_files(folder, texts)
    for line in run(tool, "lint", *texts, "--format", "json", folder=folder).output.decode().splitlines():
        told = json.loads(line)
        if told["severity"] == "error":
            found[told["file"]].append(told)
    return found


def is_hidden(fault, text):
    """Whether a fault is one that the schema doesn't see."""
    if fault["name"] == "RequiredCode":
        return True
    if fault["name"] == "OutOfRange":
        # a text whose numbers are all in range has an item n-m with n greater than m
        value, allowed = fault["message"].split("out of range: ")[1].split("; allowed is ")
        if not value.startswith('"') or "ranges" not in allowed:
            return False
        low, high = map(int, re.search(r"from (\d+) to (\d+)", allowed).groups())
        return all(low <= int(it) <= high for it in re.findall(r"\d+", value))
    # words that go beyond the 32 of a subaddress, though they are at most 32
    return fault["name"] == "TooMany" and "words has too many items" in fault["message"] and "at = " in text


def fits(text):
    """Whether the tree of a text fits the schema."""
    return not misfits(tomllib.loads(text), SCHEMA)


def is_right(text, faults):
    """Whether the schema says of a text what its faults are."""
    is_fitting = fits(text)
    return is_fitting if not faults else not is_fitting or all(is_hidden(it, text) for it in faults)


def messages(faults):
    """What is told of faults."""
    return [it["message"] for it in faults]


@pytest.mark.parametrize("number", range(len(TYPOS)))
def test_typo(number, shipped, tmp_path):
    faults = faults_of(shipped.tool, tmp_path, {"typo.toml": TYPOS[number]})["typo.toml"]
    assert faults != [] and not fits(TYPOS[number])


@pytest.mark.parametrize("name", FILES)
def test_profile(name, shipped, tmp_path):
    text, faults = FILES[name].decode(errors="replace"), faults_of(shipped.tool, tmp_path, {"profile.toml": FILES[name]})["profile.toml"]
    if any(it["name"] == "NotToml" for it in faults):
        pytest.skip("a schema says nothing of what is no TOML")
    assert is_right(text, faults), messages(faults)


def test_generated_profiles(shipped, tmp_path, count_runs):
    """They are of both kinds, so that neither half says nothing."""
    draw.seed(1553)
    texts = {f"generated-{it}.toml": generated() for it in range(GENERATED)}
    names = [*texts]
    faults = {}
    for start in range(0, GENERATED, 200):
        faults |= faults_of(shipped.tool, tmp_path, {it: texts[it] for it in names[start : start + 200]})
    compared = [it for it in names if "NotToml" not in [fault["name"] for fault in faults[it]]]
    assert [(texts[it], messages(faults[it])) for it in compared if not is_right(texts[it], faults[it])] == []
    assert 500 < sum(faults[it] != [] for it in compared) < GENERATED - 500
    count_runs(len(compared))


@pytest.mark.parametrize("name", [it for it in EXAMPLES if "/documents/" not in it])
def test_example_names_the_schema(name):
    """Those of documents/ are as `import` makes them."""
    mark, schema = (TOP / name).read_text(encoding="utf-8").split("\n")[0].split(" ")
    assert (mark, ((TOP / name).parent / schema).resolve()) == ("#:schema", TOP / SCHEMA)
