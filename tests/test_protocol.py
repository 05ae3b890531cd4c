"""The protocol tests: the scripts of examples/validation, and the families that tests/validation/generate.py gives.

The first line of a script names its profile, the second the clauses that it is for (tests/validation/plan.py), or the sections of the
standard. The program must print the answers that the script states (docs/script.md). Each clause must have a script and, in
examples/validation/README.md, the sections of the standard on which its scripts rest. `-k 5.2.1.4` plays the scripts whose name has
a clause.
"""

import re

import generate
import plan
import pytest
from programs import TOP, Row, check_row

EXAMPLES = TOP / "examples/validation"
FAMILIES = (TOP / "tests/validation/families.txt").read_text(encoding="ascii").split()
PATHS = [it for part in ("scripts", "choices") for it in sorted((EXAMPLES / part).glob("*.script"))]
NAMES = [*(f"{it.parent.name}/{it.stem}" for it in PATHS), *(f"families/{it}" for it in FAMILIES)]
SECTIONS = dict(re.findall(r"^\| (5[\d.]+) \| [^|]* \| ([^|]*) \|", (EXAMPLES / "README.md").read_text(), re.MULTILINE))


@pytest.fixture(scope="session")
def texts():
    """The texts of all scripts, by their names."""
    families = {f"families/{it.name}": it.text() for it in generate.families()}
    return {**{f"{it.parent.name}/{it.stem}": it.read_text(encoding="ascii") for it in PATHS}, **families}


def named_profile(text):
    """The text of the profile that a script names: that of a file, or `address_NN`."""
    name = text.split("\n", 1)[0].removeprefix("# Profile: ")
    path = EXAMPLES / "profiles" / name
    return path.read_text() if path.exists() else f"address = {int(re.fullmatch('address_([0-9]{2}).toml', name)[1])}\n"


def clauses_of(text):
    """The clauses of the plan that a script names; the others name sections of the standard."""
    line = text.split("\n", 2)[1]
    return line.removeprefix("# Plan: ").split(", ") if line.startswith("# Plan: ") else []


def answers_of(text):
    """The answers that a script states. What is handed over is stated behind a gap, and a word that is sent behind a slot."""
    answers, event = [], ""
    for number, line in enumerate(text.splitlines(), 1):
        if line.startswith("#> "):
            assert event[-4:] == (" gap" if line.startswith("#> hand ") else "slot"), f"line {number}: no event has this answer"
            answers.append(line[3:])
            event = ""
        elif line.startswith("#+ "):
            answers[-1] += f" {line[3:]}"
        elif line and not line.startswith("#"):
            event = line
    return "".join(f"{it}\n" for it in answers)


@pytest.mark.parametrize("name", NAMES)
def test_script(rt1553, texts, name, tmp_path):
    files = {"profile": named_profile(texts[name]), "script": texts[name]}
    check_row(rt1553, Row(name, "run profile script", 0, answers_of(texts[name]), files=files), tmp_path)


@pytest.mark.parametrize("clause", plan.CLAUSES)
def test_clause(texts, clause):
    assert [name for name, text in texts.items() if clause in clauses_of(text)]
    assert SECTIONS[clause] == plan.STANDARD[clause]


def test_all_scripts_are_listed(texts):
    assert list(texts) == NAMES
