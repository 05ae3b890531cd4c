"""What the sources say: that public contracts cite nothing of specs/inner, that nothing is there to which nothing refers, that crates.txt
lists what crates use and no more, that one name stands for one thing, that pages beside the code speak of what is there, and that each
rule of docs/terminal.md shows in its example; and what linters say of scripts."""

import re
import subprocess

import crate_pages
import inner
import names
import pytest
import reversed_rules
import unused
from programs import TOP

CRATES = sorted(it.name for it in (TOP / "crates").iterdir() if it.is_dir())
LIBRARIES = [it for it in CRATES if (TOP / "crates" / it / "src/lib.rt").exists()]
USES = {line.split()[0].rstrip(":"): line.partition(":")[2].split()
        for line in (TOP / "crates.txt").read_text(encoding="utf-8").splitlines() if line and line[0] != "#"}  # fmt: skip
LISTED = subprocess.run(["git", "ls-files"], cwd=TOP, capture_output=True, text=True, check=True).stdout.splitlines()
FILES = [it for it in LISTED if (TOP / it).is_file()]
PYTHON = [it for it in FILES if it.endswith(".py")]
RULES, UNSHOWN = reversed_rules.tables()


def is_shell(path):
    """Whether a file is a script of a shell, by its ending or by its first line."""
    with open(TOP / path, "rb") as file:
        return path.endswith(".sh") or re.match(rb"#!.*\b(bash|sh)\b", file.readline()) is not None


SHELL = [it for it in FILES if is_shell(it)]


# ---- crates


@pytest.mark.parametrize("crate", LIBRARIES)
def test_public_contracts_cite_nothing_of_inner(crate, count_runs):
    found = list(inner.citations(TOP / "crates" / crate))
    assert [f"{path.relative_to(TOP)}: {name} cites {cited}" for path, name, cited in found if cited] == []
    count_runs(len(found))


@pytest.mark.parametrize("crate", CRATES)
def test_something_refers_to_each_definition_and_item(crate, count_runs):
    found = [*unused.definitions_of(crate), *unused.items_of(crate)]
    wanted = unused.EXCEPT.get(crate, {})
    assert [f"{path.relative_to(TOP)}: {name}" for path, name, is_used in found if not is_used and name not in wanted] == []
    assert {name for _, name, is_used in found if not is_used} == wanted.keys(), "an exception that isn't needed"
    count_runs(len(found))


@pytest.mark.parametrize("crate", [it for it in CRATES if not it.endswith("_tests")])
def test_no_attribute_looks_like_a_unit_test(crate):
    """`rt ci` takes an attribute with the word test, the text of a fault too, for a unit test, and fails where it then finds none."""
    attributes = re.compile(r"#\s*\[[^]]*\btest\b")
    assert [it for it in FILES if it.startswith(f"crates/{crate}/src/") and attributes.search((TOP / it).read_text(encoding="utf-8"))] == []


@pytest.mark.parametrize("crate", CRATES)
def test_names_stand_in_one_crate(crate, count_runs):
    found = list(names.names_of(crate))
    assert [f"{name} stands in {crates}" for name, crates in found if crates != [crate] and name not in names.ALIKE] == []
    count_runs(len(found))


@pytest.mark.parametrize("crate", CRATES)
def test_page_lists_each_type_once(crate, count_runs):
    types, listed = names.let_out(crate), names.listed(crate)
    assert listed == dict.fromkeys(types | listed.keys(), 1)
    assert listed.keys() - types - names.records(crate) == set()
    count_runs(len(listed))


def text_of(crate):
    """The code, definitions and proofs of a crate."""
    paths = [it for part in ("src", "specs", "proofs") for it in sorted((TOP / "crates" / crate / part).rglob("*"))]
    return "".join(it.read_text(encoding="utf-8") for it in paths if it.suffix in (".rt", ".antt"))


@pytest.mark.parametrize("crate", CRATES)
def test_crates_txt_lists_what_a_crate_uses(crate):
    text = text_of(crate)
    assert [it for it in USES[crate] if not re.search(rf"\b{it}(::|\.)", text)] == []
    assert [it for it in USES if it != crate and re.search(rf"\b{it}::[\w{{]|\bRattle\.{it}\.", text) and it not in USES[crate]] == []


@pytest.mark.parametrize("page", names.pages())
def test_phrases(page):
    assert names.phrases_in(page) == []


@pytest.fixture(scope="session")
def repository():
    return crate_pages.Repository()


@pytest.mark.parametrize("crate", CRATES)
def test_page_of_crate(repository, crate):
    assert crate_pages.faults_of_crate(repository, crate) == []


@pytest.mark.parametrize("page", crate_pages.PAGES)
def test_page_names_what_is_there(repository, page):
    assert crate_pages.faults_of_page(repository, page) == []


# ---- rules of docs/terminal.md


@pytest.mark.parametrize("name", RULES, ids=lambda it: it[:60])
def test_rule_shows(name, count_runs):
    reversals = reversed_rules.reversals().get(name, [])
    assert reversals, "not reversed"
    assert list(reversed_rules.faults_of(RULES[name], reversals)) == []
    count_runs(len(reversals))


def test_rules_of_both_lists():
    assert reversed_rules.reversals().keys() == RULES.keys()


def test_rules_are_quoted():
    page = (TOP / "docs/terminal.md").read_text(encoding="utf-8")
    assert list(reversed_rules.faults_of_page(page, list(RULES.values()), UNSHOWN)) == []


def test_model_gives_the_answers_of_rows(count_runs):
    assert reversed_rules.unanswered() == []
    count_runs(len(reversed_rules.known_rows()))


# ---- scripts


def said(*words):
    """What a linter says of a file, which it passes if it says nothing."""
    ended = subprocess.run(words, cwd=TOP, capture_output=True, text=True, check=False)
    return ended.stdout + ended.stderr


@pytest.mark.parametrize("path", SHELL)
def test_shellcheck(path):
    assert said("shellcheck", "-x", path) == ""


@pytest.mark.parametrize("path", PYTHON)
def test_pyflakes(path):
    assert said("pyflakes3", path) == ""


def test_linters_find_faults(tmp_path):
    """A fault that is planted is found by each."""
    (tmp_path / "it.sh").write_text("#!/bin/sh\necho $1\n")
    (tmp_path / "it.py").write_text("import os\n")
    assert "SC2086" in said("shellcheck", "-x", str(tmp_path / "it.sh"))
    assert "imported but unused" in said("pyflakes3", str(tmp_path / "it.py"))
