"""The grammars of scripts beside what `rt1553-tool live` takes for a line of a script: over each line of each script of this repository,
and over changed lines, the TextMate grammar and Vim's syntax mark a line as wrong exactly if the program refuses it."""

import json
import random
import re
import subprocess

import pytest
import vector_tables
from programs import TOP, succeed

PACKAGE = TOP / "editors/vscode/package.json"
GRAMMARS = json.loads(PACKAGE.read_text(encoding="utf-8"))["contributes"]["grammars"]
GRAMMAR = json.loads((TOP / "editors/vscode/syntaxes/rt1553script.tmLanguage.json").read_text(encoding="utf-8"))
CHANGED = 4000
# prints the kind of the file and what Vim's syntax finds at the beginning of each line
ASKED = "call writefile([&filetype] + map(range(1, line('$')), 'synIDattr(synID(v:val, 1, 1), \"name\")'), 'told')"
VIM = ["vim", "-es", "-N", "-u", "NONE", "-i", "NONE", "--cmd", "set encoding=latin1 fileformats=unix",
       "--cmd", f"set runtimepath^={TOP}/editors/vim", "-c", "filetype on", "-c", "syntax on", "-c", "edit lines.script",
       "-c", ASKED, "-c", "qall!"]  # fmt: skip


def lines_of_scripts():
    """The different lines of all scripts."""
    scripts = [it.read_bytes() for it in TOP.glob("examples/**/*.script")]
    scripts += [text for it in vector_tables.tables().values() for name, text in it.files.items() if name.endswith(".script")]
    return sorted({line for text in scripts for line in text.decode("latin-1").split("\n")})


def changed(lines):
    """Lines with one or two changes, of every kind of line alike often."""
    draw, kinds = random.Random(1553), {}
    for line in lines:
        kinds.setdefault(re.sub(r"[0-9A-Fa-f]{4}|[0-9]", "x", line) if not line.startswith("#") else "#", []).append(line)
    kinds = [kinds[kind] for kind in sorted(kinds)]
    for _ in range(CHANGED):
        line = draw.choice(draw.choice(kinds))
        for _ in range(draw.choice([1, 1, 2])):
            place = draw.randrange(len(line) + 1)
            new = draw.choice(list(" 0123459afgABCd#xX-\tcsw") + [""])
            line = line[:place] + new + line[place + draw.randrange(2) :]
        yield line


def bytes_of(lines):
    """Lines as a file has them."""
    return "".join(f"{line}\n" for line in lines).encode("latin-1")


def refused(tool, lines, folder):
    """The lines that the program refuses. A line of over 64 bytes is none of a script, and `live` takes it all the same."""
    (folder / "profile.toml").write_text("address = 5\n")
    answers = succeed(tool, "live", folder / "profile.toml", stdin=bytes_of(lines)).decode().split(".\n")[:-1]
    assert len(answers) == len(lines)
    return [line for line, answer in zip(lines, answers) if answer.startswith("?") or len(line) > 64]


def is_marked(line):
    """Whether the TextMate grammar marks a line: the first pattern that is found counts, and each is for a whole line."""
    names = [it["name"] for it in GRAMMAR["patterns"] if re.search(it["match"].replace("$", r"\Z"), line)]
    return names != [] and names[0].startswith("invalid.")


def marked_by_vim(lines, folder):
    """The lines that Vim's syntax marks."""
    (folder / "lines.script").write_bytes(bytes_of(lines))
    subprocess.run(VIM, cwd=folder, stdin=subprocess.DEVNULL, stdout=subprocess.DEVNULL, stderr=subprocess.DEVNULL, timeout=120, check=False)
    kind, *names = (folder / "told").read_text().split("\n")[:-1]
    assert (kind, len(names)) == ("rt1553script", len(lines))
    # an empty line has no name, and so has a line that no match is for
    assert [line for name, line in zip(names, lines) if line and not name.startswith("rt1553")] == []
    return [line for name, line in zip(names, lines) if name == "rt1553Error"]


@pytest.fixture(scope="module")
def lines(shipped, tmp_path_factory):
    """All lines, and those that the program refuses."""
    found = lines_of_scripts()
    found += [*changed(found)]
    return found, refused(shipped.tool, found, tmp_path_factory.mktemp("lines"))


def test_lines_are_of_both_kinds(lines):
    assert 1000 < len(lines[1]) < len(lines[0]) - 1000


def test_textmate_marks_what_is_refused(lines, count_runs):
    assert [line for line in lines[0] if is_marked(line)] == lines[1]
    count_runs(len(lines[0]))


def test_vim_marks_what_is_refused(lines, tmp_path, count_runs):
    assert marked_by_vim(lines[0], tmp_path) == lines[1]
    count_runs(len(lines[0]))


@pytest.mark.parametrize("part", GRAMMARS, ids=lambda it: it["scopeName"])
def test_grammar_of_the_package(part):
    assert (PACKAGE.parent / part["path"]).is_file() and part["scopeName"] == GRAMMAR["scopeName"]
