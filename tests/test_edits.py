"""What is told of must-fail edits that the record covers, with the toolchain at hand by this and by other names."""

import shutil
import sys
from typing import NamedTuple

import pytest
from programs import TOP, run, succeed, toolchain

pytestmark = pytest.mark.gate
# notes of each crate in the record that all its edits were refused
NOTE = """
from edit_checks import Crate
from edit_record import Record, Sums, listed_crates
from toolchain import Toolchain

sums = Sums(listed_crates(), Toolchain())
record = Record(sums)
for name in sums.deps:
    crate = Crate(name, "", "", "", sums)
    if crate.edits:
        record.note(crate, len(crate.edits))
"""
NAME, _, LOGIC = toolchain().partition(" logic ")
# what a wrapper of `rt` prints as the toolchain's line
LINES = {"the same": toolchain(), "another name": f"another {NAME} logic {LOGIC}", "another logic": f"{NAME} logic {LOGIC[::-1]}"}


class Clone(NamedTuple):
    """A clone whose record covers all edits, and how many there are."""

    at: object
    count: int

    def told(self, line, *words):
        """What scripts/must-fail.py tells with a toolchain of this line."""
        tools = self.at / "tools"
        tools.mkdir()
        (tools / "rt").write_text(f'#!/bin/sh\nif [ "$1" = version ]; then echo "{line}"; else exec {shutil.which("rt")} "$@"; fi\n', encoding="utf-8")
        (tools / "rt").chmod(0o755)
        path = f"{tools}:/usr/bin:/bin"
        return run(sys.executable, "scripts/must-fail.py", *words, folder=self.at, PATH=path, RT1553_KEPT=str(self.at / "kept"))


@pytest.fixture
def clone(tmp_path):
    shutil.copytree(TOP / "scripts", tmp_path / "scripts")
    shutil.copytree(TOP / "crates", tmp_path / "crates", ignore=shutil.ignore_patterns("out"))
    shutil.copy(TOP / "crates.txt", tmp_path)
    (tmp_path / "tests").mkdir()
    # what `rt ci` prints in the end
    (tmp_path / "log").write_text("1 passed, 0 failed\n", encoding="utf-8")
    succeed(sys.executable, "-c", NOTE, folder=tmp_path, PYTHONPATH=str(tmp_path / "scripts"))
    yield Clone(tmp_path, sum(1 for _ in tmp_path.glob("crates/*/must-*/*")))
    shutil.rmtree(tmp_path)


@pytest.mark.parametrize("line", ["the same", "another name"])
def test_record_stands_whatever_the_toolchain_is_called(line, clone):
    assert clone.told(LINES[line], "told") == (0, b"", b"")


def test_record_of_a_toolchain_that_states_other_things_is_told(clone):
    told = f"{clone.count} must-fail edits were not tried with this toolchain, and were refused with {toolchain()}: `make edits` tries them\n"
    assert clone.told(LINES["another logic"], "told") == (0, told.encode(), b"")


def test_that_record_is_no_failure_of_the_gate(clone):
    given = clone.told(LINES["another logic"], "gate", "none", clone.at / "log")
    assert given.status == 0 and given.output.endswith(b"0 passed, 0 failed\n"), given


def test_changed_crate_is_told(clone):
    with open(clone.at / "crates/rt1553_tool_program/src/main.rt", "a", encoding="utf-8") as it:
        it.write("// a comment\n")
    given = clone.told(LINES["another name"], "told")
    assert given.status == 0 and given.output.endswith(b"of rt1553_tool_program: `make edits CRATE=..` tries them\n"), given


def test_edit_of_a_changed_crate_that_is_not_refused_fails_the_gate(clone):
    """No check runs here: the edit is one that can't be applied."""
    (clone.at / "crates/probes/must-fail").mkdir(exist_ok=True)
    (clone.at / "crates/probes/must-fail/bad.edit").write_text("input: none\nfile: src/main.rt\nold: nowhere\nnew: here\n", encoding="utf-8")
    given = clone.told(LINES["the same"], "gate", "none", clone.at / "log")
    assert given.status == 1 and b"BAD EDIT" in given.output and given.output.endswith(b", 1 failed\n"), given
