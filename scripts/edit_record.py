"""Which must-fail edits were refused over the files as they are: tests/edits.record, and what this machine keeps.

The record has a line for each crate: its name; a sum of its edits, of its files and line of crates.txt, and of those of all crates below;
a sum of the logic, and of what the toolchain's crates state that are used; how many of its edits were refused; and by which toolchain.
Where both sums are the same and all were refused, the record is good, whatever the toolchain is called. Where only the second differs, the
record is another toolchain's. Each refusal is also kept in ~/.cache/rt1553/refused, by the same sums and the edit; with ANEW=1 nothing is
taken from either.
"""

import os
import threading
from pathlib import Path

from edits import PARTS, TOP, files_below, read
from toolchain import sum_of

RECORD = f"{TOP}/tests/edits.record"
# to be changed where a change of these scripts can change what counts as refused: then no record and no kept refusal is good
RULE = "1"


def listed_crates():
    """The crates of crates.txt with what each stands on, lowest first."""
    lines = [it.partition(":") for it in read(f"{TOP}/crates.txt").split("\n") if it and not it.startswith("#")]
    # a static library has that word behind its name
    return {name.split()[0]: rest.split() for name, _, rest in lines}


class Sums:
    """What stands below each crate, sums of all that a refusal depends on, and the edits that were refused before: an empty file
    for each, named by such a sum."""

    def __init__(self, deps, toolchain):
        # the toolchain, and the sum of each crate's files and of those below it
        self.deps, self.toolchain, self.crates = deps, toolchain, {}
        cache = os.environ.get("XDG_CACHE_HOME") or os.path.expanduser("~/.cache")
        self.folder = Path(os.environ.get("RT1553_KEPT") or f"{cache}/rt1553") / "refused"

    def of_crate(self, name):
        """The sum of a crate's files and of all that is below it."""
        if name not in self.crates:
            files = [it for part in PARTS for it in files_below(f"{TOP}/crates/{name}/{part}")]
            own = [(os.path.relpath(it, TOP), read(it)) for it in files]
            self.crates[name] = sum_of(RULE, name, self.deps[name], own, [self.of_crate(it) for it in self.deps[name] if it in self.deps])
        return self.crates[name]

    def of_edits(self, crate):
        """The sum of a crate with all its edits."""
        return sum_of(self.of_crate(crate.name), [(it.label, it.lines) for it in crate.edits])[:16]

    def used(self, name):
        """The crates of the toolchain that a crate and those below it use."""
        return {"std"}.union(*(self.used(it) if it in self.deps else {it} for it in self.deps[name]))

    def of_statements(self, name):
        """The sum of what the toolchain states that a refusal depends on."""
        return sum_of([self.toolchain.statements(it) for it in sorted(self.used(name))])[:16]

    def place(self, crate, edit):
        """The file that stands where this edit of the crate was refused."""
        return self.folder / sum_of(self.of_statements(crate.name), self.of_crate(crate.name), edit.lines)

    def has(self, crate, edit):
        """Whether the edit was refused before."""
        return not os.environ.get("ANEW") and self.place(crate, edit).is_file()

    def keep(self, crate, edit):
        """Keeps that the edit was refused."""
        self.folder.mkdir(parents=True, exist_ok=True)
        self.place(crate, edit).touch()


class Record:
    """tests/edits.record: for each crate what is noted of it."""

    def __init__(self, sums):
        self.sums, self.lock = sums, threading.Lock()
        lines = read(RECORD).splitlines() if os.path.isfile(RECORD) else []
        self.crates = dict(it.split(maxsplit=1) for it in lines)

    def noted(self, crate, refused):
        """What is noted of a crate, of whose edits so many were refused."""
        count = f"{refused} of {len(crate.edits)}"
        return f"{self.sums.of_edits(crate)} {self.sums.of_statements(crate.name)} {count} {self.sums.toolchain.line}"

    def refused(self, crate):
        """Of a crate of which all edits were refused over the files as they are: the sum of what the toolchain stated, and the toolchain; else
        '' and ''. An edit that can't be applied is refused by none."""
        own, stated, refused, _, count, line = self.crates.get(crate.name, "- - 0 of - -").split(maxsplit=5)
        is_whole = own == self.sums.of_edits(crate) and refused == count == str(len(crate.edits)) and not any(it.fault for it in crate.edits)
        return (stated, line) if is_whole and not os.environ.get("ANEW") else ("", "")

    def note(self, crate, refused):
        """Writes the line of a crate whose edits were all tried."""
        with self.lock:
            self.crates[crate.name] = self.noted(crate, refused)
            lines = [f"{it} {self.crates[it]}\n" for it in self.sums.deps if it in self.crates]
            Path(f"{RECORD}.new").write_text("".join(lines), encoding="utf-8")
            os.replace(f"{RECORD}.new", RECORD)
