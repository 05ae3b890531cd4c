#!/usr/bin/env python3
"""Tries the must-fail edits of the crates, many of them in one check.

    scripts/must-fail.py [NAME..]          the edits of these crates, or of all; tests/edits.record gets a line for each crate
    scripts/must-fail.py gate BUILT LOG    the edits of the crates that the record does not cover, for the gate
    scripts/must-fail.py told              tries none, and tells which edits the record does not cover, if any

Where tests/edits.record says of a crate that all its edits were refused over the same files, the gate takes its word; else it tries
them (scripts/edit_record.py). Where another toolchain refused them, which states other things, it tells that and tries none. What a refusal
is, scripts/edit_checks.py tells. The last line is 'N passed, M failed': the edits that were tried, and the crates that the record covers.

For the gate, `rt ci` is at work in BUILT, a copy of this repository, and LOG is the file of what it prints: a crate's turn comes when
what it stands on is proved. Else scripts/build.py gives the libraries. A run that was ended goes on where it was; with ANEW=1 each edit
is tried.
"""

import os
import re
import subprocess
import sys
import tempfile
import threading
import time
from concurrent.futures import ThreadPoolExecutor

from edit_checks import Crate, tried
from edit_record import Record, Sums, listed_crates
from edits import TOP, read
from toolchain import Toolchain


class Work:
    """The crates whose edits are still to be tried, the longest first, the record in which each is noted, or None, and the file of what
    `rt ci` prints meanwhile, or ''."""

    def __init__(self, crates, record, log):
        self.left, self.record, self.log, self.lock = sorted(crates, key=Crate.size, reverse=True), record, log, threading.Lock()

    def is_ready(self, crate):
        """Whether the libraries that a crate stands on are there, or will never be."""
        said = read(self.log) if self.log else ""
        if not self.log or re.search(r"^\d+ passed, \d+ failed$", said, re.M):
            return True
        return all(f"\nrt: {it} proved\n" in said for it in crate.deps[crate.name] if it in crate.deps)

    def taken(self):
        """The first of those that are ready, once there is one; or None, where no crate is left."""
        while self.left:
            with self.lock:
                if crate := next((it for it in self.left if self.is_ready(it)), None):
                    self.left.remove(crate)
                    return crate
            time.sleep(2)
        return None

    def done(self):
        """Tries the edits of one crate after the other. Returns how many were refused, and how many were not."""
        counts = [(0, 0)]
        while crate := self.taken():
            counts.append(tried(crate))
            if self.record:
                self.record.note(crate, counts[-1][0])
        return [sum(it) for it in zip(*counts)]


def lanes():
    """How many checks run side by side: one a processor, or as RT_JOBS says, where there are 6 GiB of memory for each. A check takes up
    to 3, and `rt ci` may have as many beside."""
    memory = os.sysconf("SC_PAGE_SIZE") * os.sysconf("SC_PHYS_PAGES")
    return int(os.environ.get("RT_JOBS") or max(1, min(len(os.sched_getaffinity(0)), round(memory / (6 << 30)))))


def all_tried(crates, record, log):
    """Tries the edits of all these crates. Returns how many were refused, and how many were not."""
    work = Work(crates, record, log)
    with ThreadPoolExecutor(lanes()) as pool:
        counts = [pool.submit(work.done) for _ in range(lanes())]
    return [sum(it) for it in zip(*(it.result() for it in counts))]


def count_of(crates):
    """How many edits crates have."""
    return sum(len(it.edits) for it in crates)


def sorted_out(crates, record):
    """The crates whose edits the record covers, and those whose edits nobody tried. Tells of the rest, of which another toolchain refused
    all."""
    refused = {it: record.refused(it) for it in crates}
    covered = [it for it in crates if refused[it][0] == record.sums.of_statements(it.name)]
    other = [it for it in crates if refused[it][1] and it not in covered]
    if other:
        lines = ", ".join(sorted({refused[it][1] for it in other}))
        print(f"{count_of(other)} must-fail edits were not tried with this toolchain, and were refused with {lines}: `make edits` tries them")
    return covered, [it for it in crates if it not in covered and it not in other]


def for_gate(crates, record, log):
    """Tries the edits that the record does not cover. Returns how many rows passed, and how many failed."""
    covered, untried = sorted_out(crates, record)
    passed, failed = all_tried(untried, None, log)
    why = "tests/edits.record has that they were refused, over the same files"
    print(f"{passed + failed} edits were tried; {count_of(covered)}, in {len(covered)} crates, were not: {why}")
    return passed + len(covered), failed


def for_record(crates, record, built):
    """Tries the edits of these crates, and notes what was refused. Returns how many were, and how many were not."""
    if untried := [it.name for it in crates if not all(it.sums.has(it, edit) for edit in it.edits)]:
        subprocess.run([sys.executable, f"{TOP}/scripts/build.py", "libraries", built, *untried], check=True)
    return all_tried(crates, record, "")


def tell(crates, record):
    """Tells which edits the record does not cover."""
    if untried := sorted_out(crates, record)[1]:
        names = " ".join(it.name for it in untried)
        print(f"{count_of(untried)} must-fail edits were not tried over the files as they are, of {names}: `make edits CRATE=..` tries them")


def main():
    (word, *more), deps = sys.argv[1:] or [""], listed_crates()
    if not (word in ("gate", "told") or {*sys.argv[1:]} <= {*deps}):
        sys.exit(__doc__)
    toolchain = Toolchain()
    sums = Sums(deps, toolchain)
    with tempfile.TemporaryDirectory() as room:
        built = os.path.realpath(more[0] if word == "gate" else f"{room}/built")
        names = deps if word in ("gate", "told", "") else [word, *more]
        crates = [it for name in names if (it := Crate(name, built, toolchain.folder, f"{room}/{name}", sums)).edits]
        record = Record(sums)
        if word == "told":
            tell(crates, record)
            return 0
        passed, failed = for_gate(crates, record, more[1]) if word == "gate" else for_record(crates, record, built)
    print(f"{passed} passed, {failed} failed")
    return 1 if failed else 0


if __name__ == "__main__":
    try:
        sys.exit(main())
    except OSError as error:
        sys.exit(f"{error.strerror}: {error.filename or 'a file'}")
