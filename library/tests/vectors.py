#!/usr/bin/env python3
"""Plays the cases of tests/vectors, those of tables in FOLDER, and the scripts of examples/ to a player: vectors.py FOLDER WORD..

A player is a program with the words of `rt1553` (WORD.. is how it is run): the last line is 'N passed, M failed'.
"""

import pathlib
import sys
import tempfile

TOP = pathlib.Path(__file__).resolve().parent.parent.parent
sys.path.insert(0, str(TOP / "tests"))

import programs  # noqa: E402
import vector_tables  # noqa: E402
from told import tell  # noqa: E402

WORDS = ("check", "canon", "compare", "run")


def examples():
    """The scripts of examples/, each as a case."""
    for path in sorted(TOP.glob("examples/scripts/*.script")):
        script = path.read_text(encoding="ascii")
        profile = script.split("\n")[0].split(": ")[1]
        files = {"profile": (TOP / "examples/profiles" / profile).read_bytes(), "script": script}
        yield programs.Row(f"examples/{path.stem}", ("run", *files), 0, path.with_suffix(".transcript").read_bytes(), files=files)


def cases(folder):
    """Each case whose words a player has and whose files are there."""
    for table in (*vector_tables.tables().values(), *map(vector_tables.read, sorted(pathlib.Path(folder).glob("*.txt")))):
        yield from (it for it in table.rows if it.words and it.words[0] in WORDS and it.files.keys() == set(it.words[1:]))
    yield from examples()


def is_right(player, case):
    """Whether a player answers a case as wanted; else it is told what it gave."""
    with tempfile.TemporaryDirectory() as folder:
        programs.write_files(folder, case.files)
        given = programs.run(player[0], *player[1:], *case.words, folder=folder, timeout=120)
    wanted = case.status, *map(programs.encoded, (case.output, case.errors))
    if given != wanted:
        print(f"{case.name}: {given}, and not {wanted}"[:400])
    return given == wanted


if __name__ == "__main__":
    sys.exit(tell((it.name, is_right(sys.argv[2:], it)) for it in cases(sys.argv[1])) if len(sys.argv) > 2 else __doc__)
