#!/usr/bin/env python3
"""Plays the sessions of pages of a folder, in that folder: sessions.py FOLDER PAGE..

A session is an indented line `$ COMMAND` of a page, with what it prints in the lines below it, to the letter. All of them are played in
one shell, page after page. Each page has to end in the folder in which it began. A command that isn't played stands in NOT_PLAYED with
its reason. What a page shows behind its line `$ make tool` needs rt1553-tool. The last line is 'N passed, M failed'. This file needs Python
and no other file, so that it runs beside an unpacked archive.
"""

import os
import pathlib
import re
import subprocess
import sys
import tempfile
import textwrap
from typing import NamedTuple

NOT_PLAYED = {
    r"make( build)?$": "proves for many minutes; the programs that it leaves are those that are played",
    r"make test\b": "is what plays this",
    r"make (try|edits|dist)\b": "takes minutes",
    r"(sudo )?make (un)?install\b": "writes into the system; tests/test_installed.py installs into a folder of its own",
    r"make (tool|library|page)\b": "proves for many minutes",
    r"make bench\b|(bash|python3) bench/": "measures for minutes",
    r"tar -xf rt1553-": "needs the archive, which tests/test_archive.py unpacks",
}
# seconds for all sessions
TIMEOUT = 600


class Session(NamedTuple):
    """What is played of a page: its name, a command, what it is to print, and whether it stands behind `make tool`."""

    page: str
    name: str
    command: str
    wanted: str
    needs_tool: bool = False


# behind each page: whether it ends in the folder of the pages, where the next begins
END = ("the folder in which it ends", 'realpath --relative-to="$PAGES" .; cd "$PAGES"', ".")


def blocks_of(page):
    """The indented blocks of a page, without their indent."""
    block = []
    for line in [*page.split("\n"), "end"]:
        if line.startswith("    "):
            block.append(line[4:])
        elif line or not block:
            if block:
                yield textwrap.dedent("\n".join(block)).split("\n")
            block = []
        else:
            block.append("")


def sessions_of(block):
    """Each command of a block, with the lines that it is to print."""
    lines = iter([*block, "$ "])
    command, wanted = None, []
    for line in lines:
        if not line.startswith("$ "):
            wanted.append(line)
            continue
        if command:
            yield command, "\n".join(wanted).strip("\n")
        command, wanted = line[2:], []
        if here := re.search(r"<<'(\w+)'", command):
            for text in lines:
                command += "\n" + text
                if text == here[1]:
                    break


def commands_of(text):
    """Each command of a page's text that is played, what it is to print, and whether it stands behind `make tool`."""
    needs_tool = False
    for block in blocks_of(text):
        for command, wanted in sessions_of(block):
            needs_tool |= command == "make tool"
            # what stands behind several spaces is a description
            if not any(re.match(pattern, re.split(r" {2,}", command)[0]) for pattern in NOT_PLAYED):
                yield command, wanted, needs_tool


def sessions_on(folder, pages, *more):
    """What is played of pages of a folder; the rows `more` are played behind each of them too."""
    for page in pages:
        for command, *rest in commands_of(pathlib.Path(folder, page).read_text(encoding="utf-8")):
            yield Session(page, command, command, *rest)
        yield from (Session(page, *row) for row in (END, *more))


def printed(sessions, folder):
    """What each of these sessions prints, faults among it, in one shell that begins in a folder."""
    folder = os.path.realpath(folder)
    with tempfile.TemporaryDirectory() as work:
        lines = []
        for number, it in enumerate(sessions):
            pathlib.Path(work, f"{number}.command").write_text(f"{it.command}\n", encoding="utf-8")
            lines.append(f"source {work}/{number}.command </dev/null >{work}/{number} 2>&1\n")
        pathlib.Path(work, "all").write_text("".join(lines), encoding="utf-8")
        try:
            subprocess.run(["bash", f"{work}/all"], cwd=folder, env={**os.environ, "PAGES": folder}, stdin=subprocess.DEVNULL,
                           timeout=TIMEOUT, check=False)  # fmt: skip
        except subprocess.TimeoutExpired:
            print(f"the sessions take more than {TIMEOUT} seconds")
        files = [pathlib.Path(work, str(number)) for number in range(len(sessions))]
        return [it.read_text(encoding="utf-8").strip("\n") if it.exists() else "nothing: the shell has ended" for it in files]


def main(folder, *pages):
    sessions = [*sessions_on(folder, pages)]
    failed = 0
    for it, found in zip(sessions, printed(sessions, folder)):
        if found != it.wanted:
            failed += 1
            print(f"FAIL {it.page}: {it.name}\nis to print\n{it.wanted}\nand prints\n{found}")
    print(f"{len(sessions) - failed} passed, {failed} failed")
    return failed > 0


if __name__ == "__main__":
    sys.exit(main(*sys.argv[1:]) if len(sys.argv) > 2 else __doc__)
