"""How tests run a program, and what they compare: the status, and to the byte what it prints and what it prints as errors."""

import os
import pathlib
import re
import subprocess
import sys
from typing import NamedTuple

TOP = pathlib.Path(__file__).resolve().parent.parent


class Given(NamedTuple):
    """What a run gave."""

    status: int
    output: bytes
    errors: bytes


class Row(NamedTuple):
    """A row of a table: `PROGRAM WORDS` in a folder with these files, and what it must give. Texts are UTF-8; words may be one text."""

    name: str
    words: "tuple | str"
    status: int = 0
    output: "str | bytes" = ""
    errors: "str | bytes" = ""
    stdin: "str | bytes" = ""
    files: dict = {}


def encoded(text):
    """The bytes of a text."""
    return text.encode() if isinstance(text, str) else text


def write_files(folder, files):
    """Writes files, by their names, into a folder."""
    for name, text in files.items():
        path = pathlib.Path(folder, name)
        path.parent.mkdir(parents=True, exist_ok=True)
        path.write_bytes(encoded(text))


def run(program, *words, stdin="", folder=None, timeout=60, **variables):
    """Runs a program on words in a folder, with variables of the environment besides those of the test."""
    ended = subprocess.run([program, *words], input=encoded(stdin), capture_output=True, cwd=folder, timeout=timeout,
                           env={**os.environ, **variables}, check=False)  # fmt: skip
    return Given(ended.returncode, ended.stdout, ended.stderr)


def with_files(files, *rows):
    """Rows that share files, besides those of their own."""
    return [it._replace(files={**files, **it.files}) for it in rows]


def check_row(program, row, folder):
    """Plays a row in a folder, to which its files are written."""
    write_files(folder, row.files)
    words = row.words.split() if isinstance(row.words, str) else row.words
    given = run(program, *words, stdin=row.stdin, folder=folder)
    assert given == (row.status, encoded(row.output), encoded(row.errors))


def succeed(*words, **how):
    """What a command prints that has to end well."""
    given = run(*words, **how)
    assert given.status == 0, f"{words} ended with {given.status}\n{(given.output + given.errors).decode(errors='replace')[-5000:]}"
    return given.output


def toolchain():
    """The line of the toolchain at hand."""
    return succeed("rt", "version").decode().rstrip("\n")


def passed_in(output):
    """How many cases passed by the last line of a program that counts them, as 'N passed, M failed': none may fail."""
    said = output.decode(errors="replace")
    found = re.search(r"(?:^|\n)([1-9]\d*) passed, 0 failed\n$", said)
    assert found, said[-5000:]
    return int(found[1])


def passed_by(*words, timeout=1200, **how):
    """How many cases passed in such a program."""
    return passed_in(succeed(*words, timeout=timeout, **how))


def passed_by_tests(*words):
    """How many tests pass in another pytest with these words, and runs inside of them."""
    mine = [it for name in os.environ if name.startswith("PYTEST_XDIST") for it in ("-u", name)]
    said = succeed("env", *mine, sys.executable, "-m", "pytest", "-q", *words, folder=TOP / "tests", timeout=3600).decode()
    return int(re.search(r"\b(\d+) passed\b", said)[1]) + int(re.search(r"runs inside of tests that passed: (\d+)", said)[1])


def compiled(source, to, library, *more, cross=""):
    """Builds a program in C or C++ over the library, without a warning; the words that follow are those behind the source."""
    compiler = (f"{cross}g++", "-std=c++17") if source.suffix == ".cpp" else (f"{cross}gcc", "-std=c11")
    warned = ("-Wall", "-Wextra", "-Werror", "-pedantic", "-O2")
    succeed(*compiler, *warned, "-I", library / "include", "-o", to, source, *more, timeout=300)
    return to
