"""The tables of tests/vectors: cases of `rt1553`, with the files that they read.

A block begins with a line `== NAME`. A case has the lines `words: ..` and `status: ..` there. A line `-- FILE` begins a file;
`stdin`, `stdout` and `stderr` are those of the case, and a block leaves them out where they are empty. A block without words
has files for the cases of its table. A backslash escapes what is not printable ASCII, a space at the end of a line and what
would begin a block or a file, as in Python; at the end of a line it takes the line feed away.
"""

import pathlib
import re
from typing import NamedTuple

from programs import Row, encoded

FOLDER = pathlib.Path(__file__).resolve().parent / "vectors"
STREAMS = ("stdin", "stdout", "stderr")


class Table(NamedTuple):
    """The cases of a table, each with the files that its words name, and all of its files by their names."""

    rows: list
    files: dict


def unescaped(text):
    """The bytes of a text with escapes."""
    return text.encode("ascii").decode("unicode_escape").encode("latin-1")


def read(path):
    """The table in a file."""
    rows, files = [], {}
    for block in ("\n" + path.read_text(encoding="ascii")).split("\n== ")[1:]:
        head, *parts = re.split("^-- (.+)\n", block, flags=re.MULTILINE)
        name, *lines = head.splitlines()
        texts = {it: unescaped(text) for it, text in zip(parts[::2], parts[1::2])}
        stdin, output, errors = (texts.pop(it, b"") for it in STREAMS)
        files.update(texts)
        if lines:
            words, status = (it.split(":", 1)[1].split() for it in lines)
            rows.append(Row(name, tuple(words), int(*status), output, errors, stdin, {it: files[it] for it in words if it in files}))
    return Table(rows, files)


def tables():
    """The tables of tests/vectors, by their names."""
    return {path.stem: read(path) for path in sorted(FOLDER.glob("*.txt"))}


def escaped(text):
    """A text as a block has it."""
    text = encoded(text).decode("latin-1")
    text = re.sub(r"[^ -\[\]-~\n]", lambda it: it[0].encode("unicode_escape").decode(), text)
    text = re.sub(r" $|^(==|--)(?= )", lambda it: "".join(f"\\x{ord(c):02x}" for c in it[0]), text, flags=re.MULTILINE)
    return text if text.endswith("\n") or not text else text + "\\\n"


def block(name, files, lines=()):
    """A block of these files and, for a case, with these lines."""
    return "\n".join([f"== {name}", *lines, ""]) + "".join(f"-- {it}\n{escaped(text)}" for it, text in files.items())


def block_of(row):
    """The block of a case, with its files."""
    words = row.words.split() if isinstance(row.words, str) else row.words
    streams = {it: text for it, text in zip(STREAMS, (row.stdin, row.output, row.errors)) if text}
    return block(row.name, {**row.files, **streams}, [" ".join(("words:", *words)), f"status: {row.status}"])


def write(path, blocks):
    """Writes blocks as a table."""
    path.write_text("\n".join(blocks), encoding="ascii")
