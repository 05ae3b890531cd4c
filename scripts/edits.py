"""Must-fail edits: the files of crates/*/must-fail and crates/*/must-not-compile, read and applied.

An edit has a line that begins with `input: `, for which input the wrong body answers otherwise, or `seed: `, of which random script. One of
a crate's must-not-compile/ begins with a line `error: NAME`.
"""

import os
import re
from pathlib import Path
from typing import NamedTuple, Optional

TOP = os.path.dirname(os.path.dirname(os.path.realpath(__file__)))
PARTS = ("src", "specs", "proofs")
# the comment, the attributes and the first line of a function; and the first line of a block of methods: its trait, if it
# has one, and its type
HEAD = re.compile(r"^(?: *(?:///|#\[).*\n)*( *)(?:pub(?:\(\w+\))? )?(?:const )?(?:unsafe )?(?:extern \"C\" )?fn (\w+)", re.M)
OWNER = re.compile(r"^( *)(?:impl(?:<.*?>)? (?:(.+) for )?|(?:pub )?trait )(\w+).* \{$", re.M)
# the line of an edit that says where its body answers otherwise
SAYS_WHERE = re.compile(r"^(input|seed): \S", re.M)


def read(path):
    """The text of a file."""
    with open(path, encoding="utf-8") as it:
        return it.read()


def files_below(folder):
    """The files below a folder, in order."""
    return sorted(f"{at}/{it}" for at, _, files in os.walk(folder) for it in files)


def module_of(file):
    """The path below the crate of the module that a file of src/ is, '' for the root."""
    path = file.removeprefix("src/").removesuffix(".rt").removesuffix("/mod").replace("/", "::")
    return "" if path in ("lib", "main") else path


class Function(NamedTuple):
    """A function of a file, and where it begins there, where its name and its body stand, and where it ends. `owner` is how a
    check names its block of methods, if it stands in one: by the type and the names of the trait, in one."""

    file: str
    owner: str
    of_trait: bool
    name: str
    begin: int
    named: int
    start: int
    end: int
    close: int

    def copy(self, text, name, body):
        """The function, which stands in this text, by another name and with another body."""
        head = text[self.begin : self.named] + name + text[self.named + len(self.name) : self.start]
        return head + body + text[self.end : self.close]

    def path(self):
        """How a check names it, from its block of methods on."""
        return f"{self.owner}::{self.name}" if self.owner else self.name

    def is_told_by(self, told):
        """Whether `told`, such as `bus_word::word::Raw::of`, is how a check may name the function: a method by the
        module of its type, which can stand in another file."""
        module = r"(\w+::)*\w+" if self.owner else module_of(self.file)
        return re.fullmatch(rf"\w+::{module and module + '::'}{self.path()}", told)


class Edit(NamedTuple):
    """An edit: the lines of it that change something, the files as it leaves them, or why it can't be applied. Where it changes one
    body: which, and to what. Where the compiler must refuse it: the name of the error."""

    label: str
    lines: list
    texts: dict
    fault: str
    function: Optional[Function]
    body: str
    error: str


def block_of(text, start, indent):
    """How a check names the block of methods in which the function stands that starts here: by its type and the names of its
    trait, in one, or '' in none; and whether it is a trait's."""
    blocks = [it for it in OWNER.finditer(text, 0, start) if len(it[1]) < len(indent)]
    if not blocks:
        return "", False
    trait = blocks[-1][2] or ""
    return blocks[-1][3] + "".join(re.findall(r"\b[A-Z]\w+", trait)), bool(trait) or "trait " in blocks[-1][0]


def functions_of(file, text):
    """The functions of a file in the layout of `rt fmt`, each with its places there."""
    for head in HEAD.finditer(text):
        indent = head[1]
        opens = re.compile(rf"^{indent}\{{\n|^{indent}(?:pub|const|fn)\b.* \{{\n", re.M).search(text, head.start())
        closes = opens and re.compile(rf"^{indent}\}}$", re.M).search(text, opens.end() - 1)
        if closes:
            # the body begins behind the brace, on its line
            places = head.start(), head.start(2), opens.end() - 1, closes.start(), closes.end()
            yield Function(file, *block_of(text, head.start(), indent), head[2], *places)


def applied(text, folder):
    """The texts of the files that an edit changes, by path, and why it can't be applied, or ''."""
    path, old, texts = "", "", {}
    for line in text.split("\n"):
        if line.startswith("file: "):
            path = line[len("file: ") :].strip()
        elif line.startswith("old: "):
            old = line[len("old: ") :]
        elif line.startswith("new:"):
            if path.split("/")[0] not in PARTS or not os.path.isfile(f"{folder}/{path}"):
                return {}, f"there is no file '{path}'"
            before = texts.get(path) or read(f"{folder}/{path}")
            if not old or before.count(old) != 1:
                return {}, f"the text '{old}' is in {path} {before.count(old)} times, and not once"
            texts[path] = before.replace(old, line[len("new:") :].removeprefix(" "))
            old = ""
    return texts, "" if texts else "it changes nothing"


def changed_body(texts, folder):
    """The function whose body is all that an edit changes, and its new body; or None, and no body."""
    if len(texts) == 1:
        (file, new), = texts.items()
        text = read(f"{folder}/{file}")
        start = len(os.path.commonprefix([text, new]))
        end = len(text) - len(os.path.commonprefix([text[start:][::-1], new[start:][::-1]]))
        within = [it for it in functions_of(file, text) if it.start <= start and end <= it.end]
        if within and file.startswith("src/"):
            return within[-1], new[within[-1].start : within[-1].end + len(new) - len(text)]
    return None, ""


def edit_of(path):
    """The edit of a file."""
    folder, kind, file = path.parents[1], path.parent.name, path.name
    text = read(path)
    texts, fault = applied(text, folder)
    fault = fault or ("" if SAYS_WHERE.search(text) else "no line begins with 'input: ' or 'seed: '")
    error = text.split("\n")[0].removeprefix("error: ") if kind == "must-not-compile" else ""
    lines = re.findall(r"^(?:error|file|old|new):.*", text, re.M)
    return Edit(f"{folder.name}/{file}", lines, texts, fault, *changed_body(texts, folder), error)


def edits_of(crate):
    """The edits of a crate."""
    folder = Path(TOP, "crates", crate)
    return [edit_of(path) for kind in ("must-fail", "must-not-compile") for path in sorted((folder / kind).glob("*"))]
