"""Whether something refers to each definition and each function of the crates: a part of tests/test_sources.py.

Looks at each definition and lemma of specs/ and proofs/, but for those in the files that `rt` seeks by their names, and at each
function, constant and type of the .rt files. Another one must refer to it: of its own file, of a file that imports it, and to what a
crate lets out one of library/, bench/ or examples/ may. An import alone refers to nothing. Laws, worked examples, tests, `main`, what
an `impl` gives of a trait, and the functions for C and for the page need no caller. EXCEPT has what else needs none, by its crate, with the reason.
"""

import collections
import functools
import pathlib
import re

TOP = pathlib.Path(__file__).resolve().parent.parent
EXCEPT = {
    "rt1553_live": {"live_is_sent": "compiles only where a terminal may be handed from thread to thread"},
    "live_bus": {"bus_is_sent": "compiles only where a bus may be handed from thread to thread"},
}
# files in which `rt` seeks what it names itself
SOUGHT_BY_NAME = {"Answers.antt", "Invariants.antt", "Proof.antt", "Lib.antt"}
# files whose functions only state something
WITHOUT_CALLER = {"laws.rt", "tree_laws.rt", "worked_examples.rt"}
EDGE = r"[\w'\-«»]"
USE = re.compile(r"^ *(pub )?(?:ghost )?use ([\w.:]+?)(?:(?:\.|::)\{(.*?)\})?(?: as (\w+))?;?$", re.M | re.S)
DEFINITION = re.compile(r"^(?:(?:abbrev|unfoldable|pub) )*(?:module .*|(?:record|data|postulate|ruleset) (\S+)|(\S+) :)", re.M)
MODULE = re.compile(r"^(module .*\n)((?:(?:  .*)?\n)*)", re.M)
CLAUSE = re.compile(r"\b(?:ensures|requires|invariant|assert)(?: \w+)? ?(?=\{)")
BLOCK = re.compile(r"^ *(?:pub )?(?:unsafe )?(?:impl|trait)\b[^{;]*(?=\{)", re.M)
ITEM = re.compile(r"^ *(pub(?:\([^)]*\))? )?(?:unsafe |extern \"\" )*(?:const )?(fn|const|static|struct|enum|trait|type) (\w+)", re.M)

# a file: its path and crate, its text without imports, these, and the whole text
File = collections.namedtuple("File", "path crate text uses whole")


def plain(text, mark):
    """A text without its comments, which a mark begins, and without what stands in quotes."""
    quoted = r'"(?:\\[\s\S]|[^"\\])*"' + (r"|'(?:\\.|[^\\'\n])'" if mark == "//" else "")
    return re.sub(rf"{quoted}|(?<!\S){mark}[^\n]*", lambda found: found[0][:1] * 2 if found[0][0] in "\"'" else "", text)


def closed(text, start):
    """Where the brace closes that opens here."""
    depth = 0
    for at in range(start, len(text)):
        depth += {"{": 1, "}": -1}.get(text[at], 0)
        if depth == 0:
            return at + 1
    return len(text)


def without_clauses(text):
    """The text of a module without its contracts, whose names are those of definitions."""
    kept, at = [], 0
    for found in CLAUSE.finditer(text):
        if found.start() >= at:
            kept.append(text[at : found.start()])
            at = closed(text, found.end())
    return "".join([*kept, text[at:]])


def read(path):
    """A file of a crate, without its imports, and these: the path of each, its names with those that they have here, and whether it
    hands them on."""
    text = plain(path.read_text(), "--" if path.suffix == ".antt" else "//")
    uses = []
    for public, place, listed, alias in USE.findall(text):
        place = re.split(r"\.|::", place)
        if not listed:
            listed, place = f"{place[-1]} as {alias}" if alias else place[-1], place[:-1]
        names = [name.split(" as ") for name in re.split(r"[,{}]\s*", listed) if name.strip()]
        uses.append((place, {name[0].strip(): name[-1].strip() for name in names}, bool(public)))
    return File(path, path.relative_to(TOP / "crates").parts[0], USE.sub("", text), uses, text)


def stands(name, text):
    """Whether a name stands in a text, an operator by all its parts."""
    parts = [part for part in name.split("◌") if part] if "◌" in name else [name]
    return all(re.search(rf"(?<!{EDGE}){re.escape(part)}(?!{EDGE})", text) for part in parts)


def definitions(text):
    """The definitions of an antt file, each with its name and the text of all others; those of a module in it begin at its margin."""
    text = MODULE.sub(lambda found: found[1] + re.sub("^  ", "", found[2], flags=re.M), text)
    found = list(DEFINITION.finditer(text))
    ends = [other.start() for other in found[1:]] + [len(text)]
    for one, end in zip(found, ends):
        if one[1] or one[2]:
            yield one[1] or one[2], text[: one.start()] + text[end:]


def is_imported(file, crate, stem, name):
    """Whether a file refers to this definition of a module of a crate: by an import, or by the name behind that of the module."""
    for place, names, _ in file.uses:
        if crate in place and name in place[1:] and place[place.index(name) - 1] == stem:
            return True
        if crate in place and place[-1] == stem and name in names and stands(names[name], file.text):
            return True
        if stem in names and stands(f"{names[stem]}.{name}", file.text):
            return True
    return re.search(rf"(?:\.|::){stem}(?:\.|::){re.escape(name)}(?!{EDGE})", file.text) is not None


def end_of(text, start):
    """Where an item ends, whose head begins here: with a brace that closes, or a semicolon."""
    depth = 0
    for at in range(start, len(text)):
        depth += {"(": 1, "[": 1, ")": -1, "]": -1}.get(text[at], 0)
        if depth == 0 and text[at] in "{;":
            return closed(text, at) if text[at] == "{" else at + 1
    return len(text)


def items(text):
    """The functions, constants and types of a module: the type that each belongs to, its name, whether it is a function, is public, is
    of a trait or a test, how it is called, and the text without it."""
    blocks = [(found.end(), closed(text, found.end()), found[0]) for found in BLOCK.finditer(text)]
    for found in ITEM.finditer(text):
        end = end_of(text, found.end())
        head = "".join([head for start, stop, head in blocks if start < found.start() < stop][-1:])
        head = re.sub(r"<[^<>]*>", "", re.sub(r"<[^<>]*>", "", head)).split(" where ")[0]
        owner = re.findall(r"\w+", head.split(":")[0])[-1] if head else None
        is_given = " for " in head or re.search(r"#\[test\]\s*$", text[: found.start()]) is not None
        has_self = re.match(r"(?:<[^(]*>)?\(\s*(?:&(?:'\w+ )?)?(?:mut )?self\b", text[found.end() :]) is not None
        call = rf"\.{found[3]}\b|\b{owner}::{found[3]}\b" if has_self else rf"\b(?:{owner}|Self)::{found[3]}\b"
        is_public = bool(found[1]) and "(" not in found[1] or "trait" in head
        yield owner, found[3], found[2] == "fn", is_public, is_given, call, text[: found.start()] + text[end:]


def exporters(crate, name):
    """The crates from which a name of a crate can be imported."""
    found = {crate}
    while True:
        more = {file.crate for file in with_name(code, name) if file.path.name == "lib.rt"
                for place, names, is_public in file.uses if is_public and place[0] in found and name in names}
        if more <= found:
            return found
        found |= more


def refers(file, crate, name, names_of):
    """Whether a file refers to a function, a constant or a type of a crate, which can be imported from these crates."""
    if file.crate == crate:
        return re.search(rf"(?<!fn )(?<!\w)(?<!(?<!\.)\.){name}\b", file.text) is not None
    for place, names, _ in file.uses:
        if place[0] in names_of and name in names and stands(names[name], file.text):
            return True
        if place[0] in names_of and any(re.search(rf"\b{local}::{name}\b", file.text) for local in names.values()):
            return True
    return re.search(rf"\b(?:{'|'.join(names_of)})::(?:\w+::)*{name}\b", file.text) is not None


@functools.lru_cache(maxsize=None)
def files():
    """The files of all crates."""
    return [read(path) for path in sorted((TOP / "crates").glob("*/*/**/*"))
            if path.suffix in (".rt", ".antt") and path.relative_to(TOP / "crates").parts[1] in ("src", "specs", "proofs")]


@functools.lru_cache(maxsize=None)
def code():
    """The modules of all crates, without their contracts."""
    return [file._replace(text=without_clauses(file.text)) for file in files() if file.path.suffix == ".rt"]


@functools.lru_cache(maxsize=None)
def callers():
    """The files outside of crates that may refer to what a crate lets out."""
    paths = [path for folder in ("library", "bench", "examples") for path in sorted((TOP / folder).rglob("*")) if path.suffix in (".rs", ".rt")]
    texts = {path: path.read_text(errors="replace") for path in paths}
    return [File(path, path.name, text, [], text) for path, text in texts.items()]


@functools.lru_cache(maxsize=None)
def index(files_of):
    """The files that a function gives, by the words that stand in them."""
    found = collections.defaultdict(list)
    for file in files_of():
        for word in set(re.findall(r"\w+", file.whole)):
            found[word].append(file)
    return found


def with_name(files_of, name):
    """Those of the files that a function gives in which the longest word of a name stands: no others can refer to it."""
    words = re.findall(r"\w+", name)
    return index(files_of)[max(words, key=len)] if words else files_of()


def definitions_of(crate):
    """The definitions of a crate: the file, the name, and whether something refers to it."""
    for file in files():
        if file.crate == crate and file.path.suffix == ".antt" and file.path.name not in SOUGHT_BY_NAME:
            for name, others in definitions(file.text):
                at = (crate, file.path.stem, name)
                yield file.path, name, stands(name, others) or any(is_imported(other, *at) for other in with_name(files, name) if other is not file)


def items_of(crate):
    """The functions, constants and types of a crate that need one that refers to them: the file, the name, and whether there is one."""
    for file in (it for it in code() if it.crate == crate):
        for owner, name, is_function, is_public, is_given, call, others in items(file.text):
            if is_given or name == "main" or name.startswith(("rt1553_", "page_")) or is_function and file.path.name in WITHOUT_CALLER:
                continue
            names_of = exporters(crate, name)
            where = [file._replace(text=others), *(other for other in with_name(code, name) + with_name(callers, name) if other.path != file.path)]
            where = where if is_public else [other for other in where if other.crate == crate]
            is_used = any(re.search(call, it.text) if owner else refers(it, crate, name, names_of) for it in where)
            yield file.path, f"{owner}::{name}" if owner else name, is_used
