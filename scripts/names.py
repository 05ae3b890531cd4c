"""Whether one name stands for one thing: a part of tests/test_sources.py.

Finds types and public functions of crates/*/src whose name stands in two crates, and likewise definitions of crates/*/specs; types
that a crate lets out and that its README.md doesn't list once, under "Types", and names there that no type or record of the crate has;
and phrases in the pages that have a better word. A function may have the name of the definition that it computes. ALIKE has the names that may
stand twice, each with the reason.
"""

import collections
import functools
import pathlib
import re

TOP = pathlib.Path(__file__).resolve().parent.parent
TYPE = re.compile(r"^(?:pub(?:\(\w+\))? )?(?:struct|enum|trait|union|type) (\w+)", re.M)
FUNCTION = re.compile(r'^pub (?:const |unsafe |extern "C" )*fn (\w+)', re.M)
RECORD = re.compile(r"^(?:(?:abbrev|unfoldable) )*pub (?:record|data) ([^\s:]+)", re.M)
DEFINITION = re.compile(r"^(?:(?:abbrev|unfoldable) )*pub (?:(?:record|data) )?(?!use\b|mod\b)([^\s:]+)", re.M)
EXPORT = re.compile(r"^pub use ([\w:]+?)(?:::\{([^}]*)\})?;", re.M)

# names that stand in two crates, with the reason
ALIKE = {
    "◌>>=◌": "an operator, of formats and of values that may be missing",
}

# phrases of pages for users, with what is said instead
PHRASES = {
    r"[Mm]emory was wanting|want of memory": "out of memory",
    r"words? that (?:it|the program) doesn't take": "arguments that it doesn't accept",
    r"words? (?:on|of) the command line": "arguments",
    r"none of a script": "not a script line",
    r"\bcells?\b": "a legal command",
}
# the pages in which a cell is explained, and those for who reads the code
FOR_READERS_OF_CODE = {"docs/terminal.md", "docs/glossary.md", "docs/architecture.md", "docs/proofs.md", "docs/DECISIONS.md"}


def files_of(crate, folder, ending):
    """The files in a folder of a crate that end so."""
    return sorted((crate / folder).rglob(f"*{ending}"))


@functools.lru_cache(maxsize=None)
def named(folder, ending, *kinds):
    """Each name of these kinds, with the crates in which it stands."""
    found = collections.defaultdict(set)
    for crate in sorted((TOP / "crates").iterdir()):
        for path in files_of(crate, folder, ending):
            text = path.read_text()
            for name in (name for kind in kinds for name in kind.findall(text)):
                found[name].add(crate.name)
    return found


def names_of(crate):
    """The names of a crate, each with all crates in which such a name stands."""
    for name, crates in [*named("src", ".rt", TYPE, FUNCTION).items(), *named("specs", ".antt", DEFINITION).items()]:
        if crate in crates:
            yield name, sorted(crates)


def let_out(crate):
    """The types that a library lets out."""
    lib = TOP / "crates" / crate / "src/lib.rt"
    if not lib.exists():
        return set()
    names = set()
    for path, listed in EXPORT.findall(lib.read_text()):
        names |= {name.split(" as ")[0].strip() for name in (listed or path.split("::")[-1]).split(",")}
    types = {name for path in files_of(lib.parent.parent, "src", ".rt") for name in TYPE.findall(path.read_text())}
    return names & types


def listed(crate):
    """How often the page of a crate lists each name under "Types": before the colon of an item."""
    part = (TOP / "crates" / crate / "README.md").read_text().partition("## Types\n")[2].partition("\n## ")[0]
    return collections.Counter(name for item in re.findall(r"^- ([^:]*):", part, re.M) for name in re.findall(r"`([^`]+)`", item))


def records(crate):
    """The records of a crate's definitions."""
    return {name for name, crates in named("specs", ".antt", RECORD).items() if crate in crates}


def pages():
    """The pages for users, by their paths."""
    found = ["README.md", *sorted((TOP / "docs").glob("*.md")), *sorted((TOP / "manual").glob("*.toml"))]
    return [str((TOP / path).relative_to(TOP)) for path in found]


def phrases_in(page):
    """The phrases of a page that have a better word, each with that."""
    text = " ".join((TOP / page).read_text().split())
    phrases = {it: better for it, better in PHRASES.items() if not (page in FOR_READERS_OF_CODE and "cell" in it)}
    return [f"{found[0]} ({better})" for phrase, better in phrases.items() for found in re.finditer(phrase, text)]
