#!/usr/bin/env python3
"""Whether the pages beside the code speak of what is there: a part of tests/test_sources.py.

    scripts/crate_pages.py write    writes anew the line counts of docs/proofs.md, and in docs/architecture.md which crates each one stands on

Each crate has a README.md with the sections of SECTIONS. What is in backticks there, in docs/proofs.md and in docs/architecture.md and
looks like a path is a file or folder, of the crate or of the repository, or a must-fail edit, as `crate/name`. What looks like a name is
in the code, or is that of an edit; and `crate::name` is of that crate. The Rust lines of a first use are in a test of the crates of
TESTS, where they are proved and run. In the table of docs/proofs.md whose rows begin with a specs folder each file of specs/ outside of
specs/inner is there once, by its name or by `all`, and the last number is that of the lines; what is in a folder below specs/ counts with
the file of its name. That page names just the crates of the toolchain that crates.txt names. In the table of
docs/architecture.md the last column has the crates of this repository that a crate uses, without those that another of them stands on.
"""

import collections
import pathlib
import re
import sys

TOP = pathlib.Path(__file__).resolve().parent.parent
SECTIONS = ["First use", "What is proved", "What is only tested", "Where to begin", "What not to break"]
LISTING, LAYERS = PAGES = ["docs/proofs.md", "docs/architecture.md"]
# folders that each crate may have, and what a build leaves
ANY = re.compile(r"(?:src|specs|specs/inner|proofs|must-fail|must-not-compile|inner)/?|bin/.*|crates/\w+/out/.*")
TESTS = {"terminal_tests", "rt1553_tests"}
# crates that are tests, or programs for them: a page without sections
SMALL = {*TESTS, "probes"}

CODE = {".rt", ".antt", ".py", ".sh", ".rs", ".h", ".c", ".hpp", ".toml"}
NAME = re.compile(r"[A-Za-z_][\w'\-]*(?:(?:::|\.)[A-Za-z_][\w'\-]*)*(?:\(\.*\))?")
WORD = re.compile(r"[^\W\d][\w'\-]*")


def plain(text):
    """A text with its white space folded."""
    return " ".join(text.split())


class Repository:
    """The files, and the names that stand in them."""

    def __init__(self, root=TOP):
        self.root = root
        self.crates = [path.name for path in sorted((root / "crates").iterdir()) if path.is_dir()]
        self.names = {crate: self.names_of(root / "crates" / crate, "src", "specs", "proofs") for crate in self.crates}
        edits = [*(root / "crates").glob("*/must-fail/*.edit")]
        self.edits = {f"{path.parts[-3]}/{path.stem}" for path in edits}
        others = self.names_of(root, "scripts", "tests/model", "library"), self.crates, {path.stem for path in edits}
        self.everywhere = set().union(*self.names.values(), *others)
        tests = [path for name in TESTS for path in (root / "crates" / name / "src").rglob("*.rt")]
        self.tested = plain("\n".join(path.read_text() for path in sorted(tests)))

    def names_of(self, top, *folders):
        files = [path for folder in folders for path in (top / folder).rglob("*") if path.is_file() and path.suffix in CODE]
        words = {word for path in files for word in WORD.findall(path.read_text())}
        return words | {part for path in files for part in (path.stem, path.parent.name)}

    def has_path(self, base, path):
        return any((top / path).exists() or (top / f"{path}.antt").exists() for top in (base, self.root, self.root / "crates"))

    def has_name(self, name):
        parts = re.split(r"::|\.", name.split("(")[0])
        known = self.names.get(parts[0]) if len(parts) > 1 else None
        return all(part in (known or self.everywhere) for part in parts[1 if known else 0:])


def spans(text):
    """What stands in backticks, outside of blocks."""
    return re.findall(r"`([^`\n]+)`", re.sub(r"^ *```.*?^ *```|^    .*?$", "", text, flags=re.M | re.S))


def faults_of(repository, path):
    """What a page names that isn't there."""
    base, text = path.parent, path.read_text()
    own = {word for block in re.findall(r"^```.*?^```", text, re.M | re.S) for word in WORD.findall(block)}
    for span in spans(text):
        if re.search(r"NAME|\*|\s|\.\.", span) or ANY.fullmatch(span):
            continue
        if "/" in span:
            is_there = repository.has_path(base, span.rstrip("/")) or span in repository.edits
            if not is_there and re.fullmatch(r"[\w./\-]+", span):
                yield f"no file {span}"
        elif span not in own and NAME.fullmatch(span) and not repository.has_name(span) and not repository.has_path(base, span):
            yield f"no name {span}"


def untested(repository, text):
    """The Rust lines of a first use that no test has."""
    for block in re.findall(r"^```rust\n(.*?)^```", text, re.M | re.S):
        if plain(block) not in repository.tested:
            yield f"no test has the lines {plain(block)[:60]} .."


def rows(text):
    """The rows of the table of files: the crate, what its files are needed for, their names or `all`, the sum of their lines."""
    return re.finditer(r"^\| `(\w+)/specs` \| ([^|]*) \| ([^|]*) \| (\d+) \|$", text, re.M)


def definitions_of(repository, crate):
    """The names of a crate's files of definitions, outside of specs/inner."""
    specs = repository.root / "crates" / crate / "specs"
    names = {path.relative_to(specs).parts[0].removesuffix(".antt") for path in specs.rglob("*.antt")}
    return sorted(names - {"Lib", "inner"})


def named_in(repository, row):
    """The files that a row is about."""
    return definitions_of(repository, row[1]) if row[3] == "all" else row[3].split(", ")


def lines_in(repository, crate, name):
    path = repository.root / "crates" / crate / "specs" / f"{name}.antt"
    files = [path, *sorted((path.parent / name).glob("*.antt"))]
    return sum(len(file.read_text().splitlines()) for file in files if file.exists())


def counted(repository, text):
    """The page with each number as it is."""
    for row in reversed(list(rows(text))):
        lines = sum(lines_in(repository, row[1], name) for name in named_in(repository, row))
        text = text[:row.start(4)] + str(lines) + text[row.end(4):]
    return text


def uses_of(repository):
    """The crates of this repository that each one uses, by crates.txt."""
    lines = [line.split("#")[0].partition(":") for line in (repository.root / "crates.txt").read_text().splitlines()]
    return {words.split()[0]: [it for it in names.split() if it in repository.crates] for words, _, names in lines if words.strip()}


def layered(repository, text):
    """The page with the crates that each one stands on, as they are."""
    uses, below = uses_of(repository), {}
    for crate, used in uses.items():
        below[crate] = {*used, *(it for one in used for it in below[one])}

    def row(found):
        used = uses.get(found[1], [])
        nearest = [f"`{it}`" for it in used if not any(it in below[one] for one in used)]
        return f"| `{found[1]}` | {found[2]} | {', '.join(nearest)} |".replace("|  |", "| |")

    return re.sub(r"^\| `(\w+)` \| ([^|]*) \|(?: [^|]* \|)?$", row, text, flags=re.M)


def unlisted(repository, text):
    """The files of definitions that the table lacks, has twice, or has though they aren't there."""
    named = collections.Counter((row[1], name) for row in rows(text) for name in named_in(repository, row))
    there = {(crate, name) for crate in repository.crates for name in definitions_of(repository, crate)}
    yield from (f"the table of files lacks {name} of {crate}/specs" for crate, name in sorted(there - named.keys()))
    yield from (f"the table of files has {name} of {crate}/specs, which isn't there" for crate, name in sorted(named.keys() - there))
    yield from (f"the table of files has {name} of {crate}/specs twice" for (crate, name), times in sorted(named.items()) if times > 1)


def untrusted(repository, text):
    """The crates of the toolchain that crates.txt or the list of what is trusted has, and the other has not."""
    lines = [line.split("#")[0].partition(":")[2] for line in (repository.root / "crates.txt").read_text().splitlines()]
    used = {name for line in lines for name in line.split()} - set(repository.crates)
    listed = {name for found in re.findall(r"^- The crates (.*?) of the toolchain", text, re.M | re.S) for name in spans(found)}
    yield from (f"the list of trusted crates lacks {name}" for name in sorted(used - listed))
    yield from (f"the list of trusted crates has {name}, which no crate uses" for name in sorted(listed - used))


def faults_of_crate(repository, crate):
    """What is wrong with the page of a crate."""
    path = repository.root / "crates" / crate / "README.md"
    if not path.exists():
        return ["no README.md"]
    text = path.read_text()
    missing = [f"no section {name}" for name in SECTIONS if crate not in SMALL and f"\n## {name}\n" not in text]
    return [*missing, *faults_of(repository, path), *untested(repository, text)]


def faults_of_page(repository, page):
    """What is wrong with a page of docs/."""
    path = repository.root / page
    text = path.read_text()
    stale = (counted if page == LISTING else layered)(repository, text) != text
    wrong = [*faults_of(repository, path), *["not as the code is: scripts/crate_pages.py write"] * stale]
    return [*wrong, *unlisted(repository, text), *untrusted(repository, text)] if page == LISTING else wrong


def main():
    if sys.argv[1:] != ["write"]:
        sys.exit(__doc__)
    repository = Repository()
    for page, anew in ((LISTING, counted), (LAYERS, layered)):
        path = TOP / page
        path.write_text(anew(repository, path.read_text()))


if __name__ == "__main__":
    main()
