"""The pages for readers: their links, lengths of lines, spelling, profiles, drawings and versions, and the sessions that they show.

A link leads to a file that is there, and to a heading of it if it names one; so does a heading in quotes behind the name of a page, as
in `docs/script.md`, "The transcript". A line of prose has at most 100 characters; blocks, tables and links aren't counted. aspell knows
each word, in British spelling, or docs/words.txt has it, one word a line; blocks and what stands in backticks are left aside.

The sessions (tests/sessions.py) of the README and of the pages of its table are played in one shell, in that order, in a copy of this
repository without crates/, with the programs in bin/; there a page may leave only what git ignores. Where rt1553-tool isn't built, what
stands behind `make tool` is left out. A line that looks like a command
and is in no session fails, and so do a block of TOML that is no accepted profile and a name of a file that isn't there.
"""

import json
import re
import shutil

import manual
import pytest
from programs import TOP, run, succeed
from sessions import blocks_of, printed, sessions_on

LONGEST = 100
LINK = re.compile(r"!?\[[^\]]*\]\(([^)#\s]*)(?:#([^)\s]+))?\)")
# a page, and a heading of it in quotes
HEADING_OF = re.compile(r'`?((?:[\w-]+/)*[\w-]+\.md)`?,(?: under)? "([^"]+)"')
# what is no prose: fenced and indented blocks
BLOCK = re.compile(r"^```.*?^```$|^ {4}[^\n]*$", re.MULTILINE | re.DOTALL)
# what is no word: what stands in backticks, where links lead, names of files, and what has a digit or a capital letter inside
NO_WORDS = re.compile(r"`[^`]*`|\]\([^)]*\)|https?://\S+|[\w./-]+\.\w{1,4}\b|\b\w*(?:\d|[a-z][A-Z])\w*")
COMMANDS = re.compile(r"(bin/)?(rt1553|rt1553-tool|make|bash|python3|awk|sed|sudo|git|cd|rt|cc|gcc|g\+\+|rustc) ")
# a line that tells how a command is used: a name in capital letters stands for something, or a description stands behind it
USAGE = re.compile(r"\b(P|Q|SCRIPT|FOLDER|NAME)\b|\S {2,}\S")
# what a page names of this repository
NAMED = re.compile(r"`((?:docs|examples|scripts|tests|bench|editors|manual|crates)/[\w./-]*\w/?)`|\]\(([\w./-]+)\)")
# prints what a page left or changed in the copy that git doesn't ignore; the next page begins with that
LEFT = ("what it leaves that git doesn't ignore", "git ls-files --others --modified --exclude-standard; git add --all", "")

PAGES = [it for pattern in ("*.md", "docs/**/*.md", "editors/**/*.md", "examples/**/*.md") for it in sorted(TOP.glob(pattern))]
TEXTS = {str(it.relative_to(TOP)): it.read_text(encoding="utf-8") for it in PAGES}
# the README and the pages of its table, in that order
LISTED = ["README.md", *re.findall(r"^\| `([\w/.-]+\.md)` \|", TEXTS["README.md"], re.MULTILINE)]
PROFILES = [(page, text) for page in LISTED for text in re.findall(r"^```toml\n(.*?)^```$", TEXTS[page], re.MULTILINE | re.DOTALL)]
# tests/test_library.py plays docs/library.md, over the library
SESSIONS = [*sessions_on(TOP, [it for it in LISTED if it != "docs/library.md"], LEFT)]
DRAWN = sorted(it.stem for it in TOP.glob("examples/messages/*.script"))


def prose_of(text):
    """The lines of a page, empty where they are of a block."""
    return BLOCK.sub(lambda found: "\n" * found[0].count("\n"), text).split("\n")


def headings_of(path):
    """The headings of a page."""
    return [line.lstrip("# ").replace("`", "") for line in prose_of(path.read_text(encoding="utf-8")) if line.startswith("#")]


def anchor(heading):
    """The name by which a link leads to a heading."""
    return re.sub(r"[^\w\- ]", "", heading.lower()).replace(" ", "-")


def wrong_links(page):
    """Where the links of a page lead to nothing."""
    for name, part in LINK.findall(" ".join(TEXTS[page].split())):
        path = (TOP / page).parent / name if name else TOP / page
        if "://" not in name and (not path.exists() or (part and part not in map(anchor, headings_of(path)))):
            yield f"{name}{'#' if part else ''}{part}"


def wrong_headings(page):
    """The pages and headings that a page names and that aren't there."""
    for name, heading in HEADING_OF.findall(" ".join(TEXTS[page].split())):
        path = next((it for it in (TOP / name, (TOP / page).parent / name) if it.exists()), None)
        if not path or heading.replace("`", "") not in headings_of(path):
            yield f'{name}, "{heading}"'


@pytest.mark.parametrize("page", TEXTS)
def test_links(page):
    assert [*wrong_links(page), *wrong_headings(page)] == []


@pytest.mark.parametrize("page", TEXTS)
def test_lengths_of_lines(page):
    lines = enumerate(prose_of(TEXTS[page]), 1)
    assert [number for number, line in lines if len(LINK.sub("", line)) > LONGEST and not line.startswith("|")] == []


@pytest.mark.parametrize("page", TEXTS)
def test_spelling(page):
    """Words count whatever their capital letters, and without an 's."""
    known = set((TOP / "docs/words.txt").read_text(encoding="utf-8").lower().split())
    words = succeed("aspell", "list", "--lang=en_GB", "--encoding=utf-8", stdin=NO_WORDS.sub(" ", "\n".join(prose_of(TEXTS[page])))).decode().split()
    assert sorted({it for it in words if not {it.lower(), it.lower().removesuffix("'s")} & known}) == []


@pytest.mark.parametrize("page", [it for it in TEXTS if "/" in it])
def test_table_of_readme_has(page):
    assert LISTED.count(page) == 1


@pytest.mark.parametrize("page", LISTED)
def test_commands_stand_in_sessions(page):
    blocks = (it for it in blocks_of(TEXTS[page]) if not any(line.startswith("$ ") for line in it))
    assert [line for block in blocks for line in block if COMMANDS.match(f"{line} ") and not USAGE.search(line)] == []


@pytest.mark.parametrize("page", LISTED)
def test_names_of_files(page, count_runs):
    """NAME stands for any name."""
    found = [*NAMED.finditer("\n".join(line for line in TEXTS[page].split("\n") if not line.startswith("    ")))]
    places = [(TOP, it[1]) if it[1] else ((TOP / page).parent, it[2]) for it in found]
    assert [name for folder, name in places if not any(folder.glob(name.replace("NAME", "*")))] == []
    count_runs(len(places))


@pytest.mark.parametrize(("page", "text"), PROFILES, ids=[f"{page}-{number}" for number, (page, _) in enumerate(PROFILES)])
def test_profile(page, text, shipped, tmp_path):
    (tmp_path / "profile.toml").write_text(text, encoding="utf-8")
    assert run(shipped.rt1553, "check", tmp_path / "profile.toml") == (0, b"ok\n", b""), page


@pytest.fixture(scope="session")
def answers(once, shipped):
    """What each of the sessions prints, played in order."""

    def play(folder):
        left_out = {".git", "bin", "crates", "out", "try"}
        shutil.copytree(TOP, folder / "copy", ignore=lambda at, names: left_out if at == str(TOP) else {"__pycache__"})
        (folder / "copy/bin").mkdir()
        for program in shipped.places:
            (folder / "copy/bin" / program.name).symlink_to(program)
        succeed("git", "init", "--quiet", folder=folder / "copy")
        succeed("git", "add", "--all", folder=folder / "copy")
        played = [number for number, it in enumerate(SESSIONS) if shipped.places[1].exists() or not it.needs_tool]
        said = dict(zip(played, printed([SESSIONS[it] for it in played], folder / "copy")))
        (folder / "printed.json").write_text(json.dumps([said.get(it) for it in range(len(SESSIONS))]), encoding="utf-8")

    return json.loads((once("sessions", play) / "printed.json").read_text(encoding="utf-8"))


@pytest.mark.parametrize("number", range(len(SESSIONS)), ids=[f"{it.page}-{number}: {it.name}"[:60] for number, it in enumerate(SESSIONS)])
def test_session(number, answers, shipped):
    assert not SESSIONS[number].needs_tool or shipped.tool
    assert answers[number] == SESSIONS[number].wanted, SESSIONS[number].command


@pytest.mark.parametrize("page", LISTED)
def test_tool_is_built_before_it_is_used(page):
    """In the sessions of a page; it is told once."""
    sessions = [*sessions_on(TOP, [page])]
    assert [it.command for it in sessions if not it.needs_tool and re.search(r"\brt1553-tool\b|/check-profiles\.sh", it.command)] == []
    assert TEXTS[page].count("$ make tool\n") == any(it.needs_tool for it in sessions)


@pytest.mark.parametrize("name", DRAWN)
def test_drawing_on_terminal_page(name):
    assert (TOP / f"examples/messages/{name}.svg").is_file() and f"(../examples/messages/{name}.svg)" in TEXTS["docs/terminal.md"]


def test_each_drawing_has_its_script():
    assert sorted(it.stem for it in TOP.glob("examples/messages/**/*.svg")) == DRAWN


def test_name_of_archive():
    assert f" rt1553-{manual.version()[0]}-linux-x86_64.tar.gz " in TEXTS["README.md"]


def test_versions_in_changelog(shipped):
    assert f"`{succeed(shipped.tool, '-V').decode().strip()}`" in TEXTS["CHANGELOG.md"]


def test_version_of_vscode_package():
    assert json.loads((TOP / "editors/vscode/package.json").read_text(encoding="utf-8"))["version"] == f"{manual.version()[0]}.0"
