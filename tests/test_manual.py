"""The man pages and completions, as scripts/manual.py writes them, and whether manual/arguments.toml is what the programs say and do."""

import re
import shutil

import manual
import pytest
from programs import TOP, run, succeed

pytestmark = pytest.mark.usefixtures("clone_as_it_was")
RT1553, TOOL = manual.PROGRAMS["program"]
FILES = [it for it, _ in manual.made()]
PAGES = sorted(str(it.relative_to(TOP)) for it in TOP.glob("manual/*.[15]"))
COMMANDS = [pytest.param(it, id=it["name"]) for it in TOOL["command"]]
EXAMPLES = [it for program in (RT1553, TOOL) for it in program["example"]]
# what bash offers for a line, a word of it each line; the last word is the one that is completed
OFFERED = r"""
source "$1"
shift
COMP_WORDS=("$@") COMP_CWORD=$(($# - 1)) COMPREPLY=()
"_${1//-/_}"
printf '%s\n' "${COMPREPLY[@]}"
"""
# the words of a line, a dot where the last is empty, and what is offered
COMPLETIONS = """\
rt1553 .|canon check compare run
rt1553 c|canon check compare
rt1553 check .|a.toml b.rt1553 sub
rt1553 run a.toml .|c.script sub
rt1553 run a.toml c.script .|
rt1553 compare a.toml .|a.toml b.rt1553 sub
rt1553-tool .|--help --version acceptance answers bus canon check check-script compare coverage differ draw expand explain export import infer lint live messages recording run toml verify words
rt1553-tool answers --|--expand --help
rt1553-tool run a.toml .|c.script sub
rt1553-tool compare a.toml .|a.toml b.rt1553 sub
rt1553-tool l|lint live
rt1553-tool lint a.toml .|a.toml b.rt1553 sub
rt1553-tool lint --|--format --help
rt1553-tool lint --format .|json sarif text
rt1553-tool lint --format json .|a.toml b.rt1553 sub
rt1553-tool verify --|--already-on --any-subsystem --bus-only --date --expand --format --help --names --profiles --summary --witness
rt1553-tool bus --|--alone --check --date --expand --format --gap --help --messages --names --response
rt1553-tool bus --format .|json junit text
rt1553-tool bus --names .|e.csv sub
rt1553-tool verify .|a.toml b.rt1553 sub
rt1553-tool verify a.toml c.script .|c.script sub
rt1553-tool verify --summary a.toml .|c.script sub
rt1553-tool verify --profiles .|sub
rt1553-tool verify --profiles sub .|c.script sub
rt1553-tool recording --|--address --after-reset --after-self-test --gap --help --no-response --pause
rt1553-tool recording --gap .|
rt1553-tool coverage --|--expand --format --help --names
rt1553-tool infer --|--address --expand --help --unseen
rt1553-tool infer --unseen .|illegal legal
rt1553-tool acceptance .|a.toml b.rt1553 sub
rt1553-tool acceptance --|--against --any-subsystem --date --format --help --names
rt1553-tool acceptance --format .|csv html json junit text
rt1553-tool acceptance --against .|e.csv sub
rt1553-tool acceptance --against e.csv .|a.toml b.rt1553 sub
rt1553-tool draw --html a.toml .|c.script sub
rt1553-tool words .|"""
SHELLS = [("zsh", "-n"), ("fish", "--no-execute")]


@pytest.mark.parametrize("path", FILES, ids=lambda it: it.name)
def test_file_is_as_it_is_written(path):
    assert path.read_text(encoding="utf-8") == dict(manual.made())[path]


@pytest.mark.parametrize("page", PAGES)
def test_man_page_has_text_and_no_warning(page):
    given = run("groff", "-mdoc", "-ww", "-Tutf8", page, folder=TOP)
    assert (given.status, given.errors) == (0, b"") and given.output.count(b"\n") > 40


@pytest.mark.parametrize("page", PAGES)
@pytest.mark.skipif(not shutil.which("mandoc"), reason="there is no mandoc")
def test_mandoc_reads(page):
    """The other pages aren't installed."""
    given = run("mandoc", "-Tlint", page, folder=TOP)
    said = (given.output + given.errors).decode().splitlines()
    assert [it for it in said if "referenced manual not found: Xr rt1553" not in it] == []


@pytest.mark.parametrize("row", COMPLETIONS.split("\n"), ids=lambda it: it.split("|")[0][:60])
def test_bash_completes(row, tmp_path):
    line, wanted = row.split("|")
    *words, last = line.split(" ")
    (tmp_path / "sub").mkdir()
    for name in ("a.toml", "b.rt1553", "c.script", "d.txt", "e.csv"):
        (tmp_path / name).touch()
    offered = succeed("bash", "-uc", OFFERED, "bash", TOP / f"manual/{words[0]}.bash", *words, last.removesuffix("."), folder=tmp_path)
    assert sorted(offered.decode().split()) == sorted(wanted.split())


@pytest.mark.parametrize("name", ["rt1553", "rt1553-tool"])
@pytest.mark.parametrize(("shell", "reads"), SHELLS, ids=lambda it: it.strip("-"))
def test_other_shell_reads_its_completion(shell, reads, name):
    if not shutil.which(shell):
        pytest.skip(f"there is no {shell}")
    succeed(shell, reads, TOP / f"manual/{name}.{shell}")


def rows_of(text, title):
    """The rows of a part of clap's help: the first command of each with what stands behind it."""
    part = re.search(rf"^{title}:\n((?:  .*\n?)*)", text, re.MULTILINE)
    return [re.split(r"\s{2,}", line.strip(), maxsplit=1) for line in part[1].splitlines()] if part else []


def option_row(option):
    """A row of clap's help that tells an option."""
    shown = option["name"] + (f" <{option['value']}>" if "value" in option else "")
    values = f" [default: {option['values'][0]}] [possible values: {', '.join(option['values'])}]" if "values" in option else ""
    return [shown, option["help"] + values]


def printed(*words):
    """What a program prints to either stream."""
    given = run(*words)
    return (given.output + given.errors).decode()


def test_usage_line_of_rt1553(shipped):
    words = (" ".join([it["name"], *(takes["name"] for takes in it["takes"])]) for it in RT1553["command"])
    given = run(shipped.rt1553, "--help")
    assert (given.status, (given.output + given.errors).decode()) == (3, f"usage: rt1553 [{', '.join(words)}]\n")


def test_words_of_tool(shipped):
    """Under each heading in the order of the description."""
    said = printed(shipped.tool, "--help")
    wanted = {}
    for it in TOOL["command"]:
        wanted.setdefault(it["heading"], []).append([it["name"], it["about"]])
    assert {it: rows_of(said, it) for it in wanted} == wanted


@pytest.mark.parametrize("command", COMMANDS)
def test_command_takes(command, shipped):
    found = rows_of(printed(shipped.tool, command["name"], "--help"), "Arguments")
    assert [[re.sub(r"[^A-Z]", "", name), text] for name, text in found] == [[it["name"], it["help"]] for it in command["takes"]]


@pytest.mark.parametrize("command", COMMANDS)
def test_options_of_command(command, shipped):
    found = [row for row in rows_of(printed(shipped.tool, command["name"], "--help"), "Options") if "--help" not in row[0]]
    assert found == [option_row(it) for it in command.get("options", [])]


def test_version_of_tool(shipped):
    number, canonical = manual.version()
    assert run(shipped.tool, "-V") == (0, f"rt1553-tool {number} (canonical text {canonical})\n".encode(), b"")


@pytest.mark.parametrize("example", EXAMPLES, ids=lambda it: it["command"][:60])
def test_example(example, shipped, tmp_path, monkeypatch):
    (tmp_path / "bin").mkdir()
    for place, it in (("bin/rt1553", shipped.rt1553), ("bin/rt1553-tool", shipped.tool), ("examples", TOP / "examples")):
        (tmp_path / place).symlink_to(it)
    monkeypatch.setenv("PATH", f"{tmp_path}/bin", prepend=":")
    given = run("bash", "-c", f"exec 2>&1; {example['command']}", folder=tmp_path)
    assert given.output.decode() == example["prints"]
