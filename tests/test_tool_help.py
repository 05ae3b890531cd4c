"""The words of `rt1553-tool`, their help, and the colours on a terminal."""

import os
import pty
import subprocess

import pytest
from programs import run, toolchain, write_files

WORDS = [
    "check", "canon", "compare", "run", "lint", "check-script", "verify", "answers", "recording", "coverage", "infer", "import", "export",
    "expand", "toml", "explain", "differ", "acceptance", "messages", "draw", "words", "live", "bus",
]  # fmt: skip
BOLD, GREEN, RED, PLAIN = "\033[1m", "\033[32m", "\033[31m", "\033[0m"
FILES = {
    "five": "address = 5\n",
    "six": "address = 6\n",
    "right": "# Plan: 1\nA c 2c02\nA gap\nslot\n#> A s 2800\n",
    "wrong": "# Plan: 2\nA c 2c02\nA gap\nslot\n",
}


# what is nearly a command, or wants more, with a line of what is said of it
NEARLY = {
    "veryfi": "  tip: a similar subcommand exists: 'verify'",
    "chek": "  tip: some similar subcommands exist: 'check-script', 'check'",
    "explan P": "  tip: some similar subcommands exist: 'expand', 'explain'",
    "recording T": "  --address <N>",
    "infer S": "  --address <N>",
    "lint --formt json P": "  tip: a similar argument exists: '--format'",
    "compare P": "  <Q>",
    "run P": "  <SCRIPT>",
    "answers P": "  <SCRIPT>",
}


def test_version(tool):
    """The toolchain is that which built the program."""
    first = "rt1553-tool 0.1 (canonical text 2)\n"
    assert run(tool, "-V") == (0, first.encode(), b"")
    assert run(tool, "--version") == (0, f"{first}proved and built by {toolchain()}\n".encode(), b"")


@pytest.mark.parametrize("words", NEARLY)
def test_words_that_are_nearly_right(tool, words):
    given = run(tool, *words.split())
    assert (given.status, given.output) == (3, b"") and NEARLY[words] in given.errors.decode().splitlines()


@pytest.mark.parametrize("word", WORDS)
def test_help(tool, word):
    """It has an example."""
    given = run(tool, word, "--help")
    assert (given.status, given.errors) == (0, b"")
    assert [it for it in given.output.splitlines() if it.startswith(b"Example: ")]


def test_help_of_all(tool):
    """It has the commands under headings."""
    given = run(tool, "--help")
    assert (given.status, given.errors) == (0, b"")
    lines = given.output.decode().splitlines()
    assert [it for it in lines if it.endswith(":")] == ["Profiles:", "Scripts:", "Units and recordings:", "Documents:", "Buses:", "Options:"]
    assert sorted(it.split()[0] for it in lines if it.startswith("  ") and not it.startswith("  -")) == sorted(WORDS)
    assert run(tool, "help") == given


@pytest.mark.parametrize("words", [[it] for it in WORDS if it != "words"] + [[], ["none"]], ids=lambda it: " ".join(it) or "no word")
def test_arguments_that_are_refused(tool, words):
    given = run(tool, *words)
    assert (given.status, given.output, given.errors != b"") == (3, b"", True)


@pytest.fixture
def seen_on_terminal(tool, tmp_path):
    """Tells what a command prints on a terminal."""
    write_files(tmp_path, FILES)

    def seen(*words, **variables):
        variables = {**{name: it for name, it in os.environ.items() if name != "NO_COLOR"}, **variables}
        ours, theirs = pty.openpty()
        with subprocess.Popen([tool, *words], cwd=tmp_path, env=variables, stdin=theirs, stdout=theirs, stderr=theirs):
            os.close(theirs)
            printed = b"".join(iter(lambda: read_terminal(ours), b""))
        os.close(ours)
        return printed.decode().replace("\r", "")

    return seen


def read_terminal(file):
    """What comes next on a terminal: nothing once no process has it open, which Linux tells as an error."""
    try:
        return os.read(file, 65536)
    except OSError:
        return b""


def test_colours_of_differ(seen_on_terminal):
    assert seen_on_terminal("differ", "five", "six") == f"{BOLD}address{PLAIN}: 5 in five, 6 in six\n"


def test_colours_of_explain(seen_on_terminal):
    lines = seen_on_terminal("explain", "five").splitlines()
    assert lines[:2] == [f"{BOLD}remote terminal 5{PLAIN}", f"{BOLD}broadcast{PLAIN}:   not heard"]


def test_colours_of_a_summary(seen_on_terminal):
    lines = seen_on_terminal("verify", "--summary", "five", "right", "wrong").splitlines()
    assert lines[-4:] == [
        f"wrong: {RED}differences: 1{PLAIN}",
        f"clause 1: {GREEN}1 of 1 scripts pass{PLAIN}",
        f"clause 2: {RED}0 of 1 scripts pass{PLAIN}",
        f"all: {RED}1 of 2 scripts pass{PLAIN}",
    ]


def test_no_colours_where_no_color_is_set(seen_on_terminal):
    given = seen_on_terminal("explain", "five", NO_COLOR="1")
    assert given.startswith("remote terminal 5\n")
    assert "\033" not in given


def test_no_colours_in_json(seen_on_terminal):
    given = seen_on_terminal("explain", "--format", "json", "five")
    assert given.startswith("{")
    assert "\033" not in given


def test_colours_where_no_color_is_empty(seen_on_terminal):
    assert seen_on_terminal("differ", "five", "six", NO_COLOR="").startswith(BOLD)
