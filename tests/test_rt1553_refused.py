"""The programs where the system refuses memory, a read or a write, gives or takes few bytes at once, or interrupts a call.

tests/refuse.c does so, loaded before a program that takes the C library from outside.
"""

import os
import subprocess

import pytest
from known_texts import ASK, FILES, LOST, files_named
from programs import TOP, Row, run, write_files

OUT_OF_MEMORY = (4, b"", b"out of memory\n")
READ_FAILED = "input: read failed\n"
MOST_CALLS, MOST_GROWTHS = 500, 2000
KINDS = ("READ", "WRITE")
# a script whose transcript takes more than one write
LONG = {"five": FILES["five"], "script": ASK * 16_000}
LONG_TRANSCRIPT = b"A s 2800\n" * 16_000


def growth_row(name, words, stdin=ASK):
    return Row(name, words, files={**files_named(words), **({"script": ASK} if "script" in words else {})}, stdin=stdin)


GROWTH_ROWS = [
    growth_row("no arguments", ""),
    growth_row("check", "check five"),
    growth_row("canon", "canon five"),
    growth_row("compare", "compare five six"),
    growth_row("compare of canonical texts", "compare canonical canonical"),
    growth_row("compare with a canonical text of version 1", "compare first canonical"),
    growth_row("a refused profile", "check bad"),
    growth_row("an absent file", "check missing"),
    growth_row("bad words", "compare five"),
    growth_row("run", "run five script", ""),
    growth_row("run of a whole profile", "run whole script", ""),
    growth_row("run of a canonical text", "run canonical script", ""),
    growth_row("run of a refused profile", "run bad script", ""),
    growth_row("run, an absent script", "run five absent", ""),
]
# the table of a document, and one with faults
TABLES = {
    "table": "kind,name,subaddress,words,code,to,initial,value\naddress,,,,,,,5\nreceive,speed,1,2,,,,\ntransmit,state,2,\"1-2, 4\",,,0001 ffff,\nmode,clock,,,1,both,,\n",
    "faulty": "kind,name,subaddress,words\nrecieve,speed,1,2\ntransmit,state,31,0\n",
}
# the same of `rt1553-tool`
TOOL_GROWTH_ROWS = [
    *GROWTH_ROWS,
    growth_row("help", "--help", ""),
    growth_row("the version", "--version", ""),
    growth_row("no command", "chek five", ""),
    growth_row("an option left out", "infer script", ""),
    growth_row("lint", "lint bad", ""),
    growth_row("check-script", "check-script script", ""),
    *(Row(it, it, files={**TABLES, **files_named("five")})
      for it in ("import table", "import faulty", "import --check table five", "explain --names table five", "explain five --names faulty")),
]
FAILING_ROWS = [
    ("REFUSE_READ", "", READ_FAILED),
    ("REFUSE_READ", "check five", "file: cannot read five\n"),
    ("REFUSE_WRITE", "canon five", LOST),
    ("REFUSE_WRITE", "compare five five", LOST),
    ("REFUSE_WRITE", "compare five six", LOST),
    ("REFUSE_WRITE", "", LOST),
]
# what may stand in place of a call's answer where a growth is refused; calls on canonical texts take no memory
MEMORY_LINES = ("arguments Memory", "load Memory", "canonical Memory", "compare Memory", "run Err(Load(Memory)) 0", "read_profile Memory")
ACCEPTED_CHANGES = b"""\
1520 bytes: 3621 changed texts are accepted
1556 bytes: 3816 changed texts are accepted
2474 bytes: 7300 changed texts are accepted
"""


@pytest.fixture(scope="session")
def shim(tmp_path_factory):
    """The shim that refuses."""
    made = tmp_path_factory.mktemp("shim") / "refuse.so"
    subprocess.run([os.environ.get("CC", "cc"), "-O1", "-shared", "-fPIC", "-o", made, TOP / "tests/refuse.c"], check=True)
    return made


def linked(program, folder):
    """A program with the C library from outside: what is shipped holds the library, and beside it stands an object that doesn't."""
    if program.suffix == ".by-rattle":
        return program
    to = folder / program.name
    subprocess.run([os.environ.get("CC", "cc"), "-pie", "-o", to, program.with_name(f"{program.name}.o")], check=True)
    return to


@pytest.fixture(scope="session")
def dynamic(rt1553, tmp_path_factory):
    return linked(rt1553, tmp_path_factory.mktemp("dynamic"))


@pytest.fixture(scope="session")
def dynamic_tool(tool, tmp_path_factory):
    return linked(tool, tmp_path_factory.mktemp("dynamic"))


@pytest.fixture(scope="session")
def probe(built, rt1553):
    """The program of crates/probes of the same compiler."""
    found = built / "crates/probes/out" / ("probes" if rt1553.name == "rt1553" else "probes.by-rattle")
    if not found.exists():
        pytest.skip("only `rt ci` builds the crate probes")
    return found


@pytest.fixture
def strike(shim, tmp_path):
    """Runs a program with a fault, such as REFUSE_READ=3: what it gives, and whether it met the fault."""
    mark = tmp_path / "mark"

    def play(program, words, stdin="", **faults):
        mark.unlink(missing_ok=True)
        variables = {"LD_PRELOAD": str(shim), "REFUSE_MARK": str(mark), **{name: str(it) for name, it in faults.items()}}
        return run(program, *words.split(), stdin=stdin, folder=tmp_path, **variables), mark.exists()

    return play


@pytest.fixture
def strikes(strike):
    """Runs a program with each call refused in turn, until a run meets no refusal: the number of the call, what it gives, whether it met it."""

    def play(program, words, fault, most, stdin=""):
        for number in range(1, most):
            given, struck = strike(program, words, stdin, **{fault: number})
            yield number, given, struck
            if not struck:
                return
        pytest.fail(f"more than {most} calls")

    return play


def check_growths(program, strikes, row, folder):
    """Refuses each growth of memory in turn: the answer is the ample one, or `out of memory`. Gives how many there are."""
    write_files(folder, row.files)
    ample = run(program, *row.words.split(), stdin=row.stdin, folder=folder)
    for number, given, struck in strikes(program, row.words, "REFUSE_GROWTH", MOST_GROWTHS, row.stdin):
        assert given == ample or struck and given == OUT_OF_MEMORY, f"growth {number}"
    assert number > 1
    return number


@pytest.mark.parametrize("row", GROWTH_ROWS, ids=lambda it: it.name)
def test_growths(dynamic, strikes, row, tmp_path, count_runs):
    count_runs(check_growths(dynamic, strikes, row, tmp_path))


@pytest.mark.parametrize("row", TOOL_GROWTH_ROWS, ids=lambda it: it.name)
def test_growths_of_tool(dynamic_tool, strikes, row, tmp_path, count_runs):
    count_runs(check_growths(dynamic_tool, strikes, row, tmp_path))


def test_growths_of_each_call(probe, strikes, tmp_path, count_runs):
    """The calls of the library: just lines that are not about a canonical text may say `Memory`."""
    ample = run(probe, "growths", folder=tmp_path)
    for number, given, struck in strikes(probe, "growths", "REFUSE_GROWTH", MOST_GROWTHS):
        assert (given.status, given.errors) == (0, b""), f"growth {number}"
        for line, wanted in zip(given.output.decode().splitlines(), ample.output.decode().splitlines()):
            assert line == wanted or line in MEMORY_LINES, f"growth {number}"
    assert number > 1 and given == ample
    count_runs(number)


def test_changed_canonical_texts(probe):
    """Each byte of three canonical texts changed to each other value."""
    assert run(probe, "changes", timeout=600).output == ACCEPTED_CHANGES


@pytest.mark.parametrize("fault, words, errors", FAILING_ROWS, ids=[f"{it[0]} {it[1]}" for it in FAILING_ROWS])
def test_first_call_fails(dynamic, strike, fault, words, errors, tmp_path):
    write_files(tmp_path, files_named(words))
    given, _ = strike(dynamic, words, ASK, **{fault: 1})
    assert (given.status, given.errors) == (4, errors.encode())


def test_compare_with_failing_reads(dynamic, strikes, tmp_path, count_runs):
    """First the reads of the one file fail, then those of the other."""
    write_files(tmp_path, files_named("five six"))
    *refused, (number, last, _) = strikes(dynamic, "compare five six", "REFUSE_READ", 50)
    told = [it.errors for _, it, _ in refused]
    assert {(it.status, it.output) for _, it, _ in refused} == {(4, b"")}
    assert told == sorted(told) and set(told) == {b"file: cannot read five\n", b"file: cannot read six\n"}
    assert last.status == 1
    count_runs(number)


@pytest.mark.parametrize("size", (1, 2))
@pytest.mark.parametrize("kind", KINDS)
@pytest.mark.parametrize("words", ("check five", "canon five", "compare five also-five", "compare five six"))
def test_few_bytes_at_once(dynamic, strike, words, kind, size, tmp_path):
    write_files(tmp_path, files_named(words))
    ample = run(dynamic, *words.split(), stdin=ASK, folder=tmp_path)
    assert strike(dynamic, words, ASK, **{f"SHORT_{kind}": size}) == (ample, True)


def test_run_with_failing_reads(dynamic, strikes, tmp_path, count_runs):
    """First the reads of the profile fail. Then, of the script, the answers to the lines before stand: at the end, all of them."""
    write_files(tmp_path, LONG)
    *refused, (number, last, _) = strikes(dynamic, "run five script", "REFUSE_READ", MOST_CALLS)
    told = [it.errors for _, it, _ in refused]
    files, scripts = (told.count(it) for it in (b"file: cannot read five\n", READ_FAILED.encode()))
    assert told == [b"file: cannot read five\n"] * files + [READ_FAILED.encode()] * scripts and files >= 1 and scripts >= 2
    assert {it.status for _, it, _ in refused} == {4}
    outputs = [it.output for _, it, _ in refused]
    assert outputs[:files] == [b""] * files and [len(it) for it in outputs] == sorted(len(it) for it in outputs)
    assert all(LONG_TRANSCRIPT.startswith(it) and it[-1:] in (b"", b"\n") for it in outputs) and outputs[-1] == LONG_TRANSCRIPT
    assert last == (0, LONG_TRANSCRIPT, b"")
    count_runs(number)


def test_run_with_failing_writes(dynamic, strikes, tmp_path, count_runs):
    """Where a write of the transcript fails, not all of it stands."""
    write_files(tmp_path, LONG)
    *refused, (number, last, _) = strikes(dynamic, "run five script", "REFUSE_WRITE", MOST_CALLS)
    assert {(it.status, it.errors) for _, it, _ in refused} == {(4, LOST.encode())}
    assert all(LONG_TRANSCRIPT.startswith(it.output) and it.output != LONG_TRANSCRIPT for _, it, _ in refused)
    assert number > 2 and (last.status, last.output) == (0, LONG_TRANSCRIPT)
    count_runs(number)


@pytest.mark.parametrize("size", (1, 2, 3, 7, 63))
@pytest.mark.parametrize("kind", KINDS)
def test_run_with_few_bytes_at_once(dynamic, strike, kind, size, tmp_path):
    write_files(tmp_path, LONG)
    assert strike(dynamic, "run five script", **{f"SHORT_{kind}": size}) == ((0, LONG_TRANSCRIPT, b""), True)


@pytest.mark.parametrize("kind", KINDS)
def test_run_interrupted(dynamic, strikes, kind, tmp_path, count_runs):
    """A read or a write that a signal interrupts is tried again."""
    write_files(tmp_path, LONG)
    for number, given, _ in strikes(dynamic, "run five script", f"INTERRUPT_{kind}", MOST_CALLS):
        assert given == (0, LONG_TRANSCRIPT, b""), f"call {number}"
    assert number > 1
    count_runs(number)
