"""The library inside programs in C, C++, Python and Rust. tests/test_archive.py tests it where it is installed.

The programs of library/tests count their cases themselves. A player in each language plays the cases of tests/vectors, random messages
and the protocol tests, by the whole text and event by event; and random scripts that are cut, and go on from saved states in another
process.
"""

import shutil
from typing import NamedTuple

import manual
import pytest
from programs import TOP, compiled, passed_by, passed_by_tests, run, succeed

TESTS, EXAMPLES = TOP / "library/tests", TOP / "examples/library"
SANITIZERS = ("-g", "-fsanitize=address,undefined")
REFUSING = ("-Wl,--wrap=malloc,--wrap=realloc,--wrap=free",)
VALGRIND = ("valgrind", "-q", "--error-exitcode=9", "--leak-check=full")
PLAYERS = ("c", "c-checked", "cpp", "cpp-checked", "rust", "python")


class Program(NamedTuple):
    """A program over the library that counts its cases: its source, how it is built, and what it is run under."""

    name: str
    source: str
    flags: tuple = ()
    under: tuple = ()


PROGRAMS = [
    Program("calls in C", "calls.c"),
    Program("calls in C, sanitizers", "calls.c", SANITIZERS),
    Program("calls in C, valgrind", "calls.c", under=VALGRIND),
    Program("buses in C", "buses.c"),
    Program("buses in C, sanitizers", "buses.c", SANITIZERS),
    Program("buses in C, valgrind", "buses.c", under=VALGRIND),
    Program("copies and saved states in C++", "copies.cpp"),
    Program("copies and saved states in C++, sanitizers", "copies.cpp", SANITIZERS),
    Program("copies and saved states in C++, valgrind", "copies.cpp", under=VALGRIND),
    Program("saved states with each byte changed", "changes.c", ("-pthread",)),
    Program("each growth of memory refused in turn", "growths.c", REFUSING),
    Program("each growth of memory refused, valgrind", "growths.c", REFUSING, VALGRIND),
    Program("31 terminals on 31 threads", "threads.c", ("-pthread", "-fsanitize=thread", "-g")),
    Program("the stack that calls take", "stack.c", ("-pthread",)),
]
# a program in Python, and variables: bytes around each block of memory are looked at when it is freed, and what is freed is overwritten
IN_PYTHON = {"package.py": {}, "bus.py": {}, "model_buses.py": {}, "misuse.py": {"PYTHONMALLOC": "debug", "MALLOC_PERTURB_": "85"}}


def is_checked(program):
    """Whether it runs under a checker, which takes long."""
    return bool(program.under) or any("-fsanitize" in it for it in program.flags)


def static(library):
    """The static library."""
    return library / "lib/librt1553.a"


@pytest.mark.parametrize("program", [pytest.param(it, marks=[pytest.mark.gate] * is_checked(it)) for it in PROGRAMS], ids=lambda it: it.name)
def test_program(program, library, tmp_path, count_runs):
    if program.under and not shutil.which(program.under[0]):
        pytest.skip(f"there is no {program.under[0]}")
    compiled(TESTS / program.source, tmp_path / "program", library, static(library), *program.flags)
    count_runs(passed_by(*program.under, tmp_path / "program"))


def test_shared_library_has_the_calls_of_the_header_and_no_other_name(library):
    names = [it.split()[2] for it in succeed("nm", "-D", "--defined-only", library / "lib/librt1553.so").decode().splitlines()]
    assert names != [] and [it for it in names if not it.startswith("rt1553_")] == []


# --- Python


@pytest.fixture(scope="session")
def package(once, library):
    """The folder in which the wheel is installed."""
    (wheel,) = library.glob("*.whl")
    words = ("python3", "-m", "pip", "install", "--quiet", "--no-index", "--no-deps", "--target")
    return once("package", lambda folder: succeed(*words, folder, wheel))


@pytest.fixture
def in_python(package, monkeypatch):
    """What python3 starts with has the package."""
    monkeypatch.setenv("PYTHONPATH", str(package))
    monkeypatch.setenv("PYTHONDONTWRITEBYTECODE", "1")


@pytest.mark.parametrize("name", ["rt1553", "rt1553.bus"])
def test_docstrings(name, in_python):
    succeed("python3", "-c", f"import doctest, {name}, sys; sys.exit(doctest.testmod({name}).failed)")


@pytest.mark.skipif(not shutil.which("mypy"), reason="there is no mypy")
def test_types_of_the_package_and_of_the_examples(package, in_python, tmp_path):
    succeed("mypy", "--strict", "--cache-dir", tmp_path, package / "rt1553", *sorted(EXAMPLES.glob("*.py")), timeout=300)


@pytest.mark.parametrize("name", IN_PYTHON)
def test_package(name, in_python, count_runs):
    count_runs(passed_by("python3", TESTS / name, **IN_PYTHON[name]))


def test_version_of_the_library(in_python):
    said = succeed("python3", "-c", 'import rt1553; print("{}.{}".format(*rt1553.version()))')
    assert said.decode() == f"{manual.version()[0]}\n"


# --- Rust


@pytest.fixture(scope="session")
def cargo(once, library):
    """Runs cargo over a copy of the crates, in which the examples are built."""
    variables = {"RT1553_LIB_DIR": str(library / "lib"), "CARGO_NET_OFFLINE": "true"}

    def run_in(folder, word, *more):
        place = ("--manifest-path", folder / "crates/Cargo.toml")
        succeed("cargo", word, "--quiet", "--locked", *more, *place, timeout=600, CARGO_TARGET_DIR=str(folder / "target"), **variables)
        return folder / "target/debug/examples"

    def make(folder):
        shutil.copytree(TOP / "library/rust", folder / "crates")
        run_in(folder, "build", "--examples")

    folder = once("rust", make)
    return lambda *words: run_in(folder, *words)


def test_crates(cargo):
    cargo("test")


# --- the same texts and scripts in each language


@pytest.fixture(scope="session")
def player(once, library, request):
    """The player of a name, as a program with the words of `rt1553`."""

    def make(name, to):
        if name == "rust":
            shutil.copy(request.getfixturevalue("cargo")("build", "--examples") / "player", to)
        elif name == "python":
            python = succeed("python3", "-c", "import sys; print(sys.executable)").decode().strip()
            to.write_text(f'#!/bin/sh\nexport PYTHONPATH="{request.getfixturevalue("package")}"\nexec {python} -B {TESTS}/player.py "$@"\n')
            to.chmod(0o755)
        else:
            language, _, checked = name.partition("-")
            compiled(TESTS / f"player.{language}", to, library, static(library), *SANITIZERS * bool(checked))

    return lambda name: once(f"player-{name}", lambda folder: make(name, folder / "player")) / "player"


@pytest.fixture
def cases(once, package, in_python):
    """The folder of further cases, and how many of them the package plays as the model does."""

    def make(folder):
        (folder / "cases").mkdir()
        (folder / "count").write_text(str(passed_by("python3", TESTS / "cases.py", folder / "cases")))

    folder = once("cases", make)
    return folder / "cases", int((folder / "count").read_text())


def test_package_plays_as_the_model(cases, count_runs):
    count_runs(cases[1])


def test_rt1553_plays_the_cases(cases, rt1553, count_runs):
    count_runs(passed_by("python3", TESTS / "vectors.py", cases[0], rt1553))


@pytest.mark.parametrize("name", PLAYERS)
def test_player_plays_the_cases(name, cases, player, count_runs):
    count_runs(passed_by("python3", TESTS / "vectors.py", cases[0], player(name)))


@pytest.mark.gate
@pytest.mark.parametrize("name", PLAYERS)
def test_player_plays_the_protocol_tests(name, player, shipped, tmp_path, count_runs):
    (tmp_path / "bin").mkdir()
    (tmp_path / "bin/rt1553").symlink_to(player(name))
    (tmp_path / "bin/rt1553-tool").symlink_to(shipped.tool)
    count_runs(passed_by_tests("test_protocol.py", "-k", "test_script", f"--built={tmp_path}"))


def test_cut_scripts(player, tmp_path, count_runs):
    names = ("c", "cpp", "python", "rust")
    count_runs(passed_by("python3", TESTS / "states.py", tmp_path, *map(player, names)))


# --- the examples, and the page of the library


def test_example_in_c(library, tmp_path):
    program = compiled(EXAMPLES / "bus31.c", tmp_path / "bus31", library, static(library))
    assert run(program) == (0, (EXAMPLES / "bus31.transcript").read_bytes(), b"")


@pytest.mark.parametrize("name", ["bus31", "two_terminals", "poll31", "controller_test", "five_units"])
def test_example_in_python(name, in_python):
    assert run("python3", EXAMPLES / f"{name}.py") == (0, (EXAMPLES / f"{name}.transcript").read_bytes(), b"")


def test_saved_simulation(in_python, tmp_path):
    """The first call begins the simulation, and the second goes on with it."""
    printed = b"".join(succeed("python3", EXAMPLES / "saved_simulation.py", tmp_path / "simulation") for _ in range(2))
    assert printed == (EXAMPLES / "saved_simulation.transcript").read_bytes()


def test_sessions_of_the_page(library, in_python, tmp_path, count_runs):
    (tmp_path / "page/bin").mkdir(parents=True)
    (tmp_path / "page/bin/library").symlink_to(library)
    for name in ("docs", "examples", "library"):
        (tmp_path / "page" / name).symlink_to(TOP / name)
    rust = {"CARGO_TARGET_DIR": str(tmp_path / "target"), "CARGO_NET_OFFLINE": "true", "RT1553_LIB_DIR": str(library / "lib")}
    count_runs(passed_by("python3", TOP / "tests/sessions.py", tmp_path / "page", "docs/library.md", **rust))
