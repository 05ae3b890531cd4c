"""What is built for ARM64, under qemu. All answers are those that are wanted of what is built for x86-64.

The library runs its tests in C and C++, those of the calls over the shared library too; players in C and C++ play the cases of
tests/vectors and the examples; and states that the library for x86-64 saves are restored on ARM64, and the other way round. The C of
library/aarch64 is compared with the toolchain's own for x86-64.

With TARGET=aarch64 (`make test TARGET=aarch64`) the library is that of the archive, whose programs play the texts and command lines of
tests/test_texts.py, the cases and examples and the protocol tests; the Debian package is made too. Without it this is left out, since the
programs are proved again for it.

Not tried: most of what tests/test_tool_*.py try; the library in Python and Rust, which take those for ARM64; sanitizers and valgrind;
refused memory, failing reads and failing writes of the programs; canonical texts damaged everywhere, and saved states with each byte
changed, which take long.
"""

import os
import re
import shlex
import shutil

import manual
import pytest
from programs import TOP, compiled, passed_by, passed_by_tests, run, succeed

TARGET = "aarch64"
pytestmark = pytest.mark.gate if not os.environ.get("TARGET") else []
HAS_PROGRAMS = os.environ.get("TARGET") == TARGET
of_programs = pytest.mark.skipif(not HAS_PROGRAMS, reason="the programs are proved again for it: make test TARGET=aarch64")
TESTS, CROSS = TOP / "library/tests", "aarch64-linux-gnu-"
NAME = f"rt1553-{manual.version()[0]}-linux-{TARGET}"
NEEDED = ["rt", "python3", "cc", f"{CROSS}gcc", f"{CROSS}g++", "qemu-aarch64", "dpkg-deb", "dpkg-shlibdeps"]


@pytest.fixture(scope="session", autouse=True)
def tools(once):
    """The tools are there: those that are missing are installed."""
    once("tools-arm64", lambda _: succeed("bash", TOP / "scripts/need.sh", *NEEDED, timeout=1200))


@pytest.fixture(autouse=True)
def c_library(monkeypatch):
    """Where qemu finds the C library of programs that do not hold it."""
    monkeypatch.setenv("QEMU_LD_PREFIX", "/usr/aarch64-linux-gnu")


@pytest.fixture(scope="session")
def left(once, tools, made, built):
    """What `make deb` and `make dist` leave for ARM64, and the unpacked archive."""

    def make(folder):
        made("library", "library", TARGET)
        succeed("python3", TOP / "scripts/build.py", "tool", TARGET=TARGET, timeout=3600)
        succeed("bash", TOP / "scripts/deb.sh", folder, TARGET=TARGET)
        succeed("bash", TOP / "scripts/dist.sh", built, folder, TARGET=TARGET)
        succeed("tar", "-x", "-f", folder / f"{NAME}.tar.gz", "-C", folder)

    return once("left-arm64", make)


@pytest.fixture(scope="session")
def unpacked(left):
    """The unpacked archive."""
    return left / NAME


@pytest.fixture(scope="session")
def library_arm64(tools, made, request):
    """The library for ARM64: that of the archive, where there is one."""
    return request.getfixturevalue("unpacked") / "bin/library" if HAS_PROGRAMS else made("library", "library", TARGET)


def under_qemu(program, to):
    """A program for ARM64 as one of this machine."""
    to.write_text(f'#!/bin/sh\nexec qemu-aarch64 {shlex.quote(str(program))} "$@"\n', encoding="utf-8")
    to.chmod(0o755)
    return to


# --- the package and the archive


@of_programs
def test_debian_package(left):
    (package,) = left.glob("*.deb")
    assert succeed("dpkg-deb", "-f", package, "Architecture", "Depends").decode() == "Architecture: arm64\nDepends: libc6\n"


@of_programs
def test_archive_is_whole(unpacked):
    assert succeed("sha256sum", "--quiet", "-c", "SHA256SUMS", folder=unpacked) == b""


@of_programs
def test_all_code_in_it_is_for_arm64(unpacked):
    said = run("readelf", "-h", *(it for it in unpacked.rglob("*") if it.is_file() and not it.is_symlink())).output.decode()
    assert set(re.findall(r"^ *Machine: *(.*)$", said, re.MULTILINE)) == {"AArch64"}


@of_programs
@pytest.mark.parametrize("name", ["rt1553", "rt1553-tool"])
def test_program_needs_no_library(name, unpacked):
    assert b"NEEDED" not in succeed("readelf", "-d", unpacked / "bin" / name)


@of_programs
def test_wheel_is_for_arm64(unpacked):
    assert len([*unpacked.glob("bin/library/rt1553-*-manylinux_2_17_aarch64.whl")]) == 1


# --- the programs


@pytest.fixture(scope="session")
def programs(unpacked, tmp_path_factory):
    """A folder in whose bin/ are the programs."""
    folder = tmp_path_factory.mktemp("programs")
    (folder / "bin").mkdir()
    for name in ("rt1553", "rt1553-tool"):
        under_qemu(unpacked / "bin" / name, folder / "bin" / name)
    return folder


@of_programs
@pytest.mark.slow
def test_texts_and_protocol_tests(programs, count_runs):
    tests = ("test_texts.py", "test_protocol.py", "-k", "not damaged_everywhere")
    count_runs(passed_by_tests("-n", "auto", *tests, f"--built={programs}"))


@of_programs
def test_cases_and_examples(programs, tmp_path, count_runs):
    count_runs(passed_by("python3", TESTS / "vectors.py", tmp_path, programs / "bin/rt1553"))


@of_programs
def test_tool_verifies_the_protocol_tests(programs):
    scripts = sorted((TOP / "examples/validation/scripts").glob("*.script"))
    said = succeed(programs / "bin/rt1553-tool", "verify", "--summary", "--profiles", TOP / "examples/validation/profiles", *scripts)
    assert said.decode().endswith("all: 116 of 116 scripts pass\n")


@of_programs
def test_tool_says_what_a_word_means(programs):
    assert run(programs / "bin/rt1553-tool", "words", stdin="c 2c02\n") == (0, b"mode 5 2 tx # transmit status word\n", b"")


# --- the library

STATIC = "{library}/lib/librt1553.a"
# a program over the library that counts its cases: its source, and how it is built
PROGRAMS = {
    "calls.c": ("calls.c", STATIC, "-pthread"),
    "buses.c": ("buses.c", STATIC, "-pthread"),
    "copies.cpp": ("copies.cpp", STATIC, "-pthread"),
    "threads.c": ("threads.c", STATIC, "-pthread"),
    "stack.c": ("stack.c", STATIC, "-pthread"),
    "growths.c": ("growths.c", STATIC, "-Wl,--wrap=malloc,--wrap=realloc,--wrap=free"),
    "calls.c, shared library": ("calls.c", "-L", "{library}/lib", "-lrt1553", "-Wl,-rpath,{library}/lib"),
}


def built_for_arm64(folder, library, source, *flags):
    """Builds a program for ARM64, as one of this machine."""
    program = compiled(TESTS / source, folder / f"{source}.arm64", library, *(it.format(library=library) for it in flags), cross=CROSS)
    return under_qemu(program, folder / source)


@pytest.mark.parametrize("name", PROGRAMS)
def test_program(name, library_arm64, tmp_path, count_runs):
    count_runs(passed_by(built_for_arm64(tmp_path, library_arm64, *PROGRAMS[name])))


@pytest.mark.parametrize("source", ["player.c", "player.cpp"])
def test_player_plays_cases_and_examples(source, library_arm64, tmp_path, count_runs):
    (tmp_path / "none").mkdir()
    count_runs(passed_by("python3", TESTS / "vectors.py", tmp_path / "none", built_for_arm64(tmp_path, library_arm64, source, STATIC)))


def test_cut_scripts(library, library_arm64, tmp_path, count_runs):
    """States go from one processor to the other."""
    players = [compiled(TESTS / "player.c", tmp_path / "player", library, library / "lib/librt1553.a")]
    players += [built_for_arm64(tmp_path, library_arm64, it, STATIC) for it in ("player.c", "player.cpp")]
    (tmp_path / "states").mkdir()
    count_runs(passed_by("python3", TESTS / "states.py", tmp_path / "states", *players))


def test_helpers(tmp_path):
    """What is printed comes in any order, since qemu changes that of the environment."""
    kit = succeed("rt", "doc").decode().strip().rpartition("/")[0]
    source, own = TESTS / "helpers.c", sorted((TOP / "library/aarch64").glob("*.c"))
    succeed(f"{CROSS}gcc", "-O2", "-static", "-o", tmp_path / "arm64", source, *own)
    succeed("cc", "-O2", "-o", tmp_path / "x86-64", source, *(f"{kit}/c/lib{it}_c.a" for it in ("os", "libc")))
    given = [run("env", "-i", "SOME=value", "EMPTY=", *program, "one", "", "eightsss", "ninechars")
             for program in ((shutil.which("qemu-aarch64"), tmp_path / "arm64"), (tmp_path / "x86-64",))]  # fmt: skip
    arm64, x86_64 = ((it.status, sorted(it.output.splitlines())) for it in given)
    assert arm64 == x86_64 and x86_64[1] != []
