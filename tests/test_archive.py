"""The archive of `make dist`, unpacked where nothing else of this repository is.

Its commands run with an empty environment, a home of their own and no toolchain in PATH: the sessions of its pages where it is installed,
with the wheel, and the sessions in the unpacked folder. As root the programs run where nothing else is. No file of the archive names a
folder of this machine, and where there is strace no session opens a file of the repository.
"""

import functools
import re
import shutil
import subprocess

import manual
import pytest
from programs import TOP, passed_in, run, succeed

pytestmark = pytest.mark.gate
PREFIX = "/opt/terminal"
NAME = f"rt1553-{manual.version()[0]}-linux-x86_64"
# where sessions are played, and the pages
SESSIONS = {"installed": ("README.md", "docs/tutorial.md", "docs/library.md"),
            "unpacked": ("README.txt", "README.md", "docs/tutorial.md", "docs/library.md")}  # fmt: skip
PROGRAMS = ("rt1553", "rt1553-tool")
# the libraries that each file in bin/ needs
NEEDED = {"rt1553": [], "rt1553-tool": [], "library/lib/librt1553.so.0": ["libc.so.6"]}


@functools.lru_cache
def path():
    """PATH without a toolchain."""
    python = succeed("python3", "-c", "import os, sys; print(os.path.dirname(sys.executable))").decode().strip()
    return f"{python}:{succeed('rustc', '--print', 'sysroot').decode().strip()}/bin:/usr/bin:/bin"


def alone(home, *variables):
    """The words before a command that runs with these variables alone, and a home in which it begins."""
    home.mkdir(exist_ok=True)
    return "env", "-i", "-C", home, f"HOME={home}", "LC_ALL=C.UTF-8", f"PATH={path()}", *variables


@pytest.fixture(scope="session")
def archive(once, built, library, page):
    """The archive."""
    words = ("bash", TOP / "scripts/dist.sh", built)
    return once("archive", lambda folder: succeed(*words, folder, SOURCE_DATE_EPOCH="1000000000", timeout=300)) / f"{NAME}.tar.gz"


def unpack(archive, folder):
    """Unpacks the archive in a folder."""
    succeed("tar", "-x", "-f", archive, "-C", folder)
    return folder / NAME


@pytest.fixture(scope="session")
def unpacked(once, archive):
    """The unpacked archive."""
    return once("unpacked", lambda folder: unpack(archive, folder)) / NAME


def files_in(folder):
    """The files of a folder."""
    return sorted(it for it in folder.rglob("*") if it.is_symlink() or not it.is_dir())


# --- what is received is what was made


def test_name_and_that_all_make_the_same(archive, built, tmp_path):
    """Whenever and by whomever it is made."""
    again = ("bash", "-c", 'umask 077; exec bash "$@"', "bash", TOP / "scripts/dist.sh", built, tmp_path)
    name = succeed(*again, TZ="Asia/Tokyo", LC_ALL="C", SOURCE_DATE_EPOCH="1000000000", timeout=300).decode()
    assert name == f"{tmp_path}/{NAME}.tar.gz\n"
    assert (tmp_path / archive.name).read_bytes() == archive.read_bytes()


def test_checksum_beside_the_archive(archive, tmp_path):
    succeed(*alone(tmp_path), "env", "-C", archive.parent, "sha256sum", "--strict", "-c", f"{archive}.sha256")


def test_one_folder_of_its_name(unpacked):
    assert [*unpacked.parent.iterdir()] == [unpacked]


def test_files_are_those_of_its_checksums(unpacked):
    named = [line[66:] for line in (unpacked / "SHA256SUMS").read_text(encoding="utf-8").splitlines()]
    assert sorted([*named, "SHA256SUMS"]) == sorted(str(it.relative_to(unpacked)) for it in files_in(unpacked))


def test_no_file_names_a_folder_of_this_machine(unpacked, built):
    """A repository right below the root has a name that other paths have too."""
    places = [f"{it}/".encode() for it in {built, TOP} if it == built or it.parent.name]
    assert [it for it in files_in(unpacked) if it.is_file() and any(place in it.read_bytes() for place in places)] == []


@pytest.mark.parametrize("name", NEEDED)
def test_needed_libraries(name, unpacked):
    said = succeed("objdump", "-p", unpacked / "bin" / name).decode()
    assert re.findall(r"^ *NEEDED +(\S+)$", said, re.MULTILINE) == NEEDED[name]


def test_no_toolchain_is_there(tmp_path):
    assert run(*alone(tmp_path), "bash", "-c", "command -v rt") == (1, b"", b"")


@pytest.mark.parametrize("name", PROGRAMS)
def test_program_is_linked_again(name, unpacked, tmp_path):
    """The page says how, in a line that begins in the unpacked folder."""
    shutil.copytree(unpacked / "objects", tmp_path / "objects")
    page = (unpacked / "README.txt").read_text(encoding="utf-8")
    (line,) = re.findall(rf"^    (gcc .* -o {name} .*)$", page, re.MULTILINE)
    succeed(*alone(tmp_path / "home"), "env", "-C", tmp_path, "bash", "-c", line)
    assert (tmp_path / name).read_bytes() == (unpacked / "bin" / name).read_bytes()


# --- the programs where nothing else is, as Containerfile puts them there


@pytest.fixture
def bare(unpacked, tmp_path):
    """A root with the programs and the examples alone."""
    if subprocess.run(["chroot", "/", "true"], stderr=subprocess.DEVNULL, check=False).returncode:
        pytest.skip("to run the programs where nothing else is takes root")
    (tmp_path / "bin").mkdir()
    for name in PROGRAMS:
        shutil.copy(unpacked / "bin" / name, tmp_path / "bin")
    shutil.copytree(unpacked / "examples", tmp_path / "examples")
    return tmp_path


def test_rt1553_answers_where_nothing_else_is(bare):
    assert run("chroot", bare, "/bin/rt1553", stdin="A c 2c02\nA gap\nslot\n") == (0, b"A s 2800\n", b"")


def test_rt1553_reads_files_there(bare):
    played = run("chroot", bare, "/bin/rt1553", "run", "examples/profiles/sensor.toml", "examples/scripts/poll.script")
    assert played == (0, (bare / "examples/scripts/poll.transcript").read_bytes(), b"")


def test_tool_answers_there(bare):
    assert run("chroot", bare, "/bin/rt1553-tool", "words", stdin="c 2c02\n") == (0, b"mode 5 2 tx # transmit status word\n", b"")


# --- installed in an empty root


def install(unpacked, folder, word="install"):
    """Installs the archive in a root in a folder, or removes it."""
    variables = f"DESTDIR={folder}/root", f"PREFIX={PREFIX}"
    succeed(*alone(folder / "home", *variables), "bash", unpacked / "scripts/install.sh", word)
    return folder / f"root{PREFIX}"


@pytest.fixture(scope="session")
def place(unpacked, tmp_path_factory):
    """Where the archive is installed."""
    return install(unpacked, tmp_path_factory.mktemp("place"))


def test_man_pages_are_installed(place):
    found = sorted(str(it.relative_to(place / "share/man")) for it in files_in(place / "share/man"))
    assert found == ["man1/rt1553-tool.1", "man1/rt1553.1", "man5/rt1553-profile.5", "man5/rt1553-script.5"]


def test_pkg_config_file_names_the_place(place):
    assert f"prefix={PREFIX}" in (place / "lib/pkgconfig/rt1553.pc").read_text(encoding="utf-8").split("\n")


def test_program_is_linked_with_the_installed_library_and_runs(place, unpacked, tmp_path):
    flags = [f"-I{place}/include", f"-L{place}/lib", "-lrt1553"]
    if shutil.which("pkg-config"):
        sysroot = str(place).removesuffix(PREFIX)
        where = {"PKG_CONFIG_SYSROOT_DIR": sysroot, "PKG_CONFIG_PATH": f"{place}/lib/pkgconfig"}
        flags = succeed("pkg-config", "--cflags", "--libs", "rt1553", **where).decode().split()
    succeed(*alone(tmp_path / "home"), "cc", "-o", tmp_path / "first", unpacked / "examples/library/first.c", *flags)
    assert run(*alone(tmp_path / "home", f"LD_LIBRARY_PATH={place}/lib"), tmp_path / "first") == (0, b"A s 2800\n", b"")


def test_it_is_removed_and_leaves_nothing(unpacked, tmp_path):
    install(unpacked, tmp_path)
    assert files_in(tmp_path / "root") != []
    install(unpacked, tmp_path, "uninstall")
    assert files_in(tmp_path / "root") == []


# --- the sessions of its pages


def used_in(folder, unpacked):
    """A folder as the pages see it, with what stands in a root where the archive is installed."""
    place, used = install(unpacked, folder), folder / "used"
    (wheel,) = place.glob("share/rt1553/rt1553-*.whl")
    words = ("python3", "-m", "pip", "install", "--quiet", "--no-index", "--no-deps", "--target", folder / "python", wheel)
    succeed(*alone(folder / "home"), *words)
    (used / "bin/library").mkdir(parents=True)
    for at, files in {"bin": place.glob("bin/*"), "bin/library": (place / "include", place / "lib"), ".": place.glob("share/doc/rt1553/*")}.items():
        for it in files:
            (used / at / it.name).symlink_to(it)
    (used / "bin/library/python").symlink_to(folder / "python")
    # the crates look for the library in the folder in which they stand
    shutil.copytree(unpacked / "library", used / "library")
    return used


def tracer(log):
    """The words before a command that note in a file which files it opens, where there is strace and it works."""
    words = ("strace", "-f", "-qq", "-A", "-e", "trace=%file", "-o", log)
    works = shutil.which("strace") and run(*words, "true").status == 0
    return words if works else ()


@pytest.fixture(scope="session", params=SESSIONS)
def played(request, once, archive, unpacked):
    """A folder in which sessions were played: `said` has what was told of them, and `opened` the files that they opened."""

    def play(folder):
        top = used_in(folder, unpacked) if request.param == "installed" else unpack(archive, folder)
        shutil.copy(TOP / "tests/sessions.py", folder)
        words = (*tracer(folder / "opened"), "python3", folder / "sessions.py", top, *SESSIONS[request.param])
        (folder / "said").write_bytes(run(*alone(folder / "home"), *words, timeout=1200).output)

    return once(f"sessions-{request.param}", play)


def test_sessions(played, count_runs):
    count_runs(passed_in((played / "said").read_bytes()))


def test_sessions_open_nothing_of_this_repository(played, built):
    if not (played / "opened").exists():
        pytest.skip("there is no strace that works")
    opened = (played / "opened").read_text(encoding="utf-8", errors="replace").splitlines()
    assert opened != [] and [it for it in opened if f'"{TOP}/' in it or f'"{built}/' in it] == []
