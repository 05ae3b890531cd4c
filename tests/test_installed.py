"""What `make install` and `make deb` leave, of a copy of the clone that has the programs in bin/, and the example of a check in CI."""

import os
import shutil

import manual
import pytest
from programs import TOP, run, succeed, write_files

pytestmark = pytest.mark.usefixtures("clone_as_it_was")
# what the two targets read
COPIED = """CHANGELOG.md SECURITY.md Makefile README.md docs editors examples manual scripts crates/rt1553_tool_args/src""".split()
# what they leave, in share/
INSTALLED = """man/man1/rt1553.1 man/man1/rt1553-tool.1 man/man5/rt1553-script.5 man/man5/rt1553-profile.5
bash-completion/completions/rt1553-tool zsh/site-functions/_rt1553 fish/vendor_completions.d/rt1553.fish
rt1553/profile.schema.json rt1553/acceptance.schema.json rt1553/editors/vim/syntax/rt1553script.vim
doc/rt1553/README.md doc/rt1553/SECURITY.md doc/rt1553/docs/tutorial.md""".split()
PACKAGED = """man/man1/rt1553.1.gz man/man1/rt1553-tool.1.gz man/man5/rt1553-script.5.gz man/man5/rt1553-profile.5.gz
bash-completion/completions/rt1553 zsh/vendor-completions/_rt1553-tool fish/vendor_completions.d/rt1553-tool.fish
rt1553/profile.schema.json doc/rt1553/changelog.gz doc/rt1553/README.md doc/rt1553/docs/tutorial.md
doc/rt1553/examples/profiles/sensor.toml""".split()
CHECK = TOP / "examples/ci/check-profiles.sh"


def copy_to(folder, programs=()):
    """Makes a copy of what the targets read, with these programs in bin/."""
    for name in COPIED:
        (folder / name).parent.mkdir(parents=True, exist_ok=True)
        (shutil.copytree if (TOP / name).is_dir() else shutil.copy)(TOP / name, folder / name)
    for program in programs:
        (folder / "bin").mkdir(exist_ok=True)
        shutil.copy(program, folder / "bin" / program.name)
    return folder


def files_below(folder):
    """The files that are left in a folder."""
    return [it for it in folder.rglob("*") if not it.is_dir()]


def check_answers(folder):
    """The programs of a folder answer with an empty environment."""
    assert run("env", "-i", folder / "rt1553", stdin="A c 2c02\nA gap\nslot\n") == (0, b"A s 2800\n", b"")
    assert run("env", "-i", folder / "rt1553-tool", "words", stdin="c 2c02\n") == (0, b"mode 5 2 tx # transmit status word\n", b"")


@pytest.fixture(scope="session")
def clone(tmp_path_factory, shipped):
    """A copy of the clone."""
    return copy_to(tmp_path_factory.mktemp("clone"), (shipped.rt1553, shipped.tool))


# --- make install


@pytest.fixture(scope="session")
def prefix(clone, tmp_path_factory):
    """What `make install` leaves."""
    to = tmp_path_factory.mktemp("prefix")
    succeed("make", "--silent", "install", f"PREFIX={to}", folder=clone)
    return to


def test_make_install_asks_for_what_is_built(tmp_path):
    given = run("make", "--silent", "install", f"PREFIX={tmp_path}/prefix", folder=copy_to(tmp_path / "clone"))
    assert given.status != 0 and b"run 'make tool' first" in given.output + given.errors
    assert not (tmp_path / "prefix").exists()


def test_installed_programs_answer(prefix):
    check_answers(prefix / "bin")


@pytest.mark.parametrize("name", INSTALLED)
def test_make_install_leaves(name, prefix):
    assert (prefix / "share" / name).stat().st_size > 0


def test_make_uninstall_leaves_nothing(clone, tmp_path):
    for target in ("install", "uninstall"):
        succeed("make", "--silent", target, f"PREFIX={tmp_path}", folder=clone)
        assert (target == "uninstall") == (files_below(tmp_path) == [])
    assert not (tmp_path / "share/rt1553").exists() and not (tmp_path / "share/doc/rt1553").exists()


# --- make deb


@pytest.fixture(scope="session")
def package(clone):
    """What `make deb` leaves."""
    return clone / succeed("make", "--silent", "deb", folder=clone).decode().rstrip("\n")


def dpkg(root, *words):
    """Runs dpkg in a root that has nothing else."""
    forced = ("--force-not-root", "--force-bad-path", "--force-depends")
    return succeed("dpkg", f"--root={root}", "--log=/dev/null", *forced, *words)


def install_package(package, root):
    """Installs the package in a new root."""
    (root / "var/lib/dpkg/updates").mkdir(parents=True)
    (root / "var/lib/dpkg/info").mkdir()
    (root / "var/lib/dpkg/status").touch()
    dpkg(root, "--install", package)
    return root


@pytest.fixture(scope="session")
def root(package, tmp_path_factory):
    """A root in which the package is installed."""
    return install_package(package, tmp_path_factory.mktemp("root"))


def field_of(package, name):
    """A field of the package."""
    return succeed("dpkg-deb", "-f", package, name).decode().rstrip("\n")


def test_package_is_named_by_its_version(package):
    assert package.name.startswith(f"rt1553_{manual.version()[0]}_") and package.suffix == ".deb" and package.stat().st_size > 0


def test_package_has_the_version_of_the_program(package, shipped):
    said = succeed("env", "-i", shipped.tool, "--version").decode()
    assert said.startswith(f"rt1553-tool {field_of(package, 'Version')} (canonical text ")


def test_package_of_the_programs_depends_on_nothing(package):
    assert field_of(package, "Depends") == ""


def test_programs_of_the_package_answer(root):
    check_answers(root / "usr/bin")


@pytest.mark.parametrize("name", PACKAGED)
def test_package_has(name, root):
    assert (root / "usr/share" / name).stat().st_size > 0


def test_examples_of_the_package_are_played(root):
    examples = root / "usr/share/doc/rt1553/examples"
    played = run("env", "-i", root / "usr/bin/rt1553", "run", examples / "profiles/sensor.toml", examples / "scripts/poll.script")
    assert played == (0, (examples / "scripts/poll.transcript").read_bytes(), b"")


@pytest.mark.parametrize("name", ["profiles/sensor.toml", "validation/profiles/full.toml"])
def test_profile_of_the_package_names_the_schema(name, root):
    path = root / "usr/share/doc/rt1553/examples" / name
    mark, schema = path.read_text(encoding="utf-8").split("\n")[0].split(" ")
    assert (mark, (path.parent / schema).resolve()) == ("#:schema", root.resolve() / "usr/share/rt1553/profile.schema.json")


def test_package_is_removed_and_leaves_nothing(package, tmp_path):
    root = install_package(package, tmp_path)
    assert files_below(root / "usr") != []
    dpkg(root, "--purge", "rt1553")
    assert files_below(root / "usr") == []


# --- the check in CI


@pytest.fixture
def check(shipped, tmp_path, monkeypatch):
    """Runs the script of the check over a folder of profiles with these files."""
    (tmp_path / "tools").mkdir()
    (tmp_path / "tools/rt1553-tool").symlink_to(shipped.tool)
    (tmp_path / "profiles").mkdir()
    monkeypatch.setenv("PATH", str(tmp_path / "tools"), prepend=os.pathsep)

    def checked(files):
        write_files(tmp_path / "profiles", files)
        given = run("bash", CHECK, tmp_path / "profiles")
        return given.status, given.output.decode().replace(f"{tmp_path}/profiles", "PROFILES").splitlines()

    return checked


def test_workflow_runs_the_script():
    assert "      - run: bash check-profiles.sh profiles" in CHECK.with_name("profiles.yml").read_text(encoding="utf-8").split("\n")


def test_check_is_a_script():
    succeed("bash", "-n", CHECK)


def test_check_tells_that_there_is_no_profile(check):
    status, lines = check({})
    assert status == 1 and any(it.startswith("::error::there is no profile in ") for it in lines), lines


UNTESTED = {"alone.script": "A gap\n", "one.toml": "address = 5\n"}


def test_check_tells_of_a_script_without_its_profile(check):
    status, lines = check(UNTESTED)
    assert status == 1 and any(it.startswith("::error file=PROFILES/alone.toml::cannot read it") for it in lines), lines


def test_check_warns_of_a_profile_that_nothing_tests(check):
    assert "::warning file=PROFILES/one.toml::it has neither a script nor a canonical text of its name" in check(UNTESTED)[1]


# a name that would be a command of its own, and one with what separates the properties of an annotation
SHY = "a\n::warning::b"
ODD = "c,d:e%f|g&h"


def test_check_escapes_the_names_of_files(check):
    files = {f"{SHY}.toml": "address = 5\n", f"{ODD}.toml": "address = 5\n", f"{ODD}.rt1553": "address = 6\n"}
    status, lines = check(files)
    assert status == 1 and all(it.startswith(("::warning file=PROFILES/", "::error file=PROFILES/")) for it in lines), lines
    assert "::warning file=PROFILES/a%0A%3A%3Awarning%3A%3Ab.toml::it has neither a script nor a canonical text of its name" in lines
    assert any(it.startswith("::error file=PROFILES/c%2Cd%3Ae%25f|g&h.toml::") for it in lines), lines


def test_check_escapes_the_name_of_a_folder(shipped, tmp_path):
    given = run("bash", CHECK, tmp_path / "x\n::warning::y", PATH=f"{shipped.tool.parent}{os.pathsep}{os.environ['PATH']}")
    assert (given.status, given.output.decode()) == (1, f"::error::there is no profile in {tmp_path}/x%0A::warning::y\n")
