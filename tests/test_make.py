"""What `make` says."""

import re
import shutil

import pytest
from programs import TOP, run, succeed

pytestmark = pytest.mark.usefixtures("clone_as_it_was")
TARGETS = "build tool help try check edits library page test bench install uninstall deb dist pages clean".split()


@pytest.mark.parametrize("target", TARGETS)
def test_make_help_tells_of(target):
    assert re.search(rf"^make {target}  *[a-z]", succeed("make", "--silent", "help", folder=TOP).decode(), re.MULTILINE)


def test_missing_tool_is_told_with_what_installs_it(tmp_path):
    (tmp_path / "bash").symlink_to(shutil.which("bash"))
    given = run(tmp_path / "bash", "scripts/need.sh", "rt", "groff", folder=TOP, PATH=str(tmp_path))
    said = (given.output + given.errors).decode().splitlines()
    told = [it for it in said if re.match("missing: rt, .*Rattle", it) or it == "missing; as root: apt-get install groff-base"]
    assert (given.status, len(told)) == (1, 2), said


def test_make_check_tells_the_names_of_crates():
    given = run("make", "--silent", "check", "CRATE=none", folder=TOP)
    assert given.status != 0 and b"bus_word" in given.output + given.errors
