"""What `make` and `make tool` do with what they keep, over a toolchain that proves nothing and takes no time; a linker leaves rt1553 in
place of what it links."""

import os
import pathlib
import re
import shutil
import signal
import subprocess
import sys
import time
from typing import NamedTuple

import pytest
from programs import TOP

pytestmark = pytest.mark.gate
LINE = "a toolchain logic 0123456789abcdef"
SUM = LINE.split()[-1]
RT = f"""#!/bin/sh
case $1 in version) echo "{LINE}";; doc) cd "$(dirname "$0")/../kit" && echo "$PWD/START-HERE.md";; esac
"""
# notes the crate and leaves what was asked for; for the crates that the files slow, broken and killed name it does that first
RATTLE = """#!/usr/bin/env bash
kit=${0%/bin/rattle}
while (($#)); do case $1 in --crate-name) name=$2; shift;; -o) to=$2; shift;; esac; shift; done
echo "$name" >>"$kit/proved"
is() { [[ $name == "$(cat "$kit/$1" 2>/dev/null)" ]]; }
if is slow; then sleep 60 & echo $! >"$kit/sleeps"; wait; fi
if is broken; then echo "fn $name::broken: not proved"; exit 1; fi
if is killed; then rm "$kit/killed"; kill -9 $$; fi
if [[ $to == *.rlib ]]; then mkdir "$to"; cat src/*.rt >"$to/lib"; else echo "$name" >"$to"; fi
echo "logic=proved functions=1 sum=$(cat "$kit/sum") native=nat,char,string logic-built=trusted libraries-built=trusted statements=trusted"
"""
LINK = """#!/usr/bin/env bash
while (($#)); do case $1 in -o) cp "${0%/bin/rattle-link}/program" "$2";; esac; shift; done
"""
# a crate, and what stands on it
CRATE, ABOVE = "tool_profiles", "rt1553_tool_program"
SCRIPTS = {"tools/rt": RT, "kit/bin/rattle": RATTLE, "kit/bin/rattle-link": LINK}
# no gcc, which could link nothing of these
TOOLS = "sh bash cat cp dirname install mkdir mktemp mv rm sleep python3".split()


class Room(NamedTuple):
    """A folder with a clone, a toolchain `kit`, the tools that a build finds, and what is kept."""

    at: pathlib.Path

    def write(self, name, text):
        """Writes a file."""
        (self.at / name).parent.mkdir(parents=True, exist_ok=True)
        (self.at / name).write_text(text, encoding="utf-8")

    def edit(self):
        """Adds a comment to a crate of the clone."""
        with open(self.at / f"clone/crates/{CRATE}/src/lib.rt", "a", encoding="utf-8") as it:
            it.write("// a comment\n")

    def start(self, word="tool", clone="clone", under=(), **more):
        """Starts a build."""
        env = {"PATH": str(self.at / "tools"), "RT1553_KEPT": str(self.at / "kept"), **more}
        # a test in the background of a shell ignores the interrupt, and so would the build
        words = [*under, sys.executable, "scripts/build.py", *word.split()]
        return subprocess.Popen(words, cwd=self.at / clone, env=env, stdin=subprocess.DEVNULL, text=True,
                                stdout=subprocess.PIPE, stderr=subprocess.STDOUT,
                                preexec_fn=lambda: signal.signal(signal.SIGINT, signal.SIG_DFL))  # fmt: skip

    def proved(self):
        """The crates that were proved since this was asked before, in order."""
        file = self.at / "kit/proved"
        found = file.read_text(encoding="utf-8").split() if file.exists() else []
        file.unlink(missing_ok=True)
        return found

    def build(self, word="tool", **more):
        """Builds, and gives the status, what was told, and the crates that were proved."""
        ran = self.start(word, **more)
        said = ran.communicate()[0]
        return ran.returncode, said, self.proved()

    def entry(self, name):
        """Where a crate is kept; one version of it is there."""
        (found,) = [it for it in (self.at / "kept/proved").iterdir() if re.fullmatch(rf"{name}-[0-9a-f]+", it.name)]
        return found


def copy_crates(to):
    """Copies what a build reads."""
    shutil.copytree(TOP / "scripts", to / "scripts", ignore=shutil.ignore_patterns("__pycache__"))
    shutil.copytree(TOP / "crates", to / "crates", ignore=shutil.ignore_patterns("out", "must-fail", "must-not-compile"))
    shutil.copy(TOP / "crates.txt", to)


@pytest.fixture(scope="session")
def first(tmp_path_factory, shipped):
    """A room, and what a build from nothing gave there."""
    room = Room(tmp_path_factory.mktemp("build"))
    for name, text in SCRIPTS.items():
        room.write(name, text)
        (room.at / name).chmod(0o755)
    for name, text in {"WHAT": "what\n", "START-HERE.md": "\n", "sum": SUM}.items():
        room.write(f"kit/{name}", text)
    shutil.copy(shipped.rt1553, room.at / "kit/program")
    for name in TOOLS:
        (room.at / "tools" / name).symlink_to(shutil.which(name))
    copy_crates(room.at / "clone")
    return room, *room.build(RT_JOBS="1")


@pytest.fixture
def room(first, tmp_path):
    """A copy of the room behind that build; it has thousands of files, which don't stay."""
    at = shutil.copytree(first[0].at, tmp_path / "room", symlinks=True)
    yield Room(at)
    shutil.rmtree(at)


# --- a build from nothing


def test_build_from_nothing_proves_each_crate_once(first):
    _, status, said, proved = first
    assert status == 0 and len(proved) > 30 and len({*proved}) == len(proved), said


def test_line_for_each_crate(first):
    _, _, said, proved = first
    assert len(re.findall(rf"(?m)^\[ *\d+/{len(proved)}\] \w+ +proved in 0 min 0\d s$", said)) == len(proved), said


def test_rt1553_is_built_before_any_crate_that_it_does_not_need(first):
    proved = first[-1]
    assert proved.index("rt1553_program") < proved.index("rt1553_differ")


def test_make_proves_what_rt1553_needs_and_plays_the_first_answer(room, first):
    shutil.rmtree(room.at / "kept")
    shutil.rmtree(room.at / "clone/bin")
    status, said, proved = room.build("")
    assert status == 0 and {*proved} == {*first[-1][: first[-1].index("rt1553_program") + 1]} and os.listdir(room.at / "clone/bin") == ["rt1553"]
    assert said.endswith("    $ printf 'A c 2c02\\nA gap\\nslot\\n' | bin/rt1553\n    A s 2800\n")


# --- what is kept


def test_second_build_proves_nothing(room, first):
    count = len(first[-1])
    status, said, proved = room.build()
    assert (status, proved) == (0, []) and f": 0 of {count} crates proved now, {count} before, by" in said, said


def test_page_of_a_crate_is_not_proved(room):
    room.write(f"clone/crates/{CRATE}/README.md", "words\n")
    assert room.build()[2] == []


def test_another_clone_takes_what_is_kept(room):
    copy_crates(room.at / "other")
    assert room.build(clone="other")[2] == []


def test_what_stands_on_an_edited_crate_is_proved(room):
    room.edit()
    assert room.build()[2] == [CRATE, ABOVE]


def test_anew_takes_nothing(room, first):
    assert sorted(room.build(ANEW="1")[2]) == sorted(first[-1])


def test_another_toolchain_proves_all(room, first):
    room.write("kit/WHAT", "something else\n")
    assert sorted(room.build()[2]) == sorted(first[-1])


def test_toolchain_that_built_it_is_named(room):
    assert f'"{LINE}"' in (room.entry("rt1553_tool_args") / "rt1553_tool_args.rlib/lib").read_text(encoding="utf-8")


@pytest.mark.parametrize(("is_there", "builds"), [(True, "bin/rt1553 and bin/rt1553-tool: 0 of"), (False, "bin/rt1553: 0 of")])
def test_what_is_built_is_brought_up_to_date(is_there, builds, room):
    if not is_there:
        (room.at / "clone/bin/rt1553-tool").unlink()
    status, said, proved = room.build("again")
    assert (status, proved) == (0, []) and builds in said, said


def test_version_that_is_new_is_kept_whatever_the_clock_says(room):
    """The versions that were taken last go last, and all of these are of a day to come."""
    for number in range(4):
        at = room.at / f"kept/proved/{CRATE}-{number}"
        at.mkdir()
        os.utime(at, (2**33, 2**33))
    room.edit()
    assert (room.build()[0], room.build()[2]) == (0, [])


DAMAGES = {
    "a file changed": lambda at: (at / f"{CRATE}.rlib/lib").write_text("x", encoding="utf-8"),
    "a file removed": lambda at: (at / f"{CRATE}.rlib/lib").unlink(),
    "the sums removed": lambda at: (at / "sums").unlink(),
}


@pytest.mark.parametrize("damage", DAMAGES)
def test_damaged(damage, room):
    """A crate that is kept is not looked below: that which stands on the damaged one is gone."""
    DAMAGES[damage](room.entry(CRATE))
    shutil.rmtree(room.entry(ABOVE))
    status, said, proved = room.build()
    assert (status, proved) == (0, [CRATE, ABOVE]) and f"{CRATE}: what was kept is damaged" in said, said


# --- builds that are ended in the middle, proofs that are killed, and two builds at once


def is_running(pid):
    """Whether a process is there, and not only its status."""
    stat = pathlib.Path(f"/proc/{pid}/stat")
    return stat.exists() and " Z " not in stat.read_text(encoding="utf-8")


def interrupted(room, number):
    """Ends a build by a signal while a crate is proved, and gives the process that the proof had started."""
    sleeps = room.at / "kit/sleeps"
    room.edit()
    room.write("kit/slow", CRATE)
    ran = room.start()
    while not sleeps.exists() or not sleeps.stat().st_size:
        time.sleep(0.1)
    ran.send_signal(number)
    ran.communicate()
    (room.at / "kit/slow").unlink()
    time.sleep(0.5)
    room.proved()
    return sleeps.read_text(encoding="utf-8").strip()


@pytest.mark.parametrize("number", [signal.SIGKILL, signal.SIGTERM, signal.SIGINT], ids=lambda it: it.name)
def test_ended_by(number, room):
    """What a build started ends with it; the next one goes on, and leaves nothing but what is kept."""
    assert not is_running(interrupted(room, number))
    assert room.build()[2] == [CRATE, ABOVE]
    assert os.listdir(room.at / "kept/new") == []


def test_proof_that_was_killed_is_tried_once_more(room):
    room.edit()
    room.write("kit/killed", CRATE)
    assert room.build()[2] == [CRATE, CRATE, ABOVE]


def test_of_two_builds_at_once_one_waits_for_the_other(room):
    """What they have in common is proved once."""
    copy_crates(room.at / "other")
    room.edit()
    shutil.rmtree(room.at / "kept")
    both = [room.start(clone=it) for it in ("clone", "other")]
    said = [it.communicate()[0] for it in both]
    proved = room.proved()
    assert [it.returncode for it in both] == [0, 0], said
    assert {it for it in proved if proved.count(it) > 1} <= {CRATE, ABOVE}


# --- what ends a build


def test_crate_that_is_not_proved_ends_the_build(room):
    """The end of the log is shown."""
    room.edit()
    room.write("kit/broken", CRATE)
    status, said, proved = room.build()
    assert status != 0 and proved == [CRATE] and f"{CRATE:<22s} not proved, after" in said, said
    assert f"fn {CRATE}::broken: not proved" in said and "out/build.log" in said, said


OLD_RT = {"fails": "#!/bin/sh\nexit 2\n", "names no logic": "#!/bin/sh\necho an old toolchain\n", "knows no doc": RT.replace("doc)", "docs)")}


@pytest.mark.parametrize("rt", [*OLD_RT, "is missing"])
def test_toolchain_that(rt, room):
    (room.at / "tools/rt").unlink()
    if rt in OLD_RT:
        room.write("tools/rt", OLD_RT[rt])
        (room.at / "tools/rt").chmod(0o755)
    status, said, proved = room.build()
    assert status == 1 and proved == [] and re.fullmatch("`rt .* too old.*\n", said), said


def test_no_space_is_left(room, first):
    """As root, in a small file system; later, with space, the build goes on."""
    small = ("unshare", "--mount", "sh", "-c", f'mount -t tmpfs -o size=2m,mode=700 none "{room.at}/kept" && exec "$@"', "sh")
    if subprocess.run([*small, "true"], stderr=subprocess.DEVNULL, check=False).returncode:
        pytest.skip("to make a file system takes root")
    status, said, _ = room.build(under=small, PATH=f"{room.at}/tools:/usr/bin:/bin")
    assert status != 0 and "No space left on device" in said, said
    assert (room.build()[0], room.build()[2]) == (0, [])


def test_proof_in_another_logic_is_none(room):
    room.edit()
    room.write("kit/sum", SUM[::-1])
    status, said, _ = room.build()
    assert status != 0 and f"{CRATE} was not proved" in said, said


def test_folder_that_others_can_write_to_is_refused(room):
    (room.at / "kept").chmod(0o777)
    room.edit()
    status, said, proved = room.build()
    assert status != 0 and proved == [] and "not yours alone" in said, said
