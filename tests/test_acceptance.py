"""The acceptance test that `rt1553-tool acceptance` writes of a profile, beside that of the model: script, tables, time and sizes."""

import os
import subprocess

import canonical
import pytest
from exchanges import LARGEST, SMALLEST, check_lines, filled_of, json_of, modelled, numbered, results_in, script_of, table_of, told_by_against, transcript_of
from programs import TOP, Given, run, write_files
from schemas import misfits_of_lines

# how many seconds of processor time the test of a large profile may take
SECONDS = 1.0
EXAMPLES = [str(it.relative_to(TOP)) for it in sorted([*TOP.glob("examples/**/*.toml"), *TOP.glob("examples/**/*.rt1553")])]
# the two on which each build is tried
OF_EACH_BUILD = ["examples/profiles/sensor.toml", "examples/profiles/broadcast_listener.toml"]
# those with the least and the most events, and the most answers
SIZED = {"`address = 5`": "smallest", "the largest": "largest", "all that can be legal": "examples/validation/profiles/full.toml"}
# the columns of the table of sizes in docs/acceptance.md
SIZES = ["exchanges", "events", "lines of the script", "words on the bus", "from the terminal", "time"]
SCHEMA = "docs/acceptance.schema.json"
FIRST = '{"number":1,"tries":"broadcast transmit status word: illegal","command":"fc02","data":[],"expected":null,"handed":null}'
MISFITS = {
    "a key more": FIRST.replace("{", '{"more":0,', 1),
    "a key less": FIRST.replace(',"handed":null', ""),
    "an empty answer": FIRST.replace('"expected":null', '"expected":[]'),
    "a word in capital letters": FIRST.replace('"fc02"', '"FC02"'),
}


def text_of(profile):
    """The text of a profile by its name."""
    return {"smallest": SMALLEST, "largest": LARGEST}.get(profile) or (TOP / profile).read_bytes()


def exchanges_in(folder):
    """The exchanges of the test of the profile in a folder, by the model."""
    return modelled(canonical.load(folder / "profile"))


# ---- what is written of a profile, and what reads it


def script(build, folder):
    check_written(run(build.tool, "acceptance", "profile", folder=folder), script_of(exchanges_in(folder)))


def table(build, folder):
    check_written(run(build.tool, "acceptance", "--format", "csv", "profile", folder=folder), table_of(exchanges_in(folder)))


def lines_of_json(build, folder):
    check_written(run(build.tool, "acceptance", "--format", "json", "profile", folder=folder), json_of(exchanges_in(folder)))


def verify(build, folder):
    write_files(folder, {"script": script_of(exchanges_in(folder))})
    assert run(build.tool, "verify", "profile", "script", folder=folder) == Given(0, b"", b"")


def played(build, folder):
    write_files(folder, {"script": script_of(exchanges_in(folder))})
    check_written(run(build.rt1553, "run", "profile", "script", folder=folder), transcript_of(exchanges_in(folder)))


def against_its_own_table(build, folder):
    exchanges = exchanges_in(folder)
    write_files(folder, {"results": filled_of(exchanges)})
    given = run(build.tool, "acceptance", "profile", "--against", "results", folder=folder)
    assert given == told_by_against(exchanges, results_in(exchanges))


CHECKS = [script, table, lines_of_json, verify, played, against_its_own_table]


def check_written(given, wanted):
    """A program ended well, and printed this."""
    assert (given.status, given.errors) == (0, b"")
    check_lines(given.output.decode(), wanted)


@pytest.mark.parametrize("check", CHECKS, ids=lambda it: it.__name__)
@pytest.mark.parametrize("profile", ["smallest", "largest", *EXAMPLES])
def test_profile(shipped, profile, check, tmp_path):
    write_files(tmp_path, {"profile": text_of(profile)})
    check(shipped, tmp_path)


@pytest.mark.parametrize("check", CHECKS, ids=lambda it: it.__name__)
@pytest.mark.parametrize("profile", OF_EACH_BUILD)
def test_profile_by_each_build(build, profile, check, tmp_path):
    write_files(tmp_path, {"profile": text_of(profile)})
    check(build, tmp_path)


def test_number_of_examples():
    assert len(EXAMPLES) >= 17


# ---- one answer that is changed, and the schema


@pytest.mark.parametrize("profile", ["smallest", "largest"])
def test_verify_tells_the_one_answer_that_is_changed(shipped, profile, tmp_path):
    write_files(tmp_path, {"profile": text_of(profile)})
    lines, events = numbered(exchanges_in(tmp_path))
    statuses = [(number, answer) for number, answer in events if answer.startswith("A s ")]
    number, answer = statuses[len(statuses) // 2]
    lines[number] = "#> A s 2804"
    write_files(tmp_path, {"script": "".join(f"{it}\n" for it in lines)})
    told = f"script:{number}: expected A s 2804, came {answer}\nscript: differences: 1\n"
    assert run(shipped.tool, "verify", "profile", "script", folder=tmp_path) == Given(1, told.encode(), b"")


@pytest.mark.parametrize("profile", SIZED.values())
def test_json_fits_the_schema(shipped, profile, tmp_path):
    write_files(tmp_path, {"profile": text_of(profile)})
    lines = run(shipped.tool, "acceptance", "--format", "json", "profile", folder=tmp_path).output
    assert lines.startswith(b'{"number":1,')
    assert misfits_of_lines(lines, SCHEMA) == []


@pytest.mark.parametrize("name", MISFITS)
def test_schema_refuses(name):
    assert misfits_of_lines(FIRST, SCHEMA) == [] != misfits_of_lines(MISFITS[name], SCHEMA)


# ---- time and sizes


def seconds_of(*words, folder):
    """How many seconds of processor time a program takes."""
    with subprocess.Popen(words, cwd=folder, stdin=subprocess.DEVNULL, stdout=subprocess.DEVNULL) as process:
        _, status, used = os.wait4(process.pid, 0)
        process.returncode = os.waitstatus_to_exitcode(status)
    return used.ru_utime + used.ru_stime


@pytest.mark.parametrize("profile", SIZED.values())
def test_time(shipped, profile, tmp_path):
    write_files(tmp_path, {"profile": text_of(profile)})
    assert min(seconds_of(shipped.tool, "acceptance", "profile", folder=tmp_path) for _ in range(3)) < SECONDS


def sizes_of(exchanges):
    """The sizes of a test, as docs/acceptance.md tells them. The time is that of words of 20 us, of response times of 12 us and of
    gaps of 100 us."""
    words = sum(1 + len(it.data) for it in exchanges)
    replies = [it.reply() for it in exchanges if it.reply()]
    sent = sum(map(len, replies))
    seconds = ((words + sent) * 20 + len(replies) * 12 + len(exchanges) * 100) / 1_000_000
    numbers = [len(exchanges), sum(it.events() for it in exchanges), len(numbered(exchanges)[0]), words + sent, sent]
    return [*(f"{number:,}" for number in numbers), f"{seconds:.1f} s"]


def rows_of_page():
    """The rows of the tables of docs/acceptance.md."""
    lines = (TOP / "docs/acceptance.md").read_text(encoding="utf-8").splitlines()
    return [[cell.strip() for cell in line.strip("| ").split("|")] for line in lines if line.startswith("| ")]


@pytest.mark.parametrize("name", SIZED)
def test_sizes_of_the_page(name, tmp_path):
    write_files(tmp_path, {"profile": text_of(SIZED[name])})
    rows = rows_of_page()
    assert [row[1:] for row in rows if row[0] == "profile"] == [SIZES]
    assert [row[1:] for row in rows if row[0].startswith(name)] == [sizes_of(exchanges_in(tmp_path))]
