"""What `rt1553-tool` does as `rt1553` does: `check`, `canon`, `run` and `compare` print the same, with faults for people."""

import os

import pytest
from known_texts import ASK, FILES, PLAIN, files_named
from programs import TOP, Row, check_row, run, with_files, write_files

OUT_OF_RANGE = "bad:1:1: error: profile: root: address is out of range: 31; allowed is a whole number from 0 to 30\n"
SCRIPTS = {
    "script": ASK,
    "hasty": f"{ASK}A gup\nslot\nslot \n",
    "long": f"{ASK}#{0:064}\n",
    "many": "slot\n" * 1048577,
}
# jobs whose results are those of `rt1553`
JOBS = [
    "check five", "check canonical", "check first", "check largest",
    "canon five", "canon canonical", "canon first", "canon two", "canon whole",
    "run five script", "run canonical script", "run vector script", "run five /dev/null", "run -- five script",
    "compare five also-five", "compare five five", "compare canonical five", "compare five six", "compare six five", "compare two whole",
    "compare vector five",
]  # fmt: skip
# scripts of which a line is refused
REFUSED = {
    "hasty": "hasty:4:3: error: after a bus, c, d, gap or noise is expected\n",
    "long": "long:4:65: error: over 64 bytes before the line feed\n",
    "many": "many:1048577:1: error: a script has at most 1,048,576 lines\n",
}
PROFILES = sorted([*TOP.glob("examples/profiles/*.toml"), *TOP.glob("examples/canonical/*.rt1553")])
EXAMPLES = sorted(TOP.glob("examples/scripts/*.script"))
CAUSES = with_files(
    {"five": FILES["five"], "folder/file": "", "script": ASK},
    *(Row(f"a profile that is not there: {it}", it, 4, errors="file: cannot read none: no such file\n")
      for it in ("check none", "canon none", "run none script", "compare none five", "compare five none", "explain none", "lint none")),
    Row("a script that is not there", "run five none", 4, errors="file: cannot read none: no such file\n"),
    Row("a file in a file", "check five/none", 4, errors="file: cannot read five/none: no such file\n"),
    Row("a hyphen", "check -", 4, errors="file: cannot read -: no such file; use /dev/stdin\n", stdin=FILES["five"]),
    Row("the standard input", "check /dev/stdin", 0, "ok\n", stdin=FILES["five"]),
    Row("a script on the standard input", "run five /dev/stdin", 0, "A s 2800\n", stdin=ASK),
    Row("a folder", "check folder", 4, errors="file: cannot read folder: it is a folder\n"),
    Row("a folder for a script", "run five folder", 4, errors="file: cannot read folder: it is a folder\n"),
    Row("a folder for a table", "recording folder --address 5", 4, "#! row 1 was refused; rows written: 0\n", "file: cannot read folder: it is a folder\n"),
    Row("an empty name", ("canon", ""), 4, errors="file: the name of a file is empty\n"),
    Row("a name of more lines", ("check", "a\nb"), 4, errors="file: cannot read a\\nb: no such file\n"),
    Row("a profile that is too large", "check over", 4, errors="file: too large over: at most 1,048,576 bytes\n", files=files_named("over")),
)
FAULTS = with_files(
    {**files_named("five bad cut trailing"), "script": ASK},
    *(Row(it, it, 2, errors=OUT_OF_RANGE)
      for it in ("check bad", "canon bad", "run bad script", "compare bad five", "compare five bad", "compare bad bad", "compare bad cut")),
    Row("a canonical text", "check cut", 2, errors='cut:64:1: error: canonical text: line 64: a line like "own-mode 00000134" is expected\n'),
    Row("bytes after a canonical text", "canon trailing", 2, errors="trailing:66:1: error: canonical text: bytes after the end\n"),
    *(Row(f"a hint: {words}", words, 2,
          errors=f"{name}:{line}:3: error: profile: not TOML: key with no value, expected `=`\n{name}: hint: it begins like a script, and a profile is expected here\n",
          files={"messages": "# two\n\nA rx 5 1 1: 0001\n"})
      for words, name, line in (("run script five", "script", 1), ("check messages", "messages", 3))),
    Row("no TOML", "check text", 2, errors="text:1:4: error: profile: not TOML: key with no value, expected `=`\n", files={"text": "no TOML\n"}),
    Row("all faults", "check two", 2,
        "", 'two:2:1: error: profile: root: unknown key "vectr"; known are address, broadcast, wraparound, accept_bus_control, vector, bit, '
        "rule, mode, initial\n" + OUT_OF_RANGE.replace("bad", "two"),
        files={"two": "address = 31\nvectr = 1\n"}),
    Row("no word of what has no effect", "check idle", 0, "ok\n", files={"idle": "address = 5\nvector = 7\n"}),
)  # fmt: skip


def write_named(folder, words):
    """Writes the files that words name."""
    write_files(folder, {**files_named(words), **{name: text for name, text in SCRIPTS.items() if name in words.split()}})


@pytest.mark.parametrize("words", JOBS)
def test_result_is_that_of_rt1553(tool, rt1553, words, tmp_path):
    write_named(tmp_path, words)
    wanted = run(rt1553, *words.split(), folder=tmp_path)
    assert wanted.status <= 1 and wanted.output + b"slot" and wanted.errors == b""
    assert run(tool, *words.split(), folder=tmp_path) == wanted


@pytest.mark.parametrize("profile", PROFILES, ids=lambda it: it.name)
def test_results_of_examples(tool, rt1553, profile, count_runs):
    jobs = [("check", profile), ("canon", profile), *(("run", profile, it) for it in EXAMPLES), *(("compare", profile, it) for it in PROFILES)]
    for words in jobs:
        wanted = run(rt1553, *words)
        assert wanted.status <= 1 and run(tool, *words) == wanted, words
    count_runs(len(jobs))


@pytest.mark.parametrize("name", REFUSED)
def test_refused_script(tool, rt1553, name, tmp_path):
    """What comes before the line is answered, as by `rt1553`."""
    write_named(tmp_path, f"five {name}")
    wanted = run(rt1553, "run", "five", name, folder=tmp_path)
    assert run(tool, "run", "five", name, folder=tmp_path) == wanted._replace(errors=REFUSED[name].encode())
    assert wanted.status == 2


@pytest.mark.parametrize("row", [*CAUSES, *FAULTS], ids=lambda it: it.name)
def test_fault(tool, row, tmp_path):
    check_row(tool, row, tmp_path)


def test_file_that_may_not_be_read(tool, tmp_path):
    """Who is root reads all files, but for a right that is taken away here."""
    write_files(tmp_path, {"closed": PLAIN})
    (tmp_path / "closed").chmod(0)
    front = ["setpriv", "--bounding-set=-dac_override,-dac_read_search"] if os.geteuid() == 0 else []
    assert run(*front, tool, "check", "closed", folder=tmp_path) == (4, b"", b"file: cannot read closed: no permission\n")


def test_profile_is_read_before_the_script(tool, tmp_path):
    assert run(tool, "run", "none", "nor", folder=tmp_path).errors == b"file: cannot read none: no such file\n"
