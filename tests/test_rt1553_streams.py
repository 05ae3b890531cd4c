"""`rt1553` with outputs that take nothing, with pipes, and with files that grow."""

import contextlib
import functools
import os
import select
import subprocess
import threading
import time

import pytest
from known_texts import ASK, FILES, LOST, PLAIN, files_named
from programs import Row, encoded, run, write_files

PIPES = {"stdin": subprocess.PIPE, "stdout": subprocess.PIPE, "stderr": subprocess.PIPE}
WRITTEN = ("check five", "canon five", "compare five five", "compare five also-five", "compare five six")
FULL_ROWS = [
    Row("a full device", "", 4, errors=LOST, stdin=ASK),
    *(Row(f"{it} on a full device", it, 4, errors=LOST, files=files_named(it)) for it in WRITTEN),
    Row("run on a full device", "run five script", 4, errors=LOST, files={"five": FILES["five"], "script": ASK}),
    # where what comes before a refused line can't be written, that is told; where nothing does, the line is
    Row("a refused line behind an answer, on a full device", "", 4, errors=LOST, stdin=ASK + "A x\n"),
    Row("a refused line behind nothing, on a full device", "", 2, errors="script: line 1\n", stdin="A x\n"),
]
CLOSED_ROWS = [
    (0, Row("no input", "", 4, errors="input: read failed\n")),
    (1, Row("run, a closed output", "run five script", 4, errors=LOST, files={"five": FILES["five"], "script": ASK})),
    (1, Row("run of nothing, a closed output", "run five /dev/null", files=files_named("five"))),
]


def check_errors(program, row, folder, **streams):
    """Plays a row whose output goes elsewhere."""
    write_files(folder, row.files)
    ended = subprocess.run([program, *row.words.split()], input=encoded(row.stdin), stderr=subprocess.PIPE, cwd=folder, timeout=60,
                           check=False, **streams)  # fmt: skip
    assert (ended.returncode, ended.stderr) == (row.status, encoded(row.errors))


@pytest.mark.parametrize("row", FULL_ROWS, ids=lambda it: it.name)
def test_full_device(rt1553, row, tmp_path):
    with open("/dev/full", "wb") as full:
        check_errors(rt1553, row, tmp_path, stdout=full)


@pytest.mark.parametrize("stream, row", CLOSED_ROWS, ids=[row.name for _, row in CLOSED_ROWS])
def test_closed(rt1553, stream, row, tmp_path):
    check_errors(rt1553, row, tmp_path, stdout=subprocess.PIPE, preexec_fn=functools.partial(os.close, stream))


@contextlib.contextmanager
def started(*words, **how):
    """A program that runs with pipes, until the test is through with it."""
    with subprocess.Popen(words, bufsize=0, **PIPES, **how) as program:
        try:
            yield program
        finally:
            program.kill()


def test_run_whose_reader_has_gone(rt1553, tmp_path):
    write_files(tmp_path, {"five": FILES["five"], "script": ASK * 100_000})
    with started(rt1553, "run", "five", "script", cwd=tmp_path) as terminal:
        terminal.stdout.read(1)
        terminal.stdout.close()
        assert (terminal.wait(60), terminal.stderr.read()) == (4, LOST.encode())


def line_at_once(stream):
    """The line that comes within ten seconds."""
    assert select.select([stream], [], [], 10)[0], "nothing came"
    return stream.readline()


def test_answer_before_the_next_line(rt1553):
    with started(rt1553) as terminal:
        terminal.stdin.write(ASK.encode())
        assert line_at_once(terminal.stdout) == b"A s 2800\n"
        assert terminal.communicate(b"# done\n", 60) == (b"", b"")
    assert terminal.returncode == 0


def test_run_answers_before_the_next_line(rt1553, tmp_path):
    """The script is a pipe with a name; with the first message comes half of the next line."""
    write_files(tmp_path, files_named("five"))
    os.mkfifo(tmp_path / "pipe")
    # opened in both directions, a pipe doesn't wait for its other end
    script = os.open(tmp_path / "pipe", os.O_RDWR)
    with started(rt1553, "run", "five", "pipe", cwd=tmp_path) as terminal:
        os.write(script, f"{ASK}B c 2c".encode())
        assert line_at_once(terminal.stdout) == b"A s 2800\n"
        os.write(script, b"02\nB gap\nslot\n")
        assert line_at_once(terminal.stdout) == b"B s 2800\n"
        os.close(script)
        assert terminal.communicate(timeout=60) == (b"", b"")
    assert terminal.returncode == 0


def test_profile_from_a_pipe(rt1553, tmp_path):
    os.mkfifo(tmp_path / "pipe")

    def write_slowly():
        with open(tmp_path / "pipe", "wb", buffering=0) as pipe:
            pipe.write(b"address")
            time.sleep(0.2)
            pipe.write(b" = 5\n")

    writer = threading.Thread(target=write_slowly, daemon=True)
    writer.start()
    assert run(rt1553, "canon", "pipe", folder=tmp_path) == (0, PLAIN.encode(), b"")
    writer.join(60)


def test_run_of_a_script_that_grows(rt1553, tmp_path):
    """It grows by its own transcript, to which nothing answers."""
    write_files(tmp_path, {"five": FILES["five"], "growing": ASK})
    with started(rt1553, "run", "five", "growing", cwd=tmp_path) as terminal:
        for line in terminal.stdout:
            with open(tmp_path / "growing", "ab") as script:
                script.write(b"# " + line)
        assert terminal.stderr.read() == b""
    assert (tmp_path / "growing").read_text() == f"{ASK}# A s 2800\n"
