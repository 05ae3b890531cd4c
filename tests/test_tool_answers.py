"""`rt1553-tool answers`: what is stated in scripts, which ones are refused, and that `verify` finds the stated answers right."""

import re

import pytest
import vector_tables
from programs import Row, check_row, run, succeed, with_files, write_files

ASK = "A c 2c02\nA gap\nslot\n"
WORDS = "".join(f"A d {number:04x}\n" for number in range(32))
FILES = {
    "five": 'address = 5\n[[rule]]\ndirection = "receive"\nsubaddresses = "1-3"\n',
    "nine": 'address = 9\n[[rule]]\ndirection = "transmit"\nsubaddresses = 1\n',
    "plain": f"# asks\n\n{ASK}# and again\nslot",
    "stated": f"{ASK}# that of another\n#> A s 2c00\nslot\n#~ *\nA gap\n#> hand sync\n#+ 0001\n",
    "messages": "A rx 6 1 2 from 9 1: 0001 0002\nA tx 9 1 1\n",
}
REFUSED = {
    "line": (f"{ASK}slot \n", ":4:5: error: a space at the end: nothing may follow the last field"),
    "mistyped": ("A gap\n#>hand sync\n", ":2:3: error: looks like a stated answer and is a comment: one space comes after #>, #~ or #+, and none before it"),
    "misplaced": ("A c 2c02\n#> A s 2800\n", ":2: error: the event before it cannot have this answer"),
    "many": (f"{ASK}" + "\n" * 1048573, ": script: too many lines"),
}  # fmt: skip
ROWS = with_files(
    FILES,
    Row("answers behind their events", "answers five plain", output=f"# asks\n\n{ASK}#> A s 2800\n# and again\nslot\n"),
    Row("others are replaced", "answers five stated", output=f"{ASK}#> A s 2800\n# that of another\nslot\nA gap\n",
        errors="stated: warning: stated answers that are replaced: 3\n"),
    Row("its own transfer", "answers --expand nine messages",
        output="A c 3022\nA c 4c22\nA gap\nslot\n#> A s 4800\nslot\n#> A d 0000\nslot\n#> A d 0000\n"
        "A c 4c21\nA gap\nslot\n#> A s 4800\nslot\n#> A d 0000\n"),
    Row("32 words", "answers five long",
        output=f"A c 2820\n{WORDS}A gap\n#> hand receive own 01 0000 0001 0002 0003 0004 0005 0006\n"
        "#+ 0007 0008 0009 000a 000b 000c 000d 000e 000f 0010 0011 0012\n"
        "#+ 0013 0014 0015 0016 0017 0018 0019 001a 001b 001c 001d 001e\n#+ 001f\nslot\n#> A s 2800\n",
        files={"long": f"A c 2820\n{WORDS}A gap\nslot\n"}),
    Row("just enough lines", "answers five full", output=f"{ASK}#> A s 2800\n" + "\n" * 1048572, files={"full": ASK + "\n" * 1048572}),
    *(Row(f"refused: {name}", f"answers five {name}", 2, errors=f"{name}{why}\n", files={name: text}) for name, (text, why) in REFUSED.items()),
)  # fmt: skip


@pytest.mark.parametrize("row", ROWS, ids=lambda it: it.name)
def test_rows(tool, row, tmp_path):
    check_row(tool, row, tmp_path)


def accepted_runs():
    """Runs of the vectors: a profile, and a script without fault; the longest scripts are left out."""
    for table in vector_tables.tables().values():
        for row in table.rows:
            if row.words[:1] == ("run",) and row.status == 0 and len(row.files[row.words[2]]) < 100_000:
                yield row


def test_verify_finds_what_is_stated_right(tool, tmp_path):
    """The answers are those of the transcript, and `verify` passes them, if there are any."""
    runs = list(accepted_runs())
    assert len(runs) > 70
    for row in runs:
        _, profile, script = row.words
        write_files(tmp_path, row.files)
        text = succeed(tool, "answers", profile, script, folder=tmp_path)
        stated = re.sub(rb"\n#\+ ", b" ", text)
        assert b"".join(it[3:] + b"\n" for it in stated.splitlines() if it.startswith(b"#> ")) == row.output
        given = run(tool, "verify", profile, "/dev/stdin", stdin=text, folder=tmp_path)
        assert given.status == (0 if row.output else 3)
        assert given.output == b"" if row.output else given.output.startswith(b"/dev/stdin: not judged: the script ")
