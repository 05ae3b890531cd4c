"""`rt1553` by its words, and scripts on the standard input."""

import pytest
from known_texts import ASK, USAGE
from programs import Row, check_row

WRONG_WORDS = """\
word
-
check=five
che five
CHECK five
--help
-h
help
help check
check --help
check -h
run five script --help
--version
-V
--bogus
-x
check -x
check --help=1
check
canon
run
run five
compare five
check --
check five six
run five script x
compare five six x
check five -- six
-- check five
RUN five script
run five script -- x
run -x script
"""
EVERY_LINE = """\
A c 2861
A d 0007
A gap
slot
flag service 1
B c 2c05
B gap
slot
write 30 32 ffff
vector 00aa
bit 00BB
B noise
B c 2fe2
B gap
slot
"""
ROWS = [
    *(Row(f"usage: {it}", it, 3, "", USAGE) for it in WRONG_WORDS.splitlines()),
    Row("usage: an empty word", ("",), 3, "", USAGE),
    Row("usage: two words in one", ("check five",), 3, "", USAGE),
    Row("usage: a word that is no UTF-8", ("check", b"\xff"), 3, "", USAGE),
    Row("transmit-status", "", 0, "A s 2800\n", stdin=ASK),
    Row("no arguments but --", "--", 0, "A s 2800\n", stdin=ASK),
    Row("empty-script", ""),
    Row("refused-line", "", 2, "A s 2800\n", "script: line 4\n", ASK + "A x\n"),
    Row("refused line without a line feed", "", 2, "A s 2800\n", "script: line 4\n", ASK + "A x"),
    Row("refused line in place of the slot", "", 2, "", "script: line 3\n", "A c 2c02\nA gap\nA x\n"),
    Row("every kind of line", "", 0, "A s 2c00\nB s 2900\nB s 2900\n", stdin=EVERY_LINE),
    Row("1,048,576 lines on the standard input", "", stdin="\n" * 1_048_576),
    Row("a line feed more on the standard input", "", 2, "", "script: too many lines\n", "\n" * 1_048_577),
]


@pytest.mark.parametrize("row", ROWS, ids=lambda it: it.name)
def test_words(rt1553, row, tmp_path):
    check_row(rt1553, row, tmp_path)
