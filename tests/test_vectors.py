"""The cases of tests/vectors: their answers come from programs that share nothing with `rt1553`."""

import pytest
import vector_tables
from programs import Row, check_row

ROWS = [row._replace(name=f"{name}/{row.name}") for name, table in vector_tables.tables().items() for row in table.rows]
BYTES = bytes(range(256))
ESCAPED = (b"", b"\n", b"\n\n", b"no line feed", b"a \n b\n ", b"== a\n-- b\n==\n--  c\n== ", b"\\\n\\", b"\\x41\n\n", BYTES, BYTES[::-1])


@pytest.mark.parametrize("row", ROWS, ids=lambda it: it.name)
def test_vector(rt1553, row, tmp_path):
    check_row(rt1553, row, tmp_path)


def test_tables_keep_each_byte(tmp_path):
    rows = [Row(f"row {k}", ("run", f"p{k}"), k, text, text[::-1], text[1:], {f"p{k}": text}) for k, text in enumerate(ESCAPED)]
    blocks = [vector_tables.block("files", {"p": b"a\n", "q": b""}), *map(vector_tables.block_of, rows)]
    vector_tables.write(tmp_path / "table", blocks)
    assert vector_tables.read(tmp_path / "table").rows == rows
    assert vector_tables.read(tmp_path / "table").files["q"] == b""
