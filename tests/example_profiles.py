"""The profiles of this repository, by their names: the examples, and those of tests/vectors."""

import pathlib

import vector_tables

EXAMPLES = pathlib.Path(__file__).resolve().parent.parent / "examples"
TABLES = vector_tables.tables()


def in_folder(name):
    """The profiles in a folder of examples, such as `validation-full` in validation/profiles."""
    return {f"{name.split('/')[0]}-{it.stem}": it for it in sorted((EXAMPLES / name).iterdir())}


WITH_TOML = {**in_folder("profiles"), **in_folder("validation/profiles")}
ALL = {**WITH_TOML, **in_folder("canonical")}
# the texts of the vectors, some of which are refused
VECTORS = {f"{table}-{name}": text for table, it in TABLES.items() for name, text in it.files.items() if name.endswith((".toml", ".rt1553"))}
