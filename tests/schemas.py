"""Whether JSON fits its schema, as jsonschema judges it by the draft that the schema names."""

import functools
import json
import pathlib

from jsonschema import validators

TOP = pathlib.Path(__file__).resolve().parent.parent


def is_integer(_, value):
    """Whether a value is written as an integer: neither `true` nor `1.0` is one."""
    return isinstance(value, int) and not isinstance(value, bool)


@functools.lru_cache(maxsize=None)
def validator_of(path):
    """The validator of a schema, by its path from the top of the repository. The schema itself is valid."""
    schema = json.loads((TOP / path).read_text(encoding="utf-8"))
    kind = validators.validator_for(schema, default=None)
    assert kind, f"{path}: no known draft of JSON Schema"
    kind.check_schema(schema)
    return validators.extend(kind, type_checker=kind.TYPE_CHECKER.redefine("integer", is_integer))(schema)


def misfits(value, path):
    """What of a value doesn't fit the schema at a path such as "docs/lint.schema.json": a list of texts, empty where all fits."""
    return [f"{it.json_path}: {it.message}" for it in validator_of(path).iter_errors(value)]


def misfits_of_lines(text, path):
    """The same for a text or bytes of which each line is JSON of its own."""
    return [it for line in text.splitlines() for it in misfits(json.loads(line), path)]
