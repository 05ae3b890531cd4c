"""The schemas of JSON output and of profiles are valid by the drafts that they name, and have no word that a validator passes over."""

import pytest
from schemas import TOP, misfits, validator_of

PATHS = [str(it.relative_to(TOP)) for folder in ("docs", "editors") for it in sorted((TOP / folder).glob("*.schema.json"))]
ANNOTATIONS = {"$schema", "$id", "$defs", "definitions", "title", "description", "default"}


def words_of(schema):
    """The words of a schema, and of the schemas in it."""
    for word, value in schema.items():
        yield word
        parts = value.values() if word in ("properties", "$defs", "definitions") else value if isinstance(value, list) else [value]
        for part in parts:
            if isinstance(part, dict):
                yield from words_of(part)


@pytest.mark.parametrize("path", PATHS)
def test_each_word_is_known(path):
    validator = validator_of(path)
    assert set(words_of(validator.schema)) - set(validator.VALIDATORS) - ANNOTATIONS == set()


@pytest.mark.parametrize("address", [True, 5.0, 31, -1, "5", None])
def test_what_does_not_fit(address):
    """`true` and `5.0` are no integers."""
    assert misfits({"address": 5}, "editors/profile.schema.json") == []
    assert misfits({"address": address}, "editors/profile.schema.json") != []
