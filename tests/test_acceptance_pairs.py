"""Pairs of random profiles: `verify`, `compare` and `acceptance --against` agree whether they are the same terminal.

Each of some terminals is paired with others, which differ in one thing, in several or in all, or are the same terminal in other
words; both ways."""

import csv
import dataclasses
import functools
import io
import random
import re
from typing import NamedTuple

import canonical
import complete_test
import pytest
from exchanges import (COLUMNS, check_lines, fields_of, modelled, numbered, read_script, replies_of, results_in, results_text, script_of,
                       told_by_against, told_by_verify)  # fmt: skip
from profile_texts import toml_of, trimmed
from programs import Given, run, write_files

STARS = range(7)
KINDS = [*complete_test.KINDS, "few", "other", "same"]
WAYS = ["one to other", "other to one"]


class Unit(NamedTuple):
    """A profile of a terminal of the model, with the test that the program writes of it: its exchanges and its table in CSV."""

    p: canonical.Reached
    profile: str
    exchanges: list
    table: str

    def rows(self):
        """The rows of the table, from the header on."""
        return list(csv.reader(io.StringIO(self.table, newline="")))


class Pair(NamedTuple):
    """Two of these."""

    one: Unit
    other: Unit

    def is_same(self):
        return self.one.p == self.other.p


# ---- terminals


def is_rich(p):
    """Whether each of the twelve things can differ from this terminal in one other."""
    return p.broadcast and all(p.own_codes >> code & 1 for code in (0, 16, 19)) and p.wrapping()


def rich_terminal(star):
    """The terminal of this number."""
    draw = random.Random(f"acceptance {star}")
    return next(p for p in iter(functools.partial(complete_test.draw_terminal, draw), None) if is_rich(p))


def other_terminal(draw, p, kind):
    """A terminal that differs from p by a kind."""
    q = p
    while q == p and kind != "same":
        if kind == "few":
            for _ in range(draw.randrange(2, 6)):
                q = complete_test.changed(draw, q, draw.choice(complete_test.KINDS))
        elif kind == "other":
            q = dataclasses.replace(complete_test.draw_terminal(draw), address=p.address)
        else:
            q = complete_test.changed(draw, p, kind)
    return q


def unit_of(tool, folder, p, profile):
    """A terminal with the test that the program writes of this profile."""
    write_files(folder, {"profile": profile})
    script, table = (run(tool, "acceptance", "profile", *words, folder=folder) for words in ((), ("--format", "csv")))
    assert (script.status, script.errors, table.status, table.errors) == (0, b"", 0, b"")
    return Unit(p, profile, read_script(script.output.decode()), table.output.decode())


@functools.lru_cache(maxsize=1)
def star_of(tool, folder, star):
    """The terminal of this number with its test, of a profile in TOML or of its canonical text."""
    p = rich_terminal(star)
    draw = random.Random(f"profile {star}")
    return unit_of(tool, folder, p, canonical.text_of(trimmed(p)) if star % 2 else toml_of(draw, p))


def other_of(tool, folder, one, star, kind):
    """Another terminal with its test. The same terminal is told in the other of the two ways."""
    draw = random.Random(f"{star} {kind}")
    q = other_terminal(draw, one.p, kind)
    in_toml = kind == "same" and star % 2 or draw.random() < 0.5
    return unit_of(tool, folder, q, toml_of(draw, q) if in_toml else canonical.text_of(trimmed(q)))


@pytest.fixture(scope="module")
def rooms(tmp_path_factory):
    """A folder in which tests are written."""
    return tmp_path_factory.mktemp("pairs")


@pytest.fixture(scope="module", params=[(star, kind) for star in STARS for kind in KINDS], ids=lambda it: f"{it[0]} {it[1]}")
def pair(request, shipped, rooms):
    """Two terminals that differ by a kind."""
    star, kind = request.param
    one = star_of(shipped.tool, rooms, star)
    return Pair(one, other_of(shipped.tool, rooms, one, star, kind))


@pytest.fixture(params=WAYS)
def way(request, pair):
    """The two, or the two the other way."""
    return pair if request.param == WAYS[0] else Pair(pair.other, pair.one)


# ---- what is told


def check_told(given, pair):
    """What `verify` tells of a script of the one, to the profile of the other: lines of its events, each with the answer stated there."""
    *lines, last = given.output.decode().splitlines() or [""]
    assert (given.status, given.errors, last) == (1, b"", f"script: differences: {len(lines)}")
    found = [re.fullmatch(r"script:(\d+): expected (.+), came (.+)", line) for line in lines]
    assert found and all(found), lines
    answers, numbers = dict(numbered(pair.one.exchanges)[1]), [int(it[1]) for it in found]
    assert numbers == sorted(set(numbers)) and answers.keys() >= set(numbers), numbers
    assert [it[2] for it in found] == [answers[number] or "nothing" for number in numbers]
    assert not [line for line, it in zip(lines, found) if it[2] == it[3]]


def check_rows(given, pair):
    """An exchange that `--against` tells has different rows in the two tables."""
    rows = list(zip(pair.one.rows(), pair.other.rows()))
    told = [int(it) for it in re.findall(rb"^(\d+): ", given.output, re.M)]
    assert not [number for number in told if rows[number][0] == rows[number][1]]


def verified(tool, folder, pair):
    """What `verify` tells of the script of the one to the profile of the other."""
    write_files(folder, {"profile": pair.other.profile, "script": script_of(pair.one.exchanges)})
    return run(tool, "verify", "profile", "script", folder=folder)


def against(tool, folder, profile, results):
    """What `--against` tells of these replies to the test of a profile."""
    write_files(folder, {"profile": profile, "results": results_text(results)})
    return run(tool, "acceptance", "profile", "--against", "results", folder=folder)


def test_compare(shipped, way, tmp_path):
    write_files(tmp_path, {"one": way.one.profile, "other": way.other.profile})
    given = run(shipped.rt1553, "compare", "one", "other", folder=tmp_path)
    same = way.is_same()
    assert (given.status, given.output == b"same\n", given.errors) == (0 if same else 1, same, b"")


def test_verify(shipped, way, tmp_path):
    given = verified(shipped.tool, tmp_path, way)
    if way.is_same():
        assert given == Given(0, b"", b"")
    else:
        check_told(given, way)


def test_against(shipped, way, tmp_path):
    results = results_in(way.other.exchanges)
    given = against(shipped.tool, tmp_path, way.one.profile, results)
    assert given == told_by_against(way.one.exchanges, results)
    if given.status == 2:
        # the rows that the test of the one has, too
        some = {number: reply for number, reply in results.items() if number <= len(way.one.exchanges)}
        given = against(shipped.tool, tmp_path, way.one.profile, some)
    assert given.status == (0 if way.is_same() else 1)
    assert way.one.table == way.other.table or not way.is_same()
    check_rows(given, way)


def check_unit(rt1553, unit, folder):
    """The profile means its terminal, and the table of its test has the exchanges of the script."""
    write_files(folder, {"profile": unit.profile})
    assert run(rt1553, "canon", "profile", folder=folder) == Given(0, canonical.text_of(trimmed(unit.p)).encode(), b"")
    assert unit.rows() == [COLUMNS, *(fields_of(number, it) for number, it in enumerate(unit.exchanges, 1))]


def test_other(shipped, pair, tmp_path):
    check_unit(shipped.rt1553, pair.other, tmp_path)


@pytest.mark.parametrize("star", STARS)
def test_one(shipped, rooms, star, tmp_path):
    one = star_of(shipped.tool, rooms, star)
    check_unit(shipped.rt1553, one, tmp_path)
    check_lines(script_of(one.exchanges), script_of(modelled(one.p)))


# ---- to the letter, by the model of the other terminal


@functools.lru_cache(maxsize=1)
def pair_of(tool, folder, kind):
    """The first terminal and another."""
    one = star_of(tool, folder, 0)
    return Pair(one, other_of(tool, folder, one, 0, kind))


@pytest.mark.parametrize("kind", KINDS)
def test_verify_to_the_letter(shipped, rooms, kind, tmp_path):
    pair = pair_of(shipped.tool, rooms, kind)
    assert verified(shipped.tool, tmp_path, pair) == told_by_verify(pair.one.exchanges, pair.other.p, "script")


@pytest.mark.parametrize("kind", KINDS)
def test_unit_to_the_letter(shipped, rooms, kind, tmp_path):
    pair = pair_of(shipped.tool, rooms, kind)
    results = results_in(replies_of(pair.one.exchanges, pair.other.p))
    given = against(shipped.tool, tmp_path, pair.one.profile, results)
    assert (given, given.status) == (told_by_against(pair.one.exchanges, results), 0 if kind == "same" else 1)


# ---- the checks fail where something else is told


UNFIT = {
    "nothing": lambda given: Given(0, b"", b""),
    "another status": lambda given: given._replace(status=0),
    "a line less": lambda given: given._replace(output=given.output.split(b"\n", 1)[1]),
    "a line twice": lambda given: given._replace(output=given.output.split(b"\n", 1)[0] + b"\n" + given.output),
    "a line of no event": lambda given: given._replace(output=b"script:0: expected nothing, came A s 2800\nscript: differences: 1\n"),
    "another answer": lambda given: given._replace(output=given.output.replace(b"expected ", b"expected A", 1)),
}


@pytest.mark.parametrize("name", UNFIT)
def test_check_of_verify(shipped, rooms, name, tmp_path):
    pair = pair_of(shipped.tool, rooms, "vector")
    given = verified(shipped.tool, tmp_path, pair)
    check_told(given, pair)
    with pytest.raises(AssertionError):
        check_told(UNFIT[name](given), pair)


def test_check_of_rows(shipped, rooms):
    pair = pair_of(shipped.tool, rooms, "vector")
    alike = next(number for number, (one, other) in enumerate(zip(pair.one.rows(), pair.other.rows())) if number and one == other)
    with pytest.raises(AssertionError):
        check_rows(Given(1, f"{alike}: a command: legal: expected none, came 2800\n".encode(), b""), pair)
