"""Tables of units that conform, and of units with one fault, judged by `rt1553-tool recording` and `verify --any-subsystem`.

`bus_times.py` plays units that conform on two buses, in real times, with any subsystem, and writes what a monitor tells of them, in both
forms. No such table may be convicted. Refused may be those in which two words end at once on two buses, and of messages those whose commands
overlap there. Then each unit has one fault.
`decided`, which knows the events in their true order, tells whether some behaviour of the subsystem explains it; most of the others have to
be found, and of each that is not, what the table leaves open hides it.

CONFORMING_TABLES is the number of runs of all profiles together; a table of words tells each, one of messages about a third."""

import os

import bus_times
import pytest
from bus_times import FAULTS, FORMS, PROFILES, faulty_run, run_of

pytestmark = pytest.mark.slow
TABLES = int(os.environ.get("CONFORMING_TABLES", "1600"))
FAULTY = 320
# why a table of words may be refused
UNCLEAR = "end within what their times leave open"


def seeds_of(number, tables):
    """The seeds of a profile."""
    return range(number, tables, len(PROFILES))


@pytest.mark.parametrize("number", PROFILES)
def test_units_conform(number, count_runs):
    seeds = seeds_of(number, TABLES)
    assert [seed for seed in seeds if not bus_times.explained(run_of(seed))] == []
    count_runs(len(seeds))


@pytest.mark.parametrize("form", FORMS)
@pytest.mark.parametrize("number", PROFILES)
def test_conforming(shipped, number, form, count_runs, tmp_path):
    bus_times.write_profiles(tmp_path)
    said = {seed: bus_times.judged(shipped.tool, tmp_path, seed, run_of(seed), form) for seed in seeds_of(number, TABLES)}
    assert {seed: it for seed, it in said.items() if it and it[0] == "failed"} == {}
    if form == "words":
        assert {seed: it for seed, it in said.items() if it[0] == "refused" and UNCLEAR not in it[1]} == {}
    count_runs(sum(it is not None for it in said.values()))


@pytest.mark.parametrize("fault", FAULTS)
def test_faulty(shipped, fault, count_runs, tmp_path):
    bus_times.write_profiles(tmp_path)
    said = []
    for seed in range(FAULTY):
        one = faulty_run(seed, fault)
        if one and not bus_times.explained(one):
            said.append(bus_times.judged(shipped.tool, tmp_path, seed, one, "words")[0])
            assert said[-1] != "passed" or bus_times.hidden_by(shipped.tool, tmp_path, one), f"{fault} of seed {seed}: nothing hides it"
    assert said.count("failed") > len(said) * 0.8
    count_runs(len(said))
