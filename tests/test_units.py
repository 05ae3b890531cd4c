"""The unit tests of the crates, which show what only calls do. They are run without being proved: a proof of a test says nothing of what it
asserts."""

import re

import pytest
from programs import TOP, succeed

CRATES = ["terminal_tests", "rt1553_tests"]


@pytest.mark.slow
@pytest.mark.parametrize("crate", CRATES)
def test_units(crate, count_runs):
    said = succeed("rt", "try", "--test", "--seconds", "600", folder=TOP / "crates" / crate, timeout=1800).decode()
    count_runs(int(re.search(r"(\d+) passed", said)[1]))
