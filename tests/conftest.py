"""What the tests share: the programs that they run, and what is told of the run. `pytest-3 tests -k NAME` runs the tests of a name,
`-n auto` all processors.

A test that needs what isn't built is left out, and so, but with GATE=1, is one that is marked as the gate's. In the gate nothing is."""

import fcntl
import os
import pathlib
import shutil
import sys
import threading
import time

import pytest

sys.dont_write_bytecode = True
TOP = pathlib.Path(__file__).resolve().parent.parent
sys.path[:0] = [str(TOP / it) for it in ("tests", "tests/model", "tests/rows", "tests/validation", "scripts")]
GATE = bool(os.environ.get("GATE"))
# what builds what tests need
BUILT_BY = {"rt1553": "make", "rt1553-tool": "make tool", "library": "make library", "rt1553.html": "make page"}
# seconds after which a line tells how far the tests are
SILENCE = 30

pytest.register_assert_rewrite("programs", "schemas", "drawings", "reports")
from programs import run, succeed  # noqa: E402


def there(place):
    """What is built, if it is."""
    if not place.exists():
        (pytest.fail if GATE else pytest.skip)(f"{place.name} is not built")
    return place


class Build:
    """The two programs as one compiler builds them."""

    def __init__(self, rt1553, tool):
        self.places = rt1553, tool

    @property
    def rt1553(self):
        return there(self.places[0])

    @property
    def tool(self):
        return there(self.places[1])


def pytest_addoption(parser):
    parser.addoption("--built", type=pathlib.Path, default=TOP,
                     help="a copy of this repository in which `rt ci` has run; by default this one, as `make` leaves it")  # fmt: skip


def builds_in(top):
    """The builds in a folder: that which is shipped and, where `rt ci` has run, that of Rattle's own compiler."""
    found = {"shipped": Build(top / "bin/rt1553", top / "bin/rt1553-tool"),
             "rattle": Build(*(top / f"crates/{it}/out/{it}.by-rattle" for it in ("rt1553_program", "rt1553_tool_program")))}  # fmt: skip
    return {name: it for name, it in found.items() if it.places[0].exists()}


def pytest_generate_tests(metafunc):
    """A test that takes a build runs with each."""
    if "build" in metafunc.fixturenames:
        found = builds_in(metafunc.config.getoption("built").resolve())
        if not found:
            raise pytest.UsageError("no programs are built: make leaves them in bin/")
        metafunc.parametrize("build", list(found), indirect=True, scope="session")


def pytest_collection_modifyitems(config, items):
    """Leaves out what is the gate's, and begins with what is slow."""
    left_out = [it for it in items if it.get_closest_marker("gate") and not GATE]
    config.hook.pytest_deselected(items=left_out)
    slow = [it for it in items if it.get_closest_marker("slow") and it not in left_out]
    items[:] = [it for it in items if it not in left_out and it not in slow]
    # each process begins with as many tests, one after another; the slow ones are spread
    processes = int(os.environ.get("PYTEST_XDIST_WORKER_COUNT", 1))
    for number, it in enumerate(slow):
        items.insert(number % processes * max(2, len(items) // (4 * processes)), it)


@pytest.fixture(scope="session")
def build(request, built):
    """The programs of a compiler. pytest tells builds apart by their names, and makes what depends on one once."""
    return builds_in(built)[request.param]


@pytest.fixture(scope="session")
def built(request):
    """The folder with what is built."""
    return request.config.getoption("built").resolve()


@pytest.fixture(scope="session")
def rt1553(build):
    """The program `rt1553`, as each compiler builds it."""
    return build.rt1553


@pytest.fixture(scope="session")
def tool(build):
    """The program `rt1553-tool`, as each compiler builds it."""
    return build.tool


@pytest.fixture(scope="session")
def shipped(built):
    """The programs that are shipped, where a test needs no other."""
    return Build(built / "bin/rt1553", built / "bin/rt1553-tool")


@pytest.fixture(scope="session")
def once(request, tmp_path_factory):
    """Makes once what costs much, for all processes of a run: `once(NAME, MAKE)` is a folder, which MAKE fills where none has yet."""
    place = tmp_path_factory.getbasetemp()
    if hasattr(request.config, "workerinput"):
        place = place.parent

    def filled(name, make):
        folder, done = place / name, place / f"{name}.done"
        with open(place / f"{name}.lock", "w", encoding="utf-8") as lock:
            fcntl.flock(lock, fcntl.LOCK_EX)
            if not done.exists():
                shutil.rmtree(folder, ignore_errors=True)
                folder.mkdir()
                make(folder)
                done.touch()
        return folder

    return filled


@pytest.fixture(scope="session")
def made(once, built):
    """What scripts/build.py makes for a word, as `library`, at a place below bin/. In a copy it takes what `rt ci` left, and nothing that
    was kept before; else it is what was built before."""

    def make(word, place, target=""):
        at = built / "bin" / target / place
        if built == TOP and not target:
            return there(at)
        kept = {"RT1553_KEPT": f"{built}/kept{target}"} if built != TOP else {}
        words = ("python3", TOP / "scripts/build.py", word, *[built] * len(kept))
        once(f"{word}{target}", lambda _: succeed(*words, TARGET=target, timeout=3600, **kept))
        return at

    return make


@pytest.fixture(scope="session")
def library(made):
    """The library for this machine."""
    return made("library", "library")


@pytest.fixture(scope="session")
def page(made):
    """The file of the page."""
    return made("page", "rt1553.html")


@pytest.fixture(scope="module")
def clone_as_it_was():
    """The tests of a file leave the clone as it was; that is seen behind the last of them."""
    before = run("git", "status", "--porcelain", folder=TOP)
    yield
    assert run("git", "status", "--porcelain", folder=TOP) == before


@pytest.fixture
def count_runs(record_property):
    """Tells how many runs a test makes that has no item for each: the end of the report has their sum."""
    return lambda runs: record_property("runs", runs)


# --- what is told of a run


class Progress:
    """Tells each failure as it comes, and each half minute how far the tests are."""

    def __init__(self, reporter):
        self.reporter, self.done, self.failed, self.last, self.ended = reporter, 0, 0, "", threading.Event()

    def pytest_sessionstart(self, session):
        threading.Thread(target=self.tell, args=(session, time.monotonic()), daemon=True).start()

    def pytest_sessionfinish(self):
        self.ended.set()

    def tell(self, session, began):
        """Tells it, as long as the run takes."""
        while not self.ended.wait(SILENCE):
            seconds = int(time.monotonic() - began)
            told = f"{self.done} of {session.testscollected} tests, {self.failed} failed; last of {self.last}" if self.done else "no test has ended"
            self.reporter.write_line(f"{seconds // 60} min {seconds % 60:02d} s: {told}")

    def pytest_runtest_logreport(self, report):
        self.last = report.nodeid.partition("::")[0]
        self.done += report.when == "teardown"
        if report.failed:
            self.failed += 1
            self.reporter.write_line(f"FAILED {report.nodeid}")

    def pytest_report_teststatus(self, report):
        """No letter for each test."""
        if report.when == "call" or report.skipped:
            return report.outcome, "", ""
        return None


@pytest.hookimpl(trylast=True)
def pytest_configure(config):
    reporter = config.pluginmanager.get_plugin("terminalreporter")
    if reporter and not hasattr(config, "workerinput"):
        config.pluginmanager.register(Progress(reporter))


def pytest_terminal_summary(terminalreporter):
    passed = terminalreporter.stats.get("passed", [])
    runs = sum(runs for it in passed for name, runs in it.user_properties if name == "runs")
    terminalreporter.write_line(f"runs inside of tests that passed: {runs}")
    reasons = [str(it.longrepr[2]).removeprefix("Skipped: ") for it in terminalreporter.stats.get("skipped", [])]
    for name, command in BUILT_BY.items():
        if count := reasons.count(f"{name} is not built"):
            terminalreporter.write_line(f"{name} is not built: {count} tests left out; {command}")
