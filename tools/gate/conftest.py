"""Options, fixtures and sums of the tests of the gate."""
from __future__ import annotations

import os
import pathlib
import shutil
import signal
import subprocess
import sys
import tempfile
from collections import Counter, defaultdict
from typing import Any, Iterator

import pytest
from _pytest.terminal import TerminalReporter

from gate import harness
from gate.checking import TOOLS, Share, Sums, Tally
from gate.lsp_client import Client
from gate.lsp_example import need_module
from plextools import programs

SUMS: defaultdict[str, Sums] = defaultdict(Sums)
SECONDS: defaultdict[str, float] = defaultdict(float)  # of the processor, of each check
BEGUN = pytest.StashKey[float]()
SKIPPED: list[str] = []
UNPROVED: set[str] = set()  # the programs that were taken though they are not proved
OUTCOMES = ("passed", "failed", "error", "skipped")
LONGEST = 300.0  # seconds that the Python of one test may compute; what it calls has its own limits
# Where the processes of pytest-xdist find compiled modules, which is told to them by this variable.
COMPILED, PREFIX = "GATE_COMPILED", "PYTHONPYCACHEPREFIX"
IMPORTS_ALL = """
import contextlib, importlib, pkgutil, plextools
for one in pkgutil.walk_packages(plextools.__path__, "plextools."):
    with contextlib.suppress(ImportError):
        importlib.import_module(one.name)
"""


def several(word: str) -> list[int]:
    """Numbers with commas between them."""
    return [harness.count(number) for number in word.split(",")]


def pytest_addoption(parser: pytest.Parser) -> None:
    """The options of the checks by chance."""
    group = parser.getgroup("plex")
    group.addoption("--seed", help="the seed of cases made by chance (the date of the commit)")
    group.addoption(
        "--cases",
        type=harness.count,
        help="how many cases each check by chance makes (as many as the gate)",
    )
    group.addoption(
        "--workers",
        type=several,
        metavar="N,N,..",
        help="the workers of the runs of test_fuzz.py (three from 2 to 64, others for each case)",
    )
    group.addoption(
        "--keep",
        type=pathlib.Path,
        metavar="FOLDER",
        help="where test_fuzz.py keeps cases that fail",
    )
    group.addoption(
        "--forms",
        type=harness.count,
        default=20,
        metavar="N",
        help="how many exchanges of special forms test_compare_runs.py makes",
    )
    group.addoption(
        "--whole",
        action="store_true",
        help="test_large_texts.py runs all its cases, in their full size",
    )
    group.addoption(
        "--write",
        action="store_true",
        help="write anew what is compared: the texts of test_tool_examples.py, the figures of "
        "test_large_texts.py, or the pictures of test_look_at_page.py",
    )


def pytest_configure(config: pytest.Config) -> None:
    """Settles the seed before processes start, so that all make the same cases."""
    heed_interrupts()
    config.addinivalue_line("markers", "counted(cases): has so many cases, which are summed up")
    config.addinivalue_line(
        "markers", "by_chance(gate): makes cases by chance, so many in the gate"
    )
    config.addinivalue_line(
        "markers", "alone: measures time, so that no other test may run beside it"
    )
    config.addinivalue_line("markers", "long: takes long, so that it is started first")
    if config.option.seed is None:
        config.option.seed = harness.seed()
    if is_worker(config):
        os.environ[PREFIX] = os.environ[COMPILED]
    elif getattr(config.option, "numprocesses", None):
        os.environ[COMPILED] = compiled(config)


def heed_interrupts() -> None:
    """Takes the interrupts that a job in the background of a script ignores: what is started would
    ignore them too.
    """
    if signal.getsignal(signal.SIGINT) == signal.SIG_IGN:
        signal.signal(signal.SIGINT, signal.default_int_handler)


def compiled(config: pytest.Config) -> str:
    """A folder with the modules of the tools for users and those that they import, compiled, so
    that not each of the many tools that the tests start compiles its own anew.
    """
    folder = tempfile.mkdtemp()
    config.add_cleanup(lambda: shutil.rmtree(folder, ignore_errors=True))
    os.chmod(folder, 0o755)  # another user may run a tool
    around = {**os.environ, PREFIX: folder, "PYTHONPATH": str(TOOLS / "python")}
    around.pop("PYTHONDONTWRITEBYTECODE", None)
    for python in (sys.executable, "python3"):
        subprocess.run([python, "-c", IMPORTS_ALL], env=around, timeout=LONGEST, check=False)
    return folder


def pytest_report_header(config: pytest.Config) -> str:
    """The first lines tell the seed."""
    return f"plex: seed {config.option.seed}"


def cases_of(config: pytest.Config, gate: int) -> int:
    """How many cases a check by chance makes."""
    return int(config.option.cases or gate)


def pytest_generate_tests(metafunc: pytest.Metafunc) -> None:
    """One test for each case of a check by chance."""
    mark = metafunc.definition.get_closest_marker("by_chance")
    if "form_number" in metafunc.fixturenames:
        forms = range(metafunc.config.option.forms)
        metafunc.parametrize("form_number", forms, ids=[f"form{number}" for number in forms])
    if mark:
        numbers = range(cases_of(metafunc.config, mark.args[0]))
        metafunc.parametrize("number", numbers, ids=[f"case{number}" for number in numbers])


def pytest_collection_modifyitems(items: list[pytest.Item]) -> None:
    """Puts what takes long first, and what one process has to run as a group, so that no process
    works on alone at the end.
    """
    items.sort(key=lambda item: not any(map(item.get_closest_marker, ("long", "xdist_group"))))


def found(program: programs.Program) -> pathlib.Path:
    """A program; a test that asks for one that cannot be taken fails by what is wrong with it."""
    try:
        return harness.found(program)
    except SystemExit as wrong:
        pytest.fail(str(wrong), pytrace=False)


@pytest.fixture(scope="session")
def plex() -> pathlib.Path:
    """The program, which the tools for users find too."""
    path = found(harness.PLEX)
    os.environ[harness.PLEX.variable] = str(path)
    return path


@pytest.fixture(scope="session")
def merger() -> pathlib.Path:
    """The program plex-merge."""
    return found(harness.MERGER)


@pytest.fixture(scope="session")
def conflicts() -> pathlib.Path:
    """The program plex-conflicts, which the tools for users find too."""
    path = found(harness.CONFLICTS)
    os.environ[harness.CONFLICTS.variable] = str(path)
    return path


@pytest.fixture(scope="session")
def seed(pytestconfig: pytest.Config) -> str:
    """The seed of cases made by chance."""
    return str(pytestconfig.option.seed)


@pytest.fixture
def folder() -> Iterator[pathlib.Path]:
    """A folder for the files of a case, which is removed behind it: some have many megabytes."""
    with tempfile.TemporaryDirectory() as name:
        yield pathlib.Path(name)


@pytest.fixture(scope="module")
def server() -> Iterator[Client]:
    """A language server, without the programs of plex."""
    yield from one_server()


@pytest.fixture(scope="module")
def other_server() -> Iterator[Client]:
    """A second one."""
    yield from one_server()


def one_server() -> Iterator[Client]:
    need_module()
    made = Client(environment={"PLEX_CONFLICTS": "/nowhere/plex-conflicts"})
    yield made
    made.kill()


@pytest.fixture
def client(server: Client) -> Iterator[Client]:
    """The client of a language server, with no document open."""
    yield server
    server.close_all()


@pytest.fixture
def other(other_server: Client) -> Iterator[Client]:
    """The client of the second one."""
    yield other_server
    other_server.close_all()


@pytest.fixture
def tally(request: pytest.FixtureRequest) -> Tally:
    """Counts what the cases of a check come to."""
    by_chance, counted = map(request.node.get_closest_marker, ("by_chance", "counted"))
    cases = (
        cases_of(request.config, by_chance.args[0]) if by_chance else request.config.option.forms
    )
    return Tally(request.node, counted.args[0] if counted else cases)


def goes_round(*_: object) -> None:
    """Ends a test that computes for too long, where it is."""
    pytest.fail(f"it computes for more than {LONGEST:.0f} seconds")


@pytest.hookimpl(hookwrapper=True)  # type: ignore[misc]
def pytest_runtest_call() -> Iterator[None]:
    """Limits the time of a test, since a wrong answer may lead its own account astray."""
    signal.signal(signal.SIGVTALRM, goes_round)
    signal.setitimer(signal.ITIMER_VIRTUAL, LONGEST)
    try:
        yield
    finally:
        signal.setitimer(signal.ITIMER_VIRTUAL, 0)


def processor() -> float:
    """The seconds of the processor that this process and its ended children have taken."""
    return sum(os.times()[:4])


@pytest.hookimpl(tryfirst=True)  # type: ignore[misc]
def pytest_runtest_setup(item: pytest.Item) -> None:
    """Notes when a test begins."""
    item.stash[BEGUN] = processor()


@pytest.hookimpl(tryfirst=True)  # type: ignore[misc]
def pytest_runtest_makereport(item: pytest.Item, call: pytest.CallInfo[None]) -> None:
    """Notes what a test has taken of the processor."""
    if call.when == "teardown":
        item.user_properties.append(("seconds", processor() - item.stash[BEGUN]))


def pytest_runtest_logreport(report: pytest.TestReport) -> None:
    """Sums up what the cases count and take, in the process that starts the others."""
    if report.skipped:
        SKIPPED.append(report.nodeid)
    for name, value in report.user_properties:
        if name == "share" and report.when == "call":
            share = Share(**value)  # type: ignore[arg-type]
            SUMS[share.check].add(share)
        elif name == "seconds":
            SECONDS[file_of(report)] += float(str(value))


def wrong_at_the_end() -> Iterator[str]:
    """What is wrong with all tests together."""
    most = os.environ.get("MOST_LEFT_OUT")
    if most is not None and len(SKIPPED) > int(most):
        yield f"{len(SKIPPED)} tests are left out, and MOST_LEFT_OUT is {most}"
    for name, sums in SUMS.items():
        yield from (f"{name}: {told}" for told in sums.few())


def is_worker(config: pytest.Config) -> bool:
    """Whether this process runs tests for another one, which sums up."""
    return hasattr(config, "workerinput")


def pytest_sessionfinish(session: pytest.Session) -> None:
    """Fails where the sums are too small, or too much is left out."""
    unproved = list(map(str, harness.UNPROVED))
    harness.UNPROVED_TOLD.append(True)
    if is_worker(session.config):
        session.config.workeroutput["unproved"] = unproved  # type: ignore[attr-defined]
        return
    UNPROVED.update(unproved)
    if session.exitstatus == 0 and any(wrong_at_the_end()):
        session.exitstatus = pytest.ExitCode.TESTS_FAILED


@pytest.hookimpl(optionalhook=True)  # type: ignore[misc]
def pytest_testnodedown(node: Any) -> None:
    """Takes over what a process of pytest-xdist tells at its end."""
    UNPROVED.update(getattr(node, "workeroutput", {}).get("unproved", ()))


def file_of(report: pytest.TestReport) -> str:
    """The name of the file of a test."""
    return report.nodeid.split("::")[0].rpartition("/")[2]


def by_file(reporter: TerminalReporter) -> dict[str, Counter[str]]:
    """How many tests of each file came to which end."""
    files: defaultdict[str, Counter[str]] = defaultdict(Counter)
    for outcome in OUTCOMES:
        for report in reporter.stats.get(outcome, ()):
            files[file_of(report)][outcome] += 1
    return dict(sorted(files.items()))


def pytest_terminal_summary(terminalreporter: TerminalReporter) -> None:
    """Tells the count of each check, the sums of those by chance, their seed, and what is wrong."""
    files = by_file(terminalreporter)
    if not files:
        return
    terminalreporter.section("checks")
    for name, outcomes in files.items():
        told = ", ".join(f"{number} {outcome}" for outcome, number in outcomes.items())
        terminalreporter.write_line(f"{name}: {told}; {SECONDS[name]:.1f} s of the processor")
    terminalreporter.write_line(f"in all: {sum(SECONDS.values()):.1f} s of the processor")
    for name, sums in SUMS.items():
        terminalreporter.write_line(f"{name}: {sums.shares} of {sums.of} cases; {sums.told()}")
    terminalreporter.write_line(f"seed: {terminalreporter.config.option.seed}")
    if UNPROVED:
        terminalreporter.write_line(f"unproved: {', '.join(sorted(UNPROVED))}")
    for line in wrong_at_the_end():
        terminalreporter.write_line(line, red=True)
