"""What a long run tells of its progress on the standard error.

Exchanges run for some seconds, by the pace of the program, with the variable PLEX_PROGRESS set:
each second comes one line of jobs done and jobs a second, over the one before, which is cleared
before the report; the jobs never fall. Where the variable is empty, in a short run, and with
`trace`, nothing stands there. On a terminal the launcher sets it; that is tried without PLEX alone.
"""
from __future__ import annotations

import os
import pathlib
import pty
import re
import select
import signal
import subprocess
import tempfile
import time
from typing import Iterator, NamedTuple, Sequence

import pytest

from gate import harness, paced_runs
from gate.checking import check

pytestmark = [pytest.mark.xdist_group("progress"), pytest.mark.long]

LAUNCHER = harness.PLEX.launcher
LONGEST = harness.WHILE
SECONDS = 5  # of each run, by the pace of the program
ALL, FEW = (400_000, 9_000_000), 100_000  # the jobs of a run at least and at most
LINE = re.compile(rb"\rplex: (\d+) jobs done, (\d+) jobs a second\x1b\[K")
CLEARED = b"\r\x1b[K"
TICKER = """SIGNAL TICK SINGLE BUFFERED B DATA 1;
BLOCK COUNTER;
DECLARE; VARIABLE N WIDTH 32; TEMPORARY T; TEMPORARY I; TEMPORARY S;
SURVEY; RECEIVE TICK; SEND TICK;
PROGRAM;
ENTER TICK WITH T;
ON I FROM 1 UPTO 60 DO S = S + 3 + I MOD 7; NO;
N = N + 1;
IF T > 0 THEN SEND TICK WITH T - 1; FI;
EXIT;
END BLOCK;
"""
LINE_OF_JOBS = "AFTER 0 TICK COUNTER {} NONE\n"
DONE, CUT = 0, 5


class Told(NamedTuple):
    """The words of a run that tells how far it is, its report and its status."""

    words: Sequence[str]
    report: str
    status: int


class Silent(NamedTuple):
    """The words of a run that tells nothing, the value of the variable, and its status. A short run
    may last a second where others use the machine, but not each time.
    """

    words: Sequence[str]
    progress: str
    status: int
    tries: int = 1


class Pace(NamedTuple):
    """How many jobs `run` does in some seconds, and `single`, which does fewer."""

    jobs: int
    fewer: int

    def files(self) -> dict[str, str]:
        """The exchange with a line for all jobs, and a table and a filter of no line."""
        return {"E": TICKER, "S": LINE_OF_JOBS.format(self.jobs), "T": "", "Q": ""}

    def told(self) -> dict[str, Told]:
        """The runs that tell how far they are, by their command."""
        jobs, half, fewer = self.jobs + 1, self.jobs // 2, self.fewer
        report = f"JOBS {jobs}\nVAR COUNTER.N {jobs}\nEND DONE\n"
        front = f"JOBS {fewer}\nVAR COUNTER.N {fewer}\nEND LIMIT\n"
        change = ["change", "E", "S", "E", str(half), "--workers", "1"]
        return {
            "timed": Told(["timed", "E", "S", "T"], report, DONE),
            "change": Told(change, f"CHANGE job {half}\n{report}", DONE),
            "single": Told(["single", "E", "S", "--jobs", str(fewer)], front, CUT),
        }

    def silent(self) -> dict[str, Silent]:
        """The runs that tell nothing."""
        trace = ["trace", "E", "S", "Q", "--jobs", str(self.fewer)]
        return {
            "run that is not asked": Silent(["run", "E", "S", "--workers", "1"], "", DONE),
            "short run": Silent(["run", "E", "S", "--jobs", "100"], "1", CUT, tries=10),
            "trace": Silent(trace, "1", CUT),
        }


UNPACED = Pace(0, 0)


@pytest.fixture(scope="module")
def pace() -> Pace:
    """The pace of the program."""
    program = harness.find_launcher(harness.PLEX)
    with tempfile.TemporaryDirectory() as name:
        folder = pathlib.Path(name)
        harness.write_files(folder, {"E": TICKER, "S": LINE_OF_JOBS.format(2**32 - 1)})
        words: list[str | pathlib.Path] = [program, "run", "E", "S", "--workers", "1"]
        jobs = paced_runs.jobs_in(SECONDS, words, folder, *ALL)
        single: list[str | pathlib.Path] = [program, "single", "E", "S"]
        return Pace(jobs, paced_runs.jobs_in(SECONDS, single, folder, FEW, jobs // 2))


def run(
    pace: Pace, folder: pathlib.Path, words: Sequence[str], progress: str
) -> subprocess.CompletedProcess[bytes]:
    """A run as it ended, with the variable set to this."""
    harness.write_files(folder, pace.files())
    more = [] if "--jobs" in words else ["--jobs", "10000000"]
    try:
        return subprocess.run(
            [harness.find_launcher(harness.PLEX), *words, *more],
            cwd=folder,
            env={**os.environ, "PLEX_PROGRESS": progress},
            stdin=subprocess.DEVNULL,
            stdout=subprocess.PIPE,
            stderr=subprocess.PIPE,
            timeout=LONGEST,
        )
    except subprocess.TimeoutExpired:
        harness.late()
        pytest.fail("no answer in time", pytrace=False)


def lines_wrong(error: bytes, most: int) -> str | None:
    """What is wrong with the lines of a run of some seconds."""
    jobs = [int(found[1]) for found in LINE.finditer(error)]
    if LINE.sub(b"", error) != CLEARED:
        return f"beside its lines it has {LINE.sub(b'', error)[:100]!r}"
    if not jobs or jobs != sorted(jobs) or jobs[-1] > most:
        return f"the jobs are {jobs}"
    return None


class Run(NamedTuple):
    """A run that tells how far it is, what it must come to, as it ended, and its jobs at most."""

    told: Told
    done: subprocess.CompletedProcess[bytes]
    most: int


@pytest.fixture(scope="module", params=list(UNPACED.told()))
def run_told(pace: Pace, request: pytest.FixtureRequest) -> Iterator[Run]:
    """A run of some seconds, of which two tests look at what it wrote."""
    told = pace.told()[request.param]
    with tempfile.TemporaryDirectory() as folder:
        yield Run(told, run(pace, pathlib.Path(folder), told.words, "1"), pace.jobs + 1)


def test_report(run_told: Run) -> None:
    """A run of some seconds has its report."""
    told, done, _ = run_told
    is_right = (done.returncode, done.stdout.decode()) == (told.status, told.report)
    check(None if is_right else f"status {done.returncode}, it wrote {done.stdout[:100]!r}")


def test_lines(run_told: Run) -> None:
    """It tells how far it is."""
    check(lines_wrong(run_told.done.stderr, run_told.most))


@pytest.mark.parametrize("name", UNPACED.silent())
def test_silent(pace: Pace, folder: pathlib.Path, name: str) -> None:
    """A run that is not asked to tell, is short, or writes a trace tells nothing."""
    silent = pace.silent()[name]
    for _ in range(silent.tries):
        done = run(pace, folder, silent.words, silent.progress)
        if not done.stderr:
            break
    is_right = (done.returncode, done.stderr) == (silent.status, b"")
    check(None if is_right else f"status {done.returncode}, it tells {done.stderr[:100]!r}")


def on_terminal(folder: pathlib.Path, words: Sequence[str]) -> tuple[int, bytes]:
    """The status of a run of the launcher, and what a terminal is given by it."""
    child, terminal = pty.fork()
    if child == 0:
        os.chdir(folder)
        os.environ.pop("PLEX_PROGRESS", None)
        os.execv(LAUNCHER, [str(LAUNCHER), *words, "--jobs", "10000000"])
    given, until = b"", time.monotonic() + LONGEST
    try:
        while select.select([terminal], [], [], max(0, until - time.monotonic()))[0]:
            given += os.read(terminal, 65536)
        os.kill(child, signal.SIGKILL)
    except OSError:  # the end of a terminal
        pass
    os.close(terminal)
    status = os.waitstatus_to_exitcode(os.waitpid(child, 0)[1])
    return status, given


def terminal_wrong(status: int, given: bytes) -> str | None:
    """What is wrong with what a terminal is given."""
    lines, cleared, report = given.partition(CLEARED + b"JOBS ")
    wrong = not cleared or LINE.sub(b"", lines) or not LINE.search(lines) or LINE.search(report)
    return f"status {status}, it shows {given[:300]!r}" if status != DONE or wrong else None


# No launcher runs a program that PLEX names.
if harness.PLEX.variable not in os.environ:

    def test_terminal(pace: Pace, folder: pathlib.Path) -> None:
        """The launcher asks for the lines on a terminal."""
        harness.write_files(folder, pace.files())
        check(terminal_wrong(*on_terminal(folder, ["run", "E", "S"])))
