"""Runs of the cases of plex-test, many at once, and what came of each.

`Runner(..).outcomes(cases)` gives the outcome of each case, in their order. A case passes where the
program ends with the status of the case, and writes what its files have, byte for byte.
"""
import concurrent.futures
import os
import pathlib
import re
import signal
import subprocess
import threading
import time
from typing import Dict, Iterator, List, NamedTuple, Optional, Sequence, Set

from plextools import files
from plextools.runs import cases
from plextools.runs.cases import Broken, Case, Step

# A report tells of a fault by these lines, and the summary of `plex load` by these counts.
FAULT = re.compile(rb"^(?:RELEASE F\d+ job |RESTART job |RELEASES [1-9]|END RESTART$).*$", re.M)
RUNS = ([b"run"], [b"single"], [b"timed"], [b"change"], [b"trace"], [b"load"])
# The statuses that depend on the files of a case alone, not on memory, disk or a build.
OWN_STATUSES = (0, 1, 2, 3, 4, 5, 6, 9, 11, 12, 13)
SHOWN_FAULTS = 10
PROGRESS = "PLEX_PROGRESS"  # what a terminal shows of a run is no part of a case
NOTICE = b": NOT PROVED HERE: "  # of the launcher in the sources, before the program starts


class Settings(NamedTuple):
    """How cases are run: the path of each program, how many run at once, and for how many seconds
    each.
    """

    programs: Dict[str, str]
    jobs: int
    timeout: int
    updates: bool = False
    forbids_faults: bool = False


class Answer(NamedTuple):
    """What a program wrote, and its exit status; below 0 it is the signal by which the system ended
    it.
    """

    status: int
    wrote: bytes
    complaint: bytes


class Difference(NamedTuple):
    """A file of a case that does not have what the program wrote."""

    file: str
    wanted: bytes
    wrote: bytes


class Failure(NamedTuple):
    """Why a case fails: a sentence, and what shows it."""

    told: str
    difference: Optional[Difference] = None
    lines: Sequence[bytes] = ()


class Outcome(NamedTuple):
    """What came of a case: why it fails, if it does, and which of its files were written anew."""

    case: Case
    failures: List[Failure]
    updated: List[str]
    seconds: float

    @property
    def has_passed(self) -> bool:
        return not self.failures


class Stopped(Exception):
    """No more cases are to be run."""


class Runner:
    """Runs cases, several at once."""

    def __init__(self, settings: Settings) -> None:
        self.settings = settings
        self.lock, self.is_stopped = threading.Lock(), False
        self.running: Set["subprocess.Popen[bytes]"] = set()
        self.environment = {name: word for name, word in os.environ.items() if name != PROGRESS}

    def outcomes(self, chosen: Sequence[Case]) -> Iterator[Outcome]:
        """What came of each case. Where nobody wants the rest, all that runs is ended."""
        with concurrent.futures.ThreadPoolExecutor(self.settings.jobs) as pool:
            waiting = [pool.submit(self.outcome, case) for case in chosen]
            try:
                for future in waiting:
                    yield future.result()
            except BaseException:
                self.stop()
                for future in waiting:
                    future.cancel()
                raise

    def stop(self) -> None:
        """Ends the programs that run, and starts no other."""
        with self.lock:
            self.is_stopped = True
            for process in self.running:
                kill(process)

    def outcome(self, case: Case) -> Outcome:
        """What comes of a case."""
        begun, failures, updated = time.monotonic(), [], []
        try:
            for step in cases.steps_of(case):
                answer = self.answer(case, step)
                wrong = list(self.failures(case, step, answer))
                if wrong and self.may_take(step, answer, wrong):
                    updated += list(take(case, step, answer))
                else:
                    failures += wrong
        except Broken as broken:
            failures.append(Failure(str(broken)))
        return Outcome(case, failures, updated, time.monotonic() - begun)

    def answer(self, case: Case, step: Step) -> Answer:
        """Calls a program from the folder of a case, in a session of its own, so that all that it
        starts can be ended with it.
        """
        try:
            process = self.started(case, step)
        except (OSError, ValueError) as wrong:
            why = getattr(wrong, "strerror", None) or wrong
            raise Broken(f"{step.program} could not be run: {why}") from wrong
        try:
            wrote, complaint = process.communicate(timeout=self.settings.timeout)
        except subprocess.TimeoutExpired as late:
            raise Broken(f"{step.program} did not end within {self.settings.timeout} s") from late
        finally:
            self.ended(process)
        if self.is_stopped:
            raise Stopped
        return Answer(process.returncode, wrote, without_notice(complaint))

    def started(self, case: Case, step: Step) -> "subprocess.Popen[bytes]":
        with self.lock:
            if self.is_stopped:
                raise Stopped
            process = subprocess.Popen(
                [os.fsencode(self.settings.programs[step.program]), *step.words],
                cwd=case.folder,
                env=self.environment,
                stdin=subprocess.DEVNULL,
                stdout=subprocess.PIPE,
                stderr=subprocess.PIPE,
                start_new_session=True,
            )
            self.running.add(process)
            return process

    def ended(self, process: "subprocess.Popen[bytes]") -> None:
        """A program has ended, or is ended now; nothing more is read of what it has started."""
        with self.lock:
            self.running.discard(process)
            kill(process)
        for pipe in (process.stdout, process.stderr):
            if pipe:
                pipe.close()
        process.wait()

    def failures(self, case: Case, step: Step, answer: Answer) -> Iterator[Failure]:
        """All that is wrong with what a program wrote."""
        status = 0 if step.is_first else cases.status_of(case)
        if answer.status != status:
            yield Failure(f"{told_status(answer.status)}, expected {status}")
        report = cases.content(case.folder, step.report)
        if report is None:
            yield Failure(f"there is no {step.report}; --update writes it")
        elif report != answer.wrote:
            yield Failure(f"{step.report} differs", Difference(step.report, report, answer.wrote))
        error = error_of(case, step)
        if error != answer.complaint:
            told = f"{cases.ERROR} differs" if error else "it wrote to the standard error"
            yield Failure(told, Difference(cases.ERROR, error, answer.complaint))
        if self.settings.forbids_faults:
            yield from told_faults(step, answer)

    def may_take(self, step: Step, answer: Answer, wrong: Sequence[Failure]) -> bool:
        """Whether what a program wrote becomes what it must write."""
        is_own = answer.status in ((0,) if step.is_first else OWN_STATUSES)
        return self.settings.updates and is_own and not any(failure.lines for failure in wrong)


def kill(process: "subprocess.Popen[bytes]") -> None:
    """Ends a program that still runs, and what it has started."""
    if process.returncode is None:
        try:
            os.killpg(process.pid, signal.SIGKILL)
        except ProcessLookupError:
            pass


def without_notice(complaint: bytes) -> bytes:
    """What a program says on the standard error, without what the launcher says before it."""
    line, end, rest = complaint.partition(b"\n")
    return rest if end and NOTICE in line else complaint


def told_status(status: int) -> str:
    if status >= 0:
        return f"status {status}"
    try:
        return f"ended by {signal.Signals(-status).name}"
    except ValueError:
        return f"ended by signal {-status}"


def told_faults(step: Step, answer: Answer) -> Iterator[Failure]:
    """The lines of a report that tell of a fault."""
    is_run = step.program == cases.PLEX and step.words[:1] in RUNS
    lines = FAULT.findall(answer.wrote) if is_run else []
    if lines:
        more = [b"and %d more" % (len(lines) - SHOWN_FAULTS)] if len(lines) > SHOWN_FAULTS else []
        yield Failure("its report tells of faults", lines=[*lines[:SHOWN_FAULTS], *more])


def error_of(case: Case, step: Step) -> bytes:
    """What a program must say on the standard error."""
    return b"" if step.is_first else cases.content(case.folder, cases.ERROR) or b""


# --update


def take(case: Case, step: Step, answer: Answer) -> Iterator[str]:
    """Writes what a program wrote into the files of a case; gives the names of those."""
    if cases.content(case.folder, step.report) != answer.wrote:
        yield written(case, step, step.report, answer.wrote)
    if step.is_first:
        return
    if cases.status_of(case) != answer.status:
        yield written(case, step, cases.STATUS, b"%d\n" % answer.status)
    if error_of(case, step) != answer.complaint:
        yield written(case, step, cases.ERROR, answer.complaint)


def written(case: Case, step: Step, name: str, text: bytes) -> str:
    """Writes a file of a case, which no word of the step may name; one that must be empty goes away
    where it need not be there.
    """
    place = case.folder / name
    if any(is_same(case.folder, word, place) for word in step.words):
        raise Broken(f"{name} is not updated, as the run reads it")
    try:
        if name == cases.ERROR and not text:
            place.unlink()
        else:
            files.replace(place, [text])
    except OSError as wrong:
        raise Broken(f"{name} could not be written: {wrong.strerror}") from wrong
    return name


def is_same(folder: pathlib.Path, word: bytes, place: pathlib.Path) -> bool:
    """Whether a word names a file, from a folder."""
    try:
        return os.path.samefile(os.path.join(os.fsencode(folder), word), place)
    except (OSError, ValueError):
        return False
