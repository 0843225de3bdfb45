"""plex-test [OPTION ...] FOLDER ...

Runs the cases in each FOLDER and below it, several in parallel, and compares the output of the
programs with the files of each case. A case is a folder with the file `words` or `merge`, or with
exchange.plex and signals.txt; its expected report is report.txt. A failed case is reported in a
line, followed by a unified diff; the last line has the counts.

The status is 0 if all cases passed, 1 if some failed, 2 if the words are wrong or no case was
found, and 130 if it was interrupted.
"""
import argparse
import os
import pathlib
import signal
import sys
import time
from types import FrameType
from typing import List, Optional, Sequence

from plextools import files, programs, progress
from plextools.commands.command_words import described
from plextools.runs import case_runs, cases
from plextools.show import outcomes as shown
from plextools.show.differences import quoted

PASSED, FAILED, INTERRUPTED = 0, 1, 130
MOST_JOBS, MOST_SECONDS = 1024, 1_000_000
XML = b"<?xml"


def parser() -> argparse.ArgumentParser:
    """The words of the command."""
    words = programs.Words(__doc__)
    words.add_argument("folders", metavar="FOLDER", nargs="+", help="where the cases are")
    words.add_argument("-j", "--jobs", type=programs.number_to(MOST_JOBS))
    words.add_argument(
        "-k",
        dest="parts",
        action="append",
    )
    words.add_argument("--list", action="store_true")
    words.add_argument("-v", "--verbose", action="store_true")
    words.add_argument("--update", action="store_true")
    words.add_argument(
        "--no-faults",
        action="store_true",
    )
    words.add_argument("--junit")
    words.add_argument(
        "--timeout",
        type=programs.number_to(MOST_SECONDS),
        default=programs.LONGEST,
    )
    return described(words)


def main() -> int:
    """Lists the cases, or runs them."""
    words = parser().parse_args()
    chosen = chosen_cases(words.folders, words.parts)
    if words.list:
        for case in chosen:
            print(quoted(case.name))
        return PASSED
    if words.junit is not None:
        check_place(words.junit)
    settings = case_runs.Settings(
        programs_of(chosen),
        words.jobs or processors(),
        words.timeout,
        words.update,
        words.no_faults,
    )
    return run(chosen, settings, words.verbose, words.junit)


def chosen_cases(folders: Sequence[str], parts: Optional[Sequence[str]]) -> List[cases.Case]:
    """The cases with a part in their names; one at least."""
    found = cases.cases_in(folders)
    if not found:
        raise programs.Wrong(f"there is no case in {', '.join(map(repr, folders))}")
    chosen = [case for case in found if parts is None or any(part in case.below for part in parts)]
    if not chosen:
        raise programs.Wrong(
            f"none of {len(found)} cases has {' or '.join(map(repr, parts or ()))} in its name"
        )
    return chosen


def programs_of(chosen: Sequence[cases.Case]) -> "dict[str, str]":
    """The paths of the programs that the cases run."""
    merges = any(os.path.exists(case.folder / cases.MERGE) for case in chosen)
    return {name: programs.program(name) for name in (cases.PLEX, cases.MERGER)[: 1 + merges]}


def processors() -> int:
    """How many processors there are for this process."""
    return len(os.sched_getaffinity(0))


def run(
    chosen: Sequence[cases.Case], settings: case_runs.Settings, is_long: bool, junit: Optional[str]
) -> int:
    """Runs the cases, and tells of each as soon as all before it were told."""
    begun, ended = time.monotonic(), []
    runner = case_runs.Runner(settings)
    take_signals()
    try:
        for outcome in progress.shown(runner.outcomes(chosen), "plex-test", len(chosen)):
            ended.append(outcome)
            for line in shown.lines_of(outcome, is_long):
                print(line)
            sys.stdout.flush()
    except KeyboardInterrupt:
        print(shown.summary(ended, len(chosen) - len(ended)))
        return INTERRUPTED
    finally:
        runner.stop()
    if junit is not None:
        write(junit, shown.junit(ended, time.monotonic() - begun))
    print(shown.summary(ended, 0))
    return PASSED if all(outcome.has_passed for outcome in ended) else FAILED


def take_signals() -> None:
    """The signals that end the command interrupt it, so that it ends what it has started."""
    for number in (signal.SIGTERM, signal.SIGHUP):
        if signal.getsignal(number) != signal.SIG_IGN:
            signal.signal(number, interrupt)


def interrupt(number: int, frame: Optional[FrameType]) -> None:
    raise KeyboardInterrupt


# --junit


def check_place(name: str) -> None:
    """Raises `Wrong` where the outcomes cannot be written into a file, or it has something else."""
    place = pathlib.Path(name)
    try:
        if place.exists() and not (place.is_file() and is_outcomes(place)):
            raise programs.Wrong(
                f"{name!r} is there, and is no file of outcomes: it is not replaced"
            )
        if not os.access(place.resolve().parent, os.W_OK):
            raise programs.Wrong(f"{name!r} cannot be written: there is no folder for it")
    except (OSError, ValueError) as wrong:
        raise programs.Wrong(f"{name!r} cannot be written: {wrong}") from wrong


def is_outcomes(place: pathlib.Path) -> bool:
    """Whether a file is empty, or may be one of an earlier run."""
    with open(place, "rb") as file:
        begun = file.read(len(XML))
    return begun in (b"", XML)


def write(name: str, text: bytes) -> None:
    try:
        files.replace(pathlib.Path(name), [text])
    except OSError as wrong:
        raise programs.Wrong(f"{name!r} could not be written: {wrong.strerror}") from wrong
