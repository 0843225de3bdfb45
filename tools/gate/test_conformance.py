"""Runs of small programs beside reports that were worked out by hand from the documents.

Each folder of tools/gate/cases/conformance is a case: the program runs it by `run` with four
workers and with one, and with the certificate of the exchange if it has one, so that its first jobs
may run at once; and by `single`. A case has an exchange text in `exchange`, a signal file in
`signals`, and what must be written in `report`, byte for byte. Words that stand behind the files
are in `args`, one a line, and the exit status in `status`; without these files there are none, and
it is 0. A case with a third file has a command of its own: one with `table` is run by `timed`, and
one with `new_exchange` by `change`, each with 1, 2 and 8 workers; one with `filter` is run by
`trace`. The name of a case and the first line of its exchange say what it shows.
"""
from __future__ import annotations

import pathlib
from typing import NamedTuple

import pytest

from gate import harness
from gate.checking import check, check_enough

CASES = harness.CASES / "conformance"
NAMES = sorted(path.parent.name for path in CASES.glob("*/exchange"))
LEAST = 285
FILES = ("exchange", "signals")
WORKERS = ("1", "2", "8")


class Run(NamedTuple):
    """A command of a case, the files that it gets, and the words that stand behind those of the
    case.
    """

    command: str
    files: tuple[str, ...]
    more: tuple[str, ...] = ()


USUAL = [Run("run", FILES), Run("run", FILES, ("--workers", "1")), Run("single", FILES)]


def with_workers(command: str, third: str) -> list[Run]:
    """The runs of a command that gets a third file, with several numbers of workers."""
    return [Run(command, (*FILES, third), ("--workers", number)) for number in WORKERS]


BY_FILE = {
    "table": with_workers("timed", "table"),
    "new_exchange": with_workers("change", "new_exchange"),
    "filter": [Run("trace", (*FILES, "filter"))],
}


def optional(path: pathlib.Path, other: str) -> str:
    """The text of a file, or another one where there is no file."""
    return path.read_text() if path.exists() else other


def runs_of(case: pathlib.Path) -> list[Run]:
    """The runs of a case."""
    return next((runs for file, runs in BY_FILE.items() if (case / file).exists()), USUAL)


def certified(plex: pathlib.Path, case: pathlib.Path, folder: pathlib.Path) -> list[Run]:
    """The run with the certificate of the exchange, unless its text is refused, or the words of the
    case name one.
    """
    if "--cert" in optional(case / "args", "") or runs_of(case) is not USUAL:
        return []
    made = harness.answer(plex, ["certify", "exchange"], case)
    if made.status != 0 and made.wrote == (case / "report").read_bytes():
        return []
    harness.write_files(folder, {"certificate": made.wrote})
    return [Run("run", FILES, ("--cert", str(folder / "certificate")))]


def told_of(plex: pathlib.Path, case: pathlib.Path, run: Run) -> str | None:
    """What is wrong with one run of a case, or None."""
    words = [run.command, *run.files, *optional(case / "args", "").split("\n")[:-1], *run.more]
    wanted = int(optional(case / "status", "0")), (case / "report").read_bytes()
    told = harness.wrong(harness.answer(plex, words, case), *wanted)
    return f"{' '.join([run.command, *run.more])}: {told}" if told else None


@pytest.mark.parametrize("name", NAMES)
def test_conformance(plex: pathlib.Path, folder: pathlib.Path, name: str) -> None:
    """Each run of a case ends and writes as its files say."""
    case = CASES / name
    runs = [*runs_of(case), *certified(plex, case, folder)]
    check(*(told_of(plex, case, run) for run in runs))


def test_all_cases_are_there() -> None:
    """No case is lost."""
    check_enough("cases", NAMES, LEAST)
