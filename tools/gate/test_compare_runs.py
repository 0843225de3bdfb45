"""Runs of exchanges made by chance, beside a second account that follows docs/MACHINE.md and
docs/FORMATS.md.

Each exchange with its signal file is made by made_exchange from the seed; some are made on purpose,
one to meet each fault, event and ending. What the program writes, and its status, are compared:

- single, run: with 2 to 64 workers, others for each, beside oracle.machine
- certified: the same run with the certificate of its exchange, so that its first jobs may run at
  once
- timed: with a table made by chance, beside oracle.runs
- trace: with a filter made by chance, beside oracle.runs
- change: to another exchange, of which each fifth one lacks something, beside oracle.runs
- list: the listing is read and run by oracle.listing, whose report must be that of the run
- long jobs, of half of the cases: the same exchange with a long loop in each job, so that jobs run
  at once: by single, and by run with and without the certificate, beside oracle.machine, or where
  that would take too long, beside one another

Runs of more than 100,000 statements are passed over, but for those that are made for the fault
BUDGET. Enough of each kind must be compared.

Last, exchanges are made of the statements that the machine makes at once, as made_forms says it:
20 in the gate, or as many as `--forms` says. Each is run by `single`, and by `run` with one worker
and with four, whose reports must be the same byte for byte; those that count few statements beside
oracle.machine too. 10,000 take some minutes.
"""
from __future__ import annotations

import pathlib
import random
from collections import Counter
from typing import Any, Callable, Iterator, Optional, Sequence

import pytest

from gate import further_runs, harness
from gate.checking import Tally, check
from gate.makers import made_exchange
from gate.oracle import listing as oracle_listing
from gate.oracle import machine as oracle_machine
from gate.oracle import runs as oracle_runs

GATE, LONG_ONES = 60, 2
PATIENCE, LONG_PATIENCE, SHORT_PATIENCE = 100_000, 1_100_000, 5_000
KINDS = ("single", "run", "certified", "timed", "trace", "change", "list")
LEAST_SHARE, LEAST_LONG = 0.6, 0.2  # of the cases, and of those with long jobs by oracle.machine
FORMS = {"one worker": ["--workers", 1], "four workers": ["--workers", 4]}
LACKING = {3: "ENTRY", 8: "FILE"}
TRIES = 200

# What must be met, as it stands in a report, and the family of entries that goes for it.
PURPOSES: dict[str, Optional[str]] = {
    "BUDGET at": "spin",
    "CHAIN at": "grab",
    "SENDS at": "shout",
    "DEPTH at": "deep",
    "NOTOWN at": "call",
    "RANGE at": "wild",
    "DIVIDE at": "wild",
    "POINTER at": "wild",
    "NOFORLOPP at": "wild",
    "BADEND at": "wild",
    "OUT ": None,
    "RELEASE ": None,
    "LOST ": None,
    "RESTART ": None,
    "REC ": None,
    "HELD ": None,
    "END DONE": None,
    "END RESTART": None,
    "END LIMIT": None,
}


class Case:
    """A case in a folder, with all that its runs need."""

    def __init__(
        self,
        plex: pathlib.Path,
        folder: pathlib.Path,
        case: Any,
        chance: random.Random,
        number: int,
        patience: int,
    ) -> None:
        self.plex, self.folder, self.case, self.patience = plex, folder, case, patience
        self.jobs = ["--jobs", case.limit]
        self.other = made_exchange.made_other(case, chance, LACKING.get(number % 10))
        self.table = made_exchange.made_table(case, chance)
        lines = map(further_runs.line_of, further_runs.made_filter(case, 20, chance))
        self.filter, self.chance = "".join(lines).encode(), chance
        files = {"E": case.exchange, "S": case.signals, "X": self.other}
        harness.write_files(folder, {**files, "T": self.table, "Q": self.filter})
        self.workers = ["--workers", chance.randint(2, 64)]
        self.is_long_too = False

    def wrong(self, words: Sequence[Any], report: bytes, status: int) -> Optional[str]:
        """What is wrong with a run."""
        got = harness.answer(self.plex, [*words, *self.jobs], self.folder)
        told: Optional[str] = harness.wrong(got, status, report)
        return told

    def texts(self, *more: Any) -> tuple[Any, ...]:
        """What the second account is given."""
        return self.case.exchange, self.case.signals, *more, self.case.limit, self.patience

    def looks(self, report: bytes, status: int) -> dict[str, Callable[[], Optional[str]]]:
        """What looks at each kind of run."""
        certify = harness.answer(self.plex, ["certify", "E"], self.folder)
        harness.write_files(self.folder, {"C": certify.wrote})
        usual = ["E", "S"]
        run = ["run", *usual, *self.workers]
        return {
            "single": lambda: self.wrong(["single", *usual], report, status),
            "run": lambda: self.wrong(run, report, status),
            "certified": lambda: self.wrong([*run, "--cert", "C"], report, status),
            "timed": self.timed,
            "trace": self.trace,
            "change": lambda: self.change(report),
            "list": lambda: self.list(report),
        }

    def of_long_jobs(self) -> Iterator[tuple[str, Optional[str]]]:
        """What is wrong with the runs of the same exchange with long jobs."""
        exchange = made_exchange.with_long_jobs(self.case.exchange)
        harness.write_files(self.folder, {"L": exchange})
        certify = harness.answer(self.plex, ["certify", "L"], self.folder)
        harness.write_files(self.folder, {"M": certify.wrote})
        single = harness.answer(self.plex, ["single", "L", "S", *self.jobs], self.folder)
        if single.status is None:
            yield "single", harness.wrong(single, 0)
            return
        wanted = single.wrote, single.status
        try:
            wanted = oracle_machine.run(
                exchange, self.case.signals, self.case.limit, self.patience
            )[:2]
            yield "single", harness.wrong(single, wanted[1], wanted[0])
        except oracle_machine.TooLong:
            pass
        run = ["run", "L", "S"]
        yield "run", self.wrong([*run, *self.workers], *wanted)
        workers = ["--workers", self.chance.randint(2, 64)]
        yield "certified", self.wrong([*run, *workers, "--cert", "M"], *wanted)

    def timed(self) -> Optional[str]:
        """A run with the table."""
        return self.wrong(["timed", "E", "S", "T"], *oracle_runs.timed(*self.texts(self.table)))

    def trace(self) -> Optional[str]:
        """A trace by the filter."""
        return self.wrong(["trace", "E", "S", "Q"], *oracle_runs.trace(*self.texts(self.filter)))

    def change(self, report: bytes) -> Optional[str]:
        """A change after one of the jobs of the run, or one more."""
        count = self.chance.randint(1, 1 + further_runs.ended_in(report))
        wanted = oracle_runs.change(*self.texts(self.other, count))
        return self.wrong(["change", "E", "S", "X", count], *wanted)

    def list(self, report: bytes) -> Optional[str]:
        """A run of the listing."""
        got = harness.answer(self.plex, ["list", "E"], self.folder)
        wrong: Optional[str] = harness.wrong(got, 0)
        if wrong:
            return wrong
        try:
            told, _ = oracle_listing.run(got.wrote, *self.texts())
        except oracle_listing.WrongListing as fault:
            return str(fault)
        return None if told == report else str(harness.first_difference(told, report))


def counts_of(report: str) -> Counter[str]:
    """The faults and the first words of lines that a report has."""
    lines = report.split("\n")
    counts = Counter(f"line {line.split(' ')[0]}" for line in lines[:-1])
    told = [line for line in lines if line.startswith(("RELEASE", "RESTART"))]
    counts.update(line.split(" at ")[0].rsplit(" ", 1)[1] for line in told)
    return counts


def compare(held: Case, tally: Tally, name: str = "compared runs") -> None:
    """Compares all runs of a case. One whose run is too long is passed over, and counted."""
    least = {f"compared {kind}": LEAST_SHARE for kind in KINDS}
    try:
        report, status, done = oracle_machine.run(*held.texts())
    except oracle_machine.TooLong:
        tally.add(name, {"passed over": 1}, least)
        return
    counts, told = counts_of(report.decode()), []
    counts.update({f"statement {word}": number for word, number in done.items()})
    for kind, look in held.looks(report, status).items():
        try:
            wrong = look()
        except oracle_machine.TooLong:
            continue
        counts[f"compared {kind}"] += 1
        told += [f"{kind}: {wrong}"] if wrong else []
    if held.is_long_too:
        least["compared long single"] = LEAST_LONG
        for kind, wrong in held.of_long_jobs():
            counts[f"compared long {kind}"] += 1
            told += [f"long jobs, {kind}: {wrong}"] if wrong else []
    tally.add(name, counts, least)
    check(*told)


@pytest.mark.by_chance(GATE)
def test_by_chance(
    plex: pathlib.Path, folder: pathlib.Path, seed: str, tally: Tally, number: int
) -> None:
    """All runs of an exchange are those of the second account."""
    case = made_exchange.made_case(random.Random(f"{seed}.{number}"))
    chance = random.Random(f"{seed}.{number}.more")
    held = Case(plex, folder, case, chance, number, PATIENCE)
    held.is_long_too = number % LONG_ONES == 0
    compare(held, tally)


def is_met(purpose: str, report: str) -> bool:
    """Whether a report has what must be met."""
    if purpose.endswith(" at"):
        return f" {purpose} " in report
    return any(line.startswith(purpose) for line in report.split("\n"))


def report_of(case: Any, patience: int) -> str:
    """The report of a case by the second account; none where its run is too long."""
    try:
        report: bytes = oracle_machine.run(case.exchange, case.signals, case.limit, patience)[0]
    except oracle_machine.TooLong:
        return ""
    return report.decode()


@pytest.mark.parametrize("purpose", PURPOSES)
@pytest.mark.counted(len(PURPOSES))
def test_on_purpose(
    plex: pathlib.Path, folder: pathlib.Path, seed: str, tally: Tally, purpose: str
) -> None:
    """The same of the first exchange that meets a fault, an event or an ending; there is one."""
    is_long = purpose == "BUDGET at"
    patience = LONG_PATIENCE if is_long else PATIENCE
    for turn in range(TRIES):
        chance = random.Random(f"{seed}.{purpose}.{turn}")
        case = made_exchange.made_case(chance, PURPOSES[purpose])
        case.limit = 1 if is_long else case.limit
        if is_met(purpose, report_of(case, patience)):
            more = random.Random(f"{seed}.{purpose}.{turn}.more")
            compare(Case(plex, folder, case, more, turn, patience), tally, "runs on purpose")
            return
    pytest.fail(f"none of {TRIES} exchanges meets {purpose!r}", pytrace=False)


def test_forms(
    plex: pathlib.Path, folder: pathlib.Path, seed: str, tally: Tally, form_number: int
) -> None:
    """Runs of the statements that the machine makes at once are the same, however they are made."""
    case = made_exchange.made_case(random.Random(f"{seed}.{form_number}"), "form")
    harness.write_files(folder, {"E": case.exchange, "S": case.signals})
    words = ["E", "S", "--jobs", case.limit]
    single = harness.answer(plex, ["single", *words], folder)
    told = []
    for kind, more in FORMS.items():
        got = harness.answer(plex, ["run", *words, *more], folder)
        wrong = harness.wrong(got, single.status, single.wrote)
        told += [f"{kind}: {wrong}"] if wrong else []
    counts = counts_of(single.wrote.decode())
    try:
        report, status, _ = oracle_machine.run(
            case.exchange, case.signals, case.limit, SHORT_PATIENCE
        )
        counts["compared single"] += 1
        wrong = harness.wrong(single, status, report)
        told += [f"single: {wrong}"] if wrong else []
    except oracle_machine.TooLong:
        pass
    tally.add("compared forms", counts)
    check(*told)
