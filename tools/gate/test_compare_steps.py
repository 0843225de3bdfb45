"""The runs of plextools.runs, by which plex-load and plex-page tell of loads, beside those of the
program and those of oracle/machine.py, which is a second account of its own.

Exchanges with signal files are made by chance from the seed, as made_exchange does it, and some on
purpose, one to meet each fault. Of each are compared:

- trace: each job, what it sent, how it ended, and the report, are those of `plex trace` of all jobs
- oracle: the report is that of the oracle, and each job has counted as many statements there, and
  ended alike
- watched: the same run with an observer, which is told of as many statements as each job has
  counted; what a job without a fault has changed is what it stored last
- again: the run is the same when it goes back to a state that was kept after some job
- timed: a table made by chance, beside oracle/runs.py
- told: one altered line of the trace is told as a difference

Runs of more than 100,000 statements are passed over, but for those that are made for the fault
BUDGET. Enough of each kind must be compared.
"""
from __future__ import annotations

import pathlib
import random
import traceback
from collections import Counter
from typing import Any, Callable, Mapping

import pytest

from gate import harness
from gate.checking import Tally, check
from gate.makers import made_exchange
from gate.oracle import machine as oracle_machine
from gate.oracle import runs as oracle_runs
from plextools.runs import check as traces
from plextools.runs.machine import Job, Machine
from plextools.runs.running import Activation, Context, Watch
from plextools.runs.signals import lines_of, merged, periods_of
from plextools.runs.steps import Program
from plextools.text import statements

GATE = 60
PATIENCE, LONG_PATIENCE, LEAST_SHARE, TRIES = 100_000, 1_100_000, 0.6, 200
# Each fault with the family of entries that goes for it.
FAULTS = {
    "BUDGET": "spin",
    "CHAIN": "grab",
    "SENDS": "shout",
    "DEPTH": "deep",
    "NOTOWN": "call",
    "RANGE": "wild",
    "DIVIDE": "wild",
    "POINTER": "wild",
    "NOFORLOPP": "wild",
    "BADEND": "wild",
}
KINDS = ("trace", "oracle", "watched", "again", "timed", "told")
# How much there must be for each exchange, of those on purpose and of those by chance.
LEAST_KINDS: dict[str, float] = dict.fromkeys(KINDS, LEAST_SHARE)
LEAST = {**LEAST_KINDS, "jobs": 3, "sends": 1, "calls": 0.2, "loads": 5, "stores": 5}


class Oracle(oracle_machine.Machine):
    """The second account, which keeps how many statements each job counted, and its fault."""

    def __init__(self, *words: Any) -> None:
        super().__init__(*words)
        self.told: list[tuple[int, Any]] = []

    def retire(self, job: Any, fault: Any) -> None:
        self.told.append((job.counted, fault))
        super().retire(job, fault)


class Observer(Watch):
    """Keeps what it is told of a job."""

    def __init__(self) -> None:
        self.counts: Counter[str] = Counter()
        self.begin()

    def begin(self) -> None:
        self.steps, self.sends = 0, 0
        self.stored: dict[int, int] = {}
        self.wrong = ""

    def step(self, job: Context, activation: Activation, point: int) -> None:
        self.steps += 1
        if job.count != self.steps:
            self.wrong = f"step {self.steps} is told as {job.count}"

    def load(self, cell: int, value: int) -> None:
        self.counts["loads"] += 1

    def store(self, cell: int, old: int, new: int) -> None:
        self.counts["stores"] += 1
        self.stored[cell] = new

    def signal(self, point: int, enter: int, values: tuple[int, ...], waits: bool) -> None:
        self.counts["calls"] += 1

    def send(self, point: int) -> None:
        self.sends += 1


class Case:
    """A case with its text, and what was found wrong and counted."""

    def __init__(
        self,
        plex: pathlib.Path,
        folder: pathlib.Path,
        case: Any,
        chance: random.Random,
        patience: int,
    ) -> None:
        self.plex, self.folder = plex, folder
        self.case, self.chance, self.patience = case, chance, patience
        self.wrong: list[str] = []
        self.counts: Counter[str] = Counter()
        self.text = statements.Text("E", case.exchange)
        self.program = Program(self.text)
        self.lines = lines_of(self.text, case.signals)

    def machine(self) -> Machine:
        return Machine(self.program, self.lines, self.case.limit)

    def need(self, holds: bool, told: str) -> None:
        if not holds:
            self.wrong.append(told)

    def same(self, kind: str, got: bytes, wanted: bytes) -> None:
        self.need(
            got == wanted,
            f"{kind}: {harness.first_difference(got, wanted)}" if got != wanted else "",
        )

    def compare(self) -> None:
        """All kinds. Where the second account takes too long, nothing is compared."""
        oracle: Any = Oracle(self.case.exchange, self.case.signals, self.case.limit, self.patience)
        report = oracle.report(oracle.run())
        looks: dict[str, Callable[[], None]] = {
            "trace": self.trace,
            "oracle": lambda: self.oracle(oracle, report),
            "watched": lambda: self.watched(oracle, report),
            "again": lambda: self.again(report),
            "timed": self.timed,
        }
        for kind, look in looks.items():
            try:
                look()
                self.counts[kind] += 1
            except oracle_machine.TooLong:
                continue
            except Exception:
                self.wrong.append(f"{kind}: {traceback.format_exc(limit=-2)}")

    def trace(self) -> None:
        """The program's trace, and then the same with one line altered."""
        files = {"E": self.case.exchange, "S": self.case.signals, "Q": b"SHOW\n"}
        harness.write_files(self.folder, files)
        words = ["trace", "E", "S", "Q", "--jobs", self.case.limit]
        lines = harness.answer(self.plex, words, self.folder).wrote.splitlines()
        for job in traces.compared(self.machine(), lines):
            self.counts["jobs"] += 1
            self.counts["sends"] += len(job.outbox)
            self.counts[job.fault or "ENDED"] += 1
        place = self.chance.randrange(len(lines))
        lines[place] = lines[place][:-1] + b"#"
        self.need(self.is_told(lines), f"told: the altered line {place + 1} is not told")
        self.counts["told"] += 1

    def is_told(self, lines: list[bytes]) -> bool:
        try:
            for _ in traces.compared(self.machine(), lines):
                pass
        except traces.Different:
            return True
        return False

    def oracle(self, oracle: Any, report: bytes) -> None:
        machine = self.machine()
        told = [(job.length, job.fault) for job in machine.jobs()]
        self.need(told == oracle.told, "oracle: the jobs have other lengths or faults")
        self.same("oracle", machine.report(), report)
        self.need(machine.counted == oracle.counted, "oracle: another number of statements")

    def watched(self, oracle: Any, report: bytes) -> None:
        watch = Observer()
        machine = Machine(
            Program(self.text, watched=True), self.lines, self.case.limit, watch=watch
        )
        told: list[tuple[int, Any]] = []
        before = list(machine.context.cells)
        for job in machine.jobs():
            told.append((job.length, job.fault))
            self.need(not watch.wrong, f"watched: {watch.wrong}")
            self.need(
                watch.steps + (job.fault == "BUDGET") == job.length,
                "watched: other steps than statements",
            )
            self.need(watch.sends == len(job.outbox), "watched: other sends than in the outbox")
            if not job.fault:
                self.need(
                    changed(before, machine.context.cells, watch.stored),
                    f"watched: job {job.place} stores",
                )
            before = list(machine.context.cells)
            watch.begin()
        self.need(told == oracle.told, "watched: the jobs have other lengths or faults")
        self.same("watched", machine.report(), report)
        self.counts.update(watch.counts)

    def again(self, report: bytes) -> None:
        machine = self.machine()
        jobs = machine.jobs()
        for _ in range(self.chance.choice([0, 1, 2, 5, 20])):
            next(jobs, None)
        kept = machine.state()
        first = ended(machine)
        self.same("again", machine.report(), report)
        machine.go_back(kept)
        self.need(machine.state() == kept, "again: another state")
        self.need(ended(machine) == first, "again: other jobs")
        self.same("again", machine.report(), report)

    def timed(self) -> None:
        table = made_exchange.made_table(self.case, self.chance)
        words = self.case.exchange, self.case.signals, table, self.case.limit, self.patience
        wanted, _ = oracle_runs.timed(*words)
        lines = merged(self.lines, periods_of(self.text, table))
        machine = Machine(self.program, lines, self.case.limit)
        ended(machine)
        self.same("timed", machine.report(), wanted)


def changed(before: list[int], after: list[int], stored: dict[int, int]) -> bool:
    """Whether the cells are those before, but for what was stored."""
    wanted = list(before)
    for cell, value in stored.items():
        wanted[cell] = value
    return wanted == after


def ended(machine: Machine) -> list[tuple[Any, ...]]:
    """The jobs of the rest of a run, each with what came of it."""
    return [told(job) for job in machine.jobs()]


def told(job: Job) -> tuple[Any, ...]:
    return (
        job.place,
        job.entry,
        job.values,
        job.forlopp,
        job.length,
        job.fault,
        list(job.sent),
        list(job.outbox),
    )


def compare(held: Case, tally: Tally, name: str, least: Mapping[str, float]) -> None:
    """Compares all kinds of a case. One whose run is too long is passed over, and counted."""
    try:
        held.compare()
    except oracle_machine.TooLong:
        tally.add(name, {"passed over": 1}, least)
        return
    tally.add(name, held.counts, least)
    check(*held.wrong)


@pytest.mark.by_chance(GATE)
def test_by_chance(
    plex: pathlib.Path, folder: pathlib.Path, seed: str, tally: Tally, number: int
) -> None:
    """All runs of an exchange are those of the program and of the second account."""
    case = made_exchange.made_case(random.Random(f"{seed}.{number}"))
    chance = random.Random(f"{seed}.{number}.steps")
    compare(Case(plex, folder, case, chance, PATIENCE), tally, "compared steps", LEAST)


def has_fault(case: Any, fault: str, patience: int) -> bool:
    """Whether a job of a case has a fault, by the second account."""
    try:
        report = oracle_machine.run(case.exchange, case.signals, case.limit, patience)[0]
    except oracle_machine.TooLong:
        return False
    return f" {fault} at ".encode() in report


@pytest.mark.parametrize("fault", FAULTS)
@pytest.mark.counted(len(FAULTS))
def test_on_purpose(
    plex: pathlib.Path, folder: pathlib.Path, seed: str, tally: Tally, fault: str
) -> None:
    """The same of the first exchange that meets a fault; there is one."""
    is_long = fault == "BUDGET"
    patience = LONG_PATIENCE if is_long else PATIENCE
    for turn in range(TRIES):
        case = made_exchange.made_case(random.Random(f"{seed}.{fault}.{turn}"), FAULTS[fault])
        case.limit = 1 if is_long else case.limit
        if has_fault(case, fault, patience):
            chance = random.Random(f"{seed}.{fault}.{turn}.steps")
            held = Case(plex, folder, case, chance, patience)
            compare(held, tally, "steps on purpose", LEAST_KINDS)
            assert held.counts[fault], f"the trace has no job with {fault}"
            return
    pytest.fail(f"none of {TRIES} exchanges meets {fault}", pytrace=False)
