"""What plex-load tells with exact knowledge of what jobs touch, beside slow accounts of the same.

- touches: the cells that each job of an exchange made by chance reads, stores into and only adds
  to, beside those of which a watched run tells
- plays: the plays with exact knowledge, and the longest chains, beside those by two jobs each
- orders: pairs of jobs that stood beside one another, in both orders: none that the verdicts allow
  differs, and none whose jobs touch nothing that the other stores; what comes of a pair that
  commutes is the same in a run whose jobs change places
- figures: the examples of test_compare_load.py and load_examples.py, by hand
"""
from __future__ import annotations

import pathlib
import random
from typing import Any, Iterator, Optional

import pytest

from gate import load_examples
from gate.checking import Tally, check
from gate.load_examples import Loads
from gate.makers import made_exchange
from gate.test_compare_load import EXAMPLE, EXAMPLE_LINES
from plextools.analysis import why
from plextools.runs import exact, jobs, play, precision, report
from plextools.runs.machine import Job, Machine
from plextools.runs.running import Activation, Context, Watch
from plextools.runs.signals import lines_of
from plextools.runs.steps import Program
from plextools.runs.touches import Foot
from plextools.text.additions import is_addition

GATE = 120
PATIENCE, JOBS, FEW = 40_000, 150, 60
WORKERS = (2, 3, 7, 64)
LEAST = {"touches": 10, "adds": 0.3, "plays": 5, "pairs": 10, "commuting": 8, "allowed": 5}
LEAST_SHARE = 0.6


# touches


class Touches(Watch):
    """Notes of each job the cells that it loads and stores, and the statements that do so."""

    def __init__(self, program: Program) -> None:
        self.program, self.at = program, -1
        self.adding = {
            node.point: cells
            for node in program.text.points
            for cells in [cells_added(program, node)]
            if cells is not None
        }
        self.begin()

    def begin(self) -> None:
        self.loads: set[tuple[int, int]] = set()
        self.stores: set[tuple[int, int]] = set()

    def step(self, job: Context, activation: Activation, point: int) -> None:
        self.at = point

    def load(self, cell: int, value: int) -> None:
        self.loads.add((cell, self.at))

    def store(self, cell: int, old: int, new: int) -> None:
        self.stores.add((cell, self.at))

    def foot(self, ended: set[int]) -> Foot:
        """The touches of a job, with the cells that its release or restart has stored into."""
        reads = {cell for cell, point in self.loads if not self.is_own(cell, point)}
        writes = {cell for cell, point in self.stores if not self.is_own(cell, point)} | ended
        added = {cell for cell, point in self.stores if self.is_own(cell, point)}
        both = added & (reads | writes)
        return Foot(frozenset(reads | both), frozenset(writes | both), frozenset(added - both))

    def is_own(self, cell: int, point: int) -> bool:
        """Whether a statement adds to a cell. Where it faults before it stores, what it has loaded
        of its own operand is of no use.
        """
        return cell in self.adding.get(point, ())


def cells_added(program: Program, node: Any) -> Optional[range]:
    """The cells to which a statement may add, where it is one that adds to 32 bits."""
    if node.kind not in ("set", "set_field") or not is_addition(node):
        return None
    if node.kind == "set":
        variable = program.layout.variables.get((node.block, node.first.text))
        is_wide = variable and variable.width == 32
        return range(variable.cell, variable.cell + 1) if variable and is_wide else None
    file, field = program.layout.field_of[node.block, node.first.text]
    first, end = file.first + field.place, file.first + file.size * file.stride
    return range(first, end, file.stride) if field.width == 32 else None


class Watched(Machine):
    """A watched run, which notes what each job touches."""

    def __init__(self, exchange: why.Exchange, signals: bytes, limit: int) -> None:
        program = Program(exchange.text, watched=True)
        self.touches = Touches(program)
        lines = lines_of(exchange.text, signals)
        super().__init__(program, lines, limit, watch=self.touches)
        self.freed: set[int] = set()

    def free(self, number: int, file: Any) -> None:
        first = file.first + number * file.stride
        self.freed |= {*range(first, first + file.stride)}
        super().free(number, file)

    def feet(self) -> Iterator[tuple[Job, Foot]]:
        """Each job, with what it touched."""
        for job in self.jobs():
            if job.fault and not job.forlopp:
                variables = self.program.layout.variables.values()
                self.freed |= {variable.cell for variable in variables if variable.is_clear}
            yield job, self.touches.foot(self.freed)
            self.touches.begin()
            self.freed = set()


# plays


class ByPairs(play.Rules):
    """Which job may follow which, by the cells of the two alone."""

    def __init__(self, conflicts: Any, load: jobs.Load, adding: bool) -> None:
        super().__init__(conflicts)
        assert load.feet is not None
        self.load, self.adding = load, adding
        self.feet = {job.number: foot for job, foot in zip(load.ran, load.feet)}

    def refusal(self, first: Job, later: Job) -> Any:
        if first.forlopp and first.forlopp == later.forlopp:
            return play.SAME
        if self.is_ordered(first, later) or self.meet(first, later):
            return play.Blocked(first.entry, later.entry, exact.CELLS, None)
        return None

    def is_ordered(self, first: Job, later: Job) -> bool:
        """Whether the order of two jobs stands whatever they touch."""
        sent = [self.load.jobs[number].level for number in first.sent]
        is_above = any(level < later.level for level in sent)
        return is_above or bool(first.fault and not first.forlopp) or later.place == 0

    def meet(self, first: Job, later: Job) -> bool:
        one, other = self.feet[first.number], self.feet[later.number]
        both = (one.reads | one.stored) & (other.reads | other.stored) & (one.stored | other.stored)
        return bool(both - (one.adds & other.adds) if self.adding else both)


class PairPlayer(play.Player):
    """A play that asks of each job of the window."""

    def is_refused(self, job: Job) -> bool:
        window = self.begun[self.ended :]
        return any(self.rules.refusal(first, job) is not None for first in window)

    def refusal_in_window(self, job: Job) -> play.Blocked:
        return play.Blocked(0, job.entry, exact.CELLS, None)


def chain_by_pairs(load: jobs.Load, rules: ByPairs) -> int:
    """The longest chain, where each job is held beside all before it. A restart comes behind all
    jobs before it, and before all others.
    """
    best: dict[int, int] = {}
    restarted = 0
    for job in load.ran:
        before = [
            best[first.number]
            for first in load.ran[: job.place - 1]
            if first.number == job.sender
            or (first.forlopp and first.forlopp == job.forlopp)
            or first.place <= restarted
            or rules.meet(first, job)
        ]
        best[job.number] = job.length + max(before, default=0)
        if job.fault and not job.forlopp:
            restarted = job.place
    return max(best.values(), default=0)


# what is compared


class Comparison(Loads):
    """Compares loads with what their jobs touch."""

    keeps_facts = True

    def load(self, exchange: why.Exchange, signals: bytes, limit: int) -> jobs.Load:
        return self.load_of(exchange, signals, limit, PATIENCE, touches=True)

    def made(self, case: made_exchange.Case) -> bool:
        """An exchange made by chance; tells whether its run is short enough."""
        exchange = self.exchange(case.exchange)
        load = self.load(exchange, case.signals, min(case.limit, JOBS))
        if load.is_traced:
            return False
        self.touches(exchange, case.signals, load)
        self.plays(exchange, load)
        self.orders(exchange, load)
        return True

    def touches(self, exchange: why.Exchange, signals: bytes, load: jobs.Load) -> None:
        assert load.feet is not None
        watched = Watched(exchange, signals, load.limit)
        for got, (job, wanted) in zip(load.feet, watched.feet()):
            self.counts["adds"] += len(wanted.adds)
            told = f"job {job.place} has {got} and not {wanted}"
            self.need(got == wanted, "touches", told)

    def plays(self, exchange: why.Exchange, load: jobs.Load) -> None:
        rules = play.Rules(exchange.conflicts)
        for adding in (False, True):
            made = exact.exact_plays(load, rules, WORKERS, adding, None)
            by_pairs = ByPairs(exchange.conflicts, load, adding)
            for workers in WORKERS:
                wanted = PairPlayer(load, by_pairs, workers, False).run()
                one, other = made[workers], wanted
                is_so = (one.time, one.order, one.standing) == (
                    other.time,
                    other.order,
                    other.standing,
                )
                self.need(is_so, "plays", f"{one.time} and not {other.time} with {workers}")
            if len(load.ran) <= FEW:
                chain = exact.longest_chain(load, adding)
                by_hand = chain_by_pairs(load, by_pairs)
                self.need(chain == by_hand, "plays", f"the chain is {chain} and not {by_hand}")

    def orders(self, exchange: why.Exchange, load: jobs.Load) -> None:
        figures = precision.precision(exchange, load)
        for name in ("pairs", "commuting", "allowed"):
            self.counts[name] += int(figures[name])  # type: ignore[literal-required]
        adding, sums = figures["with_additions"], figures["with_sums"]
        wrong = sum(one["allowed_wrongly"] for one in (figures, adding, sums))
        self.need(wrong == 0, "orders", f"{wrong} pairs that are allowed do not commute")
        is_more = figures["allowed"] <= adding["allowed"] <= sums["allowed"]
        self.need(is_more, "orders", "with additions or sums fewer pairs are allowed")
        self.counts["with sums alone"] += sums["allowed"] - adding["allowed"]
        lost = figures["commuting"] - figures["allowed"]
        told = sum(row["pairs"] for row in figures["lost"])
        self.need(told == lost, "orders", f"{told} pairs have a cause, and {lost} are lost")


@pytest.fixture
def comparison(plex: pathlib.Path, conflicts: pathlib.Path, folder: pathlib.Path) -> Comparison:
    """Compares loads in a folder."""
    return Comparison(folder)


@pytest.mark.by_chance(GATE)
def test_by_chance(comparison: Comparison, seed: str, tally: Tally, number: int) -> None:
    """An exchange made by chance. One whose run is too long is passed over, and counted."""
    case = made_exchange.made_case(random.Random(f"{seed}.{number}.bounds"))
    is_short = comparison.made(case)
    least = {**LEAST, "exchanges": LEAST_SHARE}
    counts = {**comparison.counts, "exchanges": 1} if is_short else {"passed over": 1}
    tally.add("compared bounds", counts, least)
    check(*comparison.wrong)


# The examples with 4 workers. Jobs that add to N conflict, so that exact knowledge brings nothing;
# where additions commute, all begin as they come.
WANTED = {
    "first": (EXAMPLE, EXAMPLE_LINES, (15, 29 / 21), (15, 29 / 18)),
    "second": (load_examples.TEXT, load_examples.LINES, (20, 34 / 23), (20, 34 / 20)),
}


@pytest.mark.parametrize("name", WANTED)
def test_example(comparison: Comparison, name: str) -> None:
    """The bounds of an example are those by hand."""
    text, lines, *wanted = WANTED[name]
    exchange = comparison.exchange(text.encode())
    load = comparison.load(exchange, lines.encode(), 1000)
    told = report.figures(exchange, load, (1, 4), 4)["exact"]
    assert told
    got = [
        (bound["longest_chain"], bound["speed_ups"][1])
        for bound in (told["touches"], told["additions_commute"])
    ]
    assert got == wanted


# A job that divides by zero in no forlopp restarts the exchange, which removes the job that waits
# behind it; so that one never stands beside it. The two jobs before them commute, since the first
# one divides by 1, and are kept apart, since it might have faulted.
RESTARTING = """SIGNAL DIVIDE SINGLE BUFFERED B DATA 1;
SIGNAL COUNT SINGLE BUFFERED B DATA 0;
BLOCK K;
DECLARE; VARIABLE V WIDTH 8; VARIABLE N WIDTH 32; TEMPORARY T;
SURVEY; RECEIVE DIVIDE; RECEIVE COUNT;
PROGRAM;
ENTER DIVIDE WITH T;
V = 8 / T;
EXIT;
ENTER COUNT;
N = N + 1;
EXIT;
END BLOCK;
"""
RESTARTING_LINES = """AFTER 0 DIVIDE K 1 NONE
AFTER 0 COUNT K NEW
AFTER 2 DIVIDE K 0 NONE
AFTER 2 COUNT K NEW
"""


def test_faults_in_no_forlopp(comparison: Comparison) -> None:
    """A first job that may fault in no forlopp is allowed beside no other one."""
    exchange = comparison.exchange(RESTARTING.encode())
    load = comparison.load(exchange, RESTARTING_LINES.encode(), 1000)
    removed = load.jobs[3]
    assert (len(load.ran), removed.place) == (3, 0)
    assert play.Rules(exchange.conflicts).refusal(load.jobs[2], removed) is not None
    figures = precision.precision(exchange, load)
    got = figures["pairs"], figures["commuting"], figures["allowed"], figures["allowed_wrongly"]
    assert got == (1, 1, 0, 0)
    assert [row["cause"] for row in figures["lost"]] == ["FAULT"]
