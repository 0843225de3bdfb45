"""Pairs of jobs that stood beside one another in a run, done in both orders from the state at hand.

`Meetings(text, load)` is the run of a load once more. Before a job runs, each of the next
`NEAR` jobs of the run that waits already is done behind it and before it, and what comes of the two
orders is compared: the stored data, what both send, their faults and their chains. So it is known
of a pair whether it commutes, whatever the analysis says of it.

A pair stands beside one another where its jobs are not of one forlopp, and no job between them is
of the forlopp of the later one. Pairs with a job of more than `LONGEST` statements are left out.
"""
from typing import Iterator, List, NamedTuple, Optional, Set, Tuple

from plextools.runs.jobs import Load, TouchRecorder
from plextools.runs.machine import Job
from plextools.runs.running import JobFault, Sent, perform
from plextools.runs.touches import Foot, TouchedProgram
from plextools.text.statements import Text

NEAR, LONGEST = 4, 30_000


class Left(NamedTuple):
    """What a job leaves beside stored data: its fault with the statement, the records that its
    forlopp holds, and what it sends.
    """

    fault: Optional[Tuple[str, int]]
    chain: Tuple[Tuple[int, int], ...]
    outbox: List[Sent]


class Attempt(NamedTuple):
    """A job that was done for trial: what it leaves, and what it has touched."""

    left: Left
    foot: Foot


class Beside(NamedTuple):
    """Two jobs of a run, the first and a later one that waits when the first begins."""

    first: Job
    later: Job


class Met(NamedTuple):
    """A pair that was done in both orders: whether it commutes, and what the two have touched in
    the order of the run. One whose jobs are ordered whatever they touch does not commute.
    """

    pair: Beside
    commutes: bool
    feet: Tuple[Foot, Foot]


class State(NamedTuple):
    """The stored data."""

    cells: List[int]
    hints: List[int]


class Meetings(TouchRecorder):
    """The run with its pairs. Those of each job wait in `met`."""

    def __init__(self, text: Text, load: Load) -> None:
        super().__init__(TouchedProgram(text), load.signals, load.limit, None)
        self.load_before = load
        self.met: List[Met] = []

    def pairs(self) -> Iterator[Met]:
        """The pairs of the run in their order."""
        for _ in self.jobs():
            yield from self.met

    def perform(self, job: Job) -> None:
        is_counted = self.ended >= self.load_before.skipped
        self.met = list(self.meet(job)) if is_counted else []
        super().perform(job)

    def beside(self) -> Iterator[Beside]:
        """The pairs of the job that runs now."""
        ran = self.load_before.ran
        first = ran[self.ended]
        forlopps: Set[int] = {first.forlopp} - {0}
        for later in ran[self.ended + 1 : self.ended + 1 + NEAR]:
            is_short = max(first.length, later.length) <= LONGEST
            if later.number < self.came and later.forlopp not in forlopps and is_short:
                yield Beside(first, later)
            forlopps |= {later.forlopp} - {0}

    # both orders

    def meet(self, job: Job) -> Iterator[Met]:
        """Does each pair of a job in both orders. The state is then as it was."""
        pairs = list(self.beside())
        if not pairs:
            return
        before = self.data()
        first = self.attempt(job)
        self.release(job, first)
        between = self.data()
        for pair in pairs:
            later = self.attempt(pair.later)
            self.release(pair.later, later)
            wanted = self.data()
            self.return_to(before)
            orders = not self.is_ordered(pair, first) and self.other_order(pair)
            commutes = orders == (first.left, later.left, wanted.cells)
            yield Met(pair, commutes, (first.foot, later.foot))
            self.return_to(between)
        self.return_to(before)

    def is_ordered(self, pair: Beside, first: Attempt) -> bool:
        """Whether the first job must retire before the later one begins, whatever they touch: it
        restarts the exchange, or sends to a level above that of the later one.
        """
        if first.left.fault and not pair.first.forlopp:
            return True
        entries = [entry for _, entry, _, _ in first.left.outbox if entry >= 0]
        return any(self.levels[entry] < pair.later.level for entry in entries)

    def other_order(self, pair: Beside) -> Tuple[Left, Left, List[int]]:
        """What comes of the pair where the later job is done first. The releases come in the order
        of the run, as they do where the two jobs run at once.
        """
        later = self.attempt(pair.later)
        first = self.attempt(pair.first)
        self.release(pair.first, first)
        self.release(pair.later, later)
        return first.left, later.left, self.data().cells

    def attempt(self, job: Job) -> Attempt:
        """Does a job, and forgets what was noted of it."""
        context, chain = self.context, dict(self.chains.get(job.forlopp, {}))
        context.count, context.forlopp, context.chain, context.outbox = 0, job.forlopp, chain, []
        segment, zeros = self.program.begins[job.entry]
        fault = None
        try:
            perform(context, segment, [*job.values, *zeros])
        except JobFault as told:
            fault = told.word, told.point
            context.callers.clear()
        return Attempt(Left(fault, tuple(chain.items()), context.outbox), self.trails.take())

    def release(self, job: Job, done: Attempt) -> None:
        """Frees the records of a job that has faulted in a forlopp."""
        if done.left.fault and job.forlopp:
            for record, file in self.records_of(dict(done.left.chain)):
                self.free(record, file)

    def data(self) -> State:
        return State(list(self.context.cells), list(self.context.hints))

    def return_to(self, state: State) -> None:
        self.context.cells[:] = state.cells
        self.context.hints[:] = state.hints
