"""How fast a load would be with exact knowledge of what its jobs touch, and where they add.

Two jobs may run together then where neither stores into a cell that the other one touches; where
additions commute, cells to which both only add are left out. What else orders jobs stays: signals,
forlopps, levels and restarts. `longest_chain` has the statements of the longest chain of jobs that
must follow one another so, and `exact_plays` plays the load as `play` does.
"""
from typing import Dict, FrozenSet, Iterable, NamedTuple, Optional, Sequence, Set, Tuple

from plextools.runs.jobs import Load
from plextools.runs.machine import Job
from plextools.runs.play import LEVELS, Blocked, Play, Player, Rules, Tell, widest_first
from plextools.runs.touches import Foot

CELLS = "CELLS"  # what two jobs that touch one cell wait for


class Cells(NamedTuple):
    """The cells of a foot that matter: those that several jobs touch and one of them stores into,
    numbered from 0.
    """

    reads: Tuple[int, ...]
    writes: Tuple[int, ...]
    adds: Tuple[int, ...]


class Touched(NamedTuple):
    """The cells of each job that ran, by its number, and how many cells there are."""

    of: Dict[int, Cells]
    cells: int


def touched(load: Load, adding: bool) -> Touched:
    """What the jobs of a load touch. Where they are not `adding`, to add is to store."""
    assert load.feet is not None
    unique = dict.fromkeys(load.feet)
    numbers = {cell: number for number, cell in enumerate(sorted(shared(load.feet)))}
    cells = {foot: cells_of(foot, numbers, adding) for foot in unique}
    return Touched(
        {job.number: cells[foot] for job, foot in zip(load.ran, load.feet)}, len(numbers)
    )


def shared(feet: Sequence[Foot]) -> Set[int]:
    """The cells that several jobs touch, and one of them stores into."""
    once: Set[int] = set()
    again: Set[int] = set()
    seen: Set[Foot] = set()
    stored: Set[int] = set()
    for foot in feet:
        every = foot.reads | foot.stored
        if foot not in seen:
            again |= once & every
            once |= every
            stored |= foot.stored
        elif not every <= again:
            again |= every
        seen.add(foot)
    return again & stored


def cells_of(foot: Foot, numbers: Dict[int, int], adding: bool) -> Cells:
    adds: FrozenSet[int] = foot.adds if adding else frozenset()
    writes = foot.writes if adding else foot.stored
    reads = foot.reads - writes
    return Cells(
        *(
            tuple(numbers[cell] for cell in some if cell in numbers)
            for some in (reads, writes, adds)
        )
    )


class Latest:
    """Of each cell the latest job that touched it, that did more than add to it, and that stored
    into it: by its place, or by when it ends.
    """

    def __init__(self, count: int, none: int) -> None:
        self.none = none
        self.touched, self.plain, self.stored = ([none] * count for _ in range(3))

    def before(self, cells: Cells) -> int:
        """The latest job that must come before one with these cells."""
        reads, writes, adds = cells
        found = self.none
        if reads:
            found = max(map(self.stored.__getitem__, reads))
        if writes:
            found = max(found, *map(self.touched.__getitem__, writes))
        if adds:
            found = max(found, *map(self.plain.__getitem__, adds))
        return found

    def add(self, cells: Cells, job: int) -> None:
        """A job is later than all of those before it."""
        reads, writes, adds = cells
        touched, plain, stored = self.touched, self.plain, self.stored
        for cell in reads:
            touched[cell] = plain[cell] = job
        for cell in writes:
            touched[cell] = plain[cell] = stored[cell] = job
        for cell in adds:
            touched[cell] = stored[cell] = job

    def add_end(self, cells: Cells, end: int) -> None:
        """A job ends then, which may be earlier than others do."""
        reads, writes, adds = cells
        some = ((self.touched, (*reads, *writes, *adds)), (self.plain, (*reads, *writes)))
        for ends, numbers in (*some, (self.stored, (*writes, *adds))):
            for cell in numbers:
                if ends[cell] < end:
                    ends[cell] = end


def longest_chain(load: Load, adding: bool) -> int:
    """The statements of the longest chain of jobs of which each must follow the one before it."""
    of, count = touched(load, adding)
    cells, best, last = Latest(count, 0), {-1: 0}, {0: 0}
    longest = restarted = 0
    for place, job in enumerate(load.ran):
        begin = max(
            restarted,
            cells.before(of[job.number]),
            best[-1 if job.sender is None else job.sender],
            last.get(job.forlopp, 0),
        )
        end = best[job.number] = begin + job.length if place >= load.skipped else 0
        cells.add_end(of[job.number], end)
        longest = max(longest, end)
        if job.forlopp:
            last[job.forlopp] = end
        elif job.fault:
            restarted = longest
    return longest


class ExactPlayer(Player):
    """A play in which jobs wait for those alone that touch a cell of theirs."""

    def __init__(
        self, load: Load, rules: Rules, workers: int, of: Touched, tell: Optional[Tell]
    ) -> None:
        super().__init__(load, rules, workers, False, tell)
        self.of, self.latest = of.of, Latest(of.cells, -1)
        # The places of the latest job of each forlopp, of each that sent to a level, and of the
        # latest that restarted the exchange; and the one for which the next job waits.
        self.of_forlopp: Dict[int, int] = {}
        self.sent_to = dict.fromkeys(LEVELS, -1)
        self.restarted = self.blocker = -1

    def is_refused(self, job: Job) -> bool:
        self.blocker = self.place_before(job)
        return self.blocker >= self.ended

    def place_before(self, job: Job) -> int:
        """The place of the latest job that must retire before this one begins."""
        cells = self.of.get(job.number)
        if cells is None:
            return len(self.begun) - 1  # a release removes it before it runs
        above = [self.sent_to[level] for level in LEVELS if level < job.level]
        places = [self.latest.before(cells), self.restarted, *above]
        if job.forlopp:
            places.append(self.of_forlopp.get(job.forlopp, -1))
        return max(places)

    def refusal_in_window(self, job: Job) -> Blocked:
        return Blocked(self.begun[self.blocker].entry, job.entry, CELLS, None)

    def issue(self, job: Job) -> None:
        super().issue(job)
        place = len(self.begun) - 1
        self.latest.add(self.of[job.number], place)
        if job.forlopp:
            self.of_forlopp[job.forlopp] = place
        elif job.fault:
            self.restarted = place
        for sent in self.load.jobs[job.sent[0] : job.sent[-1] + 1] if job.sent else ():
            self.sent_to[sent.level] = place


def exact_plays(
    load: Load, rules: Rules, counts: Iterable[int], adding: bool, tell: Optional[Tell]
) -> Dict[int, Play]:
    """A play with exact knowledge for each count of workers."""
    of = touched(load, adding)

    def one(workers: int) -> Play:
        return ExactPlayer(load, rules, workers, of, tell).run()

    return widest_first(counts, one)
