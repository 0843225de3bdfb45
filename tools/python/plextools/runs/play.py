"""Plays the jobs of a load as the dispatcher issues them: some at once, where they may, with time
in statements.

`play(load, rules, workers)` gives a `Play`. The next job, which is the oldest of the highest level
that waits, is issued beside those of the window where it may follow each of them; the oldest job of
the window retires when it has ended, and what it sent waits from then on. So the jobs come in the
order of the single run. A job takes as much time as it does statements, and all else takes none.
"""
import itertools
from collections import Counter, deque
from typing import (
    Callable,
    Counter as Counts,
    Deque,
    Dict,
    Iterable,
    List,
    NamedTuple,
    Optional,
    Set,
    Tuple,
    Union,
)

from plextools.analysis.conflicts import Conflicts
from plextools.analysis.counters import Counters
from plextools.analysis.reasons import Numbers, Reason
from plextools.runs.jobs import Load
from plextools.runs.machine import Job

LEVELS = "ABCD"
FULL, LINE, SENDER, END, SAME = "full", "line", "sender", "end", "SAME"
BETWEEN = 5000
NEVER = float("inf")
NONE = Numbers(0, 0)  # of a test that is about no values

Holds = Callable[[Job, Job], bool]
Key = Tuple[Union[int, str], ...]  # of a reason: see `keys_of`
Pair = Tuple[int, int]
Entries = Tuple[int, ...]
# Is told now and then how many jobs have retired in a play with so many workers.
Tell = Callable[[int, int], None]


class Test(NamedTuple):
    """A test of a pair, and the function that tells whether it holds of two jobs."""

    reason: Reason
    holds: Holds


class OfPair(NamedTuple):
    """The first conflict of two entries, or else their tests."""

    conflict: Optional[Reason]
    tests: List[Test]


class Blocked(NamedTuple):
    """Why a job of an entry waits for one of another: as it is told, and the reason, which two jobs
    of one forlopp have not.
    """

    first: int
    later: int
    told: str
    reason: Optional[Reason]


Waited = Union[str, Blocked]  # what a job waits for: FULL, LINE, SENDER, END, or a pair


class Held(NamedTuple):
    """A job that waits for one of the window, by its place among those that have begun: until that
    one retires.
    """

    job: Job
    place: int
    reason: Blocked


class Bar(NamedTuple):
    """A job that was done: its row, and when it began and ended."""

    job: Job
    row: int
    begin: int
    end: int


class Wait(NamedTuple):
    """A time of waiting: its begin and its end, what was waited for, and the job that waited, if it
    was there.
    """

    begin: int
    end: int
    reason: Waited
    job: Optional[Job]


class Against(NamedTuple):
    """The entries whose jobs are in the way of a later one, or are where a test fails, as bits."""

    conflicting: int
    tested: int


class Rules:
    """Which job may follow which."""

    def __init__(self, conflicts: Conflicts) -> None:
        self.conflicts = conflicts
        self.known: Dict[Pair, OfPair] = {}
        self.sets: Dict[Tuple[int, Entries], Against] = {}
        self.decisive: Dict[Entries, Dict[Key, List[Pair]]] = {}

    def pair(self, i: int, j: int) -> OfPair:
        """The verdict on two entries."""
        key = i, j
        if key not in self.known:
            conflict = self.conflict(i, j)
            tests = [] if conflict else self.tests(i, j)
            self.known[key] = OfPair(conflict, [Test(test, holding(test)) for test in tests])
        return self.known[key]

    def conflict(self, i: int, j: int) -> Optional[Reason]:
        """The first conflict of two entries that counts."""
        return self.conflicts.first(i, j)

    def tests(self, i: int, j: int) -> List[Reason]:
        """The tests of two entries that no conflict keeps apart."""
        return self.conflicts.tests(i, j)

    def without(self, key: Key, entries: Entries) -> "RulesWithout":
        """The rules without the reasons of a key, for jobs of these entries."""
        if entries not in self.decisive:
            self.decisive[entries] = self.decided(entries)
        return RulesWithout(self, key, self.decisive[entries].get(key, ()))

    def decided(self, entries: Entries) -> Dict[Key, List[Pair]]:
        """The pairs of entries whose verdict a reason of a key decides, by the key."""
        found: Dict[Key, List[Pair]] = {}
        for i, j in itertools.product(entries, repeat=2):
            conflict, tests = self.pair(i, j)
            for reason in [conflict] if conflict else [test.reason for test in tests]:
                for key in keys_of(i, j, reason):
                    found.setdefault(key, []).append((i, j))
        return found

    def refusal(self, first: Job, later: Job) -> Union[None, str, Reason]:
        """Why a job may not follow another one: a reason, SAME for two jobs of one forlopp, or None
        where it may.
        """
        if first.forlopp and first.forlopp == later.forlopp:
            return SAME
        conflict, tests = self.known.get((first.entry, later.entry)) or self.pair(
            first.entry, later.entry
        )
        if conflict:
            return conflict
        for test, holds in tests:
            if not holds(first, later):
                return test
        return None

    def against(self, later: int, entries: Entries) -> Against:
        """Which of these entries are in the way of a job of another one, each as a bit."""
        key = later, entries
        if key not in self.sets:
            self.sets[key] = self.made_against(later, entries)
        return self.sets[key]

    def made_against(self, later: int, entries: Entries) -> Against:
        conflicting = tested = 0
        for entry in entries:
            conflict, tests = self.known.get((entry, later)) or self.pair(entry, later)
            if conflict:
                conflicting |= 1 << entry
            elif tests:
                tested |= 1 << entry
        return Against(conflicting, tested)


class RulesWithout(Rules):
    """Rules without the reasons of a key. Those pairs have another verdict which such a reason
    decides, as their first conflict or as one of their tests.
    """

    def __init__(self, rules: Rules, key: Key, decided: Iterable[Pair]) -> None:
        super().__init__(rules.conflicts)
        self.rules, self.key = rules, key
        self.known = dict(rules.known)
        for pair in decided:
            del self.known[pair]
        self.changed = {later for _, later in decided}

    def conflict(self, i: int, j: int) -> Optional[Reason]:
        return next(iter(self.counting(i, j, self.conflicts.conflicts(i, j))), None)

    def tests(self, i: int, j: int) -> List[Reason]:
        return self.counting(i, j, super().tests(i, j))

    def counting(self, i: int, j: int, reasons: List[Reason]) -> List[Reason]:
        return [reason for reason in reasons if self.key not in keys_of(i, j, reason)]

    def made_against(self, later: int, entries: Entries) -> Against:
        if later in self.changed:
            return super().made_against(later, entries)
        return self.rules.against(later, entries)


class AddingRules(Rules):
    """The rules where counters keep nothing apart: the verdicts with additions."""

    def __init__(self, conflicts: Conflicts, counters: Counters) -> None:
        super().__init__(conflicts)
        self.counters = counters

    def tests(self, i: int, j: int) -> List[Reason]:
        return self.counters.tests_left(i, j)

    def conflict(self, i: int, j: int) -> Optional[Reason]:
        """The first conflict of two entries that is about no counter."""
        return self.counters.conflict_left(i, j)


def holding(test: Reason) -> Holds:
    """The function that tells whether a test holds of the first and the later of two jobs."""
    return HOLDING[test.kind](test)


def differ(test: Reason) -> Holds:
    a, b = test.numbers or NONE
    return lambda first, later: first.values[a] != later.values[b]


def first_not(test: Reason) -> Holds:
    a, b = test.numbers or NONE
    return lambda first, later: first.values[a] != b


def later_not(test: Reason) -> Holds:
    a, b = test.numbers or NONE
    return lambda first, later: later.values[a] != b


def forlopp(_: Reason) -> Holds:
    return lambda first, later: first.forlopp != 0


def holds_no(test: Reason) -> Holds:
    return lambda first, later: test.name not in first.held


HOLDING: Dict[str, Callable[[Reason], Holds]] = {
    "DIFFER": differ,
    "FIRST NOT": first_not,
    "LATER NOT": later_not,
    "FORLOPP": forlopp,
    "HOLDS NO": holds_no,
}


def keys_of(i: int, j: int, reason: Reason) -> List[Key]:
    """What may be left out of a reason: it alone in this pair; it in whatever pair it stands, as
    one change of the text does away with it; and for a conflict all conflicts of the pair.
    """
    others: Key = (reason.kind, reason.told, i, j)
    if reason.name:
        others = (reason.kind, reason.name)
    special: Dict[str, Key] = {"LEVEL": ("LEVEL", reason.name, i), "FORLOPP": ("FORLOPP", i)}
    keys: List[Key] = [(i, j, reason.told), special.get(reason.kind, others)]
    return keys + [(i, j, "NEVER")] * reason.is_conflict


class Play:
    """What came of it: the time, how long the window had how many jobs, and how long it stood still
    for which reason. Of a load whose first jobs do not count, all this is behind them.

    `bars` and `waits` are there where bars are kept.
    """

    def __init__(self, workers: int) -> None:
        self.workers, self.time, self.standing, self.busy, self.widest = workers, 0, 0, 0, 0
        self.waited: Counts[Waited] = Counter()
        self.bars: List[Bar] = []
        self.waits: List[Wait] = []
        self.order: List[Job] = []

    @property
    def speed(self) -> float:
        return self.busy / self.time if self.time else 1.0

    @property
    def mean_window(self) -> float:
        return self.standing / self.time if self.time else 0.0

    def still(self) -> int:
        """How long the window stood still with room in it."""
        return sum(time for reason, time in self.waited.items() if reason != FULL)

    def blockers(self) -> List[Tuple[int, Blocked]]:
        """How long jobs waited for which pairs, the costliest first."""
        pairs = [
            (time, reason) for reason, time in self.waited.items() if isinstance(reason, Blocked)
        ]
        return sorted(pairs, key=lambda one: (-one[0], one[1][:3]))

    def with_workers(self, workers: int) -> "Play":
        """The play of the same load with other workers, where neither filled its window."""
        made = Play(workers)
        vars(made).update({**vars(self), "workers": workers})
        return made


class Player:
    """A play: the jobs that wait, and those of the window, which are the jobs that have begun, in
    their order, from the one behind all that have ended.
    """

    def __init__(
        self, load: Load, rules: Rules, workers: int, keep_bars: bool, tell: Optional[Tell] = None
    ) -> None:
        self.load, self.rules, self.workers, self.keep_bars = load, rules, workers, keep_bars
        self.tell = tell
        self.waiting: Dict[str, Deque[Job]] = {level: deque() for level in LEVELS}
        # Jobs of these forlopps have left the lists of those that wait; they are taken out when
        # they are seen.
        self.dead: Set[int] = set()
        self.made = Play(workers)
        self.begun, self.ended, self.line = self.made.order, 0, 0
        # Of the window: when each job ends, how many jobs each entry has, the entries that have
        # some as bits, and the forlopps.
        self.ends: Deque[int] = deque()
        self.counts, self.present = [0] * len(rules.conflicts.analysis.entries), 0
        self.forlopps: Set[int] = set()
        self.entries, self.known = tuple(load.entries), dict[int, Against]()
        self.held: Optional[Held] = None
        # When what counts has begun.
        self.start = 0
        # The rows in which no bar is drawn now, and those of the jobs of the window.
        self.free_rows = list(range(workers - 1, -1, -1))
        self.rows: Deque[int] = deque()
        # After how many jobs the next line came in the single run, and after how many it was due.
        self.came, self.due = self.next_line()

    def arrive(self) -> None:
        """The lines arrive that did so after as many jobs in the single run."""
        while self.came <= self.ended:
            job = self.load.lines[self.line][2]
            if job:
                self.waiting[job.level].append(job)
            self.line += 1
            self.came, self.due = self.next_line()

    def next_line(self) -> Tuple[float, float]:
        lines = self.load.lines
        if self.load.is_dense:
            return NEVER, NEVER
        return (
            (lines[self.line][1], lines[self.line][0]) if self.line < len(lines) else (NEVER, NEVER)
        )

    def next_in_turn(self) -> Optional[Job]:
        """The next job of the run, unless the job that sends it has not retired."""
        begun = len(self.begun)
        job = self.load.ran[begun] if begun < len(self.load.ran) else None
        return job if job and job.by <= self.ended else None

    def next_job(self) -> Optional[Job]:
        if self.load.is_dense:
            return self.next_in_turn()
        dead = self.dead
        for jobs in self.waiting.values():
            while jobs:
                if jobs[0].forlopp not in dead:
                    return jobs[0]
                jobs.popleft()
        return None

    def what_comes(self) -> str:
        """What the next job comes with, where nobody waits: a line of the signal file, or a job of
        the window; END where none comes.
        """
        begun = len(self.begun)
        if begun >= len(self.load.ran):
            return END
        return SENDER if self.load.ran[begun].line is None else LINE

    def refusal(self, job: Optional[Job]) -> Optional[Waited]:
        """Why the next job is not issued now: None where it is."""
        begun = len(self.begun)
        if begun - self.ended >= self.workers:
            return FULL
        if begun >= self.load.limit:
            return END
        if job is None:
            return self.what_comes()
        if self.due <= begun:
            return LINE
        held = self.held
        if held and held.job is job and held.place >= self.ended:
            return held.reason
        return self.refusal_in_window(job) if self.is_refused(job) else None

    def is_refused(self, job: Job) -> bool:
        """Whether a job of the window keeps the next one back."""
        if job.forlopp in self.forlopps:
            return True
        entry = job.entry
        against = self.known.get(entry)
        if against is None:
            against = self.known[entry] = self.rules.against(entry, self.entries)
        if against.conflicting & self.present:
            return True
        return bool(against.tested & self.present) and self.fails_test(job)

    def fails_test(self, job: Job) -> bool:
        """Whether a test fails of a job of the window and the next one, where none conflicts."""
        entry, known = job.entry, self.rules.known
        for first in self.begun[self.ended :]:
            for _, holds in known[first.entry, entry].tests:
                if not holds(first, job):
                    return True
        return False

    def refusal_in_window(self, job: Job) -> Blocked:
        """Why the youngest of those jobs of the window that keep the next one back does so."""
        begun, place, reason = self.begun, len(self.begun), None
        while reason is None:
            place -= 1
            reason = self.rules.refusal(begun[place], job)
        older = begun[place]
        if isinstance(reason, Reason):
            blocked = Blocked(older.entry, job.entry, reason.told, reason)
        else:
            blocked = Blocked(older.entry, job.entry, SAME, None)
        self.held = Held(job, place, blocked)
        return blocked

    def length(self, job: Job) -> int:
        """How much time a job takes."""
        return job.length

    def issue(self, job: Job) -> None:
        made, entry = self.made, job.entry
        if not self.load.is_dense:
            self.waiting[job.level].popleft()
        self.held = None
        self.begun.append(job)
        self.ends.append(made.time + self.length(job))
        self.counts[entry] += 1
        self.present |= 1 << entry
        if job.forlopp:
            self.forlopps.add(job.forlopp)
        if len(self.ends) > made.widest:
            made.widest = len(self.ends)
        if self.keep_bars:
            self.rows.append(self.free_rows.pop())
            made.bars.append(Bar(job, self.rows[-1], made.time, self.ends[-1]))

    def retire(self) -> None:
        """The oldest job of the window retires."""
        job = self.begun[self.ended]
        self.ended += 1
        self.ends.popleft()
        if self.keep_bars:
            self.free_rows.append(self.rows.popleft())
        entry = job.entry
        self.counts[entry] -= 1
        if not self.counts[entry]:
            self.present ^= 1 << entry
        self.forlopps.discard(job.forlopp)
        if job.sent and not self.load.is_dense:
            for sent in self.load.jobs[job.sent[0] : job.sent[-1] + 1]:
                self.waiting[sent.level].append(sent)
        if job.fault:
            self.end_forlopps(job.forlopp)
        if not self.ends:
            self.arrive()
        if self.ended == self.load.skipped:
            self.start_over()
        if self.tell and self.ended % BETWEEN == 0:
            self.tell(self.workers, self.ended)

    def start_over(self) -> None:
        """The jobs that do not count have all retired."""
        self.start, self.made.standing = self.made.time, 0
        self.made.waited.clear()

    def end_forlopps(self, forlopp: int) -> None:
        """The jobs of a forlopp leave the lists, or all where a job of none has faulted."""
        if forlopp:
            self.dead.add(forlopp)
        else:
            for jobs in self.waiting.values():
                jobs.clear()

    def go_on(self, reason: Waited, job: Optional[Job]) -> None:
        """Time goes on until the oldest job has ended, for this reason."""
        made = self.made
        passed = self.ends[0] - made.time
        if passed > 0:
            made.waited[reason] += passed
            if self.keep_bars and reason != FULL:
                made.waits.append(Wait(made.time, made.time + passed, reason, job))
            made.standing += passed * len(self.ends)
            made.time += passed
        self.retire()

    def run(self) -> Play:
        self.arrive()
        while True:
            if len(self.ends) >= self.workers:
                self.go_on(FULL, None)
                continue
            job = self.next_job()
            reason = self.refusal(job)
            if reason is None and job is not None:
                self.issue(job)
            elif reason is not None and self.ends:
                self.go_on(reason, job)
            else:
                self.made.busy = sum(one.length for one in self.begun[self.load.skipped :])
                self.made.time -= self.start
                return self.made


def play(
    load: Load, rules: Rules, workers: int, keep_bars: bool = False, tell: Optional[Tell] = None
) -> Play:
    if workers == 1 and not keep_bars:
        return one_by_one(load)
    return Player(load, rules, workers, keep_bars, tell).run()


def one_by_one(load: Load) -> Play:
    """The play with one worker: whatever the rules are, a job begins when the one before it has
    retired.
    """
    made = Play(1)
    made.order, made.widest = list(load.ran), min(1, len(load.counted))
    made.time = made.busy = made.standing = load.statements
    if made.time:
        made.waited[FULL] = made.time
    return made


def plays(
    load: Load, rules: Rules, counts: Iterable[int], tell: Optional[Tell] = None
) -> Dict[int, Play]:
    """A play for each count of workers."""
    return widest_first(counts, lambda workers: play(load, rules, workers, tell=tell))


def widest_first(counts: Iterable[int], one: Callable[[int], Play]) -> Dict[int, Play]:
    """A play for each count of workers. One that never fills its window is that of all counts down
    to its widest.
    """
    made: Dict[int, Play] = {}
    wider: Optional[Play] = None
    for workers in sorted(set(counts), reverse=True):
        if wider is None or wider.widest >= workers:
            wider = one(workers)
        made[workers] = wider.with_workers(workers)
    return made
