"""What a load would reach on another machine, whose workers cost time.

A `Costs` tells what handing out a job, sending a signal and a synchronised access cost there, in
statements, beside the statement itself; a single run has none of that. Jobs are handed out one
after the other. An access is synchronised where jobs that run at once may touch one cell: so never
by the verdicts, and otherwise for each cell of a job that another one touches too and one stores.

`figures(exchange, load, costs, counts)` plays the load with them, and finds from which length of
jobs workers pay.
"""
import math
from fractions import Fraction
from typing import Dict, Iterator, List, NamedTuple, Optional, Sequence, TypedDict

from plextools import programs
from plextools.analysis.why import Exchange
from plextools.runs.exact import ExactPlayer, Touched, touched
from plextools.runs.jobs import Load
from plextools.runs.machine import Job
from plextools.runs.play import Player, Rules
from plextools.tables import in_columns, printed, quoted

TICKS = 1000  # of a statement, in which times are counted
MOST_COST, MOST_MACHINES = 10**9, 20
LARGEST_SCALE, STEPS = 4096, 7


class Costs(NamedTuple):
    """A machine by its name: what a job that is handed out, a signal and a synchronised access cost
    in statements.
    """

    name: str
    job: Fraction
    send: Fraction
    sync: Fraction


class OfMachine(TypedDict):
    """What a load would reach on a machine: the costs in statements; the speed-ups by the verdicts,
    with exact knowledge and where additions commute, in the order of the counts of workers; from
    which length on jobs pay there that may all run at once; and the mean length of this load from
    which it pays, by the verdicts and where additions commute, null where it never does.
    """

    machine: str
    job: float
    signal: float
    access: float
    workers: List[int]
    by_verdicts: List[float]
    exact: Optional[List[float]]
    additions_commute: Optional[List[float]]
    pays_from: int
    load_pays_from: Optional[int]
    load_pays_from_where_additions_commute: Optional[int]


class Priced(Player):
    """A play on a machine whose workers cost time, in ticks. Jobs are so many times as long."""

    costs: Costs
    scale: Fraction
    accesses: Dict[int, int]

    def price(self, costs: Costs, scale: Fraction, of: Optional[Touched]) -> None:
        self.costs, self.scale, self.accesses = costs, scale, {}
        if of is not None:
            self.accesses = {number: sum(map(len, cells)) for number, cells in of.of.items()}
        self.job_ticks = ticks(costs.job)

    def length(self, job: Job) -> int:
        costs = self.costs
        sync = self.accesses.get(job.number, 0) * costs.sync
        return ticks(job.length * self.scale + len(job.sent) * costs.send + sync)

    def issue(self, job: Job) -> None:
        """The job is handed out, which takes time in which others may end."""
        self.made.time += self.job_ticks
        super().issue(job)
        while self.ends and self.ends[0] <= self.made.time:
            self.retire()


class PricedExact(Priced, ExactPlayer):
    """The same with exact knowledge."""


def ticks(statements: Fraction) -> int:
    return round(statements * TICKS)


class Machines:
    """Plays a load on machines."""

    def __init__(self, exchange: Exchange, load: Load) -> None:
        self.load, self.rules = load, Rules(exchange.conflicts)
        self.touched: Dict[bool, Touched] = {}
        if load.feet is not None:
            self.touched = {adding: touched(load, adding) for adding in (False, True)}

    def speed(
        self, costs: Costs, workers: int, adding: Optional[bool], scale: Fraction = Fraction(1)
    ) -> float:
        """How fast the load is beside a single run, whose jobs cost nothing but statements."""
        if workers == 1:
            return 1.0
        of = self.touched[adding] if adding is not None else None
        player: Priced = (
            PricedExact(self.load, self.rules, workers, of, None)
            if of is not None
            else Priced(self.load, self.rules, workers, False)
        )
        player.price(costs, scale, of)
        time = player.run().time
        return float(ticks(self.load.statements * scale) / time) if time else 1.0

    def figures(self, costs: Costs, counts: Sequence[int]) -> OfMachine:
        def speeds(adding: Optional[bool]) -> List[float]:
            return [self.speed(costs, workers, adding) for workers in counts]

        is_exact = bool(self.touched)
        most = max(counts)
        return {
            "machine": costs.name,
            "job": float(costs.job),
            "signal": float(costs.send),
            "access": float(costs.sync),
            "workers": list(counts),
            "by_verdicts": speeds(None),
            "exact": speeds(False) if is_exact else None,
            "additions_commute": speeds(True) if is_exact else None,
            "pays_from": self.pays_from(costs, most),
            "load_pays_from": self.load_pays_from(costs, most, None),
            "load_pays_from_where_additions_commute": (
                self.load_pays_from(costs, most, True) if is_exact else None
            ),
        }

    def pays_from(self, costs: Costs, workers: int) -> int:
        """From how many statements on a job pays there, where all jobs may run at once and send as
        many signals as those of this load: where handing it out, and the part of a worker in it,
        take less time than it has statements.
        """
        counted = self.load.counted
        sends = Fraction(sum(len(job.sent) for job in counted), max(1, len(counted)))
        parts = Fraction(sends * costs.send, max(1, workers - 1))
        return math.floor(max(costs.job, parts)) + 1

    def load_pays_from(self, costs: Costs, workers: int, adding: Optional[bool]) -> Optional[int]:
        """The least mean length of its jobs from which a load is faster with so many workers; None
        where it is not with jobs `LARGEST_SCALE` times as long.
        """

        def pays(scale: Fraction) -> bool:
            return self.speed(costs, workers, adding, scale) > 1

        mean = Fraction(self.load.statements, max(1, len(self.load.counted)))
        high = Fraction(1)
        while not pays(high):
            high *= 4
            if high > LARGEST_SCALE:
                return None
        low = high / 4
        while low * mean >= 1 and pays(low):
            low, high = low / 4, low
        for _ in range(STEPS):
            middle = (low + high) / 2
            low, high = (low, middle) if pays(middle) else (middle, high)
        return math.ceil(high * mean)


# what is said of machines


def cost_of(word: str) -> Fraction:
    """A cost as it is written: a number of up to nine digits, with decimals or without."""
    whole, dot, rest = word.partition(".")
    is_number = word.isascii() and whole.isdigit() and (not dot or rest.isdigit())
    if not is_number or len(word) > 12 or Fraction(word) > MOST_COST:
        raise programs.Wrong(f"{quoted(word)} is no cost from 0 to {MOST_COST}")
    return Fraction(word)


def in_statements(name: str, costs: Sequence[Fraction], statement: Optional[Fraction]) -> Costs:
    """A machine whose costs are in statements, or in ns where it is known how many one takes."""
    if statement == 0:
        raise programs.Wrong("a statement takes more than 0 ns")
    job, send, sync = (cost / statement if statement else cost for cost in costs)
    return Costs(name, job, send, sync)


def machines_of(name: str) -> List[Costs]:
    """The machines of a file: a line `NAME JOB SEND SYNC`, in statements, or with a fifth word in
    ns, of which a statement takes so many. A line that begins with `!` is none.
    """
    found = []
    for number, line in enumerate(programs.bytes_of(name).split(b"\n"), 1):
        words = line.decode("utf-8", "surrogateescape").split()
        if not words or words[0].startswith("!"):
            continue
        if len(words) not in (4, 5):
            raise programs.Wrong(
                f"{quoted(name)}:{number}: a machine is a name, what a job, a signal and an access "
                "cost, and the ns of a statement where these are ns"
            )
        try:
            costs = [cost_of(word) for word in words[1:]]
            found.append(in_statements(words[0], costs[:3], costs[3] if costs[3:] else None))
        except programs.Wrong as wrong:
            raise programs.Wrong(f"{quoted(name)}:{number}: {wrong.told}") from wrong
    if not 1 <= len(found) <= MOST_MACHINES:
        raise programs.Wrong(
            f"{quoted(name)} has {len(found)} machines, and not 1 to {MOST_MACHINES}"
        )
    return found


# text


def number(value: float) -> str:
    return f"{value:.1f}".removesuffix(".0")


def text_of(told: Sequence[OfMachine]) -> Iterator[str]:
    """The figures as lines for a reader."""
    yield "On other machines, by what workers cost there, in statements"
    for row in told:
        yield ""
        costs = f"a job {number(row['job'])}, a signal {number(row['signal'])}"
        yield f"{printed(row['machine'])}: {costs}, a synchronised access {number(row['access'])}"
        yield from in_columns(["workers", "by the verdicts", *EXACT], list(rows_of(row)), None)
        yield from of_length(row)


EXACT = ("exact", "additions commute")


def rows_of(row: OfMachine) -> Iterator[List[str]]:
    exact, adding = row["exact"], row["additions_commute"]
    for place, workers in enumerate(row["workers"]):
        speeds = [f"{some[place]:.2f}" if some else "-" for some in (exact, adding)]
        yield [str(workers), f"{row['by_verdicts'][place]:.2f}", *speeds]


def of_length(row: OfMachine) -> Iterator[str]:
    most = max(row["workers"])
    yield f"  Jobs that may all run at once pay there from {row['pays_from']} statements on."
    ways = [("by the verdicts", row["load_pays_from"])]
    if row["exact"]:
        ways.append(("where additions commute", row["load_pays_from_where_additions_commute"]))
    for way, length in ways:
        pays = f"from a mean length of {length} statements on" if length else "never"
        yield f"  This load pays with {most} workers {way}: {pays}."
