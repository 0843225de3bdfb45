"""How precise the verdicts are for a load: of the pairs of jobs that stood beside one another, how
many commute, how many of these the verdicts allow, without and with additions, and why they do not
allow the others.

`precision(exchange, load)` gives the `Figures`. An exchange has to keep its facts.
"""
from collections import Counter
from enum import Enum
from typing import Callable, Counter as Counts, Dict, Iterator, List, NamedTuple, Optional
from typing import Set, Tuple, TypedDict

from plextools.analysis.lines import ANY
from plextools.analysis.reasons import Reason, selectors_of
from plextools.analysis.start_sums import StartSums
from plextools.analysis.why import Exchange
from plextools.runs.both_orders import Beside, Meetings, Met
from plextools.runs.jobs import Load
from plextools.runs.layout import Layout
from plextools.runs.machine import Job
from plextools.runs.play import AddingRules, Rules, holding
from plextools.runs.touches import Foot
from plextools.tables import in_columns
from plextools.text.statements import factors_of


ADDING, SUMS = "adding ", "sums "


class Cause(Enum):
    """Why the verdicts do not allow a pair that commutes, by its first reason and by what the jobs
    touched in this run.
    """

    COUNTER = "both only add to it"
    STORED = "another record, whose number is read from stored data"
    COMPUTED = "another record, whose number is computed"
    SEARCHED = "another record, which a loop, a search or SEIZE chooses"
    BRANCH = "not touched, stored or sent on the branch that was taken"
    RECORDS = "records are seized or freed"
    FAULT = "the first job might have faulted, and did not"
    SAME = "touched by both, with no difference in the end"


class OfCause(TypedDict):
    """The pairs that are lost by a cause, and by which reasons."""

    cause: str
    means: str
    pairs: int
    share: float
    reasons: Dict[str, int]


class Allowed(TypedDict):
    """How many of the pairs that commute some verdicts allow; `share` is that part of them, and
    `allowed_wrongly` must be 0.
    """

    allowed: int
    share: float
    allowed_wrongly: int


class Figures(Allowed):
    """The figures of a load: of the verdicts, of those with additions, and of those with sums of
    start values as well, which nothing proves.
    """

    jobs: int
    pairs: int
    commuting: int
    apart: int
    with_additions: Allowed
    with_sums: Allowed
    lost: List[OfCause]


class Lost(NamedTuple):
    """A pair that commutes and is not allowed: why, and by which reason."""

    cause: Cause
    reason: str


class Causes:
    """Finds why pairs are lost."""

    def __init__(self, exchange: Exchange, layout: Layout) -> None:
        self.exchange, self.conflicts, self.layout = exchange, exchange.conflicts, layout
        self.blocks = {block.name.text: n for n, block in enumerate(exchange.text.blocks)}
        self.origins: Dict[Tuple[int, str], Set[Cause]] = {}

    def lost(self, met: Met) -> Lost:
        """Why a pair is not allowed, by its first reason."""
        reason = self.first_reason(met.pair)
        return Lost(KINDS[reason.kind](self, reason, met), reason.told)

    def first_reason(self, pair: Beside) -> Reason:
        i, j = pair.first.entry, pair.later.entry
        conflict = self.conflicts.first(i, j)
        if conflict:
            return next(one for one in self.conflicts.conflicts(i, j) if one.told == conflict.told)
        return next(test for test in self.conflicts.tests(i, j) if not holding(test)(*pair))

    # what both did

    def of_variable(self, reason: Reason, met: Met) -> Cause:
        block, _, name = reason.name.partition(".")
        cell = self.layout.variables[self.blocks[block], name].cell
        return of_cells({cell}, met.feet) or Cause.SAME

    def cells_of(self, name: str) -> range:
        """The cells of a field."""
        block, _, field_name = name.partition(".")
        file, field = self.layout.field_of[self.blocks[block], field_name]
        first = file.first + field.place
        return range(first, file.first + file.size * file.stride, file.stride)

    def of_field(self, reason: Reason, met: Met) -> Cause:
        cells = set(self.cells_of(reason.name))
        cause = of_cells(cells, met.feet)
        if cause is not None:
            return cause
        first, later = met.feet
        both = cells & (first.reads | first.stored) & (later.reads | later.stored)
        if both & (first.stored | later.stored):
            return Cause.SAME
        return self.of_records(reason, met.pair)

    def of_records(self, reason: Reason, pair: Beside) -> Cause:
        """How the records of a field were chosen, of which each job used others."""
        assert reason.selectors
        found: Set[Cause] = set()
        for value, job in zip(reason.selectors, pair):
            if value == ANY:
                found |= self.ways(job.entry, reason.name)
        order = (Cause.STORED, Cause.SEARCHED, Cause.COMPUTED)
        return next((cause for cause in order if cause in found), Cause.COMPUTED)

    def of_test(self, reason: Reason, met: Met) -> Cause:
        """A test of values, which are the numbers of records of some fields."""
        one, other = selectors_of(reason)
        first, later = (self.exchange.entry(job.entry).fields for job in met.pair)
        shared = [
            name
            for name in first.keys() & later.keys()
            if one in first[name]
            and other in later[name]
            and (first[name][one] or later[name][other])
        ]
        found = {of_cells(set(self.cells_of(name)), met.feet) for name in shared}
        if None in found:
            return Cause.SAME
        return Cause.COUNTER if Cause.COUNTER in found else Cause.BRANCH

    def of_seize(self, reason: Reason, met: Met) -> Cause:
        return Cause.RECORDS

    def of_level(self, reason: Reason, met: Met) -> Cause:
        return Cause.BRANCH

    def of_fault(self, reason: Reason, met: Met) -> Cause:
        return Cause.FAULT

    # how a record is chosen

    def ways(self, entry: int, name: str) -> Set[Cause]:
        """How the records of a field are chosen that an entry uses, where they are not known."""
        key = entry, name
        if key not in self.origins:
            self.exchange.look_at_facts([entry])
            self.origins[key] = set(self.ways_of(entry, name))
        return self.origins[key]

    def ways_of(self, entry: int, name: str) -> Iterator[Cause]:
        made, text = self.exchange.made[entry], self.exchange.text
        for number, line in enumerate(self.exchange.entry(entry).numbered):
            if line.split(" ")[1:3] != ["FIELD", name] or not line.endswith(f" {ANY}"):
                continue
            for point, _ in self.conflicts.statements(entry, number):
                node = text.points[point]
                for use in text.uses(node):
                    if use.name == name and use.pointer is None:
                        yield Cause.SEARCHED
                    elif use.name == name and use.pointer:
                        slot = made.slot(node, use.pointer)
                        if made.facts.has_any(point, slot):
                            for origin in made.origins(point, slot):
                                yield self.way(origin.point, origin.what)

    def way(self, point: int, what: str) -> Cause:
        """How a value stops being one that came with the signal."""
        if what == "computed":
            return Cause.STORED if self.uses_stored(point) else Cause.COMPUTED
        return {"stored": Cause.STORED, "number": Cause.COMPUTED}.get(what, Cause.SEARCHED)

    def uses_stored(self, point: int) -> bool:
        """Whether a statement computes with stored data."""
        node = self.exchange.text.points[point]
        variables = self.exchange.text.block_of(node).variables
        return any(
            part.factor.kind == "field"
            or (part.factor.kind == "name" and part.factor.name in variables)
            for expr in node.exprs
            for part in factors_of(expr)
        )


KINDS: Dict[str, Callable[[Causes, Reason, Met], Cause]] = {
    "VARIABLE": Causes.of_variable,
    "FIELD": Causes.of_field,
    "SEIZE": Causes.of_seize,
    "LEVEL": Causes.of_level,
    "DIFFER": Causes.of_test,
    "FIRST NOT": Causes.of_test,
    "LATER NOT": Causes.of_test,
    "FORLOPP": Causes.of_fault,
    "HOLDS NO": Causes.of_fault,
}


def of_cells(cells: Set[int], feet: Tuple[Foot, Foot]) -> Optional[Cause]:
    """What two jobs did to some cells: BRANCH where one of them did not touch them, or neither has
    stored; COUNTER where both did and only added to those that both touched.
    """
    first, later = feet
    one, other = (cells & (foot.reads | foot.stored) for foot in feet)
    if not one or not other or not cells & (first.stored | later.stored):
        return Cause.BRANCH
    both = one & other
    return Cause.COUNTER if both and both <= first.adds & later.adds else None


def is_apart(feet: Tuple[Foot, Foot]) -> bool:
    """Whether neither of two jobs has stored into a cell that the other one touched."""
    first, later = feet
    every = later.reads | later.stored
    return first.stored.isdisjoint(every) and later.stored.isdisjoint(first.reads | first.stored)


def precision(
    exchange: Exchange,
    load: Load,
    tell: Optional[Callable[[int], None]] = None,
) -> Figures:
    """The figures of a load that was done statement by statement."""
    meetings, rules = Meetings(exchange.text, load), Rules(exchange.conflicts)
    adding = AddingRules(exchange.conflicts, exchange.counters)
    sums, causes = StartSums(exchange), Causes(exchange, meetings.program.layout)
    counts: Counts[str] = Counter()
    lost: Dict[Cause, Counts[str]] = {}
    for met in meetings.pairs():
        is_allowed = rules.refusal(*met.pair) is None
        counts["pairs"] += 1
        counts["commuting"] += met.commutes
        counts["apart"] += met.commutes and is_apart(met.feet)
        counts.update(judged(met, "", is_allowed))
        is_adding = adding.refusal(*met.pair) is None
        counts.update(judged(met, ADDING, is_adding))
        counts.update(judged(met, SUMS, is_adding or passes(sums, *met.pair)))
        if met.commutes and not is_allowed:
            cause, reason = causes.lost(met)
            lost.setdefault(cause, Counter())[reason] += 1
        if tell:
            tell(met.pair.first.place)
    return told(len(load.counted), counts, lost)


def passes(sums: StartSums, first: Job, later: Job) -> bool:
    """Whether two jobs would pass by the numbers of records that are sums of start values."""
    pair = None if first.forlopp == later.forlopp != 0 else sums.pair(first.entry, later.entry)
    return (
        pair is not None
        and all(apart.holds(first.values, later.values) for apart in pair.apart)
        and all(holding(test)(first, later) for test in pair.tests)
    )


def judged(met: Met, way: str, is_allowed: bool) -> Iterator[str]:
    """What is counted of a pair that some verdicts allow."""
    if is_allowed:
        yield f"{way}{'allowed' if met.commutes else 'wrong'}"


def allowed(counts: Counts[str], way: str) -> Allowed:
    """What some verdicts allow."""
    number, commuting = counts[f"{way}allowed"], counts["commuting"]
    return {
        "allowed": number,
        "share": number / commuting if commuting else 1.0,
        "allowed_wrongly": counts[f"{way}wrong"],
    }


def told(jobs: int, counts: Counts[str], lost: Dict[Cause, Counts[str]]) -> Figures:
    plain, missing = allowed(counts, ""), counts["commuting"] - counts["allowed"]
    rows = sorted(lost.items(), key=lambda one: -sum(one[1].values()))
    return {
        "jobs": jobs,
        "pairs": counts["pairs"],
        "commuting": counts["commuting"],
        "apart": counts["apart"],
        "allowed": plain["allowed"],
        "share": plain["share"],
        "allowed_wrongly": plain["allowed_wrongly"],
        "with_additions": allowed(counts, ADDING),
        "with_sums": allowed(counts, SUMS),
        "lost": [
            {
                "cause": cause.name,
                "means": cause.value,
                "pairs": sum(reasons.values()),
                "share": sum(reasons.values()) / missing,
                "reasons": dict(reasons.most_common()),
            }
            for cause, reasons in rows
        ],
    }


# text


WORST = 3
MEANING = (
    "A pair is a job and one of the next four that waits when it begins. It commutes where both",
    "orders, made from the state at hand, leave the same stored data, signals, faults and records.",
)


def percent(part: float) -> str:
    return f"{100 * part:.1f} %"


def text_of(told: Figures) -> Iterator[str]:
    """The figures as lines for a reader."""
    pairs, commuting = told["pairs"], told["commuting"]
    yield f"{told['jobs']} jobs, and {pairs} pairs of jobs that stood beside one another."
    yield f"{commuting} of them commute; in {told['apart']} of these neither touches what the other"
    yield f"stores. The verdicts allow {told['allowed']}, which is {percent(told['share'])}."
    adding = told["with_additions"]
    yield f"With additions they allow {adding['allowed']}, which is {percent(adding['share'])}."
    yield from MEANING
    sums = told["with_sums"]
    if sums["allowed"] > adding["allowed"]:
        yield "If the analysis knew start values with one operation and a number, such as N MOD 48,"
        yield f"they would allow {sums['allowed']}, which is {percent(sums['share'])}."
    wrong = told["allowed_wrongly"] + adding["allowed_wrongly"]
    if wrong:
        yield f"{wrong} pairs that are allowed do not commute: this is a fault."
    if not told["lost"]:
        return
    yield ""
    yield "Why the verdicts do not allow the others, by the first reason of each pair"
    rows = [[row["means"], str(row["pairs"]), percent(row["share"])] for row in told["lost"]]
    yield from in_columns(["cause", "pairs", "of the lost"], rows)
    for row in told["lost"]:
        yield ""
        yield f"{row['means']}:"
        reasons = list(row["reasons"].items())
        yield from (f"  {count} by {reason}" for reason, count in reasons[:WORST])
        if len(reasons) > WORST:
            yield f"  and {len(reasons) - WORST} more reasons"
