"""What plex-load tells of a load: figures as plain data, and as text.

`figures(exchange, load, counts, chosen, tell)` plays the load with each count of workers, and looks
at what jobs waited for with the chosen count; `tell` is told how far each play is.
`text_of(exchange, figures)` gives the lines for a reader.
"""
import itertools
from typing import Dict, FrozenSet, Iterator, List, Optional, Sequence, Set, Tuple, TypedDict, Union

from plextools.analysis import why as why_lines
from plextools.analysis.reasons import Reason
from plextools.limits import LONG_JOB
from plextools.runs.exact import exact_plays, longest_chain
from plextools.runs.jobs import Load
from plextools.runs.play import END, FULL, LINE, SAME, SENDER
from plextools.runs.play import AddingRules, Blocked, Key, OfPair, Play, Rules, Tell
from plextools.runs.play import keys_of, play, plays
from plextools.tables import in_columns

WORST, SHOWN, OTHERS, MOST_ENTRIES = 10, 20, 3, 10
MOST_EXACT = 5000  # jobs of a load that is played with exact knowledge too
IDLE = 0.2  # of the time, from which on it is told
WAITS = {"pair": "pair", LINE: "line", SENDER: "sender", END: "end"}
HEADS = ["workers", "speed-up", "time", "in the window", "full", *WAITS.values()]
MEANING = (
    "In the window: the jobs that have begun and not retired, on average. "
    "Full: each worker has one.",
    "Else a worker was free, but the next job waited: "
    "since a pair may not run together, for a line of",
    "the signal file that comes first, or for the job that sends it; "
    "or no other job came, at the end.",
)
EXACT = (
    "Exact: jobs wait for those alone that touch a word of theirs where one of the two stores.",
    "And additions: not for words to which both only add, by V = V + .. with a WIDTH of 32.",
)
MEANS = (
    "The load is large, so plex trace told its later jobs: "
    "each is as long as the mean of its entry, and is",
    "taken to hold what the jobs of its forlopp before it may have seized.",
)


Words = Tuple[str, ...]  # of a verdict on a pair
Change = Tuple[int, int, Words]  # another verdict on a pair of entries


class OfPlay(TypedDict):
    """The figures of the load with a count of workers."""

    workers: int
    time: int
    speed_up: float
    jobs_in_window: float
    most_in_window: int
    full: int
    stood_still: int
    stood_still_for: Dict[str, int]


class PairBlocks(TypedDict, total=False):
    """A pair for which jobs waited, and what the speed-up would be without its reason, without all
    of its conflicts.
    """

    first: int
    later: int
    reason: str
    counter: bool
    waited: int
    share: float
    speed_up_without_it: float
    other_conflicts: List[str]
    speed_up_without_all: float


class ChangePays(TypedDict, total=False):
    """A reason in all pairs, and what the speed-up would be without it."""

    change: str
    counter: bool
    waited: int
    pairs: int
    share: float
    speed_up_without_it: float


class Blocks(TypedDict):
    """What jobs waited for with the chosen count of workers."""

    workers: int
    speed_up: float
    pairs: List[PairBlocks]
    changes: List[ChangePays]


class OfEntry(TypedDict):
    """The jobs of an entry, and how many statements they did."""

    entry: int
    signal: str
    block: str
    jobs: int
    least: int
    mean: float
    most: int
    share: float


class Bound(TypedDict):
    """What a load would reach with exact knowledge of what its jobs touch: by its longest chain,
    and with each count of workers.
    """

    longest_chain: int
    speed_up_by_chain: float
    speed_ups: List[float]


class Exact(TypedDict):
    """The same where each store counts, and where additions commute. The speed-ups stand in the
    order of the counts of workers, and are left out of a load of many jobs; the first ones are
    those by the verdicts, if counters kept nothing apart.
    """

    verdicts_with_additions: List[float]
    touches: Bound
    additions_commute: Bound


class Figures(TypedDict):
    """All figures of a load, as --json writes them."""

    jobs: int
    statements: int
    ending: str
    lengths_are_means: bool
    longest_chain: int
    speed_up_by_chain: float
    workers: List[OfPlay]
    blockers: Blocks
    exact: Optional[Exact]
    entries: List[OfEntry]


def figures(
    exchange: why_lines.Exchange,
    load: Load,
    counts: Sequence[int],
    chosen: int,
    tell: Optional[Tell] = None,
) -> Figures:
    """The figures of a load for these counts of workers."""
    rules = Rules(exchange.conflicts)
    made = plays(load, rules, [*counts, chosen], tell)
    chain = sum(job.length for job in load.chain())
    return {
        "jobs": len(load.counted),
        "statements": load.statements,
        "ending": load.ending,
        "lengths_are_means": load.is_traced,
        "longest_chain": chain,
        "speed_up_by_chain": ratio(load.statements, chain),
        "workers": [of_play(made[workers]) for workers in counts],
        "blockers": Blockers(exchange, load, made[chosen], rules, tell).told(),
        "exact": exact(exchange, load, counts, rules, tell) if load.feet is not None else None,
        "entries": of_entries(exchange, load),
    }


def exact(
    exchange: why_lines.Exchange,
    load: Load,
    counts: Sequence[int],
    rules: Rules,
    tell: Optional[Tell],
) -> Exact:
    """What exact knowledge of what jobs touch would bring."""

    def bound(adding: bool) -> Bound:
        chain = longest_chain(load, adding)
        return {
            "longest_chain": chain,
            "speed_up_by_chain": ratio(load.statements, chain),
            "speed_ups": speeds(adding, chain),
        }

    is_played = len(load.ran) <= MOST_EXACT

    def speeds(adding: bool, chain: int) -> List[float]:
        if not is_played:
            return []
        if chain == load.statements and not load.skipped:
            return [1.0 for _ in counts]  # each job follows the one before it
        made = exact_plays(load, rules, counts, adding, tell)
        return [made[workers].speed for workers in counts]

    adding = AddingRules(exchange.conflicts, exchange.counters)
    made = plays(load, adding, counts, tell) if is_played else {}
    return {
        "verdicts_with_additions": [made[workers].speed for workers in counts if is_played],
        "touches": bound(False),
        "additions_commute": bound(True),
    }


def ratio(whole: int, part: int) -> float:
    """How many times a part stands in a whole; once where there is nothing."""
    return whole / part if part else 1.0


def part_of(part: int, whole: int) -> float:
    return part / whole if whole else 0.0


def of_play(made: Play) -> OfPlay:
    waits = dict.fromkeys(WAITS, 0)
    for reason, time in made.waited.items():
        if reason != FULL:
            waits["pair" if isinstance(reason, Blocked) else reason] += time
    return {
        "workers": made.workers,
        "time": made.time,
        "speed_up": made.speed,
        "jobs_in_window": made.mean_window,
        "most_in_window": made.widest,
        "full": made.waited[FULL],
        "stood_still": made.still(),
        "stood_still_for": waits,
    }


class Blockers:
    """What jobs waited for in a play, by pairs with their reasons, and by the changes that would do
    away with a reason in all pairs.
    """

    def __init__(
        self,
        exchange: why_lines.Exchange,
        load: Load,
        made: Play,
        rules: Rules,
        tell: Optional[Tell] = None,
    ) -> None:
        self.exchange, self.load, self.made, self.rules = exchange, load, made, rules
        self.tell, self.entries = tell, tuple(load.entries)
        self.known: Dict[Union[Key, FrozenSet[Change]], float] = {frozenset(): made.speed}

    def told(self) -> Blocks:
        return {
            "workers": self.made.workers,
            "speed_up": self.made.speed,
            "pairs": list(self.pairs()),
            "changes": list(self.changes()),
        }

    def without(self, key: Key) -> float:
        """The speed-up of the load without the reasons of a key."""
        rules = self.rules.without(key, self.entries)
        changes = self.changed(key, rules)
        if changes not in self.known:
            made = play(self.load, rules, self.made.workers, tell=self.tell)
            self.known[changes] = made.speed
        return self.known[changes]

    def changed(self, key: Key, rules: Rules) -> Union[Key, FrozenSet[Change]]:
        """What is otherwise by the rules without the reasons of a key: the pairs with another
        verdict. Where there are too many pairs to look at, it is the key.
        """
        if len(self.entries) > MOST_ENTRIES:
            return key
        changes: Set[Change] = set()
        for i, j in itertools.product(self.entries, repeat=2):
            words = verdict_words_of(rules.pair(i, j))
            if words != verdict_words_of(self.rules.pair(i, j)):
                changes.add((i, j, words))
        return frozenset(changes)

    def pairs(self) -> Iterator[PairBlocks]:
        for place, (time, (i, j, told, reason)) in enumerate(self.made.blockers()):
            row: PairBlocks = {
                "first": i,
                "later": j,
                "reason": told_reason(told, reason),
                "counter": self.is_counter(i, j, reason),
                "waited": time,
                "share": part_of(time, self.made.time),
            }
            if place < WORST and reason:
                row["speed_up_without_it"] = self.without((i, j, reason.told))
                others = [
                    other.told
                    for other in self.exchange.conflicts.reasons(i, j)
                    if reason.is_conflict and other.told != reason.told
                ]
                if others:
                    row["other_conflicts"], row["speed_up_without_all"] = others, self.without(
                        (i, j, "NEVER")
                    )
            yield row

    def changes(self) -> Iterator[ChangePays]:
        changes: Dict[Key, ChangePays] = {}
        for time, (i, j, _, reason) in self.made.blockers():
            if reason:
                change = changes.setdefault(
                    keys_of(i, j, reason)[1],
                    {
                        "change": self.change(i, j, reason),
                        "counter": True,
                        "waited": 0,
                        "pairs": 0,
                    },
                )
                change["waited"] += time
                change["pairs"] += 1
                change["counter"] &= self.is_counter(i, j, reason)
        for key, row in sorted(changes.items(), key=lambda one: -one[1]["waited"])[:WORST]:
            row["share"] = part_of(row["waited"], self.made.time)
            row["speed_up_without_it"] = self.without(key)
            yield row

    def is_counter(self, i: int, j: int, reason: Optional[Reason]) -> bool:
        return reason is not None and self.exchange.counters.is_counter(i, j, reason)

    def change(self, i: int, j: int, reason: Reason) -> str:
        """A reason as it stands in all pairs that one change would mend."""
        entries = self.exchange.analysis.entries
        if reason.kind in ("VARIABLE", "FIELD", "SEIZE"):
            return f"{reason.kind} {reason.name}"
        if reason.kind in ("LEVEL", "FORLOPP"):
            return f"{reason.told} of {entries[i].name}"
        return (
            reason.told
            if reason.name
            else f"{reason.told} of {entries[i].name} and {entries[j].name}"
        )


def verdict_words_of(verdict: OfPair) -> Words:
    """A verdict as far as time hangs on it: that there is a conflict, or the tests."""
    return ("NEVER",) if verdict.conflict else tuple(test.reason.told for test in verdict.tests)


def told_reason(told: str, reason: Optional[Reason]) -> str:
    if reason is None:
        return "SAME FORLOPP" if told == SAME else told
    return ("NEVER " if reason.is_conflict else "IF ") + told


def of_entries(exchange: why_lines.Exchange, load: Load) -> List[OfEntry]:
    rows: List[OfEntry] = []
    for entry in exchange.analysis.entries:
        lengths = [job.length for job in load.counted if job.entry == entry.number]
        if lengths:
            rows.append(
                {
                    "entry": entry.number,
                    "signal": entry.signal,
                    "block": entry.block,
                    "jobs": len(lengths),
                    "least": min(lengths),
                    "mean": sum(lengths) / len(lengths),
                    "most": max(lengths),
                    "share": part_of(sum(lengths), load.statements),
                }
            )
    return sorted(rows, key=lambda row: (-row["share"], row["entry"]))


# text


def share(part: float) -> str:
    return f"{100 * part:.0f} %"


def text_of(exchange: why_lines.Exchange, told: Figures) -> Iterator[str]:
    """The figures as lines for a reader."""
    yield from of_run(told)
    yield ""
    yield from of_workers(told)
    yield ""
    if told["exact"]:
        yield from of_exact(told)
        yield ""
    yield from of_blockers(exchange, told["blockers"])
    yield "Jobs by entry"
    yield from in_columns(
        ["entry", "name", "jobs", "least", "mean", "most", "of all"], rows_of_entries(told), names=1
    )


def of_run(told: Figures) -> Iterator[str]:
    did = f"{told['jobs']} jobs did {told['statements']} statements"
    yield f"{did}, and the run ended with {told['ending']}."
    chain, speed = told["longest_chain"], told["speed_up_by_chain"]
    longest = f"The longest chain of jobs that wait for one another has {chain}"
    yield f"{longest}: at best {speed:.2f} times as fast."
    if told["exact"]:
        yield from of_bounds(told["exact"])
    if told["lengths_are_means"]:
        yield from MEANS
    mean = ratio(told["statements"], told["jobs"])
    if told["jobs"] and mean < LONG_JOB:
        short = f"The jobs are short, {mean:.0f} statements each: plex itself hands jobs to other"
        yield f"{short} workers from some {LONG_JOB} on."
        yield "Another machine may do so earlier: --cost-job tells of it."
    yield from of_idle(told)


def of_idle(told: Figures) -> Iterator[str]:
    """That the load itself leaves workers idle, with the count for which most is told."""
    workers = told["blockers"]["workers"]
    row = next((one for one in told["workers"] if one["workers"] == workers), None)
    idle = row["stood_still_for"][LINE] + row["stood_still_for"][SENDER] if row else 0
    if row and part_of(idle, row["time"]) >= IDLE:
        part = f"in {share(part_of(idle, row['time']))} of the time with {workers} workers"
        yield f"The load is spread: {part} no line was due, or"
        yield "no job had sent the next one. --dense plays it as if each line were there in time."


def of_bounds(told: Exact) -> Iterator[str]:
    heads = "With exact knowledge of what jobs touch", "Where additions commute as well"
    for head, bound in zip(heads, (told["touches"], told["additions_commute"])):
        chain, speed = bound["longest_chain"], bound["speed_up_by_chain"]
        yield f"{head} it has {chain}: at best {speed:.2f} times as fast."


def of_exact(told: Figures) -> Iterator[str]:
    """How fast the load would be with each count of workers and exact knowledge."""
    assert told["exact"]
    bounds = told["exact"]["touches"], told["exact"]["additions_commute"]
    adding = told["exact"]["verdicts_with_additions"]
    if not adding:
        yield f"The load has more than {MOST_EXACT} jobs: how fast it is so with how many workers"
        yield "is left out; --jobs ends the run earlier."
        return
    yield "How fast where additions commute, and with exact knowledge of what jobs touch"
    rows = [
        [
            str(row["workers"]),
            f"{row['speed_up']:.2f}",
            f"{adding[place]:.2f}",
            *(f"{bound['speed_ups'][place]:.2f}" for bound in bounds),
        ]
        for place, row in enumerate(told["workers"])
    ]
    heads = ["workers", "by the verdicts", "and additions", "exact", "exact and additions"]
    yield from in_columns(heads, rows, None)
    yield from EXACT


def rows_of_entries(told: Figures) -> List[List[str]]:
    return [
        [
            str(row["entry"]),
            f"{row['signal']} {row['block']}",
            str(row["jobs"]),
            str(row["least"]),
            f"{row['mean']:.1f}",
            str(row["most"]),
            share(row["share"]),
        ]
        for row in told["entries"]
    ]


def rows_of_workers(told: Figures) -> List[List[str]]:
    rows = []
    for row in told["workers"]:
        waits = [share(part_of(row["stood_still_for"][name], row["time"])) for name in WAITS]
        rows.append(
            [
                str(row["workers"]),
                f"{row['speed_up']:.2f}",
                str(row["time"]),
                f"{row['jobs_in_window']:.2f}",
                share(part_of(row["full"], row["time"])),
                *waits,
            ]
        )
    return rows


def rows_of_changes(told: Blocks) -> List[List[str]]:
    return [
        [
            row["change"] + (", a counter" if row["counter"] else ""),
            str(row["pairs"]),
            str(row["waited"]),
            share(row["share"]),
            f"{row['speed_up_without_it']:.2f}",
        ]
        for row in told["changes"]
    ]


def of_workers(told: Figures) -> Iterator[str]:
    yield "How fast with how many workers, with time in statements"
    yield from in_columns(HEADS, rows_of_workers(told), names=None)
    yield from MEANING


def of_blockers(exchange: why_lines.Exchange, told: Blocks) -> Iterator[str]:
    rows = told["pairs"]
    if not rows:
        yield f"With {told['workers']} workers no job waits since a pair may not run together."
        yield ""
        return
    workers = f"{told['workers']} workers (speed-up {told['speed_up']:.2f})"
    yield f"What jobs waited for with {workers}, the costliest first"
    exchange.look_at({entry for row in rows[:SHOWN] for entry in (row["first"], row["later"])})
    for row in rows[:SHOWN]:
        yield f"  {row['waited']} statements, {share(row['share'])} of the time{without(row)}"
        yield from (f"    {line}" for line in [*why(exchange, row), *behind(row)])
    if len(rows) > SHOWN:
        yield f"  and {len(rows) - SHOWN} more pairs"
    yield ""
    yield "Which change would pay: a reason in all pairs, and the speed-up without it"
    yield from in_columns(
        ["reason", "pairs", "waited", "of the time", "speed-up"], rows_of_changes(told)
    )
    yield ""


def without(row: PairBlocks) -> str:
    return (
        f"; speed-up without it {row['speed_up_without_it']:.2f}"
        if "speed_up_without_it" in row
        else ""
    )


def behind(row: PairBlocks) -> Iterator[str]:
    """The other conflicts of a pair, which would still keep its jobs apart."""
    if "other_conflicts" in row:
        told = row["other_conflicts"]
        more = f" and {len(told) - OTHERS} more" if len(told) > OTHERS else ""
        speed = f"speed-up without all of them {row['speed_up_without_all']:.2f}"
        yield f"also in its way: {', '.join(told[:OTHERS])}{more}; {speed}"


def why(exchange: why_lines.Exchange, row: PairBlocks) -> Iterator[str]:
    """What plex-why says of a pair and one reason."""
    i, j = row["first"], row["later"]
    if row["reason"] == "SAME FORLOPP":
        yield f"PAIR {i} {j}: jobs of one forlopp never run together"
        return
    reason = next(
        reason for reason in exchange.conflicts.reasons(i, j) if row["reason"].endswith(reason.told)
    )
    yield from why_lines.told(exchange, i, j, 1, [reason])
