"""What the script of a page needs to tell of a pair, an entry or a job, as plain data in which
nothing stands twice.

`of_exchange(exchange)` has `words`, in which each text stands once, and `sides`, each a list of
statements: the line, the text and what it does, the latter two as places in `words`, and how many
are left out. Entries whose lines are the same are of one kind: a kind has its lines, and a list of
reasons is that of all pairs of two kinds. `rows` has for each later entry the place of its list,
and `pairs` for each first entry the place of its row. Lines and reasons name a side by its place
among those of a kind, for which each entry has `sides` of its own. `of_play(made)` has the bars and
the waits of a play, and what its jobs sent.
"""
from typing import (
    Dict,
    Generic,
    Hashable,
    Iterable,
    List,
    NamedTuple,
    Optional,
    Sequence,
    Tuple,
    TypedDict,
    TypeVar,
    Union,
)

from plextools.analysis.lines import Entry
from plextools.analysis.why import NOBODY, Exchange, Named, Pair, Side, verdict_words
from plextools.runs.flows import Flows
from plextools.runs.machine import Job
from plextools.runs.observed import OUTSIDE
from plextools.runs.play import SAME, Bar, Play, Wait, Waited

MOST_STATEMENTS, MOST_BARS = 60, 100_000
# So many pairs are asked for alone where plex-conflicts has no room for all. Of the others the page
# has the first conflict, and this in the place of what helps.
MOST_ASKED, ELSEWHERE = 100, "plex-why tells all conflicts of this pair, with their statements"


# What stands for the names of the entries of a pair in what helps, where the script puts them.
FIRST, LATER = Named("{first}", "{first signal}"), Named("{later}", "{later signal}")
NONE = -1

Thing = TypeVar("Thing", bound=Hashable)
OfSide = List[Union[List[List[int]], int]]  # the statements, and how many are left out


class OfKind(TypedDict):
    """The lines of the entries of a kind, each as a word with its side."""

    lines: List[List[int]]


class OfEntry(TypedDict):
    """An entry: its kind, its sides by their places in the kind, and the lines that it reaches."""

    name: str
    signal: str
    level: str
    kind: int
    sides: List[int]
    reach: List[int]


# The words of the next two are not all ones of Python: `from` is a keyword.
OfBars = TypedDict(
    "OfBars",
    {
        "entry": List[int],
        "row": List[int],
        "from": List[int],
        "to": List[int],
        "values": List[List[int]],
        "forlopp": List[int],
        "line": List[Optional[int]],
        "sender": List[Optional[int]],
        "held": List[int],
        "fault": List[Optional[str]],
    },
)
OfWaits = TypedDict(
    "OfWaits",
    {"from": List[int], "to": List[int], "reason": List[int], "job": List[Optional[int]]},
)


class OfReason(TypedDict):
    """Why a job waited: in words, for which pair, and the letter of that."""

    told: str
    pair: Optional[List[int]]
    kind: str


class OfFlows(TypedDict):
    """The signals that jobs sent, inside them and to others. A signal is its kind, its name and the
    blocks from and to which it went as places in `words`, with -1 for outside, its line, and its
    values. `lists` has places of signals, `jobs` for each job the place of its list, `left_out` how
    many more signals a job sent, and `receivers` which jobs the buffered ones of each started, 0
    for one that did not run.
    """

    words: List[str]
    signals: List[List[int]]
    lists: List[List[int]]
    jobs: List[int]
    left_out: Dict[int, int]
    receivers: List[List[int]]


class OfPlay(TypedDict):
    """What is drawn of a play. Of bars and waits each part is a list; the jobs of bars are numbered
    from 1 in their order. `files` are those that jobs held as they began, by the places in `held`.
    """

    workers: int
    bars: OfBars
    waits: OfWaits
    reasons: List[OfReason]
    files: List[List[str]]
    flows: Optional[OfFlows]
    end: int
    jobs: int


class OfExchange(TypedDict):
    """All that the script of a page needs."""

    pairs: List[int]
    rows: List[List[int]]
    lists: List[List[int]]
    kinds: List[OfKind]
    entries: List[OfEntry]
    sides: List[OfSide]
    words: List[str]
    play: Optional[OfPlay]


class Numbers(Generic[Thing]):
    """Gives each thing a number, the same one where it comes again."""

    def __init__(self) -> None:
        self.known: Dict[Thing, int] = {}

    def of(self, thing: Thing) -> int:
        return self.known.setdefault(thing, len(self.known))


class Kind:
    """Entries whose lines are the same, and send the same signals by them: the first of them, and
    the sides that are told of it, which each entry of the kind has too.
    """

    def __init__(self, entry: Entry) -> None:
        self.entry = entry
        self.sides: Numbers[Side] = Numbers()
        self.lines: List[List[int]] = []


class Kinds(NamedTuple):
    """What the reasons of a pair hang on: the kinds of both entries, and whether these are one."""

    first: int
    later: int
    is_one: bool


class Parts:
    """The words, the sides, the kinds and the reasons of an exchange."""

    def __init__(self, exchange: Exchange) -> None:
        self.exchange, self.analysis = exchange, exchange.analysis
        self.words: Numbers[str] = Numbers()
        self.sides: Numbers[Tuple[Tuple[int, ...], ...]] = Numbers()
        self.lists: List[List[int]] = []
        self.asked = 0
        self.list_of: Dict[Kinds, int] = {}
        self.kinds: List[Kind] = []
        numbers: Numbers[Tuple[int, Tuple[str, ...]]] = Numbers()
        self.kind_of = [numbers.of(self.alike(entry)) for entry in self.analysis.entries]
        for entry, kind in zip(self.analysis.entries, self.kind_of):
            if kind == len(self.kinds):
                self.kinds.append(Kind(entry))
                self.kinds[kind].lines = [
                    [self.words.of(line), self.kinds[kind].sides.of(access(entry, line))]
                    for line in entry.lines
                ]

    def alike(self, entry: Entry) -> Tuple[int, Tuple[str, ...]]:
        """What is the same of the entries of a kind."""
        sent = tuple(
            signal
            for line, number in entry.number_of.items()
            if line.startswith("SEND ")
            for signal in self.exchange.sends(entry.number, number)
        )
        return self.exchange.conflicts.classes[entry.number], sent

    def row(self, i: int) -> Tuple[int, ...]:
        """The places of the lists of reasons of an entry as the first, for each later one."""
        told, first = self.analysis.told, self.kind_of[i]
        return tuple(
            self.list(i, j, Kinds(first, later, i == j)) if (i, j) in told else NONE
            for j, later in enumerate(self.kind_of)
        )

    def list(self, i: int, j: int, kinds: Kinds) -> int:
        """The place of the list of the reasons of a pair."""
        if kinds not in self.list_of:
            self.list_of[kinds] = len(self.lists)
            self.lists.append(self.reasons(Pair(self.exchange, i, j, names_of(i, j)), kinds))
        return self.list_of[kinds]

    def reasons(self, pair: Pair, kinds: Kinds) -> List[int]:
        """The reasons of a pair: the kind of each, the reason, both sides and what helps, one after
        the other.
        """
        found: List[int] = []
        if not self.exchange.conflicts.is_at_hand(pair.i, pair.j):
            self.asked += 1
            if self.asked > MOST_ASKED:
                return self.first_alone(pair, kinds)
        for reason in self.exchange.conflicts.reasons(pair.i, pair.j):
            first, later = pair.sides(reason)
            found += [
                int(reason.is_conflict),
                self.words.of(reason.told),
                self.kinds[kinds.first].sides.of(moved(first, self.kinds[kinds.first].entry)),
                self.kinds[kinds.later].sides.of(moved(later, self.kinds[kinds.later].entry)),
                self.words.of(pair.cure(reason)),
            ]
        return found

    def first_alone(self, pair: Pair, kinds: Kinds) -> List[int]:
        """The first conflict of a pair, as the analysis tells it, without statements."""
        reason = self.exchange.conflicts.first(pair.i, pair.j)
        assert reason
        nobody = (self.kinds[kind].sides.of(NOBODY) for kind in (kinds.first, kinds.later))
        return [1, self.words.of(reason.told), *nobody, self.words.of(ELSEWHERE)]

    def side(self, side: Side) -> int:
        """The place of the statements of a side."""
        statements = self.exchange.statements(side)
        listed = [
            (told.line, self.words.of(told.head), self.words.of(told.does))
            for told in statements[:MOST_STATEMENTS]
        ]
        return self.sides.of((*listed, (len(statements) - len(listed),)))

    def entry(self, entry: Entry) -> OfEntry:
        kind = self.kind_of[entry.number]
        return {
            "name": entry.name,
            "signal": entry.signal,
            "level": entry.level,
            "kind": kind,
            "sides": [self.side(moved(side, entry)) for side in self.kinds[kind].sides.known],
            "reach": ranges(self.lines_of(self.exchange.made[entry.number].reached)),
        }

    def lines_of(self, points: Iterable[int]) -> List[int]:
        return sorted({self.exchange.text.points[point].line for point in points})


def ranges(numbers: Iterable[int]) -> List[int]:
    """Numbers in order as pairs of the first and the last of those that follow one another."""
    found: List[int] = []
    for number in numbers:
        if found and found[-1] == number - 1:
            found[-1] = number
        else:
            found += [number, number]
    return found


def access(entry: Entry, line: str) -> Side:
    """The side that has the statements of a line of a summary."""
    if line == "FAULT":
        return Side(entry.number, "faults")
    return Side(entry.number, "line", (entry.number_of[line],))


def moved(side: Side, entry: Entry) -> Side:
    """The same side of another entry of the kind."""
    if side == NOBODY or side.entry == entry.number:
        return side
    parts = tuple(moved(part, entry) for part in side.parts)
    return side._replace(entry=entry.number, parts=parts)


def names_of(i: int, j: int) -> Tuple[Named, Named]:
    """What stands for the names of the two entries of a pair."""
    return FIRST, FIRST if i == j else LATER


def of_exchange(exchange: Exchange) -> OfExchange:
    exchange.look_at_all()
    parts, rows = Parts(exchange), Numbers[Tuple[int, ...]]()
    pairs = [rows.of(parts.row(entry.number)) for entry in exchange.analysis.entries]
    entries = [parts.entry(entry) for entry in exchange.analysis.entries]
    return {
        "pairs": pairs,
        "rows": [list(row) for row in rows.known],
        "lists": parts.lists,
        "kinds": [{"lines": kind.lines} for kind in parts.kinds],
        "entries": entries,
        "sides": [[[list(one) for one in some], left] for *some, (left,) in parts.sides.known],
        "words": list(parts.words.known),
        "play": None,
    }


def reason_words(reason: Waited) -> str:
    """A reason to wait, as a page tells it."""
    if isinstance(reason, str):
        return reason
    i, j, told, why = reason
    if why is None:
        return f"PAIR {i} {j}: {'SAME FORLOPP' if told == SAME else told}"
    return verdict_words(i, j, why)


def kind_of(reason: Waited) -> str:
    """The letter of a conflict, ? for a test, and nothing for another reason to wait."""
    if isinstance(reason, str) or reason.reason is None:
        return ""
    return reason.reason.kind[0] if reason.reason.is_conflict else "?"


def of_play(made: Play, blocks: Sequence[str] = (), flows: Optional[Flows] = None) -> OfPlay:
    """The first bars, each with its job, and the waits among them; and what the jobs sent."""
    bars = made.bars[:MOST_BARS]
    end = max((bar.end for bar in bars), default=0)
    place = {job.number: number for number, job in enumerate(made.order, 1)}
    files: Numbers[Tuple[str, ...]] = Numbers()
    reasons: Numbers[Waited] = Numbers()
    waits = [wait for wait in made.waits if wait.begin < end]
    return {
        "workers": made.workers,
        "bars": of_bars(bars, place, files),
        "waits": of_waits(waits, place, reasons),
        "reasons": [of_reason(reason) for reason in reasons.known],
        "files": [list(names) for names in files.known],
        "flows": of_flows(flows, blocks, [bar.job for bar in bars], place) if flows else None,
        "end": end,
        "jobs": len(made.order),
    }


def of_bars(bars: Sequence[Bar], place: Dict[int, int], files: Numbers[Tuple[str, ...]]) -> OfBars:
    """Bars; `place` has the place of each job in the order of the run."""
    jobs = [bar.job for bar in bars]
    return {
        "entry": [job.entry for job in jobs],
        "row": [bar.row for bar in bars],
        "from": [bar.begin for bar in bars],
        "to": [bar.end for bar in bars],
        "values": [list(job.values) for job in jobs],
        "forlopp": [job.forlopp for job in jobs],
        "line": [job.line for job in jobs],
        "sender": [None if job.sender is None else place.get(job.sender) for job in jobs],
        "held": [files.of(job.held) for job in jobs],
        "fault": [job.fault for job in jobs],
    }


def of_flows(
    flows: Flows, blocks: Sequence[str], jobs: Sequence[Job], place: Dict[int, int]
) -> OfFlows:
    """What jobs sent; `place` has the place of each job in the order of the run."""
    words: Numbers[str] = Numbers()

    def block(number: int) -> int:
        return NONE if number == OUTSIDE else words.of(blocks[number])

    signals = [
        [
            words.of(one.kind.value),
            words.of(one.name),
            block(one.source),
            block(one.target),
            one.line,
            *one.values,
        ]
        for one in flows.signals
    ]
    return {
        "words": list(words.known),
        "signals": signals,
        "lists": [list(told) for told in flows.lists],
        "jobs": flows.of_jobs,
        "left_out": flows.left_out,
        "receivers": [[place.get(number, 0) for number in job.sent] for job in jobs],
    }


def of_waits(waits: Sequence[Wait], place: Dict[int, int], reasons: Numbers[Waited]) -> OfWaits:
    return {
        "from": [wait.begin for wait in waits],
        "to": [wait.end for wait in waits],
        "reason": [reasons.of(wait.reason) for wait in waits],
        "job": [place.get(wait.job.number) if wait.job else None for wait in waits],
    }


def of_reason(reason: Waited) -> OfReason:
    """Why a job waited."""
    pair = None
    if not isinstance(reason, str) and reason.told != SAME:
        pair = [reason.first, reason.later]
    return {"told": reason_words(reason), "pair": pair, "kind": kind_of(reason)}
