"""What `plex-why --json` writes of a pair: its entries, each conflict or test with the statements
of both jobs and what helps, and the verdict with additions. docs/OUTPUTS.md, Pairs as JSON, has the
members.
"""
from typing import List, Optional, Sequence, TypedDict

from plextools.analysis.additions import Additions
from plextools.analysis.lines import Entry
from plextools.analysis.links import Link
from plextools.analysis.reasons import Reason
from plextools.analysis.why import Exchange, Pair, Told


class OfEntry(TypedDict):
    """An entry of a pair. `adds` are the variables and fields to which its jobs only add, as the
    lines ADDS have them.
    """

    entry: int
    signal: str
    block: str
    level: str
    adds: List[str]


class OfStatement(TypedDict):
    """A statement of a job, or the declaration of its signal, which is no point."""

    point: Optional[int]
    line: int
    text: str
    does: str


class OfLink(TypedDict):
    """What a record number is read from: the line of the statement, the name of the variable or the
    field with that of its block, and how it is written.
    """

    line: int
    name: str
    text: str


class OfReason(TypedDict):
    """A conflict or a test, the statements of both jobs, and what helps; whether it is about a
    counter, to which both only add; and what the record numbers are read from that it is about
    alone.
    """

    reason: str
    first: List[OfStatement]
    later: List[OfStatement]
    helps: str
    counter: bool
    links: List[OfLink]


class OfPair(TypedDict):
    """A pair, with its verdict: NEVER, IF or ALWAYS. `behind` are the conflicts, or else the tests,
    that are left where counters keep nothing apart, and `behind_links` those where links do not
    either; `adding` is what the lines ADDING tell, where the verdict is another one then.
    """

    first: OfEntry
    later: OfEntry
    verdict: str
    reasons: List[OfReason]
    behind: List[str]
    behind_links: List[str]
    adding: List[str]


def of_pair(exchange: Exchange, i: int, j: int) -> OfPair:
    exchange.look_at({i, j})
    pair, reasons = Pair(exchange, i, j), exchange.conflicts.reasons(i, j)
    additions = exchange.conflicts.additions
    return {
        "first": of_entry(pair.first, additions),
        "later": of_entry(pair.later, additions),
        "verdict": verdict_of(reasons),
        "reasons": [of_reason(pair, reason) for reason in reasons],
        "behind": exchange.counters.behind(i, j),
        "behind_links": exchange.links.behind(i, j),
        "adding": additions.adding.get((i, j), []),
    }


def verdict_of(reasons: Sequence[Reason]) -> str:
    if not reasons:
        return "ALWAYS"
    return "NEVER" if reasons[0].is_conflict else "IF"


def of_entry(entry: Entry, additions: Additions) -> OfEntry:
    return {
        "entry": entry.number,
        "signal": entry.signal,
        "block": entry.block,
        "level": entry.level,
        "adds": additions.adds.get(entry.number, []),
    }


def of_reason(pair: Pair, reason: Reason) -> OfReason:
    first, later = pair.statements(reason)
    return {
        "reason": reason.told,
        "first": of_statements(first),
        "later": of_statements(later),
        "helps": pair.cure(reason),
        "counter": pair.exchange.counters.is_counter(pair.i, pair.j, reason),
        "links": of_links(pair.exchange.links.of(pair.i, pair.j, reason)),
    }


def of_links(links: Sequence[Link]) -> List[OfLink]:
    return [{"line": link.line, "name": link.name, "text": link.written} for link in links]


def of_statements(statements: Sequence[Told]) -> List[OfStatement]:
    return [
        {"point": told.point, "line": told.line, "text": told.head, "does": told.does}
        for told in statements
    ]
