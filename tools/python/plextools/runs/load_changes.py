"""The figures of a load before and after a change of the text or of the signals, beside one
another.
"""
from typing import Dict, Iterator, List, NamedTuple, Tuple, TypedDict

from plextools.analysis.why import Exchange
from plextools.runs.report import Figures
from plextools.tables import in_columns

MOST = 20


class Waited(TypedDict):
    """How long jobs of a pair waited for a reason, before and after."""

    first: str
    later: str
    reason: str
    before: int
    after: int


class Changes(TypedDict):
    """The figures of both loads, and what jobs waited for."""

    before: Figures
    after: Figures
    waited: List[Waited]


class Row(NamedTuple):
    """A figure before and after, with so many decimals."""

    name: str
    before: float
    after: float
    decimals: int = 0


class Side(NamedTuple):
    """A load with its exchange."""

    exchange: Exchange
    told: Figures


def changes(before: Side, after: Side) -> Changes:
    old, new = waited(before), waited(after)
    rows: List[Waited] = [
        {
            "first": first,
            "later": later,
            "reason": reason,
            "before": old.get((first, later, reason), 0),
            "after": new.get((first, later, reason), 0),
        }
        for first, later, reason in {**old, **new}
    ]
    rows.sort(key=lambda row: -max(row["before"], row["after"]))
    return {"before": before.told, "after": after.told, "waited": rows}


def waited(side: Side) -> Dict[Tuple[str, str, str], int]:
    """How long jobs waited for each pair and its reason, by the names of its entries."""
    entries = side.exchange.analysis.entries
    return {
        (entries[row["first"]].name, entries[row["later"]].name, row["reason"]): row["waited"]
        for row in side.told["blockers"]["pairs"]
    }


def rows_of(told: Changes) -> Iterator[Row]:
    """The figures that are set beside one another."""
    before, after = told["before"], told["after"]
    yield Row("jobs", before["jobs"], after["jobs"])
    yield Row("statements", before["statements"], after["statements"])
    yield Row("longest chain", before["longest_chain"], after["longest_chain"])
    old_exact, new_exact = before["exact"], after["exact"]
    if old_exact and new_exact:
        one, other = old_exact["touches"], new_exact["touches"]
        yield Row("longest chain, exact", one["longest_chain"], other["longest_chain"])
        one, other = old_exact["additions_commute"], new_exact["additions_commute"]
        yield Row("and where additions commute", one["longest_chain"], other["longest_chain"])
    for old, new in zip(before["workers"], after["workers"]):
        yield Row(f"time with {old['workers']}", old["time"], new["time"])
    for old, new in zip(before["workers"], after["workers"]):
        yield Row(f"speed-up with {old['workers']}", old["speed_up"], new["speed_up"], 2)


def text_of(told: Changes) -> Iterator[str]:
    """The figures as lines for a reader."""
    yield "Before and after, with time in statements"
    rows = [
        [row.name, written(row.before, row), written(row.after, row), change(row)]
        for row in rows_of(told)
    ]
    yield from in_columns(["", "before", "after", "change"], rows)
    yield ""
    workers = told["after"]["blockers"]["workers"]
    yield f"What jobs waited for with {workers} workers, in statements"
    waits = [
        [
            f"{row['first']}, {row['later']}: {row['reason']}",
            str(row["before"]),
            str(row["after"]),
        ]
        for row in told["waited"]
    ]
    yield from in_columns(["pair", "before", "after"], waits[:MOST])
    if len(waits) > MOST:
        yield f"  and {len(waits) - MOST} more"


def written(value: float, row: Row) -> str:
    return f"{value:.{row.decimals}f}"


def change(row: Row) -> str:
    """How much larger a figure has become."""
    if not row.before:
        return ""
    part = 100 * (row.after - row.before) / row.before
    return "same" if row.before == row.after else f"{part:+.1f} %"
