"""What plex-conflicts says of an exchange, told a second time, slowly and by hand.

`conflicts(text, asked)` gives the text that it writes of an exchange text in bytes, of all entries,
or of the two whose numbers are `asked`. It follows docs/OUTPUTS.md, All conflicts, and stands on
`oracle.analysis`: an access is looked for at each statement of its entry, and each access of one
entry is held beside each of another. `oracle.additions` has the last part. Texts must break no
rule, and are meant to be short.
"""
from __future__ import annotations

from typing import Any, Iterable, Iterator, Optional, Sequence

from gate.oracle import additions, analysis
from gate.oracle.analysis import Access, Node, Summary, meet, text_of, value_key

KINDS = ("variable", "field", "own", "seize", "free")
MOST_TOLD = 64_000_000


def accesses_of(summary: Summary) -> list[Access]:
    """The accesses of an entry, in the order of their lines."""
    return [(kind, *rest) for kind in KINDS for rest in summary.of_kind(kind)]


def given_at(summary: Summary, node: Node) -> Iterator[int]:
    """The numbers of what a statement gives: of accesses, and behind them of levels."""
    exchange, accesses, here = summary.exchange, accesses_of(summary), summary.accesses_of(node)
    yield from (number for number, access in enumerate(accesses) if access in here)
    if node.kind == "SEND" and exchange.signal_of(node).level:
        yield len(accesses) + sorted(summary.levels).index(exchange.signal_of(node).level)


def point_lines(summary: Summary) -> list[str]:
    rows = sorted(
        (number, node.point, node.first.line)
        for node in summary.reached
        for number in given_at(summary, node)
    )
    return [
        f"AT {summary.facts.entry} {number} POINT {point} LINE {line}"
        for number, point, line in rows
    ]


def clash(one: Access, other: Access) -> Optional[tuple[Any, ...]]:
    """What two accesses clash on, as it is put in order; None where they do not."""
    kind, *first = one
    other_kind, *later = other
    if kind == other_kind == "variable" and first[1] == later[1] and (first[0] or later[0]):
        return 0, first[1]
    if (
        kind == other_kind == "field"
        and first[1] == later[1]
        and (first[0] or later[0])
        and meet(first[2], later[2])
    ):
        return 1, first[1], value_key(first[2]), value_key(later[2])
    if {kind, other_kind} <= {"seize", "free"} and first == later and "seize" in (kind, other_kind):
        return 2, first[0]
    return None


def clash_rows(first: Summary, later: Summary) -> Iterator[tuple[Any, ...]]:
    """What clashes of two entries, each with the numbers of both sides; a level has that of the
    first alone.
    """
    ones, others = accesses_of(first), accesses_of(later)
    for k, one in enumerate(ones):
        for number, other in enumerate(others):
            if clash(one, other):
                yield clash(one, other), k, number
    for k, level in enumerate(sorted(first.levels), len(ones)):
        if level < later.level:
            yield (3, level), k


def clash_lines(first: Summary, later: Summary) -> list[str]:
    pair = f"{first.facts.entry} {later.facts.entry}"
    return [
        f"CLASH {pair} {' '.join(map(str, numbers))}"
        for _, *numbers in sorted(clash_rows(first, later))
    ]


def sections(summaries: Sequence[Summary], asked: Optional[tuple[int, int]]) -> Iterator[str]:
    """The texts of the entries, and then those of the pairs."""
    count = len(summaries)
    pairs = [asked] if asked else [(i, j) for i in range(count) for j in range(count)]
    if asked and max(asked) >= count:
        return
    for entry in dict.fromkeys(asked or range(count)):
        yield text_of(point_lines(summaries[entry]))
    for i, j in pairs:
        yield text_of(clash_lines(summaries[i], summaries[j]))


def told(parts: Iterable[str], most: int) -> Iterator[str]:
    """The texts for which there is room, and the last line."""
    room = most
    for part in parts:
        if len(part) > room:
            yield f"LIMIT {most}\n"
            return
        room -= len(part)
        yield part
    yield "END CONFLICTS\n"


def conflicts(text: bytes, asked: Optional[tuple[int, int]] = None, most: int = MOST_TOLD) -> str:
    exchange = additions.Exchange(text)
    summaries = additions.summaries_of(exchange)
    lines = [line for summary in summaries for line in summary.lines()]
    before = text_of(
        [*lines, *analysis.pair_lines(exchange, summaries), "END PAIRS", "CONFLICTS 1"]
    )
    clashes = "".join(told(sections(summaries, asked), most))
    return before + clashes + additions.additions(summaries, asked)
