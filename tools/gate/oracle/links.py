"""Conflicts about records whose numbers are read from stored data, told a second time.

The facts of an entry are found once more, with values that say what they were read from; so a
number says of itself whether it is a link. `Links(exchange, summaries)` stands on
`oracle.analysis`. Texts must break no rule, and are meant to be short.
"""
from __future__ import annotations

from typing import Any, Iterator, NamedTuple, Optional, Sequence

from gate.oracle import analysis
from gate.oracle.analysis import ANY, Facts, exprs_of, factors_of

LINK = "LINK"


class Link(NamedTuple):
    """What a record number is read from: a line, a variable or a field, and how it is written."""

    line: int
    name: str
    written: str


class Traced(Facts):
    """The facts of an entry, with values that are read from stored data as what they are."""

    def __init__(self, known: Facts) -> None:
        super().__init__(known.exchange, known.entry)
        self.known = known

    def expr(self, node: Any, expr: Any) -> Any:
        factor = expr[0][0][1] if len(expr) == 1 and len(expr[0]) == 1 else ("", "")
        if factor[0] == "name" and self.exchange.is_variable(node, factor[1]):
            name = self.exchange.variable_name(self.exchange.variable(node, factor[1]))
            return {(LINK, Link(node.first.line, name, factor[1]))}
        if factor[0] == "field" and self.is_known(node, factor[1], factor[2]):
            name = self.exchange.field_name(self.exchange.field(node, factor[1])[1])
            return {(LINK, Link(node.first.line, name, f"{factor[1]}({factor[2]})"))}
        return super().expr(node, expr)

    def is_known(self, node: Any, name: str, pointer: str) -> bool:
        """Whether the record of a field is known when the job begins."""
        file = self.exchange.field(node, name)[0]
        values = self.known.of(node.point, self.exchange.temp(node, pointer))
        return not self.exchange.files[file][1].forlopp and ANY not in values


class Links:
    """The links of an exchange."""

    def __init__(self, exchange: Any, summaries: Sequence[Any]) -> None:
        self.exchange, self.summaries = exchange, summaries
        self.traced = [Traced(summary.facts).close() for summary in summaries]

    def of(self, i: int, j: int, number: int, u: Any, v: Any) -> list[Link]:
        """What the records of a conflict about a field are read from; none where one is not."""
        found = list[Optional[Link]]()
        for entry, other, value, its in ((i, j, u, v), (j, i, v, u)):
            if value == ANY:
                is_written = ("field", True, number, its) in self.summaries[other].accesses
                found += self.of_side(entry, number, is_written)
        return sorted({link for link in found if link}) if None not in found else []

    def of_side(self, entry: int, number: int, reads: bool) -> Iterator[Optional[Link]]:
        """Those of one job, whose reads count or do not."""
        for node in self.summaries[entry].reached:
            accesses = self.summaries[entry].accesses_of(node)
            wanted = [("field", write, number, ANY) for write in (True, False) if write or reads]
            if accesses.isdisjoint(wanted):
                continue
            if node.kind == "FOR" and self.exchange.field(node, node.field.text)[1] == number:
                yield None
            for pointer in self.pointers(node, number):
                slot = self.exchange.temp(node, pointer)
                values: Any = self.traced[entry].of(node.point, slot)
                yield from (link for kind, link in values if kind == LINK)
                yield from (None for value in values if value == ANY)

    def pointers(self, node: Any, number: int) -> Iterator[str]:
        """The temporaries by which a statement uses a field."""
        named = [(node.first.text, node.pointer.text)] if node.kind == "set_field" else []
        for expr in exprs_of(node):
            named += [factor[1:] for _, factor in factors_of(expr) if factor[0] == "field"]
        for name, pointer in named:
            if self.exchange.field(node, name)[1] == number:
                yield pointer

    def of_pair(self, i: int, j: int) -> dict[str, list[Link]]:
        """For each conflict of a pair about a field, as it is told, its links."""
        found = {}
        for one, other in analysis.shared(self.summaries[i], self.summaries[j], "field"):
            number, u, v = one[1], one[2], other[2]
            if analysis.meet(u, v):
                values = f"{analysis.told_value(u)} WITH {analysis.told_value(v)}"
                told = f"FIELD {self.exchange.field_name(number)} {values}"
                found[told] = self.of(i, j, number, u, v)
        return found
