"""What plex-conflicts says of additions, told a second time, slowly and by hand.

`additions(summaries, asked)` gives the part of its text from `ADDITIONS 1` on, of all entries, or
of the two whose numbers are `asked`; the summaries are those of an `Exchange` of this module.
`verdict_adding(first, later)` has the words of the lines of two entries with additions. It stands
on `oracle.analysis`: each name in an expression is looked at, and each access of an entry.
"""
from __future__ import annotations

import copy
from typing import Any, Collection, Iterator, NamedTuple, Optional, Sequence, Tuple

from gate.oracle import analysis
from gate.oracle.analysis import Access, Expression, Node, Summary, factors_of, text_of

Operand = Tuple[Any, ...]
ALL_BITS = 32
KINDS = {"variable": "VAR", "field": "FIELD"}  # in their order, with the words of their lines


class Cell(NamedTuple):
    """A variable, or a field of whatever record, by its number through the exchange."""

    kind: str
    number: int


class Term(list):  # type: ignore[type-arg]
    """The factors of a term, and whether it is taken away."""

    minus = False


class Reader(analysis.Reader):
    """Reads expressions as `analysis.Reader` does, and keeps the sign of each term."""

    def expr(self, depth: int = 0) -> Expression:
        terms = [Term(self.term(depth))]
        while self.sees("+", "-"):
            minus = self.take("+", "-").text == "-"
            terms.append(Term(self.term(depth)))
            terms[-1].minus = minus
        return terms


class Exchange(analysis.Exchange):
    reader = Reader


# statements and entries


def is_sum(expr: Expression, own: Operand) -> bool:
    """Whether an operand is a term of its own that is added, and the expression names what it is
    of nowhere else: of a field not even that of another record.
    """
    alone = [term for term in expr if not term.minus and list(term) == [("", own)]]
    named = [factor for _, factor in factors_of(expr) if factor[:2] == own[:2]]
    return len(alone) == len(named) == 1


def stored_by(exchange: analysis.Exchange, node: Node) -> Optional[Cell]:
    """Into what a statement stores a value."""
    if node.kind == "set" and exchange.is_variable(node, node.first.text):
        return Cell("variable", exchange.variable(node, node.first.text))
    if node.kind == "set_field":
        return Cell("field", exchange.field(node, node.first.text)[1])
    return None


def own_of(node: Node) -> Operand:
    """What a statement stores into, as an operand."""
    if node.kind == "set":
        return "name", node.first.text
    return "field", node.first.text, node.pointer.text


def added_by(summary: Summary, node: Node) -> Optional[Cell]:
    """To what a statement adds: a variable or a field of 32 bits."""
    cell = stored_by(summary.exchange, node)
    is_wide = cell and summary.width(node) == ALL_BITS
    return cell if is_wide and is_sum(node.exprs[0], own_of(node)) else None


def cell_of(access: Access) -> Optional[Cell]:
    """What an access is to, where that may be added to."""
    return Cell(access[0], access[2]) if access[0] in KINDS else None


def added(summary: Summary) -> list[Cell]:
    """To what the jobs of an entry only add, in the order of the lines."""
    used: set[Cell] = set()
    others: set[Cell] = set()
    for node in summary.reached:
        cells = {cell for cell in map(cell_of, summary.accesses_of(node)) if cell}
        used |= cells
        others |= cells - {added_by(summary, node)}
    return sorted(used - others, key=lambda cell: (list(KINDS).index(cell.kind), cell.number))


# pairs


def spared(summary: Summary, cells: Collection[Cell]) -> Summary:
    """The same summary without its accesses to these."""
    one = copy.copy(summary)
    one.accesses = {access for access in summary.accesses if cell_of(access) not in cells}
    return one


def verdict(first: Summary, later: Summary) -> list[str]:
    """The conflict of two summaries, or else their tests, as the lines of a pair have them."""
    conflict = analysis.conflict(first.exchange, first, later)
    if conflict:
        return [f"NEVER {conflict}"]
    return [f"IF {test}" for test in analysis.tests(first.exchange, first, later)]


def verdict_adding(first: Summary, later: Summary) -> list[str]:
    """The same without what both only add to."""
    both = set(added(first)) & set(added(later))
    return verdict(spared(first, both), spared(later, both))


# lines


def adds_lines(summary: Summary) -> Iterator[str]:
    exchange = summary.exchange
    for kind, number in added(summary):
        name = exchange.variable_name if kind == "variable" else exchange.field_name
        yield f"ADDS {summary.facts.entry} {KINDS[kind]} {name(number)}"


def pair_lines(first: Summary, later: Summary) -> Iterator[str]:
    """The lines of a pair whose verdict with additions is another one."""
    now = verdict_adding(first, later)
    if now != verdict(first, later):
        pair = f"{first.facts.entry} {later.facts.entry}"
        yield from (f"PAIR {pair} ADDING {told}" for told in now or ["ALWAYS"])


def lines(summaries: Sequence[Summary], asked: Optional[tuple[int, int]] = None) -> Iterator[str]:
    """The lines of these entries and pairs, without the first and the last."""
    count = len(summaries)
    if asked and max(asked) >= count:
        return
    for entry in dict.fromkeys(asked or range(count)):
        yield from adds_lines(summaries[entry])
    for i, j in [asked] if asked else [(i, j) for i in range(count) for j in range(count)]:
        yield from pair_lines(summaries[i], summaries[j])


def summaries_of(exchange: Exchange) -> list[Summary]:
    """The summaries of all entries, by the least facts."""
    return [
        Summary(analysis.Facts(exchange, entry).close()) for entry in range(len(exchange.entries))
    ]


def additions(summaries: Sequence[Summary], asked: Optional[tuple[int, int]] = None) -> str:
    return text_of(["ADDITIONS 1", *lines(summaries, asked), "END ADDITIONS"])
