"""Numbers of records that are a start value with one operation and a number, such as `N MOD 48`.

The analysis takes such a number for ANY. `StartSums(exchange)` knows which records of a field two
jobs use by what they start with, where all of it is so simple, and which pairs would pass by it, on
top of additions. This is advice: it follows from the facts, and nothing of it is proved.
"""
from typing import Dict, FrozenSet, Iterator, List, NamedTuple, Optional, Sequence, Tuple

from plextools.analysis.lines import ANY
from plextools.analysis.reasons import Reason
from plextools.analysis.why import Exchange
from plextools.limits import LARGEST_NUMBER
from plextools.text.grammar import Expression, Node

Values = Sequence[int]  # with which a job starts


class Sum(NamedTuple):
    """A value of the analysis, with an operation and a number behind it, if there is one."""

    value: str
    operation: str = "+"
    number: int = 0

    def of(self, values: Values) -> int:
        """What it is in a job that starts with these."""
        kind, _, told = self.value.partition(" ")
        value = values[int(told)] if kind == "ARG" else int(told)
        made = {
            "+": value + self.number,
            "-": value - self.number,
            "*": value * self.number,
            "/": value // (self.number or 1),
            "MOD": value % (self.number or 1),
        }
        return made[self.operation] % (LARGEST_NUMBER + 1)


class Apart(NamedTuple):
    """What two jobs that would pass must not have in common: the numbers of records, by sums."""

    first: FrozenSet[Sum]
    later: FrozenSet[Sum]

    def holds(self, first: Values, later: Values) -> bool:
        ones, others = {one.of(first) for one in self.first}, {one.of(later) for one in self.later}
        return ones.isdisjoint(others)


class OfPair(NamedTuple):
    """What must be so for jobs of two entries to pass: records apart, and the tests."""

    apart: List[Apart]
    tests: List[Reason]


class StartSums:
    """The sums of an exchange, whose facts are kept."""

    def __init__(self, exchange: Exchange) -> None:
        self.exchange, self.counters = exchange, exchange.counters
        self.pairs: Dict[Tuple[int, int], Optional[OfPair]] = {}
        self.found: Dict[Tuple[int, str], Optional[FrozenSet[Sum]]] = {}

    def pair(self, i: int, j: int) -> Optional[OfPair]:
        """What must be so for two entries; None, where something else keeps them apart for good."""
        if (i, j) not in self.pairs:
            self.pairs[i, j] = self.of_pair(i, j)
        return self.pairs[i, j]

    def of_pair(self, i: int, j: int) -> Optional[OfPair]:
        conflicts, apart = self.exchange.conflicts, []
        for reason in conflicts.conflicts(i, j):
            if self.counters.is_counter(i, j, reason):
                continue
            sides = self.sides(i, j, reason)
            if sides is None:
                return None
            apart.append(sides)
        tests = conflicts.tests(i, j)
        left = [one for one in tests if not self.counters.is_counter(i, j, one)]
        return OfPair(apart, left)

    def sides(self, i: int, j: int, reason: Reason) -> Optional[Apart]:
        """The records of a field that are in conflict, where they are known by sums."""
        if not reason.selectors:
            return None
        first = self.records(i, reason.name, reason.selectors.first)
        later = self.records(j, reason.name, reason.selectors.later)
        return Apart(first, later) if first is not None and later is not None else None

    def records(self, entry: int, name: str, selector: str) -> Optional[FrozenSet[Sum]]:
        """The numbers that a selector of a field stands for."""
        if selector != ANY:
            return frozenset([Sum(selector)])
        key = entry, name
        if key not in self.found:
            sums = list(self.unknown(entry, name))
            known = [one for one in sums if one is not None]
            self.found[key] = frozenset(known) if len(known) == len(sums) else None
        return self.found[key]

    def unknown(self, entry: int, name: str) -> Iterator[Optional[Sum]]:
        """The numbers of the records of a field that are ANY; None for one that is no sum."""
        self.exchange.look_at_facts([entry])
        for number, line in enumerate(self.exchange.entry(entry).numbered):
            if line.split(" ")[1:3] == ["FIELD", name] and line.endswith(f" {ANY}"):
                for point, _ in self.exchange.conflicts.statements(entry, number):
                    yield from self.numbers_at(entry, point, name)

    def numbers_at(self, entry: int, point: int, name: str) -> Iterator[Optional[Sum]]:
        """Those of one statement."""
        made, text = self.exchange.made[entry], self.exchange.text
        node = text.points[point]
        for pointer in [use.pointer for use in text.uses(node) if use.name == name]:
            if pointer is None:
                yield None
            elif made.facts.has_any(point, made.slot(node, pointer)):
                for origin in made.origins(point, made.slot(node, pointer)):
                    yield from self.sums_at(entry, text.points[origin.point], origin.what)

    def sums_at(self, entry: int, node: Node, what: str) -> Iterator[Optional[Sum]]:
        """What a statement computes, where it is a value with one operation and a number."""
        made = self.exchange.made[entry]
        parts = without_brackets(node.exprs[0]) if what == "computed" and node.kind == "set" else []
        own, operation = parts[0].factor if parts else None, parts[-1].operator if parts else ""
        other = parts[1].factor if len(parts) == 2 else None
        if (
            (own is None or own.kind != "name" or not made.is_temporary(node, own.name))
            or (other is None or other.kind != "number")
            or (other.value == 0 and operation in ("/", "MOD"))
        ):
            yield None
            return
        for value in made.facts.of(node.point, made.slot(node, own.name)):
            yield None if value == ANY else Sum(value, operation, other.value)


def without_brackets(expr: Expression) -> Expression:
    """An expression without brackets around all of it."""
    while len(expr) == 1 and expr[0].factor.kind == "bracket":
        expr = expr[0].factor.inside
    return expr
