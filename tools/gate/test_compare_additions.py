"""Additions: to which variables and fields entries only add, by `plex-conflicts` and by
`oracle.additions`; and what comes of two jobs that pass where these are no conflict, in both
orders.

- rows: the lists and verdicts of addition_rows.py, worked out by hand; and the two jobs of each, by
  `plex single` with its lines in both orders, and by the runs of plextools
- pairs: those of the jobs of exchanges made by chance whose jobs mostly add: plex-load lets those
  pass with additions that the second account does, and none of them comes to something else in the
  other order
"""
from __future__ import annotations

import itertools
import pathlib
import random
import re
from collections import Counter
from typing import Iterator, Sequence

import pytest

from gate import harness
from gate.addition_rows import BLOCK, BY_NAME, HEAD, Row
from gate.checking import Tally, check, check_enough
from gate.makers import made_additions, made_exchange
from gate.oracle import additions
from gate.oracle.analysis import Expression, Summary
from gate.test_compare_load import passes
from plextools.analysis import additions as told_additions
from plextools.analysis import why
from plextools.runs import jobs
from plextools.runs.both_orders import Met, Meetings
from plextools.runs.machine import Job
from plextools.runs.play import AddingRules
from plextools.text.additions import is_addition
from plextools.text.statements import Text

PAIRS, STATEMENTS, LEAST_ROWS = 18, 30, 40
PATIENCE, JOBS = 40_000, 1000
# How many pairs there must be for each case: all, those that pass with additions, those of these
# that do not pass without, and those that do not pass and differ.
LEAST = {"pairs": 60, "passing with additions": 35, "with additions alone": 12, "differing": 0.5}
SWAPPED = re.compile(r"^(OUT |RESTART job |RELEASE F)(\d+)|\b(job |F)(\d+)", re.MULTILINE)
OTHER = {"1": "2", "2": "1"}
NO_LINES = (
    b"",
    b"ADDS 0 VAR K",
    b"ADDS VAR K.V",
    b"ADDS 0 OWN K.F",
    b"ADDS 0 VAR K.V 1",
    b"PAIR 0 ADDING ALWAYS",
    b"PAIR 0 0 ADDING",
    b"PAIR 0 0 ADDING NEVER",
    b"PAIR 0 0 NEVER VARIABLE K.V",
    b"PAIR 0 0 ADDING ALWAYS IF FORLOPP",
    b"END ADDITIONS",
)


def summaries_of(content: bytes) -> list[Summary]:
    return additions.summaries_of(additions.Exchange(content))


# rows


@pytest.mark.parametrize("name", BY_NAME)
def test_row(conflicts: pathlib.Path, folder: pathlib.Path, name: str) -> None:
    """The lines of a row are those by hand."""
    row = BY_NAME[name]
    harness.write_files(folder, {"E": row.text()})
    wrote = harness.answer(conflicts, ["E"], folder).wrote.decode().split("\n")
    by_hand = ["ADDITIONS 1", *row.additions(), "END ADDITIONS"]
    second = list(additions.lines(summaries_of(row.text())))
    check(
        f"told is {wrote}, and by hand {by_hand}"
        if wrote[-len(by_hand) - 1 : -1] != by_hand
        else None,
        f"the second account has {second}" if second != row.additions() else None,
    )


@pytest.mark.parametrize("line", NO_LINES, ids=range(len(NO_LINES)))
def test_no_line(line: bytes) -> None:
    """What is no line of the additions is not read as one."""
    with pytest.raises(told_additions.NoAdditions):
        told_additions.Additions([b"ADDS 0 VAR K.V", line])


def wrong_counters(row: Row, exchange: why.Exchange) -> Iterator[str]:
    """The conflicts of a row of which plex-why does not rightly say whether they are about a
    counter.
    """
    kinds = {"VARIABLE": "VAR", "FIELD": "FIELD"}
    for i, j in itertools.product((0, 1), repeat=2):
        for reason in exchange.conflicts.conflicts(i, j):
            added = f"{kinds.get(reason.kind)} {reason.name}"
            wanted = all(f"{entry} {added}" in row.told.adds for entry in (i, j))
            if exchange.counters.is_counter(i, j, reason) != wanted:
                yield f"entries {i} and {j}: {reason.told} is a counter: {not wanted}"


def other_names(report: str) -> str:
    """A report in which the two jobs have changed names, and so have their forlopps."""

    def other(found: re.Match[str]) -> str:
        word, number = found[1] or found[3], found[2] or found[4]
        return word + OTHER.get(number, number)

    return SWAPPED.sub(other, report)


class Orders:
    """Does two jobs in both orders, in a folder."""

    def __init__(self, plex: pathlib.Path, folder: pathlib.Path) -> None:
        self.plex, self.folder = plex, folder

    def report(self, row: Row, other_order: bool) -> str:
        """What `single` writes of the two jobs."""
        lines = row.signal_lines(other_order=other_order)
        harness.write_files(self.folder, {"E": row.text(), "S": lines})
        told = harness.answer(self.plex, ["single", "E", "S"], self.folder)
        assert told.status == 0, told
        return told.wrote.decode()

    def by_program(self, row: Row) -> bool:
        """Whether both orders leave the same by the program: all lines but the names of jobs and
        forlopps, in whatever order.
        """
        one, other = (self.report(row, other_order) for other_order in (False, True))
        return sorted(one.split("\n")) == sorted(other_names(other).split("\n"))

    def exchange(self, content: bytes) -> why.Exchange:
        harness.write_files(self.folder, {"E": content})
        return why.Exchange(str(self.folder / "E"))

    def met(self, exchange: why.Exchange, signals: bytes) -> Iterator[Met]:
        """The pairs of a run, each in both orders; none, where the run is too long."""
        harness.write_files(self.folder, {"S": signals})
        load = jobs.jobs_of(exchange, str(self.folder / "S"), JOBS, PATIENCE, touches=True)
        return iter(()) if load.is_traced else Meetings(exchange.text, load).pairs()

    def by_steps(self, row: Row) -> bool:
        """Whether both orders leave the same by the runs of plextools. There is no pair where the
        restart of the first job takes the later one away.
        """
        met = self.met(self.exchange(row.text()), row.signal_lines())
        return any(one.commutes for one in met)


@pytest.fixture
def orders(plex: pathlib.Path, conflicts: pathlib.Path, folder: pathlib.Path) -> Orders:
    """Does jobs in a folder."""
    return Orders(plex, folder)


@pytest.mark.parametrize("name", BY_NAME)
def test_row_in_both_orders(orders: Orders, name: str) -> None:
    """Both orders of the two jobs of a row leave the same, or they do not, as it says."""
    row = BY_NAME[name]
    ways = {"plex single": orders.by_program(row), "plextools": orders.by_steps(row)}
    check(*(f"by {way}: {same}" for way, same in ways.items() if same != row.is_same))


@pytest.mark.parametrize("name", BY_NAME)
def test_row_of_counters(orders: Orders, name: str) -> None:
    """A conflict of a row is about a counter where both only add to it."""
    row = BY_NAME[name]
    check(*wrong_counters(row, orders.exchange(row.text())))


# statements


def without_brackets(expr: Expression) -> Expression:
    """An expression without brackets around all of it."""
    while len(expr) == len(expr[0]) == 1 and expr[0][0][1][0] == "bracket":
        expr = expr[0][0][1][1]
    return expr


FORMS = {
    "V = V + D;": True,
    "V = D + V - 1;": True,
    "V = (V - D);": True,
    "V = D - V;": False,
    "V = V + V;": False,
    "V = V * 2;": False,
    "S(P) = D + S(P);": True,
    "S(P) = D - S(P);": False,
    "S(P) = S(D) + 1;": False,
}


@pytest.mark.parametrize("statement", FORMS)
def test_forms(statement: str) -> None:
    """Whether a statement adds is as it was worked out by hand."""
    declared = "VARIABLE V WIDTH 32; FILE F SIZE 8; FIELD S WIDTH 32;"
    block = BLOCK.format(declared=declared, sent="", first=statement, later="")
    text = Text("E", (HEAD + block).encode())
    stored = [node for node in text.points if node.kind in ("set", "set_field")]
    assert [is_addition(node) for node in stored] == [FORMS[statement]]


@pytest.mark.by_chance(STATEMENTS)
def test_statements(seed: str, tally: Tally, number: int) -> None:
    """Statements that add, by the tools, which take one with brackets around all of it too."""
    content = made_case(random.Random(f"{seed}.{number}.statements"), number).exchange
    slow, text = additions.Exchange(content), Text("E", content)
    counts, wrong = Counter[str](), list[str]()
    for node, other in zip(text.points, slow.points):
        if additions.stored_by(slow, other):
            wanted = additions.is_sum(without_brackets(other.exprs[0]), additions.own_of(other))
            counts["adding" if wanted else "not adding"] += 1
            if is_addition(node) != wanted:
                wrong.append(f"line {node.line} adds: {not wanted}")
    tally.add("statements that add", counts, {"adding": 3, "not adding": 1})
    check(*wrong, content.decode() if wrong else None)


# pairs


class Passing:
    """Which jobs of an exchange pass, without and with additions, by the second account."""

    def __init__(self, content: bytes) -> None:
        self.summaries = summaries_of(content)
        self.known: dict[tuple[int, int], tuple[list[str], list[str]]] = {}

    def verdicts(self, i: int, j: int) -> Sequence[list[str]]:
        if (i, j) not in self.known:
            first, later = self.summaries[i], self.summaries[j]
            self.known[i, j] = additions.verdict(first, later), additions.verdict_adding(
                first, later
            )
        return self.known[i, j]

    def of_pair(self, met: Met) -> list[bool]:
        """Whether two jobs pass without additions, and with them."""
        first, later = met.pair
        return [holds(told, first, later) for told in self.verdicts(first.entry, later.entry)]


def holds(verdict: Sequence[str], first: Job, later: Job) -> bool:
    """Whether two jobs pass by a verdict."""
    conflict = next((told for told in verdict if told.startswith("NEVER ")), None)
    return passes(conflict, [told.partition(" ")[2] for told in verdict], first, later)


def made_case(chance: random.Random, number: int) -> made_additions.Case:
    """An exchange whose jobs mostly add; each third one is of all kinds of jobs."""
    if number % 3 != 2:
        return made_additions.counting_case(chance)
    case = made_exchange.made_case(chance)
    return made_additions.Case(
        made_additions.with_additions(case.exchange, chance).text, case.signals
    )


@pytest.mark.by_chance(PAIRS)
def test_pairs(orders: Orders, seed: str, tally: Tally, number: int) -> None:
    """Pairs that pass with additions come to the same in both orders."""
    case = made_case(random.Random(f"{seed}.{number}.pairs"), number)
    exchange, passing = orders.exchange(case.exchange), Passing(case.exchange)
    rules = AddingRules(exchange.conflicts, exchange.counters)
    counts, wrong = Counter[str](), list[str]()
    for met in orders.met(exchange, case.signals):
        before, now = passing.of_pair(met)
        told = rules.refusal(*met.pair) is None
        counts["pairs"] += 1
        counts["passing with additions"] += now
        counts["with additions alone"] += now and not before
        counts["differing"] += not (now or met.commutes)
        if now != told or (now and not met.commutes) or (before and not now):
            first, later = met.pair
            passed = f"passes {before}, {now} and {told}, and commutes {met.commutes}"
            wrong.append(f"job {first.place} with {later.place}: {passed}")
    tally.add("pairs that pass with additions", counts, LEAST)
    check(*wrong, case.exchange.decode() if wrong else None)


def test_all_rows_are_there() -> None:
    """No row is lost."""
    check_enough("rows of additions", len(BY_NAME), LEAST_ROWS)
