"""What plex-why finds, beside `oracle.analysis`.

The exchanges are those of tools/gate/cases/analysis, and others made by chance. Of each entry each
line of its summary must be made by the statements that make it by oracle.analysis, and each fault
stand at a statement that may fault by it. Of each pair the first conflict, or all tests, must be
those of `plex analyse`. Where a value stops being one that came with the signal, the statement must
make it one of itself, by the rules of oracle.analysis. What is printed of each pair must be what
`oracle.why` tells: its reasons, statements, what they do, and what helps. The tests of a pair that
is never run together, which plex-load takes where its conflicts are left out, must be those of
oracle.analysis too, and `plex-why --json` must say what the lines of plex-why do. What is told of
links must be what `oracle.links` finds. A pair of each exchange is asked for alone, as pairs are
where a text of all pairs has no room, and has the same told of it.
"""
from __future__ import annotations

import json
import pathlib
import random
import re
from typing import Any, Iterator

import pytest

from gate import harness, why_text
from gate.checking import Tally, check, check_enough
from gate.makers import made_exchange, made_links
from gate.oracle import analysis as oracle_analysis
from gate.oracle import links as oracle_links
from plextools import tables
from plextools.analysis import conflicts as all_conflicts
from plextools.analysis import why as why_lines
from plextools.analysis.links import Link
from plextools.show import pair_json

GATE = 300
CASES = harness.CASES / "analysis"
EVERYTHING = 10**9
HEADS = re.compile(r"^(  (first|later), [A-Z0-9]+ [A-Z0-9]+:|also: )")
NAMES = sorted(path.parent.name for path in CASES.glob("*/exchange"))
# How many of each there must be, for each exchange that is made.
LEAST_CASES = 65
LEAST = {"lines": 15, "statements": 20, "faults": 15, "origins": 20, "conflicts": 10, "tests": 30}
OF_LINKS, LEAST_OF_LINKS = 60, {"links": 4}  # exchanges whose jobs read record numbers


def told_accesses(exchange: Any, summary: Any, node: Any) -> Iterator[str]:
    """The lines of a summary that a statement gives by oracle.analysis."""
    names = {
        "variable": exchange.variable_name,
        "field": exchange.field_name,
        "own": exchange.field_name,
    }
    for access in summary.accesses_of(node):
        kind, *rest = access
        if kind in ("seize", "free"):
            yield f"{kind.upper()} {exchange.file_name(rest[0])}"
        else:
            word = {"variable": "VAR", "field": "FIELD", "own": "OWN"}[kind]
            value = f" {oracle_analysis.told_value(rest[2])}" if kind == "field" else ""
            yield f"{'WRITE' if rest[0] else 'READ'} {word} {names[kind](rest[1])}{value}"
    if node.kind == "SEND" and exchange.signal_of(node).level:
        yield f"SEND {exchange.signal_of(node).level}"


def is_in_circle(summary: Any, point: int) -> bool:
    """Whether a point that is reached leads back to itself."""
    seen, left = set[int](), [point]
    while left:
        for to, _ in summary.facts.flows(summary.exchange.points[left.pop()]):
            if to == point:
                return True
            if to is not None and to not in seen and summary.facts.reached(to):
                seen.add(to)
                left.append(to)
    return False


def makes_any(summary: Any, point: int) -> bool:
    """Whether a statement gives ANY of itself, where no slot before it has that value."""
    facts = oracle_analysis.Facts(summary.exchange, summary.facts.entry)
    facts.values = {
        place: values - {oracle_analysis.ANY} for place, values in summary.facts.values.items()
    }
    return any(
        value == oracle_analysis.ANY
        for _, gives in facts.flows(summary.exchange.points[point])
        for _, _, value in gives
    )


class Comparison:
    """Compares what is found of an exchange."""

    def __init__(self) -> None:
        self.counts, self.wrong = dict.fromkeys([*LEAST, *LEAST_OF_LINKS], 0), list[str]()

    def need(self, holds: object, told: str) -> None:
        """Notes what does not hold."""
        if not holds:
            self.wrong.append(told)

    def statements(self, exchange: Any, summary: Any, entry: Any) -> None:
        """Each line with its statements, both ways."""
        wanted: dict[str, set[int]] = {}
        for node in summary.reached:
            for line in told_accesses(summary.exchange, summary, node):
                wanted.setdefault(line, set()).add(node.point)
        got = {
            line: {point for point, _ in exchange.conflicts.statements(entry.number, number)}
            for number, line in enumerate(entry.numbered)
        }
        self.need(
            got == wanted,
            f"entry {entry.number}: other statements than those of {sorted(wanted)[:3]}",
        )
        self.counts["lines"] += len(got)
        self.counts["statements"] += sum(map(len, got.values()))

    def faults(self, made: Any, summary: Any, entry: Any) -> None:
        """Each fault stands at a statement that may fault by it, and none is missing."""
        self.need(entry.fault == bool(made.faults), f"entry {entry.number}: FAULT is not explained")
        for fault in made.faults:
            self.counts["faults"] += 1
            node = summary.exchange.points[fault.point]
            may = {
                "BUDGET": lambda: is_in_circle(summary, node.point),
                "SENDS": summary.sends_much,
            }.get(fault.fault, lambda: summary.faults(node))
            self.need(
                may(), f"entry {entry.number}: point {fault.point} has no fault {fault.fault}"
            )
        faulty = {node.point for node in summary.reached if summary.faults(node)}
        self.need(
            faulty <= {fault.point for fault in made.faults},
            f"entry {entry.number}: a statement that may fault is missing",
        )

    def origins(self, made: Any, summary: Any) -> None:
        """Each temporary that may be any number has statements that make it so."""
        for (point, slot), values in made.facts.values.items():
            if "ANY" in values and slot[0] == "T":
                origins = made.origins(point, slot)
                self.need(origins, f"entry {made.entry}: {slot} before {point} comes from nowhere")
                for origin in origins[:3]:
                    self.counts["origins"] += 1
                    self.need(
                        makes_any(summary, origin.point),
                        f"entry {made.entry}: point {origin.point} makes no number of its own",
                    )

    def pairs(self, exchange: Any, slow: Any, summaries: list[Any]) -> None:
        """The first conflict or all tests of each pair, and the statements for them."""
        links = oracle_links.Links(slow, summaries)
        for i, first in enumerate(summaries):
            for j, later in enumerate(summaries):
                self.verdict(exchange, i, j)
                tests = [test.told for test in exchange.conflicts.tests(i, j)]
                self.need(
                    tests == list(oracle_analysis.tests(slow, first, later)),
                    f"pair {i} {j}: tests",
                )
                self.reasons(exchange, i, j)
                self.links(exchange, links.of_pair(i, j), i, j)
                self.need(
                    as_lines(exchange, i, j) == as_objects(exchange, i, j),
                    f"pair {i} {j}: --json",
                )

    def verdict(self, exchange: Any, i: int, j: int) -> None:
        """The first conflict or all tests of a pair."""
        conflicts = exchange.conflicts.conflicts(i, j)
        told = exchange.analysis.told.get((i, j), [])
        if conflicts:
            got = [f"NEVER {conflicts[0].told}"]
            self.counts["conflicts"] += len(conflicts)
            self.need(
                exchange.conflicts.first(i, j).told == conflicts[0].told,
                f"pair {i} {j}: the first",
            )
        else:
            got = [f"IF {test.told}" for test in exchange.conflicts.tests(i, j)]
            self.counts["tests"] += len(got)
        self.need(got == told, f"pair {i} {j}: {got} and not {told}")

    def reasons(self, exchange: Any, i: int, j: int) -> None:
        """The statements for the reasons of a pair, and what helps."""
        pair = why_lines.Pair(exchange, i, j)
        for reason in exchange.conflicts.reasons(i, j):
            first_side, later_side = pair.statements(reason)
            alone = reason.kind == "FORLOPP"
            self.need(
                first_side and (later_side or alone),
                f"pair {i} {j}: no statement for {reason.told}",
            )
            self.need(pair.cure(reason), f"pair {i} {j}: nothing helps against {reason.told}")

    def links(self, exchange: Any, wanted: dict[str, list[Any]], i: int, j: int) -> None:
        """What the record numbers of each conflict are read from, and what is behind links."""
        behind = list[str]()
        for reason in exchange.conflicts.conflicts(i, j):
            is_counter = exchange.counters.is_counter(i, j, reason)
            links = [] if is_counter else wanted.get(reason.told, [])
            got = exchange.links.of(i, j, reason)
            self.need(got == links, f"pair {i} {j}: {reason.told}: {got} and not {links}")
            behind += [] if links or is_counter else [reason.told]
            self.counts["links"] += len(links)
        if not behind:
            tests = exchange.conflicts.tests(i, j)
            left = [test for test in tests if not exchange.counters.is_counter(i, j, test)]
            behind = [f"IF {test.told}" for test in left]
        got = exchange.links.behind(i, j)
        self.need(got == behind, f"pair {i} {j}: behind links {got} and not {behind}")

    def asked_alone(self, exchange: Any) -> None:
        """A pair for which a text of all pairs has no room is asked for alone, and has the same
        told of it.
        """
        pairs = [pair for pair in exchange.analysis.told if exchange.analysis.is_never(*pair)]
        without = all_conflicts.Conflicts(exchange.text.name)
        without.of_entries, without.of_pairs = {}, {}
        for pair in pairs[:1]:
            self.need(not without.is_at_hand(*pair), f"pair {pair}: it is at hand")
            whole, alone = (
                [vars(one) for one in some.conflicts(*pair)]
                for some in (exchange.conflicts, without)
            )
            self.need(whole == alone, f"pair {pair}: other conflicts where it is asked for alone")
            for number in range(len(exchange.entry(pair[0]).numbered)):
                got = without.statements(pair[0], number)
                self.need(
                    got == exchange.conflicts.statements(pair[0], number),
                    f"entry {pair[0]}: other statements where it is asked for alone",
                )

    def text(self, content: bytes, folder: pathlib.Path) -> None:
        """All of an exchange text."""
        place = folder / "E"
        place.write_bytes(content)
        exchange = why_lines.Exchange(str(place), keeps_facts=True)
        exchange.look_at_all()
        slow = oracle_analysis.Exchange(content)
        summaries = [
            oracle_analysis.Summary(oracle_analysis.Facts(slow, entry).close())
            for entry in range(len(slow.entries))
        ]
        self.need(
            len(exchange.made) == len(summaries) == len(exchange.analysis.entries),
            "not all entries are there",
        )
        for number, summary in enumerate(summaries):
            self.statements(exchange, summary, exchange.entry(number))
            self.faults(exchange.made[number], summary, exchange.entry(number))
            self.origins(exchange.made[number], summary)
        self.pairs(exchange, slow, summaries)
        for told in why_text.differences(exchange, content, slow, summaries):
            self.need(False, told)
        self.asked_alone(exchange)


def as_lines(exchange: Any, i: int, j: int) -> list[str]:
    """What plex-why tells of a pair, without heads and spaces between columns."""
    told = why_lines.told(exchange, i, j, EVERYTHING)
    return [" ".join(HEADS.sub("", line).split()) for line in told]


def as_objects(exchange: Any, i: int, j: int) -> list[str]:
    """The same of what --json writes."""
    pair = json.loads(tables.as_json(pair_json.of_pair(exchange, i, j)))
    name, lines = exchange.text.name, list[str]()
    for reason, meant in zip(pair["reasons"], exchange.conflicts.reasons(i, j)):
        head = "" if lines else f"PAIR {i} {j} {pair['verdict']} "
        lines.append(head + reason["reason"])
        for told in reason["first"] + reason["later"]:
            lines.append(f"{name}:{told['line']}: {told['text']} {told['does']}")
        lines.append(f"what helps: {reason['helps']}")
        names = exchange.counters.of(i, j, meant) if reason["counter"] else []
        lines += [HEADS.sub("", line) for line in why_lines.counter_words(meant, names)]
        links = [Link(*link.values()) for link in reason["links"]]
        lines += why_lines.link_words(links, EVERYTHING)
    for kind, member, head in (
        ("counter", "behind", why_lines.BEHIND),
        ("links", "behind_links", why_lines.BEHIND_LINKS),
    ):
        if any(reason[kind] for reason in pair["reasons"]):
            lines.append(f"{head}{', '.join(pair[member]) or 'nothing'}")
    if not lines:
        lines.append(f"PAIR {i} {j} always together, unless they are of one forlopp")
    return [" ".join(line.split()) for line in lines]


def compare(content: bytes, folder: pathlib.Path) -> Comparison:
    """What came of an exchange, in which nothing may differ."""
    comparison = Comparison()
    comparison.text(content, folder)
    check(*comparison.wrong)
    return comparison


@pytest.fixture(autouse=True)
def programs(plex: pathlib.Path, conflicts: pathlib.Path) -> None:
    """The programs that plex-why takes."""


@pytest.fixture
def counts(pytestconfig: pytest.Config, tally: Tally) -> Tally:
    """The counts of both kinds of exchanges, which are summed up together."""
    tally.cases = len(NAMES) + (pytestconfig.option.cases or GATE)
    return tally


@pytest.mark.parametrize("name", NAMES)
def test_case(folder: pathlib.Path, counts: Tally, name: str) -> None:
    """An exchange of the analyses by hand."""
    content = (CASES / name / "exchange").read_bytes()
    counts.add("compared why", compare(content, folder).counts)


@pytest.mark.by_chance(GATE)
def test_by_chance(folder: pathlib.Path, seed: str, counts: Tally, number: int) -> None:
    """An exchange made by chance."""
    exchange = made_exchange.made_case(random.Random(f"{seed}.{number}")).exchange
    counts.add("compared why", compare(exchange, folder).counts, LEAST)


@pytest.mark.by_chance(OF_LINKS)
def test_links(folder: pathlib.Path, seed: str, tally: Tally, number: int) -> None:
    """An exchange made by chance, whose jobs read numbers of records from stored data."""
    exchange = made_links.made(random.Random(f"{seed} links {number}")).encode()
    tally.add("compared links", compare(exchange, folder).counts, LEAST_OF_LINKS)


def test_all_cases_are_there() -> None:
    """No case is lost."""
    check_enough("cases", NAMES, LEAST_CASES)
