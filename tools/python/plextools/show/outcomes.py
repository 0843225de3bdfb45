"""What plex-test tells of its cases: lines for a reader, and JUnit XML."""
import itertools
import xml.etree.ElementTree as ElementTree
from typing import Iterator, Sequence

from plextools.runs.case_runs import Difference, Outcome
from plextools.show.differences import quoted, shown, unified, visible

MOST_LINES = 1000  # of a difference
SUITE = "plex-test"


# for a reader


def lines_of(outcome: Outcome, is_long: bool) -> Iterator[str]:
    """What is told of a case: of one that passes nothing, unless that is asked for."""
    name = quoted(outcome.case.name)
    if outcome.failures:
        yield f"FAIL: {name}: {told(outcome)}"
        yield from details(outcome)
    if outcome.updated:
        yield f"UPDATED: {name}: {', '.join(outcome.updated)}"
    elif is_long and outcome.has_passed:
        yield f"PASS: {name}"


def told(outcome: Outcome) -> str:
    """Why a case fails, in a line."""
    return visible("; ".join(failure.told for failure in outcome.failures))


def details(outcome: Outcome) -> Iterator[str]:
    """What shows why a case fails."""
    for failure in outcome.failures:
        if failure.difference:
            yield from difference_lines(outcome, failure.difference)
        yield from (f"  {shown(line)}" for line in failure.lines)


def difference_lines(outcome: Outcome, difference: Difference) -> Iterator[str]:
    """A unified diff, up to a number of lines."""
    name = quoted(f"{outcome.case.name}/{difference.file}")
    yield f"--- {name}"
    yield f"+++ {name} of this run"
    lines = unified(difference.wanted, difference.wrote)
    yield from itertools.islice(lines, MOST_LINES)
    left = sum(1 for _ in lines)
    if left:
        yield f"{left} more lines of this difference are not shown"


def summary(outcomes: Sequence[Outcome], left: int) -> str:
    """The last line: how many cases passed and failed, and how many were not run to their end."""
    passed = sum(outcome.has_passed for outcome in outcomes)
    updated = sum(bool(outcome.updated) for outcome in outcomes)
    line = f"{passed} passed, {len(outcomes) - passed} failed"
    line += f", {updated} updated" if updated else ""
    return line + (f", {left} not run" if left else "")


# JUnit XML


def junit(outcomes: Sequence[Outcome], seconds: float) -> bytes:
    """The outcomes as JUnit XML. What XML cannot have is written as an escape."""
    failed = sum(not outcome.has_passed for outcome in outcomes)
    counts = {
        "name": SUITE,
        "tests": str(len(outcomes)),
        "failures": str(failed),
        "errors": "0",
        "skipped": "0",
        "time": f"{seconds:.3f}",
    }
    suites = ElementTree.Element("testsuites")
    suite = ElementTree.SubElement(suites, "testsuite", counts)
    for outcome in outcomes:
        add_case(suite, outcome)
    ElementTree.indent(suites, " ")
    text: bytes = ElementTree.tostring(suites, encoding="utf-8", xml_declaration=True)
    return text + b"\n"


def add_case(suite: ElementTree.Element, outcome: Outcome) -> None:
    """Adds a case to a suite."""
    named = {
        "classname": SUITE,
        "name": visible(outcome.case.name),
        "time": f"{outcome.seconds:.3f}",
    }
    case = ElementTree.SubElement(suite, "testcase", named)
    if outcome.failures:
        kind = {"message": told(outcome), "type": "failure"}
        ElementTree.SubElement(case, "failure", kind).text = "\n".join(details(outcome))
    if outcome.updated:
        ElementTree.SubElement(case, "system-out").text = f"updated: {', '.join(outcome.updated)}"
