"""What the tests of the gate share: how a case fails, what is left out, and what cases count
together.

A test finds out what is wrong in words, and gives them to `check`. What needs a command that the
system does not have calls `leave_out`. A `Tally` sums what the cases of one check count, over all
processes of pytest-xdist, and compares the sums with the least that there must be.
"""
from __future__ import annotations

import math
import pathlib
import shutil
from collections import Counter, defaultdict
from dataclasses import asdict, dataclass, field
from typing import Iterable, Mapping, NoReturn, Sequence

import pytest

from gate import harness

ROOT = harness.ROOT
TOOLS = ROOT / "tools"
EXAMPLES = ROOT / "examples"
SHOWN_FAULTS = 5
EXACT = 6  # the decimal places of a sum of shares that are no error of addition


def check(*told: str | None) -> None:
    """Fails the test where something is told to be wrong."""
    __tracebackhide__ = True
    wrong = [line for line in told if line]
    if wrong:
        pytest.fail("\n".join(wrong[:SHOWN_FAULTS]), pytrace=False)


def check_enough(what: str, found: Sequence[object] | int, least: int) -> None:
    """Fails the test where fewer cases are there than the least, so that none is lost unseen."""
    __tracebackhide__ = True
    number = found if isinstance(found, int) else len(found)
    check(f"{number} {what}, and {least} is the least" if number < least else None)


def leave_out(told: str) -> NoReturn:
    """Skips the test, where MOST_LEFT_OUT allows it, and else fails it."""
    __tracebackhide__ = True
    harness.LEFT_OUT.append(told)
    if harness.is_too_much_left_out():
        pytest.fail(f"left out: {told}", pytrace=False)
    pytest.skip(told)


def need_command(command: str) -> str:
    """The path of a command of the system; the test is left out where there is none."""
    found = shutil.which(command)
    return found if found else leave_out(f"there is no {command}")


def read_words(path: pathlib.Path) -> list[str]:
    """The words of a file that has one on each line."""
    return path.read_text().split("\n")[:-1]


@dataclass
class Share:
    """What one case adds to the counts of its check.

    `least` is what this case adds to the least that the sum must be; it holds where all `cases` of
    the check ran.
    """

    check: str
    cases: int
    counts: dict[str, int] = field(default_factory=dict)
    least: dict[str, float] = field(default_factory=dict)


class Tally:
    """Takes the share of a case; the report of its test carries it to the process that sums up."""

    def __init__(self, item: pytest.Item, cases: int) -> None:
        self.item, self.cases = item, cases

    def add(
        self, name: str, counts: Mapping[str, int], least: Mapping[str, float] | None = None
    ) -> None:
        """Adds the counts of a case to those of the check of this name."""
        share = Share(name, self.cases, dict(counts), dict(least or {}))
        self.item.user_properties.append(("share", asdict(share)))


class Sums:
    """The sums of one check."""

    def __init__(self) -> None:
        self.cases, self.of, self.shares = 0, 0, 0
        self.counts: Counter[str] = Counter()
        self.least: defaultdict[str, float] = defaultdict(float)

    def add(self, share: Share) -> None:
        """Adds the share of a case."""
        self.shares, self.of = self.shares + 1, share.cases
        self.counts.update(share.counts)
        for name, least in share.least.items():
            self.least[name] += least

    def few(self) -> Iterable[str]:
        """What there is too little of. Nothing, where not all cases ran."""
        if self.shares < self.of:
            return
        for name, least in self.least.items():
            whole = math.floor(round(least, EXACT))
            if self.counts[name] < whole:
                yield f"{self.counts[name]} {name}, and {whole} is the least"

    def told(self) -> str:
        """The counts in one line."""
        return ", ".join(f"{name} {number}" for name, number in self.counts.items())
