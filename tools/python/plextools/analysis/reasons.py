"""Why two jobs are kept apart: the conflicts and the tests of a pair, as they are told.

`conflict(told)` and `test(told)` read one as the analysis tells it. `tests_without_conflicts` has
the tests of a pair as they were if no conflict kept the two apart, which the analysis does not tell
of such a pair.
"""
import itertools
from dataclasses import dataclass
from typing import Iterator, List, NamedTuple, Optional, Tuple

from plextools.analysis.lines import Entry

CONFLICTS = ("VARIABLE", "FIELD", "SEIZE", "LEVEL")
VALUE_TESTS = ("DIFFER", "FIRST NOT", "LATER NOT")  # in their order


class Selectors(NamedTuple):
    """The selectors with which the first and the later job use a field."""

    first: str
    later: str


class Numbers(NamedTuple):
    """The numbers of a test: which value of a job, and which one of the other, or a number."""

    one: int
    other: int


@dataclass(frozen=True, eq=False)
class Reason:
    """A conflict or a test of a pair, by its kind and what it is about.

    `kind` is VARIABLE, FIELD, SEIZE or LEVEL; DIFFER, FIRST NOT, LATER NOT, FORLOPP or HOLDS NO.
    `told` is how the analysis tells it. Of a conflict `first` and `later` are the numbers of the
    accesses of both entries that have it, where these were asked for.
    """

    kind: str
    told: str
    name: str = ""
    selectors: Optional[Selectors] = None
    numbers: Optional[Numbers] = None
    first: Tuple[int, ...] = ()
    later: Tuple[int, ...] = ()

    @property
    def is_conflict(self) -> bool:
        return self.kind in CONFLICTS


def conflict(told: str, first: Tuple[int, ...] = (), later: Tuple[int, ...] = ()) -> Reason:
    """A conflict as it is told."""
    kind, name, *rest = told.split(" ", 2)
    selectors = Selectors(*rest[0].split(" WITH ")) if rest else None
    return Reason(kind, told, name, selectors, None, first, later)


def test(told: str) -> Reason:
    """A test as it is told."""
    words = told.split(" ")
    if words[0] == "FORLOPP":
        return Reason("FORLOPP", told)
    if told.startswith("FIRST HOLDS NO "):
        return Reason("HOLDS NO", told, words[3])
    numbers = Numbers(int(words[1]), int(words[-1]))
    if words[3] == "LATER":
        return Reason("DIFFER", told, numbers=numbers)
    return Reason(f"{words[0]} NOT", told, numbers=numbers)


def selectors_of(reason: Reason) -> Selectors:
    """The selectors of the fields that a test of values is about."""
    assert reason.numbers
    one, other = reason.numbers
    if reason.kind == "DIFFER":
        return Selectors(f"ARG {one}", f"ARG {other}")
    if reason.kind == "FIRST NOT":
        return Selectors(f"ARG {one}", f"CONST {other}")
    return Selectors(f"CONST {other}", f"ARG {one}")


def tests_without_conflicts(first: Entry, later: Entry) -> List[Reason]:
    """All tests of two entries, as they are where no conflict keeps them apart."""
    tests = [test(told) for told in dict.fromkeys(value_tests(first, later))]
    tests.sort(key=lambda one: (VALUE_TESTS.index(one.kind), one.numbers or ()))
    if first.fault:
        tests.append(test("FORLOPP"))
        tests += [test(f"FIRST HOLDS NO {name}") for name in later.seizes]
    return tests


def value_tests(first: Entry, later: Entry) -> Iterator[str]:
    """The tests of values, as they are told: a field is used in a record whose number came with a
    job, and by the other job in one that may be the same.
    """
    for name in first.fields.keys() & later.fields.keys():
        uses = itertools.product(first.fields[name].items(), later.fields[name].items())
        for (one, is_written), (other, is_written_too) in uses:
            if is_written or is_written_too:
                (kind, _, number), (other_kind, _, other_number) = (
                    selector.partition(" ") for selector in (one, other)
                )
                if (kind, other_kind) == ("ARG", "ARG"):
                    yield f"FIRST {number} NOT LATER {other_number}"
                elif (kind, other_kind) == ("ARG", "CONST"):
                    yield f"FIRST {number} NOT {other_number}"
                elif (kind, other_kind) == ("CONST", "ARG"):
                    yield f"LATER {other_number} NOT {number}"
