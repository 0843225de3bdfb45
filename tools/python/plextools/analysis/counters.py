"""Counters: variables and fields to which two jobs only add, so that the order of the two does not
matter to them.

A counter has a WIDTH of 32, and all that the jobs of both entries do to it are statements that add,
as `plex-conflicts` tells. Such a conflict stays one to plex; a machine that keeps what is added
apart, or adds by one atomic instruction, may do without it.
"""
from typing import List, Optional

from plextools.analysis.conflicts import Conflicts
from plextools.analysis.reasons import VALUE_TESTS, Reason, selectors_of


class Counters:
    """Which conflicts and tests of an exchange are about counters."""

    def __init__(self, conflicts: Conflicts) -> None:
        self.conflicts = conflicts

    def of(self, i: int, j: int, reason: Reason) -> List[str]:
        """The counters that a conflict or a test of two entries is about alone; none, where it is
        about something else too.
        """
        additions = self.conflicts.additions
        if reason.is_conflict:
            is_added = additions.is_added(i, j, reason.kind, reason.name)
            return [reason.name] if is_added else []
        names = self.fields_of(i, j, reason) if reason.kind in VALUE_TESTS else []
        return names if all(additions.is_added(i, j, "FIELD", name) for name in names) else []

    def is_counter(self, i: int, j: int, reason: Reason) -> bool:
        """Whether a conflict or a test of two entries is about counters alone."""
        return bool(self.of(i, j, reason))

    def fields_of(self, i: int, j: int, test: Reason) -> List[str]:
        """The fields that a test of values is about."""
        one, other = selectors_of(test)
        first, later = (self.conflicts.analysis.entries[entry].fields for entry in (i, j))
        return [
            name
            for name in first
            if (name in later and one in first[name] and other in later[name])
            and (first[name][one] or later[name][other])
        ]

    def behind(self, i: int, j: int) -> List[str]:
        """What keeps two entries apart beside counters: the other conflicts, or else the tests."""
        others = [
            reason.told
            for reason in self.conflicts.conflicts(i, j)
            if not self.is_counter(i, j, reason)
        ]
        return others or [f"IF {test.told}" for test in self.tests_left(i, j)]

    def conflict_left(self, i: int, j: int) -> Optional[Reason]:
        """The first conflict of a pair that is about no counter."""
        additions = self.conflicts.additions
        if additions.is_changed(i, j):
            return additions.conflict(i, j)
        return self.conflicts.first(i, j)

    def tests_left(self, i: int, j: int) -> List[Reason]:
        """The tests of a pair without another conflict that are not about counters alone."""
        additions = self.conflicts.additions
        if additions.is_changed(i, j):
            return additions.tests(i, j)
        return self.conflicts.tests(i, j)
