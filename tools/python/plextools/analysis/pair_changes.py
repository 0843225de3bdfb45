"""What a change of an exchange text does to its pairs: which have become free, which conflicts are
gone, still there or new. Entries are the same where their signal and their block are.
"""
from typing import Dict, Iterator, List, Sequence, Tuple, TypedDict

from plextools.analysis.conflicts import Conflicts

Names = Tuple[str, str]  # of an entry: its signal and its block
FREE, NEVER, STILL, TESTS = "FREE", "NEVER", "STILL", "TESTS"
MEANS = {
    FREE: "never ran together, and may now",
    NEVER: "might run together, and never do now",
    STILL: "never run together, before and now",
    TESTS: "may run together by other tests",
}


class OfPair(TypedDict):
    """A pair: what has become of it, and its conflicts or tests that are gone, still there and new.
    A test begins with IF.
    """

    first: str
    later: str
    change: str
    gone: List[str]
    still: List[str]
    new: List[str]


class Changes(TypedDict):
    """What has become of an exchange: entries that are in one text alone, how many pairs of the
    others have become what, and those pairs of which anything has changed.
    """

    entries_gone: List[str]
    entries_new: List[str]
    counts: Dict[str, int]
    pairs: List[OfPair]


def names_of(conflicts: Conflicts) -> Dict[Names, int]:
    """The number of each entry."""
    entries = conflicts.analysis.entries
    return {(entry.signal, entry.block): entry.number for entry in entries}


def words(names: Names) -> str:
    return " ".join(names)


def reasons(conflicts: Conflicts, i: int, j: int) -> List[str]:
    """The conflicts of a pair, or else its tests."""
    found = conflicts.reasons(i, j)
    return [reason.told if reason.is_conflict else f"IF {reason.told}" for reason in found]


def changes(before: Conflicts, after: Conflicts) -> Changes:
    """What has become of the pairs of one text in another one."""
    old, new = names_of(before), names_of(after)
    both = [names for names in new if names in old]
    pairs = [
        of_pair(before, after, (old[one], old[other]), (new[one], new[other]), (one, other))
        for one in both
        for other in both
        if before.analysis.told.get((old[one], old[other]))
        or after.analysis.told.get((new[one], new[other]))
    ]
    counts = {change: sum(pair["change"] == change for pair in pairs) for change in MEANS}
    return {
        "entries_gone": [words(names) for names in old if names not in new],
        "entries_new": [words(names) for names in new if names not in old],
        "counts": counts,
        "pairs": [pair for pair in pairs if pair["gone"] or pair["new"]],
    }


def of_pair(
    before: Conflicts,
    after: Conflicts,
    old: Tuple[int, int],
    new: Tuple[int, int],
    names: Tuple[Names, Names],
) -> OfPair:
    was, now = reasons(before, *old), reasons(after, *new)
    was_never, is_never = before.analysis.is_never(*old), after.analysis.is_never(*new)
    change = (STILL if is_never else FREE) if was_never else (NEVER if is_never else TESTS)
    return {
        "first": words(names[0]),
        "later": words(names[1]),
        "change": change,
        "gone": [told for told in was if told not in now],
        "still": [told for told in was if told in now],
        "new": [told for told in now if told not in was],
    }


# text


def text_of(told: Changes) -> Iterator[str]:
    """The changes as lines for a reader."""
    for change, count in told["counts"].items():
        plural = "pair" if count == 1 else "pairs"
        if change != TESTS:
            yield f"{count} {plural} {MEANS[change]}"
    for name, entries in (("gone", told["entries_gone"]), ("new", told["entries_new"])):
        if entries:
            yield f"entries that are {name}: {', '.join(entries)}"
    for pair in told["pairs"]:
        yield f"{pair['change']} {pair['first']}, {pair['later']}"
        yield from listed("gone", pair["gone"])
        yield from listed("still", pair["still"])
        yield from listed("new", pair["new"])


def listed(word: str, some: Sequence[str]) -> Iterator[str]:
    if some:
        yield f"  {word}: {', '.join(some)}"
