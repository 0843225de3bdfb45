"""Links: record numbers that a job reads from stored data, as in `P = PEER(L)`.

The analysis takes such a number for ANY, since another job may write PEER before it is read. Where
two jobs are kept apart by such records alone, both would run at once, in records that differ, if
the numbers were known when the jobs begin, and what they are read from were not written meanwhile.
This is advice: it follows from the facts of the analysis, and nothing of it is proved.
"""
from typing import Dict, Iterator, List, NamedTuple, Optional, Sequence

from plextools.analysis.conflicts import Conflicts
from plextools.analysis.counters import Counters
from plextools.analysis.entry_facts import Made, Origin
from plextools.analysis.lines import ANY
from plextools.analysis.reasons import Reason
from plextools.text.statements import Text, alone


class Link(NamedTuple):
    """What a record number is read from: the line of the statement, the name of the variable or
    field, and how it is written there, with the pointer of a field.
    """

    line: int
    name: str
    written: str


class Use(NamedTuple):
    """A field that a statement of an entry uses, in a record that the analysis does not know."""

    entry: int
    point: int
    name: str


class Links:
    """Which conflicts of an exchange are about records whose numbers are read from stored data."""

    def __init__(self, conflicts: Conflicts, counters: Counters) -> None:
        self.conflicts, self.counters = conflicts, counters
        self.known: Dict[Use, Optional[List[Link]]] = {}

    def note(self, text: Text, made: Made, use: Use) -> None:
        """Finds what the number of a record is read from, while the facts of the entry are there;
        nothing where one of the numbers that it may be is not read from stored data.
        """
        found = list(links_at(text, made, use.point, use.name))
        links = [link for link in found if link]
        self.known[use] = links if len(links) == len(found) else None

    def of(self, i: int, j: int, reason: Reason) -> List[Link]:
        """What the record numbers are read from that a conflict of two entries is about alone; none
        where one of them comes from elsewhere, and where the conflict is about a counter.
        """
        if not reason.is_conflict or not reason.selectors:
            return []
        if self.counters.is_counter(i, j, reason):
            return []
        found: List[Link] = []
        for entry, selector, numbers in (
            (i, reason.selectors.first, reason.first),
            (j, reason.selectors.later, reason.later),
        ):
            links = self.of_side(entry, numbers, reason.name) if selector == ANY else []
            if links is None:
                return []
            found += links
        return sorted(dict.fromkeys(found))

    def of_side(self, entry: int, numbers: Sequence[int], name: str) -> Optional[List[Link]]:
        """Those of the statements of one job; None where one of them is no link."""
        found: List[Link] = []
        for number in numbers:
            for point, _ in self.conflicts.statements(entry, number):
                links = self.known.get(Use(entry, point, name))
                if links is None:
                    return None
                found += links
        return found

    def behind(self, i: int, j: int) -> List[str]:
        """What keeps two entries apart where neither links nor counters do: the other conflicts, or
        else the tests.
        """
        others = [
            reason.told
            for reason in self.conflicts.conflicts(i, j)
            if not self.counters.is_counter(i, j, reason) and not self.of(i, j, reason)
        ]
        return others or [
            f"IF {test.told}"
            for test in self.conflicts.tests(i, j)
            if not self.counters.is_counter(i, j, test)
        ]


def links_at(text: Text, made: Made, point: int, name: str) -> Iterator[Optional[Link]]:
    """What the numbers of the records of a field at a statement are read from; None for each that
    comes from elsewhere.
    """
    node = text.points[point]
    for use in text.uses(node):
        if use.name != name or not use.does.endswith("FIELD"):
            continue
        slot = made.slot(node, use.pointer) if use.pointer else None
        if slot is None:
            yield None
        elif made.facts.has_any(point, slot):
            for origin in made.origins(point, slot):
                yield link_of(text, made, origin)


def link_of(text: Text, made: Made, origin: Origin) -> Optional[Link]:
    """What a number is read from: a variable, or a field of a plain file in a record that is known
    when the job begins.
    """
    node = text.points[origin.point]
    part = alone(node.exprs[origin.number]) if origin.what == "stored" else None
    if part and part.kind == "name":
        return Link(node.line, text.name_of(node, part.name), part.name)
    if part and part.kind == "field":
        is_plain = not text.block_of(node).file_of[part.name].forlopp
        if is_plain and not made.facts.has_any(node.point, made.slot(node, part.pointer)):
            name = text.name_of(node, part.name)
            return Link(node.line, name, f"{part.name}({part.pointer})")
    return None
