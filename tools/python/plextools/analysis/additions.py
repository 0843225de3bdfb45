"""The last part of what `plex-conflicts` writes, read back: to which variables and fields the jobs
of each entry only add, and the verdicts of pairs where what both only add to keeps nothing apart.

docs/FORMATS.md, Additions, has the format. Nothing here looks at the exchange text.
"""
import re
from typing import Dict, Iterable, List, Optional, Tuple

from plextools.analysis.lines import NAME
from plextools.analysis.reasons import Reason, conflict, test

HEAD, END = b"\nADDITIONS 1\n", b"\nEND ADDITIONS\n"
ADDS = re.compile(rf"ADDS (\d+) ((?:VAR|FIELD) {NAME}\.{NAME})")
ADDING = re.compile(r"PAIR (\d+) (\d+) ADDING (ALWAYS|(?:NEVER|IF) [A-Z0-9. ]+)")
ALWAYS, NEVER, SHOWN = "ALWAYS", "NEVER", 80
KINDS = {"VARIABLE": "VAR", "FIELD": "FIELD"}


class NoAdditions(Exception):
    """The lines are not what `plex-conflicts` writes."""


class Additions:
    """For each entry what its jobs only add to, as its lines have it: `VAR B.V`, `FIELD B.F`; and
    for each pair whose verdict with additions is another one its lines, without `PAIR i j ADDING`.
    """

    def __init__(self, lines: Iterable[bytes]) -> None:
        self.adds: Dict[int, List[str]] = {}
        self.adding: Dict[Tuple[int, int], List[str]] = {}
        for line in lines:
            self.add(line.decode("ascii", "replace"))

    def add(self, line: str) -> None:
        """Takes one line between the first and the last."""
        adding = ADDING.fullmatch(line)
        if adding:
            pair = int(adding[1]), int(adding[2])
            self.adding.setdefault(pair, []).append(adding[3])
            return
        adds = ADDS.fullmatch(line)
        if not adds:
            raise NoAdditions(f"it is no line of additions: {line[:SHOWN]!r}")
        self.adds.setdefault(int(adds[1]), []).append(adds[2])

    def is_added(self, i: int, j: int, kind: str, name: str) -> bool:
        """Whether jobs of both entries only add to a variable or a field, by the kind of conflict
        that is about it.
        """
        told = f"{KINDS[kind]} {name}" if kind in KINDS else None
        return all(told in self.adds.get(entry, ()) for entry in (i, j))

    def is_changed(self, i: int, j: int) -> bool:
        """Whether the verdict of a pair with additions is another one."""
        return (i, j) in self.adding

    def conflict(self, i: int, j: int) -> Optional[Reason]:
        """The first conflict with additions of a pair whose verdict is another one."""
        word, _, told = self.adding[i, j][0].partition(" ")
        return conflict(told) if word == NEVER else None

    def tests(self, i: int, j: int) -> List[Reason]:
        """The tests with additions of a pair whose verdict is another one."""
        told = (line.partition(" ") for line in self.adding[i, j])
        return [test(words) for word, _, words in told if word == "IF"]
