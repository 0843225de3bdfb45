"""What `plex analyse` writes, read back: what the jobs of each entry may do, and what is told of
each pair.

`read(lines)` gives an `Analysis`, and raises `NoAnalysis` where the lines are none. Nothing here
looks at the exchange text.
"""
import functools
import itertools
import re
from typing import Dict, Iterable, List, NamedTuple, Optional, Tuple

NAME = r"[A-Z][A-Z0-9]*"
ENTRY = re.compile(rf"ENTRY (\d+) ({NAME}) ({NAME}) LEVEL ([ABCD])")
PAIR = re.compile(r"PAIR (\d+) (\d+) ((?:NEVER|IF) [A-Z0-9. ]+)")
ACCESS = re.compile(r"(READ|WRITE|SEIZE|FREE|SEND) [A-Z0-9. ]+|FAULT")
ANY, LAST, SHOWN = "ANY", "END PAIRS", 80


class NoAnalysis(Exception):
    """The lines are not what `plex analyse` writes."""


class Verdict(NamedTuple):
    """What is told of a pair: its conflict where it is never run together, or else its tests."""

    is_never: bool
    reasons: Tuple[str, ...]


class Entry:
    """An entry with the lines of its summary. `numbered` are its accesses and then its levels, by
    the numbers that `plex-conflicts` gives them.
    """

    def __init__(self, number: int, signal: str, block: str, level: str) -> None:
        self.number, self.signal, self.block, self.level = number, signal, block, level
        self.lines: List[str] = []

    @property
    def name(self) -> str:
        return f"{self.signal} {self.block}"

    @property
    def fault(self) -> bool:
        """Whether a job may fault, which the last line tells."""
        return self.lines[-1:] == ["FAULT"]

    @functools.cached_property
    def numbered(self) -> List[str]:
        lines = self.lines[:-1] if self.fault else self.lines
        return sorted(lines, key=lambda line: line.startswith("SEND "))

    @functools.cached_property
    def number_of(self) -> Dict[str, int]:
        """The number of each line that has one."""
        return {line: number for number, line in enumerate(self.numbered)}

    @functools.cached_property
    def seizes(self) -> List[str]:
        """The files of which a job may seize records, in the order of the text."""
        return [line.split(" ")[1] for line in self.numbered if line.startswith("SEIZE ")]

    @functools.cached_property
    def fields(self) -> Dict[str, Dict[str, bool]]:
        """Of each field the selectors with which a job may use it, and whether it is written."""
        found: Dict[str, Dict[str, bool]] = {}
        for line in self.numbered:
            does, kind, *rest = line.split(" ", 3)
            if kind == "FIELD":
                found.setdefault(rest[0], {})[rest[1]] = does == "WRITE"
        return found

    @functools.cached_property
    def has_unknown(self) -> bool:
        """Whether a job may use a field in a record that is not known."""
        return any(line.endswith(f" {ANY}") for line in self.numbered)


class Analysis:
    """The entries of an exchange, and for each pair of which something is told its lines, without
    `PAIR i j`.
    """

    def __init__(self) -> None:
        self.entries: List[Entry] = []
        self.told: Dict[Tuple[int, int], List[str]] = {}

    def verdict(self, i: int, j: int) -> Optional[Verdict]:
        """What is told of a pair, or None where its jobs may always run together."""
        told = self.told.get((i, j))
        if told is None:
            return None
        words, reasons = zip(*(line.split(" ", 1) for line in told))
        return Verdict(words[0] == "NEVER", reasons)

    def is_never(self, i: int, j: int) -> bool:
        """Whether jobs of a pair never run together."""
        told = self.told.get((i, j))
        return told is not None and told[0].startswith("NEVER ")

    def blocks(self) -> List[Tuple[str, List[Entry]]]:
        """The name of each block, with its entries."""
        return [
            (name, list(some))
            for name, some in itertools.groupby(self.entries, lambda entry: entry.block)
        ]

    def add(self, line: str) -> bool:
        """Takes one line that stands before the last one, and says whether it may stand there."""
        if line.startswith("PAIR "):
            pair = PAIR.fullmatch(line)
            if not pair or max(int(pair[1]), int(pair[2])) >= len(self.entries):
                return False
            self.told.setdefault((int(pair[1]), int(pair[2])), []).append(pair[3])
        elif line.startswith("ENTRY "):
            entry = ENTRY.fullmatch(line)
            if not entry or int(entry[1]) != len(self.entries):
                return False
            self.entries.append(Entry(int(entry[1]), *entry.groups()[1:]))
        else:
            if not self.entries or not ACCESS.fullmatch(line):
                return False
            self.entries[-1].lines.append(line)
        return True


def read(lines: Iterable[bytes]) -> Analysis:
    """The analysis in these lines, which have no ends."""
    analysis, is_whole = Analysis(), False
    for number, line in enumerate(lines, 1):
        text = line.decode("ascii", "replace")
        if is_whole or text != LAST and not analysis.add(text):
            raise NoAnalysis(f"line {number} is none of an analysis: {text[:SHOWN]!r}")
        is_whole = text == LAST
    if not is_whole:
        raise NoAnalysis(f"the line {LAST} is missing")
    return analysis
