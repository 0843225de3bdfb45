"""What `plex-conflicts` writes, read back: the analysis of an exchange, every conflict of its
pairs, the statements of each access, and the additions.

`Conflicts(name)` asks the program for all entries of an exchange text, `Conflicts(name, (i, j))`
for one pair. What a text of all entries has no room for is asked for pair by pair. Entries of one
class have the same level and the same lines; the conflicts of two classes are read once.
docs/OUTPUTS.md, All conflicts, has the format.
"""
import functools
from typing import Dict, Iterable, Iterator, List, NamedTuple, Optional, Sequence, Tuple

from plextools import programs, tables
from plextools.analysis import additions
from plextools.analysis.lines import Analysis, Entry, NoAnalysis, read
from plextools.analysis.reasons import Reason, conflict, test, tests_without_conflicts

PROGRAM = "plex-conflicts"
HEAD, END, LIMIT = b"\nCONFLICTS 1\n", b"END CONFLICTS\n", b"LIMIT "

Pair = Tuple[int, int]


class Statement(NamedTuple):
    """A statement that gives an access: its point, and the line of the text where it begins."""

    point: int
    line: int


class Section(NamedTuple):
    """Where the lines of an entry or of a pair stand in the text."""

    begin: int
    end: int


Statements = List[List[Statement]]  # of an entry, by the numbers of its lines


class Conflicts:
    """The conflicts of an exchange."""

    def __init__(
        self, name: str, asked: Optional[Pair] = None, whole: Optional["Conflicts"] = None
    ) -> None:
        self.name, self.asked = name, asked
        self.text = programs.answer([name, *map(str, asked or ())], of=PROGRAM)
        place, end = self.text.find(HEAD), self.text.rfind(additions.HEAD)
        self.begin, self.end = place + len(HEAD), end + 1
        self.last = self.text.rfind(b"\n", 0, end) + 1
        is_whole = self.text.startswith((END, LIMIT), self.last) and 0 <= place < end
        if not is_whole or self.text.find(additions.END, end) < 0:
            raise self.wrong("a line is missing")
        self.analysis = whole.same_analysis(self) if whole else self.read_analysis()
        self.classes: List[int] = whole.classes if whole else class_of_each(self.analysis.entries)
        self.of_entries = self.find_entries()
        self.of_pairs: Optional[Dict[Pair, Section]] = None
        # The statements of each entry, and by the lines AT from which they are read; the conflicts
        # of two classes; and the answers about single pairs.
        self.known: Dict[int, Statements] = {}
        self.read: Dict[bytes, Statements] = {}
        self.found: Dict[Pair, List[Reason]] = {}
        self.others: Dict[Pair, "Conflicts"] = {}

    def wrong(self, told: str) -> programs.Wrong:
        return programs.Wrong(f"what {programs.program(PROGRAM)} writes cannot be read: {told}")

    def read_analysis(self) -> Analysis:
        try:
            return read(self.text[: self.begin - len(HEAD)].split(b"\n"))
        except NoAnalysis as wrong:
            raise self.wrong(str(wrong)) from wrong

    @functools.cached_property
    def additions(self) -> additions.Additions:
        """What jobs only add to, and the verdicts with additions."""
        begin = self.end + len(additions.HEAD) - 1
        told = self.text[begin : self.text.find(additions.END, begin - 1) + 1]
        try:
            return additions.Additions(told.splitlines())
        except additions.NoAdditions as wrong:
            raise self.wrong(str(wrong)) from wrong

    def same_analysis(self, other: "Conflicts") -> Analysis:
        """The analysis of another answer about the same text."""
        if self.text[: self.begin] != other.text[: other.begin]:
            raise programs.Wrong(f"{tables.quoted(self.name)} has changed while it was read")
        return self.analysis

    # where the lines of an entry and of a pair stand

    def find_entries(self) -> Dict[int, Section]:
        """Where the lines AT of each entry stand. An entry has some where it has accesses."""
        numbers = self.asked or range(len(self.analysis.entries))
        having = [
            number
            for number in dict.fromkeys(numbers)  # each once, in the order in which they stand
            if number < len(self.analysis.entries) and self.analysis.entries[number].numbered
        ]
        prefixes = (b"AT %d " % number for number in having)
        return dict(zip(having, self.sections(self.begin, [*prefixes, b"CLASH "])))

    def sections(self, begin: int, prefixes: Sequence[bytes]) -> Iterator[Section]:
        """The sections whose lines begin with each of these words but the last, in their order, up
        to the last section for which there was room.
        """
        for prefix, following in zip(prefixes, prefixes[1:]):
            if not self.text.startswith(prefix, begin):
                return
            end = self.text.find(b"\n" + following, begin) + 1 or self.last
            yield Section(begin, end)
            begin = end

    def find_pairs(self) -> Dict[Pair, Section]:
        """Where the lines CLASH of each pair stand. A pair has some where it is NEVER."""
        begin = max((section.end for section in self.of_entries.values()), default=self.begin)
        told = [pair for pair in self.analysis.told if self.analysis.is_never(*pair)]
        having = [pair for pair in told if self.asked in (None, pair)]
        prefixes = [b"CLASH %d %d " % pair for pair in having]
        return dict(zip(having, self.sections(begin, [*prefixes, self.text[self.last : self.end]])))

    def lines(self, section: Section, prefix: bytes) -> bytes:
        """The lines of a section without the words with which all of them begin."""
        return self.text[section.begin : section.end].replace(prefix, b"")

    # what else has to be asked for

    def alone(self, pair: Pair) -> "Conflicts":
        """The answer about one pair, where this one has no room for it."""
        if self.asked == pair:
            raise programs.Wrong(
                f"the statements of entries {pair[0]} and {pair[1]} are more than {PROGRAM} tells"
            )
        if pair not in self.others:
            self.others[pair] = Conflicts(self.name, pair, self)
        return self.others[pair]

    # statements

    def statements(self, entry: int, number: int) -> List[Statement]:
        """The statements that give what has a number among the lines of an entry."""
        if entry not in self.known:
            self.known[entry] = self.statements_of(entry)
        return self.known[entry][number]

    def statements_of(self, entry: int) -> Statements:
        section = self.of_entries.get(entry)
        if section is None:
            return self.alone((entry, entry)).statements_of(entry)
        lines = self.lines(section, b"AT %d " % entry)
        if lines not in self.read:
            self.read[lines] = self.read_statements(lines, self.analysis.entries[entry])
        return self.read[lines]

    def read_statements(self, lines: bytes, entry: Entry) -> Statements:
        found: Statements = [[] for _ in entry.numbered]
        try:
            for line in lines.splitlines():
                number, _, point, _, place = line.split(b" ")
                found[int(number)].append(Statement(int(point), int(place)))
        except (ValueError, IndexError) as wrong:
            raise self.wrong(f"a line AT of entry {entry.number}") from wrong
        return found

    # conflicts and tests

    def first(self, i: int, j: int) -> Optional[Reason]:
        """The first conflict of a pair, if there is one."""
        if not self.analysis.is_never(i, j):
            return None
        return conflict(self.analysis.told[i, j][0].partition(" ")[2])

    def conflicts(self, i: int, j: int) -> List[Reason]:
        """All conflicts of a job of entry i with a later one of j, in their order."""
        if not self.analysis.is_never(i, j):
            return []
        classes = self.classes[i], self.classes[j]
        if classes not in self.found:
            self.found[classes] = self.conflicts_of(i, j)
        return self.found[classes]

    def is_at_hand(self, i: int, j: int) -> bool:
        """Whether all conflicts of a pair are told here, so that none has to be asked for."""
        is_known = (self.classes[i], self.classes[j]) in self.found
        return is_known or not self.analysis.is_never(i, j) or self.section(i, j) is not None

    def section(self, i: int, j: int) -> Optional[Section]:
        if self.of_pairs is None:
            self.of_pairs = self.find_pairs()
        return self.of_pairs.get((i, j))

    def conflicts_of(self, i: int, j: int) -> List[Reason]:
        section = self.section(i, j)
        if section is None:
            return self.alone((i, j)).conflicts_of(i, j)
        first, later = (self.analysis.entries[entry].numbered for entry in (i, j))
        found: Dict[str, Tuple[Dict[int, bool], Dict[int, bool]]] = {}
        try:
            for line in self.lines(section, b"CLASH %d %d " % (i, j)).splitlines():
                k, *rest = map(int, line.split(b" "))
                told = told_conflict(first[k], later[rest[0]] if rest else "")
                sides = found.setdefault(told, ({}, {}))
                sides[0][k] = True
                sides[1].update(dict.fromkeys(rest, True))
        except (ValueError, IndexError) as wrong:
            raise self.wrong(f"a line CLASH of entries {i} and {j}") from wrong
        return [conflict(told, *(tuple(sorted(side)) for side in found[told])) for told in found]

    def tests(self, i: int, j: int) -> List[Reason]:
        """All tests of a pair, as they are where no conflict keeps the two apart."""
        if self.analysis.is_never(i, j):
            return tests_without_conflicts(self.analysis.entries[i], self.analysis.entries[j])
        return [test(told.partition(" ")[2]) for told in self.analysis.told.get((i, j), ())]

    def reasons(self, i: int, j: int) -> List[Reason]:
        """The conflicts of a pair, or else its tests."""
        return self.conflicts(i, j) or self.tests(i, j)


def class_of_each(entries: Iterable[Entry]) -> List[int]:
    """The number of the class of each entry."""
    known: Dict[Tuple[str, ...], int] = {}
    return [known.setdefault((entry.level, *entry.lines), len(known)) for entry in entries]


def told_conflict(first: str, later: str) -> str:
    """A conflict of two lines of summaries, as the analysis tells it; of a level it is one line."""
    words = first.split(" ", 3)
    if words[0] == "SEND":
        return f"LEVEL {words[1]}"
    if words[1] == "VAR":
        return f"VARIABLE {words[2]}"
    if words[1] == "FIELD":
        return f"FIELD {words[2]} {words[3]} WITH {later.split(' ', 3)[3]}"
    return f"SEIZE {words[1]}"
