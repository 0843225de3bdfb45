"""The faults near an edit of a long text, told before the whole text is looked at.

`near_edit(old, new)` reads the heads of all blocks and, of the block that was edited, the
statements between the labels and ENTERs around the edit; behind an edit of what a block declares
all its statements, where they are few, and behind one of a signal none. What was told elsewhere
before stays, at its place in the new text. The check of the whole text corrects what this cannot
see.
"""
import re
from typing import Iterator, List, NamedTuple, Optional

from plextools.text.finding import Edit, Finding, Severity
from plextools.text.findings import of_exchange
from plextools.text.rewriting import Rewriting
from plextools.text.tokens import Text
from plextools.text.warnings import Oddities

BOUNDARY = re.compile(r"^[ \t]*(?:ENTER\b|([A-Z][A-Z0-9]*)[ \t]*\))", re.M)
PART = re.compile(r"^[ \t]*(BLOCK|PROGRAM|END[ \t]+BLOCK)\b[^;\n]*;?", re.M)
MOST_READ = 2**15


class Told(NamedTuple):
    """What is told of a text."""

    text: str
    findings: List[Finding]


class Moved(Rewriting):
    """Takes findings of an old text to the places of a new one, which differs in one part."""

    def __init__(self, old: str, new: str) -> None:
        self.text, self.before = old, new
        self.start = common_start(old, new)
        rest = min(len(old), len(new)) - self.start
        self.behind = common_end(old, new, rest)

    @property
    def old_end(self) -> int:
        return len(self.text) - self.behind

    @property
    def new_end(self) -> int:
        return len(self.before) - self.behind

    def origin(self, place: int) -> int:
        if place <= self.start:
            return place
        if place >= self.old_end:
            return place - self.old_end + self.new_end
        return min(place, self.new_end)


def common_start(one: str, other: str) -> int:
    """How many letters two texts have in common at their beginnings."""
    low, high = 0, min(len(one), len(other))
    while low < high:
        middle = (low + high + 1) // 2
        if one[low:middle] == other[low:middle]:
            low = middle
        else:
            high = middle - 1
    return low


def common_end(one: str, other: str, most: int) -> int:
    """How many letters two texts have in common at their ends, at most so many."""
    low, high = 0, most
    while low < high:
        middle = (low + high + 1) // 2
        if one[len(one) - middle : len(one) - low] == other[len(other) - middle : len(other) - low]:
            low = middle
        else:
            high = middle - 1
    return low


class Part(NamedTuple):
    """A part of a text."""

    start: int
    end: int


class Block(NamedTuple):
    """Where a block begins, and its statements between PROGRAM and END BLOCK."""

    start: int
    program: Part


def blocks_of(text: str) -> Iterator[Block]:
    begun: Optional[int] = None
    start: Optional[int] = None
    for part in PART.finditer(text):
        if part[1] == "PROGRAM":
            start = part.end()
        elif part[1] == "BLOCK":
            begun, start = part.start(), None
        elif start is not None and begun is not None:
            yield Block(begun, Part(start, part.start()))
            begun = start = None


class Window(NamedTuple):
    """What is read of the statements of a text, in which program; and the part in which what was
    told before is told anew. Nothing of the statements may be read.
    """

    program: Part
    read: Part
    told: Part

    @property
    def has_entries(self) -> bool:
        """Whether it is known which signals the block enters."""
        return self.read == self.program


def window_of(text: str, start: int, end: int) -> Optional[Window]:
    """What is read around an edit, or None where that is too much."""
    blocks = list(blocks_of(text))
    for block in blocks:
        if block.program.start <= start <= end <= block.program.end:
            return of_statements(text, block.program, start, end)
        if block.start <= start <= end < block.program.start:
            return of_head(block)
    if not blocks or end > blocks[0].start:
        return None
    nothing = Part(blocks[0].start, blocks[0].start)
    return Window(nothing, nothing, Part(0, blocks[0].start))


def of_head(block: Block) -> Window:
    """An edit of what a block declares, or of its survey: its statements are read where they are
    few.
    """
    program = block.program
    if program.end - program.start <= MOST_READ:
        return Window(program, program, Part(block.start, program.end))
    return Window(program, Part(program.start, program.start), Part(block.start, program.start))


def of_statements(text: str, program: Part, start: int, end: int) -> Optional[Window]:
    """An edit of statements: those between the labels and ENTERs around it are read."""
    first = max(program.start, start - MOST_READ)
    before = [found.start() for found in BOUNDARY.finditer(text, first, start)]
    behind = BOUNDARY.search(text, text.find("\n", end) + 1 or end, program.end)
    last = behind.start() if behind else program.end
    # a boundary right before the edit may itself be edited
    begins = [before[-2] if len(before) > 1 else program.start]
    begins += [one for one in before[-1:] if text.find("\n", one) < start]
    read = next((Part(one, last) for one in begins if last - one <= MOST_READ), None)
    return Window(program, read, read) if read else None


def cuts(text: str, window: Window) -> Iterator[Edit]:
    """What is left out of the text: all statements but those that are read. The labels of the
    program stay, since statements go to them.
    """
    for _, program in blocks_of(text):
        if program != window.program:
            yield Edit(program.start, program.end, "")
            continue
        parts = (Part(program.start, window.read.start), Part(window.read.end, program.end))
        for part in parts:
            labels = [found[1] for found in BOUNDARY.finditer(text, *part) if found[1]]
            if part.start < part.end:
                yield Edit(part.start, part.end, "".join(f" {label})" for label in labels) + " ")


def near_edit(old: Told, new: str, most: int) -> Optional[List[Finding]]:
    """What is told of a new text behind an edit, or None where the whole text has to be read."""
    if new == old.text:
        return old.findings
    moved = Moved(old.text, new)
    window = window_of(new, moved.start, moved.new_end)
    if window is None:
        return None
    rewriting = Rewriting(new, list(cuts(new, window)))
    checker = Oddities(Text(rewriting.text.encode("latin-1"), most))
    found = of_exchange(0, checker, checker.check(), [], True)
    inside = [rewriting.finding(one) for one in found]
    start, end = window.told
    old_end = end - moved.new_end + moved.old_end
    outside = [
        moved.finding(one)
        for one in old.findings
        if one.place is None or not start <= one.place < old_end or not is_known(one, window)
    ]
    return outside + [one for one in inside if is_inside(one, window)]


def is_known(finding: Finding, window: Window) -> bool:
    """Whether what is read is enough to say it: statements tell which signals are entered."""
    return finding.word != "NOENTER" or window.has_entries


def is_inside(finding: Finding, window: Window) -> bool:
    if finding.severity is not Severity.ERROR or finding.place is None:
        return False
    return window.told.start <= finding.place < window.told.end and is_known(finding, window)
