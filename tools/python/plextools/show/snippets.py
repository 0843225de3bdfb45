"""Lines of texts as a terminal shows them: tabs, wide characters, and what a terminal would obey.

A text is kept as one letter for each byte. `Columns` counts the characters before a place of it.
`snippet(source, span, room)` gives the part of a line around a span that has room, and where the
span is in it.
"""
import unicodedata
from typing import List, NamedTuple, Tuple

from plextools.tables import printed
from plextools.text.finding import Source, Span

TAB, MOST_LOOKED_AT, CUT = 8, 2000, "..."


class Shown(NamedTuple):
    """A line as it is shown, and from which column to which one of it a span goes."""

    number: int
    line: str
    start: int
    end: int


class Cell(NamedTuple):
    """A character as it is shown, how many columns it takes, and how many bytes it was."""

    text: str
    width: int
    size: int


def decoded(text: str) -> str:
    """The characters of bytes; one that is none of UTF-8 stands for itself."""
    return text.encode("latin-1").decode("utf-8", "surrogateescape")


class Columns:
    """Counts the characters of a line before a place, from 1."""

    def __init__(self, source: Source) -> None:
        self.source = source
        self.start, self.place, self.count = -1, 0, 0

    def column(self, place: int) -> int:
        start = self.source.lines.start(place)
        if start != self.start or place < self.place:
            self.start, self.place, self.count = start, start, 0
        self.count += len(decoded(self.source.text[self.place : place]))
        self.place = place
        return 1 + self.count


def width_of(letter: str) -> int:
    """How many columns a character takes that can be printed."""
    if unicodedata.category(letter) in ("Mn", "Me"):
        return 0
    return 2 if unicodedata.east_asian_width(letter) in ("W", "F") else 1


def cells(text: str) -> List[Cell]:
    """The characters of a line, as a terminal shows them one behind the other."""
    found: List[Cell] = []
    column = 0
    for letter in decoded(text):
        size = 1 if "\udc80" <= letter <= "\udcff" else len(letter.encode())
        if letter == "\t":
            width = TAB - column % TAB
            shown = " " * width
        elif letter.isprintable():
            shown, width = letter, width_of(letter)
        else:
            shown = printed(letter)
            width = len(shown)
        found.append(Cell(shown, width, size))
        column += width
    return found


def around(source: Source, place: int) -> Span:
    """The line of a place without its end, or the part of a very long one around it."""
    start = source.lines.start(place)
    end = source.text.find("\n", place)
    end = len(source.text) if end < 0 else end
    if end > start and source.text[end - 1] == "\r":
        end = max(end - 1, place)
    first, last = max(start, place - MOST_LOOKED_AT), min(end, place + MOST_LOOKED_AT)
    while first > start and "\x80" <= source.text[first] <= "\xbf":
        first += 1
    return Span(first, last)


def snippet(source: Source, span: Span, room: int) -> Shown:
    """The line of a span, or as much of it as there is room for. The span ends with its line."""
    line = around(source, span.start)
    row = cells(source.text[line.start : line.end])
    number = source.lines.line(span.start)
    return cut(Shown(number, "", *columns_of(row, span, line.start)), row, room)


def columns_of(row: List[Cell], span: Span, at: int) -> Tuple[int, int]:
    """From which column to which one a span goes, where the row begins at a byte."""
    column, start, end = 0, None, None
    for cell in row:
        if at >= span.start and start is None:
            start = column
        if at >= span.end and end is None:
            end = column
        at += cell.size
        column += cell.width
    start = column if start is None else start
    return start, max(column if end is None else end, start)


def cut(shown: Shown, row: List[Cell], room: int) -> Shown:
    """The part of a row that has room, with dots where it goes on."""
    total = sum(cell.width for cell in row)
    if total <= room:
        return shown._replace(line="".join(cell.text for cell in row).rstrip())
    first = max(0, min(shown.start - room // 3, total - room + len(CUT)))
    text, column, before = "", 0, CUT if first else ""
    limit = room - len(before) - len(CUT)
    skipped = None
    for cell in row:
        if column >= first:
            skipped = column if skipped is None else skipped
            if column - skipped + cell.width > limit:
                text += CUT
                break
            text += cell.text
        column += cell.width
    moved = len(before) - (skipped or 0)
    start = shown.start + moved
    return Shown(shown.number, before + text, start, min(shown.end + moved, room))
