"""Where a line belongs that is missing: the end of a statement that holds others, by how the lines
are indented, or a line behind the last one that is no comment.
"""
import re
from typing import TYPE_CHECKING, List, Optional, Sequence

from plextools.text.finding import Edit

if TYPE_CHECKING:
    from plextools.text.reader import Frame, Reader

CLOSERS = {
    "IF": "FI",
    "ELSE": "FI",
    "CASE": "ESAC",
    "WHEN": "ESAC",
    "OTHERWISE": "ESAC",
    "ON": "NO",
}
GOES_ON = {"FI": ("ELSE",), "ESAC": ("WHEN", "OTHERWISE"), "NO": ()}
OPENED = {"THEN": 1, "ON": 1, "CASE": 1, "FI": -1, "NO": -1, "ESAC": -1}
OPENING = re.compile(r"(?<![A-Z0-9])(?:THEN|ON|CASE|FI|NO|ESAC|ENTER|END|BLOCK)(?![A-Z0-9])")
LINE = re.compile(r"([ \t]*)(\S[^\n]*)")
FIRST_WORD = re.compile(r"[A-Z]*")
MOST_LOOKED_AT = 2**15


def depth(clean: str, start: int, end: int) -> int:
    """How many more statements with others in them begin in a part of a text than end there."""
    return sum(OPENED.get(found[0], 0) for found in OPENING.finditer(clean, start, end))


def closes_later(clean: str, place: int) -> bool:
    """Whether behind a place, in the same entry, more such statements end than begin."""
    count = 0
    for found in OPENING.finditer(clean, place, place + MOST_LOOKED_AT):
        if found[0] not in OPENED:
            return False
        count += OPENED[found[0]]
        if count < 0:
            return True
    return False


def blanks_at(reader: "Reader", place: int) -> str:
    """The blanks at the start of the line of a place."""
    found = LINE.match(reader.source.clean, reader.source.lines.start(place))
    return found[1] if found else ""


def is_first(reader: "Reader", place: int) -> bool:
    """Whether nothing but blanks stands before a place on its line."""
    return not reader.source.text[reader.source.lines.start(place) : place].strip(" \t")


def behind_code(reader: "Reader", place: int) -> int:
    """Where the line begins behind the last one before a place that is no comment."""
    clean, text = reader.source.clean, reader.source.text
    last = len(clean[:place].rstrip())
    end = text.find("\n", last)
    return end + 1 if 0 <= end < place else reader.source.lines.start(place)


def line_behind(reader: "Reader", place: int, line: str, as_of: Optional[int]) -> Edit:
    """A line that is put in behind the code before a place, which is the first one on its line, as
    deep as the line of another place.
    """
    start = behind_code(reader, place)
    blanks = "" if as_of is None else blanks_at(reader, as_of)
    return Edit(start, start, f"{blanks}{line}\n")


def ends_by_indent(reader: "Reader", frames: Sequence["Frame"], place: int) -> List[Edit]:
    """The ends of open statements, the innermost one first, each behind the lines that are deeper
    than its statement; none where the lines do not tell.
    """
    edits: List[Edit] = []
    for number, frame in enumerate(frames, 1):
        start = end_of_deeper(reader, frame, place)
        is_known = start is not None and depth(reader.source.clean, frame.place, start) == number
        if start is None or not is_known or edits and start < edits[-1].start:
            return []
        words = f"{blanks_at(reader, frame.place)}{CLOSERS[frame.state]};\n"
        if edits and edits[-1].start == start:
            words = edits.pop().text + words
        edits.append(Edit(start, start, words))
    return edits


def end_of_deeper(reader: "Reader", frame: "Frame", place: int) -> Optional[int]:
    """Where the line begins behind those of a statement, which are deeper than its first one."""
    if not is_first(reader, frame.place) or place - frame.place > MOST_LOOKED_AT:
        return None
    clean, own = reader.source.clean, column(blanks_at(reader, frame.place))
    goes_on = GOES_ON[CLOSERS[frame.state]]
    at = last = clean.find("\n", frame.place) + 1
    found = LINE.search(clean, at) if at else None
    if not found or column(found[1]) <= own:
        return None
    while found and found.start() <= place:
        first = FIRST_WORD.match(found[2])
        if column(found[1]) <= own and not (first and first[0] in goes_on):
            return last
        last = found.end() + 1
        found = LINE.search(clean, last)
    return last if last <= place else None


def column(blanks: str) -> int:
    return len(blanks.expandtabs(8))
