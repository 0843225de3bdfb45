"""The lines of a signal file, and those of a table of periodic signals merged with them.

Texts must be such as plex accepts.
"""
from typing import Dict, Iterator, List, NamedTuple, Tuple

from plextools.text.statements import Text

NONE, NEW = -1, 0

Meant = Tuple[int, Tuple[int, ...], int]  # of a line: its entry, its values and its forlopp


class Line(NamedTuple):
    """A line of a signal file: its number, after how many jobs it is due, its entry, its values,
    and its forlopp, which is NONE, NEW or that of an earlier line by the number of that one.
    """

    number: int
    after: int
    entry: int
    values: Tuple[int, ...]
    origin: int


def words_in(content: bytes, most: int = -1) -> Iterator[Tuple[int, List[bytes]]]:
    """The words of each line that is not skipped, with its number; behind so many words the rest of
    the line is one.
    """
    for number, line in enumerate(content.split(b"\n"), 1):
        words = line.split(None, most)
        if words and line[:1] != b"!":
            yield number, words


def entries_of(text: Text) -> Dict[Tuple[bytes, bytes], int]:
    """The entry of each signal and block."""
    return {
        (
            node.signal.text.encode("ascii"),
            text.blocks[node.block].name.text.encode("ascii"),
        ): number
        for number, node in enumerate(text.entries)
    }


def lines_of(text: Text, content: bytes) -> List[Line]:
    """The lines of a signal file. What stands behind the count is read once where it stands in many
    lines.
    """
    entries, lines = entries_of(text), []
    known: Dict[bytes, Meant] = {}
    for number, (_, after, rest) in words_in(content, 2):
        meant = known.get(rest)
        if meant is None:
            meant = known[rest] = meant_by(rest.split(), entries)
        lines.append(Line(number, int(after), *meant))
    return lines


def meant_by(words: List[bytes], entries: Dict[Tuple[bytes, bytes], int]) -> Meant:
    """What a line means behind its count."""
    if words[-1] == b"NEW" or words[-1] == b"NONE":
        origin, end = (NEW if words[-1] == b"NEW" else NONE), -1
    else:
        origin, end = int(words[-1]), -2
    return entries[words[0], words[1]], tuple(map(int, words[2:end])), origin


def periods_of(text: Text, content: bytes) -> Iterator[Line]:
    """The lines that a table means, period by period. They have no numbers."""
    entries = entries_of(text)
    for _, words in words_in(content):
        every, first, times = int(words[1]), int(words[3]), int(words[5])
        entry, values = entries[words[6], words[7]], tuple(map(int, words[8:-1]))
        for time in range(times):
            yield Line(0, first + time * every, entry, values, NEW if words[-1] == b"NEW" else NONE)


def merged(lines: List[Line], periods: Iterator[Line]) -> List[Line]:
    """The lines of a signal file and those of a table, by their counts and numbered anew."""
    found = sorted([*lines, *periods], key=lambda line: line.after)
    numbers = {line.number: number for number, line in enumerate(found, 1) if line.number}
    return [
        line._replace(
            number=number, origin=numbers[line.origin] if line.origin > 0 else line.origin
        )
        for number, line in enumerate(found, 1)
    ]
