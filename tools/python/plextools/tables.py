"""How tables and figures are written: as text in columns, as a table of Markdown, and as JSON; and
names of files.
"""
import json
import unicodedata
from typing import Iterator, List, Optional, Sequence

STEERING = ("Cc", "Cs")  # the categories of control characters, and of bytes that are none of UTF-8
# How plex writes these in quotation marks.
ESCAPED = {"\n": "\\n", "\r": "\\r", "\t": "\\t", "\\": "\\\\", '"': '\\"', "\0": "\\0"}


def in_columns(
    heads: Sequence[str], rows: Sequence[Sequence[str]], names: Optional[int] = 0
) -> Iterator[str]:
    """The lines of a table in which each column is as wide as its widest word. Numbers stand at the
    right, and the words of the column `names` at the left.
    """
    lines: List[Sequence[str]] = [heads, *rows]
    widths = [max(len(line[place]) for line in lines) for place in range(len(heads))]
    for line in lines:
        words = [
            f"{word:{'<' if place == names else '>'}{width}}"
            for place, (word, width) in enumerate(zip(line, widths))
        ]
        yield "  " + "  ".join(words).rstrip()


def markdown_row(cells: Sequence[str]) -> str:
    """A row of a table of Markdown."""
    return f"| {' | '.join(cells)} |"


def markdown_heads(heads: Sequence[str]) -> List[str]:
    """The two lines with which a table of Markdown begins."""
    return [markdown_row(heads), "|---" * len(heads) + "|"]


def counted(number: int, what: str) -> str:
    """So many of something, as `2,000 jobs`."""
    return f"{number:,} {what}{'' if number == 1 else 's'}"


def as_json(told: object, is_short: bool = False) -> str:
    """Data as JSON: for people a line for each value, or as short as it can be."""
    if is_short:
        return json.dumps(told, separators=(",", ":"))
    return json.dumps(told, indent=1)


def quoted(name: str) -> str:
    """The name of a file or a word as plex writes it: as it is, or in quotation marks with escapes
    where it is empty or has something in it that would steer a terminal.
    """
    if name and not any(unicodedata.category(letter) in STEERING for letter in name):
        return name
    return '"' + "".join(ESCAPED.get(letter) or printed(letter) for letter in name) + '"'


def printed(text: str) -> str:
    """A text with escapes for what is not printed; a byte that is none of UTF-8 by its number."""
    return "".join(letter if letter.isprintable() else escape(letter) for letter in text)


def escape(letter: str) -> str:
    number = ord(letter)
    return f"\\x{number & 0xff:02x}" if 0xDC80 <= number <= 0xDCFF else f"\\u{{{number:x}}}"
