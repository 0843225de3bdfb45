"""What is told of files, for people and for programs: findings, with their places, notes and cures.

A place is a number of bytes from the start of a text, and a span goes from one up to another. The
`file` of each is a number among the files that were looked at.
"""
from enum import Enum
from typing import Hashable, NamedTuple, Optional, Tuple

from plextools.text.tokens import Lines


SMALL_LETTERS = ("BADBYTE", "small letters")  # the cause of all words in small letters


class Severity(Enum):
    """How much a finding matters: a text with an error is refused, one with a warning is not."""

    ERROR = "error"
    WARNING = "warning"
    NOTE = "note"


class Span(NamedTuple):
    """A part of a text, from a byte up to another one; it may be empty."""

    start: int
    end: int


class Edit(NamedTuple):
    """A part of a text, and what is to stand in its place."""

    start: int
    end: int
    text: str


class Note(NamedTuple):
    """What is said of another place, as of a declaration."""

    sentence: str
    file: int
    span: Span


class Source(NamedTuple):
    """A file that was looked at. A text that is too large is not kept, and has no lines."""

    name: str
    text: str
    lines: Lines


class Advice(NamedTuple):
    """What is said beside the sentence of a finding: what is marked of the text, with a label; the
    other places that matter; the cure in words, and as edits. Findings with the same `cause` are
    one finding with several places.
    """

    span: Span
    label: str = ""
    notes: Tuple[Note, ...] = ()
    cure: str = ""
    edits: Tuple[Edit, ...] = ()
    cause: Optional[Hashable] = None


class Finding(NamedTuple):
    """A fault, a warning or a note on a file. It has no place where it is about a whole file."""

    file: int
    place: Optional[int]
    word: str
    severity: Severity
    sentence: str
    advice: Advice
    others: Tuple[Span, ...] = ()
