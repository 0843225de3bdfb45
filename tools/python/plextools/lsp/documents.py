"""Documents as an editor sends them: their text, their kind, and positions in them.

A `Document` is one version of a text and is never changed. Its `text` has a letter for each byte of
UTF-8, as all readers of texts take it, so that a place is a number of bytes. The protocol counts
lines, which end in CR LF, LF or CR, and in a line units of UTF-16.
"""
import functools
import os
import urllib.parse
from bisect import bisect_right
from dataclasses import dataclass
from enum import Enum
from itertools import accumulate
from typing import Any, Dict, List, Mapping, Optional, Sequence

from plextools.text.finding import Span

FIRST_WORDS = 200  # so many bytes of a line tell its first word


class Kind(Enum):
    """What a document is."""

    EXCHANGE = "exchange"
    SIGNALS = "signals"
    TABLE = "table"
    FILTER = "filter"


LANGUAGES = {f"plex-{kind.value}": kind for kind in Kind}
BEGINNINGS = {b"AFTER": Kind.SIGNALS, b"EVERY": Kind.TABLE, b"SHOW": Kind.FILTER}


def kind_of(language: str, uri: str, data: bytes) -> Kind:
    """The kind of a document: by its language, else by its name, else by its first word."""
    if language in LANGUAGES:
        return LANGUAGES[language]
    if uri.lower().endswith(".plex"):
        return Kind.EXCHANGE
    for line in data.splitlines():
        words = line[:FIRST_WORDS].split()
        if words and line[:1] != b"!":
            return BEGINNINGS.get(words[0].upper(), Kind.EXCHANGE)
    return Kind.EXCHANGE


def bytes_of(text: str) -> bytes:
    """A text in UTF-8; half a pair of UTF-16 is kept as it is."""
    return text.encode("utf-8", "surrogatepass")


def letters_of(data: bytes) -> str:
    """Bytes of UTF-8 as letters; a letter that is cut off at an end is left out."""
    return data.decode("utf-8", "surrogatepass" if is_whole(data) else "ignore")


def is_whole(data: bytes) -> bool:
    try:
        data.decode("utf-8", "surrogatepass")
    except UnicodeDecodeError:
        return False
    return True


def units(text: str) -> int:
    """How many units of UTF-16 a text has."""
    return len(text) + sum(letter > "\uffff" for letter in text)


@dataclass(frozen=True, eq=False)
class Document:
    """One version of a text."""

    uri: str
    language: str
    version: Optional[int]
    data: bytes

    @functools.cached_property
    def text(self) -> str:
        """The text with a letter for each byte."""
        return self.data.decode("latin-1")

    @functools.cached_property
    def kind(self) -> Kind:
        return kind_of(self.language, self.uri, self.data)

    @functools.cached_property
    def starts(self) -> List[int]:
        """Where each line begins."""
        lines = self.data.splitlines(True)
        starts = [0, *accumulate(map(len, lines))]
        if lines and not lines[-1].endswith((b"\n", b"\r")):
            starts.pop()
        return starts

    # positions

    def line_of(self, place: int) -> int:
        return bisect_right(self.starts, place) - 1

    def position(self, place: int) -> Dict[str, int]:
        """Where a byte stands, as the protocol tells it."""
        place = max(0, min(place, len(self.data)))
        line = self.line_of(place)
        before = self.data[self.starts[line] : place]
        character = len(before) if before.isascii() else units(letters_of(before))
        return {"line": line, "character": character}

    def range(self, span: Span) -> Dict[str, Dict[str, int]]:
        return {"start": self.position(span.start), "end": self.position(span.end)}

    def place(self, position: Mapping[str, Any]) -> int:
        """The byte at a position. One behind the end of a line is that end."""
        line, character = int(position["line"]), int(position["character"])
        if line < 0:
            return 0
        if line >= len(self.starts):
            return len(self.data)
        begin = self.starts[line]
        end = self.starts[line + 1] if line + 1 < len(self.starts) else len(self.data)
        whole = self.data[begin:end].rstrip(b"\r\n")
        if whole.isascii():
            return begin + max(0, min(character, len(whole)))
        left = character
        for number, letter in enumerate(letters := letters_of(whole)):
            left -= 1 + (letter > "\uffff")
            if left < 0:
                return begin + len(bytes_of(letters[:number]))
        return begin + len(whole)

    def span(self, range_: Mapping[str, Any]) -> Span:
        start, end = self.place(range_["start"]), self.place(range_["end"])
        return Span(min(start, end), max(start, end))

    # changes

    def changed(self, version: Optional[int], changes: Sequence[Mapping[str, Any]]) -> "Document":
        """The document behind changes, each of a range or of the whole text."""
        new = self
        for change in changes:
            data = bytes_of(str(change["text"]))
            range_ = change.get("range")
            if range_ is not None:
                span = new.span(range_)
                data = new.data[: span.start] + data + new.data[span.end :]
            new = Document(self.uri, self.language, version, data)
        return new


def path_of(uri: str) -> Optional[str]:
    """The path of a file that a URI names, or None."""
    try:
        parts = urllib.parse.urlsplit(uri)
    except ValueError:
        return None
    if parts.scheme != "file":
        return None
    path = urllib.parse.unquote(parts.path, errors="surrogateescape")
    return path if path and "\0" not in path else None


def uri_of(path: str) -> str:
    return "file://" + urllib.parse.quote(os.fsencode(os.path.abspath(path)))
