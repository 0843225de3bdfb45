"""Semantic tokens: what each word of an exchange text is."""
import re
from typing import Any, Dict, Iterator, List, NamedTuple, Optional

from plextools.lsp.documents import Document, letters_of, units
from plextools.lsp.index import Does, Index, Noted, Placed, Space
from plextools.text.finding import Span
from plextools.text.tokens import KEYWORDS

TYPES = (
    "keyword number comment operator variable parameter property struct namespace event label"
).split()
MODIFIERS = ["declaration", "modification"]
LEGEND = {"tokenTypes": TYPES, "tokenModifiers": MODIFIERS}
NUMBER_OF = {name: number for number, name in enumerate(TYPES)}
OF_LOCAL = {
    "variable": "variable",
    "temporary": "parameter",
    "field": "property",
    "file": "struct",
    "label": "label",
}
OF_SPACE = {Space.SIGNAL: "event", Space.BLOCK: "namespace"}
MODIFIED = {Does.DECLARES: 1, Does.WRITES: 2}
WORD = re.compile(r"![^\r\n]*|[A-Za-z_][A-Za-z0-9_]*|[0-9]+|<=|>=|<>|[=+\-*/<>]")
KNOWN = frozenset(KEYWORDS)


class Token(NamedTuple):
    """A token: where it begins, how many units it has, its type and its modifiers."""

    place: int
    length: int
    type: int
    modifiers: int


def tokens(document: Document, index: Index, span: Optional[Span] = None) -> Dict[str, Any]:
    """The tokens of a document, or of a part of it, as the protocol numbers them."""
    data: List[int] = []
    line, character = 0, 0
    start, end = span or Span(0, len(document.text))
    for token in found(document, index, start, end):
        at = document.position(token.place)
        moved = at["line"] - line
        data += [
            moved,
            at["character"] - (0 if moved else character),
            token.length,
            token.type,
            token.modifiers,
        ]
        line, character = at["line"], at["character"]
    return {"data": data}


def found(document: Document, index: Index, start: int, end: int) -> Iterator[Token]:
    start = document.starts[document.line_of(start)]
    names = names_in(index, start, end)
    for word in WORD.finditer(document.text, start, end):
        text, place = word[0], word.start()
        name = names.get(place)
        if name is not None:
            yield name
        elif text in KNOWN:
            yield Token(place, len(text), NUMBER_OF["keyword"], 0)
        elif text[0] == "!":
            length = len(text) if text.isascii() else units(letters_of(text.encode("latin-1")))
            yield Token(place, length, NUMBER_OF["comment"], 0)
        elif text[0].isdigit():
            yield Token(place, len(text), NUMBER_OF["number"], 0)
        elif text[0] in "<>=+-*/":
            yield Token(place, len(text), NUMBER_OF["operator"], 0)


def names_in(index: Index, start: int, end: int) -> Dict[int, Token]:
    """The names in a part of the text, by their places."""
    names: Dict[int, Token] = {}
    for placed in index.segments:
        if placed.start >= end:
            break
        for noted in placed.found.uses:
            place = noted.place + placed.start
            if start <= place < end:
                kind = type_of(noted, placed)
                if kind is not None:
                    length, modifiers = len(noted.name), MODIFIED.get(noted.does, 0)
                    names[place] = Token(place, length, NUMBER_OF[kind], modifiers)
    return names


def type_of(noted: Noted, placed: Placed) -> Optional[str]:
    if noted.space is not Space.LOCAL:
        return OF_SPACE[noted.space]
    declared = placed.found.declared.get(noted.name)
    return OF_LOCAL.get(declared.kind) if declared else None
