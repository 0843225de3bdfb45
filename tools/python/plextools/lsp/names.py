"""What a name means at a place, and where else it stands: definition, references, rename."""
import re
from dataclasses import dataclass, replace
from typing import Any, Dict, Iterator, List, NamedTuple, Optional

from plextools.limits import MOST_LETTERS
from plextools.lsp.documents import Document, Kind
from plextools.lsp.index import Declared, Does, Index, Noted, Placed, Space
from plextools.lsp.workspace import Workspace
from plextools.tables import printed
from plextools.text.finding import Span
from plextools.text.tokens import KEYWORDS, Lines

WORD = re.compile(rb"[^ \t\r\n]+")
NAME = re.compile(r"[A-Z][A-Z0-9]*")
MOST_SHOWN = 40
Json = Dict[str, Any]
# Which words of a line name a signal and a block.
IN_LINES = {Kind.SIGNALS: (2, 3), Kind.TABLE: (6, 7)}
IN_FILTERS = {b"SIGNAL": Space.SIGNAL, b"BLOCK": Space.BLOCK}
KINDS = {"variable": "variable", "temporary": "temporary", "field": "field", "label": "label"}


class Refused(Exception):
    """A request that cannot be fulfilled, in words for the user."""


@dataclass(frozen=True)
class Meant:
    """What a name means: the exchange text and its names, what is named, and where it was asked
    for. The block is that of a local name.
    """

    exchange: Document
    index: Index
    space: Space
    name: str
    block: Optional[Placed]
    asked: Span

    def declared(self) -> Optional[Declared]:
        """Its declaration, at its place in the whole text."""
        if self.space is Space.SIGNAL:
            return self.index.signals.get(self.name)
        if self.space is Space.BLOCK:
            placed = self.index.blocks.get(self.name)
            if placed is None or placed.found.block is None:
                return None
            start = placed.found.block.place + placed.start
            return Declared("block", self.name, start, placed.span(Span(0, placed.found.end)))
        found = self.block.found.declared.get(self.name) if self.block else None
        if found is None or self.block is None:
            return None
        phrase = self.block.span(found.phrase)
        return found._replace(place=found.place + self.block.start, phrase=phrase)

    def uses(self) -> Iterator[Noted]:
        return self.index.uses(self.space, self.name, self.block)


def meant_at(workspace: Workspace, document: Document, place: int) -> Optional[Meant]:
    """What the name at a place means."""
    if document.kind is not Kind.EXCHANGE:
        return meant_in_line(workspace, document, place)
    index = workspace.index(document)
    found = index.noted_at(place)
    if found is None:
        return None
    placed, noted = found
    block = placed if noted.space is Space.LOCAL else None
    return Meant(document, index, noted.space, noted.name, block, noted.span)


def meant_in_line(workspace: Workspace, document: Document, place: int) -> Optional[Meant]:
    """The same in a file of lines, which names signals and blocks of its exchange text."""
    exchange = workspace.exchange_of(document)
    if exchange is None:
        return None
    for noted in line_names(document, document.line_of(place)):
        if noted.place <= place <= noted.span.end:
            index = workspace.index(exchange)
            return Meant(exchange, index, noted.space, noted.name, None, noted.span)
    return None


def line_names(document: Document, line: int) -> Iterator[Noted]:
    """The names in a line of a signal file, a table or a filter."""
    start = document.starts[line]
    end = document.starts[line + 1] if line + 1 < len(document.starts) else len(document.data)
    if document.data[start : start + 1] == b"!":
        return
    words = list(WORD.finditer(document.data, start, end))
    if document.kind is Kind.FILTER:
        pairs = [(IN_FILTERS.get(one[0]), other) for one, other in zip(words, words[1:])]
    else:
        places = zip(IN_LINES[document.kind], (Space.SIGNAL, Space.BLOCK))
        pairs = [(space, words[number]) for number, space in places if number < len(words)]
    for space, word in pairs:
        if space is not None:
            name = word[0].decode("latin-1")
            yield Noted(word.start(), name, space, Does.NAMES, document.kind.value)


def location(document: Document, span: Span) -> Json:
    return {"uri": document.uri, "range": document.range(span)}


def definition(workspace: Workspace, document: Document, place: int) -> Optional[Json]:
    """Where the name at a place is declared."""
    meant = meant_at(workspace, document, place)
    declared = meant.declared() if meant else None
    if meant is None or declared is None:
        return None
    span = Span(declared.place, declared.place + len(declared.name))
    return location(meant.exchange, span)


class Used(NamedTuple):
    """A name in a document."""

    document: Document
    noted: Noted


def all_uses(workspace: Workspace, meant: Meant) -> Iterator[Used]:
    """Where a name stands in its exchange text, and in the open files of lines that go with it."""
    for noted in meant.uses():
        yield Used(meant.exchange, noted)
    if meant.space is Space.LOCAL:
        return
    for document in workspace.dependents(meant.exchange):
        if meant.name.encode() in document.data:
            for line in range(len(document.starts)):
                for noted in line_names(document, line):
                    if (noted.space, noted.name) == (meant.space, meant.name):
                        yield Used(document, noted)


def references(
    workspace: Workspace, document: Document, place: int, with_declaration: bool
) -> List[Json]:
    """Where the name at a place stands."""
    meant = meant_at(workspace, document, place)
    if meant is None:
        return []
    return [
        location(used.document, used.noted.span)
        for used in all_uses(workspace, meant)
        if with_declaration or used.noted.does is not Does.DECLARES
    ]


def highlights(workspace: Workspace, document: Document, place: int) -> List[Json]:
    """Where the name at a place stands in the same document: 2 where it is read, 3 where it is
    written.
    """
    meant = meant_at(workspace, document, place)
    if meant is None:
        return []
    kinds = {Does.READS: 2, Does.WRITES: 3}
    return [
        {"range": document.range(used.noted.span), "kind": kinds.get(used.noted.does, 1)}
        for used in all_uses(workspace, meant)
        if used.document is document
    ]


# another name


def prepared(workspace: Workspace, document: Document, place: int) -> Optional[Json]:
    """The name at a place, where it can get another one."""
    meant = meant_at(workspace, document, place)
    if meant is None:
        return None
    look_at_text(meant)
    return {"range": document.range(meant.asked), "placeholder": meant.name}


def rename(workspace: Workspace, document: Document, place: int, new: str) -> Json:
    """The edits that give the name at a place another one."""
    meant = meant_at(workspace, document, place)
    if meant is None:
        raise Refused("there is no name here that can get another one")
    look_at_text(meant)
    look_at_name(new)
    look_at_others(meant, new)
    changes: Dict[str, List[Json]] = {}
    for document, noted in all_uses(workspace, meant):
        edit = {"range": document.range(noted.span), "newText": new}
        changes.setdefault(document.uri, []).append(edit)
    return {"changes": changes}


def look_at_text(meant: Meant) -> None:
    """A name gets another one only where all its places are sure."""
    misspelled = meant.index.misspelled
    if misspelled is not None:
        line = Lines(meant.index.clean).line(misspelled)
        raise Refused(f"the text has a fault of its spelling on line {line}: cure it first")
    if meant.index.is_strange:
        raise Refused("the text has words or bytes that are none of the language: cure them first")
    if meant.declared() is None:
        raise Refused(f"{meant.name} is not declared")


def look_at_name(new: str) -> None:
    shown = printed(new if len(new) <= MOST_SHOWN else new[: MOST_SHOWN - 3] + "...")
    if not NAME.fullmatch(new):
        raise Refused(f"{shown} is no name: a capital letter, then capital letters and digits")
    if new in KEYWORDS:
        raise Refused(f"{new} is a keyword, and no name")
    if len(new) > MOST_LETTERS:
        raise Refused(f"{shown} has {len(new)} letters and digits, and {MOST_LETTERS} are the most")


def look_at_others(meant: Meant, new: str) -> None:
    """The new name is that of nothing else from which it must differ."""
    if new == meant.name:
        return
    other = replace(meant, name=new).declared()
    if other is None:
        # a use of a name that is not declared would get a meaning
        used = next(iter(replace(meant, name=new).uses()), None)
        if used is None:
            return
        line = Lines(meant.index.clean).line(used.place)
        raise Refused(f"{new} stands on line {line}, and would be declared by this")
    what = {"file": "file"}.get(other.kind, KINDS.get(other.kind, meant.space.value))
    line = Lines(meant.index.clean).line(other.place)
    raise Refused(f"there is a {what} {new} already, on line {line}")
