"""What may be written at a place of an exchange text: keywords as the grammar wants them there, and
the names that fit.
"""
import re
from dataclasses import dataclass
from typing import Any, Callable, Dict, Iterable, Iterator, List, Optional

from plextools.lsp.documents import Document
from plextools.lsp.index import Declared, Index, Known, Pieces, Placed, SegmentReader
from plextools.text.faults import MAY_STAND
from plextools.text.grammar import A_NUMBER, AN_OPERAND, STARTS, Node
from plextools.text.hints import Misfit
from plextools.text.tokens import KEYWORDS, RELATIONS

METHOD, FIELD, VARIABLE, MODULE, KEYWORD, SNIPPET, REFERENCE, EVENT, OPERATOR, STRUCT = (
    2, 5, 6, 9, 14, 15, 18, 23, 24, 22
)  # fmt: skip
KINDS = {"variable": VARIABLE, "temporary": VARIABLE, "field": FIELD, "file": STRUCT}
SNIPPETS = 2  # the format of a text to insert that has places to fill in
# What may stand before the semicolon of a phrase that could end there.
MORE = {
    "SEND": ("REFERENCE", "WITH", "NEW FORLOPP"),
    "TRANSFER": ("REFERENCE",),
    "RETURN": ("WITH",),
    "ENTER": ("WITH",),
    "RETRIEVE": ("WITH",),
    "VARIABLE": ("INIT", "CLEAR"),
    "FIELD": ("INIT",),
}
WITH_VALUES = ("SEND", "RETURN", "ENTER", "RETRIEVE")
DECLARATIONS = ("VARIABLE", "TEMPORARY", "FILE", "FORLOPP FILE", "FIELD")
IN_WORD = re.compile(r"[A-Za-z0-9]*$")
Json = Dict[str, Any]


class Wanting(SegmentReader):
    """Reads a text up to a place, and tells what is wanted there."""

    def __init__(self, clean: str, pieces: Pieces) -> None:
        super().__init__(clean, pieces)
        self.misfit: Optional[Misfit] = None

    def tell_grammar(self, place: int, misfit: Misfit) -> None:
        super().tell_grammar(place, misfit)
        if place >= len(self.source.clean) and self.misfit is None:
            self.misfit = misfit

    def read_wanted(self) -> Misfit:
        self.read()
        return self.misfit or Misfit(self.wanted())


@dataclass(frozen=True)
class Place:
    """Where something is to be written: what is wanted there, the phrase that it is in, and what is
    declared.
    """

    wanted: Misfit
    index: Index
    block: Placed
    with_snippets: bool

    @property
    def phrase(self) -> Optional[Node]:
        """The phrase that has begun."""
        return self.wanted.node if self.wanted.stop else None

    @property
    def way(self) -> str:
        return self.phrase.first.text if self.phrase else ""

    def declared(self, *kinds: str) -> Iterator[Declared]:
        return (one for one in self.block.found.declared.values() if one.kind in kinds)


def completions(
    document: Document, index: Index, known: Known, place: int, with_snippets: bool
) -> List[Json]:
    """What may be written at a place, or be gone on with there."""
    start = document.starts[document.line_of(place)]
    if "!" in document.text[start:place]:
        return []
    word = IN_WORD.search(index.clean, start, place)
    begun = word.start() if word else place
    placed = index.segment_at(begun)
    reader = Wanting(index.clean[placed.start : begun], known.pieces)
    at = Place(reader.read_wanted(), index, placed, with_snippets)
    found: Dict[str, Json] = {}
    for item in items(at):
        found.setdefault(item["label"], item)
    return list(found.values())


def items(at: Place) -> Iterator[Json]:
    for wanted in at.wanted.wanted:
        maker = MAKERS.get(wanted)
        if maker is not None:
            yield from maker(at)
        elif wanted.split(" ")[0] in KEYWORDS:
            yield keyword(wanted)
    if at.wanted.wanted == [";"] and at.phrase is not None:
        written = at.phrase.first.piece.words
        yield from keywords(more for more in MORE.get(at.way, ()) if more not in written)
    if "THEN" in at.wanted.wanted and at.wanted.stop is not None:
        yield from keywords(("AND", "OR"))


def keyword(word: str) -> Json:
    return {"label": word, "kind": KEYWORD}


def keywords(words: Iterable[str]) -> Iterator[Json]:
    return map(keyword, words)


def name(declared: Declared) -> Json:
    size = {"file": "SIZE"}.get(declared.kind, "WIDTH")
    detail = f"{declared.kind} {size} {declared.width}" if declared.width else declared.kind
    return {"label": declared.name, "kind": KINDS.get(declared.kind, REFERENCE), "detail": detail}


def operands(at: Place) -> Iterator[Json]:
    yield from map(name, at.declared("variable", "temporary"))
    yield from fields(at)
    yield keyword("REFERENCE")


def fields(at: Place) -> Iterator[Json]:
    """Fields, with the brackets for their pointer."""
    for declared in at.declared("field"):
        item = name(declared)
        if at.with_snippets:
            item.update(insertText=f"{declared.name}($1)", insertTextFormat=SNIPPETS)
        yield item


def statements(at: Place) -> Iterator[Json]:
    yield from keywords(STARTS)
    yield from map(name, at.declared("variable", "temporary"))
    yield from fields(at)


def of_file(at: Place) -> Iterator[Json]:
    """The fields of the file that a search names."""
    file = getattr(at.phrase, "file", None)
    for declared in at.declared("field"):
        if file is None or declared.file == file.text:
            yield name(declared)


def files(at: Place) -> Iterator[Json]:
    return (name(one) for one in at.declared("file") if not one.forlopp)


def forlopp_files(at: Place) -> Iterator[Json]:
    return (name(one) for one in at.declared("file") if one.forlopp)


def signals(at: Place) -> Iterator[Json]:
    """The signals that may stand behind the first word of the phrase."""
    kinds = MAY_STAND.get(at.way, ())
    in_survey = at.phrase is not None and at.phrase.kind == "survey line"
    for signal in at.index.signals.values():
        if signal.kind in kinds:
            yield signal_item(at, signal, at.way in WITH_VALUES and not in_survey)


def signal_item(at: Place, signal: Declared, with_values: bool) -> Json:
    detail = " ".join(at.index.clean[slice(*signal.phrase)].split())
    item = {"label": signal.name, "kind": EVENT, "detail": detail}
    if with_values and signal.values and at.with_snippets:
        values = ", ".join(f"${{{n}:value{n}}}" for n in range(1, min(signal.values, 8) + 1))
        item.update(insertText=f"{signal.name} WITH {values}", insertTextFormat=SNIPPETS)
    return item


def labels(at: Place) -> Iterator[Json]:
    return map(name, at.declared("label"))


def blocks(at: Place) -> Iterator[Json]:
    """The blocks; of a signal that is sent only those that receive it."""
    signal = getattr(at.phrase, "signal", None)
    for placed in at.index.blocks.values():
        receives = {line.name for line in placed.found.surveys if line.way == "RECEIVE"}
        is_sent = signal is not None and at.way in ("SEND", "TRANSFER")
        if signal is None or not is_sent or signal.text in receives:
            yield {"label": placed.found.name, "kind": MODULE}


def temporaries(at: Place) -> Iterator[Json]:
    return map(name, at.declared("temporary"))


def held(at: Place) -> Iterator[Json]:
    return map(name, at.declared("variable", "temporary"))


def levels(_: Place) -> Iterator[Json]:
    return keywords("ABCD")


def relations(_: Place) -> Iterator[Json]:
    return ({"label": relation, "kind": OPERATOR} for relation in RELATIONS)


def declarations(_: Place) -> Iterator[Json]:
    return keywords(DECLARATIONS)


def nothing(_: Place) -> Iterator[Json]:
    return iter(())


MAKERS: Dict[str, Callable[[Place], Iterator[Json]]] = {
    AN_OPERAND: operands,
    A_NUMBER: nothing,
    "a statement": statements,
    "a declaration": declarations,
    "a relation, as = or <": relations,
    "the level A, B, C or D": levels,
    "the name of a signal": signals,
    "the name of an answer": signals,
    "the name of a label": labels,
    "the name of a block": blocks,
    "the name of a temporary": temporaries,
    "the name of a variable or a temporary": held,
    "the name of a file": files,
    "the name of a FORLOPP FILE": forlopp_files,
    "the name of a field": of_file,
}
