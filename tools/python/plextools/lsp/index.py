"""The names of an exchange text, right or wrong: where each is declared, and where it is used.

A text is read block by block. What stands before the first block is a segment, and so is each
block; a segment that was read before, letter by letter, is not read again, nor is a piece of a
program. Within a segment places are counted from its beginning.
"""
import re
from enum import Enum
from typing import Dict, Iterator, List, NamedTuple, Optional, Tuple, Union

from plextools.text.finding import Span
from plextools.text.grammar import OF_BLOCKS, SYNC, Node, is_name_word
from plextools.text.hints import Misfit
from plextools.text.reader import RUNNING, Frame, Reader
from plextools.text.tokens import KEYWORDS, TOKEN, Lines, Piece, Text, Token

BLOCK_WORD = re.compile(r"(?<![A-Z0-9])BLOCK(?![A-Z0-9])")
PROGRAM_WORD = re.compile(r"(?<![A-Z0-9])PROGRAM(?![A-Z0-9])")
AFTER_END = re.compile(r"(?<![A-Z0-9])END[ \t\r\n]*$")
MOST_PIECES, LONGEST_BLANK = 50_000, 2000
CLOSING = ("FI", "NO", "ESAC")
Pieces = Dict[str, Union[Node, List[Node]]]  # the phrases of pieces of programs
ENDING = frozenset(OF_BLOCKS) - {"ENTER"}


class Space(Enum):
    """Which names must differ from each other."""

    LOCAL = "local"  # variables, temporaries, files, fields and labels of a block
    SIGNAL = "signal"
    BLOCK = "block"


class Does(Enum):
    """What is done with a name where it stands."""

    DECLARES = "declares"
    READS = "reads"
    WRITES = "writes"
    NAMES = "names"


class Noted(NamedTuple):
    """A name where it stands. The keyword before it tells how it is used, as SEND."""

    place: int
    name: str
    space: Space
    does: Does
    way: str = ""

    @property
    def span(self) -> Span:
        return Span(self.place, self.place + len(self.name))


class Declared(NamedTuple):
    """A declaration: what it is, its name, where its phrase stands, and the file of a field."""

    kind: str
    name: str
    place: int
    phrase: Span
    file: str = ""
    width: Optional[str] = None
    forlopp: bool = False
    values: Optional[int] = None
    level: str = ""
    answer: str = ""  # of a combined signal; of an answer, the signal


class Line(NamedTuple):
    """A line of a survey, or an ENTER: its first word, its signal, and where it stands."""

    way: str
    name: str
    phrase: Span


class Fold(NamedTuple):
    """What may be folded."""

    start: int
    end: int


class Segment:
    """What stands before the blocks, or a block."""

    def __init__(self) -> None:
        self.block: Optional[Noted] = None
        self.is_block = self.is_over = False
        self.signals: List[Declared] = []
        self.declared: Dict[str, Declared] = {}
        self.order: List[Declared] = []
        self.surveys: List[Line] = []
        self.entered: List[Line] = []
        self.uses: List[Noted] = []
        self.folds: List[Fold] = []
        self.program: Optional[int] = None
        self.misspelled: Optional[int] = None
        self.end = 0

    @property
    def name(self) -> str:
        return self.block.name if self.block else ""


class Snippet(Text):
    """A part of a text that is clean already."""

    def __init__(self, clean: str) -> None:
        self.text = self.clean = clean
        self.size, self.most = len(clean), 10**9
        self.lines = Lines(clean)
        self.faults, self.left_out, self.meant = [], {}, {}


class SegmentReader(Reader):
    """Reads a segment, and notes its names."""

    def __init__(self, clean: str, pieces: Pieces) -> None:
        super().__init__(Snippet(clean))
        self.values = self.fields = self.temporaries = frozenset()
        self.pieces, self.found = pieces, Segment()
        self.file = ""

    def segment(self) -> Segment:
        self.read()
        self.found.uses.sort(key=lambda noted: noted.place)
        if not self.found.end:
            self.found.end = len(self.source.clean.rstrip())
        return self.found

    # reading

    def tell_grammar(self, place: int, misfit: Misfit) -> None:
        if self.found.misspelled is None:
            self.found.misspelled = place

    def begin_program(self) -> None:
        self.memo = {}
        super().begin_program()
        if len(self.pieces) > MOST_PIECES:
            self.pieces.clear()
        self.memo = self.pieces

    def new_piece(self, at: int, end: int, key: Optional[str] = None) -> None:
        """A piece of a program is read by itself, so that it can be kept without the text."""
        if key is None or self.section is not RUNNING:
            super().new_piece(at, end)
            return
        piece = Piece(Snippet(self.source.clean[at : end + 1]), 0, end - at)
        self.begin(piece)
        last = len(piece.words) - (piece.words[-1] == "")
        nodes: List[Node] = []
        while self.at < last:
            nodes.append(self.phrase())
        if any(node.first.text in ENDING for node in nodes):
            super().new_piece(at, end)
            return
        for node in nodes:
            self.in_program(node, at)
        if key and nodes and end < len(self.source.clean):
            self.keep(key, nodes)

    # what is found

    def note(
        self, token: Optional[Token], shift: int, space: Space, does: Does, way: str = ""
    ) -> None:
        if token is not None:
            self.found.uses.append(Noted(token.place + shift, token.text, space, does, way))

    def phrase_of(self, node: Node, shift: int = 0) -> Span:
        """A phrase up to its semicolon, as far as it was read."""
        start = node.first.place + shift
        end = self.source.clean.find(";", start)
        return Span(start, len(self.source.clean) if end < 0 else end + 1)

    def found_signal(self, node: Node) -> None:
        phrase, answer = self.phrase_of(node), getattr(node, "answer", None)
        names = [one.name.text if hasattr(one, "name") else "" for one in (node, answer) if one]
        for number, one in enumerate(one for one in (node, answer) if one):
            name: Optional[Token] = getattr(one, "name", None)
            if name is None:
                continue
            self.note(name, 0, Space.SIGNAL, Does.DECLARES, "SIGNAL")
            data: Optional[Token] = getattr(one, "data", None)
            level: Optional[Token] = getattr(one, "level", None)
            self.found.signals.append(
                Declared(
                    one.kind,
                    name.text,
                    name.place,
                    phrase,
                    values=int(data.text) if data and len(data.text) < 10 else None,
                    level=level.text if level else "",
                    answer=names[1 - number] if len(names) > 1 else "",
                )
            )

    def found_block(self, node: Optional[Node]) -> None:
        self.found.is_block = True
        if node is not None and hasattr(node, "name"):
            self.note(node.name, 0, Space.BLOCK, Does.DECLARES, "BLOCK")
            if self.found.block is None:
                self.found.block = self.found.uses[-1]

    def found_declaration(self, node: Node) -> None:
        name, width = node.name, getattr(node, "width", None)
        self.note(name, 0, Space.LOCAL, Does.DECLARES, node.kind)
        if node.kind == "file":
            self.file = name.text
        size: Optional[Token] = width or getattr(node, "size", None)
        declared = Declared(
            node.kind,
            name.text,
            name.place,
            self.phrase_of(node),
            self.file if node.kind == "field" else "",
            size.text if size else None,
            bool(getattr(node, "forlopp", False)),
        )
        self.found.order.append(declared)
        self.found.declared.setdefault(name.text, declared)

    def found_survey_line(self, node: Node, name: Token) -> None:
        way = node.first.text
        self.note(name, 0, Space.SIGNAL, Does.NAMES, way)
        self.found.surveys.append(Line(way, name.text, self.phrase_of(node)))

    def found_program(self) -> None:
        found = PROGRAM_WORD.search(self.source.clean)
        if self.found.program is None and found:
            self.found.program = found.start()

    def found_labels(self, node: Node, shift: int, frame: Frame) -> None:
        words, piece = node.first.piece.words, node.first.piece
        for index in node.label_tokens:
            token = Token(words[index], index, piece)
            self.note(token, shift, Space.LOCAL, Does.DECLARES, "label")
            place = token.place + shift
            declared = Declared("label", token.text, place, Span(place, place + len(token.text)))
            self.found.order.append(declared)
            self.found.declared.setdefault(token.text, declared)

    def found_statement(self, node: Node, shift: int, frame: Frame) -> None:
        way = node.first.text
        if node.kind == "ENTER" and hasattr(node, "signal"):
            self.found.entered.append(Line(way, node.signal.text, self.phrase_of(node, shift)))
        for noted in names_of(node):
            self.note(noted.token, shift, noted.space, noted.does, noted.way)
        if node.stop is not None:
            self.skipped(node, shift)

    def skipped(self, node: Node, shift: int) -> None:
        """The names of a phrase behind the word that does not fit."""
        assert node.stop
        words, piece = node.first.piece.words, node.first.piece
        for index in range(node.stop.index, len(words) - 1):
            if words[index] in SYNC:
                break
            if is_name_word(words[index]) and words[index] not in KEYWORDS:
                self.note(Token(words[index], index, piece), shift, Space.LOCAL, Does.READS)

    def inner(self, node: Node, shift: int, frame: Frame) -> None:
        if node.kind in CLOSING and frame.node is not None:
            self.found.folds.append(Fold(frame.place, node.first.place + shift))
        super().inner(node, shift, frame)

    def found_block_end(self, node: Optional[Node], shift: int) -> None:
        if node is not None and not self.found.is_over:
            self.found.is_over = True
            self.found.end = self.phrase_of(node, shift).end


class Name(NamedTuple):
    """A name of a statement."""

    token: Token
    space: Space
    does: Does
    way: str = ""


WRITTEN = ("ON", "FOR", "SEIZE")  # the temporary behind these takes a value


def names_of(node: Node) -> Iterator[Name]:
    """The names of a statement."""
    kind = node.kind
    if kind in ("set", "set_field"):
        yield Name(node.first, Space.LOCAL, Does.WRITES)
    for part, does in (
        ("pointer", Does.READS),
        ("temporary", Does.WRITES if kind in WRITTEN else Does.READS),
        ("file", Does.NAMES),
        ("field", Does.READS),
        ("label", Does.NAMES),
    ):
        of_part: Optional[Token] = getattr(node, part, None)
        if of_part is not None:
            yield Name(of_part, Space.LOCAL, does, kind)
    for token in getattr(node, "names", ()):
        yield Name(token, Space.LOCAL, Does.WRITES, kind)
    for strange in node.strange:
        token = Token(node.first.piece.words[strange.at], strange.at, node.first.piece)
        yield Name(token, Space.LOCAL, Does.READS, strange.role)
    for token in node.references:
        yield Name(token, Space.BLOCK, Does.NAMES, "REFERENCE")
    if hasattr(node, "signal"):
        yield Name(node.signal, Space.SIGNAL, Does.NAMES, kind)
    reference: Optional[Node] = getattr(node, "reference", None)
    if reference is not None:
        is_held = reference.kind == "held"
        space = Space.LOCAL if is_held else Space.BLOCK
        yield Name(reference.first, space, Does.READS if is_held else Does.NAMES, "REFERENCE")


class Placed(NamedTuple):
    """A segment, where it begins, and its number among the blocks, from 0."""

    start: int
    found: Segment
    number: int

    def span(self, span: Span) -> Span:
        return Span(span.start + self.start, span.end + self.start)


class Known:
    """What was read of earlier versions of a document."""

    def __init__(self) -> None:
        self.segments: Dict[str, Segment] = {}
        self.pieces: Pieces = {}


class Index:
    """The names of a text."""

    def __init__(self, data: bytes, known: Known) -> None:
        source = Text(data, 0)
        self.clean, self.is_strange = source.clean, bool(source.left_out)
        kept: Dict[str, Segment] = {}
        self.segments: List[Placed] = []
        blocks = 0
        for start, end in parts_of(self.clean):
            clean = self.clean[start:end]
            found = known.segments.get(clean) or SegmentReader(clean, known.pieces).segment()
            kept[clean] = found
            self.segments.append(Placed(start, found, blocks if found.is_block else -1))
            blocks += found.is_block
        known.segments = kept
        self.signals: Dict[str, Declared] = {}
        self.blocks: Dict[str, Placed] = {}
        for placed in self.segments:
            for signal in placed.found.signals:
                moved = signal._replace(
                    place=signal.place + placed.start, phrase=placed.span(signal.phrase)
                )
                self.signals.setdefault(signal.name, moved)
            if placed.found.block:
                self.blocks.setdefault(placed.found.name, placed)

    def segment_at(self, place: int) -> Placed:
        """The segment in which a place is."""
        before = [placed for placed in self.segments if placed.start <= place]
        return before[-1] if before else self.segments[0]

    @property
    def misspelled(self) -> Optional[int]:
        """The first place at which the grammar is broken."""
        for placed in self.segments:
            if placed.found.misspelled is not None:
                return placed.start + placed.found.misspelled
        return None

    def noted_at(self, place: int) -> Optional[Tuple[Placed, Noted]]:
        """The name at a place or directly before it, with its place in the whole text."""
        placed = self.segment_at(place)
        found = [
            one
            for one in placed.found.uses
            if one.place <= place - placed.start <= one.place + len(one.name)
        ]
        if not found:
            return None
        return placed, found[-1]._replace(place=found[-1].place + placed.start)

    def uses(self, space: Space, name: str, of: Optional[Placed]) -> Iterator[Noted]:
        """Where a name stands: a local one in its block."""
        for placed in [of] if of and space is Space.LOCAL else self.segments:
            for noted in placed.found.uses:
                if noted.name == name and noted.space is space:
                    yield noted._replace(place=noted.place + placed.start)


def parts_of(clean: str) -> Iterator[Span]:
    """What stands before the blocks, and each block with what stands behind it."""
    start = 0
    for word in BLOCK_WORD.finditer(clean):
        before = clean[max(0, word.start() - LONGEST_BLANK) : word.start()]
        if not AFTER_END.search(before):
            yield Span(start, word.start())
            start = word.start()
    yield Span(start, len(clean))


def word_at(clean: str, place: int) -> Optional[Span]:
    """The word or mark at a place."""
    start = max(0, place - 1)
    while start and clean[start - 1].isalnum() and clean[start].isalnum():
        start -= 1
    for found in TOKEN.finditer(clean, start, place + 200):
        if found.start() > place:
            break
        if place <= found.end():
            return Span(found.start(), found.end())
    return None
