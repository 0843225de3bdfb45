"""The one layout of exchange texts, for the formatter and for editors.

`format_text(data)` gives a text in bytes as the layout has it, or the faults that keep it from
being read. Each phrase is on a line of its own: a declaration, a line of a survey, a statement, or
the beginning of one up to THEN, ELSE, IS or DO. A line is indented by how deep its phrase stands,
and a phrase that is too long is continued on further lines. A label is on the line of its
statement.

A comment stays behind the word that it follows, or on a line of its own between the same two words.
Of several blank lines one is kept. What comes out is compared with the text, word by word and
comment by comment.
"""
import re
from array import array
from itertools import zip_longest
from typing import Dict, Iterator, List, NamedTuple, Optional, Sequence, Union

from plextools.limits import MOST_BYTES
from plextools.text.grammar import JOINING, KIND, OPERATORS, RELATION_WORDS, Node
from plextools.text.reader import RUNNING, Reader
from plextools.text.tokens import COMMENT, TOKEN, Text, Told

# Columns: of a line, of a level, of what continues a phrase, and of a tab.
WIDTH, STEP, FURTHER, TAB = 80, 2, 4, 8
LABEL_LEVEL, DEEPEST = 1, 255
MOST_FAULTS, TOO_LARGE = 1000, "TOOLARGE"
LEXEME = re.compile(rf"{COMMENT.pattern}|\n|{TOKEN.pattern}")
BLANKS = " \t\r"
OF_DECLARATIONS = frozenset("VARIABLE TEMPORARY FILE FORLOPP RECEIVE SEND".split())
# The words at which a list of phrases ends that stands deeper than they do.
CLOSERS = frozenset("ELSE FI NO ESAC WHEN OTHERWISE SURVEY PROGRAM END".split())
PHRASE_ENDS = frozenset("; THEN IS DO".split())
# A phrase that is too long is broken before one of these words, or behind a comma.
BREAKS = (
    OPERATORS
    | RELATION_WORDS
    | JOINING
    | frozenset("THEN GOTO ELSE IS DO FROM UPTO IN WHERE WITH NEW REFERENCE".split())
    | frozenset("DATA ANSWER INIT CLEAR".split())
)


class Formatted(NamedTuple):
    """A text in the layout; None where its faults keep it from being read."""

    text: Optional[bytes]
    faults: List[Told]


class OtherText(Exception):
    """What was laid out is not the same text: a fault of this module."""


class Start(NamedTuple):
    """Where a phrase begins: at which byte, how deep it stands, how deep the phrases of the list do
    that it ends, and whether it is a label.
    """

    place: int
    level: int
    inner: int
    is_label: bool


class Starts:
    """Where all phrases of a text begin, in little memory."""

    def __init__(self) -> None:
        self.places, self.depths = array("L"), bytearray()

    def add(self, place: int, level: int, inner: int, is_label: bool = False) -> None:
        self.places.append(place)
        self.depths += bytes((min(level, DEEPEST), min(inner, DEEPEST), is_label))

    def __iter__(self) -> Iterator[Start]:
        depths = iter(self.depths)
        for place, level, inner, is_label in zip(self.places, depths, depths, depths):
            yield Start(place, level, inner, bool(is_label))


class Holder(NamedTuple):
    """A statement that holds others: how deep it stands, and how deep they do."""

    level: int
    inner: int


class PhraseReader(Reader):
    """Reads a text, and notes where its phrases begin."""

    keeps_pieces = False

    def __init__(self, source: Text) -> None:
        super().__init__(source)
        self.starts = Starts()
        self.holders: List[Holder] = []

    def is_bare(self, line: str) -> bool:
        """A line without names is a phrase as others are."""
        return False

    def handle(self, node: Node, shift: int) -> None:
        inner = self.depth_inside
        if node.kind == "label":
            for index in node.label_tokens:
                self.starts.add(node.first.piece.place(index), inner, inner, True)
        else:
            self.starts.add(node.first.place, self.level(node), inner)
        super().handle(node, shift)

    @property
    def depth_inside(self) -> int:
        """How deep the phrases of the innermost list stand."""
        return self.holders[-1].inner if self.holders else 1

    def level(self, node: Node) -> int:
        """How deep a phrase stands. What it opens or closes is noted."""
        word = node.first.text
        if self.section is not RUNNING:
            return 1 if word in OF_DECLARATIONS else 2 if word == "FIELD" else 0
        if word == "END":
            return 0
        if self.holders and word in CLOSERS:
            return self.closer_level(word)
        level = self.depth_inside
        if node.opens:
            self.holders.append(Holder(level, level + 1))
        return level

    def closer_level(self, word: str) -> int:
        """How deep a word stands at which a list ends."""
        level = self.holders[-1].level
        if word in ("WHEN", "OTHERWISE"):
            self.holders[-1] = Holder(level, level + 2)
            return level + 1
        if word != "ELSE":
            self.holders.pop()
        return level


class Comment(NamedTuple):
    """A comment: its text, the byte at which it stands, whether it has a line of its own, and
    whether a blank line is above that.
    """

    text: str
    place: int
    is_alone: bool
    is_parted: bool


class Phrase:
    """A phrase: where it begins, the comments above it, and whether a blank line is above it; its
    words, and the comments behind them, by the number of words before each.
    """

    def __init__(self, start: Start, above: List[Comment], is_parted: bool) -> None:
        self.start, self.above, self.is_parted = start, above, is_parted
        self.words: List[str] = []
        self.comments: Dict[int, List[Comment]] = {}

    @property
    def is_whole(self) -> bool:
        last = self.words[-1]
        is_end = last in PHRASE_ENDS or self.start.is_label and last == ")"
        return is_end or self.words == ["ELSE"]

    def takes(self, comment: Comment) -> bool:
        """Whether a comment stands in the phrase, or behind it on its line."""
        return not (self.is_whole and comment.is_alone)

    def add(self, comment: Comment) -> None:
        self.comments.setdefault(len(self.words), []).append(comment)

    @property
    def has_comments_inside(self) -> bool:
        return any(place < len(self.words) for place in self.comments)

    def parts(self) -> List[Union[str, Comment]]:
        """The parts between which a line may end, and the comments at their places."""
        found: List[Union[str, Comment]] = []
        words, part = self.words, ""
        for index, word in enumerate(words):
            if index in self.comments or index and may_break(words, index):
                found += [part, *self.comments.get(index, [])]
                part = word
            else:
                part += word if not index or is_glued(words, index) else f" {word}"
        return [*found, part, *self.comments.get(len(words), [])]


class Line(NamedTuple):
    """A line of the layout: what stands on it, and the comment behind that, if there is one."""

    text: str
    comment: str = ""


def is_glued(words: List[str], index: int) -> bool:
    """Whether no blank stands before a word."""
    word, before = words[index], words[index - 1]
    if word == "(":
        return before == "(" or before not in KIND
    return word in (";", ",", ")") or before == "("


def may_break(words: List[str], index: int) -> bool:
    """Whether a line may end before a word."""
    before = words[index - 1]
    if before == ",":
        return True
    return words[index] in BREAKS and before not in BREAKS and before != "("


class Layout:
    """The lines of a text that is a sentence of the language."""

    def __init__(self, text: str, starts: Starts) -> None:
        self.text, self.starts = text, iter(starts)
        self.left: List[Comment] = []  # comments behind the last phrase
        self.labels = ""  # that wait for their statement

    def column(self, place: int) -> int:
        """The column of a byte from 0, as an editor shows it."""
        start = self.text.rfind("\n", 0, place) + 1
        return len(self.text[start:place].expandtabs(TAB))

    def phrases(self) -> Iterator[Phrase]:
        """The phrases of the text, with their words and comments."""
        start = next(self.starts, None)
        phrase: Optional[Phrase] = None
        ends = 1  # of lines, behind the word or the comment before
        for found in LEXEME.finditer(self.text):
            if found[0] == "\n":
                ends += 1
                continue
            if found[0][0] == "!":
                text = found[0].rstrip(BLANKS)
                comment = Comment(text, found.start(), ends > 0, ends > 1)
                if phrase and phrase.takes(comment):
                    phrase.add(comment)
                else:
                    self.left.append(comment)
            else:
                if start and found.start() == start.place:
                    if phrase:
                        yield phrase
                    phrase = Phrase(start, self.left, ends > 1)
                    self.left, start = [], next(self.starts, None)
                assert phrase
                phrase.words.append(found[0])
            ends = 0
        if phrase:
            yield phrase

    def lines(self) -> Iterator[str]:
        """The lines of the layout, without their ends. None is blank at the beginning. Comments
        behind lines that follow each other begin at one column.
        """
        run: List[Line] = []
        is_begun = False
        for line in self.all_lines():
            if line.comment:
                run.append(line)
            else:
                yield from aligned(run)
                run = []
                if is_begun or line.text:
                    yield line.text
            is_begun = True
        yield from aligned(run)

    def all_lines(self) -> Iterator[Line]:
        for phrase in self.phrases():
            for comment in phrase.above:
                yield from self.comment_lines(comment, self.comment_level(phrase, comment))
            yield from self.phrase_lines(phrase)
        for comment in self.left:
            yield from self.comment_lines(comment, 0)

    def comment_level(self, phrase: Phrase, comment: Comment) -> int:
        """How deep a comment above a phrase stands: as the phrase, or, where it was deeper than a
        word at which a list ends, as what is in that list.
        """
        start = phrase.start
        if start.is_label or phrase.words[0] not in CLOSERS:
            return start.level
        is_inside = self.column(comment.place) > self.column(start.place)
        return start.inner if is_inside else start.level

    def comment_lines(self, comment: Comment, level: int) -> Iterator[Line]:
        yield from self.label_line()
        if comment.is_parted:
            yield Line("")
        yield Line(indented(level, comment.text))

    def label_line(self) -> Iterator[Line]:
        """The labels that wait for their statement, on a line of their own."""
        if self.labels:
            yield Line(indented(LABEL_LEVEL, self.labels))
        self.labels = ""

    def phrase_lines(self, phrase: Phrase) -> Iterator[Line]:
        """The lines of a phrase. A label without comments waits for the statement behind it."""
        parts, labels = phrase.parts(), self.labels
        if labels and self.joins_labels(phrase):
            parts, self.labels = [labels, *parts], ""
        else:
            yield from self.label_line()
        if phrase.is_parted and not labels:
            yield Line("")
        if phrase.start.is_label and not phrase.comments:
            self.labels = text_of(parts)
        else:
            yield from filled(phrase.start.level, parts)

    def joins_labels(self, phrase: Phrase) -> bool:
        """Whether a phrase is put on the line of the labels before it."""
        if phrase.start.level != LABEL_LEVEL or phrase.has_comments_inside:
            return False
        line = indented(LABEL_LEVEL, f"{self.labels} {text_of(phrase.parts())}")
        return len(line) <= WIDTH


def text_of(parts: Sequence[Union[str, Comment]]) -> str:
    """Parts on one line, without their comments."""
    return " ".join(part for part in parts if isinstance(part, str))


def is_joining(part: str) -> bool:
    """Whether a part joins a relation to the one before."""
    return part.split(" ", 1)[0] in JOINING


def indented(level: int, text: str) -> str:
    return " " * (STEP * level) + text


def aligned(lines: Sequence[Line]) -> Iterator[str]:
    """Lines with comments behind them, which begin at one column."""
    width = max((len(line.text) for line in lines), default=0)
    return (f"{line.text:<{width}} {line.comment}" for line in lines)


def filled(level: int, parts: Sequence[Union[str, Comment]]) -> Iterator[Line]:
    """Parts as lines of at most WIDTH columns, where they and their comments allow it. A condition
    that is longer has a line for each of its relations.
    """
    text, blanks = "", indented(level, "")
    further = blanks + " " * FURTHER
    is_long = len(blanks) + len(text_of(parts)) > WIDTH
    for part in parts:
        if isinstance(part, Comment):
            if not part.is_alone:
                yield Line(text, part.text)
            else:
                if text:
                    yield Line(text)
                yield Line(further + part.text)
            text, blanks = "", further
        elif not text:
            text = blanks + part
        elif len(text) + 1 + len(part) <= WIDTH and not (is_long and is_joining(part)):
            text += f" {part}"
        else:
            yield Line(text)
            text, blanks = further + part, further
    if text:
        yield Line(text)


def format_text(data: bytes) -> Formatted:
    """A text as the layout has it, or the faults of its words and of its grammar. Rules on names
    and numbers are not looked at.
    """
    if len(data) > MOST_BYTES:
        return refused(f"the text has more than {MOST_BYTES:,} bytes: cut comments and blanks")
    source = Text(data, MOST_FAULTS)
    reader = PhraseReader(source)
    reader.read()
    faults = sorted(source.faults + reader.grammar)
    if faults:
        return Formatted(None, faults)
    text = bytearray()
    for line in Layout(source.text, reader.starts).lines():
        text += f"{line}\n".encode("latin-1")
        if len(text) > MOST_BYTES:
            return refused(f"in the layout it has more than {MOST_BYTES:,} bytes: make two of it")
    if not is_same_text(source.text, text.decode("latin-1")):
        raise OtherText
    return Formatted(bytes(text), [])


def refused(why: str) -> Formatted:
    """What is said of a text that is too large."""
    return Formatted(None, [Told(0, TOO_LARGE, why)])


def is_same_text(one: str, other: str) -> bool:
    """Whether two texts have the same words, and so the same tree, and between them the same
    comments, but for blanks at the ends of these.
    """
    return all(first == second for first, second in zip_longest(content(one), content(other)))


def content(text: str) -> Iterator[str]:
    """The words and the comments of a text, in their order."""
    return (found[0].rstrip(BLANKS) for found in LEXEME.finditer(text) if found[0] != "\n")
