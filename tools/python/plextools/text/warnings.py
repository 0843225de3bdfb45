"""What is odd in an exchange text, though it breaks no rule: its place, a word that switches it
off, and a sentence.
"""
import re
from typing import Dict, Iterator, List, NamedTuple, Optional, Set

from plextools.text.faults import Block, Checker, Declared, Sentence
from plextools.text.hints import near
from plextools.text.grammar import Node, Phrases, StatementFault
from plextools.text.reader import Frame
from plextools.text.tokens import COMMENT, KEYWORDS, Piece, Text, Told, Token, shown
from plextools.text.ways import odd_ways

WARNINGS = {
    "RUNSON": "an entry runs on into the next ENTER",
    "SWALLOWED": "a comment has a statement in it that was perhaps meant to be one",
    "UNUSED": "nothing uses what is declared, or a line of a survey",
    "NOFREE": "records of a file are seized, and no FREE gives one back",
    "UNREACHED": "nothing reaches a statement, as EXIT, GOTO or the like is before it",
    "RUNSINTO": "the way behind a SEND to the outside runs on into a label with another one",
    "ENDLESS": "no way leaves a loop by GOTO",
    "TOOWIDE": "a constant is too large for the WIDTH of what it is stored in",
    "NORECORD": "a constant record number is not below the SIZE of the file",
    "BYZERO": "a division by the constant 0, or MOD 0",
    "CONSTANT": "a relation is always true, or never",
    "NOTURN": "the bounds of a loop leave it no turn",
    "NEVERREAD": "nothing reads a value that a temporary gets",
    "LOST": "a record is seized on a way that ends without FREE, and its number is not kept",
    "KEYWORD": "a name is a keyword but for a letter",
    "ODDAS": "AS names a line that ends in AS itself",
    "NOJOB": "a filter names a signal, a block or a forlopp of which there is no job",
}
LONG_KEYWORDS = [word for word in KEYWORDS if len(word) > 5]
IN_COMMENT = re.compile(r"(?<![A-Za-z0-9_])[A-Z][A-Z0-9]*")
END_IN_COMMENT = re.compile(r"!.*!\s*((?:FI|NO|ESAC)\s*;)\s*$")
ALONE = ("FI", "NO", "ESAC", "DECLARE", "SURVEY", "PROGRAM")
MOST_TRIED, MOST_COMMENTS, MOST_LOOKED_AT = 20, 20000, 2**21


class Inside(NamedTuple):
    """A phrase in a comment, and where it begins there."""

    place: int
    phrase: str


class Begun(NamedTuple):
    """An entry that has begun: its signal, and the place of its ENTER."""

    name: str
    place: int


class Use(NamedTuple):
    """A signal that a statement names, with the word before it."""

    way: str
    name: str


def statement_in(comment: str) -> Optional[Inside]:
    """Where a whole phrase stands in a comment, and the phrase; or None."""
    tried = 0
    for word in IN_COMMENT.finditer(comment):
        end = comment.find(";", word.end())
        tried += 1
        if end < 0 or tried > MOST_TRIED:
            break
        phrase = comment[word.start() : end + 1]
        if "!" not in phrase and is_phrase(phrase):
            return Inside(word.start(), phrase)
    return end_in(comment)


def end_in(comment: str) -> Optional[Inside]:
    """The end of a statement that stands alone behind the second ! of a comment."""
    found = END_IN_COMMENT.search(comment)
    return Inside(found.start(1), found[1]) if found else None


def is_phrase(text: str) -> bool:
    source = Text(text.encode("latin-1"), 1)
    reader, piece = Phrases(), Piece(source, 0, len(text) - 1)
    if source.faults or piece.words[0] in ALONE:
        return False
    reader.begin(piece)
    node = reader.phrase()
    return (
        node.stop is None
        and node.kind not in ("strange", "label")
        and reader.at == len(piece.words)
    )


def without_a_letter(word: str) -> Iterator[str]:
    """A word without each of its letters."""
    return (word[:place] + word[place + 1 :] for place in range(len(word)))


SHORTENED = frozenset(short for word in LONG_KEYWORDS for short in without_a_letter(word))


def is_near_keyword(name: str) -> Optional[str]:
    if len(name) < 5 or name in KEYWORDS:
        return None
    if name not in SHORTENED and SHORTENED.isdisjoint(without_a_letter(name)):
        return None
    meant = near(name, [word for word in LONG_KEYWORDS if len(name) in (len(word), len(word) - 1)])
    return meant if meant and differ_once(name, meant) else None


def differ_once(name: str, word: str) -> bool:
    """Whether one letter was changed or left out, or two neighbours were swapped."""
    if len(name) < len(word):
        return name in without_a_letter(word)
    places = [place for place in range(len(word)) if word[place] != name[place]]
    if len(places) == 1:
        return True
    swapped = len(places) == 2 and places[1] == places[0] + 1
    return swapped and name[places[0]] == word[places[1]] and name[places[1]] == word[places[0]]


class Oddities(Checker):
    """Finds faults as a Checker does, and oddities beside them."""

    def __init__(self, source: Text) -> None:
        super().__init__(source)
        self.odd: List[Told] = []
        self.odd_counts: Dict[str, int] = {}
        self.entry: Optional[Begun] = None
        self.seized: Dict[str, int] = {}
        self.freed: Set[str] = set()
        self.used_signals: Set[Use] = set()

    def warn(self, place: int, word: str, sentence: Sentence) -> None:
        count = self.odd_counts[word] = self.odd_counts.get(word, 0) + 1
        if count <= self.most:
            told = sentence if isinstance(sentence, str) else sentence()
            self.odd.append(Told(place, word, told))

    def oddities(self) -> List[Told]:
        """All that is odd, behind `check`, in the order of the text."""
        self.look_at_comments()
        if not self.grammar and not self.source.faults:
            self.look_at_signals()
            self.look_at_ways()
        return sorted(self.odd)

    def look_at_ways(self) -> None:
        """What is odd in the ways through a text that breaks no rule and is not very large."""
        if not self.found and self.source.size <= MOST_LOOKED_AT:
            for place, word, sentence in self.ways_of(self.source.clean):
                self.warn(place, word, sentence)

    def ways_of(self, clean: str) -> List[Told]:
        """The warnings of the ways through a text."""
        return odd_ways(clean)

    def odd_left_out(self) -> Dict[str, int]:
        return {
            word: count - self.most for word, count in self.odd_counts.items() if count > self.most
        }

    def name_found(self, token: Token) -> None:
        meant = is_near_keyword(token.text)
        if meant:
            self.warn(
                token.place, "KEYWORD", f"{token.text} is a name here; {meant} is the keyword"
            )

    # what the reader finds

    def found_signal(self, node: Node) -> None:
        super().found_signal(node)
        for one in (node, getattr(node, "answer", None)):
            if one is not None and hasattr(one, "name"):
                self.name_found(one.name)

    def found_block(self, node: Optional[Node]) -> None:
        super().found_block(node)
        self.entry, self.seized, self.freed = None, {}, set()
        if node and self.block.name:
            self.name_found(node.name)

    def found_declaration(self, node: Node) -> None:
        super().found_declaration(node)
        self.name_found(node.name)

    def learn(self, node: Node) -> List[StatementFault]:
        faults = super().learn(node)
        if node.kind == "SEIZE" and hasattr(node, "file"):
            self.seized.setdefault(node.file.text, node.first.place)
        elif node.kind == "FREE" and hasattr(node, "file"):
            self.freed.add(node.file.text)
        if node.kind in ("SEND", "TRANSFER", "RETURN", "RETRIEVE") and hasattr(node, "signal"):
            self.used_signals.add(Use(node.kind, node.signal.text))
        return faults

    def found_statement(self, node: Node, shift: int, frame: Frame) -> None:
        super().found_statement(node, shift, frame)
        if node.kind != "ENTER":
            return
        if self.entry and not frame.ended:
            name, place = self.entry
            entry = f"the entry of {name}, line {self.line(place)}"
            sentence = f"{entry}, runs on into this one; EXIT before it would end the job"
            self.warn(node.first.place + shift, "RUNSON", sentence)
        if hasattr(node, "signal"):
            self.entry = Begun(node.signal.text, node.first.place + shift)

    def found_block_end(self, node: Optional[Node], shift: int) -> None:
        super().found_block_end(node, shift)
        if self.grammar or self.source.faults:
            return
        block = self.block
        for name, declared in block.names.items():
            if (
                declared.kind == "file"
                and declared.forlopp
                and name in self.seized
                and name not in self.freed
            ):
                line = self.line(self.seized[name])
                sentence = (
                    f"SEIZE takes records of {name} on line {line}, and no FREE gives one back"
                )
                self.warn(declared.place, "NOFREE", sentence)
            self.look_at_use(block, name, declared)
        for name, place in block.labels.items():
            if name not in block.gotos:
                self.warn(place, "UNUSED", f"no GOTO goes to the label {name}")

    def look_at_use(self, block: Block, name: str, declared: Declared) -> None:
        used = block.used
        if declared.kind == "file":
            if name not in used and not any(field in used for field in declared.fields):
                self.warn(declared.place, "UNUSED", f"no statement uses the file {name}")
        elif name not in used and not (declared.file and self.is_unused_file(block, declared.file)):
            self.warn(declared.place, "UNUSED", f"no statement uses the {declared.kind} {name}")

    def is_unused_file(self, block: Block, file: Declared) -> bool:
        """Whether nothing of a file is used, which is told of the file alone."""
        return file.name not in block.used and not any(field in block.used for field in file.fields)

    # signals and comments

    def look_at_signals(self) -> None:
        sent = {name for kind, name in self.used_signals if kind in ("SEND", "TRANSFER")}
        in_blocks = {
            name for block in self.blocks for name in [*block.receives, *block.sends, *block.enters]
        }
        for name, signal in self.signals.items():
            if signal.kind != "ANSWER" and name not in in_blocks and name not in sent:
                self.warn(signal.place, "UNUSED", f"no block receives or sends the signal {name}")
            if (
                signal.kind == "COMBINED"
                and name in sent
                and Use("RETURN", signal.answer or "") not in self.used_signals
            ):
                self.warn(
                    signal.place,
                    "UNUSED",
                    f"no statement returns {signal.answer}, the answer of {name}",
                )
        for block in self.blocks:
            sent_here = {name for _, name, _ in block.sent}
            for name, place in block.sends.items():
                if name not in sent_here:
                    self.warn(place, "UNUSED", f"no statement of {block.told()} sends {name}")
            for name, place in block.receives.items():
                if self.signals[name].kind != "BUFFERED" and name not in sent:
                    self.warn(
                        place, "UNUSED", f"no block sends {name}, and no line of a signal file can"
                    )
            for place, name, first in block.survey_twice:
                self.warn(place, "UNUSED", f"this line stands on line {self.line(first)} already")

    def look_at_comments(self) -> None:
        text = self.source.text
        if "!" not in text:
            return
        for number, found in enumerate(COMMENT.finditer(text)):
            comment = found[0]
            if ";" not in comment or number > MOST_COMMENTS:
                continue
            inside = statement_in(comment)
            if not inside:
                continue
            place, phrase = inside
            starts_line = not text[self.source.lines.start(found.start()) : found.start()].strip()
            if not starts_line or comment[:place].strip("! \t"):
                part = f"{shown(phrase)} is a part of it"
                sentence = f"the comment goes on to the end of its line, and {part}"
                self.warn(found.start(), "SWALLOWED", sentence)
