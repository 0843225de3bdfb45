"""What is said beside the sentences of the faults of signal files, tables and filters: what is
marked, where the exchange text declares what a line names, and what cures it.
"""
import re
from typing import List, Optional, Tuple

from plextools.text.finding import Advice, Edit, Note, Span
from plextools.text.hints import near
from plextools.text.signal_files import PARTS, WORD, Filter, LineFile

SMALL = ("AFTER", "EVERY", "FROM", "TIMES", "NEW", "NONE", "AS", "SHOW", *PARTS)
BY_RANK = re.compile(r"; signal line \d+ is line (\d+)$")
LABELS = {
    "UNKNOWNSIGNAL": "no such signal",
    "UNKNOWNBLOCK": "no such receiver",
    "FALLINGCOUNT": "below the one before",
    "BADAS": "no earlier line of a forlopp",
    "BADRANGE": "out of range",
    "TOOMANY": "too many",
    "ODDAS": "a line with AS",
    "NOJOB": "no job of it",
}
CURES = {
    "FALLINGCOUNT": "put the lines in the order of their counts",
    "TOOMANY": "run the signals in several runs",
}


class LineAdviser:
    """Says what is to be done about the faults of a file of lines. The exchange text is file 0."""

    def __init__(self, file: LineFile, number: int) -> None:
        self.file, self.number, self.text = file, number, file.text
        self.exchange = file.exchange

    def of(self, rule: str, place: int, sentence: str) -> Advice:
        span = self.span(place)
        word = self.text[span.start : span.end]
        edits, cure = self.edits(rule, span, word, sentence)
        label = LABELS.get(rule, "the line ends here" if span.start == span.end else "")
        return Advice(span, label, self.notes(rule, place), cure or CURES.get(rule, ""), edits)

    def span(self, place: int) -> Span:
        end = self.text.find("\n", place)
        found = WORD.match(self.text, place, len(self.text) if end < 0 else end)
        return Span(place, found.end() - found[0].endswith("\r") if found else place)

    def edits(
        self, rule: str, span: Span, word: str, sentence: str
    ) -> Tuple[Tuple[Edit, ...], str]:
        if rule == "BADLINE" and word[:1] == "!":
            return self.without_comment(span.start)
        meant = self.meant(rule, span, word, sentence)
        as_it_is = f"write {'AS ' if rule in ('BADAS', 'ODDAS') else ''}{meant}"
        return ((Edit(*span, meant),), as_it_is) if meant else ((), "")

    def without_comment(self, place: int) -> Tuple[Tuple[Edit, ...], str]:
        """A comment in a line goes, or begins with the first byte of its line."""
        start, end = self.file.lines.start(place), self.text.find("\n", place)
        end = len(self.text) if end < 0 else end
        line = self.text[start:place].rstrip(" \t")
        if not line:
            return (Edit(start, place, ""),), "begin it with the first byte of the line"
        comment = len(self.text[place:end].rstrip("\r"))
        edits = (Edit(start + len(line), place + comment, ""),)
        return edits, "leave it out, or put it behind the last line, where AS counts it for none"

    def meant(self, rule: str, span: Span, word: str, sentence: str) -> Optional[str]:
        """What was probably meant in the place of a word."""
        if rule == "BADLINE":
            return self.meant_in_form(word)
        if rule == "UNKNOWNSIGNAL":
            return near(word.upper(), self.signals()) or self.in_capitals(word, self.signals())
        if rule == "UNKNOWNBLOCK":
            return self.meant_block(span, word)
        by_rank = BY_RANK.search(sentence) if rule in ("BADAS", "ODDAS") else None
        return by_rank[1] if by_rank else None

    def meant_in_form(self, word: str) -> Optional[str]:
        if word.upper() != word and word.upper() in SMALL:
            return word.upper()
        if word[:1] == "+" and word[1:].isdigit():
            return word[1:]
        return word.replace(",", " ").strip() if re.fullmatch(r"\d+(,\d+)*,?", word) else None

    def in_capitals(self, word: str, names: List[str]) -> Optional[str]:
        return word.upper() if word != word.upper() and word.upper() in names else None

    def signals(self) -> List[str]:
        signals = self.exchange.signals.values()
        is_filter = isinstance(self.file, Filter)
        return [one.name for one in signals if is_filter or one.kind == "BUFFERED"]

    def meant_block(self, span: Span, word: str) -> Optional[str]:
        blocks = list(self.exchange.block_names)
        signal = self.word_before(span.start)
        there = [name for name in blocks if signal in self.exchange.block_names[name].receives]
        if len(there) == 1 and not isinstance(self.file, Filter):
            return there[0]
        return near(word.upper(), there or blocks) or self.in_capitals(word, blocks)

    def word_before(self, place: int) -> str:
        words = self.text[max(0, place - 500) : place].split("\n")[-1].split()
        return words[-1] if words else ""

    def notes(self, rule: str, place: int) -> Tuple[Note, ...]:
        """Where the exchange text declares what a line names."""
        if rule not in ("WRONGDATA", "UNKNOWNSIGNAL", "UNKNOWNBLOCK"):
            return ()
        end = self.text.find("\n", place)
        word = self.text[place : len(self.text) if end < 0 else end].split(" ")[0].strip()
        if rule == "UNKNOWNBLOCK":
            block = self.exchange.block_names.get(word)
            return (self.declared(word, block.place),) if block else ()
        signal = self.exchange.signals.get(word)
        return (self.declared(word, signal.place),) if signal else ()

    def declared(self, name: str, place: int) -> Note:
        return Note(f"{name} is declared here", 0, Span(place, place + len(name)))
