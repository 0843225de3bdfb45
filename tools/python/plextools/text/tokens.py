"""Exchange texts as bytes: what is no token in them, where a byte stands, and the words of a piece.

A `Text` keeps a text twice, byte for byte: as it is, and `clean`, in which comments and strange
bytes are blank. Small letters are made capital ones there, so that the rest of the text can be read
as it is meant. A `Piece` is the part of a text up to the next semicolon. Texts have up to 16 MiB,
so no object is made for a byte or a token before someone asks for it.
"""
import re
from itertools import islice
from typing import Dict, List, Match, NamedTuple, Optional, Pattern

from plextools.limits import MOST_BYTES, MOST_DIGITS, MOST_LETTERS, NUMBERS

KEYWORDS = (
    "SIGNAL SINGLE COMBINED BUFFERED DIRECT OUTSIDE DATA ANSWER BLOCK DECLARE VARIABLE TEMPORARY "
    "FILE FORLOPP FIELD WIDTH SIZE INIT SURVEY RECEIVE SEND PROGRAM END GOTO IF THEN ELSE FI CASE "
    "IS WHEN DO OTHERWISE ESAC ON FROM UPTO NO FOR FIRST IN WHERE ENTER WITH REFERENCE NEW "
    "RETRIEVE RETURN TRANSFER EXIT SEIZE FREE AND OR MOD CLEAR"
).split()
MARKS = "; , ( ) = + - * / < > <= >= <>".split()
RELATIONS = ["=", "<>", "<", "<=", ">", ">="]
MOST_SHOWN = 40

TOKEN = re.compile(r"[A-Z][A-Z0-9]*|[0-9]+|<=|>=|<>|[;,()=+\-*/<>]")
THOUSAND_TOKENS = re.compile(
    r"(?:[ \t\r\n]*(?:[A-Z][A-Z0-9]*|[0-9]+|<=|>=|<>|[;,()=+\-*/<>])){1000}"
)
COMMENT = re.compile(r"![^\n]*")
STRANGE = re.compile(r"[^A-Z0-9;,()=+*/<> \t\r\n-]")
SMALL_WORD = re.compile(r"[A-Za-z_][A-Za-z0-9_]*")
STRANGE_RUN = re.compile(r"[^A-Za-z0-9_;,()=+*/<> \t\r\n-]+")
STRING = re.compile(r"\"[^\"\n]*\"|'[^'\n]*'")
LONG_NUMBER = re.compile(r"(?<![A-Z0-9])[0-9]{10,}")
LONG_NAME = re.compile(r"(?<![A-Z])[A-Z][A-Z0-9]{31,}")
GOOD = set("ABCDEFGHIJKLMNOPQRSTUVWXYZ0123456789;,()=+*/<> \t\r\n-")
STRANGE_CODES = [code for code in range(256) if chr(code) not in GOOD]
MADE_GOOD = {
    code: (chr(code).upper() if chr(code).upper() in GOOD else " ") for code in STRANGE_CODES
}
MEANT = {
    ":": "; = assigns, and ) ends a label",
    "[": "; a field is NAME(POINTER)",
    "#": "; there is no # in this language",
}
STEP = 2**16


def found_at(pattern: Pattern[str], text: str, place: int) -> Match[str]:
    """What a pattern finds at a place at which it is known to fit."""
    found = pattern.match(text, place)
    assert found
    return found


def value_of(digits: str) -> Optional[int]:
    """The value of a number, or None where it has no value in the language."""
    if len(digits) > MOST_DIGITS:
        return None
    value = int(digits)
    return value if value < NUMBERS else None


def shown(text: str) -> str:
    """A piece of a text as a sentence shows it: not too long, and with no byte that a terminal
    would not print.
    """
    short = text if len(text) <= MOST_SHOWN else text[: MOST_SHOWN - 3] + "..."
    return "".join(letter if " " <= letter <= "~" else f"\\x{ord(letter):02X}" for letter in short)


class Told(NamedTuple):
    """What is said of a place in a text: a byte, a rule or the word of a warning, a sentence."""

    place: int
    rule: str
    sentence: str


class StrangeRun(NamedTuple):
    """Bytes that begin no token: where they begin, what they are, what is read in their place, and
    what is said of them.
    """

    start: int
    text: str
    mended: str
    sentence: str


class Lines:
    """Finds the line and the column of a byte, both from 1, in a text of any length."""

    def __init__(self, text: str) -> None:
        self.text = text
        self.before, self.known = [0], (0, 0)

    def line(self, place: int) -> int:
        step = min(place, len(self.text)) // STEP
        while len(self.before) <= step:
            last = len(self.before)
            self.before.append(
                self.before[-1] + self.text.count("\n", (last - 1) * STEP, last * STEP)
            )
        return 1 + self.before[step] + self.text.count("\n", step * STEP, place)

    def start(self, place: int) -> int:
        """Where the line of a byte begins."""
        start, end = self.known
        if not start <= place <= end:
            start = self.text.rfind("\n", 0, place) + 1
            end = self.text.find("\n", place)
            self.known = start, len(self.text) if end < 0 else end
        return start

    def column(self, place: int) -> int:
        return 1 + place - self.start(place)


class Text:
    """A text, and its faults that are none of the grammar: each with its place, its rule and a
    sentence. `meant` has names that are read otherwise than they are written.
    """

    def __init__(self, data: bytes, most: int) -> None:
        self.size, self.most = len(data), most
        self.text = data[:MOST_BYTES].decode("latin-1")
        self.lines = Lines(self.text)
        self.faults: List[Told] = []
        self.left_out: Dict[str, int] = {}
        self.meant: Dict[str, str] = {}
        self.clean = (
            COMMENT.sub(lambda found: " " * len(found[0]), self.text)
            if "!" in self.text
            else self.text
        )
        self.mend_bytes()
        self.look_at_numbers()
        self.look_at_names()

    def tell(self, place: int, rule: str, sentence: str) -> None:
        self.faults.append(Told(place, rule, sentence))

    def has_room(self, rule: str, found: int) -> bool:
        """Whether one more fault of a rule is told, of which so many have been found."""
        if found < self.most:
            return True
        self.left_out[rule] = self.left_out.get(rule, 0) + 1
        return False

    def mend_bytes(self) -> None:
        """Bytes that begin no token are told, and are made what was meant in `clean`."""
        parts: List[str] = []
        done, found = 0, STRANGE.search(self.clean)
        while found:
            if len(self.faults) == self.most:
                rest = self.clean[done:]
                self.left_out["BADBYTE"] = len(
                    re.findall(STRANGE.pattern + "+", rest[found.start() - done :])
                )
                parts.append(rest.translate(MADE_GOOD))
                done = len(self.clean)
                break
            run = self.strange_run(found.start())
            self.tell(found.start(), "BADBYTE", run.sentence)
            parts += [self.clean[done : run.start], run.mended]
            done = run.start + len(run.text)
            found = STRANGE.search(self.clean, done)
        if parts:
            self.clean = "".join(parts) + self.clean[done:]

    def strange_run(self, place: int) -> StrangeRun:
        """Where the strange thing at a byte begins, what it is, what it is made, and what is said
        of it.
        """
        letter = self.clean[place]
        if letter in "\"'":
            string = STRING.match(self.clean, place)
            if string:
                told = f"{shown(string[0])}: there are no strings; send the number of a text"
                return StrangeRun(place, string[0], "0".ljust(len(string[0])), told)
        if not letter.isascii() or not (letter.islower() or letter == "_"):
            run = found_at(STRANGE_RUN, self.clean, place)[0]
            return StrangeRun(place, run, " " * len(run), self.strange_bytes(run))
        start = place
        while start and self.clean[start - 1] in GOOD and self.clean[start - 1].isalnum():
            start -= 1
        while self.clean[start].isdigit():
            start += 1
        word = found_at(SMALL_WORD, self.clean, start)[0]
        mended = word.upper().replace("_", "X")
        if "_" in word:
            self.meant[mended] = word
            told = f"{shown(word)}: a name has capital letters and digits alone, and no _"
        else:
            meant = f"; {mended} is the word of the language" if mended in KEYWORDS else ""
            told = f"{shown(word)} has small letters: words are in capital letters{meant}"
        return StrangeRun(start, word, mended, told)

    def strange_bytes(self, run: str) -> str:
        if run[:1] == ".":
            return "a point: numbers have digits alone, and no text needs one"
        if all(" " < letter <= "~" for letter in run):
            return f"{shown(run)} begins no word, number or mark{MEANT.get(run[0], '')}"
        if len(run) == 1:
            return f"the byte 0x{ord(run):02X} outside of a comment"
        return f"{len(run)} bytes from 0x{ord(run[0]):02X} on, outside of a comment"

    def look_at_numbers(self) -> None:
        found = 0
        for number in LONG_NUMBER.finditer(self.clean):
            digits = number[0]
            if value_of(digits) is None and self.has_room("BADNUMBER", found):
                found += 1
                why = "4294967295 is the largest"
                if len(digits) > MOST_DIGITS:
                    why = f"it has {len(digits)} digits, and {MOST_DIGITS} are the most"
                self.tell(
                    number.start(), "BADNUMBER", f"{shown(digits)} is no number of 32 bits: {why}"
                )

    def look_at_names(self) -> None:
        found = 0
        for name in LONG_NAME.finditer(self.clean):
            if self.has_room("LONGNAME", found):
                found += 1
                letters = f"{len(name[0])} letters and digits, and {MOST_LETTERS} are the most"
                self.tell(name.start(), "LONGNAME", f"{shown(name[0])} has {letters}")


class Piece:
    """The part of a text up to the next semicolon or up to its end: its words, the last of which is
    `;` or empty.
    """

    __slots__ = ("source", "start", "end", "words", "first", "marks", "step", "places")

    def __init__(self, source: Text, start: int, end: int) -> None:
        self.source, self.start, self.end = source, start, end
        self.words: List[str] = TOKEN.findall(source.clean, start, end)
        self.words.append(source.clean[end : end + 1])
        self.first: Optional[int] = None
        self.marks: Optional[List[int]] = None
        self.step: Optional[int] = None
        self.places: List[int] = []

    def place(self, index: int) -> int:
        """Where a word stands in the text. The places of a thousand words are found at once."""
        if index >= len(self.words) - 1:
            return self.end
        if not index:
            if self.first is None:
                found = TOKEN.search(self.source.clean, self.start)
                assert found
                self.first = found.start()
            return self.first
        step = index // 1000
        if step != self.step:
            self.find(step)
        return self.places[index - 1000 * step]

    def find(self, step: int) -> None:
        clean = self.source.clean
        if self.marks is None:
            self.marks = [self.start]
        while len(self.marks) <= step:
            self.marks.append(found_at(THOUSAND_TOKENS, clean, self.marks[-1]).end())
        words = islice(TOKEN.finditer(clean, self.marks[step], self.end), 1000)
        self.step, self.places = step, [word.start() for word in words]


class Token:
    """A word of a piece: its text, and which one it is, from 0."""

    __slots__ = ("text", "index", "piece")

    def __init__(self, text: str, index: int, piece: Piece) -> None:
        self.text, self.index, self.piece = text, index, piece

    @property
    def place(self) -> int:
        return self.piece.place(self.index)

    @property
    def line(self) -> int:
        return self.piece.source.lines.line(self.place)
