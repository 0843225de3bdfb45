"""All faults of signal files, of tables of periodic signals and of filters, and what is odd in a
signal file or a filter.

Each of these is read line by line, as docs/FORMATS.md says, against what a Checker has found in the
exchange text. Of each faulty line all is told that can be told, in the order in which the program
would tell it. The faults are in `found`: the line, the order in the line, the place of the byte,
the rule and a sentence.
"""
import re
from itertools import islice
from typing import Dict, Iterable, List, Mapping, NamedTuple, Optional, Sequence, Union

from plextools.limits import MOST_BYTES, MOST_PERIODIC_SIGNALS, NUMBERS
from plextools.text.faults import Block, Checker, Sentence, Signal, counted
from plextools.text.hints import any_of, near
from plextools.text.tokens import KEYWORDS, Lines, Told, shown, value_of

WORD = re.compile(r"[^ \t]+")
NEW_FORLOPP = re.compile(r"\bNEW\s+FORLOPP\b")
LINE_RULES = [
    "BADLINE",
    "UNKNOWNSIGNAL",
    "UNKNOWNBLOCK",
    "WRONGDATA",
    "FALLINGCOUNT",
    "BADAS",
    "BADRANGE",
    "TOOMANY",
]
SHOW_RULES = ["BADLINE", "UNKNOWNBLOCK", "UNKNOWNSIGNAL"]
KINDS = {
    "DIRECT": "a direct signal",
    "COMBINED": "a combined signal",
    "OUTSIDE": "an outside signal",
}
WITHOUT_JOBS = {**KINDS, "ANSWER": "an answer"}
SKIPPED, IN_FORLOPP, IN_NONE, BY_AS, BROKEN = range(5)
LATE_COMMENT = "a comment behind a line: ! begins one only as the first byte of a line"
NO_AS = "a period ends in NEW or NONE, and in no AS"
PARTS = ["BLOCK", "SIGNAL", "FORLOPP", "FROM", "UPTO", "FAULTS"]


def number_of(word: str) -> Optional[int]:
    """The value of a number of a line, or None."""
    return value_of(word) if word.isdigit() and word.isascii() else None


def not_a_number(word: str, what: str) -> str:
    """What is said of a word in the place of a number."""
    if word[:1] in ("-", "+") and word[1:].isdigit():
        return f"{shown(word)} has a sign: {what} is 0 to 4294967295"
    if word.isdigit() and word.isascii():
        return (
            f"{shown(word)} is too large: {what} has 10 digits at most, and is 4294967295 at most"
        )
    if "," in word:
        return f"{shown(word)}: blanks stand between values, and no commas"
    if word[:1] == "!":
        return LATE_COMMENT
    return f"{what} is a number; {shown(word)} is none"


class Part(NamedTuple):
    """A part of a line: a word that stands there, a number or a name; and what it is."""

    kind: str
    what: str


class Fault(NamedTuple):
    """A fault of a line: the line, which rule of a line is looked at first, the place of the byte,
    the rule and a sentence.
    """

    number: int
    order: int
    place: int
    rule: str
    sentence: str


class Misfit(NamedTuple):
    """Where a line is not of its form: the first word that does not fit, and a sentence."""

    at: int
    sentence: str


NAMES = [Part("name", "the name of the signal"), Part("name", "the name of the block")]


class LineFile:
    """A file of lines of one kind. Classes over it look at each line that is not skipped; `kinds`
    has what each is.
    """

    rules = LINE_RULES

    def __init__(self, data: bytes, exchange: Checker, most: int) -> None:
        self.exchange, self.most = exchange, most
        self.is_too_large = len(data) > MOST_BYTES
        self.text = "" if self.is_too_large else data.decode("latin-1")
        self.lines = Lines(self.text)
        self.found: List[Fault] = []
        self.odd: List[Told] = []
        self.counts: Dict[str, int] = {}
        self.number = self.place = 0
        self.kinds = bytearray(1)

    def check(self) -> List[Fault]:
        if self.is_too_large:
            told = f"the file has more than {MOST_BYTES:,} bytes"
            self.found.append(Fault(0, 0, 0, "TOOLARGE", told))
            return self.found
        at, text = 0, self.text
        for line in text.split("\n"):
            self.number += 1
            self.place, end = at, at + len(line)
            at = end + 1
            self.kinds.append(SKIPPED)
            if not line:
                continue
            if line[-1:] == "\r" and end < len(text):
                line = line[:-1]
            words = [word for word in line.replace("\t", " ").split(" ") if word]
            if words and line[:1] != "!":
                self.take_line(words)
        self.found.sort()
        return self.found

    def take_line(self, words: List[str]) -> None:
        """Looks at the words of a line."""
        raise NotImplementedError

    def tell(self, index: int, rule: str, sentence: Sentence) -> None:
        """A fault at a word of the line, by its number from 0; behind the last word where there is
        no such word.
        """
        count = self.counts[rule] = self.counts.get(rule, 0) + 1
        if count <= self.most:
            told = sentence if isinstance(sentence, str) else sentence()
            order, place = self.rules.index(rule), self.word_place(index)
            self.found.append(Fault(self.number, order, place, rule, told))

    def left_out(self) -> Dict[str, int]:
        return {rule: count - self.most for rule, count in self.counts.items() if count > self.most}

    def word_place(self, index: int) -> int:
        end = self.text.find("\n", self.place)
        end = len(self.text) if end < 0 else end
        word = next(islice(WORD.finditer(self.text, self.place, end), index, None), None)
        return (
            word.start() if word else self.place + len(self.text[self.place : end].rstrip(" \t\r"))
        )

    # what lines of signals have in common

    def form(
        self, words: List[str], parts: Sequence[Part], count: int, ends: List[str]
    ) -> Optional[Misfit]:
        """Where a line is not of its form."""
        for place, (kind, what) in enumerate(parts):
            if place >= len(words):
                return Misfit(place, f"{what} is missing")
            word = words[place]
            if word[:1] == "!" and place:
                return Misfit(place, not_a_number(word, what))
            if kind == "word" and word != what:
                return Misfit(place, self.wrong_word(word, what, place))
            if kind == "number" and number_of(word) is None:
                return Misfit(place, not_a_number(word, what))
        for place in range(count, len(words)):
            if words[place][:1] == "!":
                return Misfit(place, not_a_number(words[place], ""))
        last = len(words) - 1
        by_as = "AS" in ends and len(words) >= count + 2 and words[-2] == "AS"
        if by_as:
            last -= 1
        for place in range(count, last):
            if number_of(words[place]) is None:
                return Misfit(place, self.wrong_value(words[place], ends))
        if by_as:
            if number_of(words[-1]) is None:
                return Misfit(last + 1, not_a_number(words[-1], "the line after AS"))
        elif last < count or words[last] not in ("NEW", "NONE"):
            return Misfit(max(last, count), self.wrong_end(words, count, last, ends))
        return None

    def wrong_word(self, word: str, wanted: str, place: int) -> str:
        if word.upper() == wanted:
            return f"{shown(word)} has small letters: {wanted}"
        if word[:1] == "!":
            return "a comment begins with the first byte of its line; blanks stand before this one"
        if not place:
            return f"a line begins with {wanted}; {shown(word)} stands here"
        return f"{wanted} is wanted here; {shown(word)} stands here"

    def wrong_value(self, word: str, ends: List[str]) -> str:
        if word == "AS" and "AS" not in ends:
            return NO_AS
        if word in ("NEW", "NONE", "AS"):
            return f"{word} is the end of a line, and more words stand behind it"
        if word.upper() in ("NEW", "NONE", "AS"):
            return f"{shown(word)} has small letters: {word.upper()}"
        return not_a_number(word, "a value")

    def wrong_end(self, words: List[str], count: int, last: int, ends: List[str]) -> str:
        all_ends = f"the line ends in {any_of(ends)}"
        if last < count:
            return f"the last word is missing: {all_ends}"
        word = words[last]
        if word.upper() in ("NEW", "NONE"):
            return f"{shown(word)} has small letters: {word.upper()}"
        if word == "AS":
            return "the number of a line is missing behind AS" if "AS" in ends else NO_AS
        if number_of(word) is not None:
            if "AS" not in ends and words[last - 1] == "AS":
                return NO_AS
            return f"the last word is missing behind {shown(word)}: {all_ends}"
        meant = near(word.upper(), ["NEW", "NONE"])
        return f"{all_ends}; {shown(word)} stands there" + (f"; {meant} is near" if meant else "")

    def look_at_entry(self, words: List[str], place: int, values: int) -> None:
        """The signal and the block of a line, and whether it has as many values as the signal."""
        name, block = words[place], words[place + 1]
        signal = self.exchange.signals.get(name)
        known = signal if signal and signal.kind == "BUFFERED" else None
        if not known:
            self.tell(place, "UNKNOWNSIGNAL", lambda: self.unknown_signal(name, signal))
        receiver = self.exchange.block_names.get(block)
        if receiver is None or known and name not in receiver.receives:
            is_known = known is not None
            self.tell(
                place + 1,
                "UNKNOWNBLOCK",
                lambda: self.unknown_block(block, receiver, name, is_known),
            )
        if known and known.count is not None and values != known.count:
            given = f"{values} {'is' if values == 1 else 'are'} given"
            sentence = f"{name} carries {counted(known.count, 'value')}, {given}"
            self.tell(place, "WRONGDATA", sentence)

    def unknown_signal(self, name: str, signal: Optional[Signal]) -> str:
        if signal is not None:
            stands = (
                f"the answer of {signal.answer}"
                if signal.kind == "ANSWER"
                else KINDS.get(signal.kind or "", "not read")
            )
            return f"{name} is {stands}; a line sends a single buffered signal"
        names = [one.name for one in self.exchange.signals.values() if one.kind == "BUFFERED"]
        return self.unknown(name, "single buffered signal", names)

    def unknown_block(self, name: str, block: Optional[Block], signal: str, known: bool) -> str:
        blocks = self.exchange.block_names
        receivers = sorted(other for other, one in blocks.items() if signal in one.receives)
        if block is not None:
            others = f"; {any_of(receivers[:8])} does" if receivers else ""
            return f"block {name} does not receive {signal}{others}"
        return self.unknown(name, "block", receivers if known and receivers else list(blocks))

    def unknown(self, name: str, what: str, names: Sequence[str]) -> str:
        if name in KEYWORDS:
            return f"{name} is a keyword of exchange texts, so no {what} has that name"
        if name.upper() != name and name.upper() in names:
            return f"{shown(name)} has small letters: {name.upper()}"
        meant = near(name.upper(), names)
        return f"no {what} is called {shown(name)}" + (f"; {meant} is one" if meant else "")


class Signals(LineFile):
    """A signal file; `lines_of_signals` says how many signal lines there are."""

    parts = [Part("word", "AFTER"), Part("number", "the count"), *NAMES]

    def __init__(self, data: bytes, exchange: Checker, most: int) -> None:
        super().__init__(data, exchange, most)
        self.lines_of_signals = self.count = 0

    def take_line(self, words: List[str]) -> None:
        self.lines_of_signals += 1
        if words[0] != "AFTER" and self.counts.get("BADLINE", 0) >= self.most:
            self.counts["BADLINE"] += 1
            self.kinds[-1] = BROKEN
            return
        fault = self.form(words, self.parts, 4, ["NEW", "NONE", "AS"])
        if fault:
            self.tell(fault.at, "BADLINE", fault.sentence)
            self.kinds[-1] = BROKEN
            return
        by_as = len(words) >= 6 and words[-2] == "AS"
        self.look_at_entry(words, 2, len(words) - (6 if by_as else 5))
        count = int(words[1])
        if count < self.count:
            falls = f"the count falls from {self.count} to {count}"
            sentence = f"{falls}; lines stand in the order of their counts"
            self.tell(1, "FALLINGCOUNT", sentence)
        self.count = count
        self.kinds[-1] = BY_AS if by_as else IN_FORLOPP if words[-1] == "NEW" else IN_NONE
        if by_as:
            self.look_at_as(int(words[-1]), len(words) - 1)

    def look_at_as(self, named: int, place: int) -> None:
        if not 0 < named < self.number or self.kinds[named] in (SKIPPED, IN_NONE):
            self.tell(place, "BADAS", lambda: self.wrong_as(named))
        elif self.kinds[named] == BY_AS:
            cure = f"name the line that ends in NEW{self.by_rank(named)}"
            if len(self.odd) < self.most:
                sentence = f"line {named} ends in AS itself; {cure}"
                self.odd.append(Told(self.word_place(place), "ODDAS", sentence))

    def wrong_as(self, named: int) -> str:
        if named == self.number:
            return f"line {named} is this line itself"
        if not 0 < named < self.number:
            return f"line {named} does not stand before this line; lines are counted from 1"
        if self.kinds[named] == IN_NONE:
            return f"line {named} ends in NONE, and is in no forlopp{self.by_rank(named)}"
        kind = "a comment" if self.text_of(named)[:1] == "!" else "blank"
        return f"line {named} is {kind}, and counts as a line{self.by_rank(named)}"

    def by_rank(self, rank: int) -> str:
        """Where the line was perhaps meant that has this number among the signal lines alone."""
        counted = 0
        for number, kind in enumerate(self.kinds[:5000]):
            counted += number > 0 and kind != SKIPPED
            if counted == rank and number != rank and kind == IN_FORLOPP:
                return f"; signal line {rank} is line {number}"
            if counted == rank and number:
                break
        return ""

    def text_of(self, number: int) -> str:
        return self.text.split("\n", number)[number - 1]


class Table(LineFile):
    """A table of periodic signals, beside a signal file with so many signal lines."""

    parts = [
        Part("word", "EVERY"),
        Part("number", "the number of jobs after EVERY"),
        Part("word", "FROM"),
        Part("number", "the count after FROM"),
        Part("word", "TIMES"),
        Part("number", "the number after TIMES"),
        *NAMES,
    ]

    def __init__(self, data: bytes, exchange: Checker, most: int, lines_of_signals: int) -> None:
        super().__init__(data, exchange, most)
        self.total, self.has_passed = lines_of_signals, False

    def take_line(self, words: List[str]) -> None:
        fault = self.form(words, self.parts, 8, ["NEW", "NONE"])
        if fault:
            self.tell(fault.at, "BADLINE", fault.sentence)
            return
        self.look_at_entry(words, 6, len(words) - 9)
        every, first, times = int(words[1]), int(words[3]), int(words[5])
        if not every or not times:
            place, word = (1, "EVERY") if not every else (5, "TIMES")
            self.tell(place, "BADRANGE", f"0 behind {word}: it is at least 1")
        elif first + every * (times - 1) >= NUMBERS:
            last = first + every * (times - 1)
            sum_of = f"{first} + {every} * {times - 1} = {last}"
            self.tell(5, "BADRANGE", f"the last count is {sum_of}, and 4294967295 is the largest")
        self.total += times
        if self.total > MOST_PERIODIC_SIGNALS and not self.has_passed:
            self.has_passed = True
            sentence = f"the signal file and the table up to here have {self.total:,} signals"
            self.tell(5, "TOOMANY", f"{sentence}, and {MOST_PERIODIC_SIGNALS:,} are the most")


class Filter(LineFile):
    """A filter of jobs. No forlopp has a number above `forlopps`, where that is known."""

    rules = SHOW_RULES

    def __init__(
        self, data: bytes, exchange: Checker, most: int, forlopps: Optional[int] = None
    ) -> None:
        super().__init__(data, exchange, most)
        self.forlopps = forlopps

    def take_line(self, words: List[str]) -> None:
        if words[0] != "SHOW":
            self.tell(0, "BADLINE", self.wrong_word(words[0], "SHOW", 0))
            return
        at = 1
        shows: Dict[str, int] = {}
        for part in PARTS:
            if at >= len(words) or words[at] != part:
                continue
            if part == "FAULTS":
                at += 1
                continue
            if at + 1 == len(words):
                self.tell(
                    at + 1,
                    "BADLINE",
                    f"a {'name' if part in PARTS[:2] else 'number'} is missing behind {part}",
                )
                return
            word = words[at + 1]
            if part not in PARTS[:2] and number_of(word) is None:
                self.tell(at + 1, "BADLINE", not_a_number(word, f"what stands behind {part}"))
                return
            shows[part] = at + 1
            at += 2
        if at < len(words):
            self.tell(at, "BADLINE", self.wrong_part(words, at))
            return
        self.look_at_names(words, shows)

    def wrong_part(self, words: List[str], at: int) -> str:
        word = words[at]
        if word in PARTS:
            twice = word in words[1:at]
            return (
                f"{word} stands twice"
                if twice
                else f"{word} stands too late: the order is {', '.join(PARTS)}"
            )
        if word.upper() in PARTS:
            return f"{shown(word)} has small letters: {word.upper()}"
        if word[:1] == "!":
            return LATE_COMMENT
        return f"{shown(word)} is no part of a line: {any_of(PARTS)} may stand here"

    def look_at_names(self, words: List[str], shows: Dict[str, int]) -> None:
        blocks, signals = self.exchange.block_names, self.exchange.signals
        named: Dict[str, Mapping[str, Union[Block, Signal]]] = {"BLOCK": blocks, "SIGNAL": signals}
        for part, known in named.items():
            name = words[shows[part]] if part in shows else None
            if name is not None and name not in known:
                has_room = self.has_room(part)
                sentence = self.unknown(name, part.lower(), list(known)) if has_room else ""
                self.tell(shows[part], f"UNKNOWN{part}", sentence)
        for part, place in shows.items():
            told = self.without_jobs(part, words[place])
            if told and len(self.odd) < self.most:
                self.odd.append(Told(self.word_place(place), "NOJOB", told))

    def without_jobs(self, part: str, word: str) -> Optional[str]:
        """Why there is no job of a signal, a block or a forlopp."""
        if part == "SIGNAL" and word in self.exchange.signals:
            what = WITHOUT_JOBS.get(self.exchange.signals[word].kind or "")
            if what:
                return f"{word} is {what}: no job starts by it"
        if part == "BLOCK" and word in self.exchange.block_names:
            known = (self.exchange.signals.get(name) for name in self.enters(word))
            if not any(signal is None or signal.kind in ("BUFFERED", None) for signal in known):
                return f"no job starts in block {word}: it enters no single buffered signal"
        if part == "FORLOPP" and self.forlopps is not None and int(word) > self.forlopps:
            begun = counted(self.forlopps, "forlopp")
            return f"no job is in forlopp {word}: the signal lines begin {begun}"
        return None

    def enters(self, block: str) -> Iterable[str]:
        """The signals that a block enters."""
        return self.exchange.block_names[block].enters

    def has_room(self, part: str) -> bool:
        return self.counts.get(f"UNKNOWN{part}", 0) < self.most


def forlopps_of(signals: Signals) -> Optional[int]:
    """How many forlopps a run has, where its jobs begin none."""
    is_known = BROKEN not in signals.kinds
    if not is_known or NEW_FORLOPP.search(signals.exchange.source.clean):
        return None
    return signals.kinds.count(IN_FORLOPP)


def begins_with_show(data: bytes) -> bool:
    """Whether the first line that is not skipped is one of a filter."""
    for line in data[:MOST_BYTES].split(b"\n"):
        words = line.split()
        if words and line[:1] != b"!":
            return words[0].upper() == b"SHOW"
    return False
