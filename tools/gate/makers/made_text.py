"""Exchange texts made by chance, right ones and broken ones. For the checks by chance.

`right_text(chance)` keeps all rules, `changed_text(chance)` is such a text with up to three changes
of words, and each of `ON_PURPOSE` is one of the `RULES` with a maker of texts that break it, or
None with one of texts that just keep a limit. `first_fault(text)` is the line and the rule of the
first fault of a text, as it is told a second time, or None.
"""
from __future__ import annotations

import random
from typing import Callable, Iterator, Optional, Sequence

from plextools.limits import MOST_BYTES, MOST_CELLS, MOST_STATEMENTS
from plextools.text.faults import first_fault
from plextools.text.tokens import KEYWORDS, RELATIONS

SIGNALS = (
    "SIGNAL BU SINGLE BUFFERED A DATA 1 ; SIGNAL B0 SINGLE BUFFERED D DATA 0 ; SIGNAL DI SINGLE "
    "DIRECT DATA 1 ; "
    "SIGNAL CO COMBINED DATA 1 ANSWER AN DATA 2 ; SIGNAL OU OUTSIDE DATA 2 ;"
)
OWN_SIGNALS = 6
NAMES = {
    "variable": ["V", "W"],
    "temporary": ["T", "U"],
    "field": ["X", "X2"],
    "own": ["Y"],
    "label": ["L", "M"],
}
DECLARED = (
    "VARIABLE V WIDTH 16 INIT 65535 {clear} ; VARIABLE W WIDTH 32 ; TEMPORARY T ; TEMPORARY U ; "
    "FILE F SIZE 3 ; FIELD X WIDTH 8 ; FIELD X2 WIDTH 1 INIT 1 ; FORLOPP FILE G SIZE 65535 ; "
    "FIELD Y WIDTH 32 ;"
)
OWN_CELLS = 2 + 3 * 2 + 65535 * 2
SURVEY = (
    "RECEIVE BU ; RECEIVE B0 ; RECEIVE DI ; RECEIVE CO ; "
    "SEND BU ; SEND B0 ; SEND DI ; SEND CO ; SEND OU ;"
)
ENTERS = ["ENTER BU WITH T ;", "ENTER B0 ;", "ENTER DI WITH U ;", "ENTER CO WITH T ;"]
STRANGE = [
    "Q",
    "V",
    "T",
    "X",
    "F",
    "G",
    "K1",
    "K2",
    "BU",
    "DI",
    "CO",
    "AN",
    "OU",
    "0",
    "1",
    "33",
    "65536",
    "9",
    "4294967295",
    ";",
    ",",
    "(",
    ")",
    "=",
    "+",
    "<>",
    "REFERENCE",
    "WITH",
    "CLEAR",
    "END",
    "EXIT",
    "NEW",
    "FORLOPP",
    "IF",
    "THEN",
    "FI",
    "RETRIEVE",
    "00000000001",
    "4294967296",
    "a",
    "L)",
    "! no more\n",
    "SEND",
    "ENTER",
    "RECEIVE",
]


# Changes the words of a right text.
Change = Callable[["list[str]", random.Random], "list[str]"]
__all__ = ["first_fault"]


class Maker:
    """Makes one text, which keeps all rules, from a source of chance."""

    def __init__(self, chance: random.Random, blocks: Sequence[str]) -> None:
        self.chance, self.blocks = chance, blocks

    def one(self, kind: str) -> str:
        return self.chance.choice(NAMES[kind])

    def factor(self, depth: int) -> str:
        choice = self.chance.randrange(8)
        if choice == 0 and depth < 3:
            return f"( {self.expr(depth + 1)} )"
        if choice == 1:
            return f"REFERENCE {self.chance.choice(self.blocks)}"
        if choice == 2:
            return f"{self.one('field')} ( {self.one('temporary')} )"
        if choice in (3, 4):
            return self.one("variable")
        return (
            self.one("temporary")
            if choice == 5
            else str(self.chance.choice([0, 1, 2, 255, 256, 70000]))
        )

    def expr(self, depth: int = 0) -> str:
        text = self.factor(depth)
        for _ in range(self.chance.choice([0, 0, 0, 1, 2])):
            text += f" {self.chance.choice(['+', '-', '*', '/', 'MOD'])} {self.factor(depth)}"
        return text

    def relation(self) -> str:
        return f"{self.expr()} {self.chance.choice(RELATIONS)} {self.expr()}"

    def cond(self) -> str:
        relations = [self.relation() for _ in range(self.chance.choice([1, 1, 2]))]
        return f" {self.chance.choice(['AND', 'OR'])} ".join(relations)

    def reference(self) -> str:
        if self.chance.random() < 0.4:
            return f"REFERENCE ( {self.chance.choice(NAMES['variable'] + NAMES['temporary'])} )"
        return f"REFERENCE {self.chance.choice(self.blocks)}"

    def statements(self, depth: int) -> str:
        return " ".join(self.statement(depth) for _ in range(self.chance.choice([0, 1, 1, 2])))

    def for_first(self) -> str:
        where = f"{self.one('field')} < {self.expr()}"
        return f"FOR FIRST {self.one('temporary')} IN F WHERE {where} GOTO {self.one('label')} ;"

    def ask(self) -> str:
        return f"SEND CO {self.reference()} WITH {self.expr()} ; RETRIEVE AN WITH T , U ;"

    def simple(self) -> str:
        """A statement in which are no others."""
        new = self.chance.choice(["", "NEW FORLOPP"])
        made: Callable[[], str] = self.chance.choice(
            [
                lambda: f"{self.one('variable')} = {self.expr()} ;",
                lambda: f"{self.one('temporary')} = {self.expr()} ;",
                lambda: f"{self.one('field')} ( {self.one('temporary')} ) = {self.expr()} ;",
                lambda: f"GOTO {self.one('label')} ;",
                lambda: f"IF {self.cond()} GOTO {self.one('label')} ;",
                self.for_first,
                lambda: f"SEND BU {self.reference()} WITH {self.expr()} {new} ;",
                lambda: f"SEND B0 {self.reference()} ;",
                lambda: f"SEND DI {self.reference()} WITH {self.expr()} ;",
                lambda: f"SEND OU WITH {self.expr()} , {self.expr()} ;",
                self.ask,
                lambda: f"RETURN AN WITH {self.expr()} , {self.expr()} ;",
                lambda: f"TRANSFER DI {self.reference()} ;",
                lambda: f"SEIZE {self.one('temporary')} IN G ELSE GOTO {self.one('label')} ;",
                lambda: self.chance.choice([f"FREE {self.one('temporary')} IN G ;", "EXIT ;"]),
            ]
        )
        return made()

    def statement(self, depth: int) -> str:
        choice = self.chance.randrange(20) if depth < 2 else 0
        if choice < 15:
            return self.simple()
        if choice in (15, 16):
            other = f"ELSE {self.statements(depth + 1)}" if self.chance.random() < 0.5 else ""
            return f"IF {self.cond()} THEN {self.statements(depth + 1)} {other} FI ;"
        if choice in (17, 18):
            bounds = f"FROM {self.expr()} UPTO {self.expr()}"
            return f"ON {self.one('temporary')} {bounds} DO {self.statements(depth + 1)} NO ;"
        count = self.chance.choice([0, 1, 3])
        whens = " ".join(
            f"WHEN {number} DO {self.statements(depth + 1)}" for number in range(count)
        )
        return f"CASE {self.expr()} IS {whens} OTHERWISE DO {self.statements(depth + 1)} ESAC ;"

    def block(self, name: str) -> str:
        declared = DECLARED.format(clear=self.chance.choice(["", "CLEAR"]))
        items = [*ENTERS, "L ) EXIT ;", "M ) V = 1 ;"]
        items += [self.statement(0) for _ in range(self.chance.choice([1, 3, 6]))]
        self.chance.shuffle(items)
        program = " ".join(items)
        return (
            f"BLOCK {name} ; DECLARE ; {declared} SURVEY ; {SURVEY} PROGRAM ; {program} END BLOCK ;"
        )


def right_words(chance: random.Random, counts: Sequence[int] = (1, 2, 3)) -> list[str]:
    """The words of a text that keeps all rules, which has one of these numbers of blocks."""
    blocks = [f"K{number}" for number in range(1, 1 + chance.choice(counts))]
    maker = Maker(chance, blocks)
    return " ".join([SIGNALS] + [maker.block(name) for name in blocks]).split()


def written(words: list[str], chance: random.Random) -> bytes:
    """The text of words, with some ends of lines between them."""
    return "".join(word + chance.choice([" ", " ", " ", "\n"]) for word in words).encode()


def right_text(chance: random.Random) -> bytes:
    return " ".join(right_words(chance)).encode()


# changes by chance


def is_name(word: str) -> bool:
    return word[0].isalpha() and word.isalnum() and word not in KEYWORDS


def piece(words: Sequence[str], chance: random.Random) -> tuple[int, int]:
    """The words behind a semicolon, up to the next one."""
    ends = [place for place, word in enumerate(words) if word == ";"] or [0]
    end = chance.choice(ends)
    start = max([place for place in ends if place < end], default=-1)
    return start + 1, end + 1


def changed(words: list[str], chance: random.Random) -> list[str]:
    """One change: of a name, of a number, of a whole piece, or of any word, which mostly leaves no
    sentence.
    """
    choice = chance.randrange(8)
    if choice < 5:
        kind = is_name if choice < 3 else str.isdigit
        places = [place for place, word in enumerate(words) if kind(word)]
        if not places:
            return words
        others = [word for word in STRANGE + words if kind(word)]
        place = chance.choice(places)
        return words[:place] + [chance.choice(others)] + words[place + 1 :]
    if choice < 7:
        start, end = piece(words, chance)
        return words[:start] + (words[start:end] * 2 if choice == 5 else []) + words[end:]
    place = chance.randrange(len(words))
    if chance.random() < 0.1:
        return words[:place]
    return words[:place] + [chance.choice(STRANGE)] * chance.randrange(3) + words[place + 1 :]


def changed_text(chance: random.Random) -> bytes:
    words = right_words(chance)
    for _ in range(chance.choice([0, 1, 1, 1, 2, 3])):
        words = changed(words, chance) or ["BLOCK"]
    return written(words, chance)


# texts that break a rule on purpose


def where(words: Sequence[str], chance: random.Random, *behind: str) -> int:
    """A place behind these words, in one block or the other."""
    count = len(behind)
    return chance.choice(
        [
            place + count
            for place in range(len(words))
            if tuple(words[place : place + count]) == behind
        ]
    )


def statement_places(words: Sequence[str]) -> Iterator[int]:
    """Where a statement may stand: behind a semicolon of a program, but before no RETRIEVE."""
    inside = False
    for place, word in enumerate(words):
        if words[place - 1] == "PROGRAM" and word == ";":
            inside = True
        elif word == "BLOCK" and words[place - 1] == "END":
            inside = False
        if inside and word == ";" and words[place + 1] != "RETRIEVE":
            yield place + 1


def put(words: list[str], place: int, text: str) -> list[str]:
    return words[:place] + text.split() + words[place:]


def with_statement(*texts: str) -> Change:
    """Puts one of these statements anywhere in a program."""

    def made(words: list[str], chance: random.Random) -> list[str]:
        return put(words, chance.choice(list(statement_places(words))), chance.choice(texts))

    return made


def with_declaration(*texts: str) -> Change:
    def made(words: list[str], chance: random.Random) -> list[str]:
        return put(words, where(words, chance, "DECLARE", ";"), chance.choice(texts))

    return made


def with_item(*texts: str) -> Change:
    """Puts one of these at the end of a program, where an ENTER may stand too."""

    def made(words: list[str], chance: random.Random) -> list[str]:
        return put(words, where(words, chance, "END", "BLOCK") - 2, chance.choice(texts))

    return made


def with_signal(declared: str, *statements: str) -> Change:
    """Declares a signal before all others, and puts a statement with it."""

    def made(words: list[str], chance: random.Random) -> list[str]:
        words = with_statement(*statements)(words, chance) if statements else words
        return put(words, 0, declared)

    return made


def without(*gone: str) -> Change:
    """Leaves some words out once."""

    def made(words: list[str], chance: random.Random) -> list[str]:
        place = where(words, chance, *gone)
        return words[: place - len(gone)] + words[place:]

    return made


def before(text: str) -> Change:
    return lambda words, chance: put(words, 0, text)


def behind(text: str) -> Change:
    return lambda words, chance: words + text.split()


def each(text: str, count: int) -> str:
    return " ".join(text.format(number) for number in range(count))


def empty_blocks(count: int) -> str:
    return each("BLOCK N{0} ; DECLARE ; SURVEY ; PROGRAM ; END BLOCK ;", count)


def not_in_survey(words: list[str], chance: random.Random) -> list[str]:
    """A block that sends what it does not say in its survey."""
    place = where(words, chance, "SEND", "OU", ";", "PROGRAM", ";")
    return words[: place - 5] + "PROGRAM ; SEND OU WITH 1 , 2 ;".split() + words[place:]


def cut_off(words: list[str], chance: random.Random) -> list[str]:
    """Ends within a statement."""
    return words[: chance.choice(list(statement_places(words))) - 1]


def entries(count: int) -> Change:
    """One more block that has so many entries, none of which is one of the other blocks."""
    receives, enters = each("RECEIVE E{0} ;", count), each("ENTER E{0} ;", count)

    def made(words: list[str], chance: random.Random) -> list[str]:
        declared = each("SIGNAL E{0} SINGLE BUFFERED B DATA 0 ;", count)
        words = (
            words
            + f"BLOCK N ; DECLARE ; SURVEY ; {receives} PROGRAM ; {enters} END BLOCK ;".split()
        )
        return put(words, 0, declared)

    return made


def cells(count: int) -> Change:
    """One more block of so many cells."""
    wholes, rest = divmod(count, 65535)
    fields = each("FIELD A{0} WIDTH 1 ;", wholes)
    files = f"FILE A SIZE 65535 ; {fields} FILE B SIZE {rest} ; FIELD C WIDTH 1 ;"
    return behind(f"BLOCK N ; DECLARE ; {files} SURVEY ; PROGRAM ; END BLOCK ;")


def statements(count: int) -> Change:
    """One more block of so many statements, its end among them."""
    return behind(
        f"BLOCK N ; DECLARE ; TEMPORARY T ; SURVEY ; PROGRAM ; {'T = 1 ; ' * (count - 1)} END "
        f"BLOCK ;"
    )


def to_size(size: int) -> Change:
    """Blanks up to so many bytes."""
    return lambda words, chance: [" ".join(words).ljust(size - 1)]


BLOCKS, BRACKETS, SUM = 2, "V = " + "( " * 7 + "1" + " )" * 7 + " ;", " + ".join(["T"] * 65)
NESTED = "IF V = 1 THEN " * 13 + "FI ; " * 13
OTHER_CELLS = MOST_CELLS - BLOCKS * OWN_CELLS
OTHER_ENTRIES = 256 - BLOCKS * 2
RULES = [
    "TOOLARGE",
    "BADBYTE",
    "BADNUMBER",
    "LONGNAME",
    "UNEXPECTED",
    "TOODEEP",
    "ENDED",
    *(f"N{number}" for number in range(1, 18)),
    "NORECEIVER",
    "NEEDSREFERENCE",
    "NOTRECEIVED",
    "NOTINSURVEY",
    "TWOENTERS",
    "NOENTER",
    "LIMIT",
]
LONG = "ABCDEFGHIJKLMNOPQRSTUVWXYZ012345"
ON_PURPOSE: list[tuple[Optional[str], Change]] = [
    ("BADBYTE", with_statement("V = v ;", "V = 1 # ;")),
    ("BADNUMBER", with_statement("V = 4294967296 ;", "V = 00000000001 ;")),
    ("LONGNAME", with_statement(f"GOTO {LONG} ;", f"{LONG} = 1 ;", f"SEND {LONG} ;")),
    ("UNEXPECTED", with_statement("IF ( V = 1 ) GOTO L ;", "V = ;", "EXIT EXIT ;", "NO ;")),
    ("TOODEEP", with_statement(BRACKETS, NESTED)),
    ("ENDED", cut_off),
    ("N1", with_declaration("TEMPORARY V ;", "VARIABLE Q WIDTH 1 ; TEMPORARY Q ;")),
    ("N1", with_item("L ) EXIT ;", "V ) EXIT ;")),
    ("N1", behind("BLOCK K1 ; DECLARE ; SURVEY ; PROGRAM ; END BLOCK ;")),
    ("N2", with_declaration("VARIABLE Q WIDTH 33 ;", "VARIABLE Q WIDTH 0 ;")),
    ("N3", with_declaration("VARIABLE Q WIDTH 8 INIT 256 ;", "VARIABLE Q WIDTH 1 INIT 2 CLEAR ;")),
    ("N4", with_declaration("FILE Q SIZE 0 ;", "FORLOPP FILE Q SIZE 65536 ;")),
    ("N5", with_declaration(each("TEMPORARY A{0} ;", 23), each("TEMPORARY A{0} ;", 30))),
    (None, with_declaration(each("TEMPORARY A{0} ;", 22))),
    (
        "N6",
        with_statement(
            "Q = 1 ;", "V = Q ;", "X ( V ) = 1 ;", "FREE V IN G ;", "SEND B0 REFERENCE ( X ) ;"
        ),
    ),
    ("N7", with_statement("GOTO Q ;", "SEIZE T IN G ELSE GOTO V ;")),
    (
        "N8",
        with_statement(
            "FOR FIRST T IN G WHERE Y = 1 GOTO L ;", "FOR FIRST T IN F WHERE Y = 1 GOTO L ;"
        ),
    ),
    ("N9", with_statement("FREE T IN F ;", "SEIZE T IN V ELSE GOTO L ;")),
    (
        "N10",
        with_statement(
            "TRANSFER BU REFERENCE K1 ;",
            "SEND AN WITH 1 , 2 ;",
            "SEND OU REFERENCE K1 WITH 1 , 2 ;",
        ),
    ),
    ("N11", with_statement("SEND OU WITH 1 ;", "RETURN AN ;", "SEND B0 REFERENCE K1 WITH 1 ;")),
    ("N12", with_statement("SEND CO REFERENCE K1 WITH 1 ;", "RETRIEVE AN WITH T , U ;")),
    (
        "N13",
        with_statement(
            f"V = {SUM} ;", f"IF {SUM} = 1 GOTO L ;", f"SEND B0 REFERENCE K1 ; T = {SUM} ;"
        ),
    ),
    (None, with_statement("V = " + " + ".join(["T"] * 64) + " ;")),
    (
        "N14",
        with_statement(
            "SEND OU WITH 1 , 2 NEW FORLOPP ;", "SEND DI REFERENCE K1 WITH 1 NEW FORLOPP ;"
        ),
    ),
    ("N15", with_statement("CASE V IS WHEN 1 DO WHEN 2 DO WHEN 01 DO OTHERWISE DO ESAC ;")),
    ("N16", with_signal("SIGNAL OFF OUTSIDE DATA 9 ;")),
    ("N17", with_statement("V = REFERENCE V ;", "T = 1 + REFERENCE BU ;")),
    ("NORECEIVER", with_signal("SIGNAL OFF SINGLE BUFFERED A DATA 0 ;", "SEND OFF ;")),
    (
        "NORECEIVER",
        with_signal(
            "SIGNAL OFF SINGLE DIRECT DATA 0 ;", "TRANSFER OFF ;", "SEND OFF REFERENCE ( V ) ;"
        ),
    ),
    (
        "NEEDSREFERENCE",
        with_statement("SEND B0 ;", "TRANSFER DI ;", "SEND CO WITH 1 ; RETRIEVE AN WITH T , U ;"),
    ),
    ("NOTRECEIVED", with_statement("SEND B0 REFERENCE K9 ;", "TRANSFER DI REFERENCE V ;")),
    ("NOTINSURVEY", not_in_survey),
    ("TWOENTERS", with_item("ENTER B0 ;", "ENTER DI WITH T ;")),
    ("NOENTER", without("ENTER", "B0", ";")),
    ("NOENTER", without("ENTER", "DI", "WITH", "U", ";")),
    ("LIMIT", before(each("SIGNAL A{0} OUTSIDE DATA 0 ;", 1001 - OWN_SIGNALS))),
    (None, before(each("SIGNAL A{0} OUTSIDE DATA 0 ;", 1000 - OWN_SIGNALS))),
    ("LIMIT", behind(empty_blocks(65 - BLOCKS))),
    (None, behind(empty_blocks(64 - BLOCKS))),
    ("LIMIT", entries(OTHER_ENTRIES + 1)),
    (None, entries(OTHER_ENTRIES)),
    ("LIMIT", cells(OTHER_CELLS + 1)),
    (None, cells(OTHER_CELLS)),
    ("LIMIT", statements(MOST_STATEMENTS)),
    ("TOOLARGE", to_size(MOST_BYTES + 1)),
]


def on_purpose(make: Change, chance: random.Random) -> bytes:
    """A text of a maker in ON_PURPOSE."""
    return written(make(right_words(chance, [BLOCKS]), chance), chance)
