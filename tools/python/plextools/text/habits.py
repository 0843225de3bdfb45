"""What people write who come from another PLEX or from C, and how it is said here.

`habits(text)` gives all of it that stands in a text outside of comments. None of these forms can
stand in a right text: they are told by words that no keyword may follow, or at which no statement
begins. Each has the edits by which the rest of the
text is judged as if it stood rewritten; where these edits alone mean the same, they are its cure.
"""
import re
from itertools import islice
from typing import Callable, Iterator, List, Match, NamedTuple, Optional, Tuple, Union

from plextools.text.closers import depth
from plextools.text.finding import Edit, Span
from plextools.text.tokens import COMMENT, KEYWORDS

NAME = r"(?P<name>[A-Z][A-Z0-9]*)"
WORD = re.compile(r"[A-Z][A-Z0-9]*")
BEGINS = ("THEN", "ELSE", "DO", "DECLARE", "PROGRAM", "SURVEY")
SMALL = {code: code - 32 for code in range(ord("a"), ord("z") + 1)}
NUMBER_BASES = {"H": 16, "D": 10, "O": 8, "B": 2, "X": 16}
OPENING = re.compile(r"\b(?:THEN|FI|ELSIF|ELSEIF|ON|WHILE|NO|OD)\b")
WHILE = re.compile(r"\bWHILE\b[^;]{0,2000}?\bDO\b")
ELSIF_THEN = re.compile(r"\b(?:ELSIF|ELSEIF)\b[^;]{0,2000}?\bTHEN\b")
ELSIF, THEN = re.compile(r"\b(?:ELSIF|ELSEIF)\b"), re.compile(r"\bTHEN\b")
DECLARED = re.compile(r"\b(?:(?<!END )DECLARE|(?:TEMPORARY|POINTER)\s+[A-Z][A-Z0-9]*)\s*;")
BLOCK_WORD = re.compile(r"(?<![A-Z0-9])BLOCK(?![A-Z0-9])")
ASSIGNED = re.compile(r"\b([A-Z][A-Z0-9]*)\s*=\s*([0-9]+)\s*;")
LARGEST, MOST_DIGITS = 2**32, 32
MOST_OF_FORM, MOST_USES, MOST_LOOKED_AT = 100, 1000, 20000  # so that no text takes long
CLOSED_COMMENT = r"/\*.{0,2000}?\*/"
DECIMAL = "{found} is written {edit}: numbers are decimal"


class Habit(NamedTuple):
    """A form that this language does not have: where it stands, which one it is, how it is said
    here, and the edits that say so. They are a cure where they leave nothing to think about.
    """

    span: Span
    kind: str
    sentence: str
    edits: Tuple[Edit, ...]
    is_cure: bool


Rewrite = Callable[[str, Match[str]], Optional[Tuple[Edit, ...]]]
Decides = Callable[[str, Match[str]], bool]


class Form(NamedTuple):
    """How a habit is found, what is said of it, and which edits rewrite it; whether these are its
    cure, or what decides that. One that `is_first` is a habit only where a statement or a
    declaration may begin.
    """

    kind: str
    pattern: "re.Pattern[str]"
    sentence: str
    rewrite: Rewrite
    is_cure: Union[bool, Decides] = True
    is_first: bool = False


def by(text: str) -> Rewrite:
    """A form stands rewritten by these words; \\g<name> is a name in what was found."""

    def rewrite(_: str, found: Match[str]) -> Tuple[Edit, ...]:
        return (Edit(found.start(), found.end(), found.expand(text)),)

    return rewrite


def number(_: str, found: Match[str]) -> Optional[Tuple[Edit, ...]]:
    """A number of another base in decimal digits."""
    base = NUMBER_BASES[found["base"][-1]]
    digits = found["digits"]
    if len(digits) > MOST_DIGITS or any(int(one, 16) >= base for one in digits):
        return None
    value = int(digits, base)
    return (Edit(found.start(), found.end(), str(value)),) if value < LARGEST else None


def ending(text: str, place: int, ends: Tuple[str, ...]) -> Optional[Match[str]]:
    """The word that ends the statement whose inner statements begin at a place."""
    depth, is_of_elsif = 0, False
    opens = ("THEN",) if "FI" in ends else ("ON", "WHILE")
    for found in OPENING.finditer(text, place, place + MOST_LOOKED_AT):
        word = found[0]
        if word in ("ELSIF", "ELSEIF"):
            is_of_elsif = True
        elif word in opens:
            depth += not is_of_elsif
            is_of_elsif = False
        elif word in ends:
            if not depth:
                return found
            depth -= 1
    return None


def else_if(text: str, found: Match[str]) -> Tuple[Edit, ...]:
    """ELSE and an IF, which has a FI of its own; that of the last one has all of them before it."""
    edit = Edit(found.start(), found.end(), "ELSE IF")
    end = end_of_elsif(text, found.end())
    if end is None:
        return (edit,)
    start = text.rfind("ENTER", 0, found.start()) + 1
    start = max(start, found.start() - MOST_LOOKED_AT)
    others = islice(ELSIF.finditer(text, start, end.start()), MOST_OF_FORM)
    ends = [end_of_elsif(text, one.end()) for one in others]
    count = sum(one is not None and one.start() == end.start() for one in ends)
    return (edit, Edit(end.start(), end.end(), "FI; " * count + "FI"))


def end_of_elsif(text: str, place: int) -> Optional[Match[str]]:
    then = THEN.search(text, place, place + MOST_LOOKED_AT)
    return ending(text, then.end(), ("FI",)) if then else None


def loop(text: str, found: Match[str]) -> Tuple[Edit, ...]:
    """WHILE is an IF behind a label, and its end a GOTO to that and a FI. Where a label cannot
    stand, it is judged without.
    """
    is_cure = may_have_label(text, found)
    label = fresh(text, "LOOP", len(WHILE.findall(text, 0, found.end())))
    begin = Edit(found.start(), found.start() + len("WHILE"), f"{label}) IF" if is_cure else "IF")
    do = Edit(found.end() - len("DO"), found.end(), "THEN")
    end = ending(text, found.end(), ("NO", "OD"))
    back = f"GOTO {label}; FI" if is_cure else "FI"
    return (begin, do, Edit(end.start(), end.end(), back)) if end else (begin, do)


def may_have_label(text: str, found: Match[str]) -> bool:
    """Whether a loop ends, and no other statement is open where it begins."""
    start = max(text.rfind(word, 0, found.start()) for word in ("ENTER", "PROGRAM"))
    if start < found.start() - MOST_LOOKED_AT or not ending(text, found.end(), ("NO", "OD")):
        return False
    before = WHILE.sub("ON", text[start : found.start()])
    before = re.sub(r"\bOD\b", "NO", ELSIF_THEN.sub("", before))
    return not depth(before, 0, len(before))


def fresh(text: str, word: str, number: int) -> str:
    """A name that stands nowhere in a text, with a number at its end."""
    while re.search(rf"\b{word}{number}\b", text):
        number += 1
    return f"{word}{number}"


def block_end(text: str, place: int) -> int:
    """Where the block ends in which a place is."""
    end = re.compile(r"\bEND\s+BLOCK\b").search(text, place)
    return end.start() if end else len(text)


def constant(text: str, found: Match[str]) -> Tuple[Edit, ...]:
    """A constant is its number, wherever its name stands behind: in its block, or in all of them
    where it stands before the first one or is a global one.
    """
    is_global = "GLOBAL" in found[0] or not re.compile(r"\bBLOCK\b").search(text, 0, found.start())
    last = len(text) if is_global else block_end(text, found.end())
    uses = re.compile(rf"\b{found['name']}\b").finditer(text, found.end(), last)
    some = islice(uses, MOST_USES)
    numbers = [Edit(one.start(), one.end(), found["value"]) for one in some]
    return (Edit(found.start(), found.end(), ""), *numbers)


def symbols(text: str, found: Match[str]) -> Tuple[Edit, ...]:
    """A variable with symbolic values is one with numbers, in the order of the symbols."""
    names = symbols_of(found)
    last = block_end(text, found.end())
    width = max(1, (len(names) - 1).bit_length())
    edits = [Edit(found.start(), found.end(), f"VARIABLE {found['name']} WIDTH {width};")]
    for value, name in islice(enumerate(names), MOST_OF_FORM):
        uses = re.compile(rf"\b{name}\b").finditer(text, found.end(), last)
        edits += [Edit(one.start(), one.end(), str(value)) for one in uses]
    return tuple(edits)


def symbols_of(found: Match[str]) -> List[str]:
    names = [name for name in WORD.findall(found["values"]) if name not in KEYWORDS]
    return list(dict.fromkeys(names))


def are_only_symbols(text: str, found: Match[str]) -> bool:
    """Whether the symbols of a variable are no names of anything else."""
    names = "|".join(symbols_of(found)[:MOST_OF_FORM])
    words = "VARIABLE|TEMPORARY|FIELD|FILE|SIGNAL|ANSWER|BLOCK|RECEIVE|SEND|ENTER|GOTO"
    return bool(names) and not re.search(rf"\b(?:{words})\s+(?:{names})\b", text)


def array(_: str, found: Match[str]) -> Tuple[Edit, ...]:
    """An array is a file of one field."""
    numbers = re.findall(r"\b[0-9]+", found[0])
    size, width = (numbers + ["1"])[0], (numbers[1:] + ["16"])[0]
    name = found["name"]
    words = f"FILE {name[:26]}FILE SIZE {size}; FIELD {name} WIDTH {width};"
    return (Edit(found.start(), found.end(), words),)


def has_number(_: str, found: Match[str]) -> bool:
    """Whether a declaration says how many there are."""
    return bool(re.search(r"\b[0-9]+", found[0]))


def record(_: str, found: Match[str]) -> Tuple[Edit, ...]:
    size = (re.findall(r"\b[0-9]+", found[0]) + ["1"])[0]
    return (Edit(found.start(), found.end(), f"FILE {found['name']} SIZE {size};"),)


def sized(_: str, found: Match[str]) -> Tuple[Edit, ...]:
    """A size in bits is a WIDTH, and DS is left out."""
    behind = re.sub(r"\b(?:DS|RELOAD|STATIC|DUMP)\b\s*", "", found["rest"]).strip()
    words = f"{found['what']} {found['name']} WIDTH {found['bits']}"
    return (Edit(found.start(), found.end(), f"{words} {behind}".rstrip()),)


def delay(text: str, found: Match[str]) -> Tuple[Edit, ...]:
    """A statement alone is left out, and what delays another statement."""
    is_alone = begins(text, found.start())
    return (Edit(found.start(), found.end(), "" if is_alone else ";"),)


def no_value(text: str, found: Match[str]) -> Tuple[Edit, ...]:
    """A value that is passed over goes to a temporary that nothing uses; one of those that are sent
    is judged as 0.
    """
    last = last_declared(text, found.start())
    if not is_taken(text, found) or last is None:
        return (Edit(found.end() - 1, found.end(), "0"),)
    name = fresh(text, "PASSED", 1)
    word = Edit(found.end() - 1, found.end(), name)
    return (word, Edit(last.end(), last.end(), f" TEMPORARY {name};"))


def is_taken(text: str, found: Match[str]) -> bool:
    """Whether values are taken from a signal, and are not sent."""
    start = text.rfind(";", 0, found.start()) + 1
    taken = re.search(r"\b(?:ENTER|RETRIEVE)\b", text[start : found.end()])
    return taken is not None and last_declared(text, found.start()) is not None


def block_start(text: str, place: int) -> int:
    """Where the last word BLOCK before a place stands."""
    for _ in range(MOST_OF_FORM):
        place = text.rfind("BLOCK", 0, max(place, 0))
        if place < 0 or BLOCK_WORD.match(text, place):
            break
    return max(place, 0)


def last_declared(text: str, place: int) -> Optional[Match[str]]:
    """The last declaration of a temporary in the block of a place, or else its DECLARE."""
    start = block_start(text, place)
    declared = None
    for declared in DECLARED.finditer(text, start, min(place, start + MOST_LOOKED_AT)):
        pass
    return declared


def initial(text: str, found: Match[str]) -> Tuple[Edit, ...]:
    """What a part DATA says of variables stands behind their widths."""
    edits = [Edit(found.start(), found.end(), "")]
    start = max(text.rfind("DECLARE", 0, found.start()), 0)
    for name, value in ASSIGNED.findall(found[0]):
        declared = re.compile(rf"\bVARIABLE\s+{name}\s+WIDTH\s+[0-9]+(?=\s*(?:;|CLEAR\b))")
        there = declared.search(text, start, found.start())
        if there:
            edits.append(Edit(there.end(), there.end(), f" INIT {value}"))
    return tuple(edits)


def is_all_initial(text: str, found: Match[str]) -> bool:
    """Whether a part DATA has nothing but values of variables."""
    lines = [line for line in found[0].split(";") if line.strip()]
    return len(initial(text, found)) == len(lines) - 1 > 1


def part_end(text: str, found: Match[str]) -> Tuple[Edit, ...]:
    """END PROGRAM ends the block where no END BLOCK follows before the next block."""
    rest = re.compile(r"\b(?:END\s+)?BLOCK\b").search(text, found.end())
    has_end = rest is not None and rest[0] != "BLOCK"
    return (Edit(found.start(), found.end(), "" if has_end else "END BLOCK;"),)


def comment(_: str, found: Match[str]) -> Tuple[Edit, ...]:
    return (Edit(found.start(), found.start() + len("//"), "!"),)


def closed(_: str, found: Match[str]) -> Tuple[Edit, ...]:
    """A comment of C begins each of its lines by a !, and has no end."""
    marks = [Edit(found.start(), found.start() + len("/*"), "!")]
    for end in re.finditer(r"\n", found[0]):
        at = found.start() + end.end()
        marks.append(Edit(at, at, "!"))
    return (*marks, Edit(found.end() - len("*/"), found.end(), ""))


def is_last(text: str, found: Match[str]) -> bool:
    """Whether nothing stands behind a comment on its line."""
    return not text[found.end() :].split("\n", 1)[0].strip()


def counting(_: str, found: Match[str]) -> Tuple[Edit, ...]:
    name, sign = found["name"], found["sign"][0]
    return (Edit(found.start(), found.end(), f"{name} = {name} {sign} 1"),)


def begins(text: str, place: int) -> bool:
    """Whether a statement or a declaration may begin at a place."""
    before = text[max(0, place - 200) : place].rstrip()
    return not before or before[-1] in ";)" or before.endswith(BEGINS)


def form(
    kind: str,
    pattern: str,
    sentence: str,
    rewrite: Rewrite,
    is_cure: Union[bool, Decides] = True,
    first: bool = False,
) -> Form:
    return Form(kind, re.compile(pattern, re.S), sentence, rewrite, is_cure, first)


FORMS = (
    # comments, numbers and marks
    form("//", r"//[^\n]*", "a comment begins with !", comment),
    form("/*", CLOSED_COMMENT, "a comment goes from ! to the end of its line", closed, is_last),
    form("base", r"(?<![A-Z0-9])(?P<base>[HDOB])'(?P<digits>[0-9A-F]+)'?", DECIMAL, number),
    form("base", r"(?<![A-Z0-9])(?P<base>0X)(?P<digits>[0-9A-F]+)", DECIMAL, number),
    form("/=", r"/=", "/= is written <>", by("<>")),
    form("&&", r"&&", "&& is written AND", by("AND")),
    form("||", r"\|\|", "|| is written OR", by("OR")),
    form("%", r"[ \t]*%[ \t]*", "% is written MOD", by(" MOD ")),
    form(
        "+=",
        rf"\b{NAME}\s*(?P<sign>[-+*])=",
        "name what is changed on both sides, as N = N + 1",
        by(r"\g<name> = \g<name> \g<sign>"),
    ),
    form("++", rf"\b{NAME}\s*(?P<sign>\+\+|--)", "there is no {found}: write {edit}", counting),
    form("label", rf"\b{NAME}\s*:(?!=)", "a label ends in a bracket: {edit}", by(r"\g<name>)")),
    # statements
    form(
        "ELSIF",
        r"\b(?:ELSIF|ELSEIF)\b(?=[^;]{0,2000}\bTHEN\b)",
        "there is no ELSIF: write ELSE IF, with a FI of its own",
        else_if,
        True,
        True,
    ),
    form(
        "WHILE",
        WHILE.pattern,
        "there is no WHILE: put a label before IF .. THEN, and a GOTO to that label before FI",
        loop,
        may_have_label,
        True,
    ),
    form("OD", r"\bOD\b(?=\s*;)", "a loop by ON ends in NO", by("NO"), True, True),
    form(
        "DOWNTO",
        r"\bDOWNTO(?=\s+(?P<name>[A-Z0-9(]+))",
        "ON counts upwards alone: for T FROM a DOWNTO b write T FROM b UPTO a, and a + b - T for T",
        by("UPTO"),
        False,
    ),
    form(
        "DELAY",
        r"\bDELAY\s+(?P<name>[A-Z0-9]+)[^;]{0,2000};",
        "there is no DELAY: a table of periodic signals sends a signal later"
        " (GUIDE.md, chapter 13)",
        delay,
        False,
    ),
    form(
        "WITH +",
        r"(?:\bWITH|,)\s*\+(?=\s*[,;])",
        "no value is passed over: name a temporary in ENTER and RETRIEVE, and a value in SEND",
        no_value,
        is_taken,
    ),
    # declarations
    form(
        "SYMBVAR",
        rf"\b(?:SYMBVAR|SYMVAR|SYMBOL\s+VARIABLE)\s+{NAME}(?P<values>[^;]{{0,2000}});",
        "there are no symbolic values: declare a VARIABLE, and write a number for each of them",
        symbols,
        are_only_symbols,
    ),
    form(
        "NSYMB",
        rf"\b(?:GLOBAL\s+)?(?:NSYMB|CONST|CONSTANT)\s+{NAME}\s*=\s*(?P<value>[0-9]+)\s*;",
        "there are no named constants: write the number where the name stands, and a comment",
        constant,
    ),
    form(
        "ARRAY",
        rf"\b(?:ARRAY|VARIABLE(?=\s+[A-Z0-9]+\s*(?:ARRAY\b|\()))\s+{NAME}[^;]{{0,2000}};",
        "an array is a file of one field: {edit} The index is a pointer",
        array,
        has_number,
    ),
    form(
        "RECORD",
        rf"\bRECORD\s+{NAME}[^;]{{0,2000}};",
        "records are those of a file: {edit} and behind it a FIELD for each part",
        record,
        has_number,
    ),
    form("POINTER", rf"\bPOINTER(?=\s+{NAME})", "a pointer is a TEMPORARY", by("TEMPORARY")),
    form(
        "STRUCTURE",
        rf"\bSTRUCTURE\s+{NAME}[^;]{{0,2000}};",
        "there are no structures: declare a variable for each part, or cut one by / and MOD",
        by(r"VARIABLE \g<name> WIDTH 32;"),
        False,
    ),
    form(
        "STRING",
        rf"\b(?:STRING|TEXT|CHAR)\s+{NAME}[^;]{{0,2000}};",
        "there are no strings: keep the number of a text, which the receiver outside knows",
        by(r"VARIABLE \g<name> WIDTH 32;"),
        False,
    ),
    form(
        "DS",
        rf"\b(?P<what>VARIABLE|FIELD)\s+{NAME}\s+(?P<bits>[0-9]+)\b(?P<rest>[^;]{{0,2000}})",
        "WIDTH says how many bits there are, and there is no DS: each variable is stored",
        sized,
    ),
    form(
        "DS",
        r"(?:(?<=[0-9])|(?<=CLEAR))\s+(?:DS|RELOAD|STATIC|DUMP)\b",
        "CLEAR is the only property of a variable, and each one is stored",
        by(""),
    ),
    # parts of a text
    form(
        "DOCUMENT",
        r"\b(?:END\s+)?DOCUMENT\b(?:\s+[A-Z0-9.]+){0,8}\s*;",
        "a text has no head and no end of its own: signals stand first, and blocks behind them",
        by(""),
        True,
        True,
    ),
    form(
        "END PROGRAM",
        r"\bEND\s+PROGRAM\s*;",
        "a program ends with its block, by END BLOCK;",
        part_end,
    ),
    form(
        "END DECLARE",
        r"\bEND\s+(?:DECLARE|SURVEY)\s*;",
        "a part of a block ends where the next one begins",
        by(""),
    ),
    form(
        "PROGRAM",
        rf"\bPROGRAM(?:\s+{NAME})?\s*;\s*PLEX\s*;|\bPROGRAM\s+[A-Z][A-Z0-9]*\s*;",
        "PROGRAM; stands alone: the block has the name",
        by("PROGRAM;"),
    ),
    form(
        "DATA",
        r"\bDATA\s*;(?:.{0,2000}?\bEND\s+DATA\s*;)?",
        "there is no part DATA: INIT behind WIDTH says what a variable begins with",
        initial,
        is_all_initial,
    ),
    # of C
    form(
        "[",
        rf"\b{NAME}\s*\[\s*(?P<index>[A-Z][A-Z0-9]*)\s*\]",
        "a pointer stands in round brackets: {edit}",
        by(r"\g<name>(\g<index>)"),
    ),
    form(
        "=+",
        rf"\b{NAME}\s*=(?P<sign>[-+])(?=\s)",
        "name what is changed on both sides, as N = N + 1",
        by(r"\g<name> = \g<name> \g<sign>"),
    ),
    form("{", r"\}\s*ELSE\s*\{", "an IF has THEN, ELSE and FI", by("ELSE")),
    form("{", r"(?<=[A-Z0-9)])\s*\{", "an IF has THEN, ELSE and FI", by(" THEN")),
    form("{", r"\}(?!\s*ELSE\b)", "an IF has THEN, ELSE and FI", by("FI;")),
)


def habits(text: str) -> List[Habit]:
    """All habits in a text; of two that meet, the one that begins first. The end of a WHILE is none
    of its own.
    """
    plain = COMMENT.sub(lambda found: " " * len(found[0]), text).translate(SMALL)
    found = sorted(habit for form in FORMS for habit in of_form(plain, form))
    ends = {(edit.start, edit.end) for one in found if one.kind == "WHILE" for edit in one.edits}
    apart: List[Habit] = []
    for habit in found:
        is_end = habit.kind == "OD" and habit.span in ends
        if not is_end and (not apart or habit.span.start >= apart[-1].span.end):
            apart.append(habit)
    return apart


def of_form(plain: str, form: Form) -> Iterator[Habit]:
    """The habits of a form in a text of capital letters."""
    for found in islice(form.pattern.finditer(plain), MOST_OF_FORM):
        is_keyword = found.groupdict().get("name") in KEYWORDS
        if is_keyword or form.is_first and not begins(plain, found.start()):
            continue
        edits = form.rewrite(plain, found)
        if edits:
            said = form.sentence.format(found=found[0], edit=edits[0].text.strip())
            span = Span(found.start(), found.end())
            is_cure = form.is_cure
            is_cure = is_cure if isinstance(is_cure, bool) else is_cure(plain, found)
            yield Habit(span, form.kind, said, edits, is_cure)
