"""What is said of a fault of the grammar: what stands there, what was wanted, what is probably
wrong, and which edits would cure it.
"""
import difflib
import re
from typing import TYPE_CHECKING, Iterable, List, NamedTuple, Optional, Sequence, Tuple

from plextools.text.closers import CLOSERS, closes_later, ends_by_indent, is_first, line_behind
from plextools.text.finding import Edit
from plextools.text.grammar import Node, Stop
from plextools.text.tokens import KEYWORDS, RELATIONS, TOKEN, Lines, shown

if TYPE_CHECKING:
    from plextools.text.reader import Frame, Reader

OPENERS = {
    "FI": "IF",
    "ELSE": "IF",
    "NO": "ON",
    "ESAC": "CASE",
    "WHEN": "CASE",
    "OTHERWISE": "CASE",
}
NAMED = {"IF": "IF", "ELSE": "IF", "CASE": "CASE", "WHEN": "CASE", "OTHERWISE": "CASE", "ON": "ON"}
NOUNS = {
    **dict.fromkeys(["SIGNAL", "VARIABLE", "TEMPORARY", "FILE", "FORLOPP", "FIELD"], "declaration"),
    "BLOCK": "first line of the block",
    "RECEIVE": "line of the survey",
}
BEGIN = {
    "begun": ("DECLARE",),
    "declared": ("VARIABLE", "TEMPORARY", "FILE", "FORLOPP", "FIELD", "SURVEY"),
    "surveyed": ("RECEIVE", "SEND", "PROGRAM"),
}
NAME_ALONE = re.compile(r"[A-Z][A-Z0-9]*[ \t\r\n]*;")
LABEL = re.compile(r"([A-Z][A-Z0-9]*)[ \t]*\)")
LINE_OF_LABEL = re.compile(rf"[ \t]*{LABEL.pattern}[ \t]*\r?\n")
MOST_SEARCHED = 2**20  # bytes of a text in which a GOTO is looked for
LATE = {
    "REFERENCE": "REFERENCE stands before WITH, in a SEND and a TRANSFER alone",
    "INIT": "INIT stands before CLEAR",
    "CLEAR": "CLEAR stands once, at the end of a VARIABLE",
    "WITH": "WITH stands before NEW FORLOPP, and a TRANSFER has none",
}


def any_of(wanted: Sequence[str]) -> str:
    return wanted[0] if len(wanted) == 1 else f"{', '.join(wanted[:-1])} or {wanted[-1]}"


def near(word: str, words: Iterable[str]) -> Optional[str]:
    """The word that was probably meant, or None."""
    found = difflib.get_close_matches(word, list(words), 1, 0.75)
    return found[0] if found and found[0] != word else None


class Misfit(NamedTuple):
    """A word that does not fit: what was wanted in its place, the phrase that it is in, how many
    bytes later that phrase stands than where it was read, the rule, how the phrase stopped, and the
    list of statements in which it stands.
    """

    wanted: List[str]
    node: Optional[Node] = None
    shift: int = 0
    rule: str = "UNEXPECTED"
    stop: Optional[Stop] = None
    frame: Optional["Frame"] = None


class Hint(NamedTuple):
    """What is probably wrong: a sentence; where that begins which has no end; and what would cure
    it.
    """

    sentence: str
    begun: Optional[int] = None
    edits: Tuple[Edit, ...] = ()


class Said(NamedTuple):
    """What is said of a fault: a sentence, and the hint that it ends in."""

    sentence: str
    hint: Optional[Hint] = None


def said(reader: "Reader", place: int, misfit: Misfit) -> Said:
    wanted = any_of(misfit.wanted)
    if misfit.rule == "TOODEEP":
        return Said(f"this goes too deep: {wanted} are allowed")
    found = TOKEN.match(reader.source.clean, place)
    word = shown(found[0]) if found else ""
    stands = f"found {word}, wanted {wanted}" if found else f"the text ends, wanted {wanted}"
    why = why_not(reader, place, word, misfit)
    return Said(f"{stands}: {why.sentence}", why) if why else Said(stands)


def why_not(reader: "Reader", place: int, word: str, misfit: Misfit) -> Optional[Hint]:
    """What is probably wrong, or None."""
    lines, node, frame = reader.source.lines, misfit.node, misfit.frame
    comment = swallowing(reader, place)
    if comment is not None:
        told = f"the != of line {lines.line(comment)} begins a comment; write <>"
        return Hint(told, comment, (Edit(comment, comment + 2, "<>"),))
    if misfit.stop is not None and node is not None:
        return of_phrase(reader, word, node, misfit.shift, misfit.stop)
    if node is not None and node.kind == "label" and frame is not None and frame.node is not None:
        told = f"a label stands in no other statement, and {told_frame(frame, lines)} is open"
        start = node.first.place + misfit.shift
        return Hint(told, frame.place, before_label(reader, start) or no_label(reader, start))
    if len(reader.frames) > 1 and reader.section == "running":
        return of_list(reader, word, lines, place)
    if word in OPENERS and reader.section == "running":
        return Hint(f"no {OPENERS[word]} is open here")
    return of_section(reader, word, lines, place)


def told_frame(frame: "Frame", lines: Lines) -> str:
    return f"the {NAMED[frame.state]} of line {lines.line(frame.place)}"


def line_before(reader: "Reader", place: int, line: str, as_of: Optional[int] = None) -> Edit:
    """A line that is put in before the one of a place, as deep as the line of another place; within
    a line, only its words are put in.
    """
    text, lines = reader.source.text, reader.source.lines
    start = lines.start(place)
    if text[start:place].strip(" \t"):
        return Edit(place, place, f"{line} " if place < len(text) else f"\n{line}\n")
    deep = start if as_of is None else lines.start(as_of)
    blanks = text[deep : deep + 200]
    return Edit(start, start, f"{blanks[: len(blanks) - len(blanks.lstrip(' '))]}{line}\n")


def swallowing(reader: "Reader", place: int) -> Optional[int]:
    """The place of a comment before a word that begins with !=, or None."""
    text, clean = reader.source.text, reader.source.clean
    end = clean.rfind("\n", 0, place)
    start = clean.rfind("\n", 0, end) + 1 if end > 0 else 0
    found = text.find("!=", start, end) if 0 < end < place and end - start < 10000 else -1
    between = clean[end:place].strip() if found >= 0 else "-"
    return (
        found
        if found >= 0 and not between and clean[found] == " " and "!" not in text[start:found]
        else None
    )


def of_list(reader: "Reader", word: str, lines: Lines, place: int) -> Optional[Hint]:
    """A list of statements goes on in a way that it cannot."""
    frame = reader.frames[-1]
    if frame.state == "CASE" or word == "ESAC" and frame.state == "WHEN":
        missing = "WHEN" if frame.state == "CASE" and word != "ESAC" else "OTHERWISE"
        edits = (line_before(reader, place, "OTHERWISE DO", place),) if word == "ESAC" else ()
        return Hint(f"{told_frame(frame, lines)} has no {missing}", frame.place, edits)
    if (
        word in ("ENTER", "END", "BLOCK", "")
        or OPENERS.get(word, NAMED[frame.state]) != NAMED[frame.state]
    ):
        return of_open_lists(reader, word, lines, place)
    if word == "ELSE":
        return Hint(f"{told_frame(frame, lines)} has an ELSE already", frame.place)
    if word == "WHEN":
        told = f"OTHERWISE is the last part of {told_frame(frame, lines)}"
        return Hint(told, frame.place)
    return Hint(KEYWORD_SAID.format(word)) if word in KEYWORDS else None


def of_open_lists(reader: "Reader", word: str, lines: Lines, place: int) -> Hint:
    """A statement that holds others has no end where all of them must have ended."""
    frames = reader.frames[:0:-1]
    frame, open_ones = frames[0], [told_frame(one, lines) for one in frames]
    others = f" (open as well: {', '.join(open_ones[1:5])})" if len(open_ones) > 1 else ""
    told = f"{open_ones[0]} has no {CLOSERS[frame.state]}{others}"
    ends = [] if word not in ("ENTER", "END", "BLOCK", "") else frames
    ends = ends or frames[:1]
    return Hint(told, frame.place, ends_of(reader, ends, place))


def ends_of(reader: "Reader", frames: Sequence["Frame"], place: int) -> Tuple[Edit, ...]:
    """The ends of open statements, the innermost one first, where their lines tell, or else before
    a place; none of a CASE without OTHERWISE.
    """
    if any(one.state in ("CASE", "WHEN") for one in frames):
        return ()
    line = " ".join(f"{CLOSERS[one.state]};" for one in frames)
    edits = ends_by_indent(reader, frames, place)
    return tuple(edits or [line_before(reader, place, line, frames[-1].place)])


def before_label(reader: "Reader", place: int) -> Tuple[Edit, ...]:
    """The ends of what is open at a label, where none of it ends later."""
    if closes_later(reader.source.clean, place):
        return ()
    return ends_of(reader, reader.frames[:0:-1], place)


def no_label(reader: "Reader", place: int) -> Tuple[Edit, ...]:
    """A label to which nothing goes is left out, with its line where it stands alone there."""
    clean = reader.source.clean
    label = LABEL.match(clean, place)
    if not label or len(clean) > MOST_SEARCHED or re.search(rf"\bGOTO\s+{label[1]}\b", clean):
        return ()
    line = LINE_OF_LABEL.match(reader.source.text, reader.source.lines.start(place))
    span = (line or label).span()
    return (Edit(*span, ""),)


KEYWORD_SAID = "no statement begins with {}"


def of_section(reader: "Reader", word: str, lines: Lines, at: int) -> Optional[Hint]:
    """A part of a text is missing, or stands elsewhere, or begins with no keyword."""
    section = reader.section
    if section in BEGIN and word.isalpha() and word not in KEYWORDS:
        meant = near(word, BEGIN[section])
        if meant:
            told = f"{word} is no keyword; {meant} is"
            return Hint(told, None, (Edit(at, at + len(word), meant),))
        if section == "surveyed" and NAME_ALONE.match(reader.source.clean, at):
            return Hint("a line of a survey begins with RECEIVE or SEND")
    if section == "top":
        if word == "SIGNAL":
            return Hint("signals stand before the first block")
        if word == "DECLARE":
            told = "the first line of a block is missing, as BLOCK K;"
            return Hint(told, None, (line_before(reader, at, "BLOCK K;"),))
        return (
            Hint("behind END BLOCK; another block may follow, and nothing else")
            if reader.has_blocks
            else None
        )
    place: Optional[int] = getattr(reader, "block_place", None)
    begun = "the block" if place is None else f"the block of line {lines.line(place)}"
    if word in ("BLOCK", "") and section != "begun":
        is_end = section == "running"
        edits = missing_line(reader, at, "END BLOCK;", place) if is_end else ()
        return Hint(f"{begun} has no END BLOCK;", place, edits)
    if section == "begun":
        return Hint(f"{begun} has no DECLARE;", place, missing_line(reader, at, "DECLARE;", place))
    if word == "FIELD":
        return Hint("a FIELD stands directly behind its FILE")
    if section == "declared" and word in ("RECEIVE", "SEND", "PROGRAM", "ENTER"):
        is_survey = word in ("RECEIVE", "SEND", "PROGRAM")
        edits = missing_line(reader, at, "SURVEY;", place) if is_survey else ()
        return Hint(f"{begun} has no SURVEY;", place, edits)
    if section == "surveyed":
        if word in ("VARIABLE", "TEMPORARY", "FILE", "FORLOPP"):
            return Hint("declarations stand between DECLARE; and SURVEY;")
        return Hint(f"{begun} has no PROGRAM;", place, missing_line(reader, at, "PROGRAM;", place))
    if word in ("VARIABLE", "TEMPORARY", "FILE", "FORLOPP"):
        return Hint("declarations stand between DECLARE; and SURVEY;")
    if word == "RECEIVE":
        return Hint("lines of the survey stand between SURVEY; and PROGRAM;")
    if word == "SIGNAL":
        return Hint("signals stand before the first block")
    if word == ";":
        return Hint("there is no empty statement", None, (Edit(at, at + 1, ""),))
    meant = near(word, KEYWORDS) if word.isalpha() and word not in KEYWORDS else None
    if meant:
        return Hint(f"{word} is no keyword; {meant} is", None, (Edit(at, at + len(word), meant),))
    return Hint(KEYWORD_SAID.format(word)) if word in KEYWORDS else None


def missing_line(reader: "Reader", place: int, line: str, block: Optional[int]) -> Tuple[Edit, ...]:
    """A line that ends a part of a block, as deep as the first line of the block."""
    if block is None or not is_first(reader, place):
        return (line_before(reader, place, line),)
    return (line_behind(reader, place, line, block),)


def of_phrase(reader: "Reader", word: str, node: Node, shift: int, stop: Stop) -> Optional[Hint]:
    """A phrase goes on in a way that it cannot."""
    first, lines, words = node.first, reader.source.lines, node.first.piece.words
    place, begun = first.piece.place(stop.index) + shift, first.place + shift
    if stop.wants_name() and word in KEYWORDS:
        return Hint(f"{word} is a keyword, and no name")
    before = words[stop.index - 1] if stop.index else ""
    if word in (">", "<") and before == "=" or word == "=" and before in ("=", ">", "<"):
        return of_relation(word, before, first.piece.place(stop.index - 1) + shift, place)
    if word == "-" and stop.wanted[0].startswith("a number,"):
        told = "a minus sign stands between two operands: write 0 - 1 for -1"
        return Hint(told, None, (Edit(place, place, "0 "),))
    end = first.piece.place(stop.index - 1) + shift + len(before)
    is_whole = not reader.source.text[end:place].strip()
    if word == "+" and is_whole and stop.wanted[0].startswith("a number,"):
        return Hint("a plus sign stands between two operands", None, (Edit(place, place + 1, ""),))
    if word in RELATIONS and stop.wanted[0] == ")":
        return Hint("a condition has no brackets around it", None, unbracketed(node, shift, stop))
    if stop.wanted == ["the name of a temporary"] and word.isdigit():
        return Hint("a pointer is a temporary: put the number into one before")
    if stop.wanted[0] == "=" and len(stop.wanted) == 3:
        meant = near(first.text, KEYWORDS)
        if not meant:
            return None
        edit = Edit(begun, begun + len(first.text), meant)
        return Hint(f"{shown(first.text)} is no keyword; {meant} is", None, (edit,))
    if word == ";" and stop.wanted == ["WIDTH"]:
        told = "each variable and field has a WIDTH; 32 bits hold any value"
        return Hint(told, None, (Edit(place, place, " WIDTH 32"),))
    if first.text == "END" and stop.wanted == ["BLOCK"]:
        return Hint("a block ends by END BLOCK;", None, (Edit(place, place, " BLOCK"),))
    if first.text == "SEIZE" and stop.wanted[0] in ("ELSE", "GOTO"):
        return Hint("SEIZE ends in ELSE GOTO and a label, for when no record is free")
    if stop.wanted == ["THEN", "GOTO"]:
        then = () if word in ("", ";", ")") else (Edit(end, end, " THEN"),)
        return Hint(f"the IF of line {lines.line(begun)} has neither", begun, then)
    noun = NOUNS.get(first.text, "statement")
    if stop.complete:
        if word in LATE:
            return Hint(LATE[word])
        if noun == "statement" and reader.section == "surveyed":
            noun = "line of the survey"
        return Hint(f"the {noun} of line {lines.line(begun)} has no end", begun, ends_at(end))
    if not word:
        return Hint(f"the {noun} of line {lines.line(begun)} is not whole", begun)
    meant = near(word, [one for one in stop.wanted if one in KEYWORDS])
    if not meant or word in KEYWORDS:
        return None
    return Hint(f"{word} is no keyword; {meant} is", None, (Edit(place, place + len(word), meant),))


def ends_at(place: int) -> Tuple[Edit, ...]:
    return (Edit(place, place, ";"),)


def of_relation(word: str, before: str, start: int, place: int) -> Hint:
    """A relation of two marks that is none."""
    meant = "=" if word == before else f"{word}=" if before == "=" else f"{before}="
    edits = (Edit(start, place + 1, meant),)
    if before == "=" and word != "=":
        return Hint(f"write {meant}", None, edits)
    return Hint("a relation is one of " + " ".join(RELATIONS), None, edits)


def unbracketed(node: Node, shift: int, stop: Stop) -> Tuple[Edit, ...]:
    """A condition without the bracket that is open at a word, nor the one that closes it."""
    words, piece, at = node.first.piece.words, node.first.piece, stop.index - 1
    closed = 0
    while at > node.first.index and (closed or words[at] != "("):
        closed += (words[at] == ")") - (words[at] == "(")
        at -= 1
    end, opened = stop.index, 0
    while end < len(words) and (opened or words[end] != ")"):
        opened += (words[end] == "(") - (words[end] == ")")
        end += 1
    if words[at] != "(" or end >= len(words):
        return ()
    places = [piece.place(place) + shift for place in (at, end)]
    return tuple(Edit(place, place + 1, "") for place in places)
