"""What is said beside the sentences of the faults and warnings of an exchange text: which part of
it is marked, where the names are declared that matter, what cures it, and what has one cause.

`Adviser(checker, file).of(rule, place)` gives the advice for a fault or a warning that a checker
has told, by what it has found in the text. An edit is proposed only where one cure is likelier than
all others; where there is none, the cure is said in words, or not at all.
"""
import re
from bisect import bisect_right
from typing import Callable, Dict, List, Optional, Set, Tuple

from plextools.limits import MOST_RECORDS, MOST_VALUES, MOST_WIDTH
from plextools.text.closers import is_first, line_behind
from plextools.text.faults import Block, Declared, Signal
from plextools.text.finding import SMALL_LETTERS, Advice, Edit, Note, Span
from plextools.text.hints import near
from plextools.text.tokens import KEYWORDS, TOKEN, value_of
from plextools.text.warnings import Oddities, is_near_keyword, statement_in

WORD = re.compile(r"[A-Z][A-Z0-9]*|[0-9]+|\S")
WRITTEN = re.compile(r"[A-Za-z_][A-Za-z0-9_]*")
POINTED = re.compile(r"[A-Z][A-Z0-9]*[ \t\r\n]*\([ \t\r\n]*$")
WITH = re.compile(r"\bWITH\b([^;]*)")
FREED = re.compile(r"[A-Z][A-Z0-9]*\s+IN\s+([A-Z][A-Z0-9]*)")
POINTER = re.compile(r"([A-Z][A-Z0-9]*)\s*$")
ASSIGNED = re.compile(r"[A-Z][A-Z0-9]*\s*(?:\(\s*[A-Z][A-Z0-9]*\s*\)\s*)?$")
PHRASE_END = re.compile(r";|\b(?:THEN|DO|IS)\b")
RELATION_END = re.compile(r"\s*(?:;|\b(?:AND|OR|THEN|GOTO)\b)")
MOST_SEARCHED, MOST_USES = 2**18, 1000
OF_TEMPORARIES = ("ON", "FIRST", "SEIZE", "FREE")
GIVEN = ("give", "value", "values")
DECLARING = re.compile(r"\b(?:DECLARE|VARIABLE|TEMPORARY)\b")
LABELS = {
    "BADBYTE": "no token begins here",
    "BADNUMBER": "too large",
    "LONGNAME": "too long",
    "UNEXPECTED": "does not fit here",
    "TOODEEP": "one too many",
    "ENDED": "the text ends here",
    "N1": "declared once more",
    "N7": "no such label",
    "N13": "the 65th operand",
    "N15": "the second one",
    "N17": "no such block",
    "NORECEIVER": "no block receives it",
    "NEEDSREFERENCE": "to which block?",
    "NOTINSURVEY": "not in the survey",
    "TWOENTERS": "entered once more",
    "NOENTER": "received, and not entered",
    "RUNSON": "the entry above runs on to here",
    "NOFREE": "never freed",
    "UNREACHED": "not reached",
    "RUNSINTO": "the way above runs on to here",
    "ENDLESS": "goes round for ever",
    "TOOWIDE": "does not fit",
    "NORECORD": "no such record",
    "BYZERO": "is 0",
    "CONSTANT": "constant",
    "NOTURN": "no turn",
    "NEVERREAD": "not read",
    "LOST": "not freed on each way",
    "UNUSED": "not used",
    "KEYWORD": "a name",
}
MORE_ROOM = "use one temporary for two things in turn, or make two blocks"


class Adviser:
    """Says what is to be done about what a checker has found in a text."""

    def __init__(self, checker: Oddities, file: int = 0) -> None:
        self.checker, self.file = checker, file
        self.text, self.clean = checker.source.text, checker.source.clean
        self.lines = checker.source.lines
        self.starts = [block.place for block in checker.blocks]
        self.as_temporary: Set[Tuple[int, str]] = set()
        self.counts: Dict[str, List[int]] = {}  # of the values of the statements of signals
        for _, place, _, rule, _ in checker.found:
            if rule == "N6" and self.role(place) == "temporary":
                self.as_temporary.add((self.block_at(place).number, self.name(place)))

    def of(self, rule: str, place: int) -> Advice:
        """The advice for a rule or a word of a warning that is told at a place."""
        advice = ADVICE[rule](self, place) if rule in ADVICE else self.plain(place)
        return advice if advice.label else advice._replace(label=LABELS.get(rule, ""))

    # the text

    def span(self, place: int) -> Span:
        """The word at a place, or what stands there in place of one."""
        found = TOKEN.match(self.clean, place) or WORD.match(self.text, place)
        return Span(place, found.end() if found else place)

    def name(self, place: int) -> str:
        found = TOKEN.match(self.clean, place)
        return found[0] if found else ""

    def before(self, place: int) -> str:
        """The word before a place."""
        end = len(self.clean[max(0, place - 5000) : place].rstrip())
        start = max(0, place - 5000)
        found = re.search(r"([A-Z0-9]+|[^A-Z0-9\s])$", self.clean[start : start + end])
        return found[0] if found else ""

    def phrase(self, place: int) -> Span:
        """The phrase of a word, with its semicolon."""
        start = self.clean.rfind(";", 0, place) + 1
        start += len(self.clean[start:place]) - len(self.clean[start:place].lstrip())
        end = self.clean.find(";", place)
        return Span(start, len(self.clean) if end < 0 else end + 1)

    def block_at(self, place: int) -> Block:
        """The block in which a place is."""
        return self.checker.blocks[max(bisect_right(self.starts, place) - 1, 0)]

    def role(self, place: int) -> str:
        """As what a name is used at a place: value, field or temporary."""
        end = self.span(place).end
        if self.clean[end : end + 200].lstrip()[:1] == "(":
            return "field"
        before = self.before(place)
        if before in OF_TEMPORARIES:
            return "temporary"
        if before == "(" and POINTED.search(self.clean, max(0, place - 200), place):
            behind = self.clean[max(0, place - 200) : place]
            return "value" if re.search(r"\bREFERENCE\s*\(\s*$", behind) else "temporary"
        first = self.name(self.phrase(place).start)
        return "temporary" if first in ("ENTER", "RETRIEVE") else "value"

    def declared(self, place: int, what: str = "declared here") -> Note:
        return Note(what, self.file, self.span(place))

    def of_signal(self, name: str) -> Tuple[Note, ...]:
        """Where a signal is declared."""
        signal = self.checker.signals.get(name)
        return (self.declared(signal.place, f"{name} is declared here"),) if signal else ()

    def plain(self, place: int) -> Advice:
        return Advice(self.span(place))

    def replaced(self, place: int, text: str) -> Tuple[Edit, ...]:
        return (Edit(*self.span(place), text),)

    def behind(self, place: int, text: str) -> Edit:
        """What is put in behind the last phrase before a place: on a line of its own where that
        phrase has one, as deep, and else on the same line.
        """
        end = self.clean.rfind(";", 0, place) + 1
        if not end:
            return Edit(0, 0, f"{text}\n")
        start = self.lines.start(end - 1)
        line = self.clean[start : end + 200].split("\n", 1)[0]
        if line.count(";") > 1 or line[end - start :].strip():
            return Edit(end, end, f" {text}")
        deep = len(line) - len(line.lstrip(" "))
        return Edit(end, end, f"\n{' ' * deep}{text}")

    def head(self, block: Block, word: str) -> Optional[int]:
        """Where a part of a block begins."""
        found = re.compile(rf"\b{word}\b").search(self.clean, block.place)
        return found.start() if found else None

    # tokens and grammar

    def of_byte(self, place: int) -> Advice:
        found = WRITTEN.match(self.text, place) or WRITTEN.match(self.text, self.word_start(place))
        if not found or found[0].upper() == found[0]:
            return self.of_mark(place)
        span, meant = Span(found.start(), found.end()), found[0].upper()
        if "_" in meant:
            return self.of_mark(place)
        edits = (Edit(*span, meant),)
        return Advice(span, "small letters", (), f"write {meant}", edits, SMALL_LETTERS)

    def word_start(self, place: int) -> int:
        while place and (self.text[place - 1].isalnum() or self.text[place - 1] == "_"):
            place -= 1
        return place

    def of_mark(self, place: int) -> Advice:
        """A byte that no word may have, alone or in a word."""
        start = self.word_start(place)
        found = WRITTEN.match(self.text, start)
        if self.text[place : place + 1] == "_" and found:
            meant = found[0].upper().replace("_", "")
            span = Span(start, found.end())
            fits = meant and meant not in KEYWORDS
            edits = (Edit(*span, meant),) if fits else ()
            cure = f"write {meant}, here and where it is declared" if fits else ""
            return Advice(span, "", (), cure, edits, ("BADBYTE", found[0]))
        if self.text.startswith(":=", place):
            return Advice(Span(place, place + 2), "", (), "write =", (Edit(place, place + 1, ""),))
        string = re.compile(r"\"[^\"\n]*\"|'[^'\n]*'").match(self.text, place)
        if string:
            return Advice(Span(place, string.end()), "no string")
        run = re.compile(r"[^A-Za-z0-9_;,()=+*/<> \t\r\n-]+").match(self.text, place)
        return Advice(Span(place, run.end() if run else place + 1))

    def of_grammar(self, place: int) -> Advice:
        hint = self.checker.hints.get(place)
        span = self.span(place)
        if hint is None:
            return Advice(span)
        notes: Tuple[Note, ...] = ()
        if hint.begun is not None and hint.begun != place:
            word = self.name(hint.begun)
            noun = word if word in KEYWORDS else "statement" if word else "comment"
            notes = (self.declared(hint.begun, f"the {noun} begins here"),)
        return Advice(span, "", notes, self.edited(hint.edits), hint.edits)

    def edited(self, edits: Tuple[Edit, ...]) -> str:
        """What edits do, in words."""
        if not edits:
            return ""
        words = " and ".join(text.strip() for _, _, text in edits if text.strip())
        if not words:
            return "leave the brackets out" if len(edits) > 1 else "leave it out"
        start, end, _ = edits[0]
        if words == ";":
            return "end it by a semicolon"
        return f"add {words}" if start == end else f"write {words}"

    # declarations

    def of_twice(self, place: int) -> Advice:
        first = self.first_of(place)
        notes = (self.declared(first, "declared here first"),) if first is not None else ()
        return Advice(self.span(place), "", notes, "give one of the two another name")

    def first_of(self, place: int) -> Optional[int]:
        """Where the name at a place is declared first."""
        name = self.name(place)
        is_in_block = self.checker.blocks and place > self.starts[0]
        found: List[int] = []
        if is_in_block:
            block = self.block_at(place)
            known: Optional[Declared] = block.names.get(name)
            found += [known.place] if known else []
            found += [block.labels[name]] if name in block.labels else []
        named = self.checker.block_names.get(name)
        found += [named.place] if named and self.before(place) == "BLOCK" else []
        signal = self.checker.signals.get(name)
        found += [signal.place] if signal and not is_in_block else []
        return next((one for one in found if one < place), None)

    def of_width(self, place: int) -> Advice:
        edits = self.replaced(place, str(MOST_WIDTH)) if self.number(place) > MOST_WIDTH else ()
        cure = f"{MOST_WIDTH} bits are the most; cut a larger value in two" if edits else ""
        return Advice(self.span(place), "1 to 32", (), cure, edits)

    def number(self, place: int) -> int:
        return value_of(self.name(place)) or 0

    def of_init(self, place: int) -> Advice:
        at = self.clean.rfind("WIDTH", 0, place)
        found = re.compile(r"WIDTH\s*([0-9]+)").match(self.clean, at)
        bits = self.number(place).bit_length()
        if not found or bits > MOST_WIDTH:
            return self.plain(place)
        width = Span(found.start(1), found.end(1))
        edits = (Edit(*width, str(bits)),)
        note = Note(f"the width is {found[1]}", self.file, width)
        return Advice(self.span(place), "does not fit", (note,), f"{bits} bits hold it", edits)

    def of_size(self, place: int) -> Advice:
        size = "1" if not self.number(place) else str(MOST_RECORDS)
        return Advice(
            self.span(place), "1 to 65535", (), f"write {size}", self.replaced(place, size)
        )

    def of_data(self, place: int) -> Advice:
        cure = f"send two signals, or two values in one number; {MOST_VALUES} values are the most"
        return Advice(self.span(place), "over 8", (), cure)

    def of_temporaries(self, place: int) -> Advice:
        return Advice(self.span(place), "the 25th", (), MORE_ROOM)

    # names

    def of_name(self, place: int) -> Advice:
        name, block = self.name(place), self.block_at(place)
        known: Optional[Declared] = block.names.get(name)
        cause = ("N6", block.number, name)
        if known is None:
            return self.of_undeclared(place, name, block)._replace(cause=cause)
        notes = (self.declared(known.place),)
        cure = ""
        if known.kind == "field":
            file = f", with the number of a record of {known.file.name}" if known.file else ""
            cure = f"write {name}(P), where P is a temporary{file}"
        elif known.kind == "variable" and self.role(place) == "temporary":
            cure = f"put {name} into a temporary before, and name that"
        return Advice(self.span(place), f"{known.told()}", notes, cure, (), cause)

    def of_undeclared(self, place: int, name: str, block: Block) -> Advice:
        role = self.role(place)
        wanted = self.names_of(block, role)
        meant = near(name, wanted) if len(wanted) < 2000 else None
        span = self.span(place)
        if meant:
            notes = (self.declared(block.names[meant].place, f"{meant} is declared here"),)
            return Advice(span, "not declared", notes, f"write {meant}", (Edit(*span, meant),))
        if role == "field":
            return self.of_undeclared_field(span, name, block)
        is_temporary = (block.number, name) in self.as_temporary
        line = f"TEMPORARY {name};" if is_temporary else f"VARIABLE {name} WIDTH 16;"
        edits = self.declaring(block, line)
        cure = "declare it, or as a TEMPORARY where no later job needs it; the WIDTH is a guess"
        return Advice(span, "not declared", (), "declare it" if is_temporary else cure, edits)

    def declaring(self, block: Block, line: str) -> Tuple[Edit, ...]:
        """A declaration that is put in behind the last one of its kind, or behind DECLARE."""
        survey = self.head(block, "SURVEY")
        if survey is None:
            return ()
        last = block.place
        for found in DECLARING.finditer(self.clean, block.place, survey):
            last = found.start()
        return (self.behind(self.phrase(last).end, line),)

    def names_of(self, block: Block, role: str) -> List[str]:
        kinds = {"value": ("variable", "temporary")}.get(role, (role,))
        return [name for name, one in block.names.items() if one.kind in kinds]

    def of_undeclared_field(self, span: Span, name: str, block: Block) -> Advice:
        files = [one for one in block.names.values() if one.kind == "file"]
        cure = f"declare it behind its FILE: FIELD {name} WIDTH 16;"
        if len(files) != 1:
            return Advice(span, "not declared", (), cure)
        fields = files[0].fields
        last = block.names[fields[-1]].place if fields else files[0].place
        end = self.clean.find(";", last)
        edit = self.behind(end + 1, f"FIELD {name} WIDTH 16;")
        return Advice(span, "not declared", (), f"{cure} The WIDTH is a guess", (edit,))

    def of_label(self, place: int) -> Advice:
        name, block = self.name(place), self.block_at(place)
        meant = near(name, block.labels) if len(block.labels) < 2000 else None
        cause = ("N7", block.number, name)
        if meant:
            notes = (self.declared(block.labels[meant], f"{meant} stands here"),)
            edits = self.replaced(place, meant)
            return Advice(self.span(place), "", notes, f"write {meant}", edits, cause)
        cure = f"put {name}) before the statement to go to"
        return Advice(self.span(place), "", (), cure, (), cause)

    def of_file(self, place: int) -> Advice:
        """FOR FIRST, SEIZE or FREE in a file that is of another kind, or has no such field."""
        known: Optional[Declared] = self.block_at(place).names.get(self.name(place))
        notes = (self.declared(known.place),) if known else ()
        return Advice(self.span(place), known.told() if known else "not declared", notes)

    def of_block_name(self, place: int) -> Advice:
        meant = near(self.name(place), self.checker.block_names)
        cause = ("N17", self.name(place))
        if not meant:
            return Advice(self.span(place), cause=cause)
        edits = self.replaced(place, meant)
        return Advice(self.span(place), "", (), f"write {meant}", edits, cause)

    # signals

    def of_kind(self, place: int) -> Advice:
        name = self.name(place)
        signal = self.checker.signals.get(name)
        if signal:
            return self.of_other_kind(place, signal)
        meant = self.near_signal(name)
        cause, span = ("N10", name), self.span(place)
        if meant:
            notes, edits = self.of_signal(meant), (Edit(*span, meant),)
            return Advice(span, "not declared", notes, f"write {meant}", edits, cause)
        line = self.signal_line(name)
        if not line:
            cure = "declare it as the ANSWER of a combined signal"
            return Advice(span, "not declared", (), cure, (), cause)
        first = self.clean.rfind("BLOCK", 0, self.starts[0]) if self.starts else 0
        edits = (self.behind(max(first, 0), line),)
        cure = "declare it before the first block; the kind and the level are a guess"
        return Advice(span, "not declared", (), cure, edits, cause)

    def of_other_kind(self, place: int, signal: Signal) -> Advice:
        notes = self.of_signal(signal.name)
        if signal.kind != "OUTSIDE" or self.before(place) != "SEND":
            return Advice(self.span(place), "of another kind", notes)
        end = self.phrase(place).end
        found = re.compile(r"\s*\bREFERENCE\s*(?:\([^);]*\)|[A-Z0-9]+)").search(
            self.clean, place, end
        )
        edits = (Edit(found.start(), found.end(), ""),) if found else ()
        cure = "leave REFERENCE out" if found else ""
        return Advice(self.span(place), "an outside signal", notes, cure, edits)

    def near_signal(self, name: str) -> Optional[str]:
        return near(name, self.checker.signals) if len(self.checker.signals) < 2000 else None

    def signal_line(self, name: str) -> str:
        """A declaration of a signal, by how it is used; none for an answer."""
        if self.used(rf"\b(?:RETRIEVE|RETURN)\s+{name}\b"):
            return ""
        sent = self.used(rf"\b(?:ENTER|SEND)\s+{name}\b([^;]{{0,2000}}?\bWITH\b[^;]{{0,2000}})")
        count = self.values_in(sent[1]) if sent else 0
        is_direct = self.used(rf"\bTRANSFER\s+{name}\b")
        kind = "SINGLE DIRECT" if is_direct else "SINGLE BUFFERED B"
        return f"SIGNAL {name} {kind} DATA {count};"

    def used(self, pattern: str) -> Optional["re.Match[str]"]:
        """How a name is used, in a text that is not too long to be searched for each name."""
        return re.compile(pattern).search(self.clean, 0, MOST_SEARCHED)

    def values_in(self, phrase: str) -> int:
        found = WITH.search(phrase)
        return found[1].count(",") + 1 if found else 0

    def of_values(self, place: int) -> Advice:
        name = self.signal_of(place)
        signal = self.checker.signals.get(name)
        phrase = self.phrase(place)
        given = self.values_in(self.clean[place : phrase.end])
        count = signal.count if signal else None
        plain = Advice(Span(place, phrase.end), f"{given} of {count}", self.of_signal(name))
        if signal and self.is_always_given(name, given):
            edits = self.declared_with(signal, given)
            cure = f"declare it so: each statement of {name} has {given}"
            return plain._replace(cure=cure, edits=edits, cause=("N11", name))
        taken = self.name(place) in ("ENTER", "RETRIEVE")
        verb, one, many = ("name", "temporary", "temporaries") if taken else GIVEN
        cure = f"{verb} {count} {one if count == 1 else many} here, or declare {name} with"
        cure += f" DATA {given}"
        return plain._replace(cure=cure)

    def is_always_given(self, name: str, given: int) -> bool:
        """Whether several statements have a signal, and each has so many values."""
        if name not in self.counts:
            places = self.statements_of(name)
            self.counts[name] = [
                self.values_in(self.clean[at : self.phrase(at).end]) for at in places[:MOST_USES]
            ]
        counts = self.counts[name]
        return len(counts) > 1 and set(counts) == {given} and given <= MOST_VALUES

    def statements_of(self, name: str) -> List[int]:
        """Where statements have a signal."""
        places = [at for block in self.checker.blocks for at in block.enters.get(name, ())]
        for block in self.checker.blocks:
            for sending, some in block.sent.items():
                places += some if sending.name == name else ()
        answers = re.compile(rf"\b(?:RETRIEVE|RETURN)\s+{name}\b")
        found = answers.finditer(self.clean, 0, MOST_SEARCHED)
        return places + [one.start() for one in found]

    def declared_with(self, signal: Signal, count: int) -> Tuple[Edit, ...]:
        """A declaration with another number of values."""
        found = re.compile(r"\bDATA\s+([0-9]+)").search(self.clean, signal.place)
        return (Edit(found.start(1), found.end(1), str(count)),) if found else ()

    def signal_of(self, place: int) -> str:
        """The signal of the statement at a place."""
        found = re.compile(r"[A-Z]+\s+([A-Z][A-Z0-9]*)").match(self.clean, place)
        return found[1] if found else ""

    def whole(self, place: int) -> Span:
        """A statement up to its signal."""
        found = re.compile(r"[A-Z]+\s+[A-Z][A-Z0-9]*").match(self.clean, place)
        return Span(place, found.end()) if found else self.span(place)

    def of_answer(self, place: int) -> Advice:
        name = self.signal_of(place)
        signal: Optional[Signal] = self.checker.signals.get(name)
        is_sent = self.name(place) == "SEND"
        cure = ""
        if signal and signal.answer and is_sent:
            cure = f"put RETRIEVE {signal.answer} directly behind it"
            answer = self.checker.signals.get(signal.answer)
            if answer and answer.count == 0:
                line = self.behind(self.phrase(place).end, f"RETRIEVE {signal.answer};")
                return Advice(self.whole(place), "", self.of_signal(name), cure, (line,))
        elif signal and signal.answer:
            cure = f"put SEND {signal.answer} directly before it"
        return Advice(self.whole(place), "", self.of_signal(name), cure)

    def of_fresh(self, place: int) -> Advice:
        phrase = self.phrase(place)
        found = re.compile(r"\s*\bNEW\s+FORLOPP").search(self.clean, place, phrase.end)
        edits = (Edit(found.start(), found.end(), ""),) if found else ()
        cure = "leave NEW FORLOPP out: the receiver is of the forlopp of the sender"
        notes = self.of_signal(self.signal_of(place))
        return Advice(self.whole(place), "", notes, cure if edits else "", edits)

    # links

    def receivers(self, name: str) -> List[Block]:
        return [block for block in self.checker.blocks if name in block.receives]

    def received(self, name: str) -> Tuple[Note, ...]:
        """Where a signal is received, at most in three blocks."""
        return tuple(
            self.declared(block.receives[name], f"{block.told()} receives it here")
            for block in self.receivers(name)[:3]
        )

    def of_receiver(self, place: int) -> Advice:
        name = self.signal_of(place)
        entered = [block for block in self.checker.blocks if name in block.enters]
        if len(entered) == 1:
            at = entered[0].enters[name][0]
            advice = self.of_survey(at)
            note = self.declared(at, f"{entered[0].told()} enters it here")
            return advice._replace(span=self.whole(place), notes=(note,))
        cure = f"put RECEIVE {name}; into the survey of the block that is to get it, and ENTER"
        cure += f" {name} into its program"
        cause = ("NORECEIVER", name)
        return Advice(self.whole(place), "", self.of_signal(name), cure, (), cause)

    def of_reference(self, place: int) -> Advice:
        name = self.signal_of(place)
        named = [block.name for block in self.receivers(name) if block.name]
        cure = "say which one, behind the name of the signal" if named else ""
        cause = ("NEEDSREFERENCE", name)
        return Advice(self.whole(place), "", self.received(name), cure, (), cause)

    def of_wrong_receiver(self, place: int) -> Advice:
        name = self.signal_of(place)
        phrase = self.phrase(place)
        found = re.compile(r"REFERENCE\s+([A-Z][A-Z0-9]*)").search(self.clean, place, phrase.end)
        if not found:
            return self.plain(place)
        span = Span(found.start(1), found.end(1))
        named = [block.name for block in self.receivers(name) if block.name]
        meant = named[0] if len(named) == 1 else near(found[1], named)
        edits = (Edit(*span, meant),) if meant else ()
        cause = ("NOTRECEIVED", name, found[1])
        cure = f"write {meant}" if meant else ""
        return Advice(span, "does not receive it", self.received(name), cure, edits, cause)

    def of_survey(self, place: int) -> Advice:
        name, block = self.signal_of(place), self.block_at(place)
        way = "RECEIVE" if self.name(place) == "ENTER" else "SEND"
        program = self.head(block, "PROGRAM")
        others = block.receives if way == "RECEIVE" else block.sends
        last = self.phrase(max(others.values())).end if others else program
        edits = (self.behind(last, f"{way} {name};"),) if last else ()
        cause = ("NOTINSURVEY", block.number, way, name)
        cure = "put it into the survey" if edits else ""
        return Advice(self.whole(place), "", (), cure, edits, cause)

    def of_two_enters(self, place: int) -> Advice:
        name = self.signal_of(place)
        places = self.block_at(place).enters.get(name)
        notes = (self.declared(places[0], "entered here first"),) if places else ()
        cure = "put a label behind the first ENTER, and go there"
        return Advice(self.whole(place), "", notes, cure)

    def of_no_enter(self, place: int) -> Advice:
        name = self.signal_of(place)
        signal = self.checker.signals.get(name)
        values = f" WITH {counted_names(signal.count)}" if signal and signal.count else ""
        cure = f"put ENTER {name}{values}; and what is to be done into the program"
        return Advice(self.whole(place), "", self.of_signal(name), cure)

    # warnings

    def of_entry(self, place: int) -> Advice:
        block = self.block_at(place)
        before = [at for places in block.enters.values() for at in places if at < place]
        notes = (self.declared(max(before), "the entry begins here"),) if before else ()
        is_alone = is_first(self.checker, place)
        edit = Edit(place, place, "EXIT; ")
        if is_alone:
            edit = line_behind(self.checker, place, "EXIT;", place)
        return Advice(self.whole(place), "", notes, "end it before", (edit,))

    def of_comment(self, place: int) -> Advice:
        end = self.text.find("\n", place)
        end = len(self.text) if end < 0 else end
        inside = statement_in(self.text[place:end])
        if not inside:
            return Advice(Span(place, end))
        at = place + inside.place
        cut = len(self.text[place:at].rstrip("! \t"))
        edit = Edit(place + cut if cut > 1 else place, at, "\n")
        cure = "put the statement on a line of its own, or leave its semicolon out of the comment"
        return Advice(Span(at, at + len(inside.phrase)), "not done", (), cure, (edit,))

    def of_unused(self, place: int) -> Advice:
        name = self.name(place)
        if name in ("SEND", "RECEIVE"):
            return self.of_unused_line(place, name == "SEND")
        behind = self.clean[self.span(place).end :][:100].lstrip()
        if behind[:1] == ")":
            end = self.clean.index(")", place) + 1
            return Advice(self.span(place), "", (), "leave it out", (Edit(place, end, ""),))
        is_single = self.before(place) in ("VARIABLE", "TEMPORARY", "FIELD")
        if not is_single:
            return self.plain(place)
        return Advice(self.span(place), "", (), "leave it out", self.without(place))

    def of_unused_line(self, place: int, is_sent: bool) -> Advice:
        """A line of a survey that nothing needs, or that stands there already."""
        block = self.block_at(place)
        first = next((one.first for one in block.survey_twice if one.place == place), None)
        notes = (self.declared(first, "it stands here already"),) if first is not None else ()
        can_go = is_sent or first is not None
        edits = self.without(place) if can_go else ()
        return Advice(self.whole(place), "", notes, "leave it out" if can_go else "", edits)

    def without(self, place: int) -> Tuple[Edit, ...]:
        """A phrase is left out, and its line where nothing else stands on that."""
        start, end = self.phrase(place)
        first, last = self.lines.start(start), self.text.find("\n", end)
        last = len(self.text) if last < 0 else last
        if not self.text[first:start].strip() and not self.text[end:last].strip():
            return (Edit(first, min(last + 1, len(self.text)), ""),)
        blanks = len(self.text[end:last]) - len(self.text[end:last].lstrip(" "))
        return (Edit(start, end + blanks, ""),)

    def of_keyword(self, place: int) -> Advice:
        meant = is_near_keyword(self.name(place))
        cure = f"give it another name, or write {meant} where the keyword is meant"
        return Advice(self.span(place), "", (), cure)

    # of the ways through a text

    def of_way(self, place: int) -> Advice:
        """The statement, up to its end or to the statements in it."""
        found = PHRASE_END.search(self.clean, place)
        return Advice(Span(place, found.end() if found else self.span(place).end))

    def of_relation(self, place: int) -> Advice:
        found = RELATION_END.search(self.clean, place)
        return Advice(Span(place, found.start() if found else self.span(place).end))

    def of_wide(self, place: int) -> Advice:
        """A constant, and where what it is stored in is declared, with a width that holds it."""
        name, bits = self.name(self.statement(place)), self.number(place).bit_length()
        notes, block = self.of_declared(place, name), self.block_at(place)
        start = notes[0].span.end if notes else 0
        width = re.compile(r"\s+WIDTH\s+([0-9]+)").match(self.clean, start) if notes else None
        plain = Advice(self.span(place), notes=notes, cause=("TOOWIDE", block.number, name))
        if not width or not 0 < bits <= MOST_WIDTH:
            return plain
        edits = (Edit(width.start(1), width.end(1), str(bits)),)
        return plain._replace(cure=f"{bits} bits hold it", edits=edits)

    def of_record(self, place: int) -> Advice:
        """A pointer, and where the file is declared of whose record it has the number."""
        names, end = self.block_at(place).names, self.clean.rfind("(", 0, place)
        found = FREED.match(self.clean, place) or POINTER.search(self.clean, max(0, end - 200), end)
        named = names.get(found[1]) if found else None
        file = named.file if named and named.file else named
        return Advice(self.span(place), notes=self.of_declared(place, file.name if file else ""))

    def statement(self, place: int) -> int:
        """Where the assignment begins in which a place is."""
        start = self.clean.rfind("=", 0, place)
        begun = max(self.clean.rfind(";", 0, start), 0)
        found = ASSIGNED.search(self.clean, begun, start)
        return found.start() if found else begun

    def of_declared(self, place: int, name: str) -> Tuple[Note, ...]:
        """Where a name of the block is declared in which a place is."""
        declared = self.block_at(place).names.get(name)
        return (self.declared(declared.place, f"{name} is declared here"),) if declared else ()


def counted_names(count: Optional[int]) -> str:
    """So many names of temporaries, as an example."""
    return ", ".join(f"T{number}" for number in range(1, min(count or 0, MOST_VALUES) + 1))


ADVICE: Dict[str, Callable[[Adviser, int], Advice]] = {
    "BADBYTE": Adviser.of_byte,
    "UNEXPECTED": Adviser.of_grammar,
    "TOODEEP": Adviser.of_grammar,
    "ENDED": Adviser.of_grammar,
    "N1": Adviser.of_twice,
    "N2": Adviser.of_width,
    "N3": Adviser.of_init,
    "N4": Adviser.of_size,
    "N5": Adviser.of_temporaries,
    "N6": Adviser.of_name,
    "N7": Adviser.of_label,
    "N8": Adviser.of_file,
    "N9": Adviser.of_file,
    "N10": Adviser.of_kind,
    "N11": Adviser.of_values,
    "N12": Adviser.of_answer,
    "N14": Adviser.of_fresh,
    "N16": Adviser.of_data,
    "N17": Adviser.of_block_name,
    "NORECEIVER": Adviser.of_receiver,
    "NEEDSREFERENCE": Adviser.of_reference,
    "NOTRECEIVED": Adviser.of_wrong_receiver,
    "NOTINSURVEY": Adviser.of_survey,
    "TWOENTERS": Adviser.of_two_enters,
    "NOENTER": Adviser.of_no_enter,
    "RUNSON": Adviser.of_entry,
    "SWALLOWED": Adviser.of_comment,
    "UNUSED": Adviser.of_unused,
    "KEYWORD": Adviser.of_keyword,
    **{word: Adviser.of_way for word in ("UNREACHED", "ENDLESS", "NOTURN", "NEVERREAD", "LOST")},
    "CONSTANT": Adviser.of_relation,
    "TOOWIDE": Adviser.of_wide,
    "NORECORD": Adviser.of_record,
}
