"""All faults of an exchange text, each by its place, its rule and a sentence.

`Checker` compares what a Reader finds with the rules of docs/LANGUAGE.md. It keeps what is
declared, where signals are sent and entered, and the faults, but no tree. `first_fault(data)` gives
the line and the rule of the first fault of a text in bytes, as the program tells it, or None where
the text is an exchange.
"""
from array import array
from typing import Callable, Dict, Iterator, List, NamedTuple, Optional, Set, Type, Union

from plextools.limits import (
    MOST_BLOCKS,
    MOST_BYTES,
    MOST_CELLS,
    MOST_ENTRIES,
    MOST_RECORDS,
    MOST_SIGNALS,
    MOST_STATEMENTS,
    MOST_TEMPORARIES,
    MOST_VALUES,
    MOST_WIDTH,
)
from plextools.text.hints import any_of, near
from plextools.text.grammar import Node, StatementFault
from plextools.text.reader import Frame, Reader, Sent
from plextools.text.tokens import Text, Token, value_of

TOKENS, GRAMMAR, SIGNALS, BLOCKS, LINKS_PHASE = 0, 1, 2, 3, 2**32
LINKS = [
    "NORECEIVER",
    "NEEDSREFERENCE",
    "NOTRECEIVED",
    "NOTINSURVEY",
    "TWOENTERS",
    "NOENTER",
    "LIMIT",
]
ORDER = {
    **{f"N{number}": number for number in range(1, 18)},
    **{word: number for number, word in enumerate(LINKS, 1)},
}
KINDS = {
    "BUFFERED": "a buffered one",
    "DIRECT": "a direct one",
    "COMBINED": "a combined one",
    "OUTSIDE": "an outside one",
    "ANSWER": "an answer",
}
RECEIVED = ("BUFFERED", "DIRECT", "COMBINED")
MAY_STAND = {
    "RECEIVE": RECEIVED,
    "ENTER": RECEIVED,
    "SEND": RECEIVED + ("OUTSIDE",),
    "TRANSFER": ("DIRECT",),
    "RETRIEVE": ("ANSWER",),
    "RETURN": ("ANSWER",),
}
TAKES = {
    "RECEIVE": "a buffered, direct or combined signal",
    "ENTER": "a buffered, direct or combined signal",
    "SEND": "any signal but an answer",
    "TRANSFER": "a direct signal",
    "RETRIEVE": "the answer of a combined signal",
    "RETURN": "the answer of a combined signal",
}
A_VALUE, A_FIELD, A_TEMPORARY = "a variable or a temporary", "a field", "a temporary"
NAMED = {"label": "a label", "set": "an assignment", "set_field": "an assignment"}
TOO_MANY_OPERANDS = (
    "this is the 65th operand of the statement, and 64 are the most: make two statements"
)
ROLES = {"value": A_VALUE, "field": A_FIELD, "pointer": A_TEMPORARY}


def counted(number: Optional[int], noun: str) -> str:
    return f"{number} {noun}" if number == 1 else f"{number} {noun}s"


def value_in(token: Optional[Token]) -> Optional[int]:
    """The value of a number that stands in a text; None without one."""
    return value_of(token.text) if token else None


def may_stand(signal: Optional["Signal"], way: str) -> bool:
    """Whether a signal is declared, and of a kind that may stand behind a word; one of an unknown
    kind may.
    """
    return signal is not None and (signal.kind is None or signal.kind in MAY_STAND[way])


def told_next(node: Optional[Node]) -> str:
    """What follows a statement, or that nothing does."""
    if node is None:
        return "nothing follows"
    if node.kind == "RETRIEVE":
        return f"here follows RETRIEVE {node.signal.text}"
    return f"here follows {NAMED.get(node.kind, node.kind)}"


Sentence = Union[str, Callable[[], str]]  # or what makes it, where there is room for it


class Fault(NamedTuple):
    """A fault as the program would tell it: the phase in which it finds it, the place of the byte,
    which rule of the phase is looked at first, the rule, and a sentence.
    """

    phase: int
    place: int
    order: int
    rule: str
    sentence: str


class FirstFault(NamedTuple):
    """What the program tells of a text: a line and a rule."""

    line: int
    rule: str


class Receiver(NamedTuple):
    """What a REFERENCE names: `named` and a block, or `held` and a variable or a temporary."""

    kind: str
    name: str


class Sending(NamedTuple):
    """How a block sends a signal: by SEND or TRANSFER, and to whom."""

    way: str
    name: str
    reference: Optional[Receiver]


class BrokenLink(NamedTuple):
    """A rule of the links that a sending breaks, and a sentence."""

    rule: str
    sentence: str


Receivers = Dict[str, List[Optional[str]]]  # the blocks that receive each signal


class LineTwice(NamedTuple):
    """A line of a survey that stands there already: its place, its signal, and the first place."""

    place: int
    name: str
    first: int


class Signal:
    """A declared signal: its kind and its number of values, where these are known, its level, and
    the name of its answer or of the signal that it answers.
    """

    __slots__ = ("name", "kind", "count", "level", "answer", "place")

    def __init__(self, node: Node, answer: Optional[str], place: int) -> None:
        self.name, self.answer, self.place = node.name.text, answer, place
        self.kind = node.kind if node.kind in KINDS else None
        self.count = value_in(getattr(node, "data", None))
        level: Optional[Token] = getattr(node, "level", None)
        self.level = level.text if level else None


class Declared:
    """A declared name of a block: a variable, a temporary, a file or a field. Fields know their
    file.
    """

    __slots__ = ("name", "kind", "place", "width", "init", "size", "forlopp", "file", "fields")

    def __init__(self, node: Node, place: int, file: Optional["Declared"]) -> None:
        self.name, self.kind, self.place, self.file = node.name.text, node.kind, place, file
        self.width: Optional[int] = None
        self.init: Optional[int] = None
        self.size: Optional[int] = None
        self.forlopp = False
        self.fields: List[str] = []
        if self.kind == "file":
            self.size, self.forlopp = value_in(node.size), node.forlopp
        elif self.kind != "temporary":
            self.width, self.init = value_in(node.width), value_in(node.init)

    def told(self) -> str:
        if self.kind == "file":
            return "a FORLOPP FILE" if self.forlopp else "a FILE"
        return f"a {self.kind}"


class Block:
    """What is kept of a block: its names, its survey, and where it sends and enters."""

    __slots__ = (
        "number",
        "name",
        "place",
        "names",
        "labels",
        "receives",
        "sends",
        "survey_twice",
        "gotos",
        "enters",
        "sent",
        "links",
        "temporaries",
        "used",
    )

    def __init__(self, number: int, name: Optional[str], place: int) -> None:
        self.number, self.name, self.place = number, name, place
        self.names: Dict[str, Declared] = {}
        self.labels: Dict[str, int] = {}
        self.receives: Dict[str, int] = {}
        self.sends: Dict[str, int] = {}
        self.survey_twice: List[LineTwice] = []
        # the places of each label that a GOTO names, of each signal entered, of each sending, and
        # of each block that an expression names
        self.gotos: Dict[str, "array[int]"] = {}
        self.enters: Dict[str, "array[int]"] = {}
        self.sent: Dict[Sending, "array[int]"] = {}
        self.links: Dict[str, "array[int]"] = {}
        self.temporaries = 0
        self.used: Set[str] = set()

    def told(self) -> str:
        return f"block {self.name}" if self.name else "the block"


class Checker(Reader):
    """Reads a text and keeps all its faults, at most `most` of each rule."""

    values: Set[str]
    fields: Set[str]
    temporaries: Set[str]
    block: Block

    def __init__(self, source: Text) -> None:
        super().__init__(source)
        self.found: List[Fault] = []
        self.counts: Dict[str, int] = {}
        self.signals: Dict[str, Signal] = {}
        self.blocks: List[Block] = []
        self.block_names: Dict[str, Block] = {}
        self.file: Optional[Declared] = None
        self.declared_signals = self.entries = self.cells = 0
        self.block_place: Optional[int] = None

    # telling

    def tell(self, phase: int, place: int, rule: str, sentence: Sentence) -> None:
        """One more fault. What is said of it is made where there is room for it."""
        count = self.counts[rule] = self.counts.get(rule, 0) + 1
        if count <= self.most:
            told = sentence if isinstance(sentence, str) else sentence()
            self.found.append(Fault(phase, place, ORDER[rule], rule, told))

    def has_room(self, rule: str) -> bool:
        """Whether one more fault of a rule is told; one that is not is counted."""
        if self.counts.get(rule, 0) < self.most:
            return True
        self.counts[rule] += 1
        return False

    def tell_block(self, place: int, rule: str, sentence: Sentence) -> None:
        self.tell(BLOCKS + self.block.number, place, rule, sentence)

    def line(self, place: int) -> int:
        return self.source.lines.line(place)

    def check(self) -> List[Fault]:
        """All faults in the order in which the program would tell them."""
        self.read()
        self.look_at_links()
        found = [Fault(TOKENS, one.place, 0, one.rule, one.sentence) for one in self.source.faults]
        found += [Fault(GRAMMAR, one.place, 0, one.rule, one.sentence) for one in self.grammar]
        return sorted(found + self.found)

    def left_out(self) -> Dict[str, int]:
        """How many faults of each rule are not told, as there are too many."""
        more = {rule: count - self.most for rule, count in self.counts.items() if count > self.most}
        return {**self.source.left_out, **more}

    # signals and names of blocks

    def found_signal(self, node: Node) -> None:
        place = node.first.place
        self.declared_signals += 1
        if self.declared_signals == MOST_SIGNALS + 1:
            self.over(place, f"more than {MOST_SIGNALS:,} signals, answers among them")
        if not hasattr(node, "name"):
            return
        answer: Optional[Node] = getattr(node, "answer", None)
        if answer is not None and not hasattr(answer, "name"):
            answer = None
        self.declare_signal(node, answer.name.text if answer else None)
        if answer:
            self.declared_signals += 1
            if self.declared_signals == MOST_SIGNALS + 1:
                self.over(place, f"more than {MOST_SIGNALS:,} signals, answers among them")
            self.declare_signal(answer, node.name.text)

    def declare_signal(self, node: Node, answer: Optional[str]) -> None:
        name, place = node.name.text, node.name.place
        if name in self.signals:
            first = self.signals[name].place
            declared = f"the signal {name} is declared"
            self.tell(
                SIGNALS, place, "N1", lambda: f"{declared} on line {self.line(first)} already"
            )
        else:
            self.signals[name] = Signal(node, answer, place)
        data: Optional[Token] = getattr(node, "data", None)
        if data and (value_of(data.text) or 0) > MOST_VALUES:
            carries = f"a signal carries {MOST_VALUES} values at most"
            told = f"DATA {data.text} is over {MOST_VALUES}: {carries}"
            self.tell(SIGNALS, data.place, "N16", told)

    def found_block(self, node: Optional[Node]) -> None:
        place = node.first.place if node else None
        name = node.name.text if node and hasattr(node, "name") else None
        named = node.name.place if node and name else place
        self.block = Block(len(self.blocks), name, named or 0)
        self.block_place = place
        self.blocks.append(self.block)
        if node and name in self.block_names:
            first = self.line(self.block_names[name].place)
            told = f"the block {name} is declared on line {first} already"
            self.tell(SIGNALS, node.name.place, "N1", told)
        elif name:
            self.block_names[name] = self.block
        if len(self.blocks) == MOST_BLOCKS + 1 and place is not None:
            self.over(place, f"more than {MOST_BLOCKS} blocks")
        self.values, self.fields, self.temporaries = set(), set(), set()
        self.used = self.block.used

    def over(self, place: int, what: str) -> None:
        self.tell(LINKS_PHASE, place, "LIMIT", f"{what}: see docs/FORMATS.md, Limits")

    # declarations

    def found_declaration(self, node: Node) -> None:
        name, place = node.name.text, node.name.place
        file = self.file if node.kind == "field" else None
        if node.kind not in ("variable", "temporary", "file", "field"):
            return
        declared = Declared(node, place, file)
        if node.kind == "file":
            self.file = declared
        elif file:
            file.fields.append(name)
        first = self.block.names.setdefault(name, declared)
        if first is not declared:
            self.tell_block(place, "N1", lambda: self.twice(name, first))
        else:
            self.declare_name(node.kind, name)
        self.look_at_size(node, declared)
        self.count_cells(node, declared)

    def twice(self, name: str, first: Declared) -> str:
        return f"{name} is declared on line {self.line(first.place)} already, as {first.told()}"

    def declare_name(self, kind: str, name: str) -> None:
        if kind in ("variable", "temporary"):
            self.values.add(name)
        if kind == "temporary":
            self.temporaries.add(name)
        elif kind == "field":
            self.fields.add(name)

    def look_at_size(self, node: Node, declared: Declared) -> None:
        if node.kind == "temporary":
            self.block.temporaries += 1
            if self.block.temporaries == MOST_TEMPORARIES + 1:
                sentence = f"this is the {MOST_TEMPORARIES + 1}th temporary of {self.block.told()}"
                sentence += f", and {MOST_TEMPORARIES} are the most"
                self.tell_block(node.name.place, "N5", sentence)
        elif node.kind == "file":
            size, number = node.size, declared.size
            if size and number is not None and not 1 <= number <= MOST_RECORDS:
                self.tell_block(size.place, "N4", f"SIZE {size.text} is not 1 to {MOST_RECORDS:,}")
        elif node.width and declared.width is not None:
            self.look_at_width(node.width, declared.width, node.init, declared.init)

    def look_at_width(
        self, width: Token, bits: int, init: Optional[Token], value: Optional[int]
    ) -> None:
        if not 1 <= bits <= MOST_WIDTH:
            self.tell_block(width.place, "N2", f"WIDTH {width.text} is not 1 to {MOST_WIDTH}")
        if init and value is not None and bits <= MOST_WIDTH and value >= 2**bits:
            largest = f"{2**bits - 1} is the largest"
            sentence = f"INIT {init.text} does not fit WIDTH {width.text}: {largest}"
            self.tell_block(init.place, "N3", sentence)

    def count_cells(self, node: Node, declared: Declared) -> None:
        """The cells of a file are counted as its fields are found; the file is told."""
        before = self.cells
        if node.kind == "variable":
            self.cells += 1
        elif node.kind == "file":
            self.cells += (declared.size or 0) * bool(declared.forlopp)
        elif node.kind == "field" and self.file:
            self.cells += self.file.size or 0
        if before <= MOST_CELLS < self.cells:
            told_at = (node.kind == "field" and self.last_declared) or node
            cells = "cells: a variable is one, a field one in each record"
            self.over(told_at.first.place, f"more than {MOST_CELLS:,} {cells}")

    # surveys

    def found_survey_line(self, node: Node, name: Token) -> None:
        way = node.first.text
        fault = self.wrong_signal(name.text, way)
        if fault:
            self.tell_block(name.place, "N10", fault)
            return
        lines = self.block.receives if way == "RECEIVE" else self.block.sends
        if name.text in lines:
            twice = LineTwice(node.first.place, name.text, lines[name.text])
            self.block.survey_twice.append(twice)
        else:
            lines[name.text] = node.first.place

    def wrong_signal(self, name: str, way: str) -> Optional[str]:
        """What is said where a signal is not declared, or of a kind that may not stand there."""
        signal = self.signals.get(name)
        if may_stand(signal, way):
            return None
        if signal and signal.kind:
            stands = f"{name} of line {self.line(signal.place)} is {KINDS[signal.kind]}"
            return f"{way} takes {TAKES[way]}; {stands}"
        meant = near(
            name, [one.name for one in self.signals.values() if one.kind in MAY_STAND[way]]
        )
        return f"{name} is no signal of this text" + (f"; {meant} is" if meant else "")

    # statements

    def is_plain(self, node: Node) -> bool:
        is_simple = node.faults == [] and not (node.stop or node.noted or node.opens)
        return is_simple and node.kind not in ("SEND", "RETRIEVE", "TRANSFER")

    def ends(self, node: Node) -> bool:
        if node.kind == "SEND":
            signal = self.signals.get(node.signal.text) if hasattr(node, "signal") else None
            return signal is not None and signal.kind == "DIRECT"
        return super().ends(node)

    def found_statement(self, node: Node, shift: int, frame: Frame) -> None:
        if node.faults is None:
            node.faults = self.learn(node)
        for at, rule, sentence in node.faults:
            if self.has_room(rule):
                self.tell_block(node.first.piece.place(at) + shift, rule, sentence)
        if node.noted:
            self.note(node, shift)
        if frame.awaits is not None:
            self.follow(frame, node)
        if node.kind == "SEND" and not node.stop and self.kind_of(node) == "COMBINED":
            frame.awaits, frame.easy = Sent(node.signal.text, node.first.place + shift), False
        elif node.kind == "RETRIEVE" and not node.stop:
            self.look_at_retrieve(frame, node, node.first.place + shift)

    def kind_of(self, node: Node) -> Optional[str]:
        signal = self.signals.get(node.signal.text) if hasattr(node, "signal") else None
        return signal.kind if signal else None

    def learn(self, node: Node) -> List[StatementFault]:
        """The faults of a statement, wherever it stands in the block; and whether more of it must
        be noted.
        """
        kind, faults = node.kind, list(self.look_at_names(node))
        for at, role in node.strange:
            told = self.not_declared(node.first.piece.words[at], ROLES[role])
            faults.append(StatementFault(at, "N6", told))
        if node.over is not None:
            faults.append(StatementFault(node.over, "N13", TOO_MANY_OPERANDS))
        if kind in ("set", "set_field"):
            node.noted = bool(node.references)
            return faults
        for token in getattr(node, "names", ()):
            faults += self.need(token, self.temporaries, A_TEMPORARY)
        if hasattr(node, "temporary"):
            faults += self.need(node.temporary, self.temporaries, A_TEMPORARY)
        if kind == "FOR":
            faults += self.look_at_search(node)
        elif kind in ("SEIZE", "FREE") and hasattr(node, "file"):
            faults += self.look_at_seizing(node)
        if hasattr(node, "signal"):
            faults += self.look_at_signal(node)
        node.noted = bool(node.references) or hasattr(node, "signal")
        if hasattr(node, "label"):
            node.noted = node.noted or node.label.text not in self.block.labels
            self.block.gotos.setdefault(node.label.text, array("L"))
        return faults

    def look_at_names(self, node: Node) -> Iterator[StatementFault]:
        """What is wrong with the names to which a value is assigned."""
        if node.kind == "set" and not (node.stop and node.stop.wanted[0] == "="):
            yield from self.need(node.first, self.values, A_VALUE)
        elif node.kind == "set_field":
            yield from self.need(node.first, self.fields, A_FIELD)
            if hasattr(node, "pointer"):
                yield from self.need(node.pointer, self.temporaries, A_TEMPORARY)

    def need(self, token: Token, wanted: Set[str], what: str) -> Iterator[StatementFault]:
        if token.text in wanted:
            self.block.used.add(token.text)
        else:
            yield StatementFault(token.index, "N6", self.not_declared(token.text, what))

    def not_declared(self, name: str, what: str) -> str:
        declared = self.block.names.get(name)
        if self.counts.get("N6", 0) >= self.most:
            return ""
        if declared is None:
            sets = {A_VALUE: self.values, A_FIELD: self.fields, A_TEMPORARY: self.temporaries}
            meant = near(name, sets[what]) if len(sets[what]) < 2000 else None
            written = self.source.meant.get(name, name)
            return f"{written} is not declared in {self.block.told()}" + (
                f"; {meant} is" if meant else ""
            )
        self.block.used.add(name)
        cure = (
            f"; write {name} with a pointer in brackets"
            if declared.kind == "field" and what == A_VALUE
            else ""
        )
        stands = f"{declared.told()}, declared on line {self.line(declared.place)}"
        return f"{name} is {stands}, and {what} is wanted here{cure}"

    def look_at_search(self, node: Node) -> Iterator[StatementFault]:
        if not hasattr(node, "file"):
            return
        names = self.block.names
        file = names.get(node.file.text)
        if not file or file.kind != "file" or file.forlopp:
            stands = f"{node.file.text} is {file.told() if file else 'not declared'}"
            told = f"FOR FIRST searches a FILE that is no FORLOPP FILE; {stands}"
            yield StatementFault(node.file.index, "N8", told)
        self.block.used.add(node.file.text)
        if not hasattr(node, "field") or not file or file.kind != "file":
            return
        self.block.used.add(node.field.text)
        field = names.get(node.field.text)
        if field is None or field.kind != "field" or field.file is not file:
            some = f"its fields are {', '.join(file.fields[:10])}" if file.fields else "it has none"
            told = f"{node.field.text} is no field of {node.file.text}: {some}"
            yield StatementFault(node.field.index, "N8", told)

    def look_at_seizing(self, node: Node) -> Iterator[StatementFault]:
        file = self.block.names.get(node.file.text)
        self.block.used.add(node.file.text)
        if not file or file.kind != "file" or not file.forlopp:
            stands = f"{node.file.text} is {file.told() if file else 'not declared'}"
            verb = "SEIZE takes" if node.kind == "SEIZE" else "FREE gives back"
            told = f"{verb} a record of a FORLOPP FILE; {stands}"
            yield StatementFault(node.file.index, "N9", told)

    def look_at_signal(self, node: Node) -> Iterator[StatementFault]:
        name, kind, place = node.signal.text, node.kind, node.first.index
        signal, reference = self.signals.get(name), getattr(node, "reference", None)
        fault = self.wrong_signal(name, kind)
        if not fault and signal and signal.kind == "OUTSIDE" and reference:
            fault = f"{name} leaves the exchange: an outside signal has no REFERENCE"
        if fault:
            yield StatementFault(node.signal.index, "N10", fault)
        if reference and reference.kind == "held":
            yield from self.need(reference.first, self.values, A_VALUE)
        if signal is None or node.stop:
            return
        if kind != "TRANSFER" and signal.count is not None:
            given = len(node.names) if kind in ("ENTER", "RETRIEVE") else len(node.exprs)
            if given != signal.count:
                told = f"{given} {'is' if given == 1 else 'are'} given"
                carries = f"{name} carries {counted(signal.count, 'value')}, {told}"
                yield StatementFault(place, "N11", carries)
        if kind == "SEND" and node.fresh and signal.kind and signal.kind != "BUFFERED":
            stands = f"{name} is {KINDS[signal.kind]}"
            told = f"NEW FORLOPP stands with a buffered signal alone; {stands}"
            yield StatementFault(place, "N14", told)

    def note(self, node: Node, shift: int) -> None:
        """What a statement does for the rest of the text: where it goes, what it sends, what it
        enters.
        """
        block = self.block
        if hasattr(node, "label") and node.label.text not in block.labels:
            block.gotos[node.label.text].append(node.label.place + shift)
        for token in node.references:
            block.links.setdefault(token.text, array("L")).append(token.place + shift)
        if not hasattr(node, "signal"):
            return
        signal, place = self.signals.get(node.signal.text), node.first.place + shift
        if node.kind == "ENTER":
            block.enters.setdefault(node.signal.text, array("L")).append(place)
            if signal and signal.kind == "BUFFERED":
                self.entries += 1
                if self.entries == MOST_ENTRIES + 1:
                    entries = "entries, which are ENTERs of buffered signals"
                    self.over(place, f"more than {MOST_ENTRIES} {entries}")
        elif node.kind in ("SEND", "TRANSFER") and not node.stop and may_stand(signal, node.kind):
            to = node.reference
            receiver = Receiver(to.kind, to.first.text) if to else None
            key = Sending(node.kind, node.signal.text, receiver)
            block.sent.setdefault(key, array("L")).append(place)

    # combined signals

    def follow(self, frame: Frame, node: Optional[Node]) -> None:
        """What directly follows the SEND of a combined signal is the RETRIEVE of its answer."""
        if frame.awaits is None:
            return
        name, sent = frame.awaits
        frame.awaits, frame.easy = None, True
        answer = self.signals[name].answer
        if (
            node is not None
            and node.kind == "RETRIEVE"
            and (node.stop or node.signal.text == answer)
        ):
            return
        self.tell_block(
            sent, "N12", f"RETRIEVE {answer} stands directly behind SEND {name}; {told_next(node)}"
        )

    def look_at_retrieve(self, frame: Frame, node: Node, place: int) -> None:
        before, name = frame.before, node.signal.text
        if before is not None and before.kind == "SEND" and hasattr(before, "signal"):
            sent = self.signals.get(before.signal.text)
            if before.stop or sent and sent.kind == "COMBINED" and sent.answer == name:
                return
        signal = self.signals.get(name)
        asked = (
            f"SEND {signal.answer}"
            if signal and signal.kind == "ANSWER"
            else "the SEND of a combined signal"
        )
        self.tell_block(
            place, "N12", f"RETRIEVE {name} stands directly behind {asked}, and here it does not"
        )

    # labels and lists

    def found_labels(self, node: Node, shift: int, frame: Frame) -> None:
        words, piece, block = node.first.piece.words, node.first.piece, self.block
        self.follow(frame, node)
        for index in node.label_tokens:
            name = words[index]
            first = block.names.get(name)
            if name in block.labels or first is not None:
                if not self.has_room("N1"):
                    continue
                at = block.labels[name] if first is None else first.place
                told = (
                    f"the label {name} stands on line {self.line(at)} already"
                    if first is None
                    else f"{name} is declared on line {self.line(at)} already, as {first.told()}"
                )
                self.tell_block(piece.place(index) + shift, "N1", told)
                block.labels.setdefault(name, piece.place(index) + shift)
            else:
                block.labels[name] = piece.place(index) + shift

    def found_inner(self, node: Node, shift: int, frame: Frame) -> None:
        if node.kind != "WHEN" or not hasattr(node, "number"):
            return
        value = value_of(node.number.text)
        if value in frame.numbers:
            line = self.line(frame.place)
            self.tell_block(
                node.number.place + shift,
                "N15",
                f"WHEN {value} stands twice in the CASE of line {line}",
            )
        elif value is not None:
            frame.numbers.add(value)

    def found_list_end(self, frame: Frame) -> None:
        self.follow(frame, None)

    def found_block_end(self, node: Optional[Node], shift: int) -> None:
        block = self.block
        for name, places in block.gotos.items():
            if name not in block.labels and places:
                is_short = len(block.labels) < 2000 and self.counts.get("N7", 0) < self.most
                meant = near(name, block.labels) if is_short else None
                sentence = f"no label {name} stands in {block.told()}" + (
                    f"; {meant} does" if meant else ""
                )
                for place in places:
                    self.tell_block(place, "N7", sentence)

    # links and limits

    def look_at_links(self) -> None:
        receivers: Receivers = {}
        for block in self.blocks:
            for name in block.receives:
                receivers.setdefault(name, []).append(block.name)
        for block in self.blocks:
            self.block = block
            self.look_at_references(block)
            for sending, places in block.sent.items():
                for rule, sentence in self.wrong_links(block, sending, receivers):
                    for place in places:
                        self.tell(LINKS_PHASE, place, rule, sentence)
            self.look_at_entries(block)
        if self.points_over is not None:
            sentence = (
                f"more than {MOST_STATEMENTS:,} statements, ENTERs and ends of blocks among them"
            )
            self.over(self.points_over, sentence)

    def look_at_references(self, block: Block) -> None:
        for name, places in block.links.items():
            if name not in self.block_names:
                meant = near(name, self.block_names)
                sentence = f"{name} is no block of this text" + (f"; {meant} is" if meant else "")
                for place in places:
                    self.tell_block(place, "N17", sentence)

    def wrong_links(
        self, block: Block, sending: Sending, receivers: Receivers
    ) -> Iterator[BrokenLink]:
        way, name, reference = sending
        there = receivers.get(name, [])
        named = sorted(filter(None, set(there)))
        kind = self.signals[name].kind
        if kind != "OUTSIDE" and (kind or there):
            if not there:
                needs = f"one needs RECEIVE {name}; in its survey and an ENTER"
                yield BrokenLink("NORECEIVER", f"no block receives {name}: {needs}")
            if len(set(there)) > 1 and named and not reference:
                needs = f"{way} {name} REFERENCE {any_of(named[:8])}"
                yield BrokenLink("NEEDSREFERENCE", f"several blocks receive {name}: {needs}")
            if reference and reference.kind == "named" and reference.name not in there:
                is_there = reference.name in self.block_names
                stands = "does not receive it" if is_there else "is no block of this text"
                others = f"; {any_of(named[:8])} does" if named else ""
                told = f"{way} {name} goes to {reference.name}, which {stands}{others}"
                yield BrokenLink("NOTRECEIVED", told)
        if name not in block.sends:
            told = f"the survey of {block.told()} has no line SEND {name};"
            yield BrokenLink("NOTINSURVEY", told)

    def look_at_entries(self, block: Block) -> None:
        for name, places in block.enters.items():
            signal = self.signals.get(name)
            if signal is None or signal.kind not in RECEIVED + (None,):
                continue
            sentence = f"the survey of {block.told()} has no line RECEIVE {name};"
            for place in places if name not in block.receives else ():
                self.tell(LINKS_PHASE, place, "NOTINSURVEY", sentence)
            first = f"{block.told()} enters {name} on line {self.line(places[0])} already"
            for place in places[1:]:
                self.tell(
                    LINKS_PHASE, place, "TWOENTERS", f"{first}: one ENTER, and a label to go to"
                )
        for name, place in block.receives.items():
            if name not in block.enters:
                self.tell(
                    LINKS_PHASE,
                    place,
                    "NOENTER",
                    f"{block.told()} receives {name}, and has no ENTER {name}",
                )
        for place, name, _ in block.survey_twice:
            if (
                name in block.receives
                and name not in block.enters
                and self.source.clean.startswith("RECEIVE", place)
            ):
                self.tell(
                    LINKS_PHASE,
                    place,
                    "NOENTER",
                    f"{block.told()} receives {name}, and has no ENTER {name}",
                )


def too_large(data: bytes) -> bool:
    return len(data) > MOST_BYTES


def first_fault(data: bytes, checker: Type[Checker] = Checker) -> Optional[FirstFault]:
    """The line and the rule of the first fault of a text, or None where it has none."""
    if too_large(data):
        return FirstFault(0, "TOOLARGE")
    source = Text(data, 1000)
    found = checker(source).check()
    return FirstFault(source.lines.line(found[0].place), found[0].rule) if found else None
