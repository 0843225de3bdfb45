"""Reads an exchange text phrase by phrase: signals, blocks, declarations, surveys, statements that
stand in each other.

A `Reader` looks only at how a text is spelled, and goes on behind each fault. What stands there it
hands to methods that begin with `found`, for others to look at: `Tree` in tree.py keeps all of it,
and faults.py compares it with the rules. A piece of a program that stood there before, letter by
letter, is not read a second time: its phrases are found in `memo`, and stand `shift` bytes later.
Nor is a line that each block has, as DECLARE and END BLOCK.
"""
import re
from typing import Callable, Dict, List, NamedTuple, Optional, Set, Union

from plextools.limits import MOST_NESTED, MOST_STATEMENTS
from plextools.text import hints
from plextools.text.grammar import INNER, STARTS, Node, Phrases, Stop, is_name_word
from plextools.text.hints import Misfit
from plextools.text.tokens import Piece, Text, Told, Token

MOST_KEPT, MOST_IN_PIECE = 20000, 100
TOP, BEGUN, DECLARED, SURVEYED, RUNNING = "top", "begun", "declared", "surveyed", "running"
DECLARATIONS = ("VARIABLE", "TEMPORARY", "FILE", "FORLOPP", "FIELD")
STATEMENTS = frozenset(STARTS)
OF_PROGRAM = frozenset(STARTS + INNER + ["ENTER"])
BEGINS = re.compile(r"(?<![A-Z0-9])(?:SIGNAL|BLOCK|DECLARE)(?![A-Z0-9])")
FOLLOWS = re.compile(r"[ \t\r\n]*([A-Z][A-Z0-9]*)[ \t\r\n]*(.?)", re.S)
# The lines that each block has and that have no names: where they stand, and what begins there.
BARE = {
    "DECLARE": (BEGUN, DECLARED),
    "SURVEY": (DECLARED, SURVEYED),
    "PROGRAM": (SURVEYED, RUNNING),
}
LONGEST_BARE, LAST_LINE = 100, "END BLOCK"
WANTED = {
    TOP: ["BLOCK"],
    BEGUN: ["DECLARE"],
    DECLARED: ["a declaration", "SURVEY"],
    SURVEYED: ["RECEIVE", "SEND", "PROGRAM"],
    "list": ["a statement", "a label", "ENTER", "END BLOCK"],
    "IF": ["a statement", "ELSE", "FI"],
    "ELSE": ["a statement", "FI"],
    "CASE": ["WHEN", "OTHERWISE"],
    "WHEN": ["a statement", "WHEN", "OTHERWISE"],
    "OTHERWISE": ["a statement", "ESAC"],
    "ON": ["a statement", "NO"],
}
TAKEN = {
    "FI": ("IF", "ELSE"),
    "ELSE": ("IF",),
    "NO": ("ON",),
    "ESAC": ("OTHERWISE",),
    "WHEN": ("CASE", "WHEN"),
    "OTHERWISE": ("CASE", "WHEN"),
}
NEARLY = {"FI": ("IF", "ELSE"), "ELSE": ("IF", "ELSE"), "NO": ("ON",)}
OF_CASE = ("CASE", "WHEN", "OTHERWISE")
ENDS = frozenset(["GOTO", "EXIT", "RETURN", "TRANSFER"])


class Sent(NamedTuple):
    """A combined signal that was sent: its name, and the place of the SEND."""

    name: str
    place: int


class Frame:
    """A list of statements that is open: of which statement, in which part of it, and how far the
    text is there.
    """

    __slots__ = (
        "node",
        "shift",
        "state",
        "before",
        "ended",
        "all_ended",
        "awaits",
        "easy",
        "items",
        "numbers",
    )

    def __init__(self, node: Optional[Node], shift: int, state: str) -> None:
        self.node, self.shift, self.state = node, shift, state
        self.all_ended = True
        self.items: List[Node] = []
        self.numbers: Set[Optional[int]] = set()
        self.begin()

    @property
    def statement(self) -> Node:
        """The statement whose list it is; the list of a program has none."""
        assert self.node
        return self.node

    @property
    def place(self) -> int:
        """Where the statement begins whose list it is."""
        return self.statement.first.place + self.shift

    def begin(self) -> None:
        """Another list of the same statement begins."""
        self.before: Optional[Node] = None
        self.awaits: Optional[Sent] = None
        self.ended, self.easy = False, self.state != "CASE"


class Reader(Phrases):
    """Reads a whole text. Grammar faults come to `tell_grammar`, all else to the methods
    `found_..`.
    """

    keeps_pieces = True

    def __init__(self, source: Text) -> None:
        super().__init__()
        self.source, self.section = source, TOP
        self.frames: List[Frame] = []
        self.memo: Dict[str, Union[Node, List[Node]]] = {}
        self.points, self.has_blocks = 0, False
        self.last_declared: Optional[Node] = None
        self.grammar: List[Told] = []
        self.hints: Dict[int, hints.Hint] = {}
        self.seen, self.most = {fault.place for fault in source.faults}, source.most
        self.points_over: Optional[int] = None
        self.is_lost = False

    # what others look at

    def found_signal(self, node: Node) -> None:
        """A signal is declared."""

    def found_block(self, node: Optional[Node]) -> None:
        """A block begins; node is None where its first line is missing."""

    def found_declaration(self, node: Node) -> None:
        """A variable, a temporary, a file or a field."""

    def found_survey_line(self, node: Node, name: Token) -> None:
        """A line of the survey, with the name of its signal."""

    def found_program(self) -> None:
        """The program of the block begins."""

    def found_statement(self, node: Node, shift: int, frame: Frame) -> None:
        """A statement, an ENTER, or a statement up to its first list."""

    def found_labels(self, node: Node, shift: int, frame: Frame) -> None:
        """A run of labels."""

    def found_inner(self, node: Node, shift: int, frame: Frame) -> None:
        """ELSE, or WHEN or OTHERWISE with DO: the next list of the statement begins."""

    def found_list_end(self, frame: Frame) -> None:
        """A list of statements ends."""

    def found_block_end(self, node: Optional[Node], shift: int) -> None:
        """A block ends; node is None where END BLOCK is missing."""

    def is_plain(self, node: Node) -> bool:
        """Whether nothing has to be noted where the statement stands again."""
        return False

    def ends(self, node: Node) -> bool:
        """Whether a statement never goes on to the next one."""
        return node.kind in ENDS

    # faults of the grammar

    def tell_grammar(self, place: int, misfit: Misfit) -> None:
        if place in self.seen:
            return
        self.seen.add(place)
        rule = "ENDED" if place >= len(self.source.text) else misfit.rule
        if len(self.grammar) < self.most:
            sentence, hint = hints.said(self, place, misfit)
            self.grammar.append(Told(place, rule, sentence))
            if hint:
                self.hints[place] = hint

    def tell_stop(self, node: Node, shift: int) -> None:
        stop = node.stop
        if stop:
            place = node.first.piece.place(stop.index) + shift
            self.tell_grammar(place, Misfit(stop.wanted, node, shift, stop.rule, stop))

    def is_full(self) -> bool:
        return len(self.grammar) >= self.most

    # pieces

    def read(self) -> None:
        clean, at = self.source.clean, 0
        size = len(clean)
        while not self.is_full():
            end = clean.find(";", at)
            if end < 0:
                end = size
            if self.section is RUNNING and self.keeps_pieces:
                self.known_piece(clean, at, end)
            elif end - at > LONGEST_BARE or end == size or not self.is_bare(clean[at:end].strip()):
                self.new_piece(at, end)
            if end == size:
                break
            at = end + 1
            if self.is_lost:
                found = BEGINS.search(clean, at)
                at = found.start() if found else len(clean)
        self.finish_text()

    def is_bare(self, line: str) -> bool:
        """Whether a piece is a line without names that stands where it belongs. Then what it begins
        has begun.
        """
        stands, begins = BARE.get(line, (None, None))
        if self.section is not stands or begins is None:
            return False
        if begins is RUNNING:
            self.begin_program()
        else:
            self.section = begins
        return True

    def known_piece(self, clean: str, at: int, end: int) -> None:
        key = clean[at:end].lstrip()
        known = self.memo.get(key)
        if known is None:
            self.new_piece(at, end, key)
        elif isinstance(known, Node) and self.frames[-1].easy:
            frame = self.frames[-1]
            frame.before, frame.ended = known, known.is_last
            self.points += 1
            if self.points == MOST_STATEMENTS + 1:
                self.points_over = clean.index(key[0], at)
        else:
            nodes = [known] if isinstance(known, Node) else known
            shift = clean.index(key[0], at) - nodes[0].first.place
            for node in nodes:
                self.in_program(node, shift)
                if self.section is not RUNNING:
                    break

    def new_piece(self, at: int, end: int, key: Optional[str] = None) -> None:
        piece = Piece(self.source, at, end)
        words = piece.words
        self.begin(piece)
        last = len(words) - (words[-1] == "")
        if key and self.at < last:
            node = self.phrase()
            self.in_program(node, 0)
            if self.at == last and node.faults == [] and self.is_plain(node):
                node.is_last = self.frames[-1].ended
                self.keep(key, node)
                return
            found = [node]
        else:
            found = []
        while self.at < last and not self.is_full():
            node = self.phrase(self.section is SURVEYED)
            found.append(node)
            self.handle(node, 0)
        if (
            key
            and (self.section is RUNNING or key == LAST_LINE)
            and end < len(self.source.clean)
            and len(found) < MOST_IN_PIECE
        ):
            self.keep(key, found)

    def keep(self, key: str, known: Union[Node, List[Node]]) -> None:
        if len(self.memo) >= MOST_KEPT:
            self.memo.clear()
        self.memo[key] = known

    def finish_text(self) -> None:
        if self.is_full():
            return
        if self.section is not TOP:
            self.tell_grammar(len(self.source.text), Misfit(self.wanted()))
            self.close_block(None, 0)

    def wanted(self) -> List[str]:
        if self.section is RUNNING:
            return WANTED["list" if len(self.frames) == 1 else self.frames[-1].state]
        if self.section is TOP and not self.has_blocks:
            return ["SIGNAL", "BLOCK"]
        if self.section is DECLARED and self.last_declared is not None:
            return ["a declaration", "FIELD", "SURVEY"]
        return WANTED[self.section]

    # sections

    def handle(self, node: Node, shift: int) -> None:
        if self.section is RUNNING:
            self.in_program(node, shift)
        else:
            SECTIONS[self.section](self, node)

    def wrong(self, node: Node, shift: int = 0, frame: Optional[Frame] = None) -> None:
        """The first word of the phrase does not fit here."""
        misfit = Misfit(self.wanted(), node, shift, frame=frame)
        self.tell_grammar(node.first.place + shift, misfit)

    def at_top(self, node: Node) -> None:
        word, self.is_lost = node.first.text, False
        if word == "SIGNAL":
            if self.has_blocks:
                self.wrong(node)
            self.tell_stop(node, 0)
            self.found_signal(node)
        elif word == "BLOCK":
            self.open_block(node)
        else:
            self.wrong(node)
            if word == "DECLARE":
                self.open_block(None)
                self.section = DECLARED
            else:
                self.is_lost = True

    def open_block(self, node: Optional[Node]) -> None:
        self.has_blocks, self.section, self.last_declared = True, BEGUN, None
        if node:
            self.tell_stop(node, 0)
        self.found_block(node)

    def at_begin(self, node: Node) -> None:
        self.section = DECLARED
        if node.first.text == "DECLARE":
            self.tell_stop(node, 0)
            return
        self.section = BEGUN
        self.wrong(node)
        self.section = DECLARED
        self.handle(node, 0)

    def at_declaration(self, node: Node) -> None:
        word = node.first.text
        if word in DECLARATIONS:
            if word == "FIELD" and self.last_declared is None:
                self.wrong(node)
            self.declare(node)
        elif word == "SURVEY":
            self.section = SURVEYED
            self.tell_stop(node, 0)
        else:
            self.wrong(node)
            if node.kind == "set" and node.stop and self.declared_by(node, node.stop):
                return
            self.elsewhere(node)

    def declared_by(self, node: Node, stop: Stop) -> bool:
        """A declaration whose first word is missing or misspelled still declares its name."""
        words, at = node.first.piece.words, stop.index
        found = words[at]
        kind = {"WIDTH": "variable", "SIZE": "file"}.get(found)
        if not kind and is_name_word(found) and words[at + 1] in ("WIDTH", "SIZE", ";"):
            kind = {"WIDTH": "variable", "SIZE": "file", ";": "temporary"}[words[at + 1]]
            node.first.index += 1
            node.first.text = found
        if not kind:
            return False
        node.kind, node.name, node.fields = kind, node.first, []
        node.width = node.init = node.size = None
        node.forlopp = False
        self.last_declared = node if kind == "file" else None
        self.found_declaration(node)
        return True

    def declare(self, node: Node) -> None:
        self.tell_stop(node, 0)
        if node.first.text != "FIELD":
            self.last_declared = node if node.first.text in ("FILE", "FORLOPP") else None
        if hasattr(node, "name"):
            self.found_declaration(node)

    def at_survey(self, node: Node) -> None:
        word = node.first.text
        if word in ("RECEIVE", "SEND"):
            self.survey_line(node)
        elif word == "PROGRAM":
            self.tell_stop(node, 0)
            self.begin_program()
        else:
            self.wrong(node)
            self.elsewhere(node)

    def survey_line(self, node: Node) -> None:
        self.tell_stop(node, 0)
        name: Optional[Token] = getattr(node, "name", getattr(node, "signal", None))
        if name:
            self.found_survey_line(node, name)

    def begin_program(self) -> None:
        self.section = RUNNING
        self.frames = [Frame(None, 0, "list")]
        last_line = self.memo.get(LAST_LINE)
        self.memo.clear()
        if last_line is not None:
            self.memo[LAST_LINE] = last_line
        self.found_program()

    def elsewhere(self, node: Node) -> None:
        """A phrase that has been told to stand in the wrong part of a block is looked at as one of
        its own part.
        """
        word = node.first.text
        if word == "SIGNAL":
            self.found_signal(node)
        elif word == "BLOCK":
            self.close_block(None, 0)
            self.open_block(node)
        elif word == "END":
            if self.block_is_over(node):
                self.close_block(node, 0)
        elif word in DECLARATIONS:
            self.declare(node)
        elif word in ("RECEIVE", "SEND") and self.section is not RUNNING:
            self.section = SURVEYED
            self.survey_line(node)
        elif word == "RECEIVE":
            self.survey_line(node)
        elif word == "SURVEY":
            self.section = SURVEYED
        elif word == "PROGRAM":
            if self.section is not RUNNING:
                self.begin_program()
        elif self.section is not RUNNING and begins_program(node):
            self.begin_program()
            self.in_program(node, 0)

    # programs

    def in_program(self, node: Node, shift: int) -> None:
        kind, frame = node.kind, self.frames[-1]
        if kind in ("set", "set_field") or kind in STATEMENTS:
            if frame.state == "CASE":
                self.wrong(node, shift, frame)
            self.statement(node, shift, frame)
        elif kind == "label":
            if len(self.frames) > 1:
                place = node.first.piece.place(node.first.index + 1) + shift
                self.tell_grammar(place, Misfit(["=", "("], node, shift, frame=frame))
            self.found_labels(node, shift, frame)
            frame.before, frame.ended = node, False
        elif kind == "ENTER":
            self.close_lists(node, shift)
            self.tell_stop(node, shift)
            self.count(node, shift)
            self.found_statement(node, shift, self.frames[-1])
            self.frames[-1].before, self.frames[-1].ended = node, False
        elif kind in TAKEN:
            self.inner(node, shift, frame)
        elif kind == "END":
            self.close_lists(node, shift)
            self.tell_stop(node, shift)
            self.count(node, shift)
            if not self.program_goes_on(node, shift):
                self.close_block(node, shift)
        else:
            self.wrong(node, shift, frame)
            self.elsewhere(node)
            if node.opens and self.section is RUNNING:
                self.open_list(node, shift)

    def program_goes_on(self, node: Node, shift: int) -> bool:
        """Whether statements follow behind END BLOCK, which then stands too early."""
        found = FOLLOWS.match(self.source.clean, node.first.piece.end + 1 + shift)
        if not found or not (
            found[1] in OF_PROGRAM or is_name_word(found[1]) and found[2] and found[2] in "=()"
        ):
            return False
        if not node.stop:
            self.tell_grammar(found.start(1), Misfit(WANTED[TOP], node, shift))
        return True

    def block_is_over(self, node: Node) -> bool:
        """Whether another block or the end of the text follows behind an END before the program."""
        found = FOLLOWS.match(self.source.clean, node.first.piece.end + 1)
        return not found or found[1] in ("BLOCK", "SIGNAL")

    def count(self, node: Node, shift: int) -> None:
        self.points += 1
        if self.points == MOST_STATEMENTS + 1:
            self.points_over = node.first.place + shift

    def statement(self, node: Node, shift: int, frame: Frame) -> None:
        if node.stop:
            self.tell_stop(node, shift)
        self.points += 1
        if self.points == MOST_STATEMENTS + 1:
            self.points_over = node.first.place + shift
        self.found_statement(node, shift, frame)
        frame.before, frame.ended = node, self.ends(node)
        if node.opens:
            self.open_list(node, shift)

    def open_list(self, node: Node, shift: int) -> None:
        if len(self.frames) == MOST_NESTED + 1:
            token = getattr(node, "then", node.first)
            wanted = [f"at most {MOST_NESTED} statements in each other"]
            self.tell_grammar(token.place + shift, Misfit(wanted, node, shift, "TOODEEP"))
        in_case = node.kind == "strange" and self.frames[-1].state in ("CASE", "WHEN")
        state = "OTHERWISE" if in_case or node.opens is None else node.opens
        if state in ("WHEN", "OTHERWISE"):
            self.next_list(self.frames[-1], state, node, shift)
        else:
            self.frames.append(Frame(node, shift, state))

    def next_list(self, frame: Frame, state: str, node: Node, shift: int) -> None:
        """Another list of the statement of a frame begins."""
        if frame.state != "CASE":
            self.found_list_end(frame)
            frame.all_ended = frame.all_ended and frame.ended
        frame.state = state
        frame.begin()
        self.found_inner(node, shift, frame)

    def inner(self, node: Node, shift: int, frame: Frame) -> None:
        """ELSE, FI, NO, ESAC, WHEN or OTHERWISE."""
        kind = node.kind
        if frame.state not in TAKEN[kind]:
            self.wrong(node, shift, frame)
            near = NEARLY.get(kind, OF_CASE)
            depth = max(
                [place for place, other in enumerate(self.frames) if other.state in near], default=0
            )
            if not depth:
                return
            while len(self.frames) > depth + 1:
                self.close_list()
            frame = self.frames[-1]
        if node.stop:
            self.tell_stop(node, shift)
        if kind in ("ELSE", "WHEN", "OTHERWISE"):
            self.next_list(frame, kind, node, shift)
        else:
            self.close_list()

    def close_list(self) -> None:
        frame = self.frames.pop()
        self.found_list_end(frame)
        whole = frame.state in ("ELSE", "OTHERWISE")
        self.frames[-1].ended = whole and frame.all_ended and frame.ended

    def close_lists(self, node: Node, shift: int) -> None:
        """An ENTER or an END stands in no other statement."""
        if len(self.frames) > 1:
            self.wrong(node, shift, self.frames[-1])
            while len(self.frames) > 1:
                self.close_list()

    def close_block(self, node: Optional[Node], shift: int) -> None:
        if self.section is not RUNNING:
            self.begin_program()
        while len(self.frames) > 1:
            self.close_list()
        self.found_list_end(self.frames[0])
        self.section = TOP
        self.found_block_end(node, shift)


def begins_program(node: Node) -> bool:
    """Whether a phrase can only be one of a program."""
    is_statement = node.kind in ("label", "set_field") or node.kind == "set" and not node.stop
    return is_statement or node.first.text in OF_PROGRAM


SECTIONS: Dict[str, Callable[[Reader, Node], None]] = {
    TOP: Reader.at_top,
    BEGUN: Reader.at_begin,
    DECLARED: Reader.at_declaration,
    SURVEYED: Reader.at_survey,
}
