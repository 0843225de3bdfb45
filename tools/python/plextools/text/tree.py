"""The whole tree of an exchange text that breaks no rule, for tools that tell a second time what
the program does.

`tree(reader, data)` gives the signals and the blocks of a text in bytes as nodes. A block has
`decls`, `surveys`, `items` and `end`; a statement that holds others has `lists`, and a CASE the
`numbers` of its WHENs. A class over `Tree` reads expressions in a way of its own, by `expr`, which
stands on `factor`, and conditions by `cond`.
"""
from typing import Callable, List, NamedTuple, Optional, Type

from plextools.text.grammar import (
    Bracket,
    Expression,
    Factor,
    FieldOf,
    Name,
    Node,
    Number,
    Reference,
)
from plextools.text.reader import Frame, Reader
from plextools.text.tokens import RELATIONS, Text, Token


class Sentence(NamedTuple):
    """A right text: its signals and its blocks."""

    signals: List[Node]
    blocks: List[Node]


Watch = Callable[[], None]  # raises what ends the work


def nothing() -> None:
    """Watches nothing: what goes on goes on to its end."""


class Tree(Reader):
    """Keeps all that stands in a text."""

    keeps_pieces = False

    def __init__(self, source: Text) -> None:
        super().__init__(source)
        self.watch: Watch = nothing
        self.signals: List[Node] = []
        self.blocks: List[Node] = []

    def exchange(self) -> Sentence:
        self.read()
        if self.source.faults or self.grammar:
            raise ValueError("the text is no sentence")
        return Sentence(self.signals, self.blocks)

    def new_piece(self, at: int, end: int, key: Optional[str] = None) -> None:
        self.watch()
        super().new_piece(at, end, key)

    def cond(self) -> List[Expression]:
        """The expressions of a condition."""
        found: List[Expression] = []
        while True:
            found.append(self.expr())
            self.take(*RELATIONS)
            found.append(self.expr())
            if not (self.maybe("AND") or self.maybe("OR")):
                return found

    def factor(self, depth: int) -> Factor:
        """What stands alone in an expression: its kind, and its parts."""
        if self.maybe("("):
            inside = self.expr(depth + 1)
            self.take(")")
            return self.bracket(inside)
        if self.maybe("REFERENCE"):
            return Reference("block", self.name().text)
        if not self.is_name():
            return Number("number", int(self.number().text))
        name = self.name().text
        if not self.maybe("("):
            return Name("name", name)
        pointer = self.name().text
        self.take(")")
        return FieldOf("field", name, pointer)

    def bracket(self, inside: Expression) -> Factor:
        return Bracket("bracket", inside)

    def exprs(self) -> List[Expression]:
        found = [self.expr()]
        while self.maybe(","):
            found.append(self.expr())
        return found

    def found_signal(self, node: Node) -> None:
        self.signals.append(node)

    def found_block(self, node: Optional[Node]) -> None:
        if node is None:
            return
        node.kind = "block"
        node.decls, node.surveys, node.items = [], [], []
        self.blocks.append(node)

    def found_declaration(self, node: Node) -> None:
        if node.kind == "field" and self.last_declared:
            self.last_declared.fields.append(node)
        else:
            self.blocks[-1].decls.append(node)

    def found_survey_line(self, node: Node, name: Token) -> None:
        node.kind, node.name = node.first.text, name
        self.blocks[-1].surveys.append(node)

    def found_program(self) -> None:
        self.frames[0].items = self.blocks[-1].items

    def found_statement(self, node: Node, shift: int, frame: Frame) -> None:
        frame.items.append(node)
        if node.kind == "CASE":
            node.lists = []
        elif node.opens:
            node.lists = [[]]

    def open_list(self, node: Node, shift: int) -> None:
        super().open_list(node, shift)
        if node.kind != "CASE":
            self.frames[-1].items = node.lists[0]

    def found_inner(self, node: Node, shift: int, frame: Frame) -> None:
        if node.kind == "WHEN":
            frame.statement.numbers.append(node.number)
        frame.statement.lists.append([])
        frame.items = frame.statement.lists[-1]

    def found_labels(self, node: Node, shift: int, frame: Frame) -> None:
        words, piece = node.first.piece.words, node.first.piece
        frame.items += [
            Node(Token(words[index], index, piece), "label") for index in node.label_tokens
        ]

    def found_block_end(self, node: Optional[Node], shift: int) -> None:
        if node:
            self.blocks[-1].end = node.first


def tree(reader: Type[Tree], data: bytes, watch: Watch = nothing) -> Sentence:
    reading = reader(Text(data, 1))
    reading.watch = watch
    return reading.exchange()
