"""An exchange text as its statements: where each one stands, what it names, and to which ones it
leads.

`Text(name, content)` is for the tools that tell of a text that plex accepts. Statements are
numbered through all blocks as docs/ANALYSIS.md does it: each is a point. A point has its line, its
`head`, which is what stands before the statements inside it, its `next`, and its `uses`.
"""
from typing import Dict, Iterable, Iterator, List, NamedTuple, Optional, Sequence

from plextools.text.grammar import Expression, Factor, Node, Part
from plextools.text.points import first_in, place
from plextools.text.accepted import KEYWORDS, Tree, tree, words_from
from plextools.text.tokens import RELATIONS
from plextools.text.tree import Watch, nothing

LIST_WORDS = ("THEN", "IS", "DO")


class Use(NamedTuple):
    """What a statement does to stored data: READ or WRITE with VAR, FIELD or OWN; SEIZE; FREE. The
    pointer is the temporary of a field.
    """

    does: str
    name: str
    pointer: Optional[str]


class Signal(NamedTuple):
    """A declared signal: `answer` is the name of its answer, `told` its declaration."""

    name: str
    kind: str
    values: int
    level: Optional[str]
    answer: Optional[str]
    line: int
    number: int
    told: str


class Pointer(NamedTuple):
    """A pointer that a statement uses: the file whose records it names, and the temporary."""

    file: Node
    temporary: str


class Block:
    """A block, and what each name that it declares is: the number of a temporary, a variable, a
    field or a file. `file_of` has the file of each field.
    """

    def __init__(self, node: Node) -> None:
        self.node, self.name = node, node.name
        self.temporaries: Dict[str, int] = {}
        self.variables: Dict[str, Node] = {}
        self.fields: Dict[str, Node] = {}
        self.files: Dict[str, Node] = {}
        self.file_of: Dict[str, Node] = {}


class Reader(Tree):
    """Keeps of an expression its parts in their order, each with the operator before it: one part
    is a value that stands alone. A condition is the list of its expressions, and the IF has the
    `relations` between each two of them and the words in `joins`, AND or OR, between its relations.
    """

    def expr(self, depth: int = 0) -> Expression:
        parts = [Part("", self.factor(depth))]
        while self.sees("+", "-", "*", "/", "MOD"):
            operator = self.take("+", "-", "*", "/", "MOD").text
            parts.append(Part(operator, self.factor(depth)))
        return parts

    def cond(self) -> List[Expression]:
        found: List[Expression] = []
        node = self.node
        node.relations, node.joins = [], []
        while True:
            found.append(self.expr())
            node.relations.append(self.take(*RELATIONS).text)
            found.append(self.expr())
            if not self.sees("AND", "OR"):
                return found
            node.joins.append(self.take("AND", "OR").text)


def factors_of(expr: Expression) -> Iterator[Part]:
    """All parts of an expression with the operator before each, those in brackets too."""
    for part in expr:
        yield part
        if part.factor.kind == "bracket":
            yield from factors_of(part.factor.inside)


def alone(expr: Expression) -> Optional[Factor]:
    """The one part of which an expression consists, without brackets around it; None where there
    are several.
    """
    while len(expr) == 1:
        factor = expr[0].factor
        if factor.kind != "bracket":
            return factor
        expr = factor.inside
    return None


def is_name(word: str) -> bool:
    return word[0].isalpha() and word not in KEYWORDS


def written(words: Sequence[str]) -> str:
    """Words as a person writes them."""
    parts: List[str] = []
    before = ""
    for word in words:
        glued = (
            word in (";", ",", ")") or before == "(" or (word == "(" and before and is_name(before))
        )
        parts.append(word if glued or not parts else f" {word}")
        before = word
    return "".join(parts)


class Text:
    """The statements of an exchange text that plex accepts, or of blocks of one, whose signals are
    then those of `elsewhere`.
    """

    def __init__(
        self,
        name: str,
        content: bytes,
        watch: Watch = nothing,
        elsewhere: Optional[Dict[str, Signal]] = None,
    ) -> None:
        self.name = name
        signals, blocks = tree(Reader, content, watch)
        self.blocks = [Block(node) for node in blocks]
        self.signals: Dict[str, Signal] = {} if elsewhere is None else elsewhere
        self.names: List[str] = []
        self.declared: Dict[str, Node] = {}
        self.number_signals(signals)
        self.block_number = {block.name.text: number for number, block in enumerate(self.blocks)}
        for block in self.blocks:
            self.declare(block)
        self.points = place(blocks)
        for node in self.points:
            watch()
            node.line = node.first.line
        self.find_ways()
        self.entries = [
            node
            for node in self.points
            if node.kind == "ENTER" and self.signals[node.signal.text].level
        ]

    # what is declared

    def number_signals(self, nodes: Iterable[Node]) -> None:
        for node in nodes:
            level = node.level.text if node.level else None
            answer = node.answer.name.text if node.answer else None
            line, told = node.first.line, written(words_from(node.first))
            for each in filter(None, (node, node.answer)):
                name, values, number = each.name.text, int(each.data.text), len(self.signals)
                signal = Signal(name, each.kind, values, level, answer, line, number, told)
                self.signals[name] = signal

    def declare(self, block: Block) -> None:
        """The names of a block: its temporaries, its variables, and its files with their fields."""
        for decl in block.node.decls:
            name = decl.name.text
            if decl.kind == "temporary":
                block.temporaries[name] = len(block.temporaries)
                continue
            self.add_name(block, decl)
            if decl.kind == "variable":
                block.variables[name] = decl
                continue
            block.files[name] = decl
            for field in decl.fields:
                self.add_name(block, field)
                block.fields[field.name.text] = field
                block.file_of[field.name.text] = decl

    def add_name(self, block: Block, decl: Node) -> None:
        key = f"{block.name.text}.{decl.name.text}"
        self.names.append(key)
        self.declared[key] = decl

    # where statements lead

    def find_ways(self) -> None:
        """Where each signal is entered, and where each answer arrives."""
        self.enters: Dict[str, Dict[int, int]] = {}
        self.arrives: Dict[str, List[int]] = {}
        for node in self.points:
            if node.kind == "ENTER":
                self.enters.setdefault(node.signal.text, {})[node.block] = node.point
            elif node.kind == "RETRIEVE":
                self.arrives.setdefault(node.signal.text, []).append(node.point)

    # what stands there

    def block_of(self, node: Node) -> Block:
        return self.blocks[node.block]

    def name_of(self, node: Node, name: str) -> str:
        """The name of what is stored in the block of a statement, with the block's."""
        return f"{self.block_of(node).name.text}.{name}"

    def head(self, node: Node) -> str:
        """A statement without the statements in it."""
        words = words_from(node.first)
        if getattr(node, "lists", None):
            end = next(place for place, word in enumerate(words) if word in LIST_WORDS)
            return written(words[: end + 1]) + " .."
        return written(words)

    def label_point(self, node: Node) -> int:
        return self.block_of(node).node.labels[node.label.text]

    def receivers(self, node: Node) -> List[int]:
        """The ENTERs to which the signal of a SEND or TRANSFER may go."""
        enters = self.enters.get(node.signal.text, {})
        if node.reference and node.reference.kind == "named":
            return [enters[self.block_number[node.reference.first.text]]]
        return list(enters.values())

    def leads(self, node: Node) -> List[int]:
        """The points to which a statement leads."""
        kind = node.kind
        if kind in ("EXIT", "FINISH"):
            return []
        if kind == "GOTO":
            return [self.label_point(node)]
        if kind == "TRANSFER":
            return self.receivers(node)
        if kind == "RETURN":
            return self.arrives.get(node.signal.text, [])
        follows = self.follows(node)
        if kind in ("FOR", "SEIZE") or (kind == "IF" and hasattr(node, "label")):
            return [self.label_point(node), follows]
        if kind in ("IF", "CASE"):
            lists = node.lists + [[]] if kind == "IF" and len(node.lists) == 1 else node.lists
            return [first_in(some, follows) for some in lists]
        if kind == "ON":
            return [first_in(node.lists[0], node.point), follows]
        if kind == "SEND":
            sent = self.signals[node.signal.text].kind
            ways = self.receivers(node) if sent in ("DIRECT", "COMBINED") else []
            return ways + ([] if sent == "DIRECT" else [follows])
        return [follows]

    def follows(self, node: Node) -> int:
        """The point behind a statement. The end of a program, which has none, leads nowhere."""
        assert node.next is not None
        return node.next

    def uses(self, node: Node) -> List[Use]:
        """What a statement does to stored data, whatever the values are."""
        block, found = self.block_of(node), []
        for expr in getattr(node, "exprs", []):
            for _, factor in factors_of(expr):
                if factor.kind == "name" and factor.name in block.variables:
                    found.append(Use("READ VAR", self.name_of(node, factor.name), None))
                elif factor.kind == "field":
                    found.append(self.field_use("READ", node, factor.name, factor.pointer))
        held = self.held(node)
        if held and held in block.variables:
            found.append(Use("READ VAR", self.name_of(node, held), None))
        if node.kind == "set" and node.first.text in block.variables:
            found.append(Use("WRITE VAR", self.name_of(node, node.first.text), None))
        elif node.kind == "set_field":
            found.append(self.field_use("WRITE", node, node.first.text, node.pointer.text))
        elif node.kind == "FOR":
            found.append(Use("READ FIELD", self.name_of(node, node.field.text), None))
        elif node.kind == "SEIZE":
            found.append(Use("SEIZE", self.name_of(node, node.file.text), None))
        elif node.kind == "FREE":
            found.append(Use("FREE", self.name_of(node, node.file.text), None))
            for field in block.files[node.file.text].fields:
                found.append(Use("WRITE OWN", self.name_of(node, field.name.text), None))
        return list(dict.fromkeys(found))

    def field_use(self, does: str, node: Node, name: str, pointer: str) -> Use:
        key = self.name_of(node, name)
        if self.block_of(node).file_of[name].forlopp:
            return Use(f"{does} OWN", key, None)
        return Use(f"{does} FIELD", key, pointer)

    def held(self, node: Node) -> Optional[str]:
        """The variable or temporary that holds the reference of a SEND or TRANSFER, if one does."""
        reference: Optional[Node] = getattr(node, "reference", None)
        return reference.first.text if reference and reference.kind == "held" else None

    def pointers(self, node: Node) -> Iterator[Pointer]:
        """Each pointer into a file that a statement uses."""
        block = self.block_of(node)
        for expr in getattr(node, "exprs", []):
            for _, factor in factors_of(expr):
                if factor.kind == "field":
                    yield Pointer(block.file_of[factor.name], factor.pointer)
        if node.kind == "set_field":
            yield Pointer(block.file_of[node.first.text], node.pointer.text)
        elif node.kind == "FREE":
            yield Pointer(block.files[node.file.text], node.temporary.text)
