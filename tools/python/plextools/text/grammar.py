"""The phrases of exchange texts: declarations, lines of a survey, statements up to the word that
lets others follow.

`Phrases` reads the words of a piece one phrase after the other, each as a `Node`. A phrase that is
not spelled as docs/LANGUAGE.md says is told by `Stop`: the word that does not fit, and what was
wanted there. Then `skip` looks for the place at which the text goes on. Statements that hold others
are phrases up to THEN, IS and DO; reader.py puts them into each other.
"""
from typing import (
    Callable,
    Container,
    Dict,
    List,
    Literal,
    NamedTuple,
    NoReturn,
    Optional,
    Sequence,
    Set,
    Union,
)

from plextools.limits import MOST_BRACKETS, MOST_OPERANDS
from plextools.text.tokens import KEYWORDS, MARKS, RELATIONS, Piece, Token

KIND = {word: word for word in KEYWORDS + MARKS + [""]}
OPERATORS = frozenset(["+", "-", "*", "/", "MOD"])
RELATION_WORDS, JOINING = frozenset(RELATIONS), frozenset(["AND", "OR"])
STARTS = "GOTO IF CASE ON FOR SEND RETRIEVE RETURN TRANSFER SEIZE FREE EXIT".split()
INNER = "ELSE FI NO ESAC WHEN OTHERWISE".split()
OF_BLOCKS = (
    "SIGNAL BLOCK DECLARE VARIABLE TEMPORARY FILE FORLOPP FIELD SURVEY RECEIVE PROGRAM END ENTER"
).split()
SYNC = frozenset(STARTS + INNER + OF_BLOCKS)
A_NAME, A_NUMBER, AN_OPERAND = "a name", "a number", "a number, a name, ( or REFERENCE"
OPENS = {"THEN": "IF", "IS": "CASE", "DO": "ON"}


class Stop(Exception):
    """A word that does not fit: which one, what was wanted, and whether nothing but the semicolon
    was missing.
    """

    def __init__(
        self, index: int, wanted: List[str], rule: str = "UNEXPECTED", complete: bool = False
    ) -> None:
        super().__init__(index, wanted)
        self.index, self.wanted, self.rule, self.complete = index, wanted, rule, complete

    def wants_name(self) -> bool:
        return (
            self.wanted[:1] == [A_NAME]
            or bool(self.wanted)
            and self.wanted[0].startswith("the name")
        )


def is_name_word(word: str) -> bool:
    return word not in KIND and word >= "A"


class Number(NamedTuple):
    """A number in an expression."""

    kind: Literal["number"]
    value: int


class Name(NamedTuple):
    """A variable or a temporary in an expression."""

    kind: Literal["name"]
    name: str


class Reference(NamedTuple):
    """A REFERENCE to a block, by its name, in an expression."""

    kind: Literal["block"]
    name: str


class FieldOf(NamedTuple):
    """A field in an expression, with the temporary that points to its record."""

    kind: Literal["field"]
    name: str
    pointer: str


class Bracket(NamedTuple):
    """An expression in brackets."""

    kind: Literal["bracket"]
    inside: "Expression"


Factor = Union[Number, Name, Reference, FieldOf, Bracket]


class Part(NamedTuple):
    """A part of an expression, with the operator before it; the first part has none."""

    operator: str
    factor: Factor


Expression = Sequence[Part]
UNKEPT: Expression = ()


class Strange(NamedTuple):
    """A name in an expression that is not declared as it is used: which word it is, and its role:
    value, field or pointer.
    """

    at: int
    role: str


class StatementFault(NamedTuple):
    """A fault of a statement, wherever it stands: at which word, a rule and a sentence."""

    at: int
    rule: str
    sentence: str


class Node:
    """A part of the tree: its first token, its kind, and what it holds by name. Which names it has
    follows from its kind, and from how far its phrase could be read: `hasattr` tells.

    `opens` says which list of statements follows.
    """

    stop: Optional[Stop] = None
    opens: Optional[str] = None
    over: Optional[int] = None  # the operand that is one too many
    label_tokens: Sequence[int] = ()
    faults: Optional[List[StatementFault]] = None
    noted = is_last = False

    # of declarations
    name: Token
    level: Optional[Token]
    data: Token
    answer: Optional["Node"]
    whole: bool
    clear: bool
    width: Optional[Token]
    init: Optional[Token]
    size: Optional[Token]
    forlopp: bool
    fields: List["Node"]

    # of statements
    signal: Token
    names: List[Token]
    label: Token
    then: Token
    number: Token
    numbers: List[Token]
    temporary: Token
    pointer: Token
    file: Token
    field: Token
    relation: str
    relations: List[str]
    joins: List[str]
    reference: Optional["Node"]
    fresh: Optional[Token]
    exprs: List[Expression]

    # of whole trees
    decls: List["Node"]
    surveys: List["Node"]
    items: List["Node"]
    end: Token
    lists: List[List["Node"]]

    # of placed statements, and of blocks whose statements are placed: see points.py
    block: int
    point: int
    next: Optional[int]
    line: int
    body: List["Node"]
    labels: Dict[str, int]

    def __init__(self, first: Token, kind: str) -> None:
        self.first, self.kind = first, kind
        self.references: List[Token] = []
        self.strange: List[Strange] = []


class Everything(Container[str]):
    """A set that holds whatever is asked for."""

    def __contains__(self, _: object) -> bool:
        return True


class Phrases:
    """Reads the phrases of a piece. Names in expressions that are not among `values`, `fields` and
    `temporaries` are noted as strange.
    """

    piece: Piece
    node: Node

    def __init__(self) -> None:
        self.values: Container[str] = Everything()
        self.fields: Container[str] = Everything()
        self.temporaries: Container[str] = Everything()
        self.used: Set[str] = set()
        self.words, self.at, self.counted = [""], 0, 0

    def begin(self, piece: Piece) -> None:
        self.piece, self.words, self.at = piece, piece.words, 0

    # words

    def stop(self, *wanted: str, complete: bool = False) -> NoReturn:
        raise Stop(self.at, list(wanted), complete=complete)

    def sees(self, *texts: str) -> bool:
        return self.words[self.at] in texts

    def token(self) -> Token:
        self.at += 1
        return Token(self.words[self.at - 1], self.at - 1, self.piece)

    def take(self, *texts: str) -> Token:
        if self.words[self.at] not in texts:
            self.stop(*texts)
        return self.token()

    def maybe(self, text: str) -> Optional[Token]:
        return self.token() if self.words[self.at] == text else None

    def is_name(self) -> bool:
        word = self.words[self.at]
        return word not in KIND and word >= "A"

    def name(self, wanted: str = A_NAME) -> Token:
        word = self.words[self.at]
        if word in KIND or word < "A":
            self.stop(wanted)
        return self.token()

    def number(self) -> Token:
        word = self.words[self.at]
        if word in KIND or word >= "A":
            self.stop(A_NUMBER)
        return self.token()

    def finish(self) -> None:
        if self.words[self.at] != ";":
            self.stop(";", complete=True)
        self.at += 1

    # expressions and conditions

    def expr(self, depth: int = 0) -> Expression:
        """An expression, in so many brackets. Its parts are kept by classes over this one."""
        self.operands(False)
        return UNKEPT

    def cond(self) -> List[Expression]:
        """The expressions of a condition."""
        self.operands(True)
        return []

    def exprs(self) -> List[Expression]:
        """Expressions, with commas between them."""
        return [UNKEPT] * self.operands(False, True)

    def operands(self, is_cond: bool, is_list: bool = False) -> int:
        """An expression, a condition or a list of expressions in one go: operands with what joins
        them, and the brackets that are open. Gives the number of expressions.
        """
        words, at, count, depth, related, exprs = self.words, self.at, self.counted, 0, False, 1
        while True:
            word = words[at]
            begun = at
            if word not in KIND:
                if word < "A":
                    at += 1
                elif words[at + 1] == "(":
                    at = self.field_of_record(word, at)
                else:
                    if word not in self.values:
                        self.node.strange.append(Strange(at, "value"))
                    self.used.add(word)
                    at += 1
            elif word == "(":
                depth += 1
                if depth > MOST_BRACKETS:
                    raise Stop(at, [f"at most {MOST_BRACKETS} brackets in each other"], "TOODEEP")
                at += 1
                continue
            elif word == "REFERENCE":
                self.at = at + 1
                self.node.references.append(self.name("the name of a block"))
                begun, at = at + 1, self.at
            else:
                raise Stop(at, [AN_OPERAND])
            count += 1
            if count == MOST_OPERANDS + 1:
                self.node.over = begun
            word = words[at]
            while depth and word == ")":
                depth -= 1
                at += 1
                word = words[at]
            if word in OPERATORS:
                at += 1
                continue
            if depth:
                raise Stop(at, [")", "an operator"])
            if is_cond and not related and word in RELATION_WORDS:
                related = True
            elif is_cond and not related:
                raise Stop(at, ["a relation, as = or <"])
            elif is_cond and word in JOINING:
                related = False
            elif is_list and word == ",":
                exprs += 1
            else:
                self.at, self.counted = at, count
                return exprs
            at += 1

    def field_of_record(self, word: str, at: int) -> int:
        """A field with its pointer; gives the place behind it."""
        self.at = at + 2
        pointer = self.name("the name of a temporary")
        self.take(")")
        if word not in self.fields:
            self.node.strange.append(Strange(at, "field"))
        if pointer.text not in self.temporaries:
            self.node.strange.append(Strange(at + 2, "pointer"))
        self.used.add(word)
        self.used.add(pointer.text)
        return self.at

    # phrases

    def phrase(self, in_survey: bool = False) -> Node:
        """The next phrase. Where it is at fault, `stop` of the node says how, and what was read
        stands in the node.
        """
        first = self.words[self.at]
        node = self.node = Node(Token(first, self.at, self.piece), first)
        self.counted = 0
        try:
            if first in KIND:
                reader = (
                    Phrases.read_survey if in_survey and first == "SEND" else READERS.get(first)
                )
                if reader:
                    self.at += 1
                    reader(self, node)
                else:
                    self.strange(node)
            elif first >= "A":
                self.named(node)
            else:
                self.strange(node)
        except Stop as stop:
            node.stop = stop.with_traceback(None)
            self.skip(node, stop)
        if self.at == node.first.index:
            self.at += 1
        return node

    def strange(self, node: Node) -> None:
        """No phrase begins with this word."""
        node.kind = "strange"
        self.skip(node, Stop(self.at, []))

    def skip(self, node: Node, stop: Stop) -> None:
        """Goes on at a word that begins a phrase, behind one that opens a list, or behind the
        semicolon.
        """
        words, at = self.words, stop.index
        last = len(words) - 1
        if at < last and is_name_word(words[at]):
            lacks_then = node.kind == "IF" and not stop.complete and words[at + 1] in ("=", "(")
            if lacks_then or stop.complete and words[at + 1] in ("=", "(", ")"):
                node.opens = "IF" if lacks_then else None
                self.at = at
                return
        if (
            stop.wants_name()
            and at < last
            and not is_name_word(words[at + 1])
            and words[at] not in OPENS
        ):
            at += 1
        while at < last:
            word = words[at]
            if word in OPENS:
                node.opens = (
                    node.kind if node.kind in ("WHEN", "OTHERWISE", "CASE") else OPENS[word]
                )
                self.at = at + 1
                return
            if (
                word in SYNC
                and at > node.first.index
                and not (word == "FORLOPP" and node.kind == "SEND")
            ):
                break
            at += 1
        if not stop.complete:
            node.opens = self.opened(node, words[stop.index : at], words[at] if at < last else None)
        self.at = at if at < last else last + (words[last] == ";")

    def opened(self, node: Node, skipped: List[str], found: Optional[str]) -> Optional[str]:
        """The list of statements that seems to follow a phrase without THEN, IS or DO."""
        if node.kind == "IF":
            has_body = found != "GOTO" and (found is not None or "=" in skipped)
            return (
                "IF" if has_body and not hasattr(node, "label") and "GOTO" not in skipped else None
            )
        return node.kind if node.kind in ("ON", "CASE", "WHEN", "OTHERWISE") else None

    def named(self, node: Node) -> None:
        """A label, or an assignment to a variable, a temporary or a field."""
        following = self.words[self.at + 1]
        if following == ")":
            self.labels(node)
            return
        node.kind = "set"
        self.at += 1
        if following == "(":
            node.kind = "set_field"
            self.at += 1
            node.pointer = self.name("the name of a temporary")
            self.take(")")
            self.take("=")
        elif following != "=":
            self.stop("=", "(", ")")
        else:
            self.at += 1
        node.exprs = [self.expr()]
        self.finish()

    def labels(self, node: Node) -> None:
        """A run of labels is one node."""
        words, at = self.words, self.at
        node.kind, found = "label", []
        while words[at] not in KIND and words[at] >= "A" and words[at + 1] == ")":
            found.append(at)
            at += 2
        node.label_tokens, self.at = found, at

    def read_signal(self, node: Node) -> None:
        node.name = self.name()
        shape = self.take("SINGLE", "COMBINED", "OUTSIDE").text
        node.level = node.answer = None
        if shape == "SINGLE":
            shape = self.take("BUFFERED", "DIRECT").text
            if shape == "BUFFERED":
                if self.words[self.at] not in ("A", "B", "C", "D"):
                    self.stop("the level A, B, C or D")
                node.level = self.token()
        node.kind = shape
        node.data = self.data()
        if shape == "COMBINED":
            self.take("ANSWER")
            node.answer = Node(node.first, "ANSWER")
            node.answer.name, node.answer.level, node.answer.answer = self.name(), None, None
            node.answer.data = self.data()
        self.finish()

    def data(self) -> Token:
        self.take("DATA")
        return self.number()

    def read_block(self, node: Node) -> None:
        node.name = self.name()
        self.finish()

    def read_single_word(self, _: Node) -> None:
        self.finish()

    def read_end(self, node: Node) -> None:
        self.take("BLOCK")
        self.finish()
        node.whole = True

    def width(self, node: Node) -> None:
        node.width = node.init = None
        self.take("WIDTH")
        node.width = self.number()
        if self.maybe("INIT"):
            node.init = self.number()

    def read_variable(self, node: Node) -> None:
        node.kind, node.clear, node.width, node.init = "variable", False, None, None
        node.name = self.name()
        self.width(node)
        node.clear = bool(self.maybe("CLEAR"))
        self.finish()

    def read_temporary(self, node: Node) -> None:
        node.kind = "temporary"
        node.name = self.name()
        self.finish()

    def read_forlopp_file(self, node: Node) -> None:
        self.take("FILE")
        self.read_file(node, True)

    def read_file(self, node: Node, forlopp: bool = False) -> None:
        node.kind, node.forlopp, node.fields, node.size = "file", forlopp, [], None
        node.name = self.name()
        self.take("SIZE")
        node.size = self.number()
        self.finish()

    def read_field(self, node: Node) -> None:
        node.kind, node.width, node.init = "field", None, None
        node.name = self.name()
        self.width(node)
        self.finish()

    def read_survey(self, node: Node) -> None:
        node.kind = "survey line"
        node.name = self.name("the name of a signal")
        self.finish()

    # statements

    def names(self, node: Node) -> None:
        node.names = []
        if self.maybe("WITH"):
            node.names.append(self.name("the name of a temporary"))
            while self.maybe(","):
                node.names.append(self.name("the name of a temporary"))

    def values_given(self, node: Node) -> None:
        node.exprs = []
        if self.words[self.at] == "WITH":
            self.at += 1
            node.exprs = self.exprs()

    def reference(self, node: Node) -> None:
        node.reference = None
        if not self.maybe("REFERENCE"):
            return
        if self.maybe("("):
            held = Node(self.name("the name of a variable or a temporary"), "held")
            self.take(")")
            node.reference = held
        else:
            node.reference = Node(self.name("the name of a block"), "named")

    def read_enter(self, node: Node) -> None:
        node.signal = self.name("the name of a signal")
        self.names(node)
        self.finish()

    def read_goto(self, node: Node) -> None:
        node.label = self.name("the name of a label")
        self.finish()

    def read_choice(self, node: Node) -> None:
        node.exprs = []
        node.exprs = self.cond()
        if self.maybe("GOTO"):
            node.label = self.name("the name of a label")
            self.finish()
            return
        if not self.sees("THEN"):
            self.stop("THEN", "GOTO")
        node.then = self.token()
        node.opens = "IF"

    def read_case(self, node: Node) -> None:
        node.exprs = []
        node.numbers = []
        node.exprs = [self.expr()]
        self.take("IS")
        node.opens = "CASE"

    def read_when(self, node: Node) -> None:
        node.number = self.number()
        self.take("DO")
        node.opens = "WHEN"

    def read_otherwise(self, node: Node) -> None:
        self.take("DO")
        node.opens = "OTHERWISE"

    def read_other(self, node: Node) -> None:
        node.opens = "ELSE"

    def read_loop(self, node: Node) -> None:
        node.exprs = []
        node.temporary = self.name("the name of a temporary")
        self.take("FROM")
        node.exprs = [self.expr()]
        self.take("UPTO")
        node.exprs.append(self.expr())
        self.take("DO")
        node.opens = "ON"

    def read_search(self, node: Node) -> None:
        node.exprs = []
        self.take("FIRST")
        node.temporary = self.name("the name of a temporary")
        self.take("IN")
        node.file = self.name("the name of a file")
        self.take("WHERE")
        node.field = self.name("the name of a field")
        if self.words[self.at] not in RELATION_WORDS:
            self.stop("a relation, as = or <")
        node.relation = self.token().text
        node.exprs = [self.expr()]
        self.take("GOTO")
        node.label = self.name("the name of a label")
        self.finish()

    def read_send(self, node: Node) -> None:
        node.exprs = []
        node.reference = node.fresh = None
        node.signal = self.name("the name of a signal")
        self.reference(node)
        self.values_given(node)
        if self.maybe("NEW"):
            node.fresh = self.take("FORLOPP")
        self.finish()

    def read_retrieve(self, node: Node) -> None:
        node.names = []
        node.signal = self.name("the name of an answer")
        self.names(node)
        self.finish()

    def read_answer(self, node: Node) -> None:
        node.exprs = []
        node.signal = self.name("the name of an answer")
        self.values_given(node)
        self.finish()

    def read_transfer(self, node: Node) -> None:
        node.reference = None
        node.signal = self.name("the name of a signal")
        self.reference(node)
        self.finish()

    def read_seize(self, node: Node) -> None:
        self.free_or_seize(node)
        self.take("ELSE")
        self.take("GOTO")
        node.label = self.name("the name of a label")
        self.finish()

    def free_or_seize(self, node: Node) -> None:
        node.temporary = self.name("the name of a temporary")
        self.take("IN")
        node.file = self.name("the name of a FORLOPP FILE")

    def read_free(self, node: Node) -> None:
        self.free_or_seize(node)
        self.finish()


READERS: Dict[str, Callable[[Phrases, Node], None]] = {
    "SIGNAL": Phrases.read_signal,
    "BLOCK": Phrases.read_block,
    "DECLARE": Phrases.read_single_word,
    "SURVEY": Phrases.read_single_word,
    "PROGRAM": Phrases.read_single_word,
    "END": Phrases.read_end,
    "VARIABLE": Phrases.read_variable,
    "TEMPORARY": Phrases.read_temporary,
    "FORLOPP": Phrases.read_forlopp_file,
    "FILE": Phrases.read_file,
    "FIELD": Phrases.read_field,
    "RECEIVE": Phrases.read_survey,
    "ENTER": Phrases.read_enter,
    "GOTO": Phrases.read_goto,
    "IF": Phrases.read_choice,
    "CASE": Phrases.read_case,
    "WHEN": Phrases.read_when,
    "OTHERWISE": Phrases.read_otherwise,
    "ELSE": Phrases.read_other,
    "ON": Phrases.read_loop,
    "FOR": Phrases.read_search,
    "SEND": Phrases.read_send,
    "RETRIEVE": Phrases.read_retrieve,
    "RETURN": Phrases.read_answer,
    "TRANSFER": Phrases.read_transfer,
    "SEIZE": Phrases.read_seize,
    "FREE": Phrases.read_free,
    "EXIT": Phrases.read_single_word,
    "FI": Phrases.read_single_word,
    "NO": Phrases.read_single_word,
    "ESAC": Phrases.read_single_word,
}
