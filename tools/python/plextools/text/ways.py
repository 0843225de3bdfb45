"""What is odd in the ways through an exchange text that breaks no rule: what no way reaches or
leaves, and what comes of constants there.

`odd_ways(clean)` gives the warnings of a text without comments. Each is of one block alone, by the
text of the block and the kinds of the signals: what other blocks do is not looked at. So the
warnings of a block that has not changed can be kept, in `KnownWays`.
"""
import re
from typing import Callable, Dict, Iterator, List, NamedTuple, Optional, Sequence, Set, Tuple

from plextools.limits import NUMBERS
from plextools.text.finding import Span
from plextools.text.grammar import Expression, Node
from plextools.text.reader import ENDS
from plextools.text.statements import Signal, Text, alone, factors_of, written
from plextools.text.tokens import Told
from plextools.text.tree import Watch, nothing

ALL = (0, NUMBERS - 1)
DIVIDES = ("/", "MOD")
ALWAYS, NEVER = "always true", "never true"
MOST_STEPS = 1_000_000  # of all ways on which a record is looked for
BLOCK = re.compile(r"(?<![A-Z0-9])(END[ \t\r\n]+)?BLOCK(?![A-Z0-9])")
Range = Tuple[int, int]

# Of two ranges: whether a relation holds for all their numbers.
HOLDS: Dict[str, Callable[[Range, Range], bool]] = {
    "=": lambda one, other: one[0] == one[1] == other[0] == other[1],
    "<>": lambda one, other: one[1] < other[0] or other[1] < one[0],
    "<": lambda one, other: one[1] < other[0],
    "<=": lambda one, other: one[1] <= other[0],
    ">": lambda one, other: one[0] > other[1],
    ">=": lambda one, other: one[0] >= other[1],
}
CONTRARY = {"=": "<>", "<>": "=", "<": ">=", ">=": "<", ">": "<=", "<=": ">"}


class Highest(NamedTuple):
    """The largest record number that a temporary has, and whether it is the only one."""

    value: int
    is_only: bool


Known = Dict[str, Highest]
Leads = Dict[int, List[int]]  # from points to points


class OfBlock(NamedTuple):
    """The warnings of a block, at places from its beginning, and how many lines are above it."""

    above: int
    told: List[Told]


class KnownWays:
    """The warnings of the blocks of the text that was looked at last, by the texts of the blocks.
    A look that was ended early leaves those of the blocks that it came to.
    """

    def __init__(self) -> None:
        self.kinds: Dict[str, str] = {}
        self.of: Dict[str, OfBlock] = {}

    def keep(self, kinds: Dict[str, str], blocks: Sequence[str]) -> None:
        """Keeps what holds in a text of these signals and these blocks."""
        self.of = {one: self.of[one] for one in blocks if one in self.of and kinds == self.kinds}
        self.kinds = kinds

    def found(self, block: str, above: int) -> Optional[List[Told]]:
        """The warnings of a block, which may name lines; None where they are not known."""
        known = self.of.get(block)
        return known.told if known and (known.above == above or not known.told) else None


def odd_ways(clean: str, watch: Watch = nothing, known: Optional[KnownWays] = None) -> List[Told]:
    """The warnings of a text that breaks no rule. `watch` raises what ends the search."""
    spans = list(blocks_in(clean))
    head = clean[: spans[0].start] if spans else clean
    signals = Text("", head.encode("latin-1"), watch).signals
    known, blocks = known or KnownWays(), [clean[span.start : span.end] for span in spans]
    known.keep({name: signal.kind for name, signal in signals.items()}, blocks)
    told: List[Told] = []
    above = head.count("\n")
    for span, block in zip(spans, blocks):
        watch()
        found = known.found(block, above)
        if found is None:
            found = odd_of_block(block, above, signals, watch)
            known.of[block] = OfBlock(above, found)
        told += [one._replace(place=one.place + span.start) for one in found]
        above += block.count("\n")
    return sorted(told)


def blocks_in(clean: str) -> Iterator[Span]:
    """The blocks of a text that breaks no rule; each goes on up to the next one."""
    starts = [found.start() for found in BLOCK.finditer(clean) if not found[1]]
    return map(Span, starts, [*starts[1:], len(clean)])


def odd_of_block(block: str, above: int, signals: Dict[str, Signal], watch: Watch) -> List[Told]:
    """The warnings of a block, at places from its beginning."""
    return Ways(Text("", block.encode("latin-1"), watch, signals), above, watch).odd()


def words_of(node: Node) -> List[str]:
    """The words of a statement, up to those of the statements in it."""
    return node.first.piece.words[node.first.index :]


def place_of(node: Node, index: int) -> int:
    """The byte of a word of a statement."""
    return node.first.piece.place(node.first.index + index)


def names_in(exprs: Sequence[Expression]) -> Iterator[str]:
    """The names in expressions that are read as values or as pointers."""
    for expr in exprs:
        for _, factor in factors_of(expr):
            if factor.kind == "name":
                yield factor.name
            elif factor.kind == "field":
                yield factor.pointer


def is_written(node: Node) -> Iterator[str]:
    """The names to which a statement may give a value."""
    if node.kind == "set":
        yield node.first.text
    elif node.kind in ("ENTER", "RETRIEVE"):
        yield from (name.text for name in node.names)
    elif node.kind in ("ON", "FOR", "SEIZE"):
        yield node.temporary.text


def lists_of(node: Node) -> List[List[Node]]:
    """The lists of statements in a statement."""
    return getattr(node, "lists", [])


def exprs_of(node: Node) -> List[Expression]:
    return getattr(node, "exprs", [])


def all_in(items: Sequence[Node]) -> Iterator[Node]:
    """Statements, and all in them."""
    for item in items:
        yield item
        for inner in lists_of(item):
            yield from all_in(inner)


class Ways:
    """Looks at the program of the one block of a text, above which so many lines stand."""

    def __init__(self, text: Text, above: int, watch: Watch) -> None:
        self.text, self.block, self.points = text, text.blocks[0], text.points
        self.above, self.watch = above, watch
        self.found: List[Told] = []
        self.steps = MOST_STEPS

    def odd(self) -> List[Told]:
        """All that is odd in the block."""
        for node in self.points:
            self.watch()
            self.look_at_numbers(node)
            self.look_at_conditions(node)
        self.look_at_list([*self.block.node.items])
        self.look_at_records(self.block.node.items, {})
        leads: Leads = {}
        comes_from: Leads = {}
        for node in self.points:
            self.watch()
            leads[node.point] = self.leads(node)
            for following in leads[node.point]:
                comes_from.setdefault(following, []).append(node.point)
        self.look_at_loops(leads, comes_from)
        self.look_at_reading(leads, comes_from)
        self.look_at_seizing(leads)
        return self.found

    def warn(self, place: int, word: str, sentence: str) -> None:
        self.found.append(Told(place, word, sentence))

    def line(self, node: Node) -> int:
        return node.first.line + self.above

    # where statements lead in their block

    def ends(self, node: Node) -> bool:
        """Whether a statement never goes on to the next one."""
        if node.kind == "SEND":
            return self.text.signals[node.signal.text].kind == "DIRECT"
        if node.kind in ENDS or node.kind == "FINISH":
            return True
        lists = lists_of(node)
        is_whole = node.kind == "CASE" or node.kind == "IF" and len(lists) == 2
        return is_whole and all(some and self.ends(some[-1]) for some in lists)

    def leads(self, node: Node) -> List[int]:
        """The points of the block to which a statement leads."""
        if node.kind in ("EXIT", "FINISH", "RETURN", "TRANSFER") or self.faults(node):
            return []
        if node.kind == "SEND":
            return [] if self.ends(node) else [self.text.follows(node)]
        return self.text.leads(node)

    def faults(self, node: Node) -> bool:
        """Whether a statement divides by the constant 0."""
        return any(self.zeros(node))

    def zeros(self, node: Node) -> Iterator[int]:
        """Where the statement divides by the constant 0, as places of its words."""
        words = words_of(node)
        end = next((at for at, word in enumerate(words) if word in (";", "THEN", "IS", "DO")), 0)
        for at in range(1, end):
            if words[at - 1] in DIVIDES and set(words[at]) == {"0"}:
                yield at

    # constants

    def look_at_numbers(self, node: Node) -> None:
        """Constants that are too wide, and divisions by 0. A constant that is divided by 0 ends a
        forlopp on purpose.
        """
        words = words_of(node)
        for at in self.zeros(node):
            if not words[at - 2].isdigit():
                what = "MOD 0" if words[at - 1] == "MOD" else "a division by 0"
                self.warn(place_of(node, at), "BYZERO", f"{what} is the fault DIVIDE")
        if node.kind not in ("set", "set_field"):
            return
        name, value = node.first.text, alone(node.exprs[0])
        stored = self.block.variables.get(name) or self.block.fields.get(name)
        if stored is None or stored.width is None or value is None or value.kind != "number":
            return
        width = int(stored.width.text)
        if value.value >= 2**width:
            start = words.index("=")
            at = next(at for at in range(start, len(words)) if words[at].isdigit())
            most = f"{2**width - 1} is the most that fits WIDTH {width}"
            self.warn(place_of(node, at), "TOOWIDE", f"{name} gets {value.value}, and {most}")

    def range_of(self, expr: Expression) -> Range:
        """The numbers that an expression may have, by what it is alone."""
        factor = alone(expr)
        if factor is None or factor.kind == "block":
            return ALL
        if factor.kind == "number":
            return factor.value, factor.value
        return self.range_of_name(factor.name) if factor.kind != "bracket" else ALL

    def range_of_name(self, name: str) -> Range:
        """The numbers that a variable, a field or a temporary may have."""
        stored = self.block.variables.get(name) or self.block.fields.get(name)
        if stored is None or stored.width is None:
            return ALL
        return 0, 2 ** int(stored.width.text) - 1

    def look_at_conditions(self, node: Node) -> None:
        """Relations that are constant, and loops without a turn."""
        if node.kind == "IF":
            self.look_at_relations(node)
        elif node.kind == "FOR":
            ranges = self.range_of_name(node.field.text), self.range_of(node.exprs[0])
            told = constant(node.relation, *ranges)
            if told:
                sentence = f"the relation of {node.field.text} is {told}"
                self.warn(node.field.place, "CONSTANT", sentence)
        elif node.kind == "ON":
            least, most = self.range_of(node.exprs[0])[0], self.range_of(node.exprs[1])[1]
            if least > most:
                sentence = f"the loop has no turn: it goes from {least} up to {most}"
                self.warn(node.first.place, "NOTURN", sentence)

    def look_at_relations(self, node: Node) -> None:
        words = words_of(node)
        starts = [1, *(at + 1 for at, word in enumerate(words) if word in ("AND", "OR"))]
        for number, relation in enumerate(node.relations):
            one, other = node.exprs[2 * number : 2 * number + 2]
            told = constant(relation, self.range_of(one), self.range_of(other))
            if alone(one) == alone(other) is not None:
                told = ALWAYS if relation in ("=", "<=", ">=") else NEVER
            if told:
                start = starts[number]
                end = next(
                    at
                    for at in range(start, len(words))
                    if words[at] in ("AND", "OR", "THEN", "GOTO")
                )
                sentence = f"{written(words[start:end])} is {told}"
                self.warn(place_of(node, start), "CONSTANT", sentence)

    # lists

    def look_at_list(self, items: Sequence[Node]) -> None:
        """What nothing reaches, and what runs into a label."""
        before: Optional[Node] = None  # the statement above
        ended: Optional[Node] = None
        label: Optional[Node] = None
        for item in items:
            self.watch()
            if item.kind in ("label", "ENTER"):
                label, ended = item if item.kind == "label" else None, None
                before = before if label else None
                continue
            if label and before and self.is_told(before) and self.is_told(item):
                self.warn_of_label(label, before, item)
            if ended and item.kind != "EXIT":
                sentence = (
                    f"nothing reaches this behind the {ended.kind} of line {self.line(ended)}"
                )
                self.warn(item.first.place, "UNREACHED", sentence)
                ended = None
            elif not ended:
                ended = item if self.ends(item) else None
            before, label = item, None
            for inner in lists_of(item):
                self.look_at_list(inner)

    def is_told(self, node: Node) -> bool:
        """Whether a statement sends a signal to the outside."""
        return node.kind == "SEND" and self.text.signals[node.signal.text].kind == "OUTSIDE"

    def warn_of_label(self, label: Node, before: Node, item: Node) -> None:
        way = f"the way that sends {before.signal.text} on line {self.line(before)} runs on to here"
        sentence = f"{way}, and sends {item.signal.text} too; EXIT before it would end the job"
        self.warn(label.first.place, "RUNSINTO", sentence)

    # record numbers

    def look_at_records(self, items: Sequence[Node], known: Known) -> None:
        """Records that are not there, by temporaries that have a constant, or count up to one."""
        for item in items:
            self.watch()
            if item.kind == "label":
                known.clear()
                continue
            self.look_at_pointers(item, known)
            value = alone(item.exprs[0]) if item.kind == "set" else None
            for inner in lists_of(item):
                self.look_at_records(inner, self.known_in(item, known))
            for changed in all_in([item]):
                for name in is_written(changed):
                    known.pop(name, None)
            if item.kind in ("IF", "CASE"):
                for name in [name for name, highest in known.items() if not highest.is_only]:
                    del known[name]
            if value and value.kind == "number" and item.first.text in self.block.temporaries:
                known[item.first.text] = Highest(value.value, True)
            if item.kind == "ENTER":
                known.clear()

    def known_in(self, node: Node, known: Known) -> Known:
        """What is known in a list of a statement: of a loop, also in its later turns. What a loop
        counts up to may be compared by an IF or a CASE before it is used.
        """
        if node.kind != "ON":
            return {name: highest for name, highest in known.items() if highest.is_only}
        changed = {name for one in all_in([node]) for name in is_written(one)}
        inside = {name: highest for name, highest in known.items() if name not in changed}
        counter, most = node.temporary.text, alone(node.exprs[1])
        in_body = {name for one in all_in(node.lists[0]) for name in is_written(one)}
        if most and most.kind == "number" and counter not in in_body:
            inside[counter] = Highest(most.value, False)
        return inside

    def look_at_pointers(self, node: Node, known: Known) -> None:
        for file, temporary in self.text.pointers(node) if known else ():
            highest = known.get(temporary)
            if highest is None or file.size is None or highest.value < int(file.size.text):
                continue
            size = int(file.size.text)
            has = "is" if highest.is_only else "goes up to"
            at = self.pointer_at(node, temporary)
            sentence = f"{temporary} {has} {highest.value}, and {size - 1} is the last record of "
            self.warn(place_of(node, at), "NORECORD", f"{sentence}{file.name.text}")
            known.pop(temporary)

    def pointer_at(self, node: Node, temporary: str) -> int:
        """The word of a statement that is the pointer."""
        words = words_of(node)
        return next(
            at
            for at, word in enumerate(words)
            if word == temporary and (words[at - 1] == "(" or node.kind == "FREE")
        )

    # loops, values and records on their ways

    def look_at_loops(self, leads: Leads, comes_from: Leads) -> None:
        """Loops by GOTO that no way leaves."""
        left = [point for point, nexts in leads.items() if not nexts]
        ends = set(left)
        while left:
            self.watch()
            for point in comes_from.get(left.pop(), ()):
                if point not in ends:
                    ends.add(point)
                    left.append(point)
        told: Set[str] = set()
        for node in self.points:
            label = getattr(node, "label", None)
            if node.point in ends or label is None or label.text in told:
                continue
            if self.text.label_point(node) <= node.point:
                told.add(label.text)
                sentence = f"no way leaves the loop from {label.text} to here but the fault BUDGET"
                self.warn(node.first.place, "ENDLESS", sentence)

    def bits(self, names: Iterator[str]) -> int:
        """A set of temporaries as a number."""
        found = 0
        for name in names:
            number = self.block.temporaries.get(name)
            found |= 0 if number is None else 1 << number
        return found

    def reads(self, node: Node) -> Iterator[str]:
        """The temporaries whose values a statement needs, or may leave as they are."""
        yield from names_in(exprs_of(node))
        held = self.text.held(node)
        if held:
            yield held
        if node.kind == "set_field":
            yield node.pointer.text
        elif node.kind in ("FREE", "ON", "FOR", "SEIZE"):
            yield node.temporary.text

    def look_at_reading(self, leads: Leads, comes_from: Leads) -> None:
        """Values that are given to temporaries and never read."""
        reads: Dict[int, int] = {}
        writes: Dict[int, int] = {}
        for node in self.points:
            self.watch()
            reads[node.point] = self.bits(self.reads(node))
            if node.kind in ("set", "ENTER", "RETRIEVE"):
                writes[node.point] = self.bits(is_written(node))
        before, behind = dict(reads), dict.fromkeys(reads, 0)
        left = list(reads)
        while left:
            self.watch()
            point = left.pop()
            for earlier in comes_from.get(point, ()):
                behind[earlier] |= before[point]
                needed = reads[earlier] | behind[earlier] & ~writes.get(earlier, 0)
                if needed != before[earlier]:
                    before[earlier] = needed
                    left.append(earlier)
        for node in self.points:
            name = node.first.text
            if node.kind != "set" or name not in self.block.temporaries:
                continue
            is_read = behind[node.point] >> self.block.temporaries[name] & 1
            if not is_read and not any(word in DIVIDES for word in words_of(node)):
                self.warn(node.first.place, "NEVERREAD", f"nothing reads what {name} gets here")

    def look_at_seizing(self, leads: Leads) -> None:
        """Records that are seized on a way that ends without FREE, where nothing has kept their
        numbers. A file without any FREE is told by NOFREE.
        """
        freed = {node.file.text for node in self.points if node.kind == "FREE"}
        for node in self.points:
            if node.kind == "SEIZE" and node.file.text in freed:
                end = self.end_without(node, leads)
                if end:
                    name = node.file.text
                    sentence = f"the record of {name} is not freed on the way to line {end}"
                    self.warn(node.first.place, "LOST", f"{sentence}, and its number is lost")

    def end_without(self, node: Node, leads: Leads) -> Optional[int]:
        """The line of the first end that a way from a SEIZE comes to without FREE, and without a
        statement that keeps or hands on the number; or None.
        """
        name, left = node.temporary.text, [self.text.follows(node)]
        seen: Set[int] = set()
        while left and self.steps:
            self.steps -= 1
            self.watch()
            point = left.pop()
            one = self.points[point]
            if point in seen or self.keeps(one, name):
                continue
            seen.add(point)
            if not leads[point]:
                return self.line(one)
            left += leads[point]
        return None

    def keeps(self, node: Node, name: str) -> bool:
        """Whether a statement frees a record, keeps its number, hands it on, or ends the forlopp by
        a fault.
        """
        if node.kind == "FREE":
            return node.temporary.text == name
        is_value = node.kind in ("set", "set_field", "SEND", "RETURN")
        return is_value and name in names_in(exprs_of(node)) or self.faults(node)


def constant(relation: str, one: Range, other: Range) -> Optional[str]:
    """Whether a relation holds for all numbers of two ranges, or for none; or None."""
    if HOLDS[relation](one, other):
        return ALWAYS
    return NEVER if HOLDS[CONTRARY[relation]](one, other) else None
