"""The facts of `plex certify`, entry by entry, and what of them `plex-conflicts` does not tell.

`facts_of(lines, wanted)` reads a certificate as it comes and gives the `Facts` of each wanted
entry. `Made(text, facts)` has the statements that are reached, finds those that may fault, and
where a value stops being one that came with the signal. All this follows from the facts, the
statements and the rules of docs/ANALYSIS.md; no fact is worked out.
"""
from collections import deque
from typing import Dict, Iterable, Iterator, List, NamedTuple, Optional, Sequence, Set, Union

from plextools.analysis.lines import ANY
from plextools.limits import MOST_CALLERS, MOST_SENT
from plextools.text.grammar import Expression, Node
from plextools.text.statements import Text, alone, factors_of
from plextools.text.tokens import Token


class MayFault(NamedTuple):
    """A statement that may fault, by its point and the word of the fault."""

    point: int
    fault: str


class Origin(NamedTuple):
    """Where a value stops being one that came with the signal: the point, what happens, and in
    which expression of the statement.
    """

    point: int
    what: str
    number: int = 0


class Place(NamedTuple):
    """A slot before a point."""

    point: int
    slot: str


Source = Union[Place, Origin]


class Facts:
    """The facts of one entry: the values of each slot before each point that is reached, as the
    certificate writes them.
    """

    def __init__(self, entry: int) -> None:
        self.entry = entry
        self.values: Dict[Place, List[str]] = {}
        self.reached: Set[int] = set()

    def add(self, point: int, slot: str, value: str) -> None:
        self.values.setdefault(Place(point, slot), []).append(value)
        if slot == "DEPTH":
            self.reached.add(point)

    def of(self, point: int, slot: str) -> Sequence[str]:
        return self.values.get(Place(point, slot), ())

    def has_any(self, point: int, slot: str) -> bool:
        return ANY in self.of(point, slot)


def facts_of(
    lines: Iterable[bytes], count: int, wanted: Optional[Set[int]] = None
) -> Iterator[Facts]:
    """The facts of each wanted entry of so many, or of all, one entry after the other."""
    entry, current = 0, Facts(0)
    for line in lines:
        if not line.startswith(b"FACT "):
            continue
        words = line.decode("ascii").split(" ", 4)
        number = int(words[1])
        while entry < number:
            yield from give(current, wanted)
            entry += 1
            current = Facts(entry)
        if wanted is None or number in wanted:
            current.add(int(words[2]), words[3], words[4])
    while entry < count:
        yield from give(current, wanted)
        entry += 1
        current = Facts(entry)


def give(facts: Facts, wanted: Optional[Set[int]]) -> Iterator[Facts]:
    if wanted is None or facts.entry in wanted:
        yield facts


def is_number_below(value: str, most: int) -> bool:
    """Whether a value is a known number below this one."""
    kind, _, number = value.partition(" ")
    return kind == "CONST" and int(number) < most


def may_be(value: str, number: int) -> bool:
    return not value.startswith("CONST") or value == f"CONST {number}"


class Made:
    """Of one entry: the points that are `reached`, and the `faults`."""

    def __init__(self, text: Text, facts: Facts) -> None:
        self.text, self.entry = text, facts.entry
        self.known: Optional[Facts] = facts
        self.reached = sorted(facts.reached)
        self.ways: Optional[Dict[int, List[int]]] = None
        self.faults = self.all_faults()

    @property
    def facts(self) -> Facts:
        """The facts of the entry, which are there until they are let go."""
        assert self.known
        return self.known

    def let_go(self) -> None:
        """Lets go what takes much memory, where nothing more is to be found."""
        self.known = self.ways = None

    def slot(self, node: Node, name: str) -> str:
        return f"T{self.text.block_of(node).temporaries[name]}"

    def is_temporary(self, node: Node, name: str) -> bool:
        return name in self.text.block_of(node).temporaries

    # faults

    def all_faults(self) -> List[MayFault]:
        found = [
            MayFault(point, fault)
            for point in self.reached
            for fault in self.faults_at(self.text.points[point])
        ]
        found += [MayFault(point, "SENDS") for point in self.sends_too_many()]
        found += [MayFault(point, "BUDGET") for point in self.goes_round()]
        return sorted(set(found))

    def value_of(self, node: Node, expr: Expression) -> Sequence[str]:
        """The values of an expression before a point."""
        part = alone(expr)
        if part and part.kind == "number" and part.value < 256:
            return [f"CONST {part.value}"]
        if part and part.kind == "block":
            return [f"CONST {1 + self.text.block_number[part.name]}"]
        if part and part.kind == "name" and self.is_temporary(node, part.name):
            return self.facts.of(node.point, self.slot(node, part.name))
        return [ANY]

    def faults_at(self, node: Node) -> Iterator[str]:
        """The faults that a statement may have of itself."""
        at, text = node.point, self.text
        for file, pointer in text.pointers(node):
            size = self.number(file.size)
            if not all(
                is_number_below(value, size)
                for value in self.facts.of(at, self.slot(node, pointer))
            ):
                yield "POINTER"
            if file.forlopp:
                yield "NOTOWN"
        held = text.held(node)
        if held and not self.names_a_receiver(node, held):
            yield "POINTER"
        if node.kind in ("set", "set_field"):
            width = self.width(node)
            if width < 32 and not all(
                is_number_below(value, 2**width) for value in self.value_of(node, node.exprs[0])
            ):
                yield "RANGE"
        for expr in getattr(node, "exprs", []):
            for operator, factor in factors_of(expr):
                if operator in ("/", "MOD") and not (factor.kind == "number" and factor.value > 0):
                    yield "DIVIDE"
        if node.kind == "SEIZE":
            yield from ("NOFORLOPP", "CHAIN")
        yield from self.faults_of_callers(node)

    def faults_of_callers(self, node: Node) -> Iterator[str]:
        depths = self.facts.of(node.point, "DEPTH")
        if node.kind in ("EXIT", "FINISH") and any(value != "CONST 0" for value in depths):
            yield "BADEND"
        elif node.kind == "RETURN":
            answer = f"CONST {1 + self.text.signals[node.signal.text].number}"
            if any(may_be(value, 0) for value in depths) or any(
                value != answer for value in self.facts.of(node.point, "AWAITS")
            ):
                yield "BADEND"
        elif node.kind == "SEND" and self.text.signals[node.signal.text].kind == "COMBINED":
            if any(may_be(value, MOST_CALLERS) for value in depths):
                yield "DEPTH"

    def names_a_receiver(self, node: Node, held: str) -> bool:
        if not self.is_temporary(node, held):
            return False
        good = {f"CONST {1 + self.text.points[point].block}" for point in self.text.receivers(node)}
        return set(self.facts.of(node.point, self.slot(node, held))) <= good

    def width(self, node: Node) -> int:
        block, name = self.text.block_of(node), node.first.text
        decl = block.fields[name] if node.kind == "set_field" else block.variables.get(name)
        return self.number(decl.width) if decl else 32

    def number(self, token: Optional[Token]) -> int:
        """A number of a declaration, which is there in a text without faults."""
        assert token
        return int(token.text)

    def sends_too_many(self) -> List[int]:
        kinds = [
            self.text.signals[node.signal.text].kind if node.kind == "SEND" else ""
            for node in map(self.text.points.__getitem__, self.reached)
        ]
        posts = [
            point for point, kind in zip(self.reached, kinds) if kind in ("BUFFERED", "OUTSIDE")
        ]
        return posts if len(posts) > MOST_SENT else []

    # going round

    def leads(self, point: int) -> List[int]:
        """The points that are reached to which one leads."""
        return [to for to in self.text.leads(self.text.points[point]) if to in self.facts.reached]

    def goes_round(self) -> List[int]:
        """The statements by which a job may come back to where it has been: each that leads back,
        as the text is gone through in depth.
        """
        back: Set[int] = set()
        state: Dict[int, int] = {}
        for root in self.reached:
            if root in state:
                continue
            state[root], trail = 1, [(root, iter(self.leads(root)))]
            while trail:
                point, rest = trail[-1]
                to = next(rest, None)
                if to is None:
                    state[point] = 2
                    trail.pop()
                elif state.get(to) == 1:
                    back.add(to if self.text.points[to].kind == "ON" else point)
                elif to not in state:
                    state[to] = 1
                    trail.append((to, iter(self.leads(to))))
        return sorted(back)

    # where a value comes from

    def ways_to(self, point: int) -> List[int]:
        """The points that lead to one."""
        if self.ways is None:
            self.ways = {}
            for before in self.reached:
                for to in self.leads(before):
                    self.ways.setdefault(to, []).append(before)
        return self.ways.get(point, [])

    def origins(self, point: int, slot: str) -> List[Origin]:
        """Where the value ANY of a slot comes from, the nearest first."""
        seen, left = {Place(point, slot)}, deque([Place(point, slot)])
        found: Dict[Origin, bool] = {}
        while left:
            at, name = left.popleft()
            for before in self.ways_to(at):
                for source in self.sources(self.text.points[before], at, name):
                    if isinstance(source, Origin):
                        found[source] = True
                    elif source not in seen and self.facts.has_any(*source):
                        seen.add(source)
                        left.append(source)
        return list(found)

    def sources(self, node: Node, to: int, slot: str) -> List[Source]:
        """What a statement lets be in a slot before the point to which it leads: a slot before the
        statement, or an origin.
        """
        kept, kind = Place(node.point, slot), node.kind
        is_answer = slot[0] == "A" and slot != "AWAITS"
        if kind == "RETURN":
            return self.of_value(node, int(slot[1:])) if is_answer else []
        if is_answer:
            return []
        if kind in ("SEND", "TRANSFER") and self.enters(node, to):
            if slot[0] != "E":
                return []
            if kind == "TRANSFER":
                return [kept]
            number = int(slot[1:])
            return self.of_value(node, number) if number < len(node.exprs) else []
        return self.of_temporary(node, to, slot) if slot[0] == "T" else [kept]

    def enters(self, node: Node, to: int) -> bool:
        """Whether a statement leads to a point as to an ENTER of another block."""
        return self.text.points[to].kind == "ENTER" and to != node.next

    def of_temporary(self, node: Node, to: int, slot: str) -> List[Source]:
        here, kind, kept = node.point, node.kind, Place(node.point, slot)
        if kind in ("ENTER", "RETRIEVE"):
            names = [self.slot(node, name.text) for name in node.names]
            if slot not in names:
                return [kept]
            number = max(place for place, name in enumerate(names) if name == slot)
            return [Place(here, f"{'E' if kind == 'ENTER' else 'A'}{number}")]
        if kind == "set" and self.is_temporary(node, node.first.text):
            if self.slot(node, node.first.text) == slot:
                return self.of_value(node, 0)
        if kind in ("ON", "FOR", "SEIZE") and self.slot(node, node.temporary.text) == slot:
            aside, follows = self.text.leads(node)[0], node.next
            changed, other = (follows, aside) if kind == "SEIZE" else (aside, follows)
            found: List[Source] = [Origin(here, kind)] if to == changed else []
            return found + ([kept] if to == other else [])
        return [kept]

    def of_value(self, node: Node, number: int) -> List[Source]:
        """Where the value of an expression of a statement comes from."""
        part = alone(node.exprs[number])
        if part is None or part.kind == "bracket":
            return [Origin(node.point, "computed", number)]
        if part.kind == "name" and self.is_temporary(node, part.name):
            return [Place(node.point, self.slot(node, part.name))]
        if part.kind == "number":
            return [Origin(node.point, "number", number)] if part.value >= 256 else []
        return [] if part.kind == "block" else [Origin(node.point, "stored", number)]
