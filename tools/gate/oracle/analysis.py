"""What the analysis says of an exchange, told a second time, slowly and by hand.

`analysis(text)` gives the text that `plex analyse` writes of an exchange text in bytes,
`certificate(text)` the one that `plex certify` writes, and `refusal(text, facts)` the line with
which a certificate of these facts is refused, or None. They follow docs/ANALYSIS.md and share
nothing with the program: the tree is that of `plextools.text.tree`, and the least facts are found
by going round all statements until nothing is new. Texts must break no rule, and are meant to be
short.
"""
from __future__ import annotations

from typing import Any, Iterable, Iterator, Mapping, Optional, Sequence, Tuple

from plextools.limits import MOST_CALLERS, MOST_SENT
from plextools.text import points
from plextools.text.points import first_in
from plextools.text.tree import Tree, tree

# A node of the tree; `Exchange` adds to blocks what they declare.
Node = Any
Expression = Any
# A slot or a value: its kind and its number.
Slot = Tuple[str, int]
Value = Tuple[str, int]
Given = Tuple[int, Slot, Value]  # a value in a slot before a point
Fact = Tuple[int, int, Slot, Value]  # the same of an entry
Access = Tuple[Any, ...]

ANY, DEPTH, AWAITS = ("ANY", 0), ("DEPTH", 0), ("AWAITS", 0)
SLOTS, VALUES, LEVELS = ["T", "E", "A", "DEPTH", "AWAITS"], ["ARG", "CONST", "ANY"], "ABCD"


def fact_key(fact: Fact) -> tuple[int, ...]:
    entry, point, slot, value = fact
    return entry, point, SLOTS.index(slot[0]), slot[1], VALUES.index(value[0]), value[1]


def value_key(value: Value) -> tuple[int, int]:
    return VALUES.index(value[0]), value[1]


def told_value(value: Value) -> str:
    return "ANY" if value == ANY else f"{value[0]} {value[1]}"


def told_fact(fact: Fact) -> str:
    entry, point, slot, value = fact
    told = slot[0] if slot in (DEPTH, AWAITS) else f"{slot[0]}{slot[1]}"
    return f"FACT {entry} {point} {told} {told_value(value)}"


def may_be(value: Value, number: int) -> bool:
    return value[0] != "CONST" or value[1] == number


class Reader(Tree):
    """Reads expressions as trees: an expression is its terms, a term its factors, each with the
    operator before it.
    """

    def expr(self, depth: int = 0) -> Expression:
        terms = [self.term(depth)]
        while self.sees("+", "-"):
            self.at += 1
            terms.append(self.term(depth))
        return terms

    def term(self, depth: int) -> Expression:
        factors = [("", self.factor(depth))]
        while self.sees("*", "/", "MOD"):
            operator = self.take("*", "/", "MOD").text
            factors.append((operator, self.factor(depth)))
        return factors


class Signal:
    def __init__(
        self, kind: str, node: Node, level: Optional[str] = None, answer: Optional[int] = None
    ) -> None:
        self.kind, self.name, self.count = kind, node.name.text, int(node.data.text)
        self.level, self.answer = level or "", answer


class Exchange:
    reader: type[Tree] = Reader

    def __init__(self, text: bytes) -> None:
        signals, blocks = tree(self.reader, text)
        self.blocks: list[Node] = blocks
        self.signals: list[Signal] = []
        for node in signals:
            level = node.level.text if node.level else None
            answer = len(self.signals) + 1 if node.kind == "COMBINED" else None
            self.signals.append(Signal(node.kind, node, level, answer))
            if node.answer:
                self.signals.append(Signal("ANSWER", node.answer))
        self.signal_number = {signal.name: number for number, signal in enumerate(self.signals)}
        self.block_number = {block.name.text: number for number, block in enumerate(self.blocks)}
        self.files: list[tuple[int, Node]] = [
            (number, decl)
            for number, block in enumerate(self.blocks)
            for decl in block.decls
            if decl.kind == "file"
        ]
        self.points: list[Node] = points.place(self.blocks)
        for block in self.blocks:
            self.declare(block)
        self.entries = [
            node for node in self.points if node.kind == "ENTER" and self.signal_of(node).level
        ]

    def declare(self, block: Node) -> None:
        block.temps = [decl.name.text for decl in block.decls if decl.kind == "temporary"]
        block.variables = [decl for decl in block.decls if decl.kind == "variable"]
        block.receives = [line.name.text for line in block.surveys if line.kind == "RECEIVE"]

    # where statements lead

    def label_point(self, node: Node) -> int:
        point: int = self.blocks[node.block].labels[node.label.text]
        return point

    def signal_of(self, node: Node) -> Signal:
        return self.signals[self.signal_number[node.signal.text]]

    def receivers(self, node: Node) -> list[int]:
        """The blocks to which the signal of a SEND or TRANSFER may go."""
        if node.reference and node.reference.kind == "named":
            return [self.block_number[node.reference.first.text]]
        return [
            number for number, block in enumerate(self.blocks) if node.signal.text in block.receives
        ]

    def enters(self, node: Node) -> Iterator[int]:
        for receiver in self.receivers(node):
            for item in self.blocks[receiver].body:
                if item.kind == "ENTER" and item.signal.text == node.signal.text:
                    yield item.point

    # what stands there, by its number through the exchange

    def slots(self, point: int) -> list[Slot]:
        node = self.points[point]
        block = self.blocks[node.block]
        given = max(
            [self.signals[self.signal_number[name]].count for name in block.receives], default=0
        )
        found = [("T", t) for t in range(len(block.temps))] + [("E", k) for k in range(given)]
        if node.kind == "RETRIEVE":
            found += [("A", k) for k in range(self.signal_of(node).count)]
        return found + [DEPTH, AWAITS]

    def temp(self, node: Node, name: str) -> Slot:
        return "T", self.blocks[node.block].temps.index(name)

    def is_variable(self, node: Node, name: str) -> bool:
        return name in [decl.name.text for decl in self.blocks[node.block].variables]

    def variable(self, node: Node, name: str) -> int:
        names = [decl.name.text for decl in self.blocks[node.block].variables]
        return sum(len(block.variables) for block in self.blocks[: node.block]) + names.index(name)

    def file(self, node: Node, name: str) -> int:
        return next(
            n
            for n, (block, decl) in enumerate(self.files)
            if block == node.block and decl.name.text == name
        )

    def field(self, node: Node, name: str) -> tuple[int, int, Node]:
        """A field of the block of the statement: its file, its number and its declaration."""
        number = 0
        for file, (block, decl) in enumerate(self.files):
            for field in decl.fields:
                if block == node.block and field.name.text == name:
                    return file, number, field
                number += 1
        raise KeyError(name)

    # the text's names of numbers

    def variable_name(self, number: int) -> str:
        names = [(block, decl) for block in self.blocks for decl in block.variables]
        return f"{names[number][0].name.text}.{names[number][1].name.text}"

    def field_name(self, number: int) -> str:
        names = [(block, field) for block, decl in self.files for field in decl.fields]
        return f"{self.blocks[names[number][0]].name.text}.{names[number][1].name.text}"

    def file_name(self, number: int) -> str:
        block, decl = self.files[number]
        return f"{self.blocks[block].name.text}.{decl.name.text}"

    def shape(self) -> list[int]:
        cells = sum(len(block.variables) for block in self.blocks)
        cells += sum(
            int(decl.size.text) * (len(decl.fields) + decl.forlopp) for _, decl in self.files
        )
        held = sum(
            bool(getattr(node, "reference", None) and node.reference.kind == "held")
            for node in self.points
        )
        return [
            len(self.signals),
            len(self.blocks),
            len(self.points),
            cells,
            len(self.entries),
            held,
        ]


def exprs_of(node: Node) -> Sequence[Expression]:
    return getattr(node, "exprs", [])


def factors_of(expr: Expression) -> Iterator[tuple[str, Any]]:
    """All factors of an expression with the operator before each, those in brackets too."""
    for term in expr:
        for operator, factor in term:
            yield operator, factor
            if factor[0] == "bracket":
                yield from factors_of(factor[1])


# facts: a set of (point, slot, value) of one entry


class Facts:
    def __init__(self, exchange: Exchange, entry: int) -> None:
        self.exchange, self.entry = exchange, entry
        self.values: dict[tuple[int, Slot], set[Value]] = {}

    def of(self, point: int, slot: Slot) -> set[Value]:
        return self.values.get((point, slot), set())

    def reached(self, point: int) -> bool:
        return bool(self.of(point, DEPTH))

    def add(self, point: int, slot: Slot, value: Value) -> bool:
        values = self.values.setdefault((point, slot), set())
        is_new = value not in values
        values.add(value)
        return is_new

    def expr(self, node: Node, expr: Expression) -> set[Value]:
        if len(expr) == 1 and len(expr[0]) == 1:
            factor = expr[0][0][1]
            if factor[0] == "number" and factor[1] < 256:
                return {("CONST", factor[1])}
            if factor[0] == "block":
                return {("CONST", 1 + self.exchange.block_number[factor[1]])}
            if factor[0] == "bracket":
                return self.expr(node, factor[1])
            if factor[0] == "name" and factor[1] in self.exchange.blocks[node.block].temps:
                return self.of(node.point, self.exchange.temp(node, factor[1]))
        return {ANY}

    # what flows: (point, slot, value)

    def start(self) -> Iterator[Given]:
        enter = self.exchange.entries[self.entry]
        count = self.exchange.signal_of(enter).count
        for slot in self.exchange.slots(enter.point):
            if slot[0] != "A":
                is_given = slot[0] == "E" and slot[1] < count
                yield enter.point, slot, ("ARG", slot[1]) if is_given else ("CONST", 0)

    def kept(
        self, node: Node, to: Optional[int], changes: Mapping[Slot, set[Value]] = {}
    ) -> Iterator[Given]:
        """Everything goes along, but for the slots that change."""
        if to is None:
            return
        for slot in self.exchange.slots(to):
            if slot[0] != "A":
                for value in changes[slot] if slot in changes else self.of(node.point, slot):
                    yield to, slot, value

    def begun(
        self, to: int, given: Mapping[int, set[Value]], depths: set[Value], awaited: set[Value]
    ) -> Iterator[Given]:
        for slot in self.exchange.slots(to):
            if slot[0] == "T":
                yield to, slot, ("CONST", 0)
            elif slot[0] == "E":
                for value in given.get(slot[1], {("CONST", 0)}):
                    yield to, slot, value
            elif slot in (DEPTH, AWAITS):
                for value in depths if slot == DEPTH else awaited:
                    yield to, slot, value

    def named(self, node: Node, kind: str) -> dict[Slot, set[Value]]:
        """The temporaries that get the values of the slots of a kind; of a name that stands twice
        the last counts.
        """
        return {
            self.exchange.temp(node, name.text): self.of(node.point, (kind, k))
            for k, name in enumerate(node.names)
        }

    def flows(self, node: Node) -> Iterator[tuple[Optional[int], Iterable[Given]]]:
        """Each point to which a statement leads, with what goes there."""
        exchange, here = self.exchange, node.point
        if node.kind == "ENTER":
            yield node.next, self.kept(node, node.next, self.named(node, "E"))
        elif node.kind == "set" and node.first.text in exchange.blocks[node.block].temps:
            changes = {exchange.temp(node, node.first.text): self.expr(node, node.exprs[0])}
            yield node.next, self.kept(node, node.next, changes)
        elif node.kind in ("set", "set_field", "FREE"):
            yield node.next, self.kept(node, node.next)
        elif node.kind == "GOTO":
            yield exchange.label_point(node), self.kept(node, exchange.label_point(node))
        elif node.kind == "IF" and hasattr(node, "label"):
            for to in (exchange.label_point(node), node.next):
                yield to, self.kept(node, to)
        elif node.kind in ("IF", "CASE"):
            branches = (
                node.lists + [[]] if node.kind == "IF" and len(node.lists) == 1 else node.lists
            )
            for branch in branches:
                to = first_in(branch, node.next)
                yield to, self.kept(node, to)
        elif node.kind == "ON":
            to, temp = first_in(node.lists[0], here), exchange.temp(node, node.temporary.text)
            yield to, self.kept(node, to, {temp: {ANY}})
            yield node.next, self.kept(node, node.next)
        elif node.kind in ("FOR", "SEIZE"):
            label, temp = exchange.label_point(node), exchange.temp(
                node, (node.temporary if node.kind == "FOR" else node.temporary).text
            )
            found, other = (label, node.next) if node.kind == "FOR" else (node.next, label)
            yield found, self.kept(node, found, {temp: {ANY}})
            yield other, self.kept(node, other)
        elif node.kind == "SEND":
            yield from self.sent(node)
        elif node.kind == "TRANSFER":
            own = len([slot for slot in exchange.slots(here) if slot[0] == "E"])
            count = min(exchange.signal_of(node).count, own)
            given = {k: self.of(here, ("E", k)) for k in range(count)}
            for to in exchange.enters(node):
                yield to, self.begun(to, given, self.of(here, DEPTH), self.of(here, AWAITS))
        elif node.kind == "RETURN":
            for to in [
                other.point
                for other in exchange.points
                if other.kind == "RETRIEVE" and other.signal.text == node.signal.text
            ]:
                if self.reached(to):
                    gives = [
                        (to, ("A", k), value)
                        for k, expr in enumerate(node.exprs)
                        for value in self.expr(node, expr)
                    ]
                    yield to, gives
                else:
                    yield to, []
        elif node.kind == "RETRIEVE":
            yield node.next, self.kept(node, node.next, self.named(node, "A"))

    def sent(self, node: Node) -> Iterator[tuple[Optional[int], Iterable[Given]]]:
        exchange, signal = self.exchange, self.exchange.signal_of(node)
        given = {k: self.expr(node, expr) for k, expr in enumerate(node.exprs)}
        if signal.kind in ("BUFFERED", "OUTSIDE"):
            yield node.next, self.kept(node, node.next)
        elif signal.kind == "DIRECT":
            for to in exchange.enters(node):
                yield to, self.begun(
                    to, given, self.of(node.point, DEPTH), self.of(node.point, AWAITS)
                )
        else:
            depths = {
                ("CONST", v[1] + 1)
                for v in self.of(node.point, DEPTH)
                if v[0] == "CONST" and v[1] < MOST_CALLERS
            }
            assert signal.answer is not None
            awaited = {("CONST", 1 + signal.answer)}
            for to in exchange.enters(node):
                yield to, self.begun(to, given, depths, awaited) if depths else []
            yield node.next, self.kept(node, node.next)

    def gives(self) -> Iterator[Given]:
        """All that one rule gives."""
        yield from self.start()
        for node in self.exchange.points:
            if self.reached(node.point):
                for _, gives in self.flows(node):
                    yield from gives

    def close(self) -> Facts:
        while any([self.add(*given) for given in list(self.gives())]):
            pass
        return self

    def listed(self) -> list[Fact]:
        found = [
            (self.entry, point, slot, value)
            for (point, slot), values in self.values.items()
            for value in values
        ]
        return sorted(found, key=fact_key)


# summaries


class Summary:
    def __init__(self, facts: Facts) -> None:
        self.facts, self.exchange = facts, facts.exchange
        self.level = self.exchange.signal_of(self.exchange.entries[facts.entry]).level
        self.reached = [node for node in self.exchange.points if facts.reached(node.point)]
        self.accesses = {access for node in self.reached for access in self.accesses_of(node)}
        self.levels = {
            self.exchange.signal_of(n).level
            for n in self.reached
            if n.kind == "SEND" and self.exchange.signal_of(n).level
        }
        self.fault = (
            any(self.faults(node) for node in self.reached)
            or self.sends_much()
            or self.goes_round()
        )

    def cell(self, node: Node, write: bool, name: str, pointer: str) -> set[Access]:
        """The accesses to a field of the record of a pointer."""
        file, number, _ = self.exchange.field(node, name)
        if self.exchange.files[file][1].forlopp:
            return {("own", write, number)}
        return {
            ("field", write, number, v)
            for v in self.facts.of(node.point, self.exchange.temp(node, pointer))
        }

    def accesses_of(self, node: Node) -> set[Access]:
        exchange = self.exchange
        found: set[Access] = set()
        for expr in exprs_of(node):
            for _, factor in factors_of(expr):
                if factor[0] == "name" and exchange.is_variable(node, factor[1]):
                    found.add(("variable", False, exchange.variable(node, factor[1])))
                if factor[0] == "field":
                    found |= self.cell(node, False, factor[1], factor[2])
        held = self.held(node)
        if held and exchange.is_variable(node, held):
            found.add(("variable", False, exchange.variable(node, held)))
        if node.kind == "set" and exchange.is_variable(node, node.first.text):
            found.add(("variable", True, exchange.variable(node, node.first.text)))
        if node.kind == "set_field":
            found |= self.cell(node, True, node.first.text, node.pointer.text)
        if node.kind == "FOR":
            found.add(("field", False, exchange.field(node, node.field.text)[1], ANY))
        if node.kind == "SEIZE":
            found.add(("seize", exchange.file(node, node.file.text)))
        if node.kind == "FREE":
            file = exchange.file(node, node.file.text)
            found.add(("free", file))
            for field in exchange.files[file][1].fields:
                found.add(("own", True, exchange.field(node, field.name.text)[1]))
        return found

    def held(self, node: Node) -> Optional[str]:
        reference = getattr(node, "reference", None)
        return reference.first.text if reference and reference.kind == "held" else None

    def pointers(self, node: Node) -> Iterator[tuple[int, str]]:
        """Each file with a pointer into it."""
        for expr in exprs_of(node):
            for _, factor in factors_of(expr):
                if factor[0] == "field":
                    yield self.exchange.field(node, factor[1])[0], factor[2]
        if node.kind == "set_field":
            yield self.exchange.field(node, node.first.text)[0], node.pointer.text
        if node.kind == "FREE":
            yield self.exchange.file(node, node.file.text), node.temporary.text

    def faults(self, node: Node) -> bool:
        exchange, facts = self.exchange, self.facts
        for file, pointer in self.pointers(node):
            decl = exchange.files[file][1]
            if decl.forlopp:
                return True
            if any(
                v[0] != "CONST" or v[1] >= int(decl.size.text)
                for v in facts.of(node.point, exchange.temp(node, pointer))
            ):
                return True
        held = self.held(node)
        if held:
            if exchange.is_variable(node, held):
                return True
            good = [("CONST", 1 + receiver) for receiver in exchange.receivers(node)]
            if any(value not in good for value in facts.of(node.point, exchange.temp(node, held))):
                return True
        if node.kind in ("set", "set_field"):
            width = self.width(node)
            if width < 32 and any(
                v[0] != "CONST" or v[1] >= 2**width for v in facts.expr(node, node.exprs[0])
            ):
                return True
        for expr in exprs_of(node):
            for operator, factor in factors_of(expr):
                if operator in ("/", "MOD") and not (factor[0] == "number" and factor[1] > 0):
                    return True
        if node.kind == "SEIZE":
            return True
        depths, awaited = facts.of(node.point, DEPTH), facts.of(node.point, AWAITS)
        if node.kind in ("EXIT", "FINISH"):
            return any(value != ("CONST", 0) for value in depths)
        if node.kind == "RETURN":
            answer = ("CONST", 1 + exchange.signal_number[node.signal.text])
            return any(may_be(value, 0) for value in depths) or any(
                value != answer for value in awaited
            )
        if node.kind == "SEND" and exchange.signal_of(node).kind == "COMBINED":
            return any(may_be(value, MOST_CALLERS) for value in depths)
        return False

    def width(self, node: Node) -> int:
        block = self.exchange.blocks[node.block]
        if node.kind == "set_field":
            return int(self.exchange.field(node, node.first.text)[2].width.text)
        return next(
            (int(decl.width.text) for decl in block.variables if decl.name.text == node.first.text),
            32,
        )

    def sends_much(self) -> bool:
        posts = [
            n
            for n in self.reached
            if n.kind == "SEND" and self.exchange.signal_of(n).kind in ("BUFFERED", "OUTSIDE")
        ]
        return len(posts) > MOST_SENT

    def goes_round(self) -> bool:
        """Points from which nothing leads on are taken away, until none can be; what stays goes
        round.
        """
        leads = {
            node.point: {to for to, _ in self.facts.flows(node) if to is not None}
            for node in self.reached
        }
        while True:
            done = [point for point, ends in leads.items() if not ends & leads.keys()]
            if not done:
                return bool(leads)
            for point in done:
                del leads[point]

    def of_kind(self, kind: str) -> list[Access]:
        return sorted({access[1:] for access in self.accesses if access[0] == kind}, key=access_key)

    def lines(self) -> Iterator[str]:
        exchange = self.exchange
        enter = exchange.entries[self.facts.entry]
        names = f"{enter.signal.text} {exchange.blocks[enter.block].name.text}"
        yield f"ENTRY {self.facts.entry} {names} LEVEL {self.level}"
        for write, number in self.of_kind("variable"):
            yield f"{'WRITE' if write else 'READ'} VAR {exchange.variable_name(number)}"
        for write, number, value in self.of_kind("field"):
            field = f"{exchange.field_name(number)} {told_value(value)}"
            yield f"{'WRITE' if write else 'READ'} FIELD {field}"
        for write, number in self.of_kind("own"):
            yield f"{'WRITE' if write else 'READ'} OWN {exchange.field_name(number)}"
        for (file,) in self.of_kind("seize"):
            yield f"SEIZE {exchange.file_name(file)}"
        for (file,) in self.of_kind("free"):
            yield f"FREE {exchange.file_name(file)}"
        for level in sorted(self.levels):
            yield f"SEND {level}"
        if self.fault:
            yield "FAULT"


def access_key(parts: Access) -> list[Any]:
    return [value_key((part[0], part[1])) if isinstance(part, tuple) else part for part in parts]


# pairs


def shared(first: Summary, later: Summary, kind: str) -> Iterator[tuple[Access, Access]]:
    """What both access, where one writes, with both accesses."""
    for one in first.of_kind(kind):
        for other in later.of_kind(kind):
            if one[1] == other[1] and (one[0] or other[0]):
                yield one, other


def meet(u: Value, v: Value) -> bool:
    return u == ANY or v == ANY or (u[0] == "CONST" and u == v)


def conflict(exchange: Exchange, first: Summary, later: Summary) -> Optional[str]:
    variables = [one[1] for one, _ in shared(first, later, "variable")]
    if variables:
        return f"VARIABLE {exchange.variable_name(min(variables))}"
    fields = [
        (one[1], one[2], other[2])
        for one, other in shared(first, later, "field")
        if meet(one[2], other[2])
    ]
    if fields:
        number, u, v = min(fields, key=lambda f: (f[0], value_key(f[1]), value_key(f[2])))
        return f"FIELD {exchange.field_name(number)} {told_value(u)} WITH {told_value(v)}"
    seized, freed = (
        [{f for (f,) in s.of_kind(kind)} for s in (first, later)] for kind in ("seize", "free")
    )
    files = (seized[0] & (seized[1] | freed[1])) | (freed[0] & seized[1])
    if files:
        return f"SEIZE {exchange.file_name(min(files))}"
    above = [level for level in first.levels if level < later.level]
    return f"LEVEL {min(above)}" if above else None


def tests(exchange: Exchange, first: Summary, later: Summary) -> Iterator[str]:
    pairs = [(one[2], other[2]) for one, other in shared(first, later, "field")]
    for a, b in sorted({(u[1], v[1]) for u, v in pairs if u[0] == v[0] == "ARG"}):
        yield f"FIRST {a} NOT LATER {b}"
    for a, c in sorted({(u[1], v[1]) for u, v in pairs if (u[0], v[0]) == ("ARG", "CONST")}):
        yield f"FIRST {a} NOT {c}"
    for b, c in sorted({(v[1], u[1]) for u, v in pairs if (u[0], v[0]) == ("CONST", "ARG")}):
        yield f"LATER {b} NOT {c}"
    if first.fault:
        yield "FORLOPP"
        for (file,) in later.of_kind("seize"):
            yield f"FIRST HOLDS NO {exchange.file_name(file)}"


def pair_lines(exchange: Exchange, summaries: Sequence[Summary]) -> Iterator[str]:
    for i, first in enumerate(summaries):
        for j, later in enumerate(summaries):
            why = conflict(exchange, first, later)
            if why:
                yield f"PAIR {i} {j} NEVER {why}"
            else:
                yield from (f"PAIR {i} {j} IF {test}" for test in tests(exchange, first, later))


# texts


def text_of(lines: Iterable[str]) -> str:
    return "".join(f"{line}\n" for line in lines)


def analysis(text: bytes) -> str:
    exchange = Exchange(text)
    summaries = [Summary(Facts(exchange, entry).close()) for entry in range(len(exchange.entries))]
    lines = [line for summary in summaries for line in summary.lines()]
    return text_of(lines + list(pair_lines(exchange, summaries)) + ["END PAIRS"])


def least_facts(exchange: Exchange) -> list[Fact]:
    return [
        fact
        for entry in range(len(exchange.entries))
        for fact in Facts(exchange, entry).close().listed()
    ]


def certificate_of(exchange: Exchange, facts: Sequence[Fact]) -> str:
    names = ["signals", "blocks", "points", "cells", "entries", "references"]
    shape = " ".join(f"{name} {number}" for name, number in zip(names, exchange.shape()))
    return text_of(
        ["PLEX CERTIFICATE 2", f"EXCHANGE {shape}"]
        + [told_fact(fact) for fact in facts]
        + ["END CERTIFICATE"]
    )


def certificate(text: bytes) -> str:
    exchange = Exchange(text)
    return certificate_of(exchange, least_facts(exchange))


def is_strange(exchange: Exchange, fact: Fact) -> bool:
    entry, point, slot, value = fact
    if (
        entry >= len(exchange.entries)
        or point >= len(exchange.points)
        or slot not in exchange.slots(point)
    ):
        return True
    return value[0] == "ARG" and value[1] >= exchange.signal_of(exchange.entries[entry]).count


def refusal(text: bytes, facts: Sequence[Fact]) -> Optional[str]:
    """The line with which these facts are refused, in a certificate of the exchange's shape; None
    where they are closed.
    """
    exchange = Exchange(text)
    for fact in facts:
        if is_strange(exchange, fact):
            return f"CERTIFICATE STRANGE {told_fact(fact)}"
    missing: list[Fact] = []
    for entry in range(len(exchange.entries)):
        known = Facts(exchange, entry)
        for e, point, slot, value in facts:
            if e == entry:
                known.add(point, slot, value)
        missing += [
            (entry, *given)
            for given in known.gives()
            if given[2] not in known.of(given[0], given[1])
        ]
    return f"CERTIFICATE MISSING {told_fact(min(missing, key=fact_key))}" if missing else None
