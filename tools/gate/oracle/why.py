"""What plex-why says of a pair of entries, told a second time.

`told(exchange, summaries, i, j)` gives each reason that keeps the jobs of a pair apart, as a
`Reason`: how it is told, the statements of both jobs, each with its line and what it does, and what
helps. `origins(summary)` gives where a value may stop being known. They stand on `oracle.analysis`.
Texts must break no rule, and are meant to be short.
"""
import re
from typing import Any, Dict, Iterable, Iterator, List, NamedTuple, Set, Tuple

from gate.oracle import analysis as oracle_analysis
from gate.oracle import conflicts as oracle_conflicts
from plextools.limits import MOST_CALLERS

analysis: Any = oracle_analysis
clash_rows: Any = oracle_conflicts.clash_rows
ANY: Any = analysis.ANY
VERBS = {False: "reads", True: "writes"}
FAULTS = {
    "POINTER": "a pointer may name no record, or a reference no block",
    "NOTOWN": "the forlopp may not hold the record",
    "RANGE": "the value may not fit the WIDTH",
    "DIVIDE": "the divisor may be 0",
    "NOFORLOPP": "the job may be in no forlopp",
    "CHAIN": "the forlopp may hold 64 records already",
    "BADEND": "a caller may wait, or none, or one for another answer",
    "DEPTH": "eight callers may wait",
}
SIGNAL = re.compile(rb"\bSIGNAL (\w+)")
BY_FORLOPP = "by NEW and not NONE in the signal file, or by a SEND of a job that is in one"
OF_WALKS = ("BUDGET", "SENDS")  # of many statements together, which are not told here

Line = Tuple[int, str]


class Reason(NamedTuple):
    """A reason: its words, the lines of the first and of the later job, and what helps."""

    words: str
    first: List[Line]
    later: List[Line]
    cure: str


def and_words(some: Iterable[str]) -> str:
    words = list(some)
    return " and ".join(words) if len(words) < 3 else f"{', '.join(words[:-1])} and {words[-1]}"


def short(name: str) -> str:
    return name.split(".")[1]


# the statements of an entry


class Teller:
    """What is told of one entry."""

    def __init__(self, exchange: Any, summary: Any) -> None:
        self.exchange, self.summary = exchange, summary
        enter = exchange.entries[summary.facts.entry]
        self.signal = exchange.signal_of(enter)
        self.name = f"{self.signal.name} {exchange.blocks[enter.block].name.text}"

    def doing(self, does: Dict[int, List[str]], rest: str) -> List[Tuple[int, int, str]]:
        """A point, a line and what it does, in the order of the text."""
        points = self.exchange.points
        return [
            (point, points[point].first.line, f"{and_words(does[point])} {rest}")
            for point in sorted(does)
        ]

    def accesses(self, wanted: Iterable[Tuple[Any, str]]) -> Dict[int, List[str]]:
        """The statements that make any of these accesses, each with its verbs."""
        found: Dict[int, List[str]] = {}
        for access, verb in wanted:
            for node in self.summary.reached:
                if access in self.summary.accesses_of(node):
                    found.setdefault(node.point, []).append(verb)
        return found

    def cell(self, kind: str, reads: bool, *which: Any) -> List[Tuple[int, int, str]]:
        """The statements that use a variable, or a field with a selector."""
        wanted = [((kind, write, *which), verb) for write, verb in VERBS.items() if write or reads]
        names = self.exchange.variable_name, self.exchange.field_name
        name = short(names[kind == "field"](which[0]))
        return self.doing(self.accesses(wanted), name + (record(which[1]) if which[1:] else ""))

    def writes(self, kind: str, *which: Any) -> bool:
        return (kind, True, *which) in self.summary.accesses

    def file(self, number: int, frees: bool) -> List[Line]:
        wanted = [(("seize", number), "seizes")] + [(("free", number), "frees")] * frees
        name = short(self.exchange.file_name(number))
        return without_points(self.doing(self.accesses(wanted), f"a record of {name}"))

    def sends(self, level: str) -> Iterator[Tuple[int, str]]:
        """The lines of the SENDs to a level, with their signals."""
        for node in self.summary.reached:
            if node.kind == "SEND" and self.exchange.signal_of(node).level == level:
                yield node.first.line, self.exchange.signal_of(node).name

    def faults(self) -> List[Line]:
        """The statements that may fault of themselves."""
        found: List[Line] = []
        for node in self.summary.reached:
            words = sorted(fault_words(self.summary, node))
            if words:
                told = "; ".join(f"{word}, {FAULTS[word]}" for word in words)
                found.append((node.first.line, f"may fault: {told}"))
        return found


def record(value: Any) -> str:
    """The words for the records of a selector."""
    return {"ANY": " of any record", "ARG": f" of record ARG {value[1]}"}.get(
        value[0], f" of record {value[1]}"
    )


def without_points(rows: Iterable[Tuple[int, int, str]]) -> List[Line]:
    return [(line, does) for _, line, does in sorted(rows, key=lambda row: row[0])]


def fault_words(summary: Any, node: Any) -> Set[str]:
    """The faults that a statement may have of itself, by docs/ANALYSIS.md."""
    exchange, facts, found = summary.exchange, summary.facts, set()

    def all_below(values: Iterable[Any], most: int) -> bool:
        return all(value[0] == "CONST" and value[1] < most for value in values)

    for file, pointer in summary.pointers(node):
        declared = exchange.files[file][1]
        if not all_below(
            facts.of(node.point, exchange.temp(node, pointer)), int(declared.size.text)
        ):
            found.add("POINTER")
        if declared.forlopp:
            found.add("NOTOWN")
    held = summary.held(node)
    if held:
        good = {("CONST", 1 + receiver) for receiver in exchange.receivers(node)}
        if exchange.is_variable(node, held):
            found.add("POINTER")
        elif set(facts.of(node.point, exchange.temp(node, held))) - good:
            found.add("POINTER")
    if node.kind in ("set", "set_field") and summary.width(node) < 32:
        if not all_below(facts.expr(node, node.exprs[0]), 2 ** summary.width(node)):
            found.add("RANGE")
    for expr in analysis.exprs_of(node):
        for operator, factor in analysis.factors_of(expr):
            if operator in ("/", "MOD") and not (factor[0] == "number" and factor[1] > 0):
                found.add("DIVIDE")
    if node.kind == "SEIZE":
        found |= {"NOFORLOPP", "CHAIN"}
    depths, awaited = (facts.of(node.point, slot) for slot in (analysis.DEPTH, analysis.AWAITS))
    if node.kind in ("EXIT", "FINISH") and set(depths) - {("CONST", 0)}:
        found.add("BADEND")
    if node.kind == "RETURN":
        answer = ("CONST", 1 + exchange.signal_number[node.signal.text])
        if any(analysis.may_be(value, 0) for value in depths) or set(awaited) - {answer}:
            found.add("BADEND")
    if node.kind == "SEND" and exchange.signal_of(node).kind == "COMBINED":
        if any(analysis.may_be(value, MOST_CALLERS) for value in depths):
            found.add("DEPTH")
    return found


# reasons


class Pair:
    """A pair of entries."""

    def __init__(self, exchange: Any, summaries: List[Any], i: int, j: int) -> None:
        self.exchange, self.is_one = exchange, i == j
        self.first, self.later = (Teller(exchange, summaries[entry]) for entry in (i, j))

    def conflicts(self) -> Iterator[Reason]:
        """All conflicts, in their order."""
        rows = clash_rows(self.first.summary, self.later.summary)
        for place in sorted({row[0] for row in rows}):
            kind, *which = place
            yield (self.variable, self.field, self.seize, self.level)[kind](*which)

    def variable(self, number: int) -> Reason:
        name = self.exchange.variable_name(number)
        declared = [one for block in self.exchange.blocks for one in block.variables][number]
        first = self.first.cell("variable", self.later.writes("variable", number), number)
        later = self.later.cell("variable", self.first.writes("variable", number), number)
        helps = f"a field of a file for {short(name)} (line {declared.name.line})"
        cure = f"{helps}, one record for each line or call"
        return Reason(f"VARIABLE {name}", without_points(first), without_points(later), cure)

    def field_rows(self, number: int, u: Any, v: Any) -> Tuple[List[Any], List[Any]]:
        first = self.first.cell("field", self.later.writes("field", number, v), number, u)
        return first, self.later.cell("field", self.first.writes("field", number, u), number, v)

    def field(self, number: int, u: Any, v: Any) -> Reason:
        u, v = ((analysis.VALUES[value[0]], value[1]) for value in (u, v))
        name = self.exchange.field_name(number)
        words = f"FIELD {name} {analysis.told_value(u)} WITH {analysis.told_value(v)}"
        named = [one for one, value in ((self.first, u), (self.later, v)) if value == ANY]
        cures = [
            f"let {one.name} use {short(name)} only in the record whose number came with "
            f"{one.signal.name}"
            for one in named
        ]
        alone = f"let the two use other records of {short(name)} than number {u[1]}"
        first, later = map(without_points, self.field_rows(number, u, v))
        return Reason(words, first, later, and_words(dict.fromkeys(cures)) or alone)

    def seize(self, number: int) -> Reason:
        name = short(self.exchange.file_name(number))
        frees = [("seize", number) in one.summary.accesses for one in (self.later, self.first)]
        first, later = self.first.file(number, frees[0]), self.later.file(number, frees[1])
        cure = f"a file of its own for what {self.first.name} or {self.later.name} takes of {name}"
        if self.is_one:
            whose = f"whose record number comes with {self.first.signal.name}"
            cure = f"a plain FILE in the place of {name}, {whose}"
        return Reason(f"SEIZE {self.exchange.file_name(number)}", first, later, cure)

    def level(self, level: str) -> Reason:
        sent = list(self.first.sends(level))
        first = [(line, f"sends {name} to level {level}") for line, name in sent]
        line = self.line_of(self.later.signal.name)
        later = [(line, f"waits at level {self.later.signal.level}, below it")]
        names = and_words(dict.fromkeys(name for _, name in sent))
        cure = f"send {names} at level {self.later.signal.level} or lower"
        return Reason(f"LEVEL {level}", first, later, cure)

    def line_of(self, name: str) -> int:
        """The line of the declaration of a signal; below 0 where it is not known."""
        lines: Dict[str, int] = self.exchange.lines
        return lines.get(name, -1)

    def tests(self) -> Iterator[Reason]:
        for words in analysis.tests(self.exchange, self.first.summary, self.later.summary):
            yield self.test(words)

    def test(self, words: str) -> Reason:
        parts = words.split(" ")
        if words == "FORLOPP":
            cure = f"let {self.first.signal.name} begin in a forlopp: {BY_FORLOPP}"
            return Reason(words, self.first.faults(), [], cure)
        if parts[1] == "HOLDS":
            number = self.number_of(parts[3])
            held = f"hold no record of {short(parts[3])} when it begins, or let it not fault"
            cure = f"let {self.first.name} {held}"
            return Reason(words, self.first.faults(), self.later.file(number, False), cure)
        return self.of_values(words, parts)

    def number_of(self, file: str) -> int:
        names = [self.exchange.file_name(number) for number in range(len(self.exchange.files))]
        return names.index(file)

    def of_values(self, words: str, parts: List[str]) -> Reason:
        """A test of the values that came with the signals: all fields with these selectors."""
        one, other = int(parts[1]), int(parts[-1])
        u, v = ("ARG", one), ("CONST", other)
        signals = self.first.signal.name, self.later.signal.name
        cure = f"let value {one} of {signals[0]} be another number than {other}"
        if parts[0] == "LATER":
            u, v = ("CONST", other), ("ARG", one)
            cure = f"let value {one} of {signals[1]} be another number than {other}"
        elif parts[3] == "LATER":
            v = ("ARG", other)
            cure = f"let value {one} of {signals[0]} differ from value {other} of {signals[1]}"
            if self.is_one and one == other:
                cure = f"let value {one} of two {signals[0]} differ"
        pairs = conflicts_of_fields(self.first.summary, self.later.summary, u, v)
        rows = [self.field_rows(number, u, v) for number in pairs]
        first = [row for pair in rows for row in pair[0]]
        later = [row for pair in rows for row in pair[1]]
        return Reason(words, without_points(first), without_points(later), cure)


def conflicts_of_fields(first: Any, later: Any, u: Any, v: Any) -> List[int]:
    """The fields that both use with these selectors, where one writes."""
    found = analysis.shared(first, later, "field")
    return sorted({one[1] for one, other in found if (one[2], other[2]) == (u, v)})


def signal_lines(content: bytes) -> Dict[str, int]:
    """The line of each signal in a text without comments."""
    return {
        found[1].decode(): 1 + content.count(b"\n", 0, found.start())
        for found in SIGNAL.finditer(content)
    }


def told(exchange: Any, summaries: List[Any], i: int, j: int) -> List[Reason]:
    """The conflicts of a pair, or else its tests."""
    pair = Pair(exchange, summaries, i, j)
    return list(pair.conflicts()) or list(pair.tests())


# where a value stops being known


def kinds_of_origins(summary: Any) -> Dict[int, Set[str]]:
    """For each line the ways in which its statements may give a value that is not known."""
    found: Dict[int, Set[str]] = {}
    for node in summary.reached:
        kinds = found.setdefault(node.first.line, set())
        if node.kind in ("ON", "FOR", "SEIZE"):
            kinds.add(node.kind)
        for expr in analysis.exprs_of(node):
            kinds |= kind_of_value(summary.exchange, node, expr)
    return found


def kind_of_value(exchange: Any, node: Any, expr: Any) -> Set[str]:
    """How an expression gives a value that is not known; nothing where it does not."""
    if len(expr) > 1 or len(expr[0]) > 1:
        return {"computed"}
    factor = expr[0][0][1]
    if factor[0] == "bracket":
        return kind_of_value(exchange, node, factor[1])
    if factor[0] == "number":
        return {"number"} if factor[1] > 255 else set()
    is_temporary = factor[0] == "name" and factor[1] in exchange.blocks[node.block].temps
    return set() if is_temporary or factor[0] == "block" else {"stored"}
