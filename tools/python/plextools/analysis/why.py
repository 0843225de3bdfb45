"""Tells why two jobs are kept apart: each conflict or test with the statements that make it, and
what helps.

`Exchange(name)` asks the programs about an exchange text. `told(exchange, i, j)` gives the lines
for a pair of its entries.
"""
from typing import (
    Callable,
    Dict,
    Iterable,
    Iterator,
    List,
    NamedTuple,
    Optional,
    Sequence,
    Tuple,
    TypeVar,
)

from plextools import programs
from plextools.analysis import conflicts
from plextools.analysis.entry_facts import Made, facts_of
from plextools.analysis.lines import ANY, Entry
from plextools.analysis.links import Link, Links, Use
from plextools.analysis.reasons import Numbers, Reason, selectors_of
from plextools.analysis.counters import Counters
from plextools.tables import quoted
from plextools.text.statements import Text

SHOWN, WIDEST = 3, 46
COUNTER, TODAY, BEHIND = "  a counter: ", "  plex today: ", "  behind what is added to: "
LINK, BEHIND_LINKS = "  a link: ", "  behind links: "
RECORDS = {"ARG": "of record ARG {0}", "CONST": "of record {0}", "ANY": "of any record"}
DOES = {"READ": "reads", "WRITE": "writes", "SEIZE": "seizes", "FREE": "frees"}
FAULTS = {
    "POINTER": "a pointer may name no record, or a reference no block",
    "RANGE": "the value may not fit the WIDTH",
    "DIVIDE": "the divisor may be 0",
    "NOTOWN": "the forlopp may not hold the record",
    "NOFORLOPP": "the job may be in no forlopp",
    "CHAIN": "the forlopp may hold 64 records already",
    "BADEND": "a caller may wait, or none, or one for another answer",
    "DEPTH": "eight callers may wait",
    "SENDS": "more than 255 SENDs are reached",
    "BUDGET": "the job may come back here again and again",
}


class Told(NamedTuple):
    """A statement with what it does: its point, which a signal has not, its line, its text, and
    words.
    """

    point: Optional[int]
    line: int
    head: str
    does: str


class Side(NamedTuple):
    """What one of two jobs has to do with a reason: an entry, and which of its statements. Equal
    sides have the same statements.

    `what` is a key of `SIDES`, and `numbers` are those of lines of the entry's summary that are
    about one thing. `parts` are sides of fields.
    """

    entry: int
    what: str
    numbers: Tuple[int, ...] = ()
    parts: Tuple["Side", ...] = ()


class Sides(NamedTuple):
    """The sides of two jobs."""

    first: Side
    later: Side


Some = TypeVar("Some")
NOBODY = Side(-1, "none")


def record_words(value: str) -> str:
    kind, _, number = value.partition(" ")
    return RECORDS[kind].format(number)


def short(name: str) -> str:
    return name.partition(".")[2]


def and_words(some: Iterable[str]) -> str:
    words = list(dict.fromkeys(some))
    return " and ".join(words) if len(words) < 3 else ", ".join(words[:-1]) + f" and {words[-1]}"


def object_words(line: str) -> str:
    """What an access of a summary is about."""
    does, *rest = line.split(" ", 3)
    if does in ("SEIZE", "FREE"):
        return f"a record of {short(rest[0])}"
    return f"{short(rest[1])} {record_words(rest[2])}" if rest[0] == "FIELD" else short(rest[1])


class Exchange:
    """An exchange text with its conflicts, those of two entries alone where these are `asked` for,
    and what those of its entries that were looked at are made of.
    """

    def __init__(
        self, name: str, asked: Optional[conflicts.Pair] = None, keeps_facts: bool = False
    ) -> None:
        self.content = programs.bytes_of(name)
        self.conflicts = conflicts.Conflicts(name, asked)
        self.analysis = self.conflicts.analysis
        self.text, self.keeps_facts = Text(name, self.content), keeps_facts
        self.place = {declared: place for place, declared in enumerate(self.text.names)}
        self.made: Dict[int, Made] = {}
        self.unknown: Dict[Use, str] = {}
        self.sides: Dict[Side, List[Told]] = {}
        self.counters = Counters(self.conflicts)
        self.links = Links(self.conflicts, self.counters)

    def entry(self, number: int) -> Entry:
        return self.analysis.entries[number]

    def look_at(self, entries: Iterable[int]) -> None:
        """Finds what these entries are made of, where that is not known and is to be told: which
        statements may fault, and why records are not known.
        """
        self.look_at_facts(
            number
            for number in entries
            if self.entry(number).fault or self.entry(number).has_unknown
        )

    def look_at_all(self) -> None:
        """Finds it of all entries, with the statements that their jobs reach."""
        self.look_at_facts(range(len(self.analysis.entries)))

    def look_at_facts(self, entries: Iterable[int]) -> None:
        """Reads the facts of entries, and lets them go, as they may be many."""
        new = set(entries) - self.made.keys()
        if not new:
            return
        lines = programs.lines_of(["certify", self.text.name])
        for facts in facts_of(lines, len(self.analysis.entries), new):
            made = self.made[facts.entry] = Made(self.text, facts)
            for number, line in enumerate(self.entry(facts.entry).numbered):
                if line.endswith(f" {ANY}"):
                    name = line.split(" ")[2]
                    for point, _ in self.conflicts.statements(facts.entry, number):
                        use = Use(facts.entry, point, name)
                        self.unknown[use] = self.why_unknown(made, point, name)
                        self.links.note(self.text, made, use)
            if not self.keeps_facts:
                made.let_go()

    # why a record is not known

    def why_unknown(self, made: Made, point: int, name: str) -> str:
        """Why it is not known which record of a field's file a statement names."""
        node = self.text.points[point]
        for use in self.text.uses(node):
            if use.name == name and use.does.endswith("FIELD"):
                if use.pointer is None:
                    return "FOR FIRST looks at all records"
                if made.facts.has_any(point, made.slot(node, use.pointer)):
                    return self.origin_words(made, point, use.pointer)
        return "it is not known which one"

    def origin_words(self, made: Made, point: int, pointer: str) -> str:
        origins = made.origins(point, made.slot(self.text.points[point], pointer))
        if not origins:
            return f"it is not known what {pointer} is"
        node, here = self.text.points[origins[0].point], self.text.points[point].block
        changed = node.temporary.text if hasattr(node, "temporary") else pointer
        subject = (
            pointer if node.block == here and changed == pointer else f"the value of {pointer}"
        )
        where = f"at line {node.line}" + (
            f" in {self.text.block_of(node).name.text}" if node.block != here else ""
        )
        told = {
            "ON": f"{subject} is changed by ON {where}",
            "FOR": f"{subject} is found by FOR FIRST {where}",
            "SEIZE": f"{subject} is what SEIZE takes {where}",
            "stored": f"{subject} is taken from stored data {where}",
            "number": f"{subject} is a number above 255 {where}",
            "computed": f"{subject} is computed {where}",
        }[origins[0].what]
        more = len({origin[:2] for origin in origins}) - 1
        return told + (f", and {more} more" if more else "")

    # the statements of a side

    def statements(self, side: Side) -> List[Told]:
        """The statements of a side, in the order of the text."""
        if side not in self.sides:
            self.sides[side] = SIDES[side.what](self, side)
        return self.sides[side]

    def statement(self, point: int, does: str) -> Told:
        node = self.text.points[point]
        return Told(point, node.line, self.text.head(node), does)

    def side_accesses(self, side: Side) -> List[Told]:
        """The statements that give any of these accesses, each with the words for what it does."""
        lines = self.entry(side.entry).numbered
        does: Dict[int, List[str]] = {}
        for number in side.numbers:
            for point, _ in self.conflicts.statements(side.entry, number):
                does.setdefault(point, []).append(DOES[lines[number].split(" ")[0]])
        line = lines[side.numbers[0]]
        about = object_words(line)
        return [
            self.statement(
                point, f"{and_words(does[point])} {about}{self.reason_unknown(side, line, point)}"
            )
            for point in sorted(does)
        ]

    def reason_unknown(self, side: Side, line: str, point: int) -> str:
        """Why a record is not known, where a line of a summary is about such a one."""
        if not line.endswith(f" {ANY}"):
            return ""
        return f": {self.unknown[Use(side.entry, point, line.split(' ')[2])]}"

    def side_fields(self, side: Side) -> List[Told]:
        found = [told for one in side.parts for told in self.statements(one)]
        return sorted(found, key=lambda told: told.point or 0)

    def side_sends(self, side: Side) -> List[Told]:
        level = self.entry(side.entry).numbered[side.numbers[0]].split(" ")[1]
        return [
            self.statement(point, f"sends {self.sent_at(point)} to level {level}")
            for point, _ in self.conflicts.statements(side.entry, side.numbers[0])
        ]

    def sends(self, entry: int, number: int) -> List[str]:
        """The signals that the statements of a line SEND send."""
        return [self.sent_at(point) for point, _ in self.conflicts.statements(entry, number)]

    def sent_at(self, point: int) -> str:
        """The signal that a SEND sends."""
        return self.text.points[point].signal.text

    def side_level(self, side: Side) -> List[Told]:
        signal = self.text.signals[self.entry(side.entry).signal]
        return [Told(None, signal.line, signal.told, f"waits at level {signal.level}, below it")]

    def side_faults(self, side: Side) -> List[Told]:
        faults: Dict[int, List[str]] = {}
        for fault in self.made[side.entry].faults:
            faults.setdefault(fault.point, []).append(fault.fault)
        return [
            self.statement(
                point, "may fault: " + "; ".join(f"{word}, {FAULTS[word]}" for word in words)
            )
            for point, words in faults.items()
        ]

    def side_line(self, side: Side) -> List[Told]:
        """The statements of a line of an entry's summary, with why a record is not known."""
        number = side.numbers[0]
        line = self.entry(side.entry).numbered[number]
        return [
            self.statement(point, self.reason_unknown(side, line, point)[len(": ") :])
            for point, _ in self.conflicts.statements(side.entry, number)
        ]

    def side_none(self, _: Side) -> List[Told]:
        return []


SIDES: Dict[str, Callable[[Exchange, Side], List[Told]]] = {
    "accesses": Exchange.side_accesses,
    "fields": Exchange.side_fields,
    "sends": Exchange.side_sends,
    "level": Exchange.side_level,
    "faults": Exchange.side_faults,
    "line": Exchange.side_line,
    "none": Exchange.side_none,
}


class Named(NamedTuple):
    """How an entry is named where it is told what helps: with its block, and by its signal."""

    entry: str
    signal: str


class Pair:
    """A pair of entries, with what is told of each of its reasons. What helps is told with `names`,
    or else with those of the entries.
    """

    def __init__(
        self, exchange: Exchange, i: int, j: int, names: Optional[Tuple[Named, Named]] = None
    ) -> None:
        self.exchange, self.i, self.j = exchange, i, j
        self.first, self.later = exchange.entry(i), exchange.entry(j)
        self.named = names or (
            Named(self.first.name, self.first.signal),
            Named(self.later.name, self.later.signal),
        )

    def sides(self, reason: Reason) -> Sides:
        """The side of the first and that of the later job in a conflict or a test."""
        return OF_PAIRS[reason.kind].sides(self, reason)

    def statements(self, reason: Reason) -> List[List[Told]]:
        return [self.exchange.statements(side) for side in self.sides(reason)]

    def sides_accesses(self, reason: Reason) -> Sides:
        return Sides(Side(self.i, "accesses", reason.first), Side(self.j, "accesses", reason.later))

    def sides_level(self, reason: Reason) -> Sides:
        return Sides(Side(self.i, "sends", reason.first), Side(self.j, "level"))

    def sides_differ(self, reason: Reason) -> Sides:
        """The fields that a test of values is about: used with its selectors, and written by one of
        the two. A job's reads count where the other job writes, and its writes always.
        """
        one, other = selectors_of(reason)
        first, later = self.first.fields, self.later.fields
        parts: Tuple[List[Side], List[Side]] = ([], [])
        for name in sorted(first.keys() & later.keys(), key=self.exchange.place.__getitem__):
            if one in first[name] and other in later[name]:
                writes, writes_too = first[name][one], later[name][other]
                if writes or writes_too:
                    parts[0].append(field_side(self.first, f"FIELD {name} {one}", writes_too))
                    parts[1].append(field_side(self.later, f"FIELD {name} {other}", writes))
        return Sides(
            Side(self.i, "fields", parts=tuple(parts[0])),
            Side(self.j, "fields", parts=tuple(parts[1])),
        )

    def sides_forlopp(self, _: Reason) -> Sides:
        return Sides(Side(self.i, "faults"), NOBODY)

    def sides_holds_no(self, reason: Reason) -> Sides:
        seizes = self.later.number_of[f"SEIZE {reason.name}"]
        return Sides(Side(self.i, "faults"), Side(self.j, "accesses", (seizes,)))

    # what helps

    def cure(self, reason: Reason) -> str:
        """What helps, in words of this text."""
        return OF_PAIRS[reason.kind].cure(self, reason)

    def cure_variable(self, reason: Reason) -> str:
        line, name = self.exchange.text.declared[reason.name].first.line, short(reason.name)
        return f"a field of a file for {name} (line {line}), one record for each line or call"

    def cure_field(self, reason: Reason) -> str:
        selectors, name = chosen(reason.selectors), short(reason.name)
        unknown = [named for named, value in zip(self.named, selectors) if value == ANY]
        if unknown:
            whose = "only in the record whose number came with"
            return and_words(
                f"let {named.entry} use {name} {whose} {named.signal}" for named in unknown
            )
        number = selectors.first.split(" ")[1]
        return f"let the two use other records of {name} than number {number}"

    def cure_seize(self, reason: Reason) -> str:
        (first, later), name = self.named, short(reason.name)
        if self.i == self.j:
            whose = f"whose record number comes with {first.signal}"
            return f"a plain FILE in the place of {name}, {whose}"
        return f"a file of its own for what {first.entry} or {later.entry} takes of {name}"

    def cure_level(self, reason: Reason) -> str:
        sent = and_words(self.exchange.sends(self.i, reason.first[0]))
        return f"send {sent} at level {self.later.level} or lower"

    def cure_differ(self, reason: Reason) -> str:
        (one, other), (first, later) = chosen(reason.numbers), self.named
        if self.i == self.j and one == other:
            return f"let value {one} of two {first.signal} differ"
        return f"let value {one} of {first.signal} differ from value {other} of {later.signal}"

    def cure_first_not(self, reason: Reason) -> str:
        return be_another(self.named[0], chosen(reason.numbers))

    def cure_later_not(self, reason: Reason) -> str:
        return be_another(self.named[1], chosen(reason.numbers))

    def cure_forlopp(self, _: Reason) -> str:
        begun = "by NEW and not NONE in the signal file, or by a SEND of a job that is in one"
        return f"let {self.named[0].signal} begin in a forlopp: {begun}"

    def cure_holds_no(self, reason: Reason) -> str:
        held = f"hold no record of {short(reason.name)} when it begins"
        return f"let {self.named[0].entry} {held}, or let it not fault"


class OfPair(NamedTuple):
    """What is told of a kind of reason: the sides of the two jobs, and what helps."""

    sides: Callable[[Pair, Reason], Sides]
    cure: Callable[[Pair, Reason], str]


OF_PAIRS = {
    "VARIABLE": OfPair(Pair.sides_accesses, Pair.cure_variable),
    "FIELD": OfPair(Pair.sides_accesses, Pair.cure_field),
    "SEIZE": OfPair(Pair.sides_accesses, Pair.cure_seize),
    "LEVEL": OfPair(Pair.sides_level, Pair.cure_level),
    "DIFFER": OfPair(Pair.sides_differ, Pair.cure_differ),
    "FIRST NOT": OfPair(Pair.sides_differ, Pair.cure_first_not),
    "LATER NOT": OfPair(Pair.sides_differ, Pair.cure_later_not),
    "FORLOPP": OfPair(Pair.sides_forlopp, Pair.cure_forlopp),
    "HOLDS NO": OfPair(Pair.sides_holds_no, Pair.cure_holds_no),
}


def field_side(entry: Entry, access: str, reads: bool) -> Side:
    """The side of a job that uses a field; what is only read counts where `reads` says so."""
    lines = [f"READ {access}"] * reads + [f"WRITE {access}"]
    numbers = tuple(entry.number_of[line] for line in lines if line in entry.number_of)
    return Side(entry.number, "accesses", numbers)


def be_another(named: Named, numbers: Numbers) -> str:
    return f"let value {numbers.one} of {named.signal} be another number than {numbers.other}"


def chosen(part: Optional[Some]) -> Some:
    """A part of a reason that reasons of its kind have."""
    assert part is not None
    return part


# lines


def verdict_words(i: int, j: int, reason: Reason) -> str:
    return f"PAIR {i} {j} {'NEVER' if reason.is_conflict else 'IF'} {reason.told}"


def placed(
    name: str, statements: Sequence[Told], head: str, shown: int, left: int, widest: int
) -> Iterator[str]:
    """The lines for the statements of one of the two jobs."""
    for place, told in enumerate(statements[:shown]):
        where = f"{name}:{told.line}: {told.head}"
        yield f"{head if place == 0 else '':<{left}}  {where:<{widest}}  {told.does}".rstrip()
    more = len(statements) - shown
    if more > 0:
        yield f"{'':<{left}}  and {more} statement{'s' if more > 1 else ''} more"


def told(
    exchange: Exchange,
    i: int,
    j: int,
    shown: int = SHOWN,
    reasons: Optional[Sequence[Reason]] = None,
) -> Iterator[str]:
    """The lines for a pair: each conflict, or each test, with its statements and what helps."""
    exchange.look_at({i, j})
    pair, name = Pair(exchange, i, j), quoted(exchange.text.name)
    reasons = exchange.conflicts.reasons(i, j) if reasons is None else reasons
    if not reasons:
        yield f"PAIR {i} {j} always together, unless they are of one forlopp"
        return
    heads = [f"  first, {pair.first.name}:", f"  later, {pair.later.name}:"]
    for place, reason in enumerate(reasons):
        sides = pair.statements(reason)
        kept = [f"{name}:{told.line}: {told.head}" for side in sides for told in side[:shown]]
        widest = min(max(map(len, kept), default=0), len(name) + WIDEST)
        yield verdict_words(i, j, reason) if place == 0 else f"also: {reason.told}"
        for side, head in zip(sides, heads):
            yield from placed(name, side, head, shown, max(map(len, heads)), widest)
        yield f"  what helps: {pair.cure(reason)}"
        yield from counter_words(reason, exchange.counters.of(i, j, reason))
        yield from link_words(exchange.links.of(i, j, reason), shown)
    if any(exchange.counters.is_counter(i, j, reason) for reason in reasons):
        yield f"{BEHIND}{', '.join(exchange.counters.behind(i, j)) or 'nothing'}"
    if any(exchange.links.of(i, j, reason) for reason in reasons):
        yield f"{BEHIND_LINKS}{', '.join(exchange.links.behind(i, j)) or 'nothing'}"


def counter_words(reason: Reason, names: Sequence[str]) -> Iterator[str]:
    """What is said of a conflict or a test that is about these counters alone. What a test asks for
    may be so as it is; a conflict stays one.
    """
    for name in map(short, names):
        is_same = f"in either order {name} is the same"
        yield f"{COUNTER}both only add to {name}: {is_same}; kept apart and"
        yield "    added up at the end, or by an atomic add, both run at once"
        if reason.is_conflict:
            adds = "an entry of a block SUMS at level D, which adds it up;"
            yield f"{TODAY}SEND what is added to {adds}"
            yield f"    who reads {name} there at a higher level sees it late"


def link_words(links: Sequence[Link], shown: int) -> Iterator[str]:
    """What is said of a conflict that is about records alone whose numbers are read from there."""
    if links:
        places = [f"{link.written} at line {link.line}" for link in links]
        more = [f"{len(places) - shown} more places"] if len(places) > shown else []
        names = list(dict.fromkeys(short(link.name) for link in links))
        yield f"{LINK}a record number is read from {and_words([*places[:shown], *more])};"
        yield "    both would run at once, in records that differ, if that were known when the jobs"
        yield f"    begin, and {and_words(names)} were not written meanwhile"
