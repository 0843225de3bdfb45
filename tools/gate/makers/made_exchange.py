"""Exchange texts with signal files, made by chance, which break no rule and whose jobs come far.

`made_case(chance)` gives a `Case`, with a family of entries on purpose where one is named;
`made_table(case, chance)` gives a table of periodic signals for it, `made_other(case, chance)` an
exchange text to which it may change, and `with_long_jobs(exchange)` the same text with long jobs.
An exchange has one to four blocks, and each of these one to three families of entries. A family
says what its jobs are made for:

- call: one seizes a record, later ones of its forlopp work on it, and the last one frees it
- row: works on the records of a plain file that its line names
- cell: works on records that the text names
- pure: computes, asks and sends, and touches nothing that is stored
- wild: any statements in any order
- grab, shout, spin, deep: goes for the limit of a chain, of the signals sent, of the statements, of
  the callers
- form: statements that a machine makes at once, as made_forms writes them; only where it is named

Jobs of the first four pass as pairs where their forlopps and their values differ, so that many run
at once. The others conflict, and fault in each way.
"""
from __future__ import annotations

import copy
import random
import re
from typing import Optional, Sequence

from gate.makers import made_forms
from gate.makers.exchange_parts import (
    CALM,
    FAMILIES,
    LEVELS,
    MIXED,
    TURNS,
    WILD,
    Block,
    Signal,
    Stored,
    weighed,
)
from gate.makers.made_body import Body
from plextools.limits import LARGEST_NUMBER


class Maker:
    """Makes one exchange. Its first block has the family that is wanted, where there is one."""

    def __init__(self, chance: random.Random, wanted: Optional[str] = None) -> None:
        self.chance, self.wanted = chance, wanted
        self.counts: dict[str, int] = {}
        self.temper = chance.choices([CALM, MIXED, WILD], [5, 4, 3])[0]
        self.length = chance.choices(list(TURNS), [6, 3, 1])[0]
        self.blocks = [self.new_block(number) for number in range(chance.choice([1, 2, 2, 3, 4]))]
        self.outside = [
            Signal(f"O{number}", "outside", chance.randint(0, 3))
            for number in range(chance.randint(1, 2))
        ]
        self.buffered: list[Signal] = []
        self.direct: list[Signal] = []
        self.combined: list[Signal] = []
        self.cells: dict[str, int] = {}
        for block in self.blocks:
            for family in block.families:
                self.add_family(block, family)
        self.add_calls()

    def new_block(self, number: int) -> Block:
        families = [
            weighed(self.chance, self.temper) for _ in range(self.chance.choice([1, 1, 2, 2, 3]))
        ]
        if self.wanted and number == 0:
            families[0] = self.wanted
        return Block(self.chance, number, families)

    def turns(self) -> int:
        return self.chance.choice(TURNS[self.length])

    def next_cell(self, block: Block) -> int:
        """Each body takes a record of its own, as long as there is one."""
        self.cells[block.name] = self.cells.get(block.name, 0) + 1
        return self.cells[block.name] - 1

    def least_level(self, signal: Signal) -> str:
        return signal.level or "B"

    def receive(self, signal: Signal, blocks: Sequence[Block]) -> None:
        for block in blocks:
            signal.receivers.append(block)
            block.receives.append(signal)

    def others(self, block: Block, share: float) -> list[Block]:
        """More receivers of a signal."""
        return [
            other for other in self.blocks if other is not block and self.chance.random() < share
        ]

    def add_family(self, block: Block, family: str) -> None:
        level = self.chance.choice("BBBC" if family in CALM else LEVELS)
        for role in FAMILIES.get(family, (family,)):
            if family == "wild" or self.chance.random() < 0.15:
                level = self.chance.choice(LEVELS)
            least = 0 if role in ("wild", "pure", "shout", "grab", "spin") else 1
            count = 8 if self.chance.random() < 0.03 else self.chance.randint(least, 3)
            if role == "form":
                count = self.chance.choice([3, 4, 4, 5])
            place = len(self.buffered)
            signal = Signal(f"B{place}", "buffered", count, rank=place, level=level, role=role)
            self.buffered.append(signal)
            share = 0.25 if role in ("wild", "row", "pure") else 0
            self.receive(signal, [block] + self.others(block, share))
        if family == "deep":
            self.add_combined(block, "dive", 1)

    def add_combined(self, block: Block, role: Optional[str], least: int) -> None:
        place = len(self.combined)
        answer = Signal(f"R{place}", "answer", self.chance.randint(0, 2))
        count = self.chance.randint(least, 3)
        signal = Signal(f"C{place}", "combined", count, rank=100 + place, role=role, answer=answer)
        self.combined.append(signal)
        self.receive(signal, [block] + (self.others(block, 0.3) if not role else []))

    def add_calls(self) -> None:
        for _ in range(self.chance.choice([0, 1, 1, 2])):
            role = self.chance.choice([None, "pure"]) if self.temper is not CALM else "pure"
            self.add_combined(self.chance.choice(self.blocks), role, 0)
        for place in range(self.chance.choice([0, 1, 2, 3])):
            answer = self.chance.choice([None] + [signal.answer for signal in self.combined])
            role = "pure" if self.temper is CALM or self.chance.random() < 0.3 else None
            count = self.chance.randint(0, 3)
            signal = Signal(
                f"D{place}", "direct", count, rank=200 + place, role=role, answer=answer
            )
            self.direct.append(signal)
            block = self.chance.choice(self.blocks)
            self.receive(signal, [block] + self.others(block, 0.4))

    def text(self) -> str:
        for block in self.blocks:
            bodies = [Body(self, block, signal).written() for signal in block.receives]
            self.chance.shuffle(bodies)
            self.counts["ENTER"] = self.counts.get("ENTER", 0) + len(bodies)
            block.items = [line for body in bodies for line in body]
        signals = [
            signal.declared()
            for signal in self.outside + self.buffered + self.direct + self.combined
        ]
        self.chance.shuffle(signals)
        return "\n".join(signals + [block.text() for block in self.blocks]) + "\n"


class Lines:
    """Makes the signal file of an exchange that is made."""

    def __init__(self, maker: Maker, chance: random.Random) -> None:
        self.maker, self.chance = maker, chance
        self.entries = [(signal, block) for signal in maker.buffered for block in signal.receivers]
        weights = {"own": 0.15, "free": 0.15, "grab": 0.4, "shout": 0.4, maker.wanted: 4}
        self.weights = [weights.get(signal.role, 1) for signal, _ in self.entries]
        self.new, self.none = self.chance.choice(
            [(0.95, 0.02), (0.85, 0.05), (0.7, 0.15), (0.5, 0.35), (0.9, 0.0)]
        )
        self.steps = self.chance.choice([[0], [0, 0, 0, 0, 0, 1], [0, 0, 1, 2], [0, 1, 3]])
        self.written: list[str] = []
        self.holders: list[int] = []
        self.turn = 0

    def value(self) -> int:
        usual = self.chance.random() < 0.95
        return self.chance.choice(
            [0, 1, 1, 2, 2, 3, 4, 5, 7, 9, 11, 255, 70000] if usual else [4294967295, 256, 65536]
        )

    def values(self, signal: Signal, block: Block) -> list[int]:
        if signal.role == "form":
            return made_forms.values_of(self.chance, signal.count)
        given = [self.value() for _ in range(signal.count)]
        if not given:
            return given
        if signal.role == "row":
            self.turn += 1
            given[0] = self.turn % (block.plain[0].size + (self.chance.random() < 0.1))
        elif signal.role == "deep":
            given[0] = self.chance.choice([0, 1, 3, 6, 7, 8, 9, 12])
        elif signal.role in ("own", "free", "wild") and self.chance.random() < 0.8:
            given[0] = self.chance.randrange(3)
        return given

    def ending(self) -> str:
        choice = self.chance.random()
        if choice < self.new:
            return "NEW"
        if choice < self.new + self.none or not self.holders:
            return "NONE"
        return f"AS {self.chance.choice(self.holders)}"

    def add(self, count: int) -> None:
        signal, block = self.chance.choices(self.entries, self.weights)[0]
        values = "".join(f" {value}" for value in self.values(signal, block))
        ending = self.ending()
        self.written.append(f"AFTER {count} {signal.name} {block.name}{values} {ending}")
        if ending != "NONE":
            self.holders.append(len(self.written))

    def text(self) -> str:
        count = 0
        most = self.chance.choice(
            [8, 15, 20] if self.maker.length == "very long" else [3, 8, 15, 15, 30, 45, 150]
        )
        for _ in range(most if self.entries else 0):
            if self.chance.random() < 0.03:
                self.written.append(self.chance.choice(["", "! a comment", " \t"]))
            count += self.chance.choice(self.steps)
            self.add(count)
        end = "\r\n" if self.chance.random() < 0.05 else "\n"
        return end.join(self.written) + (end if self.chance.random() < 0.9 or end == "\r\n" else "")


class Periods(Lines):
    """Makes a table of periodic signals for an exchange that is made."""

    def range(self) -> tuple[int, int, int]:
        every, times = self.chance.choice([1, 1, 1, 2, 3, 7, 50]), self.chance.choice(
            [1, 1, 2, 3, 5, 8, 20]
        )
        largest = LARGEST_NUMBER - every * (times - 1)
        return (
            every,
            largest
            if self.chance.random() < 0.05
            else self.chance.choice([0, 0, 0, 1, 2, 3, 9, 40]),
            times,
        )

    def text(self) -> str:
        for _ in range(self.chance.choice([0, 1, 1, 2, 3, 5, 8]) if self.entries else 0):
            if self.chance.random() < 0.1:
                self.written.append(self.chance.choice(["", "! a comment", " \t"]))
            signal, block = self.chance.choices(self.entries, self.weights)[0]
            every, first, times = self.range()
            values = "".join(f" {value}" for value in self.values(signal, block))
            ending = "NONE" if self.chance.random() < self.none else "NEW"
            self.written.append(
                f"EVERY {every} FROM {first} TIMES {times} {signal.name} {block.name}{values} "
                f"{ending}"
            )
        return "\n".join(self.written) + self.chance.choice(["\n", "\n", ""])


class Case:
    """An exchange, a signal file, a limit of jobs, and who made the exchange."""

    def __init__(self, exchange: bytes, signals: bytes, limit: int, maker: Maker) -> None:
        self.exchange, self.signals, self.limit, self.maker = exchange, signals, limit, maker

    @property
    def counts(self) -> dict[str, int]:
        """How often each kind of statement stands in the exchange."""
        return self.maker.counts


def made_case(chance: random.Random, wanted: Optional[str] = None) -> Case:
    maker = Maker(chance, wanted)
    exchange = maker.text()
    signals = Lines(maker, chance).text()
    limit = chance.randint(1, 30) if chance.random() < 0.08 else 400
    return Case(exchange.encode(), signals.encode(), limit, maker)


def made_table(case: Case, chance: random.Random) -> bytes:
    """A table for the exchange and the signal file of a case."""
    return Periods(case.maker, chance).text().encode()


# another exchange, for a change


def changed_stored(stored: Stored, chance: random.Random) -> None:
    """Another width, and an INIT value that fits it."""
    if chance.random() < 0.4:
        stored.width = chance.choice([1, 8, 16, 31, 32])
        stored.init = chance.choice([0, 1, chance.randrange(2**stored.width)])


def changed_block(block: Block, chance: random.Random) -> None:
    """Other variables and files, as far as they may differ. What its program does is made anew."""
    for variable in block.variables:
        changed_stored(variable, chance)
    if chance.random() < 0.5:
        block.variables.insert(
            chance.randrange(len(block.variables)), Stored(chance, "NEW1", 16, True)
        )
    if chance.random() < 0.5 and len(block.variables) > 2:
        block.variables.pop(0)
    for file in block.plain + block.own:
        for field in file.fields:
            changed_stored(field, chance)
        if chance.random() < 0.3:
            file.fields.insert(0, Stored(chance, f"{file.name}NEW", 32))
        file.size += chance.choice([0, 0, 1, 5])
    for file in block.plain:
        file.size = max(1, file.size - chance.choice([0, 0, 2, 6]))
    block.items, block.labels, block.sends = [], 0, {}


def with_long_jobs(exchange: bytes) -> bytes:
    """The same exchange with a loop of 4,000 turns behind each ENTER, so that all jobs are long
    enough for a thread of their own, and one of 500 at each label, so that some words are met late.
    """
    text = exchange.replace(b"DECLARE;", b"DECLARE; TEMPORARY SPUN;")
    text = re.sub(rb"^(ENTER [^;]*;)", rb"\1\nON SPUN FROM 1 UPTO 4000 DO NO;", text, flags=re.M)
    return re.sub(rb"^(\w+\))", rb"\1\nON SPUN FROM 1 UPTO 500 DO NO;", text, flags=re.M)


def made_other(case: Case, chance: random.Random, lacks: Optional[str] = None) -> bytes:
    """An exchange text that may take the place of that of a case; one that lacks an ENTRY or a FILE
    of it may not.
    """
    maker = copy.deepcopy(case.maker)
    maker.chance, maker.counts, maker.cells = chance, {}, {}
    if chance.random() < 0.5:
        chance.shuffle(maker.blocks)
    for block in maker.blocks:
        changed_block(block, chance)
    if lacks == "ENTRY":
        signal = chance.choice(maker.buffered)
        signal.level = LEVELS[LEVELS.index(signal.level) - 1]
    if lacks == "FILE":
        file = chance.choice(chance.choice(maker.blocks).own)
        if file.size == 1 or chance.random() < 0.5:
            file.name = "OTHER"
        else:
            file.size = 1
    return maker.text().encode()
