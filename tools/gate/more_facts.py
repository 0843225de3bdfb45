"""Facts of a certificate with some more put in, by chance. For `test_analyses.py`."""
from __future__ import annotations

import random

from gate.oracle.analysis import ANY, DEPTH, SLOTS, Exchange, Fact, Facts, Slot, Value, fact_key
from plextools.limits import LARGEST_NUMBER

COUNTS = (0, 1, 1, 2, 3)  # how many are put in for an entry
CLOSED, STRANGE = 0.5, 0.15  # how often all that follows is put in too; and a fact of no place


def value_by_chance(chance: random.Random, count: int) -> Value:
    """A value of a slot, in a job whose signal has so many."""
    number = chance.choice([0, 0, 1, 2, 255, LARGEST_NUMBER])
    values: list[Value] = [ANY, ("CONST", number), ("CONST", number)]
    if count:
        values.append(("ARG", chance.randrange(count)))
    return chance.choice(values)


def fact_by_chance(exchange: Exchange, entry: int, chance: random.Random) -> Fact:
    """A fact of an entry that a certificate may have."""
    point = chance.randrange(len(exchange.points))
    slot = chance.choice(exchange.slots(point))
    count = exchange.signal_of(exchange.entries[entry]).count
    value = ("CONST", chance.randrange(9)) if slot == DEPTH else value_by_chance(chance, count)
    return entry, point, slot, value


def strange_by_chance(exchange: Exchange, chance: random.Random) -> Fact:
    """A fact that may be of an entry, a point, a slot or a value that is not there."""
    slot: Slot = chance.choice([("T", chance.randrange(24)), ("E", chance.randrange(8)), DEPTH])
    assert slot[0] in SLOTS
    return (
        chance.randrange(len(exchange.entries) + 1),
        chance.randrange(len(exchange.points) + 1),
        slot,
        chance.choice([ANY, ("ARG", chance.randrange(8))]),
    )


def with_more(exchange: Exchange, chance: random.Random) -> list[Fact]:
    """The least facts of an exchange, with some more, in their order."""
    found: set[Fact] = set()
    is_closed = chance.random() < CLOSED
    for entry in range(len(exchange.entries)):
        facts = Facts(exchange, entry).close()
        for _ in range(chance.choice(COUNTS)):
            facts.add(*fact_by_chance(exchange, entry, chance)[1:])
        found.update((facts.close() if is_closed else facts).listed())
    if chance.random() < STRANGE:
        found.add(strange_by_chance(exchange, chance))
    return sorted(found, key=fact_key)
