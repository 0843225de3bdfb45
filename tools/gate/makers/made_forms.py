"""Statements that a machine makes at once, made by chance. For the family `form` of made_exchange.

`lines_of(body)` gives the lines of the body of one entry. Before each statement stands a label, and
the first value of the line says to which of them the job goes first. The others are small, at an
edge, or beyond it, so that each part of a statement faults in some job: a value that does not fit,
a divisor 0, a record beyond the file, a record that is not held. Some lines ask for a long loop
first, so that the job's last statement that may be counted is one of these. Loops have no turn,
one, a few, or as many as there are numbers.
"""
from __future__ import annotations

import random
from typing import Any, Iterator

from plextools.limits import LARGEST_NUMBER, MOST_COUNTED
from plextools.text.tokens import RELATIONS

VALUES = (
    0,
    0,
    1,
    2,
    3,
    3,
    7,
    8,
    9,
    15,
    16,
    255,
    256,
    65535,
    65536,
    LARGEST_NUMBER - 1,
    LARGEST_NUMBER,
)
NUMBERS = (0, 1, 2, 3, 5, 7, 8, 16, 255, 256, 65535, LARGEST_NUMBER)
TURNS = (
    (1, 0),
    (0, 0),
    (1, 1),
    (1, 3),
    (1, 8),
    (1, 9),
    (LARGEST_NUMBER, 1),
    (LARGEST_NUMBER - 2, LARGEST_NUMBER),
    (LARGEST_NUMBER, LARGEST_NUMBER),
)
FEW = (1, 2, 3, 8, 9)
# The second value that asks for the long loop; so many statements are left then at most.
SPIN, IN_LAST = 9, 60
SIMPLE = (
    "{t} = {n};",
    "{t} = {u};",
    "{t} = {u} + {n};",
    "{t} = {u} - {t};",
    "{t} = {u} MOD {n};",
    "{t} = {u} / {n};",
    "{t} = {u} * {n};",
    "{t} = {u} / {t};",
    "{t} = {t} MOD {u};",
    "{t} = ({t} + {u}) * ({u} + {n});",
    "{v} = {n};",
    "{t} = {t} * {u} + {u} * {n};",
    "{v} = {t};",
    "{t} = {v};",
    "{v} = {w} + {n};",
    "{v} = {v} - {n};",
    "{v} = {w} + {t};",
    "{v} = {v} * {t};",
    "{v} = {w} + {x}({u});",
    "{x}({t}) = {n};",
    "{x}({t}) = {u};",
    "{x}({t}) = {y}({u}) + {n};",
    "{x}({t}) = {x}({t}) + {u};",
    "{t} = {x}({u});",
    "{v} = {x}({t}) * {y}({u});",
    "{z}({h}) = {n};",
    "{z}({h}) = {z}({h}) + {t};",
    "{t} = {z}({h});",
    "{v} = {w} + {z}({h});",
    "SEND {out};",
    "FREE {h} IN {own};",
)
TESTS = (
    "{t} {r} {n}",
    "{t} {r} {u}",
    "{v} {r} {n}",
    "{v} {r} {w}",
    "{x}({t}) {r} {n}",
    "{t} MOD {n} {r} {m}",
    "{x}({t}) {r} {n} AND {y}({u}) {r} {m}",
    "{t} {r} {n} AND {u} {r} {m}",
    "{t} {r} {n} OR {u} {r} {m}",
    "{t} {r} {n} AND {u} {r} {m} AND {v} {r} {n}",
    "{z}({h}) {r} {n}",
)


class Forms:
    """Writes the statements of one body."""

    def __init__(self, body: Any) -> None:
        self.body = body
        self.chance: random.Random = body.chance
        self.labels: list[str] = [body.new_label() for _ in range(self.chance.randint(4, 12))]

    def name(self) -> str:
        return self.chance.choice("TUW")

    def number(self) -> int:
        return self.chance.choice(NUMBERS)

    def filled(self, pattern: str) -> str:
        """A pattern with names and numbers of the block."""
        chance, block = self.chance, self.body.block
        own, out = block.own[0], chance.choice(self.body.maker.outside)
        self.body.sends(out)
        fields = [field.name for field in block.plain[0].fields]
        values = ", ".join(self.name() for _ in range(out.count))
        return pattern.format(
            t=self.name(),
            u=self.name(),
            n=self.number(),
            m=self.number(),
            r=chance.choice(RELATIONS),
            v=chance.choice(block.variables).name,
            w=chance.choice(block.variables).name,
            x=chance.choice(fields),
            y=chance.choice(fields),
            z=chance.choice(own.fields).name,
            h=chance.choice("QQQQT"),
            own=own.name,
            out=f"{out.name} WITH {values}" if values else out.name,
        )

    def simple(self) -> str:
        return self.filled(self.chance.choice(SIMPLE))

    def label(self) -> str:
        return self.chance.choice(self.labels)

    def test(self) -> str:
        test = self.filled(self.chance.choice(TESTS))
        kind = self.chance.randrange(4)
        if kind == 0:
            return f"IF {test} GOTO {self.body.label()};"
        other = f" ELSE {self.simple()}" if kind == 1 else ""
        return f"IF {test} THEN {self.simple()}{other} FI;"

    def case(self) -> str:
        count = self.chance.choice([1, 3, 7, 8, 9, 12])
        numbers = self.chance.sample(range(20), count - 1) + [LARGEST_NUMBER]
        whens = " ".join(f"WHEN {number} DO {self.simple()}" for number in numbers)
        return f"CASE {self.name()} IS {whens} OTHERWISE DO {self.simple()} ESAC;"

    def loop(self) -> str:
        """A loop without statements or with some, or one in another."""
        kind = self.chance.randrange(5)
        if kind == 0:
            first, last = self.chance.choice(TURNS)
            return f"ON I FROM {first} UPTO {last} DO NO;"
        if kind == 1:
            return f"ON I FROM 1 UPTO {self.name()} MOD 12 DO NO;"
        few, inner = self.chance.choice(FEW), self.chance.choice(FEW)
        if kind == 2:
            return f"ON I FROM 1 UPTO {few} DO ON J FROM 1 UPTO {inner} DO NO; NO;"
        if kind == 3:
            return f"ON I FROM 1 UPTO {few} DO {self.simple()} {self.test()} NO;"
        leaves = f"{self.simple()} IF I >= {few} GOTO {self.body.label()};"
        return f"ON I FROM 0 UPTO {LARGEST_NUMBER} DO {leaves} NO;"

    def statement(self) -> str:
        made = self.chance.choices([self.simple, self.test, self.case, self.loop], [6, 3, 1, 2])
        return made[0]()

    def lines(self) -> Iterator[str]:
        """A choice of where the job begins, the statements, and a way back that few turns take."""
        spin = f"ON I FROM 1 UPTO {MOST_COUNTED - self.chance.randint(1, IN_LAST)} DO NO;"
        own = self.body.block.own[0]
        yield f"IF T = {SPIN} THEN {spin} FI;"
        seizes = self.chance.random() < 0.7
        yield f"SEIZE Q IN {own.name} ELSE GOTO {self.body.label()};" if seizes else "Q = T;"
        for place, label in enumerate(self.labels, 1):
            yield f"IF P = {place} GOTO {label};"
        for label in self.labels:
            yield f"{label}) {self.statement()}"
        yield f"N = N + 1; IF N < {self.chance.randint(1, 4)} GOTO {self.label()};"


def lines_of(body: Any) -> list[str]:
    return list(Forms(body).lines())


def values_of(chance: random.Random, count: int) -> list[int]:
    """The values of a line: where its job begins, and what its statements work on."""
    return [chance.choice(range(13)), *(chance.choice(VALUES) for _ in range(7))][:count]
