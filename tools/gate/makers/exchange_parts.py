"""What exchanges made by chance are made of: signals, variables, files and blocks. For
made_exchange.
"""
from __future__ import annotations

import random
from typing import Mapping, Optional, Sequence

LEVELS = "ABCD"
RELATIONS = ["=", "<>", "<", "<=", ">", ">="]
GIVEN = ["P", "T", "U", "W", "Q", "R", "I", "J"]
TEMPORARIES = GIVEN + ["N"]
FAMILIES = {"call": ("seize", "own", "free")}
CALM: dict[str, float] = {"call": 5, "row": 6, "cell": 3, "pure": 4, "wild": 1}
MIXED: dict[str, float] = {
    "call": 4,
    "row": 4,
    "cell": 2,
    "pure": 2,
    "wild": 5,
    "grab": 0.8,
    "shout": 0.3,
    "deep": 1,
    "spin": 0.06,
}
WILD: dict[str, float] = {
    "call": 2,
    "row": 1,
    "cell": 1,
    "pure": 1,
    "wild": 9,
    "grab": 1,
    "shout": 0.5,
    "deep": 1.5,
    "spin": 0.1,
}
CALM_ROLES = ("seize", "own", "free", "row", "cell", "pure")
STATEMENTS: dict[str, float] = {
    "temporary": 6,
    "variable": 5,
    "field": 5,
    "own field": 2,
    "GOTO": 1,
    "IF GOTO": 3,
    "IF": 3,
    "CASE": 2,
    "ON": 2,
    "FOR FIRST": 3,
    "loop by GOTO": 1.2,
    "SEND buffered": 4,
    "SEND outside": 3,
    "SEND combined": 2.5,
    "SEIZE": 2,
    "FREE": 1.2,
    "EXIT": 0.7,
    "SEND direct": 0.7,
    "TRANSFER": 0.5,
    "RETURN": 0.3,
}
TURNS = {"short": [1, 2, 5, 20], "long": [200, 800, 2000, 6000], "very long": [6000, 20000, 40000]}
NESTING = ("IF", "CASE", "ON", "loop by GOTO")
LAST = ("EXIT", "SEND direct", "TRANSFER", "RETURN")
DEEPEST = 3


def weighed(chance: random.Random, weights: Mapping[str, float]) -> str:
    return chance.choices(list(weights), list(weights.values()))[0]


class Signal:
    """A signal.

    A buffered one has a level and the role of its jobs; a direct one may carry on for the caller
    that awaits `answer`.
    """

    def __init__(
        self,
        name: str,
        kind: str,
        count: int,
        rank: int = 0,
        level: str = "",
        role: Optional[str] = None,
        answer: Optional[Signal] = None,
    ) -> None:
        self.name, self.kind, self.count, self.rank = name, kind, count, rank
        self.level, self.role, self.answer = level, role, answer
        self.receivers: list[Block] = []

    def answered(self) -> Signal:
        """The signal of the answer to a combined one."""
        assert self.answer
        return self.answer

    def declared(self) -> str:
        if self.kind == "buffered":
            return f"SIGNAL {self.name} SINGLE BUFFERED {self.level} DATA {self.count};"
        if self.kind == "combined":
            answer = f"ANSWER {self.answered().name} DATA {self.answered().count}"
            return f"SIGNAL {self.name} COMBINED DATA {self.count} {answer};"
        shape = "OUTSIDE" if self.kind == "outside" else "SINGLE DIRECT"
        return f"SIGNAL {self.name} {shape} DATA {self.count};"


class Stored:
    """A variable or a field."""

    def __init__(self, chance: random.Random, name: str, width: int, clear: bool = False) -> None:
        self.name, self.width, self.clear = name, width, clear
        self.init = chance.choice([0, 0, 0, 1, 2**width - 1, chance.randrange(2**width)])

    def declared(self, word: str) -> str:
        init = f" INIT {self.init}" if self.init else ""
        return f"{word} {self.name} WIDTH {self.width}{init}{' CLEAR' if self.clear else ''};"


class File:
    def __init__(
        self,
        chance: random.Random,
        name: str,
        size: int,
        field: str,
        count: int,
        widths: Sequence[int],
    ) -> None:
        self.name, self.size = name, size
        self.fields = [
            Stored(chance, f"{field}{number}", chance.choice(widths)) for number in range(count)
        ]

    def declared(self, word: str) -> str:
        return " ".join(
            [f"{word} {self.name} SIZE {self.size};"]
            + [field.declared("FIELD") for field in self.fields]
        )


class Block:
    """A block: what it declares, and what its program sends and enters, as it is written."""

    def __init__(self, chance: random.Random, number: int, families: Sequence[str]) -> None:
        self.name, self.number, self.families = f"K{number}", number, families
        self.variables = [
            Stored(
                chance, f"V{place}", chance.choice([1, 4, 8, 16, 32, 32, 32]), chance.random() < 0.4
            )
            for place in range(chance.randint(1, 4))
        ] + [Stored(chance, "H", 32)]
        size = chance.choice([3, 4, 8, 8, 12])
        widths = [8, 32, 32, 32, 32, 16]
        self.plain = [
            File(chance, f"F{place}", size, "XY"[place], chance.randint(1, 2), widths)
            for place in range(chance.randint(1, 2))
        ]
        own_size = 70 if "grab" in families else chance.choice([1, 2, 3, 5, 8])
        count = chance.choice([1, 6, 7, 8, 14, 17]) if "form" in families else chance.randint(1, 2)
        self.own = [File(chance, "G0", own_size, "Z", count, widths)]
        if chance.random() < 0.3:
            self.own.append(File(chance, "G1", chance.choice([1, 2, 4]), "O", 1, widths))
        self.receives: list[Signal] = []
        self.sends: dict[str, bool] = {}
        self.items: list[str] = []
        self.labels = 0

    def declared(self) -> str:
        parts = [variable.declared("VARIABLE") for variable in self.variables]
        parts += [f"TEMPORARY {name};" for name in TEMPORARIES]
        parts += [file.declared("FILE") for file in self.plain] + [
            file.declared("FORLOPP FILE") for file in self.own
        ]
        return " ".join(parts)

    def text(self) -> str:
        survey = [f"RECEIVE {signal.name};" for signal in self.receives] + [
            f"SEND {name};" for name in self.sends
        ]
        lines = [
            f"BLOCK {self.name};",
            "DECLARE; " + self.declared(),
            "SURVEY; " + " ".join(survey),
            "PROGRAM;",
        ]
        return "\n".join(lines + self.items + ["END BLOCK;"])
