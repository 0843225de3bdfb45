"""Exchange texts in which jobs add to variables and fields, and some do something else with them.

`with_additions(exchange, chance)` gives a text like those of `made_exchange`, with variables and a
file more in each block, and behind most ENTERs statements that add to one of them, or look like it;
and how often each form of them stands there. `counting_case(chance)` gives a text whose jobs do
little else, with signals, so that many pairs of its jobs pass with additions alone.
"""
from __future__ import annotations

import random
import re
from collections import Counter
from typing import NamedTuple

# What each block declares beside its own, and the block that adds for others.
DECLARED = (
    "VARIABLE SUM WIDTH 32; VARIABLE ALL WIDTH 32 CLEAR; VARIABLE LOW WIDTH 16; "
    "FILE SUMS SIZE 4; FIELD EACH WIDTH 32; FIELD FEW WIDTH 16; TEMPORARY SLOT;"
)
SIGNALS = """SIGNAL OUTSUM OUTSIDE DATA 1;
SIGNAL GOSUM SINGLE DIRECT DATA 1;
SIGNAL ADDIT COMBINED DATA 1 ANSWER ADDED DATA 0;
SIGNAL TELLIT COMBINED DATA 0 ANSWER TOLD DATA 1;
"""
ADDER = """BLOCK ADDER;
DECLARE; VARIABLE N WIDTH 32; TEMPORARY X;
SURVEY; RECEIVE ADDIT; RECEIVE TELLIT; RECEIVE GOSUM;
PROGRAM;
ENTER ADDIT WITH X;
N = N + X;
RETURN ADDED;
ENTER TELLIT;
RETURN TOLD WITH N;
ENTER GOSUM WITH X;
EXIT;
END BLOCK;
"""
SENT = "SURVEY; SEND OUTSUM; SEND GOSUM; SEND ADDIT; SEND TELLIT;"
ENTER = re.compile(r"^ENTER [^;]*;", re.MULTILINE)
ADDITIONS = {
    "V + number": "SUM = SUM + 1;",
    "V - e": "SUM = SUM - T;",
    "e + V": "ALL = 5 + ALL;",
    "e + V - g": "SUM = T * U + SUM - 3;",
    "V - (e)": "SUM = SUM - (T - 3);",
    "V + e MOD number": "ALL = ALL + T MOD 8;",
    "V + number / e": "SUM = SUM + 6 / T;",
    "V alone": "ALL = ALL;",
    "in branches": "IF T > 2 THEN SUM = SUM + 2; ELSE ALL = ALL + T; FI;",
    "in a loop": "ON SLOT FROM 1 UPTO 3 DO SUM = SUM + SLOT; NO;",
    "field of a value": "EACH(T) = EACH(T) + U;",
    "field of a number": "T = 2; EACH(T) = 7 + EACH(T) - U;",
    "field of a stored number": "T = LOW; EACH(T) = EACH(T) + 1;",
    "in another block": "SEND ADDIT WITH T; RETRIEVE ADDED;",
    "read where no job comes": "IF T = 1 THEN EXIT; T = SUM; FI; SUM = SUM + 1;",
}
OTHERS = {
    "V twice": "SUM = SUM + SUM;",
    "V in a bracket": "SUM = SUM + (SUM - SUM);",
    "bracket around all": "ALL = (ALL + 1);",
    "e - V": "SUM = T - SUM;",
    "number * V": "ALL = 2 * ALL;",
    "V * e": "SUM = SUM * T;",
    "V MOD number": "ALL = ALL MOD 64 + 1;",
    "V is set": "SUM = 0;",
    "other variable": "ALL = SUM + 1;",
    "operand of a sum": "ALL = ALL + SUM;",
    "WIDTH 16": "LOW = LOW + 1;",
    "read": "T = ALL;",
    "condition": "IF T = 9 OR SUM = 2 THEN T = 1; FI;",
    "index": "SLOT = SUM MOD 4; FEW(SLOT) = 1;",
    "pointer of a field added to": "SLOT = SUM MOD 4; EACH(SLOT) = EACH(SLOT) + 1;",
    "bound of ON": "ON SLOT FROM 1 UPTO ALL MOD 4 DO T = T + 1; NO;",
    "value of FOR": "FOR FIRST SLOT IN SUMS WHERE FEW = SUM GOTO SUMAT{}; SUMAT{})",
    "field of FOR": "FOR FIRST SLOT IN SUMS WHERE EACH = 2 GOTO SUMAT{}; SUMAT{})",
    "value sent": "SEND OUTSUM WITH SUM;",
    "value asked with": "SEND ADDIT WITH ALL; RETRIEVE ADDED;",
    "asked of another block": "SEND TELLIT; RETRIEVE TOLD WITH T;",
    "held reference": "IF T = 9 THEN SEND GOSUM REFERENCE (SUM) WITH T; FI;",
    "field of WIDTH 16": "T = 1; FEW(T) = FEW(T) + 1;",
    "field twice": "T = 1; EACH(T) = EACH(T) + EACH(T);",
    "field of another record": "T = 1; SLOT = 2; EACH(T) = EACH(T) + EACH(SLOT);",
    "field from another record": "T = 1; SLOT = 2; EACH(T) = EACH(SLOT) + 1;",
    "field is sent": "T = 3; SEND OUTSUM WITH EACH(T);",
}
FORMS = {**ADDITIONS, **OTHERS}
SOME_ELSE = 0.15
# What the jobs of a counting case do beside adding.
PLAIN = (
    "U = 8 / U;",
    "SEND OUTSUM WITH U;",
    "SEND LATE WITH T, U, P;",
    "FEW(P) = U MOD 9;",
    "IF U = 3 THEN EXIT; FI;",
    "OWN = U;",
    "SEIZE I IN HELD ELSE GOTO NONE{}; NONE{})",
)
COUNTING = """SIGNAL LATE SINGLE BUFFERED D DATA 3;
{signals}
BLOCK K;
DECLARE; VARIABLE OWN WIDTH 8; FORLOPP FILE HELD SIZE 9; FIELD GOT WIDTH 32;
TEMPORARY P; TEMPORARY T; TEMPORARY U; TEMPORARY I;
SURVEY; SEND LATE; RECEIVE LATE; {received}
PROGRAM;
{bodies}
ENTER LATE WITH T, U, P;
EXIT;
END BLOCK;
"""
ENTRIES, LINES = 6, 70


class Made(NamedTuple):
    """A text, and how often each form stands in it."""

    text: bytes
    forms: Counter[str]


class Case(NamedTuple):
    """An exchange text whose jobs mostly add, and a signal file."""

    exchange: bytes
    signals: bytes


class Writer:
    """Writes statements behind ENTERs. Labels are numbered, so that no two are alike."""

    def __init__(self, chance: random.Random, else_share: float = SOME_ELSE) -> None:
        self.chance, self.else_share = chance, else_share
        self.forms, self.labels = Counter[str](), 0

    def form(self, name: str) -> str:
        self.forms[name] += 1
        return self.labelled(FORMS[name])

    def labelled(self, statement: str) -> str:
        self.labels += 1
        return statement.replace("{}", str(self.labels))

    def statements(self) -> str:
        """What stands behind an ENTER: nothing, some additions, and now and then something else."""
        some = self.chance.choices(list(ADDITIONS), k=self.chance.choice([0, 1, 1, 2, 3]))
        if self.chance.random() < self.else_share:
            some.insert(self.chance.randrange(len(some) + 1), self.chance.choice(list(OTHERS)))
        return " ".join(map(self.form, some))

    def whole(self, exchange: str) -> bytes:
        """A text with what each block needs, and statements behind its ENTERs."""
        text = exchange.replace("DECLARE;", f"DECLARE; {DECLARED}").replace("SURVEY;", SENT)
        text = ENTER.sub(lambda enter: f"{enter[0]}\n{self.statements()}", text)
        return (SIGNALS + text + ADDER).encode()


def with_additions(exchange: bytes, chance: random.Random) -> Made:
    writer = Writer(chance)
    return Made(writer.whole(exchange.decode()), writer.forms)


# texts whose jobs mostly add


def counting_text(chance: random.Random) -> bytes:
    writer, bodies = Writer(chance, 0.15), []
    for number in range(ENTRIES):
        some = [writer.labelled(one) for one in PLAIN if chance.random() < 0.12]
        bodies.append(f"ENTER A{number} WITH P, T, U;\n{' '.join(some)}\nEXIT;")
    signals = [
        f"SIGNAL A{number} SINGLE BUFFERED {chance.choice('BBC')} DATA 3;"
        for number in range(ENTRIES)
    ]
    text = COUNTING.format(
        signals="\n".join(signals),
        received=" ".join(f"RECEIVE A{number};" for number in range(ENTRIES)),
        bodies="\n".join(bodies),
    )
    return writer.whole(text)


def counting_lines(chance: random.Random) -> bytes:
    written: list[str] = []
    forlopps: list[int] = []
    without = chance.choice([0, 0, 0, 1])  # such a job restarts the exchange where it faults
    for number in range(1, LINES + 1):
        values = " ".join(str(chance.choice([0, 1, 2, 3, 3, 5, 4294967295])) for _ in range(3))
        ending = chance.choices(["NEW", "NONE", "AS"], [12, without, 2 * bool(forlopps)])[0]
        if ending == "NEW":
            forlopps.append(number)
        elif ending == "AS":
            ending = f"AS {chance.choice(forlopps)}"
        written.append(f"AFTER 0 A{chance.randrange(ENTRIES)} K {values} {ending}\n")
    return "".join(written).encode()


def counting_case(chance: random.Random) -> Case:
    return Case(counting_text(chance), counting_lines(chance))
