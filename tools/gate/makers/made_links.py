"""Exchange texts made by chance whose jobs read numbers of records from stored data.

`made(chance)` gives a text that breaks no rule. Its jobs use records whose numbers they were given,
read from a variable or from a field in a record that is known or not, computed, or found by a
search; in two blocks, between which numbers go by direct and by combined signals.
"""
from __future__ import annotations

import random
from typing import Iterator

HEAD = """SIGNAL ASK COMBINED DATA 1 ANSWER TOLD DATA 2;
SIGNAL HANDED SINGLE DIRECT DATA 2;
SIGNAL OUT OUTSIDE DATA 1;
"""
DECLARED = """DECLARE;
  TEMPORARY L;
  TEMPORARY N;
  TEMPORARY P;
  TEMPORARY Q;
  VARIABLE LAST WIDTH 8;
  VARIABLE SUM WIDTH 32;
  FILE LINES SIZE 8;
    FIELD PEER WIDTH 8;
    FIELD NEXT WIDTH 8;
    FIELD STATE WIDTH 8;
    FIELD TIMES WIDTH 32;
  FORLOPP FILE HELD SIZE 8;
    FIELD KEEPS WIDTH 8;
SURVEY;
"""
NUMBERS = ("PEER({0})", "PEER({0})", "PEER({0})", "NEXT({0})", "LAST", "{0}", "3", "({0})")
OTHERS = ("KEEPS({0})", "N MOD 4", "300")
NAMES = "LLLNPPPQQ"
USES = (
    "STATE({0}) = 1;",
    "STATE({0}) = STATE({1});",
    "STATE({0}) = N;",
    "TIMES({0}) = TIMES({0}) + 1;",
    "SUM = SUM + STATE({0});",
    "PEER({0}) = N;",
    "SEND OUT WITH STATE({0});",
)
ASKING, SEARCH = "SEND ASK WITH {0};\n  RETRIEVE TOLD WITH P, Q;", "FOR FIRST Q IN LINES WHERE {0}"
LEAST_STATEMENTS, MOST_STATEMENTS = 3, 8


def number(chance: random.Random) -> str:
    """What may be the number of a record."""
    return chance.choice(NUMBERS * 3 + OTHERS).format(chance.choice(NAMES))


def statements(chance: random.Random, label: str, asks: bool) -> Iterator[str]:
    """What a job does up to its last statement."""
    for _ in range(chance.randint(LEAST_STATEMENTS, MOST_STATEMENTS)):
        kind = chance.random()
        if kind < 0.3:
            yield f"{chance.choice('PQ')} = {number(chance)};"
        elif kind < 0.4:
            yield f"IF N > 1 THEN\n  P = {number(chance)};\n  FI;"
        elif kind < 0.5 and asks:
            yield ASKING.format(number(chance))
        else:
            yield chance.choice(USES).format(chance.choice(NAMES), chance.choice(NAMES))
    if chance.random() < 0.2:
        yield f"{SEARCH.format('STATE = 1')} GOTO {label};\n  EXIT;\n{label})\n  STATE(Q) = 2;"


def made(chance: random.Random) -> str:
    """An exchange text."""
    count = chance.randint(2, 4)
    text = HEAD + "".join(f"SIGNAL S{at} SINGLE BUFFERED B DATA 2;\n" for at in range(count))
    text += f"BLOCK CALLS;\n{DECLARED}"
    text += "".join(f"  RECEIVE S{at};\n" for at in range(count))
    text += "  SEND ASK;\n  SEND HANDED;\n  SEND OUT;\nPROGRAM;\n"
    for at in range(count):
        lines = [f"ENTER S{at} WITH L, N;", *statements(chance, f"FOUND{at}", True)]
        hands = f"SEND HANDED WITH {number(chance)}, {number(chance)};"
        lines.append(chance.choice(["EXIT;", hands]))
        text += "".join(f"  {line}\n" for line in lines)
    text += f"END BLOCK;\nBLOCK OTHER;\n{DECLARED}"
    text += "  RECEIVE ASK;\n  RECEIVE HANDED;\n  SEND OUT;\nPROGRAM;\n"
    lines = ["ENTER ASK WITH L;", *statements(chance, "FOUNDA", False)]
    lines.append(f"RETURN TOLD WITH {number(chance)}, {number(chance)};")
    lines += ["ENTER HANDED WITH L, P;", *statements(chance, "FOUNDH", False), "EXIT;"]
    return text + "".join(f"  {line}\n" for line in lines) + "END BLOCK;\n"
