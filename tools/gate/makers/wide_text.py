"""Exchange texts of many entries, each of which does little: what `analyse` writes of them is
mostly pairs. For `test_analyses.py`.
"""
import random
from typing import Iterator, List, NamedTuple

LEAST_ENTRIES, MOST_ENTRIES, BLOCKS = 32, 64, 4
DECLARED = """DECLARE; VARIABLE V WIDTH 8; VARIABLE W WIDTH 32; VARIABLE N WIDTH 32; TEMPORARY T;
TEMPORARY U; FILE F SIZE 4; FIELD X WIDTH 8; FIELD Z WIDTH 32; FORLOPP FILE G SIZE 3;
FIELD Y WIDTH 8;
"""
STATEMENTS = (
    "V = 1;",
    "N = N + 1;",
    "T = W;",
    "W = T;",
    "X(T) = 3;",
    "U = Z(T);",
    "Z(U) = 1;",
    "T = 2; Z(T) = V;",
    "U = 3; T = X(U);",
    "IF V = T THEN W = 2; FI;",
    "SEIZE T IN G ELSE GOTO L;",
    "Y(T) = 1;",
    "U = Y(T);",
    "FREE T IN G;",
    "FOR FIRST T IN F WHERE X = U GOTO L;",
    "ON T FROM 1 UPTO 3 DO N = 1; NO;",
)
SHARES = (0, 0, 1, 1, 1, 2, 3)  # how many statements an entry has


class Signal(NamedTuple):
    """A signal of an entry, with the block that receives it."""

    name: str
    level: str
    values: int
    block: int


def wide_text(chance: random.Random) -> bytes:
    """A text that breaks no rule."""
    entries = chance.randint(LEAST_ENTRIES, MOST_ENTRIES)
    signals = [
        Signal(f"S{number}", chance.choice("ABBBCD"), chance.randrange(3), chance.randrange(BLOCKS))
        for number in range(entries)
    ]
    lines = [f"SIGNAL {one.name} SINGLE BUFFERED {one.level} DATA {one.values};" for one in signals]
    for block in range(BLOCKS):
        lines += block_lines(block, signals, chance)
    return "".join(f"{line}\n" for line in lines).encode()


def block_lines(block: int, signals: List[Signal], chance: random.Random) -> Iterator[str]:
    """The lines of a block: all signals may be sent by it."""
    own = [one for one in signals if one.block == block]
    yield f"BLOCK B{block};"
    yield DECLARED + "SURVEY;"
    yield from (f"RECEIVE {one.name};" for one in own)
    yield from (f"SEND {one.name};" for one in signals)
    yield "PROGRAM;"
    for one in own:
        named = " WITH " + ", ".join("TU"[: one.values]) if one.values else ""
        yield f"ENTER {one.name}{named};"
        yield from (statement(signals, chance) for _ in range(chance.choice(SHARES)))
        yield "EXIT;"
    yield "L) EXIT;"
    yield "END BLOCK;"


def statement(signals: List[Signal], chance: random.Random) -> str:
    """A statement, which now and then is a SEND."""
    if chance.random() < 0.1:
        sent = chance.choice(signals)
        values = " WITH " + ", ".join(["1", "T"][: sent.values]) if sent.values else ""
        return f"SEND {sent.name}{values};"
    return chance.choice(STATEMENTS)
