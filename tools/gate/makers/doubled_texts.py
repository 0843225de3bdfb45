"""Exchange texts with signal files, whose sizes are told thing by thing: one can be doubled alone.

`files(kind, sizes)` gives both files in bytes, for each of `KINDS` of statements and each number of
`THINGS`: every entry reaches all statements, in front of which a temporary takes one of so many
numbers. `MOST` has the largest sizes.
"""
from typing import Dict, Iterator, NamedTuple

THINGS = ("entries", "statements", "constants", "names", "records", "jobs")
MOST = {
    "entries": 256,
    "statements": 6000,
    "constants": 255,
    "names": 3000,
    "records": 60000,
    "jobs": 100000,
}
MOST_CELLS, TEMPORARIES = 1_000_000, 20
Sizes = Dict[str, int]


class Kind(NamedTuple):
    """A kind of statements: what one is, what stands in front of the first, and what is declared
    besides: `fields` of the plain file, or the `held` file, or a `called` block.
    """

    piece: str
    before: str = ""
    fields: bool = False
    held: bool = False
    called: bool = False


# {n} is the number of a statement, {before} that of the one before it, {v} and {w} those of names,
# {k} a constant; {t} and {u} are two temporaries.
KINDS = {
    "a sum into a variable": Kind("V{v} = V{v} + T;"),
    "a number into a variable": Kind("V{v} = {k};"),
    "one temporary into another": Kind("T{t} = T{u};", before="T0 = T;"),
    "a field": Kind("X{v}(T) = X{v}(T) + 1;", fields=True),
    "a sum of fields": Kind("U = X{v}(T) + X{w}(T) + X{v}(U) + X{w}(U);", fields=True),
    "IF": Kind("IF V{v} = {k} THEN V{v} = T; ELSE T = {k}; FI;"),
    "IF with GOTO": Kind("L{n}) IF V{v} = {k} GOTO L{before};"),
    "CASE": Kind("CASE T IS WHEN {k} DO V{v} = 1; OTHERWISE DO T = {k}; ESAC;"),
    "ON": Kind("ON I FROM 1 UPTO 2 DO V{v} = I; NO;"),
    "FOR FIRST": Kind("FOR FIRST T IN F WHERE X{v} = {k} GOTO Z;", fields=True),
    "SEIZE and FREE": Kind("SEIZE T IN G ELSE GOTO Z; Y(T) = {k}; FREE T IN G;", held=True),
    "SEND": Kind("SEND OUT WITH T;"),
    "SEND and RETRIEVE": Kind("SEND GET WITH T; RETRIEVE GOT WITH T;", called=True),
}
CALLED = """BLOCK R;
DECLARE; TEMPORARY T;
SURVEY; RECEIVE GET;
PROGRAM;
ENTER GET WITH T; RETURN GOT WITH T;
END BLOCK;
"""


def fits(kind: Kind, sizes: Sizes) -> bool:
    """Whether a text of these sizes breaks no limit."""
    is_below = all(sizes[thing] <= most for thing, most in MOST.items())
    return is_below and (not kind.fields or sizes["names"] * sizes["records"] <= MOST_CELLS)


def files(name: str, sizes: Sizes) -> Dict[str, bytes]:
    """The exchange text E and the signal file S of a kind and these sizes."""
    kind = KINDS[name]
    lines = [
        f"AFTER 0 G{job % sizes['entries']} K {job % sizes['records']} NEW\n"
        for job in range(sizes["jobs"])
    ]
    return {"E": "".join(text(kind, sizes)).encode(), "S": "".join(lines).encode()}


def text(kind: Kind, sizes: Sizes) -> Iterator[str]:
    entries = range(sizes["entries"])
    yield "".join(f"SIGNAL G{entry} SINGLE BUFFERED B DATA 1;\n" for entry in entries)
    yield "SIGNAL OUT OUTSIDE DATA 1;\nSIGNAL GET COMBINED DATA 1 ANSWER GOT DATA 1;\n"
    yield "BLOCK K;\nDECLARE;\n"
    yield from declarations(kind, sizes)
    yield "SURVEY; SEND OUT;" + " SEND GET;" * kind.called + "\n"
    yield "".join(f"RECEIVE G{entry};\n" for entry in entries) + "PROGRAM;\n"
    yield "".join(f"ENTER G{entry} WITH U;\n" for entry in entries)
    yield "".join(
        f"IF U = {number} THEN T = {number}; FI;\n" for number in range(sizes["constants"])
    )
    yield kind.before
    yield from statements(kind, sizes)
    yield "Z) EXIT;\nEND BLOCK;\n" + CALLED * kind.called


def declarations(kind: Kind, sizes: Sizes) -> Iterator[str]:
    temporaries = ["T", "U", "I", *(f"T{number}" for number in range(TEMPORARIES))]
    yield "".join(f"TEMPORARY {name};\n" for name in temporaries)
    if kind.fields:
        yield f"FILE F SIZE {sizes['records']};\n"
        yield "".join(f"FIELD X{name} WIDTH 8;\n" for name in range(sizes["names"]))
    else:
        yield "".join(f"VARIABLE V{name} WIDTH 32;\n" for name in range(sizes["names"]))
    if kind.held:
        yield f"FORLOPP FILE G SIZE {sizes['records']};\nFIELD Y WIDTH 8;\n"


def statements(kind: Kind, sizes: Sizes) -> Iterator[str]:
    for number in range(sizes["statements"]):
        yield kind.piece.format(
            n=number,
            before=max(0, number - 1),
            v=number % sizes["names"],
            w=(number * 7 + 3) % sizes["names"],
            k=number % sizes["constants"],
            t=number % TEMPORARIES,
            u=(number + 1) % TEMPORARIES,
        ) + "\n"
