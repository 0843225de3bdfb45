"""Right exchange texts whose cost may be the product of two numbers that the text has. For
`test_large_texts.py`.

Such a text is near the limits, and each of its parts is cheap by itself: as many FREEs as a file
has fields, a CASE of many choices at a point of many facts. A program that does for each of the one
kind something for each of the other takes minutes or gigabytes for it. Each of `PRODUCTS` has a
size for the gate and one near the limits.
"""
from __future__ import annotations

from typing import Callable, Iterable, Iterator, Optional

GO = "SIGNAL GO SINGLE BUFFERED B DATA 0;\n"
CALL = "SIGNAL CALL SINGLE BUFFERED B DATA 1;\n"
GET = "SIGNAL GET COMBINED DATA 1 ANSWER GOT DATA 1;\n"
ONCE, ONE_CALL = "AFTER 0 GO K NEW\n", "AFTER 0 CALL K 3 NONE\n"
IN_SUM, CONSTANTS, ENTRIES, RECEIVERS = 60, 255, 256, 64
NUMBER = b"FACT 0 %d T0 CONST %d\n"


# What makes a text, or bytes, of a size.
Text = Callable[[int], str]
Bytes = Callable[[int], bytes]


def each(piece: str, count: int, first: int = 0) -> str:
    return "".join(piece.format(number) for number in range(first, first + count))


def block(declared: str, survey: str, program: str, name: str = "K") -> str:
    return (
        f"BLOCK {name};\nDECLARE;\n{declared}\nSURVEY; {survey}\nPROGRAM;\n{program}\nEND BLOCK;\n"
    )


def many_entries(count: int, data: str = "") -> tuple[str, str, str]:
    """The signals, the survey and the ENTERs of so many entries, one behind the other."""
    declared = each(f"SIGNAL G{{}} SINGLE BUFFERED B DATA {1 if data else 0};\n", count)
    given = f" WITH {data};\n" if data else ";\n"
    return declared, each("RECEIVE G{}; ", count), each("ENTER G{}" + given, count)


def one_of(constants: int, taken: str = "T", by: str = "U") -> str:
    """The temporary takes one of so many numbers."""
    return each(f"IF {by} = {{0}} THEN {taken} = {{0}}; FI;\n", constants)


def sums(piece: str, count: int) -> Iterator[str]:
    """Assignments of sums of so many values, as many as one statement may have in each."""
    for first in range(0, count, IN_SUM):
        yield "T = " + " + ".join(
            piece.format(number) for number in range(first, min(count, first + IN_SUM))
        ) + ";\n"


# texts of one number and another


def frees(fields: int, count: int) -> str:
    declared = "TEMPORARY T; FORLOPP FILE F SIZE 1;\n" + each("FIELD X{} WIDTH 1;\n", fields)
    program = "ENTER GO;\nSEIZE T IN F ELSE GOTO L;\n" + "FREE T IN F;\n" * count + "L) EXIT;"
    return GO + block(declared, "RECEIVE GO;", program)


def receivers(blocks: int) -> str:
    """Blocks that receive a direct signal, one fewer than the text has."""
    return "".join(
        block("TEMPORARY T;", "RECEIVE S;", "ENTER S WITH T;", f"K{number}")
        for number in range(1, blocks)
    )


def held_sends(count: int, blocks: int) -> str:
    signals = GO + "SIGNAL S SINGLE DIRECT DATA 1;\n"
    program = "ENTER GO;\n" + "SEND S REFERENCE (T) WITH 1;\n" * count + "EXIT;\nENTER S WITH T;"
    return (
        signals
        + block("TEMPORARY T;", "RECEIVE GO; SEND S; RECEIVE S;", program)
        + receivers(blocks)
    )


def choices(count: int, entries: int, constants: int) -> str:
    signals, survey, enters = many_entries(entries, "U")
    case = "CASE T IS\n" + each("WHEN {} DO\n", count) + "OTHERWISE DO ESAC;"
    return signals + block("TEMPORARY U; TEMPORARY T;", survey, enters + one_of(constants) + case)


def case_turns(count: int, turns: int) -> str:
    case = "CASE T IS\n" + each("WHEN {} DO\n", count) + "OTHERWISE DO ESAC;"
    program = f"ENTER GO;\nT = {count};\nON I FROM 1 UPTO {turns} DO\n{case}\nNO;"
    return GO + block("TEMPORARY T; TEMPORARY I;", "RECEIVE GO;", program)


def case_loop(count: int, temporaries: int) -> str:
    """The values go round: each temporary takes that of the next one."""
    last = f"T{temporaries - 1}"
    case = "CASE T0 IS\n" + each("WHEN {} DO\n", count) + "OTHERWISE DO ESAC;\n"
    moves = "".join(f"T{number} = T{number + 1};\n" for number in range(temporaries - 1))
    program = (
        f"ENTER CALL WITH T0;\nL)\n{case}{moves}"
        + each(f"IF T0 = 1 THEN {last} = {{}}; FI;\n", 200)
        + "GOTO L;"
    )
    return CALL + block(each("TEMPORARY T{};", temporaries), "RECEIVE CALL;", program)


def steps_back(count: int, entries: int) -> str:
    """Each statement may go back to the one before it; behind them half as many numbers, each of
    which goes to the last.
    """
    signals, survey, enters = many_entries(entries)
    declared = "VARIABLE V WIDTH 8;\n" + each("TEMPORARY T{};", 24)
    steps = "".join(f"L{step}) IF V = 1 GOTO L{max(0, step - 1)};\n" for step in range(count))
    numbers = "".join(
        f"T{k % 24} = {k // 24 + 1}; IF V = 1 GOTO L{count - 1};\n" for k in range(count // 2)
    )
    return signals + block(declared, survey, enters + steps + numbers + "EXIT;")


def accesses(fields: int, entries: int) -> str:
    """Each entry reads each field in one of a hundred records."""
    signals, survey, enters = many_entries(entries, "U")
    declared = "TEMPORARY T; TEMPORARY U; FILE F SIZE 100;\n" + each("FIELD X{} WIDTH 1;\n", fields)
    reads = "".join(text.replace("T = ", "U = ", 1) for text in sums("X{}(T)", fields))
    return signals + block(declared, survey, enters + one_of(100) + reads)


def entries_that_free(fields: int, entries: int) -> str:
    signals, survey, enters = many_entries(entries)
    declared = "TEMPORARY T; FORLOPP FILE F SIZE 1;\n" + each("FIELD X{} WIDTH 1;\n", fields)
    return signals + block(declared, survey, enters + "FREE T IN F;")


def entries_that_read(variables: int, entries: int) -> str:
    signals, survey, enters = many_entries(entries)
    declared = "TEMPORARY T;\n" + each("VARIABLE V{} WIDTH 1;\n", variables)
    return signals + block(declared, survey, enters + "".join(sums("V{}", variables)))


def values(count: int, constants: int) -> str:
    """Sends by a held reference, each with eight values, and each of these one of many numbers."""
    signals = CALL + "SIGNAL S SINGLE DIRECT DATA 8;\n"
    given = ", ".join(["T"] * 8)
    send = f"IF U = 1 THEN SEND S REFERENCE (U) WITH {given}; FI;\n"
    program = "ENTER CALL WITH U;\n" + one_of(constants) + send * count
    others = "".join(
        block("TEMPORARY T;", "RECEIVE S;", f"ENTER S WITH {given};", f"K{number}")
        for number in range(1, RECEIVERS)
    )
    return signals + block("TEMPORARY T; TEMPORARY U;", "RECEIVE CALL; SEND S;", program) + others


def sends_itself() -> str:
    program = "ENTER GO;\nON I FROM 1 UPTO 255 DO SEND GO; NO;"
    return GO + block("TEMPORARY I;", "RECEIVE GO; SEND GO;", program)


def asks(count: int) -> str:
    """As many askers as there are places that answer."""
    program = (
        "ENTER CALL WITH T;\n" + each("SEND GET WITH {}; RETRIEVE GOT WITH T;\n", count) + "EXIT;"
    )
    answers = (
        "ENTER GET WITH T;\n"
        + each("IF T = {} THEN RETURN GOT WITH T; FI;\n", count)
        + "RETURN GOT WITH 0;"
    )
    first = block("TEMPORARY T;", "RECEIVE CALL; SEND GET;", program)
    return CALL + GET + first + block("TEMPORARY T;", "RECEIVE GET;", answers, "LIB")


def asks_of_long(statements: int, count: int) -> str:
    """Many askers, each with a number of its own, of a long text that stands before them."""
    answers = "ENTER GET WITH T;\n" + "V = 1;\n" * statements + "RETURN GOT WITH 0;"
    program = (
        "ENTER CALL WITH T;\n" + each("SEND GET WITH {}; RETRIEVE GOT WITH T;\n", count) + "EXIT;"
    )
    first = block("TEMPORARY T; VARIABLE V WIDTH 32;", "RECEIVE GET;", answers, "LIB")
    return CALL + GET + first + block("TEMPORARY T;", "RECEIVE CALL; SEND GET;", program)


def jumps_to_long(statements: int, count: int) -> str:
    """Many jumps back to a long text, each with a number of its own."""
    jumps = each("IF U = {0} THEN T = {0}; GOTO H; FI;\n", count)
    program = (
        "ENTER CALL WITH U;\nGOTO P;\nH) V = 1;\n"
        + "V = 1;\n" * statements
        + f"EXIT;\nP) V = 2;\n{jumps}EXIT;"
    )
    return CALL + block("TEMPORARY T; TEMPORARY U; VARIABLE V WIDTH 32;", "RECEIVE CALL;", program)


def reads_of_many(statements: int, constants: int) -> str:
    """Sums of one field in one of many records."""
    declared = "TEMPORARY T; TEMPORARY U; VARIABLE V WIDTH 32; FILE G SIZE 256; FIELD F WIDTH 32;"
    reads = ("V = " + " + ".join(["F(T)"] * IN_SUM) + ";\n") * statements
    return CALL + block(
        declared, "RECEIVE CALL;", "ENTER CALL WITH U;\n" + one_of(constants) + reads + "EXIT;"
    )


def exits(count: int) -> str:
    """A CASE whose choices all have a statement."""
    case = "CASE T IS\n" + each("WHEN {} DO EXIT;\n", count) + "OTHERWISE DO ESAC;"
    return GO + block("TEMPORARY T;", "RECEIVE GO;", "ENTER GO;\n" + case)


def asks_of_one(count: int) -> str:
    """Many askers of one RETURN."""
    first = block("TEMPORARY T;", "RECEIVE GET;", "ENTER GET WITH T;\nRETURN GOT WITH T;", "LIB")
    program = "ENTER GO;\n" + "SEND GET WITH 0; RETRIEVE GOT WITH T;\n" * count + "EXIT;"
    return GO + GET + first + block("TEMPORARY T;", "RECEIVE GO; SEND GET;", program)


def returns(count: int, constants: int) -> str:
    """As many askers as there are RETURNs, and each RETURN hands on what all of them ask with,
    which are few numbers.
    """
    sends = (
        f"SEND GET WITH {number % constants}; RETRIEVE GOT WITH T;\n" for number in range(count)
    )
    answers = (
        "ENTER GET WITH T;\nCASE T IS\n"
        + each("WHEN {} DO RETURN GOT WITH T;\n", count)
        + "OTHERWISE DO ESAC;"
    )
    first = block(
        "TEMPORARY T;", "RECEIVE CALL; SEND GET;", "ENTER CALL WITH T;\n" + "".join(sends) + "EXIT;"
    )
    return CALL + GET + first + block("TEMPORARY T;", "RECEIVE GET;", answers, "LIB")


def held_send(blocks: int) -> str:
    program = "ENTER GO;\nSEND S REFERENCE (U) WITH T;\nENTER S WITH T;"
    first = block("TEMPORARY T; TEMPORARY U;", "RECEIVE GO; SEND S; RECEIVE S;", program)
    return GO + "SIGNAL S SINGLE DIRECT DATA 1;\n" + first + receivers(blocks)


def calls(count: int) -> str:
    return each("AFTER 0 G0 K {} NEW\n", 100) * (count // 100)


class MoreFacts:
    """More facts than the least ones, in jobs of the first entry: so many numbers from 0 on, before
    some points, for the first temporary, of which a certificate says there that it has 0. Told is
    the fact that then is missing, or nothing where all that follows is there.
    """

    def __init__(
        self,
        points: Callable[[int], Iterable[int]],
        count: Callable[[int], int],
        missing: Bytes = lambda size: b"",
    ) -> None:
        self.points, self.count, self.missing = points, count, missing

    def added(self, certificate: bytes, size: int) -> bytes:
        """The certificate with these facts."""
        more = {NUMBER % (point, 0): point for point in self.points(size)}
        return b"".join(
            self.numbers(more[line], size) if line in more else line
            for line in certificate.splitlines(keepends=True)
        )

    def numbers(self, point: int, size: int) -> bytes:
        return b"".join(NUMBER % (point, number) for number in range(self.count(size)))


def moved(count: int, entries: int) -> str:
    """So many assignments of one of twenty temporaries to the one before, which many entries
    reach.
    """
    signals, survey, enters = many_entries(entries, "U")
    declared = "TEMPORARY U;\n" + each("TEMPORARY T{};\n", 20)
    moves = "".join(f"T{number % 20} = T{(number + 1) % 20};\n" for number in range(count))
    return signals + block(declared, survey, enters + "T0 = U;\n" + moves + "EXIT;")


def seized(count: int, entries: int) -> str:
    """So many SEIZEs, each with a use of its record and a FREE, which many entries reach."""
    signals, survey, enters = many_entries(entries, "T")
    declared = "TEMPORARY T; FORLOPP FILE F SIZE 16; FIELD X WIDTH 8;"
    seizes = "SEIZE T IN F ELSE GOTO L; X(T) = 1; FREE T IN F;\n" * count
    return signals + block(declared, survey, enters + seizes + "L) EXIT;")


class Product:
    """A text of a size, two sizes, one for the gate and one near the limits, the signal lines of a
    size, and what is added to its certificate, if anything is.

    Where a run would not end by itself, its size is the number of its jobs.
    """

    def __init__(
        self,
        name: str,
        text: Text,
        sizes: tuple[int, int],
        signals: Text = lambda size: "",
        is_endless: bool = False,
        more: Optional[MoreFacts] = None,
    ) -> None:
        self.name, self.text, self.sizes, self.signals, self.is_endless = (
            name,
            text,
            sizes,
            signals,
            is_endless,
        )
        self.more = more

    def files(self, size: int) -> dict[str, bytes]:
        return {"E": self.text(size).encode(), "S": self.signals(size).encode()}

    def limit(self, size: int) -> list[str]:
        return ["--jobs", str(size)] if self.is_endless else []


def many_at(missing: bytes) -> MoreFacts:
    """Ten thousand facts more before the second point of a text; then this fact is missing."""
    return MoreFacts(lambda size: [1], lambda size: 10000, lambda size: missing)


def at_choices(lacking: int) -> MoreFacts:
    """As many facts as there are choices, before the CASE and where it leads to, but for the last
    of these points.
    """
    missing = lambda size: NUMBER % (size + 2, 1) if lacking else b""  # noqa: E731
    return MoreFacts(lambda size: range(1, size + 3 - lacking), lambda size: size, missing)


def once(size: int) -> str:
    return ONCE


def one_call(size: int) -> str:
    return ONE_CALL


PRODUCTS = [
    Product("FREEs of many fields", lambda size: frees(size, size), (2500, 10000), once),
    Product("more FREEs than fields", lambda size: frees(size // 2, size), (500, 2000), once),
    Product(
        "sends by a held reference", lambda size: held_sends(size, RECEIVERS), (5000, 19700), once
    ),
    Product("choices of many facts", lambda size: choices(size, 1, 250), (25000, 100000)),
    Product("choices of many entries", lambda size: choices(size, ENTRIES, 1), (25000, 100000)),
    Product("turns round many choices", lambda size: case_turns(size, 4000), (25000, 100000), once),
    Product("choices in a GOTO loop", lambda size: case_loop(size, 24), (1500, 10000)),
    Product("statements that may go back", lambda size: steps_back(size, 4), (800, 1000)),
    Product(
        "fields that many entries read",
        lambda size: accesses(size, 30),
        (500, 2000),
        lambda size: calls(100),
    ),
    Product(
        "fields that many jobs read",
        lambda size: accesses(size, 1),
        (2000, 9900),
        lambda size: calls(size // 10),
    ),
    Product(
        "fields that few jobs read",
        lambda size: accesses(size, 1),
        (2000, 9900),
        lambda size: calls(100),
    ),
    Product(
        "fields that many entries free",
        lambda size: entries_that_free(size, ENTRIES),
        (1200, 20000),
    ),
    Product(
        "variables that many entries read",
        lambda size: entries_that_read(size, ENTRIES),
        (1500, 6000),
    ),
    Product("values of many constants", lambda size: values(size, 250), (1500, 9000)),
    Product(
        "signals that a job sends itself", lambda size: sends_itself(), (3000, 10000), once, True
    ),
    Product("askers and answers", asks, (400, 1500), one_call),
    Product("askers of a long text", lambda size: asks_of_long(size, 200), (2500, 10000), one_call),
    Product(
        "jumps to a long text", lambda size: jumps_to_long(size, CONSTANTS), (4500, 18000), one_call
    ),
    Product(
        "reads of many records", lambda size: reads_of_many(size, CONSTANTS), (750, 3000), one_call
    ),
    Product("RETURNs as many as RETRIEVEs", lambda size: returns(size, 20), (1250, 5000), one_call),
    Product(
        "temporaries that many entries move",
        lambda size: moved(size, 64),
        (1000, 5000),
        lambda size: calls(100),
    ),
    Product(
        "records that many entries seize",
        lambda size: seized(size, 32),
        (640, 2000),
        lambda size: calls(100),
    ),
    Product("facts at a CASE", exits, (2500, 10000), once, more=many_at(b"FACT 0 2 T0 CONST 1\n")),
    Product("facts where a CASE leads to", exits, (400, 750), once, more=at_choices(0)),
    Product(
        "facts where a CASE leads to, but for the last", exits, (400, 750), once, more=at_choices(1)
    ),
    Product(
        "facts at a RETURN", asks_of_one, (1000, 4000), once, more=many_at(b"FACT 0 5 A0 CONST 1\n")
    ),
    Product(
        "facts at a held SEND",
        held_send,
        (16, RECEIVERS),
        once,
        more=many_at(b"FACT 0 2 E0 CONST 1\n"),
    ),
]
