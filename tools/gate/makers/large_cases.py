"""Large files of each kind that the program reads, with what it must write of them. For
`test_large_texts.py`.

Each of the `GROUPS` is a list of cases: exchange texts, signal files, tables, filters, new
exchanges and certificates of 16 MiB, tables that mean a million signals, loads, and exchanges near
the limits whose jobs are to be analysed.
"""
from __future__ import annotations

from typing import Callable, Iterable, Mapping, Optional, Sequence, Union

from gate.makers import colliding_texts
from plextools.limits import MOST_BYTES, MOST_PERIODIC_SIGNALS

UNIT, END = colliding_texts.BEFORE, colliding_texts.AFTER
STATEMENT = b"N = N + 1;\n"
NESTED = b"IF N = 0 THEN\n" * 12 + b"FI;" * 12 + b"\n"
HEAD = b"BLOCK C;\nDECLARE;\n"
TAIL = b"SURVEY; PROGRAM;\nEND BLOCK;\n"
VARIABLE = b"VARIABLE V%07d WIDTH 8;\n"
BLOCK = b"BLOCK B%07d; DECLARE; SURVEY; PROGRAM; END BLOCK;\n"
TAKES = UNIT.replace(b"SURVEY;", b"SURVEY; RECEIVE A;") + b"ENTER A;\n%s\n" + END
COUNTS, FAULTS = TAKES % b"N = N + 1;", TAKES % b"N = N / 0;"
DEEP = b"((((((N))))))"
NONE_RUN = b"JOBS 0\nVAR C.N 0\nEND DONE\n"


def filled(size: int, piece: bytes) -> bytes:
    return (piece * (size // len(piece) + 1))[:size]


def times(size: int, before: bytes, piece: bytes, after: bytes) -> bytes:
    return before + piece * ((size - len(before) - len(after)) // len(piece)) + after


def room_for(size: int, before: bytes, piece: bytes, after: bytes) -> int:
    """How many pieces there is room for."""
    return (size - len(before) - len(after)) // len(piece % 0)


def numbered(size: int, before: bytes, piece: bytes, after: bytes) -> bytes:
    """As many pieces as there is room for, each with a number of its own of seven digits."""
    return (
        before
        + b"".join(piece % number for number in range(room_for(size, before, piece, after)))
        + after
    )


def variables_told(size: int) -> bytes:
    """The report of a block with as many variables as there is room for, none of which ever
    changes.
    """
    told = (b"VAR C.V%07d 0\n" % number for number in range(room_for(size, HEAD, VARIABLE, TAIL)))
    return b"JOBS 0\n" + b"".join(told) + b"END DONE\n"


# What makes a text of a size; files, each with its name; what must be written; and the same of a
# size, or for all sizes.
Text = Callable[[int], bytes]
Files = Callable[[int], Mapping[str, bytes]]
Told = Callable[[int], Optional[bytes]]
Fixed = Union[bytes, None, Text]


def for_each_size(told: Fixed) -> Told:
    """What must be written of a size."""
    if callable(told):
        return told
    text = told
    return lambda size: text


class Case:
    """A case: of a size it makes files and what must be written, which is None where only the
    status is known.
    """

    def __init__(
        self,
        name: str,
        status: int,
        files: Files,
        told: Told,
        words: Sequence[str] = ("run", "E", "S"),
        large: int = MOST_BYTES,
    ) -> None:
        self.name, self.status, self.files, self.told = name, status, files, told
        self.words, self.large = list(words), large


def exchange(name: str, text: Text, status: int, line: Fixed) -> Case:
    """An exchange text without a signal line."""
    return Case(name, status, lambda size: {"E": text(size), "S": b""}, for_each_size(line))


def in_expression(size: int, piece: bytes) -> bytes:
    """Pieces behind the = of an assignment, up to the end of the text."""
    return (UNIT + b"N = " + filled(size, piece))[:size]


def choices(size: int) -> bytes:
    return numbered(size, UNIT + b"CASE N IS\n", b"WHEN %07d DO\n", b"OTHERWISE DO ESAC;\n" + END)


EXCHANGES = [
    exchange("open brackets", lambda size: filled(size, b"("), 2, b"SOURCE line 1 UNEXPECTED\n"),
    exchange("capital letters", lambda size: filled(size, b"A"), 2, b"SOURCE line 1 LONGNAME\n"),
    exchange("digits", lambda size: filled(size, b"7"), 2, b"SOURCE line 1 BADNUMBER\n"),
    exchange("small letters", lambda size: filled(size, b"a"), 2, b"SOURCE line 1 BADBYTE\n"),
    exchange(
        "high bytes",
        lambda size: filled(size, bytes(range(128, 256))),
        2,
        b"SOURCE line 1 BADBYTE\n",
    ),
    exchange("a comment without an end", lambda size: filled(size, b"!"), 0, b"JOBS 0\nEND DONE\n"),
    exchange("blanks", lambda size: filled(size, b" "), 0, b"JOBS 0\nEND DONE\n"),
    exchange("ends of lines", lambda size: filled(size, b"\n"), 0, b"JOBS 0\nEND DONE\n"),
    exchange(
        "names and commas", lambda size: filled(size, b"A,"), 2, b"SOURCE line 1 UNEXPECTED\n"
    ),
    exchange(
        "brackets in an expression",
        lambda size: in_expression(size, b"("),
        2,
        b"SOURCE line 7 TOODEEP\n",
    ),
    exchange(
        "one byte too many",
        lambda size: filled(MOST_BYTES, b" ") + b" ",
        2,
        b"SOURCE line 0 TOOLARGE\n",
    ),
    exchange(
        "statements, too many",
        lambda size: times(size, UNIT, STATEMENT, END),
        2,
        b"SOURCE line 20007 LIMIT\n",
    ),
    exchange(
        "IFs nested as deep as they may",
        lambda size: times(size, UNIT, NESTED, END),
        2,
        b"SOURCE line 21673 LIMIT\n",
    ),
    exchange("declarations", lambda size: numbered(size, HEAD, VARIABLE, TAIL), 0, variables_told),
    exchange(
        "one name again and again",
        lambda size: times(size, HEAD, b"VARIABLE V WIDTH 8;\n", TAIL),
        2,
        b"SOURCE line 4 N1\n",
    ),
    exchange("labels", lambda size: numbered(size, UNIT, b"L%07d)\n", END), 0, NONE_RUN),
    exchange("labels that meet without a seed", colliding_texts.fixed, 0, NONE_RUN),
    exchange("labels that meet by another seed", colliding_texts.chased, 0, NONE_RUN),
    exchange("a CASE of many choices", choices, 0, NONE_RUN),
    exchange(
        "blocks, too many",
        lambda size: numbered(size, b"", BLOCK, b""),
        2,
        b"SOURCE line 65 LIMIT\n",
    ),
]

# On one line, with a name in every second to fourth byte.
DENSE = [
    exchange(
        "assignments without a blank",
        lambda size: times(size, UNIT, b"N=N;", b"\n" + END),
        2,
        b"SOURCE line 7 LIMIT\n",
    ),
    exchange(
        "values after WITH",
        lambda size: times(size, UNIT + b"SEND A WITH ", b"N,", b"N;\n" + END),
        2,
        b"SOURCE line 7 N11\n",
    ),
    exchange(
        "a sum of names",
        lambda size: times(size, UNIT + b"N=N", b"+N", b";\n" + END),
        2,
        b"SOURCE line 7 N13\n",
    ),
    exchange(
        "a sum of brackets",
        lambda size: times(size, UNIT + b"N=", DEEP + b"+", b"N;\n" + END),
        2,
        b"SOURCE line 7 N13\n",
    ),
    exchange(
        "values in brackets",
        lambda size: times(size, UNIT + b"SEND A WITH ", DEEP + b",", b"N;\n" + END),
        2,
        b"SOURCE line 7 N11\n",
    ),
    exchange(
        "labels of one letter",
        lambda size: times(size, UNIT, b"L)", b"\n" + END),
        2,
        b"SOURCE line 7 N1\n",
    ),
    exchange(
        "fields", lambda size: times(size, UNIT, b"N(N)=N;", b"\n" + END), 2, b"SOURCE line 7 N6\n"
    ),
]

# signal files

FIRST = b"AFTER 0 A C NEW\n"
AGAIN = b"AFTER 0 A C AS 1\n"
ALONE = b"AFTER 0 A C NONE\n"
WRONG = b"AFTER 0 A C AS 0\n"
COUNTED = b"AFTER %07d A C NEW\n"
AS_BEFORE = b"AFTER 0 A C AS %07d\n"


def signals(
    name: str,
    text: Text,
    told: Fixed,
    status: int = 0,
    unit: bytes = COUNTS,
    large: int = MOST_BYTES,
) -> Case:
    told_of = for_each_size(told)
    return Case(
        name,
        status,
        lambda size: {"E": unit, "S": text(size)},
        told_of,
        ["run", "E", "S", "--jobs", "10000000"],
        large,
    )


def jobs_told(count: int) -> bytes:
    return b"JOBS %d\nVAR C.N %d\nEND DONE\n" % (count, count)


def lines_in(size: int, line: bytes) -> int:
    return size // len(line)


def after_first(size: int, line: bytes) -> bytes:
    """FIRST, and then as many of a line as there is room for."""
    return FIRST + line * lines_in(size - len(FIRST), line)


def released(removed: int) -> bytes:
    return b"RELEASE F1 job 1 DIVIDE at C:8 jobs %d records 0\n" % removed


def lost_told(size: int) -> bytes:
    lost = lines_in(size - len(FIRST), AGAIN)
    lines = (b"LOST line %d\n" % (number + 2) for number in range(lost))
    return released(0) + b"".join(lines) + b"JOBS 1\nVAR C.N 0\nEND DONE\n"


def all_released_told(size: int) -> bytes:
    count = lines_in(size, FIRST)
    lines = (
        b"RELEASE F%d job %d DIVIDE at C:8 jobs 0 records 0\n" % (number, number)
        for number in range(1, count + 1)
    )
    return b"".join(lines) + b"JOBS %d\nVAR C.N 0\nEND DONE\n" % count


def each_as_before(size: int) -> bytes:
    """The third line is of the forlopp of the first one, the fourth of that of the second, and so
    on.
    """
    return (
        FIRST
        + AGAIN
        + b"".join(
            AS_BEFORE % (number + 1)
            for number in range(room_for(size, FIRST + AGAIN, AS_BEFORE, b""))
        )
    )


def fault_at_the_end(size: int) -> bytes:
    return after_first(size - len(WRONG), FIRST) + WRONG


def fault_told(size: int) -> bytes:
    return b"SIGNALS line %d BADAS\n" % (2 + lines_in(size - len(WRONG) - len(FIRST), FIRST))


def removed_told(size: int) -> bytes:
    return released(lines_in(size - len(FIRST), AGAIN)) + b"JOBS 1\nVAR C.N 0\nEND DONE\n"


SIGNALS = [
    signals("one long line", lambda size: filled(size, b"A"), b"SIGNALS line 1 BADLINE\n", 3),
    signals(
        "one line of values",
        lambda size: times(size, b"AFTER 0 A C", b" 1", b" NEW\n"),
        b"SIGNALS line 1 WRONGDATA\n",
        3,
    ),
    signals("empty lines", lambda size: filled(size, b"\n"), NONE_RUN),
    signals("lines of a comment", lambda size: filled(size, b"!\n"), NONE_RUN),
    signals(
        "unknown names",
        lambda size: numbered(size, b"", b"AFTER 0 Q%07d C NEW\n", b""),
        b"SIGNALS line 1 UNKNOWNSIGNAL\n",
        3,
    ),
    signals("a fault in the last line", fault_at_the_end, fault_told, 3),
    signals(
        "shortest lines",
        lambda size: times(size, b"", FIRST, b""),
        lambda size: jobs_told(lines_in(size, FIRST)),
    ),
    signals(
        "lines in no forlopp",
        lambda size: times(size, b"", ALONE, b""),
        lambda size: jobs_told(lines_in(size, ALONE)),
    ),
    signals(
        "lines of one forlopp",
        lambda size: after_first(size, AGAIN),
        lambda size: jobs_told(1 + lines_in(size - len(FIRST), AGAIN)),
    ),
    signals(
        "lines as one before",
        each_as_before,
        lambda size: jobs_told(2 + room_for(size, FIRST + AGAIN, AS_BEFORE, b"")),
    ),
    signals(
        "lines that arrive one by one",
        lambda size: numbered(size, b"", COUNTED, b""),
        lambda size: jobs_told(room_for(size, b"", COUNTED, b"")),
    ),
    signals(
        "jobs that one release removes",
        lambda size: after_first(size, AGAIN),
        removed_told,
        unit=FAULTS,
    ),
    signals(
        "lines that are all lost",
        lambda size: after_first(size, AGAIN.replace(b" 0 ", b" 1 ")),
        lost_told,
        unit=FAULTS,
    ),
    signals(
        "jobs that are all released",
        lambda size: times(size, b"", FIRST, b""),
        all_released_told,
        unit=FAULTS,
        large=MOST_BYTES // 16,
    ),
]

# tables

PERIOD = b"EVERY 1 FROM 0 TIMES 1 A C NEW\n"
ENDLESS = b"EVERY 1 FROM 0 TIMES 0 A C NEW\n"
FALLING = b"EVERY 1 FROM %07d TIMES 1 A C NEW\n"
MANY = ["--jobs", "10000000"]


def third(
    words: Sequence[str], name: str, text: Text, told: Fixed, status: int, signals: bytes
) -> Case:
    """A command with a third file, which has the size of the case."""

    def files(size: int) -> dict[str, bytes]:
        return {"E": COUNTS, "S": signals, words[-1]: text(size)}

    return Case(name, status, files, for_each_size(told), [*words, *MANY])


def table(name: str, text: Text, told: Fixed, status: int = 0) -> Case:
    return third(["timed", "E", "S", "T"], name, text, told, status, b"")


def periods(name: str, text: Text, large: int = MOST_PERIODIC_SIGNALS) -> Case:
    """Its size is the number of signals that a short table means; the file M stands for the lines
    that are made.
    """

    def files(size: int) -> dict[str, bytes]:
        lines = b"".join(COUNTED % number for number in range(size))
        return {"E": COUNTS, "S": b"", "T": text(size), "M": lines}

    return Case(name, 0, files, jobs_told, ["timed", "E", "S", "T", *MANY], large)


def falling(size: int) -> bytes:
    """Periods of one signal each, the last one first."""
    count = room_for(size, b"", FALLING, b"")
    return b"".join(FALLING % (count - number) for number in range(count))


def last_period_wrong(size: int) -> bytes:
    return PERIOD * lines_in(size - len(ENDLESS), PERIOD) + ENDLESS


def last_told(size: int) -> bytes:
    return b"TABLE line %d BADRANGE\n" % (1 + lines_in(size - len(ENDLESS), PERIOD))


def ten_periods(size: int) -> bytes:
    return b"".join(
        b"EVERY 10 FROM %d TIMES %d A C NEW\n" % (number, size // 10) for number in range(10)
    )


TABLES = [
    table(
        "a table of one long line", lambda size: filled(size, b"A"), b"TABLE line 1 BADLINE\n", 11
    ),
    table(
        "a period of many values",
        lambda size: times(size, PERIOD[:-5], b" 1", b" NEW\n"),
        b"TABLE line 1 WRONGDATA\n",
        11,
    ),
    table("empty lines of a table", lambda size: filled(size, b"\n"), NONE_RUN),
    table("lines of a comment of a table", lambda size: filled(size, b"!\n"), NONE_RUN),
    table("a fault in the last period", last_period_wrong, last_told, 11),
    table(
        "shortest periods",
        lambda size: times(size, b"", PERIOD, b""),
        lambda size: jobs_told(lines_in(size, PERIOD)),
    ),
    table("periods that fall", falling, lambda size: jobs_told(room_for(size, b"", FALLING, b""))),
    periods(
        "a period of a million signals", lambda size: b"EVERY 1 FROM 0 TIMES %d A C NONE\n" % size
    ),
    periods("ten periods of a million signals", ten_periods),
    periods(
        "ten periods at the same counts",
        lambda size: b"EVERY 1 FROM 0 TIMES %d A C NEW\n" % (size // 10) * 10,
    ),
]

# filters

SHOWN = b"SHOW\n"
UNSHOWN = b"SHOW FAULTS\n"
ALL_PARTS = b"SHOW BLOCK C SIGNAL A FORLOPP 1 FROM 1 UPTO 9 FAULTS\n"
UNKNOWN = b"SHOW BLOCK Q\n"


def shows(name: str, text: Text, told: Fixed, status: int = 0, signals: bytes = FIRST) -> Case:
    return third(["trace", "E", "S", "Q"], name, text, told, status, signals)


def traced(count: int) -> bytes:
    return b"".join(
        b"JOB %d A C F0 ENDED\n" % number for number in range(1, count + 1)
    ) + jobs_told(count)


def all_jobs(size: int) -> dict[str, bytes]:
    return {"E": COUNTS, "S": times(size, b"", ALONE, b""), "Q": SHOWN}


def last_show_wrong(size: int) -> bytes:
    return UNSHOWN * lines_in(size - len(UNKNOWN), UNSHOWN) + UNKNOWN


def show_told(size: int) -> bytes:
    return b"FILTER line %d UNKNOWNBLOCK\n" % (1 + lines_in(size - len(UNKNOWN), UNSHOWN))


ONE_JOB = b"JOB 1 A C F1 ENDED\n" + jobs_told(1)
FILTERS = [
    shows(
        "a filter of one long line", lambda size: filled(size, b"S"), b"FILTER line 1 BADLINE\n", 13
    ),
    shows(
        "a filter line of many parts",
        lambda size: times(size, b"SHOW", b" FAULTS", b"\n"),
        b"FILTER line 1 BADLINE\n",
        13,
    ),
    shows("empty lines of a filter", lambda size: filled(size, b"\n"), jobs_told(1)),
    shows("a fault in the last line of a filter", last_show_wrong, show_told, 13),
    shows("lines that show all jobs", lambda size: times(size, b"", SHOWN, b""), ONE_JOB),
    shows("lines that show no job", lambda size: times(size, b"", UNSHOWN, b""), jobs_told(1)),
    shows("lines of all parts", lambda size: times(size, b"", ALL_PARTS, b""), jobs_told(1)),
    Case(
        "a trace of all jobs",
        0,
        all_jobs,
        lambda size: traced(lines_in(size, ALONE)),
        ["trace", "E", "S", "Q", *MANY],
    ),
]

# changes to a new exchange after the first job, of two

TICKS = ALONE * 2
DECLARED = COUNTS.replace(b"VARIABLE N WIDTH 32;", b"VARIABLE N WIDTH 32;\n%s")
FIELDED = b"FORLOPP FILE F%07d SIZE 1; FIELD X%07d WIDTH 8 INIT 1;\n"


def change(name: str, old: Fixed, new: Fixed, told: Fixed, status: int = 0) -> Case:
    """Both exchange texts of a size, or one text for any size."""

    def files(size: int) -> dict[str, bytes]:
        return {"E": of_size(old, size), "S": TICKS, "X": of_size(new, size)}

    return Case(name, status, files, for_each_size(told), ["change", "E", "S", "X", "1"])


def of_size(text: Fixed, size: int) -> bytes:
    """A text of a size."""
    made = text(size) if callable(text) else text
    assert made is not None
    return made


def with_declared(size: int, piece: bytes) -> bytes:
    """COUNTS with as many declarations as there is room for, each with a number of its own."""
    head, tail = DECLARED.split(b"%s")
    count = (size - len(head) - len(tail)) // len(piece.replace(b"%07d", b"0000000"))
    return (
        head + b"".join(piece.replace(b"%07d", b"%07d" % number) for number in range(count)) + tail
    )


def more_variables(size: int) -> bytes:
    """COUNTS with as many variables."""
    return with_declared(size, VARIABLE)


def more_files(size: int) -> bytes:
    """COUNTS with as many files."""
    return with_declared(size, FIELDED)


def changed_told(told_of: Callable[[int], Iterable[bytes]]) -> Text:
    return (
        lambda size: b"CHANGE job 1\nJOBS 2\nVAR C.N 2\n" + b"".join(told_of(size)) + b"END DONE\n"
    )


def carried_told(size: int) -> Iterable[bytes]:
    count = with_declared(size, VARIABLE).count(b" WIDTH 8;")
    return (b"VAR C.V%07d 0\n" % number for number in range(count))


CHANGES = [
    change(
        "a new exchange of blanks",
        COUNTS,
        lambda size: COUNTS + b" " * (size - len(COUNTS)),
        changed_told(lambda size: ()),
    ),
    change(
        "a new exchange of digits",
        COUNTS,
        lambda size: filled(size, b"7"),
        b"NEWSOURCE line 1 BADNUMBER\n",
        2,
    ),
    change(
        "a new exchange too large",
        COUNTS,
        lambda size: filled(MOST_BYTES, b" ") + b" ",
        b"NEWSOURCE line 0 TOOLARGE\n",
        2,
    ),
    change(
        "a fault at the end of a new exchange",
        COUNTS,
        lambda size: (COUNTS + b" " * size)[: size - 1] + b";",
        None,
        2,
    ),
    change("variables that go over", more_variables, more_variables, changed_told(carried_told)),
    change("variables that are new", COUNTS, more_variables, changed_told(carried_told)),
    change("files that go over", more_files, more_files, changed_told(lambda size: ())),
    change("files that are missing", more_files, COUNTS, b"CHANGE FILE C.F0000000\n", 12),
]

# certificates

CERTIFIED = TAKES.replace(b"VARIABLE N WIDTH 32;", b"TEMPORARY T;") % b"EXIT;"
CERTIFICATE = (
    b"PLEX CERTIFICATE 2\nEXCHANGE signals 1 blocks 1 points 3 cells 0 entries 1 references 0\n"
)
FACT = b"FACT 0 %d T0 CONST %d\n"
LAST = b"END CERTIFICATE\n"
NO_JOBS = b"JOBS 0\nEND DONE\n"


def certificate(name: str, text: Text, refusal: Fixed) -> Case:
    """A certificate with what is told of it, behind CERTIFICATE; it is a right one where that is
    nothing.
    """

    def told(size: int) -> bytes:
        return b"CERTIFICATE " + of_size(refusal, size) if refusal else NO_JOBS

    def files(size: int) -> dict[str, bytes]:
        return {"E": CERTIFIED, "S": b"", "F": text(size)}

    return Case(name, 9 if refusal else 0, files, told, ["run", "E", "S", "--cert", "F"])


def point(number: int, values: Iterable[int]) -> bytes:
    """The facts of a point, whose temporary has these values."""
    others = b"FACT 0 %d DEPTH CONST 0\nFACT 0 %d AWAITS CONST 0\n" % (number, number)
    return b"".join(FACT % (number, value) for value in values) + others


def facts(size: int) -> int:
    """How many facts there is room for."""
    return (size - 400) // len(FACT % (0, 1000000))


def at_the_end(size: int, changed: bytes = b"") -> bytes:
    return CERTIFICATE + point(0, [0]) + point(1, range(facts(size))) + changed + LAST


def at_both(size: int, fewer: int = 0) -> bytes:
    half = facts(size) // 2
    return CERTIFICATE + point(0, range(half)) + point(1, range(half - fewer)) + LAST


def of_another(size: int) -> bytes:
    return at_the_end(size).replace(b"points 3", b"points 4")


CERTIFICATES = [
    certificate("facts where nothing follows", at_the_end, None),
    certificate("facts that flow", at_both, None),
    certificate(
        "the last fact is missing",
        lambda size: at_both(size, 1),
        lambda size: b"MISSING " + FACT % (1, facts(size) // 2 - 1),
    ),
    certificate(
        "strange facts",
        lambda size: at_the_end(size).replace(b" T0 ", b" T1 "),
        b"STRANGE FACT 0 0 T1 CONST 0\n",
    ),
    certificate(
        "a strange fact at the end",
        lambda size: at_the_end(size, b"FACT 0 2 T1 ANY\n"),
        b"STRANGE FACT 0 2 T1 ANY\n",
    ),
    certificate(
        "facts of another exchange", of_another, b"WRONGEXCHANGE 1 1 3 0 1 0 AND 1 1 4 0 1 0\n"
    ),
    certificate(
        "the last fact out of order",
        lambda size: at_the_end(size, FACT % (1, 0)),
        lambda size: b"line %d BADTEXT\n" % (facts(size) + 8),
    ),
    certificate(
        "a long number",
        lambda size: times(size, CERTIFICATE + FACT[:-3] % 0, b"7", b"\n" + LAST),
        b"line 3 BADTEXT\n",
    ),
    certificate("any bytes", lambda size: filled(size, bytes(range(256))), b"line 1 BADTEXT\n"),
    certificate(
        "any bytes behind two lines",
        lambda size: (CERTIFICATE + filled(size, bytes(range(256))))[:size],
        b"line 3 BADTEXT\n",
    ),
    certificate("lines of one byte", lambda size: filled(size, b"F\n"), b"line 1 BADTEXT\n"),
]


# loads, whose texts the program makes itself: an exchange of some 2,400 bytes, and a line for each
# call


def load_told(calls: int) -> bytes:
    failed = calls // 16
    return b"LOAD %d\nJOBS %d\nOUTS %d\nRELEASES %d\nLOST 0\nEND DONE\n" % (
        calls,
        20 * calls - 2 * failed,
        calls - failed,
        failed,
    )


def load(calls: int) -> Case:
    """Its size is the number of calls; the file stands for the texts that are made."""

    def files(size: int) -> dict[str, bytes]:
        lines = b"".join(b"AFTER 0 S1 B1 %d 0 0 NEW\n" % call for call in range(size))
        return {"M": b" " * 2400 + lines}

    return Case(f"a load of {calls} calls", 0, files, load_told, ["load", str(calls)], calls)


# exchanges whose jobs reach much: sixteen entries go by one direct signal to the same statements


def reaching(
    entries: int,
    statements: int,
    temporaries: int,
    declarations: str,
    statement: Callable[[int], str],
) -> bytes:
    """An exchange of so many entries, each of which reaches the given number of statements."""
    received = "".join(f" RECEIVE S{number};" for number in range(entries))
    text = "".join(f"SIGNAL S{number} SINGLE BUFFERED B DATA 1;\n" for number in range(entries))
    text += "SIGNAL D SINGLE DIRECT DATA 1;\n"
    text += (
        "BLOCK K;\nDECLARE;"
        + "".join(f" TEMPORARY T{number};" for number in range(temporaries))
        + declarations
    )
    text += f"\nSURVEY;{received} RECEIVE D; SEND D;\nPROGRAM;\n"
    text += (
        "".join(f"ENTER S{number} WITH T0;\nSEND D WITH T0;\n" for number in range(entries))
        + "ENTER D WITH T0;\n"
    )
    return (
        text + "".join(statement(number) + "\n" for number in range(statements)) + "END BLOCK;\n"
    ).encode()


def through_statements(size: int) -> dict[str, bytes]:
    return {"E": reaching(16, size, 24, "", lambda number: "T0 = T1;"), "S": b""}


def through_variables(size: int) -> dict[str, bytes]:
    variables = "".join(f" VARIABLE V{number} WIDTH 32;" for number in range(size))
    return {"E": reaching(16, size, 1, variables, lambda number: f"T0 = V{number};"), "S": b""}


RUN = ["run", "E", "S"]
ANALYSIS = [
    Case(
        "entries through many statements, run",
        0,
        through_statements,
        lambda size: NO_JOBS,
        RUN,
        19000,
    ),
    Case(
        "entries through many statements, one worker",
        0,
        through_statements,
        lambda size: NO_JOBS,
        [*RUN, "--workers", "1"],
        19000,
    ),
    Case(
        "entries through many statements, analysed",
        0,
        through_statements,
        lambda size: None,
        ["analyse", "E"],
        19000,
    ),
    Case(
        "entries that read many variables, run", 0, through_variables, lambda size: None, RUN, 10000
    ),
    Case(
        "entries that read many variables, analysed",
        0,
        through_variables,
        lambda size: None,
        ["analyse", "E"],
        10000,
    ),
]
GROUPS = {
    "exchanges": EXCHANGES,
    "dense": DENSE,
    "signals": SIGNALS,
    "tables": TABLES,
    "filters": FILTERS,
    "changes": CHANGES,
    "certificates": CERTIFICATES,
    "loads": [load(10000)],
    "analysis": ANALYSIS,
}
