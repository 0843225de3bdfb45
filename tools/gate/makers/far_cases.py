"""Cases of `test_hostile.py` that a fault meets only far from the beginning: a late line, many
jobs, many calls; and those of the programs beside plex.

Each `Row` has the name of a case, the status, what must be written, the words, the files, where
the output goes, and what must stand on the standard error. What must be written follows from how
the files are made.
"""
from typing import Dict, Iterator, List, NamedTuple, Optional, Tuple

LINES = 200  # of files with a fault in the last one
JOBS = 5000
VALUES = 3000
CALLS = (15, 16, 17, 31, 32, 100, 1000, 10_000)
COUNTER = """SIGNAL TICK SINGLE BUFFERED B DATA 1;
SIGNAL TOCK OUTSIDE DATA 1;
BLOCK COUNTER;
DECLARE; VARIABLE N WIDTH 32; TEMPORARY T;
SURVEY; RECEIVE TICK; SEND TOCK;
PROGRAM;
ENTER TICK WITH T;
N = N + T;
IF T MOD 7 = 0 THEN SEND TOCK WITH T; FI;
EXIT;
END BLOCK;
"""
TICK = "AFTER 0 TICK COUNTER {} NONE\n"
PERIOD = "EVERY 1 FROM 0 TIMES 1 TICK COUNTER 1 NONE\n"
SHOW = "SHOW BLOCK COUNTER\n"
TIMED, TRACED = ("timed", "E", "S", "T"), ("trace", "E", "S", "Q")
FULL, CLOSED, GONE = ">/dev/full", ">&-", "gone"
UNWRITTEN = {
    FULL: "no space is left",
    CLOSED: "it is closed, or its device failed",
    GONE: "nobody reads the pipe any more",
}


class Row(NamedTuple):
    """A case: None for what stands on the standard error is what belongs to the text."""

    name: str
    status: int
    text: str
    words: Tuple[str, ...]
    files: Dict[str, str] = {}
    output: Optional[str] = None
    error: Optional[str] = None


def late_lines() -> Iterator[Row]:
    """Faults in a last line, behind many that are right."""
    ticks, periods = TICK.format(1) * (LINES - 1), PERIOD * (LINES - 1)
    shows = SHOW * (LINES - 1)
    files = {"E": COUNTER, "S": ticks, "T": periods, "Q": shows}
    wrong = (
        ("S", "SIGNALS", ticks, 3, ("run", "E", "S")),
        ("T", "TABLE", periods, 11, TIMED),
        ("Q", "FILTER", shows, 13, TRACED),
    )
    for name, first, before, status, words in wrong:
        end = " NONE\n" if name != "Q" else "\n"
        for rule, last in (
            ("BADLINE", "AFTER\n"),
            ("UNKNOWNBLOCK", before.splitlines()[0].replace("COUNTER", "COUNT") + "\n"),
            ("WRONGDATA", before.splitlines()[0].replace(end[:-1], " 1" + end[:-1]) + "\n"),
        ):
            if name == "Q" and rule == "WRONGDATA":
                continue
            told = f"{first} line {LINES} {rule}\n"
            content = {**files, name: before + last}
            yield Row(f"{rule} in line {LINES} of {name}", status, told, words, content)
    late = COUNTER.replace("N = N + T;\n", "N = N + T;\n" * LINES + "N = M;\n")
    words = ("run", "E", "S")
    told = f"SOURCE line {8 + LINES} N6\n"
    yield Row(f"N6 in line {8 + LINES} of E", 2, told, words, {"E": late, "S": ticks})


def report(jobs: int) -> str:
    """The report of a run of so many jobs, each of which has its number as its value."""
    outs = "".join(f"OUT {job} TOCK {job} F0\n" for job in range(7, jobs + 1, 7))
    return f"{outs}JOBS {jobs}\nVAR COUNTER.N {jobs * (jobs + 1) // 2}\nEND DONE\n"


def trace(jobs: int, first: int) -> str:
    """The lines of a trace of these jobs from one of them on."""
    lines: List[str] = []
    for job in range(first, jobs + 1):
        lines.append(f"JOB {job} TICK COUNTER {job} F0 ENDED\n")
        if job % 7 == 0:
            lines.append(f"SEND {job} TOCK OUTSIDE {job} F0\n")
    return "".join(lines)


def many_jobs() -> Iterator[Row]:
    """Runs of thousands of jobs."""
    ticks = "".join(TICK.format(job) for job in range(1, JOBS + 1))
    files = {"E": COUNTER, "S": ticks, "T": "", "Q": "SHOW\n"}
    for words in (("run", "E", "S"), ("single", "E", "S"), TIMED):
        yield Row(f"{words[0]} of {JOBS} jobs", 0, report(JOBS), words, files)
    told = trace(JOBS, 1) + report(JOBS)
    yield Row(f"trace of {JOBS} jobs", 0, told, TRACED, files)
    last = {**files, "Q": f"SHOW FROM {JOBS - 10}\n"}
    told = trace(JOBS, JOBS - 10) + report(JOBS)
    yield Row(f"trace of the last of {JOBS} jobs", 0, told, TRACED, last)
    cut = JOBS - 1000
    limited = report(cut).replace("END DONE", "END LIMIT")
    words = ("run", "E", "S", "--jobs", str(cut))
    yield Row(f"the first {cut} of {JOBS} jobs", 5, limited, words, files)
    told = report(JOBS)
    place = told.index(f"OUT {next(job for job in range(cut + 1, JOBS) if job % 7 == 0)} ")
    told = f"{told[:place]}CHANGE job {cut}\n{told[place:]}"
    words = ("change", "E", "S", "E", str(cut))
    yield Row(f"a change after {cut} of {JOBS} jobs", 0, told, words, files)


def many_values() -> Iterator[Row]:
    """A report of thousands of variables and records: each variable has its number as its value,
    and each record its own and one more.
    """
    declared = "".join(f"VARIABLE V{number} WIDTH 32;\n" for number in range(VALUES))
    given = "".join(f"V{number} = {number};\n" for number in range(VALUES))
    text = f"""SIGNAL GO SINGLE BUFFERED B DATA 0;
BLOCK K;
DECLARE; TEMPORARY T;
{declared}FILE F SIZE {VALUES}; FIELD X WIDTH 32; FIELD Y WIDTH 32;
SURVEY; RECEIVE GO;
PROGRAM;
ENTER GO;
{given}ON T FROM 0 UPTO {VALUES - 1} DO X(T) = T; Y(T) = T + 1; NO;
END BLOCK;
"""
    told = "JOBS 1\n" + "".join(f"VAR K.V{number} {number}\n" for number in range(VALUES))
    for number in range(VALUES):
        told += f"REC K.F({number}).X {number}\n" if number else ""
        told += f"REC K.F({number}).Y {number + 1}\n"
    files = {"E": text, "S": "AFTER 0 GO K NONE\n"}
    for words in (("run", "E", "S"), ("single", "E", "S"), ("run", "E", "S", "--workers", "1")):
        name = f"{' '.join(words)} of {VALUES} values"
        yield Row(name, 0, f"{told}END DONE\n", words, files)


def loads() -> Iterator[Row]:
    """Loads: each call is twenty jobs and one signal that leaves; each sixteenth one faults, which
    has two jobs fewer, and no such signal.
    """
    for calls in CALLS:
        failed = calls // 16
        counts = f"JOBS {20 * calls - 2 * failed}\nOUTS {calls - failed}\nRELEASES {failed}\n"
        told = f"LOAD {calls}\n{counts}LOST 0\nEND DONE\n"
        yield Row(f"a load of {calls} calls", 0, told, ("load", str(calls)))


def cases() -> Iterator[Row]:
    """All cases of plex."""
    yield from late_lines()
    yield from many_jobs()
    yield from many_values()
    yield from loads()


# the programs beside plex


def outputs(name: str, words: Tuple[str, ...], files: Dict[str, str]) -> Iterator[Row]:
    """Outputs to which nothing can be written."""
    for output, reason in UNWRITTEN.items():
        error = f"{name}: the output could not be written whole: {reason}\n"
        yield Row(f"{name} to {output}", 7, "", words, files, output, error)


def merges() -> Iterator[Row]:
    """Cases of plex-merge, whose words have no command."""
    name, words = "plex-merge", ("E", "S", "T")
    files = {"E": COUNTER, "S": TICK.format(5) * LINES, "T": PERIOD * LINES}
    merged = TICK.format(5) * LINES + TICK.format(1) * LINES
    yield Row("a merge of many lines", 0, merged, words, files)
    yield from outputs(name, words, files)
    yield from outputs(name, ("E",), files)
    yield from outputs(name, ("E", "S", "S"), files)
    late = {
        "S": ("SIGNALS", 3, files["S"] + "AFTER 0 TICK COUNTER NONE\n"),
        "T": ("TABLE", 11, files["T"] + PERIOD.replace(" 1 NONE", " NONE")),
    }
    for file, (first, status, text) in late.items():
        told = f"{first} line {LINES + 1} WRONGDATA\n"
        yield Row(f"merge of a late fault in {file}", status, told, words, {**files, file: text})
    for place, missing in enumerate(words):
        given = tuple("missing" if one == missing else one for one in words)
        error = f"{name}: missing: no such file\n"
        yield Row(f"merge without {missing}", 6, "", given, files, None, error)
        given = tuple("/dev/zero" if one == missing else one for one in words)
        status, first = ((2, "SOURCE"), (3, "SIGNALS"), (11, "TABLE"))[place]
        told = f"{first} line 0 TOOLARGE\n"
        yield Row(f"merge of {missing} without an end", status, told, given, files)
    empty = ("/dev/null",) * 3
    yield Row("merge of empty files", 0, "", empty)


def conflicts() -> Iterator[Row]:
    """Cases of plex-conflicts."""
    yield from outputs("plex-conflicts", ("E",), {"E": COUNTER})
    yield from outputs("plex-conflicts", ("E", "0", "0"), {"E": COUNTER})
    error = "plex-conflicts: missing: no such file\n"
    yield Row("conflicts of no file", 6, "", ("missing",), {}, None, error)
