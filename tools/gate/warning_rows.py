"""What plex-check must find odd, for each word a text that is odd and one that is not, and how much
of it `--most` tells. For `test_compare_checks.py`.

`wrong(row, folder)` gives what is told otherwise of a row, or None.
"""
import contextlib
import io
import os
import pathlib
from typing import List, NamedTuple, Optional, Sequence, Tuple

from plextools.commands import check

TEXT = """SIGNAL GO SINGLE BUFFERED B DATA 0;
SIGNAL ASK COMBINED DATA 0 ANSWER TOLD DATA 0;
BLOCK A;
DECLARE; VARIABLE N WIDTH 8; TEMPORARY T; FORLOPP FILE F SIZE 2; FIELD X WIDTH 8;
SURVEY; RECEIVE GO; SEND ASK; RECEIVE ASK;
PROGRAM;
ENTER GO;
SEIZE T IN F ELSE GOTO L;
X(T) = N;
FREE T IN F;
L)
SEND ASK;
RETRIEVE TOLD;
EXIT;
ENTER ASK;
RETURN TOLD;
END BLOCK;
"""
MANY = TEXT.replace("TEMPORARY T;", "TEMPORARY T; TEMPORARY P; TEMPORARY Q; TEMPORARY R;")
TONES = (
    TEXT.replace("BLOCK A;", "SIGNAL R OUTSIDE DATA 0; SIGNAL Q OUTSIDE DATA 0; BLOCK A;")
    .replace("RECEIVE ASK;", "RECEIVE ASK; SEND R; SEND Q;")
    .replace("FREE T IN F;\nL)", "FREE T IN F; IF N = 0 GOTO L;\nSEND R;\nL)\nSEND Q;")
)
SEARCH = TEXT.replace(
    "FIELD X WIDTH 8;", "FIELD X WIDTH 8; FILE H SIZE 2; FIELD Y WIDTH 8;"
).replace("FREE T IN F;", "FREE T IN F; FOR FIRST T IN H WHERE Y > 254 GOTO L;")
FINE, ODD = 0, 1


class Row(NamedTuple):
    """A text, words, the status, the lines, and what is told of those that are left out."""

    name: str
    text: str
    status: int
    lines: Sequence[str] = ()
    words: Tuple[str, ...] = ()
    left_out: str = ""
    signals: Optional[str] = None


def odd(name: str, old: str, new: str, line: str) -> Row:
    """The text with a part of it changed, of which one line is told."""
    assert TEXT.count(old) == 1, old
    return Row(name, TEXT.replace(old, new), ODD, [f"E:{line}"])


def fine(name: str, old: str, new: str) -> Row:
    assert TEXT.count(old) == 1, old
    return Row(name, TEXT.replace(old, new), FINE)


UNUSED = [
    f"E:4:{place}: UNUSED: no statement uses the temporary {name}"
    for place, name in ((53, "P"), (66, "Q"), (79, "R"))
]
ROWS = [
    Row("nothing is odd", TEXT, FINE),
    odd(
        "an answer that nobody returns",
        "RETURN TOLD;",
        "EXIT;",
        "2:8: UNUSED: no statement returns TOLD, the answer of ASK",
    ),
    odd(
        "an entry that runs on",
        "EXIT;\nENTER ASK;",
        "ENTER ASK;",
        "14:1: RUNSON: the entry of GO, line 7, runs on into this one; "
        "EXIT before it would end the job",
    ),
    fine(
        "an entry that ends by a GOTO",
        "EXIT;\nENTER ASK;\nRETURN",
        "GOTO M;\nENTER ASK;\nM)\nRETURN",
    ),
    odd(
        "records that are never freed",
        "FREE T IN F;\n",
        "",
        "4:56: NOFREE: SEIZE takes records of F on line 8, and no FREE gives one back",
    ),
    odd(
        "a label that is for nobody",
        "L)\n",
        "L)\nM)\n",
        "12:1: UNUSED: no GOTO goes to the label M",
    ),
    odd(
        "a variable that is for nobody",
        "VARIABLE N WIDTH 8;",
        "VARIABLE N WIDTH 8; VARIABLE M WIDTH 8;",
        "4:39: UNUSED: no statement uses the variable M",
    ),
    odd(
        "a field that is for nobody",
        "FIELD X WIDTH 8;",
        "FIELD X WIDTH 8; FIELD Y WIDTH 8;",
        "4:89: UNUSED: no statement uses the field Y",
    ),
    odd(
        "a file that is for nobody",
        "FIELD X WIDTH 8;",
        "FIELD X WIDTH 8; FILE G SIZE 1; FIELD Y WIDTH 8;",
        "4:88: UNUSED: no statement uses the file G",
    ),
    odd(
        "a signal that is for nobody",
        "BLOCK A;",
        "SIGNAL HO SINGLE DIRECT DATA 0; BLOCK A;",
        "3:8: UNUSED: no block receives or sends the signal HO",
    ),
    odd(
        "a statement in a comment",
        "X(T) = N;",
        "X(T) = N; ! first N = 1;",
        "9:11: SWALLOWED: the comment goes on to the end of its line, and N = 1; is a part of it",
    ),
    fine("a comment of words", "X(T) = N;", "X(T) = N; ! first, the number"),
    Row(
        "a name that is nearly a keyword",
        TEXT.replace("TEMPORARY T;", "TEMPORARY T; TEMPORARY RETRUN;"),
        ODD,
        [
            "E:4:53: KEYWORD: RETRUN is a name here; RETURN is the keyword",
            "E:4:53: UNUSED: no statement uses the temporary RETRUN",
        ],
    ),
    odd(
        "a statement that nothing reaches",
        "EXIT;\nENTER ASK;",
        "EXIT;\nN = 1;\nEXIT;\nENTER ASK;",
        "15:1: UNREACHED: nothing reaches this behind the EXIT of line 14",
    ),
    odd(
        "a statement behind branches that all end",
        "EXIT;\nENTER ASK;",
        "IF N = 0 THEN EXIT; ELSE GOTO L; FI;\nN = 1;\nEXIT;\nENTER ASK;",
        "15:1: UNREACHED: nothing reaches this behind the IF of line 14",
    ),
    fine("an EXIT that nothing reaches", "EXIT;\nENTER ASK;", "EXIT;\nEXIT;\nENTER ASK;"),
    Row(
        "a SEND that runs on into a label with another",
        TONES,
        ODD,
        [
            "E:12:1: RUNSINTO: the way that sends R on line 11 runs on to here, and sends Q too; "
            "EXIT before it would end the job"
        ],
    ),
    Row(
        "a SEND before a label with another",
        TONES.replace("SEND R;\nL)", "SEND R;\nEXIT;\nL)"),
        FINE,
    ),
    odd(
        "a loop that no way leaves",
        "EXIT;\nENTER ASK;",
        "GOTO L;\nENTER ASK;",
        "14:1: ENDLESS: no way leaves the loop from L to here but the fault BUDGET",
    ),
    fine("a loop that a way leaves", "EXIT;\nENTER", "IF N = 0 GOTO L;\nEXIT;\nENTER"),
    odd(
        "a constant that is too wide",
        "X(T) = N;",
        "X(T) = N; N = 256;",
        "9:15: TOOWIDE: N gets 256, and 255 is the most that fits WIDTH 8",
    ),
    fine("a constant that fits", "X(T) = N;", "X(T) = N; N = 255;"),
    odd(
        "a record that is not there",
        "X(T) = N;",
        "X(T) = N; T = 2; X(T) = 1;",
        "9:20: NORECORD: T is 2, and 1 is the last record of F",
    ),
    fine("the last record", "X(T) = N;", "X(T) = N; T = 1; X(T) = 1;"),
    odd(
        "a loop that goes up to a record that is not there",
        "X(T) = N;",
        "ON T FROM 0 UPTO 2 DO X(T) = N; NO;",
        "9:25: NORECORD: T goes up to 2, and 1 is the last record of F",
    ),
    fine(
        "a loop that looks at its record number",
        "X(T) = N;",
        "ON T FROM 0 UPTO 2 DO IF T < 2 THEN X(T) = N; FI; NO;",
    ),
    odd(
        "a division by 0",
        "X(T) = N;",
        "X(T) = N / 0;",
        "9:12: BYZERO: a division by 0 is the fault DIVIDE",
    ),
    fine("a fault on purpose", "X(T) = N;", "X(T) = N; X(T) = 1 / 0;"),
    odd(
        "a relation that never holds",
        "X(T) = N;",
        "X(T) = N; IF N > 255 THEN N = 0; FI;",
        "9:14: CONSTANT: N > 255 is never true",
    ),
    odd(
        "a relation that always holds",
        "X(T) = N;",
        "X(T) = N; IF N = 1 OR N <= 255 THEN N = 0; FI;",
        "9:23: CONSTANT: N <= 255 is always true",
    ),
    fine("a relation", "X(T) = N;", "X(T) = N; IF N > 254 THEN N = 0; FI;"),
    odd(
        "a loop without a turn",
        "X(T) = N;",
        "X(T) = N; ON T FROM 3 UPTO 2 DO NO;",
        "9:11: NOTURN: the loop has no turn: it goes from 3 up to 2",
    ),
    fine("a loop of one turn", "X(T) = N;", "X(T) = N; ON T FROM 2 UPTO 2 DO NO;"),
    Row(
        "a search that finds nothing",
        SEARCH.replace("254", "255"),
        ODD,
        ["E:10:37: CONSTANT: the relation of Y is never true"],
    ),
    Row("a search", SEARCH, FINE),
    odd(
        "a value that nothing reads",
        "FREE T IN F;",
        "FREE T IN F; T = N;",
        "10:14: NEVERREAD: nothing reads what T gets here",
    ),
    fine("a value that is read", "FREE T IN F;", "FREE T IN F; T = N; N = T;"),
    odd(
        "a record that a way does not free",
        "X(T) = N;",
        "IF N = 0 GOTO L; X(T) = N;",
        "8:1: LOST: the record of F is not freed on the way to line 14, and its number is lost",
    ),
    fine(
        "a record that each way frees",
        "X(T) = N;",
        "IF N = 0 THEN FREE T IN F; GOTO L; FI; X(T) = N;",
    ),
    fine("a record whose number is handed on", "X(T) = N;", "X(T) = T; IF N = 0 GOTO L;"),
    fine("a record whose number is kept", "X(T) = N;", "N = T; IF N = 0 GOTO L; X(T) = N;"),
    Row("all that is odd", MANY, ODD, UNUSED),
    Row("as many as there are", MANY, ODD, UNUSED, ("--most", "3")),
    Row(
        "one fewer",
        MANY,
        ODD,
        UNUSED[:2],
        ("--most", "2"),
        "plex-check: E: 1 more of UNUSED are not told; --most N tells more\n",
    ),
    Row("one word switched off", MANY, FINE, [], ("--no", "UNUSED")),
    Row(
        "a line that names one with AS",
        TEXT,
        ODD,
        ["S:3:17: ODDAS: line 2 ends in AS itself; name the line that ends in NEW"],
        signals="AFTER 0 GO A NEW\nAFTER 0 GO A AS 1\nAFTER 0 GO A AS 2\n",
    ),
    Row(
        "lines that name one with NEW",
        TEXT,
        FINE,
        signals="AFTER 0 GO A NEW\nAFTER 0 GO A AS 1\nAFTER 0 GO A AS 1\n",
    ),
]


def told(row: Row, folder: pathlib.Path) -> Tuple[int, List[str], str]:
    """The status, the lines, and what is told of others."""
    files = {"E": row.text, **({} if row.signals is None else {"S": row.signals})}
    for name, text in files.items():
        (folder / name).write_text(text)
    here, left_out = os.getcwd(), io.StringIO()
    os.chdir(folder)
    try:
        with contextlib.redirect_stderr(left_out):
            report = check.checked(["--werror", *row.words, *files])
    finally:
        os.chdir(here)
    return report.status, [line.rstrip("\n") for line in report.lines], left_out.getvalue()


def wrong(row: Row, folder: pathlib.Path) -> Optional[str]:
    """What is told otherwise of a row, or None."""
    got, wanted = told(row, folder), (row.status, list(row.lines), row.left_out)
    return None if got == wanted else f"{row.name}: {got} and not {wanted}"
