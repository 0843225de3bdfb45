"""Rows of plex-check: texts, and line by line what must be told of them.

`rows()` gives of each row the files, the options of plex-check, its status, and the lines that it
must write.
"""
from __future__ import annotations

from typing import Iterator, NamedTuple

# The parts of TEXT in braces are `declared`, `survey` and `program`; the last one is EXIT; where no
# row says otherwise.
TEXT = """\
SIGNAL SETUP SINGLE BUFFERED B DATA 2;
SIGNAL GO SINGLE DIRECT DATA 0;
SIGNAL ASK COMBINED DATA 1 ANSWER TOLD DATA 1;
SIGNAL RING OUTSIDE DATA 1;
BLOCK DESK;
DECLARE; VARIABLE NOW WIDTH 8; TEMPORARY P; TEMPORARY T; {declared}
FILE BOOK SIZE 4; FIELD NUMBER WIDTH 16;
FORLOPP FILE LINE SIZE 4; FIELD SUM WIDTH 8;
SURVEY; RECEIVE SETUP; RECEIVE GO; RECEIVE ASK; SEND SETUP; SEND GO; SEND ASK; SEND RING; {survey}
PROGRAM;
ENTER SETUP WITH P, T; SEIZE P IN LINE ELSE GOTO FULL; SUM(P) = NOW; NUMBER(P) = 1; FREE P IN LINE;
SEND ASK WITH 1; RETRIEVE TOLD WITH T;
FULL) SEND GO;
{program}
ENTER GO; SEND RING WITH T; SEND SETUP WITH 1, 2; EXIT;
ENTER ASK WITH T; RETURN TOLD WITH 2;
END BLOCK;
"""

# What is put into TEXT, the status, and the lines that are told.
TEXTS: list[tuple[dict[str, str], int, list[str]]] = [
    # nothing wrong or odd
    ({}, 0, []),
    # a statement without an end
    (
        {"program": "NOW = 1\nGOTO FULL;"},
        2,
        [
            "E:15:1: UNEXPECTED: found GOTO, wanted ;: the statement of line 14 has no end",
        ],
    ),
    # a block without an end
    (
        {"program": "IF NOW = 1 THEN NOW = 2;"},
        2,
        [
            "E:15:1: UNEXPECTED: found ENTER, wanted a statement, ELSE or FI: the IF of line 14 "
            "has no FI",
            "E:15:1: RUNSON: the entry of SETUP, line 11, runs on into this one; EXIT before it "
            "would end the job",
        ],
    ),
    # values
    (
        {"program": "SEND SETUP WITH 1;"},
        2,
        [
            "E:14:1: N11: SETUP carries 2 values, 1 is given",
            "E:15:1: RUNSON: the entry of SETUP, line 11, runs on into this one; EXIT before it "
            "would end the job",
        ],
    ),
    # a name that is misspelled
    (
        {"program": "NOW = NOWW;"},
        2,
        [
            "E:14:7: N6: NOWW is not declared in block DESK; NOW is",
            "E:15:1: RUNSON: the entry of SETUP, line 11, runs on into this one; EXIT before it "
            "would end the job",
        ],
    ),
    # a field without a pointer
    (
        {"program": "NOW = NUMBER;"},
        2,
        [
            "E:14:7: N6: NUMBER is a field, declared on line 7, and a variable or a temporary is "
            "wanted here; "
            "write NUMBER with a pointer in brackets",
            "E:15:1: RUNSON: the entry of SETUP, line 11, runs on into this one; EXIT before it "
            "would end the job",
        ],
    ),
    # a variable for a pointer
    (
        {"program": "NOW = NUMBER(NOW);"},
        2,
        [
            "E:14:14: N6: NOW is a variable, declared on line 6, and a temporary is wanted here",
            "E:15:1: RUNSON: the entry of SETUP, line 11, runs on into this one; EXIT before it "
            "would end the job",
        ],
    ),
    # a number for a pointer
    (
        {"program": "NOW = NUMBER(3);"},
        2,
        [
            "E:14:14: UNEXPECTED: found 3, wanted the name of a temporary: a pointer is a "
            "temporary: put the "
            "number into one before",
            "E:15:1: RUNSON: the entry of SETUP, line 11, runs on into this one; EXIT before it "
            "would end the job",
        ],
    ),
    # a minus sign
    (
        {"program": "NOW = -17;"},
        2,
        [
            "E:14:7: UNEXPECTED: found -, wanted a number, a name, ( or REFERENCE: a minus sign "
            "stands between "
            "two operands: write 0 - 1 for -1",
            "E:15:1: RUNSON: the entry of SETUP, line 11, runs on into this one; EXIT before it "
            "would end the job",
        ],
    ),
    # a condition in brackets
    (
        {"program": "IF (NOW = 1) GOTO FULL;"},
        2,
        [
            "E:14:9: UNEXPECTED: found =, wanted ) or an operator: a condition has no brackets "
            "around it",
        ],
    ),
    # small letters
    (
        {"program": "NOW = now;"},
        2,
        [
            "E:14:7: BADBYTE: now has small letters: words are in capital letters",
            "E:15:1: RUNSON: the entry of SETUP, line 11, runs on into this one; EXIT before it "
            "would end the job",
        ],
    ),
    # a name with a line below
    (
        {"program": "MY_NAME = 1;"},
        2,
        [
            "E:14:3: BADBYTE: MY_NAME: a name has capital letters and digits alone, and no _",
            "E:14:1: N6: MY_NAME is not declared in block DESK",
            "E:15:1: RUNSON: the entry of SETUP, line 11, runs on into this one; EXIT before it "
            "would end the job",
        ],
    ),
    # a string
    (
        {"program": 'SEND RING WITH "A";'},
        2,
        [
            'E:14:16: BADBYTE: "A": there are no strings; send the number of a text',
            "E:15:1: RUNSON: the entry of SETUP, line 11, runs on into this one; EXIT before it "
            "would end the job",
        ],
    ),
    # :=
    (
        {"program": "NOW := 1;"},
        2,
        [
            "E:14:5: BADBYTE: : begins no word, number or mark; = assigns, and ) ends a label",
            "E:15:1: RUNSON: the entry of SETUP, line 11, runs on into this one; EXIT before it "
            "would end the job",
        ],
    ),
    # => for >=
    (
        {"program": "IF NOW => 1 GOTO FULL;"},
        2,
        [
            "E:14:9: UNEXPECTED: found >, wanted a number, a name, ( or REFERENCE: write >=",
        ],
    ),
    # != for <>
    (
        {"program": "IF NOW != 1\nGOTO FULL;"},
        2,
        [
            "E:15:1: UNEXPECTED: found GOTO, wanted a relation, as = or <: the != of line 14 "
            "begins a comment; write <>",
        ],
    ),
    # a keyword as a name
    (
        {"declared": "VARIABLE END WIDTH 8;"},
        2,
        [
            "E:6:67: UNEXPECTED: found END, wanted a name: END is a keyword, and no name",
        ],
    ),
    # a keyword misspelled
    (
        {"program": "RETREIVE TOLD WITH T;"},
        2,
        [
            "E:14:10: UNEXPECTED: found TOLD, wanted =, ( or ): RETREIVE is no keyword; RETRIEVE "
            "is",
            "E:15:1: RUNSON: the entry of SETUP, line 11, runs on into this one; EXIT before it "
            "would end the job",
        ],
    ),
    # too deep
    (
        {"program": "NOW = (((((((1)))))));"},
        2,
        [
            "E:14:13: TOODEEP: this goes too deep: at most 6 brackets in each other are allowed",
            "E:15:1: RUNSON: the entry of SETUP, line 11, runs on into this one; EXIT before it "
            "would end the job",
        ],
    ),
    # a label in a statement
    (
        {"program": "IF NOW = 1 THEN L) NOW = 2; FI;"},
        2,
        [
            "E:14:18: UNEXPECTED: found ), wanted = or (: a label stands in no other statement, "
            "and the IF of "
            "line 14 is open",
            "E:15:1: RUNSON: the entry of SETUP, line 11, runs on into this one; EXIT before it "
            "would end the job",
        ],
    ),
    # FI too much
    (
        {"program": "FI;"},
        2,
        [
            "E:14:1: UNEXPECTED: found FI, wanted a statement, a label, ENTER or END BLOCK: no IF "
            "is open here",
        ],
    ),
    # CASE without OTHERWISE
    (
        {"program": "CASE NOW IS WHEN 1 DO EXIT; ESAC;"},
        2,
        [
            "E:14:29: UNEXPECTED: found ESAC, wanted a statement, WHEN or OTHERWISE: the CASE of "
            "line 14 has no OTHERWISE",
            "E:15:1: RUNSON: the entry of SETUP, line 11, runs on into this one; EXIT before it "
            "would end the job",
        ],
    ),
    # no THEN
    (
        {"program": "IF NOW = 1 NOW = 2; FI;"},
        2,
        [
            "E:14:12: UNEXPECTED: found NOW, wanted THEN or GOTO: the IF of line 14 has neither",
            "E:15:1: RUNSON: the entry of SETUP, line 11, runs on into this one; EXIT before it "
            "would end the job",
        ],
    ),
    # SEIZE without ELSE
    (
        {"program": "SEIZE P IN LINE; EXIT;"},
        2,
        [
            "E:14:16: UNEXPECTED: found ;, wanted ELSE: SEIZE ends in ELSE GOTO and a label, for "
            "when no record is free",
        ],
    ),
    # a declaration in the survey
    (
        {"survey": "VARIABLE V WIDTH 8;"},
        2,
        [
            "E:9:91: UNEXPECTED: found VARIABLE, wanted RECEIVE, SEND or PROGRAM: declarations "
            "stand between "
            "DECLARE; and SURVEY;",
        ],
    ),
    # REFERENCE behind WITH
    (
        {"program": "SEND SETUP WITH 1, 2 REFERENCE DESK;"},
        2,
        [
            "E:14:22: UNEXPECTED: found REFERENCE, wanted ;: REFERENCE stands before WITH, in a "
            "SEND and a TRANSFER alone",
            "E:15:1: RUNSON: the entry of SETUP, line 11, runs on into this one; EXIT before it "
            "would end the job",
        ],
    ),
    # a combined signal alone
    (
        {"program": "SEND ASK WITH 1; EXIT;"},
        2,
        [
            "E:14:1: N12: RETRIEVE TOLD stands directly behind SEND ASK; here follows EXIT",
        ],
    ),
    # a RETRIEVE alone
    (
        {"program": "RETRIEVE TOLD WITH T; EXIT;"},
        2,
        [
            "E:14:1: N12: RETRIEVE TOLD stands directly behind SEND ASK, and here it does not",
        ],
    ),
    # declared twice
    (
        {"declared": "FILE NOW SIZE 0;"},
        2,
        [
            "E:6:63: N1: NOW is declared on line 6 already, as a variable",
            "E:6:72: N4: SIZE 0 is not 1 to 65,535",
        ],
    ),
    # widths
    (
        {"declared": "VARIABLE V WIDTH 33; VARIABLE W WIDTH 8 INIT 256;"},
        2,
        [
            "E:6:75: N2: WIDTH 33 is not 1 to 32",
            "E:6:103: N3: INIT 256 does not fit WIDTH 8: 255 is the largest",
            "E:6:67: UNUSED: no statement uses the variable V",
            "E:6:88: UNUSED: no statement uses the variable W",
        ],
    ),
    # files
    (
        {
            "program": "FREE P IN BOOK; FOR FIRST P IN LINE WHERE SUM = 1 GOTO FULL;\n"
            "FOR FIRST P IN BOOK WHERE SUM = 1 GOTO FUL;"
        },
        2,
        [
            "E:14:11: N9: FREE gives back a record of a FORLOPP FILE; BOOK is a FILE",
            "E:14:32: N8: FOR FIRST searches a FILE that is no FORLOPP FILE; LINE is a FORLOPP "
            "FILE",
            "E:15:27: N8: SUM is no field of BOOK: its fields are NUMBER",
            "E:15:40: N7: no label FUL stands in block DESK; FULL does",
            "E:16:1: RUNSON: the entry of SETUP, line 11, runs on into this one; EXIT before it "
            "would end the job",
        ],
    ),
    # kinds of signals
    (
        {"program": "TRANSFER SETUP; SEND RING REFERENCE DESK WITH 1; SEND GO NEW FORLOPP;"},
        2,
        [
            "E:14:10: N10: TRANSFER takes a direct signal; SETUP of line 1 is a buffered one",
            "E:14:22: N10: RING leaves the exchange: an outside signal has no REFERENCE",
            "E:14:50: N14: NEW FORLOPP stands with a buffered signal alone; GO is a direct one",
        ],
    ),
    # a WHEN twice
    (
        {"program": "CASE NOW IS WHEN 1 DO WHEN 01 DO OTHERWISE DO ESAC; EXIT;"},
        2,
        [
            "E:14:28: N15: WHEN 1 stands twice in the CASE of line 14",
        ],
    ),
    # references
    (
        {"program": "NOW = REFERENCE DEKS; SEND SETUP REFERENCE BOOK WITH 1, 2; EXIT;"},
        2,
        [
            "E:14:17: N17: DEKS is no block of this text; DESK is",
            "E:14:23: NOTRECEIVED: SEND SETUP goes to BOOK, which is no block of this text; DESK "
            "does",
        ],
    ),
    # an entry that runs on
    (
        {"program": "NOW = 2; ENTER SETUP WITH P, T; NOW = 1;"},
        2,
        [
            "E:14:10: TWOENTERS: block DESK enters SETUP on line 11 already: one ENTER, and a "
            "label to go to",
            "E:14:10: RUNSON: the entry of SETUP, line 11, runs on into this one; EXIT before it "
            "would end the job",
            "E:15:1: RUNSON: the entry of SETUP, line 14, runs on into this one; EXIT before it "
            "would end the job",
        ],
    ),
    # a comment that swallows a statement
    (
        {"program": "! the first ! NOW = 1;\nNOW = 2; ! NOW = 3;\n! NOW = 4;"},
        0,
        [
            "E:14:1: SWALLOWED: the comment goes on to the end of its line, and NOW = 1; is a "
            "part of it",
            "E:15:1: UNREACHED: nothing reaches this behind the SEND of line 13",
            "E:15:10: SWALLOWED: the comment goes on to the end of its line, and NOW = 3; is a "
            "part of it",
            "E:17:1: RUNSON: the entry of SETUP, line 11, runs on into this one; EXIT before it "
            "would end the job",
        ],
    ),
    # what nothing uses
    (
        {
            "declared": "VARIABLE V WIDTH 8; TEMPORARY W; FILE F SIZE 1; FIELD X WIDTH 1;",
            "survey": "SEND RING;",
            "program": "L) EXIT;",
        },
        0,
        [
            "E:6:67: UNUSED: no statement uses the variable V",
            "E:6:88: UNUSED: no statement uses the temporary W",
            "E:6:96: UNUSED: no statement uses the file F",
            "E:9:91: UNUSED: this line stands on line 9 already",
            "E:14:1: UNUSED: no GOTO goes to the label L",
        ],
    ),
    # a name that is nearly a keyword
    (
        {"declared": "VARIABLE SURVYE WIDTH 8;", "program": "SURVYE = 1; EXIT;"},
        0,
        [
            "E:6:67: KEYWORD: SURVYE is a name here; SURVEY is the keyword",
            "E:14:1: UNREACHED: nothing reaches this behind the SEND of line 13",
        ],
    ),
]

# Signal files, tables and filters for TEXT: the name of the file, what stands in it, the status,
# and the lines told.
LINES = [
    (
        "S",
        """\
! comment
 ! comment
AFTER 0 SETUP DESK 1 -17 NEW
AFTER 0 SETUP DESK 1 2 new
AFTER 0 SETUP DESK 1 2 NEW ! comment
AFTER 0 SETUP DESK 1 2
after 0 SETUP DESK 1 2 NEW
AFTER x SETUP DESK 1 2 NEW
AFTER 0 SETTUP DESK 1 2 NEW
AFTER 0 ASK DESK 1 NEW
AFTER 0 SETUP DESKS 1 2 NEW
AFTER 5 SETUP DESK 1 NEW
AFTER 3 SETUP DESK 1 2 NONE
AFTER 3 SETUP DESK 1 2 AS 1
AFTER 3 SETUP DESK 1 2 AS 4
AFTER 3 SETUP DESK 1 2 AS 12
AFTER 3 SETUP DESK 1 2 AS 16
AFTER 3 SETUP DESK 1 2 AS 13
AFTER 3 SETUP DESK 1,2 NONE
AFTER 3 SETUP DESK 4294967296 2 NONE
AFTER 3 SETUP DESK 1 2 AS
AFTER 3 NEW DESK 1 2 NEW
AFTER 3 SETUP
""",
        2,
        [
            "S:2:2: BADLINE: a comment begins with the first byte of its line; blanks stand "
            "before this one",
            "S:3:22: BADLINE: -17 has a sign: a value is 0 to 4294967295",
            "S:4:24: BADLINE: new has small letters: NEW",
            "S:5:28: BADLINE: a comment behind a line: ! begins one only as the first byte of a "
            "line",
            "S:6:22: BADLINE: the last word is missing behind 2: the line ends in NEW, NONE or AS",
            "S:7:1: BADLINE: after has small letters: AFTER",
            "S:8:7: BADLINE: the count is a number; x is none",
            "S:9:9: UNKNOWNSIGNAL: no single buffered signal is called SETTUP; SETUP is one",
            "S:10:9: UNKNOWNSIGNAL: ASK is a combined signal; a line sends a single buffered "
            "signal",
            "S:11:15: UNKNOWNBLOCK: no block is called DESKS; DESK is one",
            "S:12:9: WRONGDATA: SETUP carries 2 values, 1 is given",
            "S:13:7: FALLINGCOUNT: the count falls from 5 to 3; lines stand in the order of their "
            "counts",
            "S:14:27: BADAS: line 1 is a comment, and counts as a line",
            "S:18:27: BADAS: line 13 ends in NONE, and is in no forlopp",
            "S:19:20: BADLINE: 1,2: blanks stand between values, and no commas",
            "S:20:20: BADLINE: 4294967296 is too large: a value has 10 digits at most, and is "
            "4294967295 at most",
            "S:21:24: BADLINE: the number of a line is missing behind AS",
            "S:22:9: UNKNOWNSIGNAL: NEW is a keyword of exchange texts, so no single buffered "
            "signal has that name",
            "S:23:14: BADLINE: the name of the block is missing",
            "S:17:27: ODDAS: line 16 ends in AS itself; name the line that ends in NEW",
        ],
    ),
    (
        "T",
        """\
EVERY 0 FROM 0 TIMES 3 SETUP DESK 1 2 NEW
EVERY 5 FROM 0 TIMES 1000001 SETUP DESK 1 2 NEW
EVERY 5 FROM 0 TIMES 3 SETUP DESK 1 2 AS 1
EVERY 5 FROM 4294967295 TIMES 2 SETUP DESK 1 2 NEW
EVERY 5 FROM 0 TIMS 1 SETUP DESK 1 2 NEW
EVERY 5 FROM 0 TIMES 1 SETUP DESK 2 NEW
""",
        2,
        [
            "T:1:7: BADRANGE: 0 behind EVERY: it is at least 1",
            "T:2:22: TOOMANY: the signal file and the table up to here have 1,000,004 signals, "
            "and 1,000,000 are the most",
            "T:3:39: BADLINE: a period ends in NEW or NONE, and in no AS",
            "T:4:31: BADRANGE: the last count is 4294967295 + 5 * 1 = 4294967300, and 4294967295 "
            "is the largest",
            "T:5:16: BADLINE: TIMES is wanted here; TIMS stands here",
            "T:6:24: WRONGDATA: SETUP carries 2 values, 1 is given",
        ],
    ),
    (
        "Q",
        """\
SHOW
SHOW FAULTS BLOCK DESK
SHOW BLOCK DESKS
SHOW SIGNAL SETTUP FAULTS
show
SHOW FROM
SHOW UPTO -1
SHOW FAULTS ALL
""",
        2,
        [
            "Q:2:13: BADLINE: BLOCK stands too late: the order is BLOCK, SIGNAL, FORLOPP, FROM, "
            "UPTO, FAULTS",
            "Q:3:12: UNKNOWNBLOCK: no block is called DESKS; DESK is one",
            "Q:4:13: UNKNOWNSIGNAL: no signal is called SETTUP; SETUP is one",
            "Q:5:1: BADLINE: show has small letters: SHOW",
            "Q:6:10: BADLINE: a number is missing behind FROM",
            "Q:7:11: BADLINE: -1 has a sign: what stands behind UPTO is 0 to 4294967295",
            "Q:8:13: BADLINE: ALL is no part of a line: BLOCK, SIGNAL, FORLOPP, FROM, UPTO or "
            "FAULTS may stand here",
        ],
    ),
    (
        "Q",
        """\
SHOW SIGNAL SETUP
SHOW SIGNAL GO
SHOW BLOCK DESK SIGNAL ASK FROM 3
SHOW SIGNAL TOLD FORLOPP 1
SHOW SIGNAL RING
SHOW FORLOPP 0
""",
        0,
        [
            "Q:2:13: NOJOB: GO is a direct signal: no job starts by it",
            "Q:3:24: NOJOB: ASK is a combined signal: no job starts by it",
            "Q:4:13: NOJOB: TOLD is an answer: no job starts by it",
            "Q:4:26: NOJOB: no job is in forlopp 1: the signal lines begin 0 forlopps",
            "Q:5:13: NOJOB: RING is an outside signal: no job starts by it",
        ],
    ),
]

# Two exchange texts, the status, and the lines that are told of the change of the first to the
# second.
CHANGES = [
    (
        """\
SIGNAL SETUP SINGLE BUFFERED B DATA 1;
BLOCK DESK;
DECLARE; VARIABLE NOW WIDTH 8; VARIABLE OLD WIDTH 8; VARIABLE WHO WIDTH 8; TEMPORARY T;
FILE BOOK SIZE 4; FIELD NUMBER WIDTH 16;
SURVEY; RECEIVE SETUP;
PROGRAM;
ENTER SETUP WITH T; NUMBER(T) = NOW; OLD = 1; WHO = REFERENCE FEES; EXIT;
END BLOCK;
BLOCK FEES; DECLARE; SURVEY; PROGRAM; END BLOCK;
""",
        """\
SIGNAL SETUP SINGLE BUFFERED B DATA 1;
SIGNAL CLOSE SINGLE BUFFERED B DATA 0;
BLOCK FEES; DECLARE; SURVEY; PROGRAM; END BLOCK;
BLOCK DESK;
DECLARE; VARIABLE NOW WIDTH 4 INIT 2; VARIABLE FRESH1 WIDTH 8 INIT 3; VARIABLE WHO WIDTH 8; TEMPORARY T;
FILE BOOK SIZE 2; FIELD NUMBER WIDTH 16;
SURVEY; RECEIVE SETUP; RECEIVE CLOSE;
PROGRAM;
ENTER SETUP WITH T; NUMBER(T) = NOW; FRESH1 = 1; WHO = 0; EXIT;
ENTER CLOSE;
END BLOCK;
""",  # noqa: E501
        0,
        [
            "NEW:5:19: NARROWED: variable NOW of block DESK: WIDTH 8 becomes 4, values over 15 "
            "become 2",
            "NEW:5:19: STAYS: variable NOW of block DESK: INIT 0 becomes 2, and values that go "
            "over stay",
            "OLD:3:41: DROPPED: variable OLD of block DESK is not in the new text: its value is "
            "dropped",
            "NEW:5:48: NEW: variable FRESH1 of block DESK is new, and begins with 3",
            "NEW:6:6: NARROWED: file BOOK of block DESK: SIZE 4 becomes 2, the last records are "
            "dropped",
            "NEW:4:7: KEPT: block DESK: 2 variables and 1 field go over",
            "NEW:10:1: UNSENT: entry CLOSE of block DESK is new: no line of a signal file can "
            "send to it",
            "NEW:3:7: MOVED: block FEES is number 1 here and was number 2: references that are "
            "held change their block",
        ],
    ),
    (
        """\
SIGNAL SETUP SINGLE BUFFERED B DATA 1;
BLOCK DESK;
DECLARE; TEMPORARY P;
FORLOPP FILE LINE SIZE 4; FIELD SUM WIDTH 8;
SURVEY; RECEIVE SETUP;
PROGRAM;
ENTER SETUP WITH P; SEIZE P IN LINE ELSE GOTO FULL; SUM(P) = 1; FREE P IN LINE;
FULL) EXIT;
END BLOCK;
""",
        """\
SIGNAL SETUP SINGLE BUFFERED A DATA 1;
BLOCK DESK;
DECLARE; TEMPORARY P;
FORLOPP FILE LINE SIZE 2; FIELD SUM WIDTH 8;
SURVEY; RECEIVE SETUP;
PROGRAM;
ENTER SETUP WITH P; SEIZE P IN LINE ELSE GOTO FULL; SUM(P) = 1; FREE P IN LINE;
FULL) EXIT;
END BLOCK;
""",
        2,
        [
            "OLD:7:1: ENTRY: SETUP has level B and 1 value, and level A and 1 value in the new "
            "text",
            "OLD:4:14: FILE: the FORLOPP FILE LINE of block DESK has SIZE 4, and 2 in the new text",
            "NEW:2:7: KEPT: block DESK: 1 field goes over",
        ],
    ),
]


class Row(NamedTuple):
    """Files, the options and the status of plex-check, and the lines that it must write."""

    files: dict[str, str]
    options: list[str]
    status: int
    lines: list[str]


def text_with(declared: str = "", survey: str = "", program: str = "EXIT;") -> str:
    """TEXT with these parts."""
    return TEXT.format(declared=declared, survey=survey, program=program)


def rows() -> Iterator[Row]:
    """All rows; where there are warnings alone, also with --werror, by which the status is 1."""
    for row in plain_rows():
        yield row
        if row.lines and not row.status:
            yield row._replace(options=["--werror", *row.options], status=1)


def plain_rows() -> Iterator[Row]:
    """The rows without --werror."""
    for parts, status, lines in TEXTS:
        yield Row({"E": text_with(**parts)}, [], status, lines)
    for name, content, status, lines in LINES:
        files = {"E": text_with(), "S": ""}
        files[name] = content
        yield Row(files, [], status, lines)
    for old, new, status, lines in CHANGES:
        yield Row({"OLD": old, "NEW": new}, ["--change"], status, lines)
    unreached = "E:14:1: UNREACHED: nothing reaches this behind the SEND of line 13"
    yield Row({"E": text_with(program="NOW = 2;")}, ["--no", "RUNSON"], 0, [unreached])
