"""Texts each of which breaks a rule at one kind of place where it can be broken, as refusals.py has
it.
"""
from __future__ import annotations

import pathlib

import pytest

from gate import refusals
from gate.checking import check, check_enough

LEAST = 169

SIGNALS = (
    "SIGNAL BU SINGLE BUFFERED A DATA 1; SIGNAL DI SINGLE DIRECT DATA 0; SIGNAL CO COMBINED DATA "
    "1 ANSWER AN DATA 2; "
    "SIGNAL OU OUTSIDE DATA 0; SIGNAL B0 SINGLE BUFFERED B DATA 0; "
)
NAMES = (
    "VARIABLE V WIDTH 16; TEMPORARY T; TEMPORARY U; FILE F SIZE 3; FIELD X WIDTH 8; "
    "FORLOPP FILE G SIZE 3; FIELD Y WIDTH 8; "
)
SURVEY = "RECEIVE BU; RECEIVE DI; RECEIVE CO; SEND BU; SEND DI; SEND CO; SEND OU; SEND B0; "
ENTERS = "ENTER BU WITH T; ENTER DI; ENTER CO WITH T; "


def block(declarations: str = "", survey: str = "", items: str = "", name: str = "K") -> str:
    """A block with these declarations, this survey and this program."""
    return f"BLOCK {name}; DECLARE; {declarations} SURVEY; {survey} PROGRAM; {items} END BLOCK; "


def program(items: str) -> str:
    """A block that has all names and signals, with this program."""
    return SIGNALS + block(NAMES, SURVEY, ENTERS + items)


def asking(items: str) -> str:
    """The same with this program alone."""
    return SIGNALS + block(NAMES, SURVEY, items)


def each(piece: str, count: int) -> str:
    """A piece with each number in turn."""
    return "".join(piece % number for number in range(count))


SECOND = block("TEMPORARY T;", "RECEIVE BU;", "ENTER BU WITH T;", "K2")
FIELDS = each("FIELD F%d WIDTH 1; ", 15)
BUFFERED = each("SIGNAL S%d SINGLE BUFFERED B DATA 0; ", 257)

TEXTS = [
    ("N1", SIGNALS + "SIGNAL @BU OUTSIDE DATA 0;"),
    ("N1", SIGNALS + "SIGNAL NEW1 COMBINED DATA 0 ANSWER @AN DATA 0;"),
    ("N1", SIGNALS + "SIGNAL @AN OUTSIDE DATA 0;"),
    ("N1", "SIGNAL Q COMBINED DATA 0 ANSWER @Q DATA 0;"),
    ("N1", block() + "BLOCK @K; DECLARE; SURVEY; PROGRAM; END BLOCK;"),
    ("N16", "SIGNAL Q SINGLE BUFFERED D DATA @9;"),
    ("N16", "SIGNAL Q COMBINED DATA @9 ANSWER P DATA 1;"),
    ("N16", "SIGNAL Q COMBINED DATA 8 ANSWER P DATA @9;"),
    ("N16", "SIGNAL Q OUTSIDE DATA @4294967295;"),
    ("N1", block(NAMES + "TEMPORARY @V;")),
    ("N1", block(NAMES + "FILE @X SIZE 1; ")),
    ("N1", block(NAMES + "FILE H SIZE 1; FIELD @T WIDTH 1;")),
    ("N1", block(NAMES + "VARIABLE @F WIDTH 1;")),
    ("N1", block(NAMES, "", "@V) EXIT;")),
    ("N1", block(NAMES, "", "L) EXIT; @L) EXIT;")),
    ("N2", block("VARIABLE V WIDTH @0;")),
    ("N2", block("VARIABLE V WIDTH @33 INIT 4294967295;")),
    ("N2", block("FILE F SIZE 1; FIELD X WIDTH @4294967295;")),
    ("N3", block("VARIABLE V WIDTH 1 INIT @2;")),
    ("N3", block("FILE F SIZE 1; FIELD X WIDTH 31 INIT @2147483648;")),
    ("N4", block("FILE F SIZE @65536; FIELD X WIDTH 1;")),
    ("N4", block("FORLOPP FILE F SIZE @0;")),
    ("N5", block(each("TEMPORARY T%d; ", 24) + "VARIABLE W WIDTH 1; TEMPORARY @T24;")),
    ("N1", block(each("TEMPORARY T%d; ", 24) + "TEMPORARY @T3;")),
    ("N6", program("@T1 = 1;")),
    ("N6", program("@F = 1;")),
    ("N6", program("@X = 1;")),
    ("N6", program("V = @L; L) EXIT;")),
    ("N6", program("V = 1 + (2 * @X);")),
    ("N6", program("@V(T) = 1;")),
    ("N6", program("X(@V) = 1;")),
    ("N6", program("V = X(@V);")),
    ("N6", program("V = @F(T);")),
    ("N6", program("ON @V FROM 1 UPTO 2 DO NO;")),
    ("N6", program("ON T FROM @Q UPTO 2 DO NO;")),
    ("N6", program("ON T FROM 1 UPTO @Q DO NO;")),
    ("N6", program("ON T FROM 1 UPTO 1 DO @Q = 1; NO;")),
    ("N6", program("L) FOR FIRST @V IN F WHERE X = 1 GOTO L;")),
    ("N6", program("L) SEIZE @V IN G ELSE GOTO L;")),
    ("N6", program("FREE @V IN G;")),
    ("N6", SIGNALS + block(NAMES, SURVEY, "ENTER BU WITH @V;")),
    ("N6", program("SEND CO WITH 1; RETRIEVE AN WITH T, @V;")),
    ("N6", program("SEND BU WITH @Q;")),
    ("N6", program("RETURN AN WITH 1, @Q;")),
    ("N6", program("IF V = 1 OR V = @Q THEN FI;")),
    ("N6", program("IF V = @Q GOTO L; L) EXIT;")),
    ("N6", program("CASE @Q IS OTHERWISE DO ESAC;")),
    ("N6", program("CASE V IS WHEN 1 DO @Q = 1; OTHERWISE DO ESAC;")),
    ("N6", program("CASE V IS OTHERWISE DO @Q = 1; ESAC;")),
    ("N6", program("IF 1 = 1 THEN ELSE @Q = 1; FI;")),
    ("N7", program("GOTO @L;")),
    ("N7", program("IF 1 = 1 GOTO @V;")),
    ("N7", program("SEIZE T IN G ELSE GOTO @L;")),
    ("N7", program("FOR FIRST T IN F WHERE X = 1 GOTO @L;")),
    ("N8", program("L) FOR FIRST T IN @G WHERE Y = 1 GOTO L;")),
    ("N8", program("L) FOR FIRST T IN @V WHERE X = 1 GOTO L;")),
    ("N8", program("L) FOR FIRST T IN F WHERE @Y = 1 GOTO L;")),
    ("N8", program("L) FOR FIRST T IN F WHERE @Q = 1 GOTO L;")),
    ("N9", program("L) SEIZE T IN @F ELSE GOTO L;")),
    ("N9", program("FREE T IN @Q;")),
    ("N10", SIGNALS + block(NAMES, "RECEIVE @OU;")),
    ("N10", SIGNALS + block(NAMES, "RECEIVE @AN;")),
    ("N10", SIGNALS + block(NAMES, "RECEIVE @Q;")),
    ("N10", SIGNALS + block(NAMES, "SEND @AN;")),
    ("N10", SIGNALS + block(NAMES, "SEND @Q;")),
    ("N10", program("ENTER @OU;")),
    ("N10", program("ENTER @Q WITH V;")),
    ("N10", program("SEND @AN WITH 1, 2;")),
    ("N10", program("SEND @OU REFERENCE K;")),
    ("N10", program("TRANSFER @BU;")),
    ("N10", program("TRANSFER @CO;")),
    ("N10", program("TRANSFER @OU;")),
    ("N10", program("TRANSFER @AN;")),
    ("N10", program("RETURN @BU WITH 1;")),
    ("N10", program("RETURN @Q;")),
    ("N10", program("SEND @Q NEW FORLOPP;")),
    ("N11", SIGNALS + block(NAMES, SURVEY, "@ENTER BU;")),
    ("N11", SIGNALS + block(NAMES, SURVEY, "@ENTER DI WITH T;")),
    ("N11", program("@SEND BU WITH 1, 2;")),
    ("N11", program("SEND CO WITH 1; @RETRIEVE AN WITH T;")),
    ("N11", program("@RETURN AN;")),
    ("N11", program("@RETURN DI WITH 1;")),
    ("N11", program("@SEND OU WITH Q;")),
    ("N12", program("@RETRIEVE AN WITH T, U;")),
    ("N12", program("@RETRIEVE Q WITH T;")),
    ("N12", program("@SEND CO WITH 1;")),
    ("N12", program("@SEND CO WITH 1; L) RETRIEVE AN WITH T, U;")),
    (
        "N12",
        asking(
            "ENTER BU WITH T; ENTER DI; @SEND CO WITH 1; ENTER CO WITH T; RETRIEVE AN WITH T, U;"
        ),
    ),
    ("N12", program("IF 1 = 1 THEN @SEND CO WITH 1; FI; RETRIEVE AN WITH T, U;")),
    ("N12", program("SEND CO WITH 1; RETRIEVE AN WITH T, U; @RETRIEVE AN WITH T, U;")),
    ("N13", program("V = " + "+".join(["1"] * 64) + "+@1;")),
    ("N13", program("V = " + "+".join(["X(T)"] * 64) + "+@V;")),
    (
        "N13",
        program(
            "ON T FROM " + "+".join(["1"] * 40) + " UPTO " + "+".join(["V"] * 24) + "+@T DO NO;"
        ),
    ),
    ("N13", program("IF " + " AND ".join(["V = 1"] * 32) + " AND @V = 1 THEN FI;")),
    ("N13", program("SEND BU WITH (" + "+".join(["1"] * 64) + ")*@2;")),
    ("N14", program("@SEND DI NEW FORLOPP;")),
    ("N14", program("@SEND OU NEW FORLOPP;")),
    ("N14", program("@SEND AN NEW FORLOPP;".replace("SEND AN", "SEND AN WITH 1, 2"))),
    ("N15", program("CASE V IS WHEN 1 DO WHEN 2 DO WHEN @01 DO OTHERWISE DO ESAC;")),
    (
        "N15",
        program(
            "CASE V IS WHEN 1 DO CASE V IS WHEN 1 DO WHEN @1 DO OTHERWISE DO ESAC; OTHERWISE DO "
            "ESAC;"
        ),
    ),
    ("N11", program("@SEND BU WITH Q, Q;")),
    ("N10", program("ENTER @AN WITH Q, T;")),
    ("N6", SIGNALS + block(NAMES, "", "ENTER BU WITH T;") + block("", "", "@Q = 1;", "K2")),
    ("NORECEIVER", SIGNALS + block(NAMES, SURVEY, ENTERS + "@SEND B0;")),
    (
        "NORECEIVER",
        "SIGNAL DI SINGLE DIRECT DATA 0; " + block("", "", "IF 1 = 1 THEN @TRANSFER DI; FI;"),
    ),
    ("NEEDSREFERENCE", program("@SEND BU WITH 1;") + SECOND),
    ("NOTRECEIVED", SIGNALS + block(NAMES, SURVEY, ENTERS + "@SEND BU REFERENCE K9 WITH 1;")),
    (
        "NOTRECEIVED",
        SIGNALS
        + block(NAMES, SURVEY, ENTERS + "@SEND BU REFERENCE K2 WITH 1;")
        + block("", "", "", "K2"),
    ),
    ("NOTINSURVEY", SIGNALS + block(NAMES, "RECEIVE BU;", "ENTER BU WITH T; @SEND BU WITH 1;")),
    ("NOTINSURVEY", SIGNALS + block(NAMES, "SEND BU;", "@ENTER BU WITH T;")),
    ("NOTINSURVEY", SIGNALS + block(NAMES, "", "@SEND OU;")),
    ("TWOENTERS", SIGNALS + block(NAMES, SURVEY, ENTERS + "EXIT; @ENTER DI;")),
    ("NOENTER", SIGNALS + block(NAMES, "@RECEIVE BU; RECEIVE BU;")),
    ("NOENTER", SIGNALS + block(NAMES, "@RECEIVE DI; SEND B0;", "SEND B0;")),
    (
        "LIMIT",
        each("SIGNAL S%d SINGLE DIRECT DATA 0; ", 999)
        + "@SIGNAL SX COMBINED DATA 0 ANSWER SY DATA 0;",
    ),
    ("LIMIT", each(block(name="B%d"), 64) + "@BLOCK BX; DECLARE; SURVEY; PROGRAM; END BLOCK;"),
    (
        "LIMIT",
        block("VARIABLE V WIDTH 8; FILE F SIZE 65535; " + FIELDS + "@FORLOPP FILE G SIZE 17000;"),
    ),
    (
        "LIMIT",
        BUFFERED + block("", each("RECEIVE S%d; ", 257), each("ENTER S%d; ", 256) + "@ENTER S256;"),
    ),
    (
        "LIMIT",
        block("VARIABLE V WIDTH 8;", "", "V = 1; " * 20000)[: -len("END BLOCK; ")] + "@END BLOCK;",
    ),
    ("LIMIT", block("VARIABLE V WIDTH 8;", "", "V = 1; " * 20000 + "@V = 2; ")),
    ("OK", each("SIGNAL S%d SINGLE DIRECT DATA 0; ", 1000)),
    ("OK", block("VARIABLE V WIDTH 8;", "", "V = 1; " * 19999)),
    ("OK", each(block(name="B%d"), 64)),
    (
        "OK",
        program(
            "SEND CO WITH 1; RETRIEVE AN WITH T, U; SEND OU; SEND BU WITH V NEW FORLOPP; TRANSFER "
            "DI;"
        ),
    ),
    ("OK", program("RETURN AN WITH 1, 2; V = " + "+".join(["X(T)"] * 64) + ";")),
    (
        "OK",
        program(
            "CASE V IS WHEN 1 DO WHEN 2 DO OTHERWISE DO ESAC; CASE V IS WHEN 1 DO OTHERWISE DO "
            "ESAC;"
        ),
    ),
    (
        "OK",
        block(NAMES, "SEND OU; SEND OU;", "L) M) GOTO L;").replace("BLOCK", SIGNALS + "BLOCK", 1),
    ),
    ("N17", program("V = REFERENCE @Q;")),
    ("N17", program("V = REFERENCE @V;")),
    ("N17", program("V = REFERENCE K + (1 + REFERENCE @BU);")),
    ("N17", program("IF V = 1 OR REFERENCE @T = 1 THEN FI;")),
    ("N17", program("ON T FROM 1 UPTO REFERENCE @X DO NO;")),
    ("N17", program("SEND BU REFERENCE K WITH REFERENCE @K2;")),
    ("N17", program("RETURN AN WITH 1, REFERENCE @AN;")),
    ("N17", program("CASE REFERENCE @F IS OTHERWISE DO ESAC;")),
    ("N17", program("IF 1 = 1 THEN ELSE X(T) = REFERENCE @G; FI;")),
    ("N13", program("V = " + "+".join(["REFERENCE K"] * 64) + "+REFERENCE @K;")),
    ("N6", program("SEND BU REFERENCE (@X) WITH 1;")),
    ("N6", program("SEND BU REFERENCE (@K) WITH 1;")),
    ("N6", program("SEND CO REFERENCE (@G) WITH 1; RETRIEVE AN WITH T, U;")),
    ("N6", program("TRANSFER DI REFERENCE (@Q);")),
    ("N6", program("L) TRANSFER DI REFERENCE (@L);")),
    ("N6", program("SEND BU REFERENCE (V) WITH @K;")),
    ("N10", program("SEND @OU REFERENCE (V);")),
    ("N10", program("TRANSFER @BU REFERENCE (V);")),
    ("N11", program("@SEND BU REFERENCE (V);")),
    ("N12", program("@SEND CO REFERENCE (T) WITH 1;")),
    ("N14", program("@SEND DI REFERENCE (T) NEW FORLOPP;")),
    ("NORECEIVER", program("@SEND B0 REFERENCE (V);")),
    (
        "NOTINSURVEY",
        SIGNALS + block(NAMES, "RECEIVE BU;", "ENTER BU WITH T; @SEND BU REFERENCE (V) WITH 1;"),
    ),
    ("NOTINSURVEY", SIGNALS + block(NAMES, "RECEIVE DI;", "ENTER DI; @TRANSFER DI REFERENCE (T);")),
    ("UNEXPECTED", block("VARIABLE @CLEAR WIDTH 8;")),
    ("UNEXPECTED", block("VARIABLE V WIDTH 8 CLEAR @INIT 1;")),
    ("UNEXPECTED", block("VARIABLE V WIDTH 8 CLEAR @CLEAR;")),
    ("UNEXPECTED", block("FILE F SIZE 1; FIELD X WIDTH 8 @CLEAR;")),
    ("UNEXPECTED", block("TEMPORARY T @CLEAR;")),
    ("UNEXPECTED", program("V = REFERENCE @(V);")),
    ("UNEXPECTED", program("V = REFERENCE @1;")),
    ("UNEXPECTED", program("SEND BU REFERENCE @1 WITH 1;")),
    ("UNEXPECTED", program("SEND BU REFERENCE (@1) WITH 1;")),
    ("UNEXPECTED", program("SEND BU REFERENCE (V @+ 1) WITH 1;")),
    ("UNEXPECTED", program("TRANSFER DI REFERENCE (V(@T));".replace("V(@T)", "V @( T )"))),
    ("UNEXPECTED", program("TRANSFER DI REFERENCE K @WITH 1;")),
    ("OK", block("VARIABLE V WIDTH 8 INIT 1 CLEAR; VARIABLE W WIDTH 32 CLEAR;")),
    ("OK", program("V = REFERENCE K2 * (REFERENCE K + 1);") + block(name="K2")),
    (
        "OK",
        program(
            "SEND BU REFERENCE (V) WITH 1; SEND CO REFERENCE (T) WITH 1; RETRIEVE AN WITH T, U;"
        ),
    ),
    ("OK", program("TRANSFER DI REFERENCE (V);")),
    (
        "OK",
        program("SEND BU REFERENCE (V) WITH REFERENCE K; SEND BU REFERENCE K2 WITH 1;") + SECOND,
    ),
    (
        "OK",
        program(
            "V = "
            + "+".join(["REFERENCE K"] * 64)
            + "; SEND BU REFERENCE (V) WITH "
            + "+".join(["1"] * 64)
            + ";"
        ),
    ),
]


@pytest.mark.parametrize("refusal", refusals.table(TEXTS), ids=refusals.names(TEXTS))
def test_refusal(plex: pathlib.Path, folder: pathlib.Path, refusal: refusals.Refusal) -> None:
    """The program tells the rule that a text breaks, at its line."""
    check(refusals.told_of(plex, folder, refusal))


def test_all_texts_are_there() -> None:
    """No text is lost."""
    check_enough("texts", TEXTS, LEAST)
