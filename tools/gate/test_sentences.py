"""Texts that are no sentences of the language, and texts that are, as refusals.py has it.

Of those that are sentences some break a later rule, such as N6 of names, which must then be told.
"""
from __future__ import annotations

import pathlib

import pytest

from gate import refusals
from gate.checking import check, check_enough

LEAST = 87


def block(declarations: str = "", items: str = "", survey: str = "") -> str:
    return f"BLOCK K; DECLARE; {declarations} SURVEY; {survey} PROGRAM; {items} END BLOCK; "


def declared(text: str) -> str:
    return block(text)


def program(items: str) -> str:
    return block("", items)


def nested(count: int, items: str) -> str:
    return program("ON I FROM 0 UPTO 9 DO " * count + items + " NO;" * count)


TEXTS = [
    # tokens
    ("BADBYTE", "BLOCK K; @#"),
    ("BADBYTE", "BLOCK K@k;"),
    ("BADBYTE", "UNEXPECTED UNEXPECTED @\x0c"),
    ("BADNUMBER", program("V = @4294967296;")),
    ("BADNUMBER", program("V = @00000000001;")),
    ("BADNUMBER", "SIGNAL @99999999999 #"),
    ("LONGNAME", program("@ABCDEFGHIJKLMNOPQRSTUVWXYZ012345 = 1;")),
    ("N6", program("ABCDEFGHIJKLMNOPQRSTUVWXYZ01234 = 0000000032;")),
    ("N6", program("IF V<=V AND V>=V OR V<>V GOTO L; L) EXIT;")),
    ("OK", "BLOCK K;!a comment# of BLOCK\rand 12345678901\nDECLARE;SURVEY;PROGRAM;END BLOCK;!"),
    ("UNEXPECTED", program("V = 12 @AB;")),
    # exchanges, signals, blocks
    ("OK", ""),
    ("OK", "SIGNAL S SINGLE DIRECT DATA 1; SIGNAL V OUTSIDE DATA 4; " + program("")),
    ("OK", "SIGNAL T COMBINED DATA 2 ANSWER U DATA 3; " + program("")),
    ("UNEXPECTED", "SIGNAL T SINGLE BUFFERED @E DATA 0;"),
    ("UNEXPECTED", "SIGNAL T @BUFFERED A DATA 0;"),
    ("UNEXPECTED", "SIGNAL @SIGNAL OUTSIDE DATA 0;"),
    ("UNEXPECTED", "SIGNAL T OUTSIDE DATA @T;"),
    ("UNEXPECTED", program("") + "@SIGNAL T OUTSIDE DATA 0;"),
    ("UNEXPECTED", program("") + "@;"),
    ("UNEXPECTED", "BLOCK @CLEAR;"),
    ("UNEXPECTED", "BLOCK K; DECLARE; @PROGRAM; END BLOCK;"),
    ("UNEXPECTED", block("", "", "@ENTER S;")),
    ("ENDED", "SIGNAL T@"),
    ("ENDED", "BLOCK K; DECLARE; SURVEY; PROGRAM; END BLOCK@"),
    ("ENDED", "BLOCK K; DECLARE; SURVEY; PROGRAM; EXIT; !END BLOCK;@"),
    # declarations
    ("OK", declared("VARIABLE V WIDTH 8 INIT 1; TEMPORARY T; FILE E SIZE 1;")),
    (
        "OK",
        declared("FORLOPP FILE F SIZE 2; FIELD G WIDTH 4; FIELD H WIDTH 1 INIT 1; FILE E SIZE 1;"),
    ),
    (
        "OK",
        declared("VARIABLE V WIDTH 8 INIT 1 CLEAR; VARIABLE W WIDTH 8 CLEAR; VARIABLE X WIDTH 8;"),
    ),
    ("UNEXPECTED", declared("VARIABLE V WIDTH 8 CLEAR @INIT 1;")),
    ("UNEXPECTED", declared("VARIABLE V WIDTH 8 CLEAR @CLEAR;")),
    ("UNEXPECTED", declared("VARIABLE V @CLEAR WIDTH 8;")),
    ("UNEXPECTED", declared("TEMPORARY T @CLEAR;")),
    ("UNEXPECTED", declared("FILE F SIZE 1 @CLEAR;")),
    ("UNEXPECTED", declared("FILE F SIZE 1; FIELD G WIDTH 1 @CLEAR;")),
    ("UNEXPECTED", declared("VARIABLE V WIDTH 8; @FIELD G WIDTH 4;")),
    ("UNEXPECTED", declared("FORLOPP @VARIABLE V WIDTH 8;")),
    # expressions and conditions
    ("N6", program("V = ((((((1)))))); V = ((((((1)) + (2)))));")),
    ("TOODEEP", program("V = ((((((@(1)))))));")),
    ("TOODEEP", program("V = W + ((((((@(1)))))));")),
    ("UNEXPECTED", program("V = ((((((@;")),
    ("N6", program("F(P) = G(P) * 2 MOD 3 - F(P) / (A + 1);")),
    ("UNEXPECTED", program("F(@1) = 1;")),
    ("UNEXPECTED", program("V = @- 1;")),
    ("N6", program("V = REFERENCE K; F(T) = REFERENCE K; V = 1 + (REFERENCE K) * 2;")),
    ("N6", program("IF V = REFERENCE K GOTO L; L) EXIT;")),
    ("N10", program("SEND S WITH REFERENCE K, 1; RETURN S WITH REFERENCE K;")),
    (
        "N6",
        program(
            "CASE REFERENCE K IS OTHERWISE DO ESAC; ON T FROM REFERENCE K UPTO REFERENCE K DO NO;"
        ),
    ),
    ("N6", program("FOR FIRST P IN F WHERE G = REFERENCE K GOTO L;")),
    ("UNEXPECTED", program("V = REFERENCE @(W);")),
    ("UNEXPECTED", program("V = REFERENCE @1;")),
    ("UNEXPECTED", program("V = REFERENCE K @(T);")),
    ("UNEXPECTED", program("@REFERENCE K = 1;")),
    ("N6", program("IF A = 1 AND B <> 2 OR C >= 3 THEN EXIT; ELSE GOTO L; FI;")),
    ("UNEXPECTED", program("IF (A @= 1) GOTO L;")),
    ("UNEXPECTED", program("IF A @GOTO L;")),
    # statements
    ("N10", program("L) ENTER T WITH A, C; ENTER U;")),
    ("UNEXPECTED", program("ENTER T WITH A, @1;")),
    ("UNEXPECTED", program("EXIT @EXIT;")),
    ("UNEXPECTED", program("IF A = 1 THEN L @) FI;")),
    ("UNEXPECTED", program("IF A = 1 THEN @ENTER T; FI;")),
    ("N6", program("CASE A IS WHEN 1 DO EXIT; WHEN 2 DO OTHERWISE DO X = 1; ESAC;")),
    ("UNEXPECTED", program("CASE A IS WHEN 1 DO EXIT; @ESAC;")),
    ("UNEXPECTED", program("CASE A IS WHEN @B DO EXIT; OTHERWISE DO ESAC;")),
    ("UNEXPECTED", program("ON @1 FROM 2 UPTO 3 DO NO;")),
    ("N6", program("FOR FIRST P IN F WHERE G <= A + 1 GOTO L;")),
    ("UNEXPECTED", program("FOR FIRST P IN F WHERE G @+ 1 = A GOTO L;")),
    ("N6", program("SEIZE P IN F ELSE GOTO L; FREE P IN F;")),
    ("N10", program("SEND S REFERENCE R WITH 1, A NEW FORLOPP; RETRIEVE T WITH X; RETURN S;")),
    ("N10", program("TRANSFER S REFERENCE R; TRANSFER S;")),
    (
        "N10",
        program(
            "SEND S REFERENCE (V) WITH 1 NEW FORLOPP; SEND S REFERENCE (V); TRANSFER S REFERENCE "
            "(V);"
        ),
    ),
    ("UNEXPECTED", program("SEND S NEW FORLOPP @WITH 1;")),
    ("UNEXPECTED", program("SEND S WITH 1 @REFERENCE R;")),
    ("UNEXPECTED", program("SEND S REFERENCE (@1);")),
    ("UNEXPECTED", program("SEND S REFERENCE (V @+ 1);")),
    ("UNEXPECTED", program("SEND S REFERENCE (@(V));")),
    ("UNEXPECTED", program("SEND S REFERENCE @REFERENCE R;")),
    ("UNEXPECTED", program("SEND S REFERENCE R @(V);")),
    ("UNEXPECTED", program("TRANSFER S REFERENCE R @WITH 1;")),
    ("UNEXPECTED", program("RETURN S @REFERENCE R;")),
    ("UNEXPECTED", program("RETRIEVE S WITH @REFERENCE R;")),
    ("N6", nested(12, "EXIT; IF A = 1 GOTO L;")),
    ("TOODEEP", nested(12, "@ON I FROM 0 UPTO 9 DO EXIT; NO;")),
    ("TOODEEP", nested(12, "IF A = 1 @THEN FI;")),
    ("TOODEEP", nested(12, "@CASE A")),
    ("UNEXPECTED", nested(12, "@DO")),
    ("N6", program("IF A = 1 THEN " * 12 + "ELSE EXIT; " + "FI;" * 12)),
]


@pytest.mark.parametrize("refusal", refusals.table(TEXTS), ids=refusals.names(TEXTS))
def test_refusal(plex: pathlib.Path, folder: pathlib.Path, refusal: refusals.Refusal) -> None:
    """The program tells the rule that a text breaks, at its line."""
    check(refusals.told_of(plex, folder, refusal))


def test_all_texts_are_there() -> None:
    """No text is lost."""
    check_enough("texts", TEXTS, LEAST)
