"""Pairs of entries of small exchanges: to which variables and fields their jobs only add, and what
is told of the pairs; and two jobs, with whether both orders of them leave the same.

In each text entry 0 receives A and entry 1 receives B, each with P and D. The two jobs are those of
the two lines, each in the forlopp that its line says. What is told is worked out by hand. A pair
without a line has the verdict of `plex analyse`.
"""
from __future__ import annotations

from typing import NamedTuple

HEAD = """SIGNAL A SINGLE BUFFERED B DATA 2;
SIGNAL B SINGLE BUFFERED B DATA 2;
SIGNAL OUT OUTSIDE DATA 1;
"""
BLOCK = """BLOCK K;
DECLARE; {declared} TEMPORARY P; TEMPORARY D; TEMPORARY I;
SURVEY; RECEIVE A; RECEIVE B; SEND OUT; {sent}
PROGRAM;
ENTER A WITH P, D;
{first}
EXIT;
ENTER B WITH P, D;
{later}
EXIT;
END BLOCK;
"""


class Told(NamedTuple):
    """The lines of the additions, without the words with which each of the two kinds begins."""

    adds: tuple[str, ...] = ()
    adding: tuple[str, ...] = ()


class Beside(NamedTuple):
    """What a text has beside its two entries: signals, what the block sends, and a block."""

    signals: str = ""
    sent: str = ""
    block: str = ""


class Lines(NamedTuple):
    """The values and the forlopp of both jobs."""

    first: str = "0 0 NEW"
    later: str = "0 5 NEW"


class Row(NamedTuple):
    """A text by its declarations and the statements of both entries, the two lines, what is told,
    and whether both orders of the two jobs leave the same.
    """

    name: str
    declared: str
    first: str
    later: str
    lines: Lines
    told: Told
    is_same: bool
    beside: Beside = Beside()

    def text(self) -> bytes:
        signals, sent, block = self.beside
        own = BLOCK.format(declared=self.declared, first=self.first, later=self.later, sent=sent)
        return (HEAD + signals + own + block).encode()

    def signal_lines(self, *, other_order: bool = False) -> bytes:
        lines = [f"AFTER 0 A K {self.lines.first}\n", f"AFTER 0 B K {self.lines.later}\n"]
        return "".join(lines[::-1] if other_order else lines).encode()

    def additions(self) -> list[str]:
        """The lines of the additions, without the first and the last."""
        pairs = (told.split(" ", 2) for told in self.told.adding)
        adding = [f"PAIR {i} {j} ADDING {words}" for i, j, words in pairs]
        return [*(f"ADDS {words}" for words in self.told.adds), *adding]


PAIRS = ("0 0", "0 1", "1 0", "1 1")
ALWAYS = tuple(f"{pair} ALWAYS" for pair in PAIRS)
IN_FORLOPPS = tuple(f"{pair} IF FORLOPP" for pair in PAIRS)
FIRST_FAULTS = ("0 0 IF FORLOPP", "0 1 IF FORLOPP", "1 0 ALWAYS", "1 1 ALWAYS")
EACH_ALONE = ("0 0 ALWAYS", "1 1 ALWAYS")

BOTH = Told(("0 VAR K.V", "1 VAR K.V"), ALWAYS)
BOTH_IF = Told(BOTH.adds, FIRST_FAULTS)
FIRST = Told(("0 VAR K.V",), ("0 0 ALWAYS",))
LATER = Told(("1 VAR K.V",), ("1 1 ALWAYS",))
EACH = Told(("0 VAR K.V", "1 VAR K.W"), EACH_ALONE)
LATER_BESIDE_W = Told(("0 VAR K.W", "1 VAR K.V"), ("1 1 ALWAYS",))
FIELDS = ("0 FIELD K.F", "1 FIELD K.F")
LATER_FIELD = Told(("1 FIELD K.F",), ("1 1 IF FORLOPP",))

V, V1 = "VARIABLE V WIDTH 32;", "VARIABLE V WIDTH 32 INIT 1;"
VW = "VARIABLE V WIDTH 32; VARIABLE W WIDTH 32;"
F = "FILE T SIZE 4; FIELD F WIDTH 32 INIT 1;"
ADD, ADD_FIELD = "V = V + 1;", "F(P) = F(P) + 1;"
USUAL, ONE = Lines(), Lines("1 1 NEW", "1 0 NEW")

ADDIT = """SIGNAL ADDIT COMBINED DATA 1 ANSWER ADDED DATA 0;
SIGNAL TELLIT COMBINED DATA 0 ANSWER TOLD DATA 1;
"""
ADDER = """BLOCK T;
DECLARE; VARIABLE N WIDTH 32; TEMPORARY X;
SURVEY; RECEIVE ADDIT; RECEIVE TELLIT;
PROGRAM;
ENTER ADDIT WITH X;
N = N + X;
RETURN ADDED;
ENTER TELLIT;
RETURN TOLD WITH N;
END BLOCK;
"""
OTHER_ADDS = Beside(ADDIT, "SEND ADDIT; SEND TELLIT;", ADDER)
ADD_THERE = "SEND ADDIT WITH D; RETRIEVE ADDED;"
ASK_THERE = "SEND TELLIT; RETRIEVE TOLD WITH I; SEND OUT WITH I;"
HELD = Beside(
    "SIGNAL S SINGLE DIRECT DATA 0;\n",
    "SEND S;",
    """BLOCK R;
DECLARE;
SURVEY; RECEIVE S;
PROGRAM;
ENTER S;
EXIT;
END BLOCK;
""",
)
SEES = Beside(
    "SIGNAL SHOW COMBINED DATA 1 ANSWER SEEN DATA 0;\n",
    "SEND SHOW;",
    """BLOCK R;
DECLARE; VARIABLE LAST WIDTH 32; TEMPORARY X;
SURVEY; RECEIVE SHOW;
PROGRAM;
ENTER SHOW WITH X;
LAST = X;
RETURN SEEN;
END BLOCK;
""",
)

ROWS = [
    # both only add
    Row("counter", V, ADD, "V = V + D;", USUAL, BOTH, True),
    Row("taken_away", V, "V = V - D;", ADD, Lines("0 7 NEW"), BOTH, True),
    Row("own_term_later", V, "V = D + V;", "V = 3 + V - D;", USUAL, BOTH, True),
    Row("bracket_taken_away", V, "V = V - (D - 3);", ADD, USUAL, BOTH, True),
    Row("modulo_of_other", V, "V = V + D MOD 8;", ADD, Lines("0 13 NEW"), BOTH, True),
    Row("nothing_added", V, "V = V;", ADD, USUAL, BOTH, True),
    Row("divides", V, "V = V + 6 / D;", "V = V + D;", USUAL, BOTH_IF, True),
    Row("faults_behind_it", V, "V = V + 1; P = 1 / D;", ADD, USUAL, BOTH_IF, True),
    Row("read_where_no_job_comes", V, f"{ADD} EXIT; SEND OUT WITH V;", ADD, USUAL, BOTH, True),
    # both add, and something else keeps them apart
    Row(
        "restart_clears",
        "VARIABLE V WIDTH 32 CLEAR;",
        "V = V + 1; P = 1 / D;",
        "V = V + D;",
        Lines("0 0 NONE"),
        BOTH_IF,
        False,
    ),
    Row(
        "other_conflict_behind",
        VW,
        f"{ADD} W = D;",
        f"{ADD} W = D;",
        USUAL,
        Told(BOTH.adds, tuple(f"{pair} NEVER VARIABLE K.W" for pair in PAIRS)),
        False,
    ),
    # what is no addition
    Row(
        "width_16",
        "VARIABLE V WIDTH 16 INIT 65534;",
        "V = V + 3;",
        "V = V - 3;",
        USUAL,
        Told(),
        False,
    ),
    Row("width_31", "VARIABLE V WIDTH 31;", "V = V + D;", ADD, USUAL, Told(), True),
    Row("doubled", V1, "V = V + V;", ADD, USUAL, LATER, False),
    Row("named_in_bracket", V1, "V = V + (V - D);", ADD, USUAL, LATER, False),
    Row("subtracted_from", V1, "V = D - V;", ADD, Lines("0 9 NEW"), LATER, False),
    Row("multiplied", V1, "V = 2 * V;", ADD, USUAL, LATER, False),
    Row("set", V1, "V = 0;", ADD, USUAL, LATER, False),
    Row("bracket_around_all", V, "V = (V + D);", ADD, USUAL, LATER, True),
    # what reads it elsewhere
    Row("operand_added_to", VW, "V = V + W;", "W = W + 1;", USUAL, EACH, False),
    Row(
        "both_add_the_other",
        "VARIABLE V WIDTH 32; VARIABLE W WIDTH 32 INIT 1;",
        "V = V + W;",
        "W = W + V;",
        USUAL,
        EACH,
        False,
    ),
    Row(
        "by_number",
        VW,
        "W = W + 1; V = V + D;",
        "V = V + 1; W = W + V;",
        Lines("0 5 NEW"),
        Told(("0 VAR K.V", "0 VAR K.W", "1 VAR K.W"), ("0 0 ALWAYS",)),
        False,
    ),
    Row("read_by_one", V, ADD, "SEND OUT WITH V;", USUAL, FIRST, False),
    Row("added_and_sent", V, f"{ADD} SEND OUT WITH V;", ADD, USUAL, LATER, False),
    Row(
        "bound_of_on",
        VW,
        f"{ADD} ON I FROM 1 UPTO V DO W = W + 1; NO;",
        ADD,
        USUAL,
        LATER_BESIDE_W,
        False,
    ),
    Row(
        "condition",
        VW,
        f"{ADD} IF D = 9 OR V = 2 THEN W = W + 1; FI;",
        ADD,
        USUAL,
        LATER_BESIDE_W,
        False,
    ),
    Row("held_reference", V, f"{ADD} SEND S REFERENCE (V);", ADD, USUAL, LATER, False, HELD),
    Row(
        "callers_variable",
        V,
        f"SEND SHOW WITH V; RETRIEVE SEEN; {ADD}",
        ADD,
        USUAL,
        LATER,
        False,
        SEES,
    ),
    Row(
        "added_by_another_block",
        "",
        ADD_THERE,
        ADD_THERE,
        Lines("0 3 NEW"),
        Told(("0 VAR T.N", "1 VAR T.N"), ALWAYS),
        True,
        OTHER_ADDS,
    ),
    Row(
        "asked_of_another_block",
        "",
        ADD_THERE,
        f"{ADD_THERE} {ASK_THERE}",
        Lines("0 3 NEW"),
        Told(("0 VAR T.N",), ("0 0 ALWAYS",)),
        False,
        OTHER_ADDS,
    ),
    # fields
    Row(
        "field_of_unknown_record",
        "VARIABLE H WIDTH 8 INIT 2; FILE T SIZE 4; FIELD F WIDTH 32;",
        f"P = H; {ADD_FIELD}",
        "P = H; F(P) = F(P) + D;",
        USUAL,
        Told(FIELDS, IN_FORLOPPS),
        True,
    ),
    Row("field_by_value", F, ADD_FIELD, "F(P) = 9 + F(P);", ONE, Told(FIELDS, IN_FORLOPPS), True),
    Row(
        "field_by_number",
        F,
        f"P = 2; {ADD_FIELD}",
        f"P = 2; {ADD_FIELD}",
        USUAL,
        Told(FIELDS, ALWAYS),
        True,
    ),
    Row(
        "field_of_width_16",
        "FILE T SIZE 4; FIELD F WIDTH 16 INIT 65534;",
        "P = 2; F(P) = F(P) + 3;",
        "P = 2; F(P) = F(P) - 3;",
        USUAL,
        Told(),
        False,
    ),
    Row("other_record_added", F, "F(P) = F(P) + F(D);", ADD_FIELD, ONE, LATER_FIELD, False),
    Row(
        "from_other_record",
        F,
        "F(P) = F(D) + 1;",
        ADD_FIELD,
        Lines("1 2 NEW", "1 0 NEW"),
        LATER_FIELD,
        False,
    ),
    Row("field_sent", F, f"{ADD_FIELD} SEND OUT WITH F(D);", ADD_FIELD, ONE, LATER_FIELD, False),
    Row(
        "field_searched",
        F,
        f"{ADD_FIELD} FOR FIRST I IN T WHERE F = 3 GOTO X; EXIT; X) SEND OUT WITH I;",
        ADD_FIELD,
        ONE,
        LATER_FIELD,
        False,
    ),
    Row(
        "field_of_own_record",
        "FORLOPP FILE T SIZE 4; FIELD F WIDTH 32;",
        f"SEIZE P IN T ELSE GOTO L; {ADD_FIELD} L)",
        ADD_FIELD,
        USUAL,
        Told(),
        True,
    ),
    Row(
        "variable_and_field",
        f"{F} {V}",
        f"{ADD_FIELD} {ADD}",
        f"{ADD} {ADD_FIELD}",
        ONE,
        Told(("0 VAR K.V", "0 FIELD K.F", "1 VAR K.V", "1 FIELD K.F"), IN_FORLOPPS),
        True,
    ),
]
BY_NAME = {row.name: row for row in ROWS}
