"""Cases of test_hostile.py: signal files, tables, filters and certificates."""
from __future__ import annotations

from typing import Iterator

from gate.hostile_case import (
    CALLS,
    CALLS_TOLD,
    CERTIFICATE,
    REG,
    TABLE,
    THREE,
    TIMED,
    TOLD,
    TRACE,
    TRACED,
    Case,
)


SIGNAL_LINES = {
    "BADLINE": [
        "AFTER 4294967296 CALL REG 5 NEW",
        "AFTER 00000000001 CALL REG 5 NEW",
        "AFTER -1 CALL REG 5 NEW",
        "AFTER 1 CALL REG 4294967296 NEW",
        "AFTER 1 CALL REG 5 new",
        "AFTER 1 CALL REG 5 NEW NEW",
        "AFTER 1 CALL REG 5",
        "AFTER 1 CALL REG",
        "AFTER",
        " ! no comment",
        "AFTER 1 CALL REG 5 AS",
        "AFTER 1 CALL REG 5 NEW\0",
        "\ufeffAFTER 1 CALL REG 5 NEW",
        "AFTER 1 CALL REG 5 NEW\r\r",
        "after 1 CALL REG 5 NEW",
        "AFTER 1 CALL REG" + " 5" * 100000,
    ],
    "UNKNOWNSIGNAL": [
        "AFTER 1 CALLS REG 5 NEW",
        "AFTER 1 NEW NEW NONE",
        "AFTER 1 " + "C" * 100000 + " REG 5 NEW",
        "AFTER 0 CALLS REGS NONE",
    ],
    "UNKNOWNBLOCK": [
        "AFTER 1 CALL CALL 5 NEW",
        "AFTER 1 CALL reg 5 NEW",
        "AFTER 1 CALL \xc3\xa9 5 NEW",
    ],
    "WRONGDATA": [
        "AFTER 1 CALL REG" + " 5" * 100000 + " NEW",
        "AFTER 1 CALL REG NEW",
        "AFTER 1 CALL REG 5 5 NEW",
        "AFTER 0 CALL REG 5 5 AS 9",
    ],
    "FALLINGCOUNT": ["AFTER 0 CALL REG 5 NEW", "AFTER 0 CALL REG 5 AS 9"],
    "BADAS": [f"AFTER 1 CALL REG 5 AS {number}" for number in (0, 1, 2, 3, 4294967295)],
}


def signal_files() -> Iterator[Case]:
    """Lines for CALL, which has one value; the line at fault stands behind one that is right."""
    first = "AFTER 1 CALL REG 5 NONE\n"
    for rule, lines in SIGNAL_LINES.items():
        for text in [line + end for line in lines for end in ("\n", "")]:
            yield Case(
                f"signal line {text[:60]!r}",
                3,
                f"SIGNALS line 2 {rule}\n",
                files={"E": REG, "S": first + text},
            )
    counts = [THREE.replace(" 0 ", f" {count} ") for count in ("4294967295", "0000000000")]
    blanks = [
        THREE.replace("\n", "\r\n"),
        THREE.rstrip("\n"),
        THREE.replace(" ", "\t \t"),
        "!\0\xff\n\n \t\n" + THREE,
    ]
    for text in counts + blanks:
        yield Case(f"signal file {text[:40]!r}", 0, TOLD, files={"S": text.encode("latin-1")})


TABLE_LINES = {
    "BADLINE": [
        "EVERY 4294967296 FROM 0 TIMES 1 CALL REG 5 NEW",
        "EVERY 1 FROM 00000000001 TIMES 1 CALL REG 5 NEW",
        "EVERY 1 FROM 0 TIMES -1 CALL REG 5 NEW",
        "EVERY 1 FROM 0 TIMES 1 CALL REG 4294967296 NEW",
        "EVERY 1 FROM 0 TIMES 1 CALL REG 5 AS 1",
        "EVERY 1 FROM 0 TIMES 1 CALL REG 5 new",
        "EVERY 1 FROM 0 TIMES 1 CALL REG 5",
        "EVERY 1 FROM 0 TIMES 1 CALL REG",
        "EVERY 1 FROM 0 TIMES 1 CALL",
        "EVERY 1 FROM 0 TIMES 1",
        "EVERY 1 FROM 0 TIMES",
        "EVERY 1",
        "EVERY",
        " ! no comment",
        "AFTER 0 CALL REG 5 NEW",
        "every 1 FROM 0 TIMES 1 CALL REG 5 NEW",
        "EVERY 1 TIMES 1 FROM 0 CALL REG 5 NEW",
        "EVERY 1 FROM 0 TIMES 1 CALL REG 5 NEW\r\r",
        "\ufeffEVERY 1 FROM 0 TIMES 1 CALL REG 5 NEW",
        "EVERY 1 FROM 0 TIMES 1 CALL REG" + " 5" * 100000,
        "EVERY 0 FROM 0 TIMES 0 NONE REG x",
    ],
    "UNKNOWNSIGNAL": [
        "EVERY 1 FROM 0 TIMES 1 CALLS REG 5 NEW",
        "EVERY 1 FROM 0 TIMES 1 NEW NEW NONE",
        "EVERY 1 FROM 0 TIMES 1 " + "C" * 100000 + " REG 5 NEW",
        "EVERY 0 FROM 0 TIMES 0 FROM TIMES NONE",
    ],
    "UNKNOWNBLOCK": [
        "EVERY 1 FROM 0 TIMES 1 CALL CALL 5 NEW",
        "EVERY 1 FROM 0 TIMES 1 CALL \xc3\xa9 5 NEW",
        "EVERY 0 FROM 0 TIMES 0 CALL R NEW",
    ],
    "WRONGDATA": [
        "EVERY 1 FROM 0 TIMES 1 CALL REG" + " 5" * 100000 + " NEW",
        "EVERY 1 FROM 0 TIMES 1 CALL REG NEW",
        "EVERY 0 FROM 0 TIMES 0 CALL REG 5 5 NONE",
    ],
    "BADRANGE": [
        "EVERY 0 FROM 1 TIMES 1 CALL REG 5 NEW",
        "EVERY 1 FROM 1 TIMES 0 CALL REG 5 NEW",
        "EVERY 1 FROM 4294967295 TIMES 2 CALL REG 5 NEW",
        "EVERY 2147483648 FROM 0 TIMES 3 CALL REG 5 NEW",
        "EVERY 4294967295 FROM 4294967295 TIMES 4294967295 CALL REG 5 NEW",
        "EVERY 65536 FROM 0 TIMES 65537 CALL REG 5 NEW",
    ],
    "TOOMANY": [
        "EVERY 1 FROM 0 TIMES 999998 CALL REG 5 NEW",
        "EVERY 1 FROM 0 TIMES 4294967295 CALL REG 5 NEW",
        "EVERY 4294 FROM 0 TIMES 1000000 CALL REG 5 NEW",
    ],
}
FILTER_LINES = {
    "BADLINE": [
        "SHOWS",
        "show",
        "SHOW ALL",
        "SHOW\0",
        "\ufeffSHOW",
        " ! no comment",
        "SHOW SHOW",
        "SHOW BLOCK",
        "SHOW SIGNAL",
        "SHOW FORLOPP",
        "SHOW FROM",
        "SHOW UPTO",
        "SHOW FORLOPP F1",
        "SHOW FORLOPP -1",
        "SHOW FROM 4294967296",
        "SHOW UPTO 00000000001",
        "SHOW FROM 1 2",
        "SHOW FAULTS FAULTS",
        "SHOW FAULTS 1",
        "SHOW SIGNAL CALL BLOCK REG",
        "SHOW UPTO 1 FROM 1",
        "SHOW FROM 1 FORLOPP 1",
        "SHOW BLOCK REG BLOCK REG",
        "SHOW FAULTS\r\r",
        "SHOW BLOCK R SIGNAL",
        "SHOW BLOCK " + "R" * 100000 + " 5",
        "SHOW" + " FAULTS" * 100000,
    ],
    "UNKNOWNBLOCK": [
        "SHOW BLOCK FAULTS",
        "SHOW BLOCK reg",
        "SHOW BLOCK BLOCK SIGNAL SIGNAL",
        "SHOW BLOCK " + "R" * 100000,
        "SHOW BLOCK \xc3\xa9",
    ],
    "UNKNOWNSIGNAL": [
        "SHOW SIGNAL REG",
        "SHOW SIGNAL FORLOPP",
        "SHOW BLOCK REG SIGNAL CALLS FAULTS",
        "SHOW SIGNAL " + "C" * 100000,
    ],
}


def tables() -> Iterator[Case]:
    """Lines of a table for CALL; the line at fault stands behind one that is right. Two signals are
    there before it.
    """
    first = "EVERY 4294967295 FROM 0 TIMES 2 CALL REG 5 NEW\n"
    for rule, lines in TABLE_LINES.items():
        for text in [line + end for line in lines for end in ("\n", "")]:
            files = {"E": REG, "S": "AFTER 0 CALL REG 5 NEW\n", "T": first + text}
            yield Case(f"table line {text[:60]!r}", 11, f"TABLE line 2 {rule}\n", TIMED, files)
    blanks = [
        TABLE.replace("\n", "\r\n"),
        TABLE.rstrip("\n"),
        TABLE.replace(" ", "\t \t"),
        "!\0\xff\n\n \t\n" + TABLE,
    ]
    ones = "EVERY 4294967295 FROM 4294967295 TIMES 1 TICK COUNTER NONE\n" * 3
    for text in [
        *blanks,
        ones,
        TABLE.replace("EVERY 1 FROM 0", "EVERY 2147483647 FROM 1"),
        TABLE.replace("3", "000003"),
    ]:
        yield Case(f"table {text[:40]!r}", 0, TOLD, TIMED, {"S": "", "T": text.encode("latin-1")})


def filters() -> Iterator[Case]:
    """Lines of a filter; the line at fault stands behind one that is right."""
    for rule, lines in FILTER_LINES.items():
        for text in [line + end for line in lines for end in ("\n", "")]:
            files = {"E": REG, "S": CALLS, "Q": "SHOW BLOCK REG SIGNAL CALL\n" + text}
            yield Case(f"filter line {text[:60]!r}", 13, f"FILTER line 2 {rule}\n", TRACED, files)
    blanks = [
        "SHOW",
        "SHOW \r\n",
        "\tSHOW\t",
        "SHOW\n" * 1000,
        "!\0\xff\n\n \t\nSHOW SIGNAL TICK\n",
    ]
    for text in [*blanks, "SHOW FORLOPP 0", "SHOW UPTO 4294967295"]:
        yield Case(f"filter {text[:40]!r}", 0, TRACE + TOLD, TRACED, {"Q": text.encode("latin-1")})


def changed(old: str, new: str, times: int = 1) -> str:
    """The certificate with the first places of a text changed."""
    return CERTIFICATE.replace(old, new, times)


def with_fact(after: str, fact: str) -> str:
    return changed(after, f"{after}\nFACT {fact}")


LINES = CERTIFICATE.splitlines(True)
REFUSED = [
    ("line 1 BADTEXT", ""),
    ("line 1 BADTEXT", "\ufeff" + CERTIFICATE),
    ("line 1 BADTEXT", CERTIFICATE.replace("\n", "\r\n")),
    ("line 1 BADTEXT", changed(" 2\n", " 3\n")),
    ("line 2 BADTEXT", changed(" 2\n", " 1\n")),
    ("line 2 BADTEXT", changed(" references 0", "")),
    ("line 2 BADTEXT", changed("signals 2", "signals 02")),
    ("line 2 BADTEXT", changed("signals 2", "signals 4294967296")),
    ("line 3 BADTEXT", changed("CONST 0", "CONST 4294967296")),
    ("line 3 BADTEXT", changed("FACT 0 0", "FACT 0  0")),
    ("line 3 BADTEXT", changed("FACT 0 0 T0", "FACT 0 0 T00")),
    ("line 4 BADTEXT", changed("FACT 0 0 T1", "FACT 0 0 T24")),
    ("line 5 BADTEXT", changed("ARG 0", "ARG 8")),
    ("line 6 BADTEXT", changed("FACT 0 0 E1", "FACT 0 0 E8")),
    ("line 6 BADTEXT", changed(LINES[4], LINES[4] * 2)),
    ("line 6 BADTEXT", changed(LINES[4] + LINES[5], LINES[5] + LINES[4])),
    ("line 15 BADTEXT", changed("ANY", "ANY ")),
    ("line 51 BADTEXT", CERTIFICATE[:-1]),
    ("line 51 BADTEXT", "".join(LINES[:-1])),
    ("line 52 BADTEXT", CERTIFICATE + "\n"),
    ("line 52 BADTEXT", CERTIFICATE * 2),
    ("WRONGEXCHANGE 2 1 8 4 2 0 AND 2 1 9 4 2 0", changed("points 8", "points 9")),
    (
        "WRONGEXCHANGE 2 1 8 4 2 0 AND 4294967295 1 8 4 2 0",
        changed("signals 2", "signals 4294967295"),
    ),
    ("STRANGE FACT 0 0 T2 ANY", with_fact("FACT 0 0 T1 CONST 0", "0 0 T2 ANY")),
    ("STRANGE FACT 0 0 E0 ARG 1", with_fact("FACT 0 0 E0 ARG 0", "0 0 E0 ARG 1")),
    ("STRANGE FACT 0 0 A0 ANY", with_fact("FACT 0 0 E1 CONST 0", "0 0 A0 ANY")),
    ("STRANGE FACT 1 8 T0 ANY", with_fact("FACT 1 6 AWAITS CONST 0", "1 8 T0 ANY")),
    ("STRANGE FACT 2 0 T0 ANY", with_fact("FACT 1 6 AWAITS CONST 0", "2 0 T0 ANY")),
    (
        "STRANGE FACT 4294967295 4294967295 AWAITS ANY",
        with_fact("FACT 1 6 AWAITS CONST 0", "4294967295 4294967295 AWAITS ANY"),
    ),
    ("MISSING FACT 0 0 T0 CONST 0", "".join(LINES[:2] + LINES[-1:])),
    ("MISSING FACT 0 2 T1 ARG 0", changed("FACT 0 2 T1 ARG 0\n", "")),
]
TAKEN = [
    ("as it is", CERTIFICATE),
    ("in its older form", changed(" references 0", "").replace(" 2\n", " 1\n", 1)),
    ("with a fact more", with_fact("FACT 0 3 T1 ARG 0", "0 3 T1 ANY")),
    (
        "with facts of who is awaited",
        with_fact("FACT 1 6 AWAITS CONST 0", "1 6 AWAITS CONST 4294967295\nFACT 1 6 AWAITS ANY"),
    ),
]


def certificates() -> Iterator[Case]:
    """Changes of a certificate, each with the line that must be written, and certificates that are
    taken.
    """
    words = ["run", "E", "S", "--cert", "F"]
    for line, text in REFUSED:
        yield Case(
            f"certificate of {len(text)} bytes",
            9,
            f"CERTIFICATE {line}\n",
            words,
            {"E": REG, "S": CALLS, "F": text},
        )
    for name, text in TAKEN:
        yield Case(f"certificate {name}", 0, CALLS_TOLD, words, {"E": REG, "S": CALLS, "F": text})
