"""Cases of test_hostile.py: plex-merge with the lines, devices and limits of the others."""
from __future__ import annotations

import functools
import operator
from typing import Any, Callable, Iterator

from gate import further_runs, hostile_lines, sentence_tables
from gate.hostile_case import LONG, THREE, TICKS, Case, Content
from gate.hostile_words import UNREAD
from plextools.limits import MOST_BYTES

NAME, WORDS = "plex-merge", ("E", "S", "T")
MANY = 300_000  # lines, which take more than 30 MB
NO_MEMORY = f"{NAME}: out of memory: give it more, or merge smaller files\n"
PERIOD = "EVERY 1 FROM 0 TIMES 3 TICK COUNTER NONE\n"


def bytes_of(content: Content) -> bytes:
    """What stands in a file."""
    made = content() if callable(content) else content
    return made if isinstance(made, bytes) else made.encode()


def lines() -> Iterator[Case]:
    """The signal files and tables of the other cases: refused with the same word and line, or
    merged.
    """
    for case in [*hostile_lines.signal_files(), *hostile_lines.tables()]:
        told, files = case.text or "", {name: case.files[name] for name in WORDS}
        error = ""
        if case.status:
            error = sentence_tables.complaint(["merge", *WORDS], told)
        else:
            told = further_runs.written_out(bytes_of(files["S"]), bytes_of(files["T"])).decode()
        yield Case(f"merge: {case.name}", case.status, told, WORDS, files, error=error)


def placed(name: str) -> Iterator[tuple[str, ...]]:
    """The words with this one in each place."""
    for place in range(len(WORDS)):
        yield (*WORDS[:place], name, *WORDS[place + 1 :])


def devices() -> Iterator[Case]:
    """Files that cannot be read, outputs that take no more, and memory that is short."""
    files = {"E": TICKS, "S": THREE, "T": PERIOD}
    for name, told in UNREAD.items():
        for words in placed(name):
            shown = " ".join(word[:20] for word in words)
            yield Case(f"merge of {shown!r}", 6, "", words, files, error=f"{NAME}: {told}\n")
    for words in placed("locked"):
        error = f"{NAME}: locked: no right to read it\n"
        some = {**files, "locked": ""}
        yield Case(f"merge of {words} locked", 6, "", words, some, error=error, locked="locked")
    small: dict[str, Any] = {"limit": "trap '' XFSZ; ulimit -f 1;", "output": ">>long"}
    error = LONG.replace("plex:", f"{NAME}:", 1)
    some = {**files, "long": "x" * 4096}
    yield Case("merge to an output of a limit", 7, "", WORDS, some, error=error, **small)
    many: dict[str, Content] = {**files, "S": lambda: b"AFTER 0 TICK COUNTER NONE\n" * MANY}
    limit, error = "ulimit -v 30000;", NO_MEMORY
    yield Case("merge, for which memory is short", 8, "", WORDS, many, error=error, limit=limit)
    for output in ("2>/dev/full", "2>&-"):
        words = ("E", "missing", "T")
        yield Case(f"merge, a complaint with {output}", 6, "", words, files, output=output)
        told = THREE + "AFTER 0 TICK COUNTER NONE\nAFTER 1 TICK COUNTER NONE\n"
        told += "AFTER 2 TICK COUNTER NONE\n"
        yield Case(f"merge, no complaint with {output}", 0, told, WORDS, files, output=output)


def limits() -> Iterator[Case]:
    """Files as large as one may be, and larger by a byte."""
    refused = {"E": (2, "SOURCE"), "S": (3, "SIGNALS"), "T": (11, "TABLE")}
    for name, (status, first) in refused.items():
        for size in (MOST_BYTES, MOST_BYTES + 1):
            files: dict[str, Content] = {"E": "", "S": "", "T": ""}
            files[name] = functools.partial(operator.mul, b" ", size)
            told = f"{first} line 0 TOOLARGE\n" if size > MOST_BYTES else ""
            error = sentence_tables.complaint(["merge", *WORDS], told) if told else ""
            number = status if told else 0
            yield Case(f"merge, {name} of {size} bytes", number, told, WORDS, files, error=error)


GROUPS: tuple[Callable[[], Iterator[Case]], ...] = (lines, devices, limits)


def cases() -> Iterator[Case]:
    """All of them."""
    for group in GROUPS:
        yield from group()
