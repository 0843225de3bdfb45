"""Exchange texts, each with the rule that it breaks, and what is wrong with the program's answer to
one.

Each text is put on one line, but for a new line at an `@`, which stands before the token or the
byte whose line is told, or at the end of a text that ends too soon. So the fault must be told on
line 2, and on line 1 in a text without an `@`. A text of the rule OK breaks none: its run, without
a signal line, must end with status 0 and a report of no jobs.
"""
from __future__ import annotations

import pathlib
from typing import NamedTuple, Sequence

from gate import harness

JOBS = b"JOBS 0\n"
END = 100


class Refusal(NamedTuple):
    """A text with the rule that it breaks."""

    rule: str
    text: str


def table(texts: Sequence[tuple[str, str]]) -> list[Refusal]:
    """The rows of a table."""
    return [Refusal(*row) for row in texts]


def names(texts: Sequence[tuple[str, str]]) -> list[str]:
    """The name of each row: its rule and its number."""
    return [f"{rule}-{number}" for number, (rule, _) in enumerate(texts)]


def told_of(plex: pathlib.Path, folder: pathlib.Path, refusal: Refusal) -> str | None:
    """What is wrong with the answer to a text, or None."""
    rule, text = refusal
    harness.write_files(folder, {"E": text.replace("@", "\n"), "S": ""})
    got = harness.answer(plex, ["run", "E", "S"], folder)
    if rule != "OK":
        wanted = f"SOURCE line {1 + text.count('@')} {rule}\n".encode()
        told: str | None = harness.wrong(got, 2, wanted)
    else:
        first = got.wrote.splitlines(keepends=True)[:1]
        told = harness.wrong(got, 0) or (None if first == [JOBS] else f"its first line is {first}")
    return f"{told}; for .. {text[-END:]}" if told else None
