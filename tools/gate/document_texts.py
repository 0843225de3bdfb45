"""The texts that stand in docs/LANGUAGE.md and docs/FORMATS.md for rules: who breaks one, and how
it is mended.
"""
from __future__ import annotations

import re

from gate import harness

LANGUAGE = (harness.ROOT / "docs" / "LANGUAGE.md").read_text()
FORMATS = (harness.ROOT / "docs" / "FORMATS.md").read_text()
OUTPUTS = (harness.ROOT / "docs" / "OUTPUTS.md").read_text()
BROKEN = re.compile(r"^```\n([^`]*)^```\n`(SOURCE line \d+ \w+)`$", re.M)
TOLD = re.compile(r"^`SOURCE line \d+ \w+`$", re.M)
FRAME = re.compile(r"^```\n([^`]*^! program\n[^`]*)^```$", re.M)
SPAN = re.compile(r"`([^`]*)`")
ONLY_SPANS = re.compile(r"`[^`]*`(, `[^`]*`)*")
TICK, NONE = "AFTER 0 TICK K 200 NEW\n", "AFTER 0 TICK K 200 NONE\n"


def rows(heading: str) -> list[list[str]]:
    """The rows of the tables under a heading of FORMATS.md, each as the texts of its cells."""
    part = FORMATS.split(f"\n## {heading}\n", 1)[1].split("\n## ", 1)[0]
    lines = [line for line in part.split("\n") if line.startswith("| `")]
    return [[cell.strip() for cell in line.strip("|").split(" |")] for line in lines]


def spans(cell: str) -> list[str]:
    """The texts of a cell that has nothing but texts in code type; none of another cell."""
    return SPAN.findall(cell) if ONLY_SPANS.fullmatch(cell) else []


class Frame:
    """The text of docs/FORMATS.md, in which fragments take the place of comments."""

    def __init__(self) -> None:
        found = FRAME.findall(FORMATS)
        assert len(found) == 1, f"docs/FORMATS.md has {len(found)} texts with a comment `! program`"
        self.text: str = found[0]

    def line(self, place: str) -> int:
        """The line of a comment."""
        return self.text[: self.text.index(f"! {place}\n")].count("\n") + 1

    def filled(self, **fragments: str) -> str:
        """The text with fragments at the places of comments."""
        text = self.text
        for place, fragment in fragments.items():
            text = text.replace(f"! {place}\n", fragment + "\n")
        return text

    def with_away(self) -> str:
        """L receives AWAY as well, which K sends."""
        text = self.filled(program="SEND AWAY;")
        text = text.replace("RECEIVE FAR;", "RECEIVE FAR; RECEIVE AWAY;")
        return text.replace("ENTER FAR;", "ENTER FAR; ENTER AWAY;")

    def sized(self, size: int) -> str:
        """The text with blanks behind it, so that it has so many bytes."""
        return self.text.ljust(size, " ")

    def cut(self) -> str:
        """The text without its last line."""
        return self.text[: self.text.rstrip("\n").rindex("\n")]
