"""All planted faults, and the list of them that README.md has."""
import textwrap
from typing import Dict, List

from gate.planted import answers, edits, option_edits, tool_edits
from gate.planted.checks import called
from gate.planted.planted import Planted

PLANTED: List[Planted] = [
    *answers.ALTERED,
    *edits.EDITS,
    *tool_edits.EDITS,
    *option_edits.EDITS,
]
BY_NAME = {row.name: row for row in PLANTED}
SHOWN, WIDTH = 70, 100  # letters of words, and of a line


def of_check(row: Planted) -> str:
    """The check of a row, with its words where they are few."""
    words = [f'"{word}"' if " " in word else word for word in row.words]
    if sum(map(len, words)) > SHOWN:
        return f"`{called(row.check)}`, some of its cases"
    return f"`{' '.join([called(row.check), *words])}`"


def item(row: Planted) -> str:
    """A row in Markdown."""
    told = f"- `{row.name}` ({row.of}): {row.told}"
    lines = textwrap.wrap(
        told, WIDTH, subsequent_indent="  ", break_long_words=False, break_on_hyphens=False
    )
    return "\n".join(lines) + "\n"


def listed() -> str:
    """All rows in Markdown, below a heading for each check that must tell them."""
    found: Dict[str, List[str]] = {}
    for row in sorted(PLANTED, key=lambda row: (row.check, row.words, row.name)):
        found.setdefault(of_check(row), []).append(item(row))
    return "\n".join(f"### {check}\n\n{''.join(rows)}" for check, rows in found.items())
