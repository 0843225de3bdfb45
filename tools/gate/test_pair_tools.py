"""What pairs_dot and pairs_table make of strange input: longest names draw, and what would steer a
terminal, a graph or a page is refused as no analysis, or told by escapes.
"""
from __future__ import annotations

import pathlib
import shutil
import subprocess
from typing import NamedTuple, Optional, Sequence, Union
from xml.etree import ElementTree

import pytest

from gate import harness
from plextools import limits

TOOLS = {
    "dot": ("pairs_dot",),
    "blocks": ("pairs_dot", "--blocks"),
    "table": ("pairs_table",),
    "html": ("pairs_table", "--html"),
    "svg": ("pairs_table", "--svg"),
}
READERS = ("dot", "html")  # of an analysis, one form of each tool
LONGEST, FAILED = 300, 1
NAME = "X" * limits.MOST_LETTERS
ANALYSIS = f"""ENTRY 0 {NAME} {NAME} LEVEL B
WRITE VAR {NAME}.{NAME}
ENTRY 1 A{NAME[1:]} {NAME} LEVEL D
PAIR 0 0 NEVER VARIABLE {NAME}.{NAME}
PAIR 0 1 IF FORLOPP
PAIR 0 1 IF FIRST HOLDS NO {NAME}.{NAME}
END PAIRS
"""
STRANGE = {
    "script": "<script>alert(1)</script>",
    "quotes": "A\"B'C`",
    "escapes": "A\x1b[2J\x1b]0;x\x07\x9b",
    "label": 'A"];evil[label="',
    "long": "Y" * 4096 + "<",
}
STEERING = ("\x1b", "\x07", "\x9b", "\r")


class Answer(NamedTuple):
    """The status of a tool, and what it wrote."""

    status: int
    wrote: str
    complaint: str


def told(
    words: Sequence[str], file: Optional[Union[str, pathlib.Path]] = None, given: str = ""
) -> Answer:
    """What a tool makes of a file, or of its standard input."""
    done = subprocess.run(
        [harness.ROOT / "tools" / "bin" / words[0], *words[1:], *([file] if file else [])],
        input=given.encode(),
        capture_output=True,
        timeout=LONGEST,
    )
    return Answer(done.returncode, done.stdout.decode(), done.stderr.decode())


@pytest.mark.parametrize("form", TOOLS)
def test_longest_names(form: str) -> None:
    """Names of as many letters as there may be stand in what is drawn."""
    done = told(TOOLS[form], given=ANALYSIS)
    assert done.status == 0 and not done.complaint
    assert NAME in done.wrote or form == "svg"
    if form == "svg":
        ElementTree.fromstring(done.wrote)
    if TOOLS[form][0] == "pairs_dot" and shutil.which("dot"):
        drawn = subprocess.run(
            ["dot", "-Tsvg"], input=done.wrote.encode(), capture_output=True, timeout=LONGEST
        )
        assert drawn.returncode == 0 and not drawn.stderr
        assert NAME in "".join(ElementTree.fromstring(drawn.stdout).itertext())


@pytest.mark.parametrize("form", READERS)
@pytest.mark.parametrize("name", STRANGE)
def test_strange_analyses(form: str, name: str) -> None:
    """A line with what may stand in no name is refused, and nothing of it reaches a terminal."""
    for line in (
        f"ENTRY 0 {STRANGE[name]} K LEVEL B",
        f"ENTRY 0 G K LEVEL B\nPAIR 0 0 NEVER VARIABLE K.{STRANGE[name]}",
    ):
        done = told(TOOLS[form], given=f"{line}\nEND PAIRS\n")
        assert (done.status, done.wrote) == (FAILED, "")
        assert "is none of an analysis" in done.complaint and len(done.complaint) < 400
        assert not any(letter in done.complaint for letter in STEERING)


@pytest.mark.parametrize("form", READERS)
def test_strange_files(form: str, tmp_path: pathlib.Path) -> None:
    """The name of a file steers nothing, whether it is there or not."""
    for name in ("".join(STRANGE[one] for one in ("script", "quotes", "escapes")), STRANGE["long"]):
        place = tmp_path / name.replace("/", "")[:200]
        missing = told(TOOLS[form], place)
        assert missing.status == FAILED and not missing.wrote
        assert not any(letter in missing.complaint for letter in STEERING)
        place.write_text(ANALYSIS)
        done = told(TOOLS[form], place)
        assert done.status == 0 and not any(letter in done.wrote for letter in STEERING)
        assert "<script" not in done.wrote
