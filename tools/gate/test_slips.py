"""Slips in a text of several hundred statements: what plex-check tells first, and its cures.

Each row of cases/slips/slips.txt has one slip in examples/switch. plex-check tells it alone, by its
cause. Where the cures are made that it gives, the text is the one without the slip again, or
another one without any fault or warning, which plex accepts. In some rows no cure can be known, and
a sentence says what is to be done.
"""
import json
import pathlib
import re
from typing import Any, Dict, List, NamedTuple, Tuple

import pytest

from gate import harness
from gate.test_diagnostics import mend
from plextools.commands import check

BASE = (harness.ROOT / "examples" / "switch" / "exchange.plex").read_text()
ROWS = (harness.CASES / "slips" / "slips.txt").read_text()
TOLD = re.compile(r"told (\d+):(\d+) (\w+), (restored|accepted|in words)")
LEAST, LEAST_STATEMENTS, MOST_ROUNDS = 97, 200, 3
Record = Dict[str, Any]


class Slip(NamedTuple):
    """A slip: its name, what stands in the text with what is put in its place, the place and the
    word that are told, the ends of the sentence and of the cure in words, and what comes of that.
    """

    name: str
    parts: List[Tuple[str, str]]
    place: Tuple[int, int]
    word: str
    sentence: str
    cure: str
    end: str


def read(block: str) -> Slip:
    """A row of the table."""
    lines = block.splitlines()
    words = {line.split(" ", 1)[0]: line.split(" ", 1)[1] for line in lines if line[:1].isalpha()}
    told = TOLD.fullmatch(f"told {words['told']}")
    assert told, block
    hunks = "\n".join(line for line in lines if line[:1] in " +-.").split("...")
    parts = [(side(hunk, "-"), side(hunk, "+")) for hunk in hunks]
    place = int(told[1]), int(told[2])
    return Slip(words["slip"], parts, place, told[3], words["says"], words.get("cure", ""), told[4])


def side(hunk: str, mark: str) -> str:
    """The lines of a part that stand before a change, or behind it."""
    lines = [line for line in hunk.strip("\n").split("\n") if line[:1] in ("", " ", mark)]
    return "".join(f"{line[1:]}\n" for line in lines)


BLOCKS = re.split(r"^slip ", re.sub(r"(?m)^!.*\n", "", ROWS), flags=re.M)[1:]
SLIPS = [read(f"slip {block}") for block in BLOCKS]


def name_of(slip: Slip) -> str:
    return slip.name


def with_slip(slip: Slip) -> str:
    """The text with a slip, each part of which stands there once."""
    text = BASE
    for before, behind in slip.parts:
        assert text.count(f"\n{before}") == 1, before
        text = text.replace(f"\n{before}", f"\n{behind}")
    return text


def records(path: pathlib.Path) -> List[Record]:
    """What is told of a text."""
    return [json.loads(line) for line in check.checked(["--json", str(path)]).lines]


def test_there_are_enough() -> None:
    """No row was lost, and the text is no small one."""
    assert len({slip.name for slip in SLIPS}) == len(SLIPS) >= LEAST
    assert BASE.count(";") > LEAST_STATEMENTS


@pytest.mark.parametrize("slip", SLIPS, ids=name_of)
def test_told_by_cause(slip: Slip, tmp_path: pathlib.Path) -> None:
    """A slip is told once, by its cause, and nothing beside it."""
    path = tmp_path / "exchange.plex"
    path.write_text(with_slip(slip))
    told = records(path)
    assert len(told) == 1, told
    (only,) = told
    assert ((only["line"], only["column"]), only["word"]) == (slip.place, slip.word)
    assert only["message"].endswith(slip.sentence)
    assert (only["fix"] or {"message": ""})["message"] == slip.cure
    long_form = "".join(check.checked(["--long", str(path)]).lines)
    has_line = re.search(r"^help: (?:.*\n)(?: {4}.*\n)* *\|\n *\d+ [|+-] ", long_form, re.M)
    assert bool(has_line) == (slip.end != "in words")


@pytest.mark.parametrize("slip", SLIPS, ids=name_of)
def test_cures(plex: pathlib.Path, slip: Slip, tmp_path: pathlib.Path) -> None:
    """The cures make a text of it that is right."""
    path = tmp_path / "exchange.plex"
    path.write_text(with_slip(slip))
    for _ in range(MOST_ROUNDS):
        told = records(path)
        if not told or not told[0]["fix"] or not told[0]["fix"]["edits"]:
            break
        mend(path, told[0]["fix"]["edits"])
    text = path.read_text()
    if slip.end == "in words":
        assert text == with_slip(slip)
        return
    assert told == []
    assert (text == BASE) == (slip.end == "restored")
    (tmp_path / "none").write_text("")
    answer = harness.answer(plex, ["run", "exchange.plex", "none"], tmp_path)
    assert (answer.status, answer.complaint) == (0, b"")
