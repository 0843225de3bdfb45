"""The first fault of exchange texts made by chance: what the program tells, beside
`plextools.text.faults`.

One text for each rule breaks it on purpose, and some just keep a limit; the others are right but
for up to three changes of words. All come by chance from the seed.
"""
from __future__ import annotations

import pathlib
import random
from typing import Optional

import pytest

from gate import harness
from gate.checking import Tally, check, check_enough
from gate.makers import made_text

GATE = 300
PURPOSES, LONGEST_SHOWN = 45, 10000
NAMES = [f"{rule or 'right'}-{place}" for place, (rule, _) in enumerate(made_text.ON_PURPOSE)]


def wrong(
    plex: pathlib.Path, folder: pathlib.Path, text: bytes, fault: Optional[tuple[int, str]]
) -> Optional[str]:
    """What is wrong with the answer to a text of this fault."""
    harness.write_files(folder, {"E": text, "S": b""})
    got = harness.answer(plex, ["run", "E", "S"], folder)
    if fault:
        told: Optional[str] = harness.wrong(got, 2, f"SOURCE line {fault[0]} {fault[1]}\n".encode())
        return told
    is_report = got.wrote.startswith(b"JOBS 0\n")
    return harness.wrong(got, 0) or (None if is_report else f"it wrote {got.wrote[:80]!r}")


def compare(plex: pathlib.Path, folder: pathlib.Path, text: bytes) -> str:
    """The rule that both tell of a text, or "right"."""
    fault = made_text.first_fault(text)
    told = wrong(plex, folder, text, fault)
    check(f"{told}; plextools tells {fault}\n{text[:LONGEST_SHOWN].decode()}" if told else None)
    return fault[1] if fault else "right"


@pytest.mark.parametrize("place", range(len(made_text.ON_PURPOSE)), ids=NAMES)
def test_on_purpose(plex: pathlib.Path, folder: pathlib.Path, seed: str, place: int) -> None:
    """A text breaks the rule for which it is made, or just keeps a limit."""
    rule, make = made_text.ON_PURPOSE[place]
    text = made_text.on_purpose(make, random.Random(f"{seed}.{rule}.{place}"))
    assert compare(plex, folder, text) == (rule or "right")


@pytest.mark.by_chance(GATE)
def test_by_chance(
    plex: pathlib.Path, folder: pathlib.Path, seed: str, tally: Tally, number: int
) -> None:
    """A text with some changes of words."""
    text = made_text.changed_text(random.Random(f"{seed}.{number}"))
    tally.add("texts by chance", {compare(plex, folder, text): 1})


def test_each_rule_is_made() -> None:
    """Each rule has a text that breaks it."""
    check_enough("texts on purpose", made_text.ON_PURPOSE, PURPOSES)
    assert {rule for rule, _ in made_text.ON_PURPOSE} >= set(made_text.RULES)
