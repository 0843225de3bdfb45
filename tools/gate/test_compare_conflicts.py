"""What plex-conflicts writes, beside `oracle.conflicts`.

All entries are asked for of the exchanges of tools/gate/cases/analysis, of those of examples/ that
break no rule, and of exchanges made by chance from the seed, of which most have additions in all
their forms, and what looks like them; some have 32 to 64 entries. And of each a pair by chance is
asked for, which may have an entry that is not there. Words that ask for nothing have the usage
line.
"""
from __future__ import annotations

import pathlib
import random
import re
from collections import Counter
from typing import Optional

import pytest

from gate import harness
from gate.checking import EXAMPLES, Tally, check, check_enough
from gate.makers import made_additions, made_exchange, wide_text
from gate.oracle import conflicts as oracle_conflicts
from plextools.text import faults

GATE, LEAST_TEXTS, WIDE, ADDING = 300, 110, 6, 0.75
# How many lines of each word there must be, for each exchange that is made; and how often each form
# of an addition, and of what looks like one, must stand in them.
LEAST: dict[str, float] = {
    "lines AT": 20,
    "lines CLASH": 20,
    "lines ADDS": 4,
    "lines ADDS of fields": 1,
    "lines ADDING NEVER": 2,
    "lines ADDING IF": 5,
    "lines ADDING ALWAYS": 0.1,
    **{f"form {name}": 0.2 for name in made_additions.ADDITIONS},
    **{f"form {name}": 0.004 for name in made_additions.OTHERS},
}
LINES = {
    "lines AT": r"^AT ",
    "lines CLASH": r"^CLASH ",
    "lines ADDS": r"^ADDS ",
    "lines ADDS of fields": r"^ADDS \d+ FIELD ",
    "lines ADDING NEVER": r"^PAIR \d+ \d+ ADDING NEVER ",
    "lines ADDING IF": r"^PAIR \d+ \d+ ADDING IF ",
    "lines ADDING ALWAYS": r"^PAIR \d+ \d+ ADDING ALWAYS$",
}
USAGE = b"usage: plex-conflicts E [i j]\n"
OTHERS = ("", "E 0", "E 0 one", "E -1 0", "E 0 0 0", "E 0 4294967296")


def texts() -> dict[str, pathlib.Path]:
    """The exchanges that stand in files and break no rule, each with its name."""
    cases = sorted((harness.CASES / "analysis").glob("*/exchange"))
    found = {path.parent.name: path for path in cases}
    for path in sorted(EXAMPLES.rglob("exchange.plex")):
        if not faults.first_fault(path.read_bytes()):
            found[str(path.parent.relative_to(EXAMPLES))] = path
    return found


TEXTS = texts()


def pair_by_chance(chance: random.Random, told: str) -> tuple[int, int]:
    """Two numbers of entries; now and then of one that is not there."""
    entries = told.count("\nENTRY ") + told.startswith("ENTRY ")

    def number() -> int:
        return chance.randrange(entries + chance.randrange(2) + (not entries))

    return number(), number()


class Comparer:
    """Asks the program for conflicts in a folder."""

    def __init__(self, program: pathlib.Path, folder: pathlib.Path) -> None:
        self.program, self.folder = program, folder

    def told(self, wanted: str, *asked: int) -> Optional[str]:
        """What is wrong with the answer for these entries, or for all."""
        words = ["E", *map(str, asked)]
        wrong = harness.wrong(harness.answer(self.program, words, self.folder), 0, wanted.encode())
        return f"{' '.join(words)}: {wrong}" if wrong else None

    def compare(self, content: bytes, chance: random.Random) -> Counter[str]:
        """Fails where an answer differs; gives the lines that were compared."""
        harness.write_files(self.folder, {"E": content})
        wanted = oracle_conflicts.conflicts(content)
        asked = pair_by_chance(chance, wanted)
        check(
            self.told(wanted),
            self.told(oracle_conflicts.conflicts(content, asked), *asked),
        )
        return Counter(
            {name: len(re.findall(line, wanted, re.MULTILINE)) for name, line in LINES.items()}
        )


@pytest.fixture
def comparer(conflicts: pathlib.Path, folder: pathlib.Path) -> Comparer:
    """Asks the program in a folder."""
    return Comparer(conflicts, folder)


@pytest.mark.parametrize("name", TEXTS)
def test_text(comparer: Comparer, seed: str, name: str) -> None:
    """The conflicts of an exchange that stands in a file."""
    comparer.compare(TEXTS[name].read_bytes(), random.Random(f"{seed} pair {name}"))


@pytest.mark.by_chance(GATE)
def test_by_chance(comparer: Comparer, seed: str, tally: Tally, number: int) -> None:
    """The conflicts of an exchange that is made."""
    content = made_exchange.made_case(random.Random(f"{seed}.{number}")).exchange
    chance, forms = random.Random(f"{seed} additions {number}"), Counter[str]()
    if chance.random() < ADDING:
        content, forms = made_additions.with_additions(content, chance)
    counts = comparer.compare(content, random.Random(f"{seed} pair {number}"))
    counts.update({f"form {name}": count for name, count in forms.items()})
    tally.add("conflicts by chance", counts, LEAST)


@pytest.mark.parametrize("number", range(WIDE))
def test_wide(comparer: Comparer, seed: str, number: int) -> None:
    """Those of a text of 32 to 64 entries, with additions."""
    chance = random.Random(f"wide {seed}.{number}")
    content = made_additions.with_additions(wide_text.wide_text(chance), chance).text
    comparer.compare(content, chance)


@pytest.mark.parametrize("words", OTHERS, ids=[words or "nothing" for words in OTHERS])
def test_usage(conflicts: pathlib.Path, folder: pathlib.Path, words: str) -> None:
    """Words that ask for nothing have the usage line."""
    check(harness.wrong(harness.answer(conflicts, words.split(), folder), 1, USAGE))


def test_all_texts_are_there() -> None:
    """No exchange of a file is lost."""
    check_enough("exchanges of files", len(TEXTS), LEAST_TEXTS)
