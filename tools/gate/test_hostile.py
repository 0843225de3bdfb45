"""What a careless or hostile user may give to the program.

Every front of a small exchange text; texts that break each rule; words, files and outputs that are
none; limits that are just kept and just passed; signal files, tables, filters and certificates that
are almost right; late faults, many jobs and calls; and plex-merge on all of these lines, files and
outputs, and plex-conflicts on some. Each case has the status and the text that docs/FORMATS.md
gives, and what it gives for the standard error, byte for byte. Each word of a fault and each reason
has a case.
"""
from __future__ import annotations

import pathlib
from typing import Iterable, Iterator

import pytest

from gate import hostile_lines, hostile_merge, hostile_words, sentence_tables
from gate.checking import check, check_enough
from gate.hostile_case import ANY_WRITTEN, FAULTY, Case
from gate.makers import far_cases

LEAST = 1482


def of_rows(rows: Iterable[far_cases.Row], *command: str) -> Iterator[Case]:
    """The cases of far_cases.py; a word stands for the command of a program that has none."""
    for row in rows:
        error = row.error
        if error is None and row.status in FAULTY:
            error = sentence_tables.complaint([*command, *row.words], row.text)
        yield Case(row.name, row.status, row.text, row.words, row.files, row.output, error)


def far() -> Iterator[Case]:
    """The cases far from the beginning."""
    return of_rows(far_cases.cases())


GROUPS = {
    "fronts": hostile_words.fronts,
    "rules": hostile_words.rules,
    "words": hostile_words.commands,
    "devices": hostile_words.devices,
    "limits": hostile_words.limits,
    "signal files": hostile_lines.signal_files,
    "tables": hostile_lines.tables,
    "filters": hostile_lines.filters,
    "certificates": hostile_lines.certificates,
    "far": far,
}
ALL = [(group, case) for group, cases in GROUPS.items() for case in cases()]
MERGES = [*of_rows(far_cases.merges(), "merge"), *hostile_merge.cases()]
CONFLICTS = list(of_rows(far_cases.conflicts(), "conflicts"))


def must_complain() -> str:
    """What must stand on the standard error in all cases whose text is known."""
    cases = [*(case for _, case in ALL), *MERGES, *CONFLICTS]
    told = [case.complaint(case.text) for case in cases if case.text is not ANY_WRITTEN]
    return "".join(told)


def untried(complaints: str) -> Iterator[str]:
    """The words of faults, and the reasons, of which none of these lines tells."""
    for table, rows in sentence_tables.documented().items():
        for row in rows:
            end = f": {row}\n" if isinstance(row, str) else f" {row[0]}: {row[1]}\n"
            if end not in complaints:
                yield f"{table}: no case has {end[1:].strip()}"


@pytest.mark.parametrize(
    "case", [case for _, case in ALL], ids=[f"{group}: {case.name}" for group, case in ALL]
)
def test_hostile(plex: pathlib.Path, folder: pathlib.Path, case: Case) -> None:
    """A case ends, writes and complains as it must."""
    check(case.told(plex, folder))


@pytest.mark.parametrize("case", MERGES, ids=[case.name for case in MERGES])
def test_plex_merge(merger: pathlib.Path, folder: pathlib.Path, case: Case) -> None:
    """The same of plex-merge."""
    check(case.told(merger, folder))


@pytest.mark.parametrize("case", CONFLICTS, ids=[case.name for case in CONFLICTS])
def test_plex_conflicts(conflicts: pathlib.Path, folder: pathlib.Path, case: Case) -> None:
    """The same of plex-conflicts."""
    check(case.told(conflicts, folder))


def test_each_sentence_has_a_case() -> None:
    """There is a case for each word of a fault and for each reason."""
    check(*untried(must_complain()))


def test_all_cases_are_there() -> None:
    """No case is lost."""
    check_enough("cases", [*ALL, *MERGES, *CONFLICTS], LEAST)
