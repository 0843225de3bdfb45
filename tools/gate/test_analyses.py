"""What `analyse` and `certify` write, and which certificates `run` refuses.

Each folder of tools/gate/cases/analysis has an exchange with the analysis that must be written of
it: worked out by hand from docs/ANALYSIS.md, for each kind of statement, each fault, each conflict
and each test. Analyses and certificates of texts made by chance, and of 12 of 32 to 64 entries, are
compared with `oracle.analysis`. Each fact in turn is taken out of the certificate of
examples/certificate: `run` must tell that this one is missing. And facts are put into certificates
of exchanges made by chance: `run` must refuse them as `oracle.analysis` does, or run as `single`.
"""
from __future__ import annotations

import pathlib
import random
from typing import Iterator

import pytest

from gate import harness, more_facts
from gate.checking import EXAMPLES, Tally, check, check_enough
from gate.makers import made_exchange, made_text, wide_text
from gate.oracle import analysis as oracle_analysis

CASES = harness.CASES / "analysis"
NAMES = sorted(path.parent.name for path in CASES.glob("*/exchange"))
CERTIFIED = (EXAMPLES / "certificate" / "exchange.plex").read_bytes()
EXCHANGE = oracle_analysis.Exchange(CERTIFIED)
FACTS = oracle_analysis.least_facts(EXCHANGE)
LEAST_CASES, LEAST_FACTS, WIDE = 66, 48, 12
PUT_IN = 60
# How many certificates with facts put in come to what, for each that is made.
LEAST_PUT_IN = {"taken": 0.25, "MISSING": 0.15, "STRANGE": 0.02}
NO_JOBS = "JOBS 0\nEND DONE"


@pytest.mark.parametrize("name", NAMES)
def test_by_hand(plex: pathlib.Path, name: str) -> None:
    """An analysis is the one that was worked out."""
    wanted = (CASES / name / "analysis").read_bytes()
    check(harness.wrong(harness.answer(plex, ["analyse", CASES / name / "exchange"]), 0, wanted))


def differences(plex: pathlib.Path, text: bytes, folder: pathlib.Path) -> Iterator[str]:
    """What is wrong with the analysis and the certificate of a text."""
    if made_text.first_fault(text):
        yield "it is made to break no rule"
        return
    harness.write_files(folder, {"E": text})
    for word, tell in (
        ("analyse", oracle_analysis.analysis),
        ("certify", oracle_analysis.certificate),
    ):
        told = harness.wrong(harness.answer(plex, [word, "E"], folder), 0, tell(text).encode())
        if told:
            yield f"{word}: {told}"


def compare(plex: pathlib.Path, text: bytes, folder: pathlib.Path) -> None:
    """Fails where the analysis or the certificate of a text differs."""
    told = list(differences(plex, text, folder))
    check(*told, text.decode() if told else None)


@pytest.mark.by_chance(60)
def test_by_chance(plex: pathlib.Path, folder: pathlib.Path, seed: str, number: int) -> None:
    """The analysis and the certificate of a text are those of the second account."""
    compare(plex, made_text.right_text(random.Random(f"{seed}.{number}")), folder)


@pytest.mark.parametrize("number", range(WIDE))
def test_wide(plex: pathlib.Path, folder: pathlib.Path, seed: str, number: int) -> None:
    """The same of a text of 32 to 64 entries."""
    compare(plex, wide_text.wide_text(random.Random(f"wide {seed}.{number}")), folder)


@pytest.mark.parametrize("place", range(len(FACTS) + 1))
def test_without_a_fact(plex: pathlib.Path, folder: pathlib.Path, place: int) -> None:
    """A certificate without this fact is refused for it; with all of them, behind the last one, it
    is taken.
    """
    kept, refused = FACTS[:place] + FACTS[place + 1 :], place < len(FACTS)
    certificate = oracle_analysis.certificate_of(EXCHANGE, kept)
    harness.write_files(folder, {"E": CERTIFIED, "S": b"", "F": certificate})
    line = f"CERTIFICATE MISSING {oracle_analysis.told_fact(FACTS[place])}" if refused else None
    got = harness.answer(plex, ["run", "E", "S", "--cert", "F"], folder)
    told = oracle_analysis.refusal(CERTIFIED, kept)
    check(
        harness.wrong(got, 9 if refused else 0, f"{line or NO_JOBS}\n".encode()),
        f"the oracle tells {told}" if told != line else None,
    )


@pytest.mark.by_chance(PUT_IN)
def test_with_more_facts(
    plex: pathlib.Path, folder: pathlib.Path, seed: str, tally: Tally, number: int
) -> None:
    """A certificate with facts put in is refused for the right fact, or taken."""
    chance = random.Random(f"facts {seed}.{number}")
    case = made_exchange.made_case(chance)
    exchange = oracle_analysis.Exchange(case.exchange)
    facts = more_facts.with_more(exchange, chance)
    certificate = oracle_analysis.certificate_of(exchange, facts)
    harness.write_files(folder, {"E": case.exchange, "S": case.signals, "F": certificate})
    line = oracle_analysis.refusal(case.exchange, facts)
    words = ["E", "S", "--jobs", case.limit]
    single = harness.answer(plex, ["single", *words], folder)
    wanted = (9, f"{line}\n".encode()) if line else (single.status, single.wrote)
    workers = ["--workers", chance.randint(2, 64)]
    got = harness.answer(plex, ["run", *words, *workers, "--cert", "F"], folder)
    tally.add("facts put in", {line.split()[1] if line else "taken": 1}, LEAST_PUT_IN)
    check(harness.wrong(got, *wanted))


def test_all_cases_are_there() -> None:
    """No case and no fact is lost."""
    check_enough("cases", NAMES, LEAST_CASES)
    check_enough("facts", FACTS, LEAST_FACTS)
