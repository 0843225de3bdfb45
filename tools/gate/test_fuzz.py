"""Exchanges made by chance: runs with many workers, and the further commands, beside `single`.

Each case is an exchange with a signal file, as made_exchange makes it from the seed. It is run once
by `single` and then by `run` with one worker, and with three numbers of them from 2 to 64, others
for each case, or as many as `--workers` says, and its own certificate, so that its first jobs may
run at once. Each second one is run with long loops in its jobs too, without a certificate and with
one, so that its runs go over to several at once. What they write and their status must be the same,
byte for byte. Each case is also run by one of `timed`, `trace` and `change` in turn, and compared
as further_runs says it. The files of a case that fails are kept in a folder that it names.
"""
from __future__ import annotations

import pathlib
import random
import re
import tempfile
from collections import Counter
from typing import Any, Iterator, Mapping, NamedTuple, Sequence

import pytest

from gate import further_runs, harness
from gate.checking import Tally, check
from gate.further_runs import Answer
from gate.makers import made_exchange

GATE, LONG_ONES = 200, 2
WORKERS = (range(2, 9), range(9, 33), range(33, 65))  # one of each is drawn for each case
ENDINGS = {0: b"END DONE\n", 4: b"END RESTART\n", 5: b"END LIMIT\n"}
REPORT = re.compile(rb"(.*\n)?JOBS \d+\n(.*\n)?END [A-Z]+\n", re.S)
EVENTS = ("OUT", "RELEASE", "LOST", "RESTART")
FAULTS = (
    "POINTER",
    "RANGE",
    "DIVIDE",
    "NOTOWN",
    "NOFORLOPP",
    "CHAIN",
    "BADEND",
    "DEPTH",
    "SENDS",
    "BUDGET",
)


def is_report(answer: Answer) -> bool:
    """Whether a run came to a report."""
    status, text = answer
    is_ended = status in ENDINGS and text.endswith(ENDINGS[status])
    return is_ended and REPORT.fullmatch(text) is not None


class Programs(NamedTuple):
    """The programs that are run."""

    plex: pathlib.Path
    merger: pathlib.Path


class Fuzzer:
    """Runs a case whose files stand in a folder."""

    def __init__(self, programs: Programs, workers: Sequence[int], place: pathlib.Path) -> None:
        self.plex, self.merger = programs
        self.workers, self.place = workers, place

    def answer(self, words: Sequence[Any]) -> Answer:
        """The status and what was written; no status where no answer comes."""
        got = harness.answer(self.plex, words)
        return got.status, got.wrote

    def single(self, exchange: str, limit: int) -> Answer:
        """The answer of `single` to an exchange."""
        return self.answer(
            ["single", self.place / exchange, self.place / "signals", "--jobs", limit]
        )

    def run(self, exchange: str, limit: int, *more: Any) -> Answer:
        """The answer of `run` with these options."""
        words = ["run", self.place / exchange, self.place / "signals", *more]
        return self.answer([*words, "--jobs", limit])

    def differences(self, limit: int, wanted: Answer) -> Iterator[str]:
        """What is wrong with the runs with several workers."""
        status, text = self.answer(["certify", self.place / "exchange"])
        certificate = self.place / "certificate"
        certificate.write_bytes(text)
        if status != 0:
            yield f"certify: status {status}"
        for workers in self.workers:
            got = self.run("exchange", limit, "--workers", workers, "--cert", certificate)
            yield from further_runs.compared(f"run --workers {workers} --cert", got, wanted)
        got = self.run("exchange", limit, "--workers", 1)
        yield from further_runs.compared("run --workers 1", got, wanted)

    def of_long_jobs(self, case: Any) -> Iterator[str]:
        """What is wrong with the runs of the same jobs, each with a long loop."""
        (self.place / "long_jobs").write_bytes(made_exchange.with_long_jobs(case.exchange))
        certificate = self.place / "long_certificate"
        certificate.write_bytes(self.answer(["certify", self.place / "long_jobs"])[1])
        wanted = self.single("long_jobs", case.limit)
        runs: list[tuple[int, list[Any]]] = [
            (self.workers[0], ["--cert", certificate]),
            (self.workers[-1], []),
        ]
        for workers, more in runs:
            shown = f"run --workers {workers}, jobs that are long{', certified' if more else ''}"
            got = self.run("long_jobs", case.limit, "--workers", workers, *more)
            yield from further_runs.compared(shown, got, wanted)

    def keep(self, kept: pathlib.Path, limit: int) -> str:
        """Keeps the files of the case, and tells where."""
        kept.mkdir(parents=True, exist_ok=True)
        for file in self.place.iterdir():
            (kept / file.name).write_bytes(file.read_bytes())
        (kept / "words").write_text(f"--jobs {limit}\n")
        return f"kept in {kept}"


def counts_of(report: bytes, statements: Mapping[str, int], further: str) -> Counter[str]:
    """What came in a report."""
    lines = report.decode().split("\n")
    counts: Counter[str] = Counter({"jobs": further_runs.ended_in(report)})
    counts.update(dict.fromkeys(FAULTS, 0))
    counts[f"ended {lines[-2].split()[1]}"] += 1
    counts[further] += 1
    counts.update(f"with {word}" for word in {line.split(" ", 1)[0] for line in lines} & {*EVENTS})
    for line in lines:
        if line.startswith(("RELEASE", "RESTART")):
            counts[line.split(" at ")[0].rsplit(" ", 1)[1]] += 1
    counts.update({f"statement {word}": number for word, number in statements.items()})
    return counts


def drawn_workers(seed: str, number: int) -> list[int]:
    """The numbers of workers of a case."""
    chance = random.Random(f"{seed}.{number}.workers")
    return [chance.choice(some) for some in WORKERS]


@pytest.mark.by_chance(GATE)
def test_fuzz(
    plex: pathlib.Path,
    merger: pathlib.Path,
    folder: pathlib.Path,
    seed: str,
    tally: Tally,
    pytestconfig: pytest.Config,
    number: int,
) -> None:
    """All runs of a case write the same."""
    case = made_exchange.made_case(random.Random(f"{seed}.{number}"))
    harness.write_files(folder, {"exchange": case.exchange, "signals": case.signals})
    workers = pytestconfig.option.workers or drawn_workers(seed, number)
    fuzzer = Fuzzer(Programs(plex, merger), workers, folder)
    wanted = fuzzer.single("exchange", case.limit)
    further = further_runs.COMMANDS[number % len(further_runs.COMMANDS)]
    if is_report(wanted):
        tally.add("fuzz", counts_of(wanted[1], case.counts, further))
        told = list(fuzzer.differences(case.limit, wanted))
        told += fuzzer.of_long_jobs(case) if number % LONG_ONES == 0 else []
        chance = random.Random(f"{seed}.{number}.{further}")
        told += further_runs.differences(fuzzer, folder, case, wanted, chance, further)
    else:
        told = [f"single: status {wanted[0]}, it wrote {wanted[1][:80]!r}"]
    if told:
        room = pytestconfig.option.keep or pathlib.Path(tempfile.gettempdir(), "plex_fuzz")
        told.append(fuzzer.keep(room / f"case_{seed}_{number}", case.limit))
    check(*told)
