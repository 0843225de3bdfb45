"""Runs of `timed`, `trace` and `change` on an exchange that was made by chance, beside the report
of `single`.

- timed: with a table made by chance, as `single` on the file to which this module writes out the
  merged lines, which is what plex-merge writes
- trace: an empty filter adds nothing to the report; SHOW adds a job for each one that ended, with
  the signals that left and the faults as the report has them; and a filter made by chance adds
  those of them that this module finds shown
- change: to the same exchange, after a number of jobs made by chance, as `single`, but for its own
  line, which parts the jobs

`differences(fuzzer, place, case, wanted, chance, command)` tells what is wrong with one of the
`COMMANDS`: `fuzzer` answers words, `place` is the folder of the case's files, and `wanted` is the
answer of `single`.
"""
from __future__ import annotations

import pathlib
import random
from typing import Any, Callable, Iterator, Mapping, Optional, Protocol, Sequence, Union

from gate import harness
from gate.makers import made_exchange

# A status, or none where no answer came, and what was written.
Answer = tuple[Optional[int], bytes]
# What a part of a filter's line is compared with.
Word = Union[str, int, None]
Parts = Mapping[str, Word]


class Asker(Protocol):
    """What answers the words of plex, and knows where plex-merge is."""

    merger: pathlib.Path

    def answer(self, words: Sequence[Any]) -> Answer:
        """The answer of the program."""


COMMANDS = ("timed", "trace", "change")
MANY = range(2, 65)


def compared(shown: str, answer: Answer, wanted: Answer) -> list[str]:
    """What is wrong with an answer, which is its status and what it wrote."""
    if answer[0] is None:
        return [f"{shown}: no answer"]
    if answer != wanted:
        return [
            f"{shown}: status {answer[0]} and not {wanted[0]}; "
            f"{harness.first_difference(answer[1], wanted[1])}"
        ]
    return []


def lines_of(text: bytes) -> Iterator[tuple[int, list[bytes]]]:
    """The words of each line that is not skipped, with its number."""
    for number, line in enumerate(text.split(b"\n"), 1):
        words = line.split()
        if words and not line.startswith(b"!"):
            yield number, words


def written_out(signals: bytes, table: bytes) -> bytes:
    """The signal file of the merged lines: those of the file and of each period, by their counts,
    and numbered anew.
    """
    merged: list[tuple[int, Optional[int], list[bytes]]] = []
    merged += [(int(words[1]), number, words[2:]) for number, words in lines_of(signals)]
    for _, words in lines_of(table):
        every, first, times = (int(words[place]) for place in (1, 3, 5))
        merged.extend((first + every * time, None, words[6:]) for time in range(times))
    merged.sort(key=lambda line: line[0])
    places = {number: place for place, (_, number, _) in enumerate(merged, 1)}
    lines = []
    for count, number, words in merged:
        if words[-2] == b"AS" and number is not None:
            words = words[:-1] + [b"%d" % places[int(words[-1])]]
        lines.append(b" ".join([b"AFTER %d" % count, *words]) + b"\n")
    return b"".join(lines)


def timed(
    fuzzer: Asker, place: pathlib.Path, case: Any, _: Answer, chance: random.Random
) -> list[str]:
    """What is wrong with runs with a table, and with what plex-merge writes."""
    table = made_exchange.made_table(case, chance)
    (place / "table").write_bytes(table)
    (place / "merged").write_bytes(written_out(case.signals, table))
    limit = ["--jobs", case.limit]
    wanted = fuzzer.answer(["single", place / "exchange", place / "merged", *limit])
    if wanted[0] not in harness.SILENT:
        return [f"single of the merged lines: status {wanted[0]}, it wrote {wanted[1][:80]!r}"]
    words = ["timed", place / "exchange", place / "signals", place / "table"]
    merged = harness.answer(fuzzer.merger, words[1:])
    told = compared(
        "plex-merge", (merged.status, merged.wrote), (0, (place / "merged").read_bytes())
    )
    for workers in (1, chance.choice(MANY)):
        told += compared(
            f"timed --workers {workers}",
            fuzzer.answer([*words, "--workers", workers, *limit]),
            wanted,
        )
    return told


class Job:
    """A job of a trace: its line with those of its sends."""

    def __init__(self, line: bytes) -> None:
        self.lines = [line]
        words = line.decode().split()
        self.number, self.signal, self.block = int(words[1]), words[2], words[3]
        self.forlopp, self.outcome = int(words[-2].lstrip("F")), words[-1]

    def outside(self) -> Iterator[bytes]:
        """The lines that a report has for the signals that left."""
        for line in self.lines[1:]:
            words = line.split(b" ")
            if words[3] == b"OUTSIDE":
                yield b" ".join([b"OUT", *words[1:3], *words[4:]])


def jobs_of(trace: bytes) -> list[Job]:
    """The jobs of a trace."""
    jobs: list[Job] = []
    for line in trace.splitlines(keepends=True):
        if line.startswith(b"JOB "):
            jobs.append(Job(line))
        else:
            jobs[-1].lines.append(line)
    return jobs


# Each part of a filter's line, with a word for it, which may be none, and how a job that it shows
# agrees with the word.
SHOWN_BY: dict[str, Callable[[Job, Any], object]] = {
    "BLOCK": lambda job, word: job.block == word,
    "SIGNAL": lambda job, word: job.signal == word,
    "FORLOPP": lambda job, word: job.forlopp == word,
    "FROM": lambda job, word: job.number >= word,
    "UPTO": lambda job, word: job.number <= word,
    "FAULTS": lambda job, word: job.outcome != "ENDED",
}


def made_filter(case: Any, count: int, chance: random.Random) -> Iterator[Parts]:
    """Lines of a filter, each with some of its parts."""
    maker = case.maker
    choices: dict[str, list[Word]] = {
        "BLOCK": [block.name for block in maker.blocks],
        "SIGNAL": [
            signal.name
            for signal in maker.buffered * 3 + maker.direct + maker.combined + maker.outside
        ],
        "FORLOPP": list(range(9)),
        "FROM": list(range(count + 2)),
        "UPTO": list(range(count + 2)),
        "FAULTS": [None],
    }
    kept = [part for part, words in choices.items() if words]
    for _ in range(chance.choice([1, 1, 2, 3])):
        yield {part: chance.choice(choices[part]) for part in kept if chance.random() < 0.3}


def line_of(parts: Parts) -> str:
    """The line of a filter."""
    return (
        " ".join(
            ["SHOW", *(part if word is None else f"{part} {word}" for part, word in parts.items())]
        )
        + "\n"
    )


def is_shown(job: Job, lines: Sequence[Parts]) -> bool:
    """Whether a line of a filter shows a job."""
    return any(all(SHOWN_BY[part](job, word) for part, word in parts.items()) for parts in lines)


def of_report(jobs: Sequence[Job], report: bytes) -> Iterator[str]:
    """What of all jobs is not as the report has it."""
    lines = report.splitlines(keepends=True)
    ended = ended_in(report)
    if [job.number for job in jobs] != list(range(1, ended + 1)):
        yield f"trace of all: its {len(jobs)} jobs are not those up to {ended}"
    if [line for job in jobs for line in job.outside()] != [
        line for line in lines if line.startswith(b"OUT ")
    ]:
        yield "trace of all: other outside signals than the report has"
    faults = [
        line.decode().split(" at ")[0].rsplit(" ", 2)[1:]
        for line in lines
        if line.startswith((b"RELEASE", b"RESTART"))
    ]
    if [[str(job.number), job.outcome] for job in jobs if job.outcome != "ENDED"] != faults:
        yield "trace of all: other faults than the report has"


def trace(
    fuzzer: Asker, place: pathlib.Path, case: Any, wanted: Answer, chance: random.Random
) -> list[str]:
    """What is wrong with traces of none, all and some of the jobs."""

    def answer_to(text: str) -> Answer:
        (place / "filter").write_text(text)
        return fuzzer.answer(
            ["trace", place / "exchange", place / "signals", place / "filter", "--jobs", case.limit]
        )

    status, report = wanted
    told = compared("trace of none", answer_to(chance.choice(["", "! none\n"])), wanted)
    ended, text = answer_to("SHOW\n")
    if ended != status or not text.endswith(report):
        return told + [f"trace of all: status {ended} and not {status}, or another report"]
    jobs = jobs_of(text[: len(text) - len(report)])
    told += of_report(jobs, report)
    lines = list(made_filter(case, len(jobs), chance))
    some = b"".join(line for job in jobs if is_shown(job, lines) for line in job.lines)
    return told + compared(
        "trace of some", answer_to("".join(map(line_of, lines))), (status, some + report)
    )


def ended_in(report: bytes) -> int:
    """How many jobs have ended, as a report has it."""
    return int(next(line for line in report.split(b"\n") if line.startswith(b"JOBS ")).split()[1])


def is_made(count: int, wanted: Answer) -> bool:
    """Whether a run with this answer comes to the change after so many jobs, which a third restart
    forestalls.
    """
    status, report = wanted
    return count < ended_in(report) + (status != 4)


def job_of(line: bytes) -> Optional[int]:
    """The job of an event; none for a line that is lost, or is no event."""
    words = line.split()
    if line.startswith(b"OUT "):
        return int(words[1])
    return (
        int(words[words.index(b"job") + 1]) if line.startswith((b"RELEASE ", b"RESTART ")) else None
    )


def change(
    fuzzer: Asker, place: pathlib.Path, case: Any, wanted: Answer, chance: random.Random
) -> list[str]:
    """What is wrong with a change to the same exchange."""
    (place / "new_exchange").write_bytes(case.exchange)
    count = chance.choice([1, 2, 3, 5, 8, 13, 30, chance.randint(1, 60), chance.randint(1, 400)])
    told: list[str] = []
    words: list[Any] = [
        "change",
        place / "exchange",
        place / "signals",
        place / "new_exchange",
        count,
    ]
    for workers in (1, chance.choice(MANY)):
        shown = f"change {count} --workers {workers}"
        status, text = fuzzer.answer([*words, "--workers", workers, "--jobs", case.limit])
        before, line, after = text.partition(b"CHANGE job %d\n" % count)
        told += compared(shown, (status, before + after), wanted)
        if bool(line) != is_made(count, wanted):
            told.append(f"{shown}: the line of the change is {'there' if line else 'missing'}")
        parted = [(job_of(event) or count) <= count for event in before.splitlines()]
        parted += [(job_of(event) or count + 1) > count for event in after.splitlines()]
        if line and not all(parted):
            told.append(f"{shown}: the change stands between other jobs")
    return told


def differences(
    fuzzer: Asker,
    place: pathlib.Path,
    case: Any,
    wanted: Answer,
    chance: random.Random,
    command: str,
) -> list[str]:
    """What is wrong with one of the further commands."""
    return {"timed": timed, "trace": trace, "change": change}[command](
        fuzzer, place, case, wanted, chance
    )
