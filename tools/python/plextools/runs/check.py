"""Whether a run of this package is that of plex: a difference is an error that says so.

`compared(machine, wrote)` goes on with a run and gives its jobs, while it looks whether each of
them, with what it sent and how it ended, and at the end the report, are what `plex trace` wrote of
all jobs. `compare_report(machine, wrote)` looks at the report alone. Both take the lines of plex
without their ends, and raise `Different` at the first line that differs.
"""
from typing import Iterable, Iterator, List

from plextools.programs import Wrong
from plextools.runs.machine import Job, Machine

SHOWN = 200


class Different(Exception):
    """What differs, in words."""


def shown(line: bytes) -> str:
    """A line as a message shows it."""
    return repr(line[:SHOWN].decode("ascii", "backslashreplace"))


def told_job(machine: Machine, job: Job) -> List[bytes]:
    """The lines of a trace for a job that has retired."""
    text = machine.program.text
    signals, names = machine.program.signal_names, [block.name.text for block in text.blocks]
    enters = text.entries

    def told(signal: str, block: str, values: Iterable[int]) -> str:
        return " ".join([signal, block, *map(str, values)])

    enter = enters[job.entry]
    start = told(enter.signal.text, names[enter.block], job.values)
    lines = [f"JOB {job.place} {start} F{job.forlopp} {job.fault or 'ENDED'}"]
    for signal, entry, values, fresh in job.outbox:
        block = "OUTSIDE" if entry < 0 else names[enters[entry].block]
        forlopp = "NEW" if fresh else f"F{job.forlopp}"
        lines.append(f"SEND {job.place} {told(signals[signal], block, values)} {forlopp}")
    return [line.encode("ascii") for line in lines]


def compared(machine: Machine, wrote: Iterable[bytes]) -> Iterator[Job]:
    """The jobs of a run, each as the trace has it; `wrote` are the lines of `plex trace` without
    their ends, of all jobs.
    """
    lines = iter(wrote)
    for job in machine.jobs():
        for line in told_job(machine, job):
            compare_line(line, next(lines, b""), f"job {job.place}")
        yield job
    compare_report(machine, lines)


def compare_line(own: bytes, line: bytes, where: str) -> None:
    if own != line:
        raise Different(f"{where}: {shown(own)} and not {shown(line)}, which plex writes")


def compare_report(machine: Machine, wrote: Iterable[bytes]) -> None:
    """Compares the report of a run that is over with the lines of the one that plex wrote."""
    lines = iter(wrote)
    for line in machine.report_lines():
        compare_line(line, next(lines, b""), "the report")
    more = next(lines, None)
    if more is not None:
        raise Different(f"the report ends, and not with {shown(more)}, which plex writes")


def refused(different: Different) -> Exception:
    """The error with which a tool ends."""
    told = "its own account of the run differs from that of plex, which is a fault of this tool"
    return Wrong(f"{told}: {different}")
