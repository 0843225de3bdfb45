"""What the jobs of examples count, by the reference implementation of runs. For counted.py."""
import pathlib
import sys
from typing import Any, Dict, List, NamedTuple, Optional

TOOLS = pathlib.Path(__file__).resolve().parent.parent
sys.path[:0] = [str(TOOLS), str(TOOLS / "python")]
from gate.oracle import machine, runs  # noqa: E402

EXAMPLES = TOOLS.parent / "examples"
PATIENCE, LIMIT = 10**6, 10**6  # statements of a whole example, and its jobs


class Done(NamedTuple):
    """A job that has ended: its signal, how many statements it counted, and how many it sent."""

    signal: str
    statements: int
    sent: int


class Counting(runs.Machine):
    """A run that notes the jobs that have ended."""

    def __init__(self, exchange: bytes, signals: bytes, table: Optional[bytes]) -> None:
        super().__init__(exchange, signals, LIMIT, PATIENCE)
        self.noted: List[Done] = []
        if table is not None:
            periods = runs.periods(self.exchange, table)
            self.lines = machine.Queue(runs.merged(self.lines, periods))

    def note(self, enter: Any, values: Any, job: Any, fault: Optional[str]) -> None:
        self.noted.append(Done(self.exchange.signal_of(enter).name, job.counted, len(job.outbox)))


def jobs(exchange: str, signals: str, table: Optional[str] = None) -> List[Done]:
    """The jobs of the run of an example."""
    periods = (EXAMPLES / table).read_bytes() if table else None
    run = Counting((EXAMPLES / exchange).read_bytes(), (EXAMPLES / signals).read_bytes(), periods)
    run.run()
    return run.noted


def timed_jobs(folder: str) -> List[Done]:
    """The jobs of an example that has a table of ticks."""
    return jobs(f"{folder}/exchange.plex", f"{folder}/signals.txt", f"{folder}/ticks.txt")


def numbers() -> Dict[str, int]:
    """Each number by its name."""
    polls, ported = timed_jobs("guide/own_time_out"), timed_jobs("guide/port")
    switch = jobs("switch/exchange.plex", "switch/light/signals.txt")
    return {
        "jobs that poll": len(polls),
        "polls": sum(job.signal == "LOOK" for job in polls),
        "statements of a tick": max(
            job.statements for job in ported if job.signal == "TICK" and not job.sent
        ),
        "statements of a scan": min(job.statements for job in switch if job.signal == "SCAN"),
    }
