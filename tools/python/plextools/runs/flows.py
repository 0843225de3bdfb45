"""The signals that each job of a run sent, inside it and to other jobs: what a page draws of them.

Each of them is kept once, and so is each list of them, so that the flows of many jobs need little
room. A job has so many at most, and so have all jobs together; how many more it sent is counted.
"""
from typing import Dict, List, NamedTuple, Sequence, Tuple

from plextools.runs.observed import Kind, Message, Step

MOST_OF_JOB, MOST_OF_ALL = 100, 400_000


class Signal(NamedTuple):
    """A signal that a job sent, by the statement of a line, from block to block."""

    kind: Kind
    name: str
    values: Tuple[int, ...]
    source: int
    target: int
    line: int


class Flows:
    """What the first jobs of a run sent. `lists` has places in `signals`, `of_jobs` places in
    `lists`, and `left_out` how many more signals a job sent.
    """

    def __init__(self) -> None:
        self.numbers: Dict[Signal, int] = {}
        self.list_numbers: Dict[Tuple[int, ...], int] = {}
        self.of_jobs: List[int] = []
        self.left_out: Dict[int, int] = {}
        self.kept = 0

    @property
    def signals(self) -> List[Signal]:
        return list(self.numbers)

    @property
    def lists(self) -> List[Tuple[int, ...]]:
        return list(self.list_numbers)

    @property
    def is_full(self) -> bool:
        return self.kept >= MOST_OF_ALL

    def add(self, steps: Sequence[Step], left_out: int) -> None:
        """The next job has ended, and did this."""
        sent = [step for step in steps if isinstance(step, Message)]
        told = tuple(
            self.numbers.setdefault(signal_of(step), len(self.numbers))
            for step in sent[:MOST_OF_JOB]
        )
        left = len(sent) - len(told) + left_out
        if left:
            self.left_out[len(self.of_jobs)] = left
        self.of_jobs.append(self.list_numbers.setdefault(told, len(self.list_numbers)))
        self.kept += len(told)


def signal_of(step: Message) -> Signal:
    return Signal(step.kind, step.signal, step.values, step.source, step.target, step.line)
