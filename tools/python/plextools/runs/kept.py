"""The states of a run that are kept, so that it can be gone back to any of its jobs.

Those of the `grid` are made as the run goes on for the first time, so much work apart; where they
become too many, every second one is dropped, and the others come twice as far apart. Those `near`
are made when the run goes on once more to a job: just before it, and 1, 2, 4, 8 jobs and so on
before, so that a few steps back cost a few jobs. Both are bounded, by their number and by their
weight, which is how many cells, jobs that wait and records they have together.
"""
from typing import Dict, List, NamedTuple

from plextools.runs.machine import Machine, State

MOST_OF_GRID, MOST_NEAR, MOST_WEIGHT = 32, 24, 8_000_000
LEAST_WORK, WORK_OF_JOB = 100_000, 20
LEAST_KEPT = 2


class Kept(NamedTuple):
    """A state, after how many jobs it was so, and how much work that was."""

    ended: int
    work: int
    state: State

    @property
    def weight(self) -> int:
        """How many numbers and jobs a state has."""
        state = self.state
        held = sum(map(len, state.chains.values()))
        waiting = sum(map(len, state.waiting.values()))
        return len(state.cells) + waiting + held + len(state.chains) + len(state.dead)


def kept_of(machine: Machine) -> Kept:
    """The state of a run between two jobs."""
    work = machine.counted + WORK_OF_JOB * machine.ended
    return Kept(machine.ended, work, machine.state())


class States:
    """The states of a run, of which the first one is always kept."""

    def __init__(self, machine: Machine) -> None:
        first = kept_of(machine)
        self.grid: List[Kept] = [first]
        self.near: Dict[int, Kept] = {}
        self.apart = LEAST_WORK
        self.last = first.work

    def nearest(self, ended: int) -> Kept:
        """The last state that is kept of those after so many jobs at most."""
        numbers = [number for number in self.near if number <= ended]
        of_grid = next(one for one in reversed(self.grid) if one.ended <= ended)
        if numbers and max(numbers) > of_grid.ended:
            return self.near[max(numbers)]
        return of_grid

    def pass_by(self, machine: Machine) -> None:
        """The run has come between two jobs; its state joins the grid where it is due."""
        work = machine.counted + WORK_OF_JOB * machine.ended
        if work < self.last + self.apart:
            return
        self.grid.append(kept_of(machine))
        self.last = work
        while self.is_full():
            self.grid = self.grid[::2]
            self.apart *= 2
            self.last = self.grid[-1].work

    def is_full(self) -> bool:
        if len(self.grid) <= LEAST_KEPT:
            return False
        return len(self.grid) > MOST_OF_GRID or sum(one.weight for one in self.grid) > MOST_WEIGHT

    def add_near(self, machine: Machine) -> None:
        """Keeps the state of a run near the job to which it goes. The first ones are dropped where
        there are too many.
        """
        if machine.ended in self.near:
            return
        self.near[machine.ended] = kept_of(machine)
        weight = sum(one.weight for one in self.near.values())
        for number in sorted(self.near)[:-LEAST_KEPT]:
            if len(self.near) <= MOST_NEAR and weight <= MOST_WEIGHT:
                return
            weight -= self.near.pop(number).weight

    def leave(self, ended: int) -> None:
        """Drops the near states behind so many jobs."""
        self.near = {number: one for number, one in self.near.items() if number <= ended}
