"""A run that is stepped, forward and backward, with all that it is at a statement.

`Stepper(run)` stands at the first statement of the run. `forward(wish)` and `backward(wish)` go to
the next or the last place that is wished, and `go(place)` to a place that is known. To go anywhere
the run goes back to a state that is kept, and on from there: jobs before the last one as fast as
they can be done, and the last one statement by statement. So a step takes as long as the statements
of its job before it, and those jobs that lie between a kept state and it.

When the end of the run is reached for the first time, all of its jobs with what they sent and how
they ended, and its report, must be those of plex; `check.Different` is raised where they are not.
"""
import hashlib
from typing import List, NamedTuple, Optional, Sequence

from plextools import programs, progress
from plextools.runs import check, choice
from plextools.runs.kept import States
from plextools.runs.machine import Ended, Job, Machine, State
from plextools.runs.running import Activation, Context, Watch
from plextools.runs.searches import (
    FIRST,
    Backward,
    Forward,
    Goal,
    Halted,
    Hunt,
    Place,
    Search,
    Stop,
    Wish,
    Write,
)
from plextools.runs.steps import Program

BETWEEN = 2000


class Frame(NamedTuple):
    """An activation: the statement at which it is, its values, and how many entry values it has
    before its temporaries.
    """

    point: int
    activation: Activation


class Passed(NamedTuple):
    """A job that has retired, and the release or the restart that came of its fault."""

    job: Job
    ended: Optional[Ended]


class Watcher(Watch):
    """Counts the statements of one job, and tells a hunt of them."""

    def __init__(self) -> None:
        self.hunt = Hunt()
        self.begin(0)

    def begin(self, number: int) -> None:
        """A job begins."""
        self.number, self.count, self.point = number, 0, -1
        self.activation: Activation = []
        self.callers: List[Frame] = []
        self.points = self.hunt.points_in(number)

    @property
    def place(self) -> Place:
        return Place(self.number, self.count)

    def step(self, job: Context, activation: Activation, point: int) -> None:
        self.count += 1
        self.activation, self.point = activation, point
        if self.points is None or point in self.points:
            self.hunt.step(Place(self.number, self.count), point, len(self.callers))

    def store(self, cell: int, old: int, new: int) -> None:
        if self.hunt.watched and self.hunt.store(self.place, self.point, cell, old, new):
            self.points = None

    def signal(self, point: int, enter: int, values: "tuple[int, ...]", waits: bool) -> None:
        if waits:
            self.callers.append(Frame(self.point, self.activation))

    def answer(self, point: int, values: "tuple[int, ...]") -> None:
        self.callers.pop()


class Stepped(Machine):
    """The single run, which tells a hunt of its jobs, and may be halted within one."""

    def __init__(self, run: choice.Run) -> None:
        super().__init__(Program(run.text), run.lines, run.limit)
        self.plain, self.slow = self.program, Program(run.text, True)
        self.watcher = Watcher()
        self.context.watch = self.watcher
        self.hunt = Hunt()
        self.job: Optional[Job] = None
        self.passed: Optional[Passed] = None
        # Of the jobs that have retired: how many, and the digest of what a trace has of them.
        self.furthest, self.digest = 0, hashlib.sha256()

    def follow(self, hunt: Hunt) -> None:
        """Who is told from now on."""
        self.hunt = self.watcher.hunt = hunt

    def state(self) -> State:
        """What the run is now, but for the forlopps of lines, which are the same each time that
        they arrive.
        """
        origins, self.origins = self.origins, {}
        kept = super().state()
        self.origins = origins
        return kept

    def go_back(self, state: State) -> None:
        origins = self.origins
        super().go_back(state)
        self.origins = origins
        self.job = None

    def perform(self, job: Job) -> None:
        number = self.ended + 1
        self.hunt.begin(number)
        self.job = job
        is_watched = self.hunt.looks_into(number, job.entry)
        program = self.slow if is_watched else self.plain
        self.program, self.context.segments = program, program.segments
        self.watcher.begin(number)
        job.fault, job.point, job.outbox, job.sent = None, -1, (), ()
        super().perform(job)
        if job.fault:
            self.hunt.fault(last_place(number, job))

    def retire(self, job: Job) -> None:
        cells = self.context.cells
        watched = self.hunt.watched if job.fault else ()
        before = [[cells[cell] for cell in one.cells] for one in watched]
        super().retire(job)
        event = self.events[-1] if job.fault else None
        self.passed = Passed(job, event if isinstance(event, Ended) else None)
        place = last_place(job.place, job)
        for one, values in zip(watched, before):
            writes = [
                Write(one.number, place, -1, cell, old, cells[cell])
                for cell, old in zip(one.cells, values)
                if cells[cell] != old
            ]
            if writes:
                self.hunt.released(writes)
        if self.ended > self.furthest:
            self.furthest = self.ended
            for line in check.told_job(self, job):
                self.digest.update(line + b"\n")


def last_place(number: int, job: Job) -> Place:
    """The last place of a job that has run: its last statement, or its fault."""
    return Place(number, job.length + (job.fault is not None and job.fault != "BUDGET"))


class Stepper:
    """A run with the place where it stands.

    At `place` the `job` runs; the statement at `point` is done next, in the activation of the
    first of its `frames`, behind which its callers stand. `fault` has the word of the fault that
    has ended it. Where the run is over, there is no job. `passed` is the job before this one, where
    the last step has seen it retire.
    """

    def __init__(self, run: choice.Run) -> None:
        self.run = run
        self.machine = Stepped(run)
        self.states = States(self.machine)
        self.place, self.is_over, self.is_compared = FIRST, False, False
        self.passed: Optional[Passed] = None
        self.go(FIRST)

    # what is there

    @property
    def job(self) -> Optional[Job]:
        return None if self.is_over else self.machine.job

    @property
    def fault(self) -> Optional[str]:
        return self.job.fault if self.job else None

    @property
    def point(self) -> int:
        """The statement that is done next, or that has ended the job by a fault."""
        job = self.job
        assert job
        return job.point if job.fault else self.machine.watcher.point

    @property
    def frames(self) -> Sequence[Frame]:
        """The activations of the job, the one that goes on first."""
        watcher = self.machine.watcher
        return [Frame(self.point, watcher.activation), *reversed(watcher.callers)]

    # going

    def reach(self, ended: int) -> None:
        """Goes to the state after so many jobs, and keeps some states just before it."""
        machine, line = self.machine, progress.Line()
        machine.follow(Hunt())
        self.states.leave(ended)
        machine.go_back(self.states.nearest(ended).state)
        try:
            while machine.ended < ended and machine.turn():
                left = ended - machine.ended
                if left & left - 1 == 0:
                    self.states.add_near(machine)
                if left % BETWEEN == 0:
                    line.draw(f"{left} jobs must run once more")
        finally:
            line.erase()

    def go(self, place: Place) -> None:
        """Goes to a place of the run, or to its end, where that comes before."""
        self.reach(place.job - 1)
        self.machine.follow(Goal(place))
        try:
            job = self.machine.turn()
        except Halted:
            self.place, self.is_over = place, False
            return
        assert job is None, "a job has not come to its place"
        self.place, self.is_over = Place(self.machine.ended + 1, 1), True

    def found(self, search: Search, ended: int) -> Optional[Stop]:
        """What is found when the run goes on to so many jobs, or to its end where that comes before
        it; the states that it passes are kept.
        """
        machine, line = self.machine, progress.Line()
        machine.follow(search)
        try:
            while machine.ended < ended:
                if machine.turn() is None:
                    return self.end_of(search)
                self.states.pass_by(machine)
                if machine.ended % BETWEEN == 0:
                    line.draw(f"{machine.ended} jobs have run")
        except Halted:
            pass
        finally:
            line.erase()
        return search.found

    def end_of(self, search: Search) -> Optional[Stop]:
        """The run has come to its end."""
        self.compare()
        if isinstance(search, Forward):
            return Stop(Place(self.machine.ended + 1, 1), search.writes, True)
        return search.found

    def forward(self, wish: Wish) -> Stop:
        """Goes to the next place that is wished, or to the end of the run."""
        if self.is_over:
            return Stop(self.place, [], True)
        origin = self.place
        self.reach(origin.job - 1)
        stop = self.found(Forward(wish, origin), self.run.limit + 1)
        assert stop
        self.passed = self.machine.passed if stop.place.job == origin.job + 1 else None
        self.go(stop.place)
        return stop

    def backward(self, wish: Wish) -> Optional[Stop]:
        """Goes to the last place before this one that is wished, or else to the first one; then
        nothing was found.
        """
        origin, ended = self.place, self.place.job - 1
        stop, self.passed = None, None
        if ended and (wish.begins or wish.points is None):
            self.reach(ended - 1)
            ended = max(0, ended - 1)
        end = origin.job
        while True:
            kept = self.states.nearest(ended)
            self.machine.go_back(kept.state)
            stop = self.found(Backward(wish, origin), end)
            if stop or not kept.ended:
                break
            end, ended = kept.ended, kept.ended - 1
        self.go(stop.place if stop else FIRST)
        return stop

    def to_job(self, number: int) -> None:
        """Goes to the first statement of a job, or to the end of the run, where that is before."""
        self.passed = None
        if number > self.machine.furthest + 1:
            self.go_far(number - 1)
        self.go(Place(number, 1))

    def go_far(self, ended: int) -> None:
        """Goes on to where the run has not come yet, and keeps states on the way."""
        self.machine.follow(Hunt())
        self.machine.go_back(self.states.nearest(self.machine.furthest).state)
        self.found(Search(Wish(), self.place), ended)

    # whether it is the run of plex

    def compare(self) -> None:
        """Compares the run, whose end is reached, with what plex tells of it. The jobs are looked
        at one by one only where their digest is another.
        """
        if self.is_compared:
            return
        told = choice.traced(self.run, ["SHOW"], self.run.limit)
        digest, report = hashlib.sha256(), []
        for line in told:
            if line.startswith((b"JOB ", b"SEND ")):
                digest.update(line + b"\n")
            else:
                report.append(line)
                break
        report += told
        if digest.digest() != self.machine.digest.digest():
            self.find_difference()
        check.compare_report(self.machine, report)
        words = [*self.run.words("run", self.run.limit), "--workers", "1"]
        check.compare_report(self.machine, programs.lines_of(words, programs.ENDINGS))
        self.is_compared = True

    def find_difference(self) -> None:
        """The first job that is another one than that of plex."""
        again = Machine(Program(self.run.text), self.run.lines, self.run.limit)
        for _ in check.compared(again, choice.traced(self.run, ["SHOW"], self.run.limit)):
            pass
        raise check.Different("the jobs differ when they are run statement by statement")
