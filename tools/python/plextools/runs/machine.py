"""The single run of an exchange: jobs, forlopps, chains, releases and restarts, as docs/MACHINE.md
has them.

`Machine(program, lines)` is a run at its beginning. `jobs()` goes on to its end and gives each job
as it has retired; `turn()` does one job; `report()` is what plex writes of the run. `state()` keeps
all that a run is between two jobs, and `go_back(state)` returns to it. Where the program is
watched, the observer is told of what happens inside the jobs.
"""
from collections import deque
from typing import Deque, Dict, Iterator, List, NamedTuple, Optional, Sequence, Set, Tuple, Union

from plextools.runs.layout import File
from plextools.runs.running import JobFault, Sent, Watch, perform
from plextools.runs.signals import NEW, NONE, Line
from plextools.runs.steps import Program

LEVELS = "ABCD"
USUAL_JOBS, LAST_RESTART = 1_000_000, 3
COUNTERS = ("drawn", "came", "ended", "restarts", "arrived", "counted")  # of a run


class TooLong(Exception):
    """The jobs of a run have counted more statements than there is patience for."""


class Job:
    """A job: what it starts with, and, when it has run, what came of it.

    `number` tells when it began to wait, from 0, and `place` which job of the run it is, from 1; it
    is 0 where it never ran. It came with a `line` of the signal file, or was sent by the job
    `sender`, by its number, whose place is `by`; that is 0 where no job sent it. `length` is how
    many statements it counted, `held` has the names of the files of which it held a record as it
    began, `sent` the numbers of the jobs that came of it, `outbox` all that it sent. `fault` is the
    word of its fault and `point` the statement of it. Its forlopp was released then, or the
    exchange restarted where it was in none.
    """

    __slots__ = (
        "number",
        "entry",
        "level",
        "values",
        "forlopp",
        "line",
        "sender",
        "by",
        "place",
        "length",
        "held",
        "sent",
        "outbox",
        "fault",
        "point",
    )

    def __init__(
        self,
        number: int,
        entry: int,
        level: str,
        values: Tuple[int, ...],
        forlopp: int,
        line: Optional[int],
        sender: Optional[int],
    ) -> None:
        self.number, self.entry, self.level, self.values, self.forlopp = (
            number,
            entry,
            level,
            values,
            forlopp,
        )
        self.line, self.sender, self.by, self.place, self.length = line, sender, 0, 0, 0
        self.held: Tuple[str, ...] = ()
        self.sent: Sequence[int] = ()
        self.outbox: Sequence[Sent] = ()
        self.fault: Optional[str] = None
        self.point = -1


class Out(NamedTuple):
    """An outside signal has left the exchange."""

    place: int
    signal: int
    values: Tuple[int, ...]
    forlopp: int


class Lost(NamedTuple):
    """A line arrived for a dead forlopp."""

    line: int


class Ended(NamedTuple):
    """A release of a forlopp, or a restart where it is 0: for which fault of which job, how many
    jobs it removed, and how many records it freed.
    """

    forlopp: int
    place: int
    fault: Optional[str]
    point: int
    jobs: int
    records: int


Event = Union[Out, Lost, Ended]


class Arrival(NamedTuple):
    """A line that has arrived: after how many jobs it was due and after how many it came, and its
    job, which is None where it is lost.
    """

    after: int
    ended: int
    job: Optional[Job]


class State(NamedTuple):
    """All that a run is between two jobs."""

    cells: List[int]
    hints: List[int]
    waiting: Dict[str, List[Job]]
    chains: Dict[int, Dict[int, int]]
    dead: Set[int]
    dead_upto: int
    origins: Dict[int, int]
    counters: Sequence[int]
    begun: bool
    events: int
    ending: str


class Machine:
    """A run, job by job. `patience` bounds the statements of all jobs together. A run that `keeps`
    its jobs has them in `kept`, by their numbers.
    """

    def __init__(
        self,
        program: Program,
        lines: Sequence[Line],
        limit: int = USUAL_JOBS,
        patience: Optional[int] = None,
        watch: Optional[Watch] = None,
        keeps: bool = False,
    ) -> None:
        self.program, self.lines, self.limit, self.patience = program, lines, limit, patience
        text = program.text
        self.context = program.context(watch or Watch())
        self.levels = [text.signals[node.signal.text].level or "" for node in text.entries]
        self.waiting: Dict[str, Deque[Job]] = {level: deque() for level in LEVELS}
        # How many jobs wait, and how many of each forlopp. Jobs of a dead one stay in the lists
        # until they are seen.
        self.waits, self.waits_of = 0, {0: 0}
        self.chains: Dict[int, Dict[int, int]] = {}
        self.dead: Set[int] = set()
        self.dead_upto, self.drawn, self.came, self.ended, self.restarts, self.arrived = (
            0,
            0,
            0,
            0,
            0,
            0,
        )
        # The forlopps of the lines that have arrived.
        self.origins: Dict[int, int] = {}
        self.counted = 0
        self.kept: Optional[List[Job]] = [] if keeps else None
        self.events: List[Event] = []
        self.ending = ""
        self.begun = False

    # who waits

    def draw(self) -> int:
        """The next number of a forlopp."""
        self.drawn += 1
        return self.drawn

    def is_dead(self, forlopp: int) -> bool:
        return 0 < forlopp <= self.dead_upto or forlopp in self.dead

    def add(
        self,
        entry: int,
        values: Tuple[int, ...],
        forlopp: int,
        line: Optional[int],
        sender: Optional[int],
    ) -> Job:
        """A job joins the list of its level."""
        level = self.levels[entry]
        job = Job(self.came, entry, level, values, forlopp, line, sender)
        job.by = 0 if sender is None else self.ended
        self.came += 1
        self.waits += 1
        self.waits_of[forlopp] = self.waits_of.get(forlopp, 0) + 1
        self.waiting[level].append(job)
        if self.kept is not None:
            self.kept.append(job)
        return job

    def pick(self) -> Job:
        """The oldest job of the first level at which one waits leaves its list."""
        for jobs in self.waiting.values():
            while jobs:
                job = jobs.popleft()
                if not self.is_dead(job.forlopp):
                    self.waits -= 1
                    self.waits_of[job.forlopp] -= 1
                    return job
        raise AssertionError("no job waits")

    def arrive(self) -> None:
        """The lines that are due arrive."""
        while self.arrived < len(self.lines):
            line = self.lines[self.arrived]
            if line.after > self.ended and self.waits:
                return
            self.arrived += 1
            self.note(line, self.arrives(line))

    def arrives(self, line: Line) -> Optional[Job]:
        """The job of a line; none where the line is lost."""
        forlopp = (
            0
            if line.origin == NONE
            else self.draw()
            if line.origin == NEW
            else self.origins[line.origin]
        )
        self.origins[line.number] = forlopp
        if self.is_dead(forlopp):
            self.events.append(Lost(line.number))
            return None
        return self.add(line.entry, line.values, forlopp, line.number, None)

    def note(self, line: Line, job: Optional[Job]) -> None:
        """A line has arrived. Who wants to know of it looks here."""

    # jobs

    def jobs(self) -> Iterator[Job]:
        """The jobs up to the end of the run."""
        job = self.turn()
        while job:
            yield job
            job = self.turn()

    def turn(self) -> Optional[Job]:
        """The next job runs and retires; none where the run is over."""
        if not self.begun:
            self.begun = True
            self.arrive()
        if self.is_over():
            return None
        job = self.pick()
        self.perform(job)
        self.retire(job)
        if self.restarts < LAST_RESTART:
            self.arrive()
        return job

    def is_over(self) -> bool:
        """Whether the run is over; then `ending` says how."""
        if self.restarts == LAST_RESTART:
            self.ending = "RESTART"
        elif not self.waits:
            self.ending = "DONE"
        elif self.ended == self.limit:
            self.ending = "LIMIT"
        return bool(self.ending)

    def perform(self, job: Job) -> None:
        """The job does its statements."""
        context, forlopp = self.context, job.forlopp
        chain = self.chains.get(forlopp, {})
        context.count, context.forlopp, context.chain, context.outbox = 0, forlopp, chain, []
        if chain:
            names = self.program.file_names
            job.held = tuple(sorted({names[file] for file in chain.values()}))
        segment, zeros = self.program.begins[job.entry]
        try:
            perform(context, segment, [*job.values, *zeros])
        except JobFault as told:
            job.fault, job.point = told.word, told.point
            context.callers.clear()
        if chain:
            self.chains[forlopp] = chain
        elif forlopp in self.chains:
            del self.chains[forlopp]
        job.length, job.outbox = context.count, context.outbox
        self.counted += context.count
        if self.patience is not None and self.counted > self.patience:
            raise TooLong

    def retire(self, job: Job) -> None:
        """What the job leaves takes effect."""
        self.ended += 1
        job.place = self.ended
        if job.outbox:
            came = self.came
            for signal, entry, values, fresh in job.outbox:
                if entry < 0:
                    self.events.append(Out(self.ended, signal, values, job.forlopp))
                else:
                    self.add(entry, values, self.draw() if fresh else job.forlopp, None, job.number)
            job.sent = range(came, self.came)
        if job.fault:
            self.end_forlopps(job)

    def end_forlopps(self, job: Job) -> None:
        """The forlopp of a job is released, or the exchange is restarted."""
        if job.forlopp:
            removed = self.waits_of.pop(job.forlopp, 0)
            self.waits -= removed
            self.dead.add(job.forlopp)
            freed = self.free_chain(job.forlopp)
        else:
            removed, self.waits, self.waits_of = self.waits, 0, {0: 0}
            for jobs in self.waiting.values():
                jobs.clear()
            freed = sum(self.free_chain(forlopp) for forlopp in list(self.chains))
            self.dead_upto = self.drawn
            self.dead.clear()
            for variable in self.program.layout.variables.values():
                if variable.is_clear:
                    self.context.cells[variable.cell] = variable.init
            self.restarts += 1
        self.events.append(Ended(job.forlopp, self.ended, job.fault, job.point, removed, freed))

    def free_chain(self, forlopp: int) -> int:
        """Frees the records of a forlopp, and tells how many they are."""
        chain = self.chains.pop(forlopp, {})
        for number, file in self.records_of(chain):
            self.free(number, file)
        return len(chain)

    def free(self, number: int, file: File) -> None:
        """Frees a record."""
        context, first = self.context, file.first + number * file.stride
        context.cells[first : first + file.stride] = file.opening
        context.hints[file.number] = min(context.hints[file.number], number)

    def records_of(self, chain: Dict[int, int]) -> Iterator[Tuple[int, File]]:
        """The records of a chain in its order, each with its file."""
        for record, number in chain.items():
            file = self.program.layout.files[number]
            yield record - file.first_record, file

    # states

    def state(self) -> State:
        """What the run is now."""
        waiting = {
            level: [job for job in jobs if not self.is_dead(job.forlopp)]
            for level, jobs in self.waiting.items()
        }
        return State(
            list(self.context.cells),
            list(self.context.hints),
            waiting,
            {forlopp: dict(chain) for forlopp, chain in self.chains.items()},
            set(self.dead),
            self.dead_upto,
            dict(self.origins),
            [getattr(self, name) for name in COUNTERS],
            self.begun,
            len(self.events),
            self.ending,
        )

    def go_back(self, state: State) -> None:
        """Returns to a state of this run that was kept before."""
        self.context.cells[:] = state.cells
        self.context.hints[:] = state.hints
        self.waiting = {level: deque(jobs) for level, jobs in state.waiting.items()}
        self.waits, self.waits_of = 0, {0: 0}
        for jobs in self.waiting.values():
            for job in jobs:
                self.waits += 1
                self.waits_of[job.forlopp] = self.waits_of.get(job.forlopp, 0) + 1
        self.chains = {forlopp: dict(chain) for forlopp, chain in state.chains.items()}
        self.dead, self.dead_upto, self.origins = (
            set(state.dead),
            state.dead_upto,
            dict(state.origins),
        )
        for name, number in zip(COUNTERS, state.counters):
            setattr(self, name, number)
        self.begun, self.ending = state.begun, state.ending
        del self.events[state.events :]
        self.context.callers.clear()

    # what plex writes

    def report(self) -> bytes:
        """The report of the run so far, which is that of plex at its end."""
        return b"".join(line + b"\n" for line in self.report_lines())

    def report_lines(self) -> Iterator[bytes]:
        """The lines of the report without their ends, one after the other."""
        yield from (self.told_event(event).encode("ascii") for event in self.events)
        yield b"JOBS %d" % self.ended
        yield from (line.encode("ascii") for line in self.stored())
        yield b"END %s" % self.ending.encode("ascii")

    def told_event(self, event: Event) -> str:
        """An event as a report has it."""
        if isinstance(event, Lost):
            return f"LOST line {event.line}"
        if isinstance(event, Out):
            name = self.program.signal_names[event.signal]
            return f"OUT {event.place} {' '.join([name, *map(str, event.values)])} F{event.forlopp}"
        node = self.program.text.points[event.point]
        what = f"RELEASE F{event.forlopp}" if event.forlopp else "RESTART"
        place = f"{self.program.text.blocks[node.block].name.text}:{node.line}"
        removed = f"jobs {event.jobs} records {event.records}"
        return f"{what} job {event.place} {event.fault} at {place} {removed}"

    def stored(self) -> Iterator[str]:
        """The stored data and the chains as a report has them."""
        cells = self.context.cells
        for variable in self.program.layout.variables.values():
            yield f"VAR {variable.block}.{variable.name} {cells[variable.cell]}"
        for file in self.program.layout.files:
            yield from self.stored_in(file)
        for forlopp in sorted(self.chains):
            for record, file in self.records_of(self.chains[forlopp]):
                yield f"HELD F{forlopp} {file.told(record)}"

    def stored_in(self, file: File) -> Iterator[str]:
        """The fields of a file that have not their first value."""
        cells, end = self.context.cells, file.first + file.size * file.stride
        changed = [
            field
            for field in file.fields
            if cells[file.first + field.place : end : file.stride].count(field.init) < file.size
        ]
        for record in range(file.size if changed else 0):
            first = file.first + record * file.stride
            for field in changed:
                if cells[first + field.place] != field.init:
                    yield f"REC {file.told(record)}.{field.name} {cells[first + field.place]}"
