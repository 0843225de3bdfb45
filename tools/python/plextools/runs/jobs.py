"""The jobs of a run, for plex-load and plex-page: what each started with, how many statements it
did, and what it sent.

`jobs_of(exchange, signals_name, limit)` gives a `Load`. The run is told statement by statement, and
its report must be that of plex. Where its jobs do more statements than `PATIENCE`, the rest is told
by `plex trace`: then the length of a job is the mean of those of its entry that were done statement
by statement, and the records that it holds are those which earlier jobs of its forlopp may have
seized.
"""
import os
import tempfile
from typing import Dict, Iterator, List, Optional, Sequence, Set

from plextools import programs, progress
from plextools.analysis.why import Exchange
from plextools.programs import answer, bytes_of
from plextools.runs import check
from plextools.runs.flows import Flows
from plextools.runs.machine import Arrival, Job, Machine, TooLong
from plextools.runs.observed import Watcher
from plextools.runs.running import Sent
from plextools.runs.signals import Line, lines_of
from plextools.runs.steps import Program
from plextools.runs.touches import Foot, TouchedContext, TouchedProgram, Trails, range_of
from plextools.text.statements import Text

PATIENCE = 20_000_000
BETWEEN = 2000


class Load:
    """The jobs of a run in the order in which they came, those that ran in their order, the lines,
    and how it ended.

    `lines` has each line of the signal file that has arrived, and `signals` all of them. Where the
    load `is_dense` each is taken to be there when the turn of its job comes. The first `skipped`
    jobs run but do not count. `feet` has what each job that ran has touched, and `flows` what the
    first ones sent, where that was asked for.
    """

    def __init__(
        self,
        jobs: List[Job],
        ran: List[Job],
        lines: List[Arrival],
        ending: str,
        limit: int,
        is_traced: bool,
    ) -> None:
        self.jobs, self.ran, self.lines, self.ending, self.limit = jobs, ran, lines, ending, limit
        self.is_traced = is_traced
        self.entries = sorted({job.entry for job in jobs})
        self.feet: Optional[List[Foot]] = None
        self.flows: Optional[Flows] = None
        self.signals: Sequence[Line] = ()
        self.is_dense = False
        self.skip(0)

    def skip(self, count: int) -> None:
        """From now on the first jobs do not count."""
        self.skipped = min(count, len(self.ran))
        self.counted = self.ran[self.skipped :]
        self.statements = sum(job.length for job in self.counted)

    def chain(self) -> List[Job]:
        """The jobs of the longest chain among those that count: each was sent by the one before
        it, or came after it in one forlopp. The first comes first.
        """
        best: Dict[int, int] = {}
        before: Dict[int, Optional[int]] = {}
        last: Dict[int, int] = {}
        for job in self.counted:
            others = [number for number in (job.sender, last.get(job.forlopp)) if number in best]
            former = max(others, key=best.__getitem__) if others else None
            before[job.number] = former
            best[job.number] = job.length + (best[former] if former is not None else 0)
            if job.forlopp:
                last[job.forlopp] = job.number
        number, found = max(best, key=best.__getitem__, default=None), []
        while number is not None:
            found.append(self.jobs[number])
            number = before[number]
        return found[::-1]


class Recorder(Machine):
    """The single run, which keeps its jobs and the lines that have arrived."""

    def __init__(
        self, program: Program, lines: Sequence[Line], limit: int, patience: Optional[int]
    ) -> None:
        super().__init__(program, lines, limit, patience, keeps=True)
        self.ran: List[Job] = []
        self.arrivals: List[Arrival] = []

    def note(self, line: Line, job: Optional[Job]) -> None:
        self.arrivals.append(Arrival(line.after, self.ended, job))

    def run(self) -> None:
        """The whole run, with a line on a terminal that tells how far it is."""
        line, keep = progress.Line(), self.ran.append
        try:
            for job in self.jobs():
                job.outbox = ()
                keep(job)
                if job.place % BETWEEN == 0:
                    line.draw(f"{job.place} jobs have run")
        finally:
            line.erase()

    def feet(self) -> Optional[List[Foot]]:
        """What each job has touched, where that is kept."""

    def load(self, is_traced: bool) -> Load:
        assert self.kept is not None
        made = Load(self.kept, self.ran, self.arrivals, self.ending, self.limit, is_traced)
        made.feet, made.signals = self.feet(), self.lines
        return made


class TouchRecorder(Recorder):
    """The single run, which keeps what each job has touched."""

    def __init__(
        self, program: TouchedProgram, lines: Sequence[Line], limit: int, patience: Optional[int]
    ) -> None:
        super().__init__(program, lines, limit, patience)
        assert isinstance(self.context, TouchedContext)
        self.trails = Trails(program, self.context)

    def feet(self) -> List[Foot]:
        return list(self.trails.feet())

    def perform(self, job: Job) -> None:
        super().perform(job)
        self.trails.close()

    def end_forlopps(self, job: Job) -> None:
        """What a release or a restart stores counts as stored by the job."""
        chains = self.chains
        ended = [chains.get(job.forlopp, {})] if job.forlopp else list(chains.values())
        freed = [range_of(file, record) for one in ended for record, file in self.records_of(one)]
        self.trails.note(() if job.forlopp else self.cleared(), freed)
        super().end_forlopps(job)

    def cleared(self) -> List[int]:
        variables = self.program.layout.variables.values()
        return [variable.cell for variable in variables if variable.is_clear]


class FlowRecorder(Recorder):
    """The single run, which keeps what its first jobs sent."""

    def __init__(
        self, text: Text, lines: Sequence[Line], limit: int, patience: Optional[int], most: int
    ) -> None:
        program = Program(text, signals=True)
        super().__init__(program, lines, limit, patience)
        self.watcher = self.context.watch = Watcher(program, self.context, values=False)
        self.plain, self.flows, self.most = Program(text), Flows(), most

    def perform(self, job: Job) -> None:
        if self.program is self.plain:
            super().perform(job)
            return
        self.watcher.begin()
        super().perform(job)
        self.flows.add(self.watcher.steps, self.watcher.left_out)
        if self.flows.is_full or len(self.flows.of_jobs) == self.most:
            self.program, self.context.segments = self.plain, self.plain.segments

    def load(self, is_traced: bool) -> Load:
        made = super().load(is_traced)
        made.flows = self.flows
        return made


class Tracer(Recorder):
    """The single run by the lines of a trace. `seizes` has the files of which each entry may seize
    records.
    """

    def __init__(
        self,
        program: Program,
        lines: Sequence[Line],
        limit: int,
        trace: Iterator[List[str]],
        seizes: Sequence[Sequence[str]],
        lengths: List[int],
    ) -> None:
        super().__init__(program, lines, limit, None)
        self.trace, self.seizes, self.lengths = trace, seizes, lengths
        self.may_hold: Dict[int, Set[str]] = {}
        self.head: List[str] = next(trace, [])
        text = program.text
        blocks = [block.name.text for block in text.blocks]
        self.entry_of = {
            (node.signal.text, blocks[node.block]): place for place, node in enumerate(text.entries)
        }

    def perform(self, job: Job) -> None:
        """The job does what the trace has of it."""
        held = self.may_hold.setdefault(job.forlopp, set()) if job.forlopp else set()
        job.held, job.length = tuple(sorted(held)), self.lengths[job.entry]
        held.update(self.seizes[job.entry])
        job.fault = None if self.head[-1] == "ENDED" else self.head[-1]
        outbox: List[Sent] = []
        self.head = []
        for words in self.trace:
            if words[0] != "SEND":
                self.head = words
                break
            outbox.append(self.sent(words))
        job.outbox = outbox

    def sent(self, words: List[str]) -> Sent:
        signal: int = self.program.text.signals[words[2]].number
        entry = -1 if words[3] == "OUTSIDE" else self.entry_of[words[2], words[3]]
        return signal, entry, tuple(int(word) for word in words[4:-1]), words[-1] == "NEW"


def trace_of(exchange_name: str, signals_name: str, limit: int) -> Iterator[List[str]]:
    """The words of each line of the trace of all jobs."""
    with tempfile.TemporaryDirectory() as folder:
        show = os.path.join(folder, "show")
        with open(show, "w", encoding="ascii") as file:
            file.write("SHOW\n")
        wrote = answer(
            ["trace", exchange_name, signals_name, show, "--jobs", str(limit)], programs.ENDINGS
        )
    for line in wrote.decode("ascii").split("\n"):
        words = line.split(" ")
        if words[0] not in ("JOB", "SEND"):
            return
        yield words


def mean_lengths(ran: List[Job], count: int) -> List[int]:
    """The mean length of the jobs of each entry, and that of all where none of the entry is among
    them.
    """
    sums = [[0, 0] for _ in range(count)]
    for job in ran:
        sums[job.entry][0] += job.length
        sums[job.entry][1] += 1
    mean = max(1, round(sum(job.length for job in ran) / len(ran))) if ran else 1
    return [max(1, round(total / number)) if number else mean for total, number in sums]


def jobs_of(
    exchange: Exchange,
    signals_name: str,
    limit: int,
    patience: int = PATIENCE,
    touches: bool = False,
    flows: int = 0,
) -> Load:
    """The load of an exchange, whose text is known to be right, and of a signal file. It has what
    its jobs touch, or what so many first ones of them sent, where that is asked for, and where they
    are done statement by statement.
    """
    signals, name = bytes_of(signals_name), exchange.text.name
    answer(["run", name, signals_name, "--workers", "1", "--jobs", "1"], programs.ENDINGS)
    lines = lines_of(exchange.text, signals)
    machine: Recorder
    if touches:
        machine = TouchRecorder(TouchedProgram(exchange.text), lines, limit, patience)
    elif flows:
        machine = FlowRecorder(exchange.text, lines, limit, patience, flows)
    else:
        machine = Recorder(Program(exchange.text), lines, limit, patience)
    try:
        machine.run()
    except TooLong:
        return traced(exchange, Program(exchange.text), lines, signals_name, machine)
    words = ["run", name, signals_name, "--workers", "1", "--jobs", str(limit)]
    try:
        check.compare_report(machine, programs.lines_of(words, programs.ENDINGS))
    except check.Different as different:
        raise check.refused(different) from different
    return machine.load(False)


def traced(
    exchange: Exchange, program: Program, lines: Sequence[Line], signals_name: str, begun: Recorder
) -> Load:
    """The load by a trace, where the run that was begun takes too long."""
    entries = exchange.analysis.entries
    lengths = mean_lengths(begun.ran, len(entries))
    trace = trace_of(exchange.text.name, signals_name, begun.limit)
    machine = Tracer(
        program, lines, begun.limit, trace, [entry.seizes for entry in entries], lengths
    )
    machine.run()
    return machine.load(True)
