"""A run of which some jobs are observed: the signals of each of these in their order, where they
lead, and what the job stored.

`Observed(text, lines, limit, wanted)` is the single run. The jobs whose numbers are in `wanted` are
watched, and each of them is kept as a `Seen`; of the others nothing is kept, so that a run may have
any number of jobs.
"""
import bisect
from dataclasses import dataclass, field
from enum import Enum
from typing import Container, Dict, List, NamedTuple, Optional, Sequence, Set, Tuple, Union

from plextools.runs.layout import File, Layout
from plextools.runs.machine import Ended, Job, Machine
from plextools.runs.running import Activation, Context, Watch
from plextools.runs.signals import Line
from plextools.runs.steps import Program
from plextools.text.statements import Text

OUTSIDE = -1  # in the place of a block
MOST_STEPS, MOST_LOST = 500, 20


class Kind(Enum):
    """What a signal does: it waits for a job of its own, leaves the exchange, takes the job to
    another block for good, or until it is answered, or is that answer.
    """

    BUFFERED = "buffered"
    OUTSIDE = "outside"
    DIRECT = "direct"
    COMBINED = "combined"
    ANSWER = "answer"


@dataclass
class Message:
    """A signal that a job sent: by the statement of a line, from block to block. `receiver` is the
    job that a buffered one starts; `is_fresh` where that begins a forlopp.
    """

    kind: Kind
    signal: str
    values: Tuple[int, ...]
    source: int
    target: int
    line: int
    receiver: Optional[Job] = None
    is_fresh: bool = False


class Change(Enum):
    """What a job did to stored data."""

    STORED = "stored"
    SEIZED = "seized"
    FREED = "freed"


@dataclass
class Stored:
    """What a job stored in a block by the statement of a line: the name of a variable or a field,
    its value before and after, and how many stores came to that; or the record that it seized or
    freed.
    """

    change: Change
    block: int
    name: str
    line: int
    old: int = 0
    new: int = 0
    times: int = 1


Step = Union[Message, Stored]


class LostLine(NamedTuple):
    """A line of the signal file that arrived for a dead forlopp."""

    line: Line
    forlopp: int


@dataclass
class Seen:
    """A job that was observed: its steps, and how many more it had; the blocks to which direct and
    combined signals took it, and the signals that it sent. `ended` tells of the release or the
    restart that came of its fault. Behind it lines were lost, and more of them than are kept.
    """

    job: Job
    steps: List[Step]
    left_out: int = 0
    blocks: Set[int] = field(default_factory=set)
    signals: Set[str] = field(default_factory=set)
    ended: Optional[Ended] = None
    lost: List[LostLine] = field(default_factory=list)
    more_lost: int = 0


class Among:
    """Whether a number stands in a list in order."""

    def __init__(self, numbers: Sequence[int]) -> None:
        self.numbers = numbers

    def __contains__(self, number: object) -> bool:
        assert isinstance(number, int)
        at = bisect.bisect_left(self.numbers, number)
        return at < len(self.numbers) and self.numbers[at] == number


class Names:
    """The names of cells as a chart has them: without the block."""

    def __init__(self, layout: Layout) -> None:
        self.variables = {one.cell: one.name for one in layout.variables.values()}
        self.files = [file for file in layout.files if file.stride]
        self.firsts = [file.first for file in self.files]

    def file_at(self, cell: int) -> File:
        return self.files[bisect.bisect_right(self.firsts, cell) - 1]

    def is_mark(self, cell: int) -> bool:
        """Whether a cell is the mark of a record of a FORLOPP FILE."""
        if cell in self.variables:
            return False
        file = self.file_at(cell)
        return (cell - file.first) % file.stride == len(file.fields)

    def name(self, cell: int) -> str:
        """A variable, a field with its record, or the record of a mark."""
        if cell in self.variables:
            return self.variables[cell]
        file = self.file_at(cell)
        record, place = divmod(cell - file.first, file.stride)
        what = file.fields[place].name if place < len(file.fields) else file.name
        return f"{what}({record})"


class Watcher(Watch):
    """Keeps the steps of one job. What it stores is kept where `values` is said."""

    def __init__(self, program: Program, context: Context, values: bool) -> None:
        self.points, self.context, self.values = program.text.points, context, values
        self.signals = program.signal_names
        self.receivers = [node.block for node in program.text.entries]
        self.names = Names(program.layout)
        self.begin()

    def begin(self) -> None:
        """A job begins."""
        self.steps: List[Step] = []
        self.left_out, self.at = 0, 0
        self.callers: List[int] = []
        self.sends: List[Message] = []
        self.blocks: Set[int] = set()
        self.sent: Set[str] = set()
        self.last: Dict[int, Stored] = {}

    def keep(self, step: Step) -> None:
        """A step joins the others, where there is room."""
        if len(self.steps) < MOST_STEPS:
            self.steps.append(step)
        else:
            self.left_out += 1

    def message(self, message: Message) -> None:
        self.last = {}
        self.sent.add(message.signal)
        if message.kind in (Kind.DIRECT, Kind.COMBINED):
            self.blocks.add(message.target)
        self.keep(message)

    def step(self, job: Context, activation: Activation, point: int) -> None:
        self.at = point

    def store(self, cell: int, old: int, new: int) -> None:
        if not self.values:
            return
        node = self.points[self.at]
        if node.kind in ("FREE", "SEIZE"):
            if self.names.is_mark(cell):
                change = Change.FREED if node.kind == "FREE" else Change.SEIZED
                self.keep(Stored(change, node.block, self.names.name(cell), node.line))
            return
        before = self.last.get(cell)
        if before:
            before.new, before.times, before.line = new, before.times + 1, node.line
            return
        made = Stored(Change.STORED, node.block, self.names.name(cell), node.line, old, new)
        self.last[cell] = made
        self.keep(made)

    def signal(self, point: int, enter: int, values: Tuple[int, ...], waits: bool) -> None:
        node, target = self.points[point], self.points[enter].block
        if waits:
            self.callers.append(node.block)
        kind, name = Kind.COMBINED if waits else Kind.DIRECT, node.signal.text
        self.message(Message(kind, name, values, node.block, target, node.line))

    def answer(self, point: int, values: Tuple[int, ...]) -> None:
        node, target = self.points[point], self.callers.pop()
        name = node.signal.text
        self.message(Message(Kind.ANSWER, name, values, node.block, target, node.line))

    def send(self, point: int) -> None:
        node = self.points[point]
        signal, entry, values, fresh = self.context.outbox[-1]
        kind = Kind.BUFFERED if entry >= 0 else Kind.OUTSIDE
        target = self.receivers[entry] if entry >= 0 else OUTSIDE
        name = self.signals[signal]
        made = Message(kind, name, values, node.block, target, node.line, None, fresh)
        if entry >= 0:
            self.sends.append(made)
        self.message(made)


class Observed(Machine):
    """The single run, with the jobs that are observed in `seen`, and the numbers of all jobs that
    have restarted the exchange.
    """

    def __init__(
        self,
        text: Text,
        lines: Sequence[Line],
        limit: int,
        wanted: Container[int],
        values: bool = False,
    ) -> None:
        super().__init__(Program(text), lines, limit)
        self.plain, self.watched, self.wanted = self.program, Program(text, True), wanted
        self.watcher = self.context.watch = Watcher(self.watched, self.context, values)
        self.seen: List[Seen] = []
        self.came_now: List[Job] = []
        self.restarted: List[int] = []
        self.latest: Optional[Seen] = None

    def use(self, program: Program) -> None:
        """Jobs are done by the functions of this program from now on."""
        self.program, self.context.segments = program, program.segments

    def perform(self, job: Job) -> None:
        self.latest = None
        if self.ended + 1 not in self.wanted:
            super().perform(job)
            return
        self.watcher.begin()
        self.use(self.watched)
        super().perform(job)
        self.use(self.plain)
        told = self.watcher
        self.latest = Seen(job, told.steps, told.left_out, told.blocks, told.sent)

    def retire(self, job: Job) -> None:
        self.came_now.clear()
        super().retire(job)
        if job.fault and not job.forlopp:
            self.restarted.append(job.place)
        if self.latest is None:
            return
        for message, receiver in zip(self.watcher.sends, self.came_now):
            message.receiver = receiver
        if job.fault:
            event = self.events[-1]
            assert isinstance(event, Ended)
            self.latest.ended = event
        self.seen.append(self.latest)

    def add(
        self,
        entry: int,
        values: Tuple[int, ...],
        forlopp: int,
        line: Optional[int],
        sender: Optional[int],
    ) -> Job:
        job = super().add(entry, values, forlopp, line, sender)
        if self.latest is not None and sender is not None:
            self.came_now.append(job)
        return job

    def note(self, line: Line, job: Optional[Job]) -> None:
        if job is not None or self.latest is None:
            return
        if len(self.latest.lost) < MOST_LOST:
            self.latest.lost.append(LostLine(line, self.origins[line.number]))
        else:
            self.latest.more_lost += 1

    def still_waiting(self) -> Set[int]:
        """The numbers of the jobs that wait."""
        return {
            job.number
            for jobs in self.waiting.values()
            for job in jobs
            if not self.is_dead(job.forlopp)
        }
