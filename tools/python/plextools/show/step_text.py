"""What plex-step tells of a place of a run, in lines."""
import textwrap
from typing import Iterable, Iterator, List, Sequence

from plextools.runs.layout import File
from plextools.runs.machine import LEVELS, Job
from plextools.runs.named import Data, Names
from plextools.runs.observed import OUTSIDE
from plextools.runs.running import Sent
from plextools.runs.searches import Write
from plextools.runs.stepping import Frame, Stepper
from plextools.runs.values import FIRST_TEMPORARY
from plextools.tables import counted, printed
from plextools.text.grammar import Node

MOST_SHOWN, MOST_JOBS, LONGEST, AROUND = 100, 20, 200, 5
WIDTH, INDENT = 80, " " * 4


class StepText:
    """Tells of the place where a stepper stands."""

    def __init__(self, stepper: Stepper, names: Names, content: bytes) -> None:
        self.stepper, self.names, self.text = stepper, names, stepper.run.text
        self.machine = stepper.machine
        self.lines = content.split(b"\n")

    # signals and jobs

    def signal(self, name: str, values: Iterable[int]) -> str:
        return " ".join([name, *map(str, values)])

    def enter(self, job: Job) -> Node:
        node: Node = self.text.entries[job.entry]
        return node

    def start(self, job: Job) -> str:
        """The signal by which a job starts, and where."""
        enter = self.enter(job)
        return f"{self.signal(enter.signal.text, job.values)} to {self.names.blocks[enter.block]}"

    def origin(self, job: Job) -> str:
        """Where a job has come from."""
        return f"line {job.line}" if job.line is not None else f"sent by job {job.by}"

    def about(self, job: Job) -> str:
        """All that a job has begun with."""
        return f"{self.start(job)}, level {job.level}, F{job.forlopp}, {self.origin(job)}"

    def sent(self, sent: Sent) -> str:
        """A signal of an outbox."""
        signal, entry, values, is_fresh = sent
        name = self.signal(self.machine.program.signal_names[signal], values)
        if entry == OUTSIDE:
            return f"{name} to outside"
        block = self.names.blocks[self.text.entries[entry].block]
        return f"{name} to {block}{', new forlopp' if is_fresh else ''}"

    def passed(self) -> Iterator[str]:
        """How the job before this place has ended, where the last step has seen it."""
        if self.stepper.passed is None:
            return
        job, ended = self.stepper.passed
        how = f" by {job.fault}" if job.fault else ""
        told = f"[job {job.place} has ended{how} after {counted(job.length, 'statement')}"
        yield f"{told}, {counted(len(job.outbox), 'signal')} sent]"
        if ended:
            yield f"[{self.machine.told_event(ended)}]"

    # the place

    def begun(self, job: Job) -> str:
        """What a job has begun with."""
        return f"[job {self.stepper.place.job}: {self.about(job)}]"

    def statement(self, point: int) -> str:
        """A statement with its block and line."""
        return f"{self.names.where(point)}  {cut(self.text.head(self.text.points[point]))}"

    def here(self) -> Iterator[str]:
        """The place where the run stands."""
        stepper = self.stepper
        if stepper.is_over:
            yield f"The run is over after {counted(self.machine.ended, 'job')}: {self.ending()}"
            return
        if stepper.fault:
            yield f"Fault {stepper.fault} of job {stepper.place.job}:"
        yield self.statement(stepper.point)

    def ending(self) -> str:
        same = "; jobs, sends, faults and report are those of plex"
        return f"END {self.machine.ending}{same if self.stepper.is_compared else ''}"

    def write(self, write: Write, is_done: bool) -> str:
        """A store that is watched."""
        number = f"Watchpoint {write.number}: " if write.number else ""
        where = self.names.where(write.point) if write.point >= 0 else "the release"
        told = f"{number}{self.names.cell(write.cell)}: {write.old} -> {write.new}"
        return f"{told}, {'stored' if is_done else 'to be stored'} by {where}"

    def where(self) -> Iterator[str]:
        """The activations of the job."""
        stepper = self.stepper
        if stepper.job is None:
            yield from self.here()
            return
        for place, frame in enumerate(stepper.frames):
            yield f"#{place}  {self.statement(frame.point)}"
            yield from in_lines(self.temporaries(frame))
        yield f"job {stepper.place.job}, statement {stepper.place.step}: {self.about(stepper.job)}"

    def temporaries(self, frame: Frame) -> Iterator[str]:
        """The temporaries of an activation."""
        block = self.text.blocks[self.text.points[frame.point].block]
        for name, place in block.temporaries.items():
            yield f"{name} = {frame.activation[FIRST_TEMPORARY + place]}"

    def listed(self, first: int, last: int) -> Iterator[str]:
        """Lines of the text, with a mark at the one where the job is."""
        job = self.stepper.job
        at = self.text.points[self.stepper.point].line if job else 0
        for number in range(max(1, first), min(last, len(self.lines)) + 1):
            line = self.lines[number - 1].decode("utf-8", "replace").rstrip("\r")
            mark = "=>" if number == at else "  "
            yield f"{mark} {number:5}  {cut(line.expandtabs(8))}".rstrip()

    # data

    def data(self, data: Data) -> Iterator[str]:
        """Values of stored data; of several records those that have not their first value."""
        cells, file = self.machine.context.cells, self.names.file_of(data)
        if data.is_one or file is None:
            yield f"{data.told} = {cells[data.cells[0]]}"
        elif data.name == file.name:
            yield from self.records(data, file)
        else:
            yield from self.column(data, file)

    def column(self, data: Data, file: File) -> Iterator[str]:
        """A field of all records."""
        cells = self.machine.context.cells
        init = next(field.init for field in file.fields if field.name == data.name)
        told = [
            f"{data.told}({record}) = {cells[cell]}"
            for record, cell in enumerate(data.cells)
            if cells[cell] != init
        ]
        yield from some(told, MOST_SHOWN)
        yield f"{data.told} = {init} in {others(file.size - len(told), bool(told))}"

    def records(self, data: Data, file: File) -> Iterator[str]:
        """Records of a file with all of their fields."""
        cells, holders = self.machine.context.cells, self.holders()
        first, told = (data.cells[0] - file.first) // file.stride, []
        for record in range(first, first + len(data.cells) // file.stride):
            begin = file.first + record * file.stride
            values = cells[begin : begin + file.stride]
            if len(data.cells) > file.stride and tuple(values) == file.opening:
                continue
            fields = [f"{one.name} {value}" for one, value in zip(file.fields, values)]
            holder = holders.get(file.first_record + record) if file.is_forlopp else None
            state = [] if not file.is_forlopp else [holder or "free"]
            told.append(f"{file.block}.{file.name}({record}): {', '.join([*fields, *state])}")
        yield from some(told, MOST_SHOWN)
        if len(data.cells) > file.stride:
            left = others(file.size - len(told), bool(told))
            yield f"{data.told} has its first values in {left}"

    def holders(self) -> "dict[int, str]":
        """Which forlopp holds which record."""
        chains = {**self.machine.chains}
        if self.stepper.job:
            chains[self.stepper.job.forlopp] = self.machine.context.chain
        return {
            record: f"held by F{forlopp}" for forlopp, chain in chains.items() for record in chain
        }

    def block(self, block: int) -> Iterator[str]:
        """All stored data of a block."""
        name, layout = self.names.blocks[block], self.names.layout
        for key, variable in layout.variables.items():
            if key[0] == block:
                yield f"{name}.{variable.name} = {self.machine.context.cells[variable.cell]}"
        for key, file in layout.file_of.items():
            if key[0] == block:
                yield from self.data(self.names.data(f"{name}.{file.name}", block, {}))

    def locals(self) -> Iterator[str]:
        """The temporaries of the activation, and the values of the answer."""
        yield from list(self.temporaries(self.stepper.frames[0])) or ["no temporaries"]

    # who waits

    def waiting(self, level: str) -> List[Job]:
        machine = self.machine
        return [job for job in machine.waiting[level] if not machine.is_dead(job.forlopp)]

    def jobs(self) -> Iterator[str]:
        """The job that runs, and those that wait, in the order in which they would run."""
        if self.stepper.job:
            yield f"runs   {self.about(self.stepper.job)}"
        every = [job for level in LEVELS for job in self.waiting(level)]
        yield from some([f"waits  {self.about(job)}" for job in every], MOST_JOBS)
        if not every:
            yield "no job waits"
        left = len(self.machine.lines) - self.machine.arrived
        yield f"{counted(left, 'line')} of the signal file to come"

    def buffers(self) -> Iterator[str]:
        """The four job buffers."""
        for level in LEVELS:
            jobs = self.waiting(level)
            yield f"{level}: {counted(len(jobs), 'job')}"
            yield from some(
                [f"   {self.start(job)}, F{job.forlopp}, {self.origin(job)}" for job in jobs],
                MOST_JOBS,
            )

    def chains(self) -> Iterator[str]:
        """The records that each forlopp holds."""
        own = self.stepper.job.forlopp if self.stepper.job else 0
        chains = {**self.machine.chains}
        if self.stepper.job and own:
            chains[own] = self.machine.context.chain
        told = [
            f"{'=>' if number == own else '  '} F{number}: {self.chain(chains[number])}"
            for number in sorted(chains)
            if chains[number]
        ]
        yield from some(told, MOST_SHOWN)
        if not told:
            yield "no record is held"

    def chain(self, chain: "dict[int, int]") -> str:
        return " ".join(file.told(record) for record, file in self.machine.records_of(chain))

    def outbox(self) -> Iterator[str]:
        """What the job has sent so far."""
        if not self.stepper.job or not self.machine.context.outbox:
            yield "nothing is sent yet"
            return
        yield from map(self.sent, self.machine.context.outbox)

    def events(self) -> Iterator[str]:
        """What the report has so far of signals that left, of releases, restarts and lost lines."""
        events = self.machine.events
        if len(events) > MOST_JOBS:
            yield f"{counted(len(events) - MOST_JOBS, 'event')} before"
        yield from map(self.machine.told_event, events[-MOST_JOBS:])
        if not events:
            yield "nothing has left the exchange"


def in_lines(words: Iterable[str]) -> List[str]:
    """Words with commas, in lines that a terminal has room for."""
    told = ", ".join(words)
    return textwrap.wrap(told, WIDTH, initial_indent=INDENT, subsequent_indent=INDENT)


def others(number: int, are_others: bool) -> str:
    return counted(number, f"{'other ' if are_others else ''}record")


def cut(text: str) -> str:
    """A text as a line may show it."""
    told = printed(text)
    return told if len(told) <= LONGEST else told[:LONGEST] + " .."


def some(lines: Sequence[str], most: int) -> Iterator[str]:
    """The first of these lines, and how many are left out."""
    yield from lines[:most]
    if len(lines) > most:
        yield f"   and {len(lines) - most:,} more"
