"""The sequence chart of jobs of a run, as rows of a drawing: what `chart_text`, `chart_svg` and
`chart_words` draw, each in its way.

A **lane** is a lifeline: lane 0 is outside, and each block that takes part has one, in the order of
the text. A row tells which lanes are alive in it: where the job is, and which callers wait.
"""
import textwrap
from dataclasses import dataclass
from enum import Enum
from typing import Dict, Iterator, List, NamedTuple, Optional, Sequence, Set

from plextools.runs.choice import Chosen, listed
from plextools.runs.machine import Job
from plextools.runs.observed import (
    OUTSIDE,
    Change,
    Kind,
    LostLine,
    Message,
    Observed,
    Seen,
    Stored,
)
from plextools.tables import counted
from plextools.text.statements import Text

EDGE = 0  # the lane of outside
LAST = (Kind.BUFFERED, Kind.OUTSIDE)
TIED = "\xa0"  # a blank at which no line is broken


class Life(Enum):
    """What stands on a lane: the job itself, or a caller that waits."""

    ACTIVE = "active"
    WAITING = "waiting"


class Style(Enum):
    """How an arrow is drawn: a signal between jobs or to the edge, one inside a job, an answer, or
    a line that is lost.
    """

    SIGNAL = "signal"
    CALL = "call"
    ANSWER = "answer"
    LOST = "lost"


class Tone(Enum):
    """What a text in a row tells."""

    VALUE = "value"
    FAULT = "fault"
    END = "end"
    GAP = "gap"


Lives = Dict[int, Life]


@dataclass
class Row:
    """What all rows have: the job, 0 where it belongs to none, its forlopp, and its lives."""

    job: int
    forlopp: int
    lives: Lives


@dataclass
class Arrow(Row):
    """A signal, from lane to lane; `behind` has the lives behind it. `receiver` is the job that a
    buffered one starts, where that is drawn, and `its_forlopp` that job's. The first row of a job
    `begins` it: then `source` is None where a job sent its signal.
    """

    source: Optional[int]
    target: int
    label: str
    style: Style
    behind: Lives
    receiver: Optional[int] = None
    its_forlopp: Optional[int] = None
    begins: bool = False


@dataclass
class Note(Row):
    """A text beside a lane."""

    lane: int
    text: str
    tone: Tone


@dataclass
class Mark(Row):
    """A text across all lanes."""

    text: str
    tone: Tone


class Look(NamedTuple):
    """What is shown of each signal and job: the lines of statements, and what is stored."""

    lines: bool
    values: bool


@dataclass
class Chart:
    """A chart: its title, the names of its lanes, its rows, and what is said below."""

    title: str
    lanes: List[str]
    rows: List[Row]
    footer: List[str]

    @property
    def largest_job(self) -> int:
        return max((row.job for row in self.rows), default=0)

    @property
    def largest_forlopp(self) -> int:
        return max((row.forlopp for row in self.rows), default=0)


def tied(text: str) -> str:
    """A text that stays in one line."""
    return text.replace(" ", TIED)


def plain(text: str) -> str:
    """The same with usual blanks."""
    return text.replace(TIED, " ")


def wrapped(text: str, letters: int) -> List[str]:
    """The lines of a text of at most so many letters; a longer word is cut."""
    if max(map(len, text.split(" "))) > letters:
        text = plain(text)
    parts = textwrap.wrap(text, max(letters, 1), break_on_hyphens=False)
    return [plain(part) for part in parts] or [""]


class Maker:
    """Makes the rows of a chart of the jobs that a run has seen."""

    def __init__(self, machine: Observed, chosen: Chosen, look: Look) -> None:
        self.machine, self.chosen, self.look = machine, chosen, look
        self.text: Text = machine.watched.text
        self.waiting = machine.still_waiting()
        self.drawn = {seen.job.place for seen in machine.seen}
        blocks = self.blocks_seen()
        self.lane_of = {OUTSIDE: EDGE, **{block: at for at, block in enumerate(blocks, 1)}}
        self.names = ["outside", *(self.text.blocks[block].name.text for block in blocks)]
        self.rows: List[Row] = []

    def blocks_seen(self) -> List[int]:
        """The blocks that take part."""
        found: Set[int] = set()
        for seen in self.machine.seen:
            found |= seen.blocks
            found.update(self.text.entries[one.line.entry].block for one in seen.lost)
            found.update(step.target for step in seen.steps if isinstance(step, Message))
            found.add(self.text.entries[seen.job.entry].block)
        return sorted(found - {OUTSIDE})

    def chart(self, title: str) -> Chart:
        """The whole chart."""
        before = 0
        for seen in self.machine.seen:
            self.gap(before, seen.job.place)
            before = seen.job.place
            self.job(seen)
        self.gap(before, self.chosen.jobs + 1)
        if before == self.chosen.jobs:
            self.mark(f"END {self.chosen.ending}", Tone.END)
        return Chart(title, self.names, self.rows, list(self.footer()))

    def footer(self) -> Iterator[str]:
        """What is said below a chart: how much of the run it shows."""
        numbers, jobs = self.chosen.numbers, self.chosen.jobs
        yield f"{len(numbers):,} of {counted(jobs, 'job')} drawn: {listed(numbers)}"
        if self.chosen.others:
            are = "fits and is" if self.chosen.others == 1 else "fit and are"
            yield f"{self.chosen.others:,} more {are} left out: --most N draws more"
        elif self.chosen.is_open and numbers[-1] < jobs:
            yield f"jobs after {numbers[-1]} were not looked at"

    # rows

    def mark(self, text: str, tone: Tone, forlopp: int = 0) -> None:
        self.rows.append(Mark(0, forlopp, {}, text, tone))

    def gap(self, before: int, behind: int) -> None:
        """Tells of the jobs between two that are drawn."""
        count = behind - before - 1
        if count > 0:
            jobs = f"{before + 1}" if count == 1 else f"{before + 1} to {behind - 1}"
            restarts = [job for job in self.machine.restarted if before < job < behind]
            more = f"; restart by job {listed(restarts)}" if restarts else ""
            self.mark(f"{counted(count, 'job')} left out: {jobs}{more}", Tone.GAP)

    def job(self, seen: Seen) -> None:
        """The rows of a job, and of what came behind it."""
        job, lives = seen.job, Activations(self.lane_of[self.text.entries[seen.job.entry].block])
        self.begin(job, lives)
        for step in seen.steps:
            if isinstance(step, Message):
                self.message(job, step, lives)
            else:
                self.note(job, self.lane_of[step.block], self.told(step), Tone.VALUE, lives)
        if seen.left_out:
            what = f"{counted(seen.left_out, 'more step')} of this job left out"
            self.note(job, lives.lane, what, Tone.GAP, lives)
        if job.fault:
            self.fault(seen, lives)
        self.lost(seen)

    def begin(self, job: Job, lives: "Activations") -> None:
        """The first row of a job."""
        entry = self.text.entries[job.entry]
        label = labelled(entry.signal.text, job.values)
        if job.line is None:
            label += " " + tied(f"(from job {job.by})")
        else:
            label += self.signal_line(job.line)
        source = EDGE if job.line is not None else None
        now, lane = lives.now, lives.lane
        row = Arrow(job.place, job.forlopp, now, source, lane, label, Style.SIGNAL, now)
        row.begins = True
        self.rows.append(row)

    def signal_line(self, number: int) -> str:
        """A line of the signal file behind its signal."""
        return f" S:{number}" if self.look.lines else ""

    def message(self, job: Job, message: Message, lives: "Activations") -> None:
        """The row of a signal that a job sent."""
        source, target = self.lane_of[message.source], self.lane_of[message.target]
        label = labelled(message.signal, message.values)
        if self.look.lines:
            label += f" :{message.line}"
        style = Style.SIGNAL if message.kind in LAST else Style.CALL
        style = Style.ANSWER if message.kind is Kind.ANSWER else style
        before = lives.now
        lives.follow(message.kind, target)
        now = joined(before, lives.now)
        row = Arrow(job.place, job.forlopp, now, source, target, label, style, lives.now)
        if message.receiver:
            row.label += " " + tied(f"({self.becomes(message)})")
            row.its_forlopp = message.receiver.forlopp
            row.receiver = message.receiver.place if message.receiver.place in self.drawn else None
        self.rows.append(row)

    def becomes(self, message: Message) -> str:
        """What becomes of a buffered signal."""
        job = message.receiver
        assert job
        forlopp = f", new F{job.forlopp}" if message.is_fresh else ""
        if job.place:
            return f"to job {job.place}{forlopp}"
        if self.machine.is_dead(job.forlopp) or job.number not in self.waiting:
            return f"removed{forlopp}"
        is_over = self.machine.ended == self.chosen.jobs
        return f"{'never started' if is_over else 'later'}{forlopp}"

    def note(self, job: Job, lane: int, text: str, tone: Tone, lives: "Activations") -> None:
        self.rows.append(Note(job.place, job.forlopp, lives.now, lane, text, tone))

    def told(self, stored: Stored) -> str:
        """What was stored, as a chart has it."""
        line = f" :{stored.line}" if self.look.lines else ""
        if stored.change is not Change.STORED:
            return f"{stored.name} {stored.change.value}{line}"
        times = f" ({stored.times} stores)" if stored.times > 1 else ""
        return f"{stored.name}: {stored.old} -> {stored.new}{times}{line}"

    def fault(self, seen: Seen, lives: "Activations") -> None:
        """The rows of a fault and of what it brings."""
        job, node = seen.job, self.text.points[seen.job.point]
        block = self.text.blocks[node.block].name.text
        lane = self.lane_of.get(node.block, lives.lane)
        told = f"{job.fault} at {block}:{node.line}"
        self.note(job, lane, f"fault {told}", Tone.FAULT, lives)
        ended = seen.ended
        assert ended
        what = f"RELEASE F{ended.forlopp}" if ended.forlopp else "RESTART"
        gone = f"{counted(ended.jobs, 'job')} removed, {counted(ended.records, 'record')} freed"
        self.mark(f"{what}: job {job.place}, {told}; {gone}", Tone.FAULT, ended.forlopp)

    def lost(self, seen: Seen) -> None:
        """The lines that were lost behind a job."""
        for one in seen.lost:
            self.rows.append(self.lost_line(one))
        if seen.more_lost:
            self.mark(f"{counted(seen.more_lost, 'more line')} of the signal file lost", Tone.GAP)

    def lost_line(self, lost: LostLine) -> Arrow:
        entry = self.text.entries[lost.line.entry]
        label = labelled(entry.signal.text, lost.line.values)
        line = self.signal_line(lost.line.number)
        label += f"{line} " + tied(f"lost: F{lost.forlopp} is dead")
        return Arrow(0, lost.forlopp, {}, EDGE, self.lane_of[entry.block], label, Style.LOST, {})


class Activations:
    """The activations of a job: the lane where it is, and those of the callers that wait."""

    def __init__(self, lane: int) -> None:
        self.lane = lane
        self.callers: List[int] = []

    @property
    def now(self) -> Lives:
        return {**dict.fromkeys(self.callers, Life.WAITING), self.lane: Life.ACTIVE}

    def follow(self, kind: Kind, target: int) -> None:
        """Goes on behind a signal."""
        if kind is Kind.COMBINED:
            self.callers.append(self.lane)
        elif kind is Kind.ANSWER:
            self.callers.pop()
        if kind not in LAST:
            self.lane = target


def joined(before: Lives, behind: Lives) -> Lives:
    """What lives on the row of a signal: where something waits before and behind, it waits."""
    found = {**before, **behind}
    for lane in before:
        if Life.ACTIVE in (before[lane], behind.get(lane)):
            found[lane] = Life.ACTIVE
    return found


def labelled(signal: str, values: Sequence[int]) -> str:
    """A signal with its values."""
    return " ".join([signal, *map(str, values)])
