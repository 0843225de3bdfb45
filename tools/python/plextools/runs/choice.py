"""Which jobs of a run are shown: those of a range, of forlopps, blocks and signals, or around a
fault.

`Chooser(run, wishes).chosen()` asks plex about the run and gives a `Chosen`. Blocks and signals are
those of the whole job: where direct and combined signals took it, and all that it sent. So the run
is made here for them too, as far as it must be; nothing but numbers of jobs is kept of it.
"""
import os
import re
import tempfile
from array import array
from collections import deque
from typing import Deque, Iterable, Iterator, List, NamedTuple, Optional, Sequence, Set, Tuple

from plextools import programs, progress, tables
from plextools.runs.observed import Among, Observed, Seen
from plextools.runs.signals import Line
from plextools.text.hints import near
from plextools.text.signal_files import WITHOUT_JOBS
from plextools.text.statements import Signal, Text

FAULTS = (
    "POINTER RANGE DIVIDE NOTOWN NOFORLOPP CHAIN BADEND DEPTH SENDS BUDGET".split()
)  # as docs/MACHINE.md has them
ANY = "FAULT"
ENDED = re.compile(rb"(?:RELEASE F\d+|RESTART) job (\d+) (\w+) at ")
BETWEEN = 2000
NONE_FITS = 1


class Run(NamedTuple):
    """A run that is shown: its files, the exchange, the lines of the signal file, and its limit."""

    exchange: str
    signals: str
    text: Text
    lines: Sequence[Line]
    limit: int

    def words(self, command: str, limit: int, *more: str) -> List[str]:
        """The words of a command of plex for so many jobs of it."""
        return [command, self.exchange, self.signals, *more, "--jobs", str(limit)]


class Wishes(NamedTuple):
    """What is to be shown: a range of jobs, what they belong to, the fault or the job around which
    they stand with how many on each side, and how many jobs at most.
    """

    first: int
    last: Optional[int]
    forlopps: Sequence[int]
    blocks: Sequence[str]
    signals: Sequence[str]
    around: Optional[str]
    context: int
    most: int


class Faulted(NamedTuple):
    """A job that ended by a fault, with its word."""

    place: int
    word: str


class Whole(NamedTuple):
    """A run as plex tells of it: how many jobs it has, how it ended, the first job with the wanted
    fault, and how many have one of which words.
    """

    jobs: int
    ending: str
    found: Optional[Faulted]
    faults: int
    words: Sequence[str]


class Chosen(NamedTuple):
    """The numbers of the jobs that are shown; how many others fit, and whether there may be more of
    these behind the last one, which were not looked for; what is to be said of the choice; how many
    jobs the run has, and how it ended.
    """

    numbers: Sequence[int]
    others: int
    is_open: bool
    notes: Sequence[str]
    jobs: int
    ending: str


def whole(run: Run, fault: Optional[str]) -> Whole:
    """What plex tells of the whole run."""
    jobs, ending, faults = 0, "", 0
    found: Optional[Faulted] = None
    words: Set[str] = set()
    for line in programs.lines_of(
        [*run.words("run", run.limit), "--workers", "1"], programs.ENDINGS
    ):
        told = ENDED.match(line)
        if told:
            one = Faulted(int(told[1]), told[2].decode("ascii"))
            words.add(one.word)
            if fault in (ANY, one.word):
                found, faults = found or one, faults + 1
        elif line.startswith(b"JOBS "):
            jobs = int(line[5:])
        elif line.startswith(b"END "):
            ending = line[4:].decode("ascii")
    return Whole(jobs, ending, found, faults, sorted(words))


def traced(run: Run, filter_lines: Iterable[str], limit: int) -> Iterator[bytes]:
    """The lines of the trace of the jobs that a filter shows, and of the report behind it."""
    with tempfile.TemporaryDirectory() as folder:
        show = os.path.join(folder, "show")
        with open(show, "w", encoding="ascii") as file:
            file.writelines(line + "\n" for line in filter_lines)
        yield from programs.lines_of(run.words("trace", limit, show), programs.ENDINGS)


def listed(numbers: Sequence[int]) -> str:
    """Numbers of jobs as words, the ones that follow one another as a range."""
    ranges: List[Tuple[int, int]] = []
    for number in numbers:
        if ranges and ranges[-1][1] == number - 1:
            ranges[-1] = ranges[-1][0], number
        else:
            ranges.append((number, number))
    return ", ".join(str(one) if one == last else f"{one}-{last}" for one, last in ranges)


class Reach:
    """The blocks that jobs of an entry may come to, and the signals that they may send."""

    def __init__(self, text: Text, entry: int) -> None:
        begin = text.entries[entry]
        self.blocks, self.signals = {begin.block}, {begin.signal.text}
        seen, points = {begin.point}, [begin.point]
        while points:
            node = text.points[points.pop()]
            self.blocks.add(node.block)
            if node.kind in ("SEND", "RETURN", "TRANSFER"):
                self.signals.add(node.signal.text)
            new = [point for point in text.leads(node) if point not in seen]
            seen.update(new)
            points += new


class Chooser:
    """Finds the jobs that are wished for."""

    def __init__(self, run: Run, wishes: Wishes) -> None:
        self.run, self.wishes, self.text = run, wishes, run.text
        self.notes: List[str] = []
        self.is_open = False
        self.blocks = {self.block(name) for name in wishes.blocks}
        self.signals = {self.signal(name).name for name in wishes.signals}
        self.whole = whole(run, wishes.around)

    # names

    def block(self, name: str) -> int:
        """The number of a block."""
        number = self.text.block_number.get(name)
        if number is None:
            raise self.unknown("block", name, self.text.block_number)
        if not any(node.block == number for node in self.text.entries):
            told = "the jobs that direct and combined signals take there are shown"
            self.notes.append(f"no job starts in block {name}: {told}")
        return number

    def signal(self, name: str) -> Signal:
        signal = self.text.signals.get(name)
        if signal is None:
            raise self.unknown("signal", name, self.text.signals)
        if not signal.level:
            told = f"no job starts by {name}, which is {WITHOUT_JOBS[signal.kind]}"
            self.notes.append(f"{told}: the jobs that send it are shown")
        return signal

    def unknown(self, what: str, name: str, names: Iterable[str]) -> programs.Wrong:
        meant = near(name.upper(), names) or (name.upper() if name.upper() in names else None)
        more = f"; {meant} is one" if meant else ""
        return programs.Wrong(f"no {what} of the exchange is called {tables.quoted(name)}{more}")

    # jobs

    def chosen(self) -> Chosen:
        """The jobs that are shown."""
        middle = self.middle()
        candidates = self.candidates()
        fitting = self.fitting(candidates) if self.is_partial else iter(candidates)
        numbers = self.taken(fitting) if middle is None else self.taken_around(fitting, middle)
        if not numbers:
            self.refuse()
        is_counted = bool(self.wishes.forlopps) and not self.is_partial
        others = len(candidates) - len(numbers) if is_counted else 0
        is_open = self.is_open and self.is_partial
        return Chosen(numbers, others, is_open, self.notes, self.whole.jobs, self.whole.ending)

    @property
    def is_partial(self) -> bool:
        """Whether a job must be watched before it is known that it fits."""
        return bool(self.blocks or self.signals)

    @property
    def last(self) -> int:
        """The last job that may be shown."""
        last = self.wishes.last
        return self.whole.jobs if last is None else min(last, self.whole.jobs)

    def middle(self) -> Optional[int]:
        """The job around which jobs are shown."""
        around = self.wishes.around
        if around is None:
            return None
        if around not in (ANY, *FAULTS):
            if int(around) > self.whole.jobs:
                raise programs.Wrong(f"there is no job {around}: the run has {self.whole.jobs}")
            return int(around)
        found = self.whole.found
        if found is None:
            others = f"; faults are {', '.join(self.whole.words)}" if self.whole.words else ""
            what = "by a fault" if around == ANY else f"by {around}"
            raise programs.Wrong(f"no job of the run ended {what}{others}", NONE_FITS)
        if self.whole.faults > 1:
            count = f"{self.whole.faults} jobs ended by {'a fault' if around == ANY else around}"
            self.notes.append(f"{count}: the first is job {found.place}, {found.word}")
        return found.place

    def candidates(self) -> Sequence[int]:
        """The jobs that fit, or among which those are that do."""
        if not (self.wishes.forlopps or self.is_partial):
            return range(self.wishes.first, self.last + 1)
        numbers, lines = array("I"), list(self.filter_lines())
        if lines and self.wishes.first <= self.last:
            for line in traced(self.run, lines, self.last):
                if line.startswith(b"JOB "):
                    numbers.append(int(line.split(b" ", 2)[1]))
                elif not line.startswith(b"SEND "):
                    break
        return numbers

    def filter_lines(self) -> Iterator[str]:
        """The filter of plex that shows the candidates."""
        window = f" FROM {self.wishes.first} UPTO {self.last}"
        forlopps = [f" FORLOPP {number}" for number in self.wishes.forlopps] or [""]
        for entry in self.entries() if self.is_partial else [""]:
            for forlopp in forlopps:
                yield f"SHOW{entry}{forlopp}{window}"

    def entries(self) -> Iterator[str]:
        """The entries whose jobs may fit, as parts of a filter."""
        for number, node in enumerate(self.text.entries):
            reach = Reach(self.text, number)
            may_come = not self.blocks or self.blocks & reach.blocks
            if may_come and (not self.signals or self.signals & reach.signals):
                block = self.text.blocks[node.block].name.text
                yield f" BLOCK {block} SIGNAL {node.signal.text}"

    def fitting(self, candidates: Sequence[int]) -> Iterator[int]:
        """Those of the candidates that fit, one after the other, as the run is made."""
        if not candidates:
            return
        machine = Observed(self.text, self.run.lines, candidates[-1], Among(candidates))
        line = progress.Line()
        try:
            for job in machine.jobs():
                if job.place % BETWEEN == 0:
                    line.draw(f"{job.place} jobs were looked at")
                if machine.seen and self.fits(machine.seen.pop()):
                    yield job.place
                machine.events.clear()
        finally:
            line.erase()

    def fits(self, seen: Seen) -> bool:
        """Whether a job comes to one of the blocks, and has one of the signals."""
        entry = self.text.entries[seen.job.entry]
        blocks, signals = seen.blocks | {entry.block}, seen.signals | {entry.signal.text}
        return (not self.blocks or bool(self.blocks & blocks)) and (
            not self.signals or bool(self.signals & signals)
        )

    def taken(self, fitting: Iterator[int]) -> List[int]:
        """The first of those that fit."""
        numbers: List[int] = []
        for number in fitting:
            numbers.append(number)
            if len(numbers) == self.wishes.most:
                self.is_open = True
                break
        return numbers

    def taken_around(self, fitting: Iterator[int], middle: int) -> List[int]:
        """A job, and those that fit before and behind it."""
        most = min(self.wishes.context, self.wishes.most // 2)
        before: Deque[int] = deque(maxlen=most)
        behind: List[int] = []
        for number in fitting:
            if number < middle:
                before.append(number)
            elif number > middle:
                behind.append(number)
            if len(behind) >= most:
                self.is_open = True
                break
        return [*before, middle, *behind[:most]]

    def refuse(self) -> None:
        """No job fits."""
        wishes, jobs = self.wishes, self.whole.jobs
        parts = [
            *(f"in forlopp F{number}" for number in wishes.forlopps),
            *(f"in block {name}" for name in wishes.blocks),
            *(f"with signal {name}" for name in wishes.signals),
        ]
        where = f" of jobs {wishes.first} to {self.last}" if wishes.first <= self.last else ""
        if not jobs:
            raise programs.Wrong("the run has no jobs", NONE_FITS)
        if not parts:
            told = f"the run has {jobs} jobs, and none from {wishes.first} on"
            raise programs.Wrong(told, NONE_FITS)
        raise programs.Wrong(f"no job{where} is {' or '.join(parts)}", NONE_FITS)
