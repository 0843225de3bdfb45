"""The commands of plex-step: what each does, and what it tells.

`Session(run, content)` stands at the first statement; `do(line)` gives the lines that a command
tells. `Refused` says what is wrong with one, and `Ended` that it was the last one.
"""
import re
from typing import Callable, Dict, FrozenSet, Iterator, List, NamedTuple, Optional, Sequence, Set

from plextools.limits import MOST_JOBS
from plextools.runs import choice
from plextools.runs.named import Data, Names, Spot, Unknown
from plextools.runs.searches import NO_DEPTH, Place, Stop, Watched, Wish
from plextools.runs.stepping import Stepper
from plextools.show.step_text import AROUND, StepText
from plextools.tables import counted, printed
from plextools.text.hints import near

SENDING = ("SEND", "RETURN", "TRANSFER")
MOST_TIMES = 10_000
NOWHERE: FrozenSet[int] = frozenset()
NUMBER = re.compile(r"[0-9]{1,9}")
Told = Iterator[str]


class Refused(Exception):
    """What is wrong with a command."""


class Ended(Exception):
    """The last command was given."""


class Command(NamedTuple):
    """A command: its names, the shortest first, its words, what it does, and what does it."""

    names: Sequence[str]
    words: str
    about: str
    does: Callable[["Session", str], Told]


class Breakpoint(NamedTuple):
    """Where the run is to stop: statements, or data that is stored into."""

    spot: Optional[Spot]
    data: Optional[Data]

    @property
    def told(self) -> str:
        if self.spot:
            return f"breakpoint  {self.spot.told}"
        assert self.data
        return f"watchpoint  {self.data.told}"


class Session:
    """What is asked of a run that is stepped."""

    def __init__(self, run: choice.Run, content: bytes) -> None:
        self.stepper = Stepper(run)
        self.names = Names(run.text, self.stepper.machine.program.layout)
        self.text = StepText(self.stepper, self.names, content)
        self.stops: Dict[int, Breakpoint] = {}
        self.hits: Dict[int, int] = {}
        self.made = 0
        self.shown_job, self.last_listed = 0, 0
        self.before = ""

    # one command

    def do(self, line: str) -> Told:
        """What a command tells; an empty one is the one before."""
        line = line.strip() or self.before
        self.before = line
        if not line:
            return
        name, _, words = line.partition(" ")
        command = BY_NAME.get(name.lower())
        if command is None:
            like = near(name.lower(), BY_NAME)
            meant = f"; {like} is one" if like else ""
            raise Refused(f"no command {printed(name)}{meant}: help tells all")
        try:
            yield from command.does(self, " ".join(words.split()))
        except Unknown as unknown:
            raise Refused(str(unknown)) from unknown

    def begun(self) -> Told:
        """What is told at the beginning."""
        yield from self.shown()

    @staticmethod
    def nothing(words: str) -> None:
        if words:
            raise Refused(f"it takes no word, and not {printed(words)}")

    @staticmethod
    def times(words: str, most: int = MOST_TIMES) -> int:
        """How many times a motion is made, or another number."""
        if not words:
            return 1
        if not NUMBER.fullmatch(words) or not 1 <= int(words) <= most:
            raise Refused(f"it takes a number from 1 to {most:,}, and not {printed(words)}")
        return int(words)

    # motions

    def shown(self) -> Told:
        """The place where the run stands now; that of another job with its beginning."""
        stepper = self.stepper
        yield from self.text.passed()
        if stepper.job and stepper.place.job != self.shown_job:
            yield self.text.begun(stepper.job)
        self.shown_job, self.last_listed = stepper.place.job, 0
        yield from self.text.here()

    @property
    def depth(self) -> int:
        """How many callers wait."""
        return 0 if self.stepper.is_over else len(self.stepper.frames) - 1

    @property
    def breaks(self) -> FrozenSet[int]:
        """The statements at which the run is to stop."""
        spots = [one.spot.points for one in self.stops.values() if one.spot]
        return frozenset().union(*spots)

    @property
    def watched(self) -> List[Watched]:
        return [Watched(number, one.data.cells) for number, one in self.stops.items() if one.data]

    def wish(
        self,
        points: Optional[FrozenSet[int]] = NOWHERE,
        depth: int = NO_DEPTH,
        begins: bool = False,
        watched: Sequence[Watched] = (),
        writers: FrozenSet[int] = NOWHERE,
    ) -> Wish:
        """What a motion looks for, beside all that the run is to stop at."""
        wanted: Set[int] = {*(points or ()), *self.breaks, *writers}
        for one in self.stops.values():
            if one.data:
                wanted |= self.names.writers(one.data)
        entries = self.names.entries_to(wanted) if wanted else NOWHERE
        every = [*self.watched, *watched]
        return Wish(points, depth, begins, self.breaks, every, entries)

    def move(self, wish: Callable[[], Wish], is_forward: bool, times: int = 1) -> Told:
        """Goes on or back, so many times, and tells where."""
        stop: Optional[Stop] = None
        stepper = self.stepper
        for _ in range(times):
            stop = stepper.forward(wish()) if is_forward else stepper.backward(wish())
            if stop is None or stop.is_over:
                break
        if stop is None:
            yield "the beginning of the run"
        else:
            yield from self.reasons(stop, is_forward)
        yield from self.shown()

    def reasons(self, stop: Stop, is_forward: bool) -> Told:
        """Which breakpoints and watchpoints were met."""
        for number, one in self.stops.items():
            is_met = one.spot and not stop.is_over and not self.stepper.fault
            if is_met and one.spot and self.stepper.point in one.spot.points:
                self.hits[number] += 1
                yield f"Breakpoint {number}, {one.spot.told}"
        for number in {write.number for write in stop.writes if write.number}:
            self.hits[number] += 1
        for write in stop.writes:
            yield self.text.write(write, is_forward)

    def step(self, words: str, is_forward: bool = True) -> Told:
        """By statements."""
        return self.move(lambda: self.wish(None, begins=True), is_forward, self.times(words))

    def next(self, words: str, is_forward: bool = True) -> Told:
        """By statements of this activation and those before it."""
        wish = lambda: self.wish(None, self.depth, is_forward)  # noqa: E731
        return self.move(wish, is_forward, self.times(words))

    def signal(self, words: str, is_forward: bool = True) -> Told:
        """To a statement that sends or answers, or to the begin of a job."""
        points = frozenset(
            node.point for node in self.stepper.run.text.points if node.kind in SENDING
        )
        return self.move(lambda: self.wish(points, begins=True), is_forward, self.times(words))

    def job(self, words: str, is_forward: bool = True) -> Told:
        """To the begin of a job."""
        return self.move(lambda: self.wish(begins=True), is_forward, self.times(words))

    def go_on(self, words: str, is_forward: bool = True) -> Told:
        """To where the run is to stop, or to a fault."""
        return self.move(self.wish, is_forward, self.times(words))

    def finish(self, words: str) -> Told:
        """To where the caller goes on, or else to the next job."""
        self.nothing(words)
        points = None if self.depth else NOWHERE
        return self.move(lambda: self.wish(points, self.depth - 1, True), True)

    def until(self, words: str, is_forward: bool = True) -> Told:
        """To statements, or to where data is stored into."""
        name, _, rest = words.upper().partition(" ")
        if rest not in ("", "CHANGES") or not name:
            raise Refused("it takes a line, a signal, a block, or a name with or without `changes`")
        spot = None if rest else self.names.spot(name)
        if spot:
            points = spot.points
            return self.move(lambda: self.wish(points), is_forward)
        data = self.data_of(name)
        watched, writers = [Watched(0, data.cells, bool(rest))], self.names.writers(data)
        return self.move(lambda: self.wish(watched=watched, writers=writers), is_forward)

    def goto(self, words: str) -> Told:
        """To a job by its number, or to the end of the run."""
        if words.upper() == "END":
            return self.ended()
        number = self.times(words, MOST_JOBS) if words else 0
        if not number:
            raise Refused("it takes the number of a job, or `end`")
        return self.to_job(number)

    def ended(self) -> Told:
        self.stepper.forward(Wish(faults=False))
        yield from self.shown()

    def to_job(self, number: int) -> Told:
        self.stepper.to_job(number)
        yield from self.shown()

    def again(self, words: str) -> Told:
        """To the beginning of the run."""
        self.nothing(words)
        self.stepper.passed = None
        self.stepper.go(Place(1, 1))
        yield from self.shown()

    # where it stops

    def add(self, one: Breakpoint) -> str:
        self.made += 1
        self.stops[self.made], self.hits[self.made] = one, 0
        name = one.told.split("  ")
        count = (
            f" ({len(one.spot.points)} statements)" if one.spot and len(one.spot.points) > 1 else ""
        )
        return f"{name[0].capitalize()} {self.made}: {name[1]}{count}"

    def stop_at(self, words: str) -> Told:
        if not words and not self.stepper.is_over:
            words = self.names.where(self.stepper.point)
        spot = self.names.spot(words.upper())
        if spot is None:
            names = [*self.stepper.run.text.signals, *self.names.blocks]
            like = near(words.upper(), names)
            meant = f"; {like} is one" if like else ""
            raise Refused(f"{printed(words)} is no line, signal or block{meant}")
        yield self.add(Breakpoint(spot, None))

    def watch(self, words: str) -> Told:
        yield self.add(Breakpoint(None, self.data_of(words.upper())))

    def delete(self, words: str) -> Told:
        """Without a number, all go."""
        if not words:
            self.stops.clear()
        elif not NUMBER.fullmatch(words) or int(words) not in self.stops:
            raise Refused(f"there is no breakpoint {printed(words)}")
        else:
            del self.stops[int(words)]
        yield from ()

    # what is there

    @property
    def block(self) -> Optional[int]:
        """The block where the job is."""
        if self.stepper.is_over:
            return None
        return int(self.stepper.run.text.points[self.stepper.point].block)

    def values(self) -> Dict[str, int]:
        """The temporaries of the activation."""
        if self.block is None:
            return {}
        activation = self.stepper.frames[0].activation
        names = self.stepper.run.text.blocks[self.block].temporaries
        told = {name: self.names.temporary(name, self.block, activation) for name in names}
        return {name: value.number for name, value in told.items() if value}

    def data_of(self, word: str) -> Data:
        if not word:
            raise Refused("it takes a name, as STATE, STATE(3) or LINES.STATE(3)")
        return self.names.data(word, self.block, self.values())

    def print(self, words: str) -> Told:
        word = words.upper()
        values = self.values()
        if word in values:
            yield f"{word} = {values[word]}"
            return
        yield from self.text.data(self.data_of(word))

    def where(self, words: str) -> Told:
        self.nothing(words)
        return self.text.where()

    def list(self, words: str) -> Told:
        """Lines around a place, or further ones."""
        if words:
            spot = self.names.spot(words.upper())
            if spot is None:
                raise Refused(f"{printed(words)} is no line, signal or block")
            middle = min(self.stepper.run.text.points[point].line for point in spot.points)
        elif self.last_listed:
            middle = self.last_listed + AROUND + 1
        elif self.block is not None:
            middle = self.stepper.run.text.points[self.stepper.point].line
        else:
            middle = AROUND + 1
        self.last_listed = middle + AROUND
        return self.text.listed(middle - AROUND, middle + AROUND)

    def info(self, words: str) -> Told:
        name, _, rest = words.partition(" ")
        told = [one for one in INFOS if name and one.startswith(name.lower())]
        if len(told) != 1:
            raise Refused(f"it takes one of {', '.join(INFOS)}")
        if rest and told[0] != "block":
            raise Refused(f"info {told[0]} takes no word")
        return INFOS[told[0]](self, rest)

    def info_block(self, rest: str) -> Told:
        block = self.names.block(rest.upper()) if rest else self.block
        if block is None:
            raise Refused("the run is over: it takes the name of a block")
        return self.text.block(block)

    def info_locals(self, _: str) -> Told:
        if self.stepper.is_over:
            raise Refused("the run is over")
        return self.text.locals()

    def info_breakpoints(self, _: str) -> Told:
        for number, one in self.stops.items():
            yield f"{number}  {one.told}, met {counted(self.hits[number], 'time')}"
        if not self.stops:
            yield "no breakpoints"

    def help(self, words: str) -> Told:
        """What commands there are."""
        wanted = [BY_NAME[words]] if words in BY_NAME else COMMANDS
        width = max(len(", ".join(one.names) + " " + one.words) for one in COMMANDS)
        for one in wanted:
            yield f"{', '.join(one.names) + ' ' + one.words:<{width}}  {one.about}"
        if wanted is COMMANDS:
            yield f"WHAT is one of {', '.join(INFOS)}; block takes the name of one too."
            yield "An empty line is the last command once more."

    def quit(self, words: str) -> Told:
        self.nothing(words)
        raise Ended


INFOS: Dict[str, Callable[[Session, str], Told]] = {
    "jobs": lambda session, _: session.text.jobs(),
    "buffers": lambda session, _: session.text.buffers(),
    "breakpoints": Session.info_breakpoints,
    "locals": Session.info_locals,
    "block": Session.info_block,
    "chains": lambda session, _: session.text.chains(),
    "outbox": lambda session, _: session.text.outbox(),
    "events": lambda session, _: session.text.events(),
}


def back(does: Callable[[Session, str, bool], Told]) -> Callable[[Session, str], Told]:
    """The same motion the other way."""
    return lambda session, words: does(session, words, False)


UNTIL = "LINE|SIGNAL|NAME [changes]"
COMMANDS = (
    Command(("s", "step"), "[N]", "a statement forward", Session.step),
    Command(("n", "next"), "[N]", "the same, over combined signals", Session.next),
    Command(("sig", "signal"), "[N]", "to a statement that sends or answers", Session.signal),
    Command(("j", "job"), "[N]", "to the next job", Session.job),
    Command(("c", "continue"), "[N]", "to a breakpoint, a fault or the end", Session.go_on),
    Command(("f", "finish"), "", "to where the caller goes on", Session.finish),
    Command(("u", "until"), UNTIL, "to there, or to a store", Session.until),
    Command(("rs", "reverse-step"), "[N]", "a statement back", back(Session.step)),
    Command(("rn", "reverse-next"), "[N]", "the same, over combined signals", back(Session.next)),
    Command(("rsig", "reverse-signal"), "[N]", "back by signals", back(Session.signal)),
    Command(("rj", "reverse-job"), "[N]", "back to the begin of a job", back(Session.job)),
    Command(("rc", "reverse-continue"), "[N]", "back to a breakpoint", back(Session.go_on)),
    Command(("ru", "reverse-until"), UNTIL, "back to there", back(Session.until)),
    Command(("g", "goto"), "JOB|end", "to a job by its number, or the end", Session.goto),
    Command(("run",), "", "to the beginning of the run", Session.again),
    Command(("b", "break"), "[LINE|SIGNAL|BLOCK]", "stops there", Session.stop_at),
    Command(("watch",), "NAME", "stops where that is stored into", Session.watch),
    Command(("d", "delete"), "[N]", "takes a breakpoint away, or all", Session.delete),
    Command(("p", "print"), "NAME", "a value, as T, STATE(3), LINES.STATE(T)", Session.print),
    Command(("w", "where", "bt"), "", "the activation, and callers that wait", Session.where),
    Command(("l", "list"), "[LINE|SIGNAL|BLOCK]", "the text around", Session.list),
    Command(("i", "info"), "WHAT", "jobs, buffers, breakpoints, ..", Session.info),
    Command(("h", "help"), "[COMMAND]", "tells of commands", Session.help),
    Command(("q", "quit"), "", "ends", Session.quit),
)
BY_NAME = {name: command for command in COMMANDS for name in command.names}
