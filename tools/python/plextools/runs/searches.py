"""How far a run that is stepped goes on: to a place, or to the next or the last one that is looked
for.

A `Place` is a job of the run with one of its statements, which is done next. A job that ends by a
fault has one place more, where it has happened; and the end of a run is the first place of the job
that would be next. So the places of a run are in one order.

A `Wish` says what is looked for. `Goal`, `Forward` and `Backward` are told what happens while the
run goes on, and end it by `Halted`.
"""
from dataclasses import dataclass, field
from typing import AbstractSet, Container, FrozenSet, List, NamedTuple, Optional, Sequence

NO_DEPTH = 1000


class Place(NamedTuple):
    """A job and one of its statements, both from 1."""

    job: int
    step: int


FIRST = Place(1, 1)


class Halted(Exception):
    """The run is at the place to which it was to go."""


class Watched(NamedTuple):
    """Cells whose stores are looked for: all of them, or those of another value alone; by the
    number of a watchpoint, or 0.
    """

    number: int
    cells: Sequence[int]
    of_changes: bool = False


class Write(NamedTuple):
    """A store that was looked for: of which watchpoint, by the statement at a place, into which
    cell. The point is -1 where a release or a restart has stored.
    """

    number: int
    place: Place
    point: int
    cell: int
    old: int
    new: int


@dataclass(frozen=True)
class Wish:
    """What is looked for: these statements, or all of them where it is None. In the job where the
    search begins they count where no more than so many callers wait. `begins` are the first
    statements of jobs, `breaks` statements that count everywhere, and `entries` the entries whose
    jobs may come to what is looked for.
    """

    points: Optional[AbstractSet[int]] = frozenset()
    depth: int = NO_DEPTH
    begins: bool = False
    breaks: FrozenSet[int] = frozenset()
    watched: Sequence[Watched] = ()
    entries: Container[int] = frozenset()
    faults: bool = True


@dataclass
class Stop:
    """A place that was found, and the stores that were looked for there."""

    place: Place
    writes: List[Write] = field(default_factory=list)
    is_over: bool = False


class Hunt:
    """Is told of a run, job by job; this one lets it go on."""

    watched: Sequence[Watched] = ()

    def looks_into(self, number: int, entry: int) -> bool:
        """Whether statements of a job are to be told."""
        return False

    def points_in(self, number: int) -> Optional[AbstractSet[int]]:
        """Which statements of such a job are to be told: all of them where it is None."""
        return None

    def begin(self, number: int) -> None:
        """A job begins."""

    def step(self, place: Place, point: int, depth: int) -> None:
        """A statement is done next, while so many callers wait."""

    def store(self, place: Place, point: int, cell: int, old: int, new: int) -> bool:
        """A statement stores; tells whether the next statement is to be told, whichever it is."""
        return False

    def fault(self, place: Place) -> None:
        """A job has ended by a fault, which has this place."""

    def released(self, writes: List[Write]) -> None:
        """A release or a restart has stored into cells that are watched."""


class Goal(Hunt):
    """Goes on to a place."""

    def __init__(self, place: Place) -> None:
        self.place = place

    def looks_into(self, number: int, entry: int) -> bool:
        return number == self.place.job

    def step(self, place: Place, point: int, depth: int) -> None:
        if place.step == self.place.step:
            raise Halted

    def fault(self, place: Place) -> None:
        if place == self.place:
            raise Halted


class Search(Hunt):
    """Looks for what is wished, from a place on."""

    def __init__(self, wish: Wish, origin: Place) -> None:
        self.wish, self.origin, self.watched = wish, origin, wish.watched
        self.found: Optional[Stop] = None
        self.points = None if wish.points is None else wish.points | wish.breaks

    def looks_into(self, number: int, entry: int) -> bool:
        return number == self.origin.job or entry in self.wish.entries

    def points_in(self, number: int) -> Optional[AbstractSet[int]]:
        return None if number == self.origin.job else self.points

    def is_wished(self, place: Place, point: int, depth: int) -> bool:
        """Whether a statement is looked for."""
        wish = self.wish
        if point in wish.breaks:
            return True
        if wish.points is not None and point not in wish.points:
            return False
        return depth <= wish.depth or place.job != self.origin.job

    @property
    def has_faults(self) -> bool:
        """Whether faults are looked for."""
        return self.wish.faults or self.wish.points is None

    def writes_of(self, place: Place, point: int, cell: int, old: int, new: int) -> List[Write]:
        """The store as one that is looked for, by each watchpoint."""
        return [
            Write(one.number, place, point, cell, old, new)
            for one in self.watched
            if cell in one.cells and (old != new or not one.of_changes)
        ]


class Forward(Search):
    """Looks for the next place behind the one where it begins. A store is found when it is done."""

    def __init__(self, wish: Wish, origin: Place) -> None:
        super().__init__(wish, origin)
        self.writes: List[Write] = []

    def halt(self, place: Place) -> None:
        self.found = Stop(place, self.writes)
        raise Halted

    def begin(self, number: int) -> None:
        if number > self.origin.job and (self.writes or self.wish.begins):
            self.halt(Place(number, 1))

    def step(self, place: Place, point: int, depth: int) -> None:
        if place > self.origin and (self.writes or self.is_wished(place, point, depth)):
            self.halt(place)

    def store(self, place: Place, point: int, cell: int, old: int, new: int) -> bool:
        if place >= self.origin:
            self.writes += self.writes_of(place, point, cell, old, new)
        return bool(self.writes)

    def fault(self, place: Place) -> None:
        if place > self.origin and (self.writes or self.has_faults):
            self.halt(place)

    def released(self, writes: List[Write]) -> None:
        self.writes += writes


class Backward(Search):
    """Looks for the last place before the one where it begins. A store is found where it is not yet
    done.
    """

    def looks_into(self, number: int, entry: int) -> bool:
        return self.wish.points is None or super().looks_into(number, entry)

    def begin(self, number: int) -> None:
        if self.wish.begins and Place(number, 1) < self.origin:
            self.found = Stop(Place(number, 1))

    def step(self, place: Place, point: int, depth: int) -> None:
        if place >= self.origin:
            raise Halted
        if self.is_wished(place, point, depth):
            self.found = Stop(place)

    def store(self, place: Place, point: int, cell: int, old: int, new: int) -> bool:
        self.note(self.writes_of(place, point, cell, old, new))
        return False

    def note(self, writes: List[Write]) -> None:
        """Stores were found."""
        if not writes:
            return
        if self.found is None or self.found.place != writes[0].place:
            self.found = Stop(writes[0].place)
        self.found.writes += writes

    def fault(self, place: Place) -> None:
        if place >= self.origin:
            raise Halted
        if self.has_faults:
            self.found = Stop(place)

    def released(self, writes: List[Write]) -> None:
        self.note(writes)
