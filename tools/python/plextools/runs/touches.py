"""The cells that each job of a run touches: which it reads, which it stores into, and to which it
only adds.

A `TouchedProgram` does what a `Program` does and notes the touches, and `Trails` parts them by
jobs. A statement `V = V + ..` or `F(P) = F(P) - ..` of a variable or a field of 32 bits adds,
where V, or F, stands nowhere else in it: all its values are taken modulo 2^32, so that such
statements come to the same in whatever order they are done.

What costs time is done when a segment is compiled. The variables that statements touch are known
then, and are noted by one number, their mark, before the job goes on elsewhere; of fields the cell
is noted. Notes are numbers in one array: a mark is below 0, and to a cell READ, ADD or WRITE is
added.
"""
from array import array
from typing import (
    Callable,
    Dict,
    FrozenSet,
    Iterable,
    Iterator,
    List,
    NamedTuple,
    Optional,
    Set,
    Tuple,
)

from plextools.limits import MOST_CELLS, MOST_WIDTH
from plextools.runs.layout import File
from plextools.runs.running import Context, Segment, Watch
from plextools.runs.steps import Program, Writer
from plextools.runs.values import LARGEST, Value
from plextools.text.additions import is_addition
from plextools.text.grammar import Factor, Node
from plextools.text.statements import Text

READ, ADD, WRITE = 0, MOST_CELLS, 2 * MOST_CELLS  # added to a cell in a note, by what is done to it
MANY = 64  # notes of a job; where it has more, each of them is kept once


class Foot(NamedTuple):
    """The cells that a job touched: those that it read, and did more with than adding; those that
    it stored into otherwise than by adding; and those to which it only added.
    """

    reads: FrozenSet[int]
    writes: FrozenSet[int]
    adds: FrozenSet[int]

    @property
    def stored(self) -> FrozenSet[int]:
        """The cells that the job stored into, in whatever way."""
        return self.writes | self.adds


class Span(NamedTuple):
    """Cells that a job has searched, or freed with their record."""

    cells: range
    is_freed: bool


class Mark(NamedTuple):
    """The variables that some statements touch, by their cells."""

    reads: FrozenSet[int]
    writes: FrozenSet[int]
    adds: FrozenSet[int]


class TouchedContext(Context):
    """What a job works on, with the notes of all jobs: `note` and `span` add one."""

    __slots__ = ("notes", "spans", "note", "span")

    def __init__(self, cells: List[int], files: int, segments: List[Segment], watch: Watch) -> None:
        super().__init__(cells, files, segments, watch)
        self.notes = array("i")
        self.spans: List[Span] = []
        self.note: Callable[[int], None] = self.notes.append
        self.span: Callable[[Span], None] = self.spans.append


class TouchedProgram(Program):
    """The functions of an exchange that note what they touch. `marks` are numbered."""

    def __init__(self, text: Text) -> None:
        self.marks: List[Mark] = []
        self.number_of: Dict[Mark, int] = {}
        super().__init__(text)

    def writer(self, block: int, number: int) -> Writer:
        return TouchedWriter(self, block, number)

    def context(self, watch: Watch) -> TouchedContext:
        layout = self.layout
        return TouchedContext(list(layout.cells), len(layout.files), self.segments, watch)

    def mark(self, mark: Mark) -> int:
        """The number of a mark."""
        if mark not in self.number_of:
            self.number_of[mark] = len(self.marks)
            self.marks.append(mark)
        return self.number_of[mark]

    def foot(self, notes: Iterable[int], spans: Iterable[Span]) -> Foot:
        """The cells of these notes."""
        reads: Set[int] = set()
        writes: Set[int] = set()
        adds: Set[int] = set()
        for note in notes:
            if note < 0:
                mark = self.marks[-1 - note]
                reads |= mark.reads
                writes |= mark.writes
                adds |= mark.adds
            elif note < ADD:
                reads.add(note)
            elif note < WRITE:
                adds.add(note - ADD)
            else:
                writes.add(note - WRITE)
        for span in spans:
            (writes if span.is_freed else reads).update(span.cells)
        return foot_of(reads, writes, adds)


def foot_of(reads: Set[int], writes: Set[int], adds: Set[int]) -> Foot:
    """A foot from all touches: a cell to which a job adds and which it touches otherwise too is
    read and written.
    """
    both = adds & (reads | writes)
    return Foot(frozenset(reads | both), frozenset(writes | both), frozenset(adds - both))


class TouchedWriter(Writer):
    """Writes a function that notes what it touches."""

    def __init__(self, program: TouchedProgram, block: int, number: int) -> None:
        super().__init__(program, block, number)
        self.touched, self.keeps_cells = program, True
        # The variables that were touched and are not noted yet, and the statement that adds, with
        # its own operand.
        self.reads: Set[int] = set()
        self.writes: Set[int] = set()
        self.adds: Set[int] = set()
        self.own: Optional[str] = None
        self.adding = False

    # notes

    def pending(self) -> Optional[str]:
        """The call that notes the variables that are not noted yet."""
        if not (self.reads or self.writes or self.adds):
            return None
        self.used["note"] = "job.note"
        mark = Mark(frozenset(self.reads), frozenset(self.writes), frozenset(self.adds))
        return f"note({-1 - self.touched.mark(mark)})"

    def settle(self) -> None:
        call = self.pending()
        if call:
            self.add(call)
            self.reads.clear()
            self.writes.clear()
            self.adds.clear()

    def fail(self, word: str) -> str:
        call = self.pending()
        return f"{call}; {super().fail(word)}" if call else super().fail(word)

    def note(self, cell: str, does: int) -> None:
        """Notes what is done to the cell of a field."""
        self.used["note"] = "job.note"
        self.add(f"note({cell} + {does})" if does else f"note({cell})")

    def span(self, cells: str, is_freed: bool) -> None:
        self.used["span"] = "job.span"
        self.known["Span"] = Span
        self.add(f"span(Span({cells}, {is_freed}))")

    # touches

    def loaded(self, value: Value, cell: str) -> Value:
        if cell.isdigit():
            self.reads.add(int(cell))
        else:
            self.note(cell, READ)
        return value

    def factor(self, factor: Factor) -> Value:
        """An operand. That of its own in a statement that adds is no load."""
        if self.adding and factor.kind == "name" and factor.name == self.own:
            variable = self.layout.variables[self.block, factor.name]
            return Value(f"W[{variable.cell}]", 0, LARGEST)
        if self.adding and factor.kind == "field" and factor.name == self.own:
            cell, _ = self.field(factor.name, factor.pointer)
            return Value(f"W[{cell}]", 0, LARGEST)
        return super().factor(factor)

    def store(self, cell: str, value: str) -> None:
        if cell.isdigit():
            (self.adds if self.adding else self.writes).add(int(cell))
        else:
            cell = self.keep(Value(cell, 0, LARGEST)).source
            self.note(cell, ADD if self.adding else WRITE)
        self.add(f"W[{cell}] = {value}")

    def looked(self, first: str, end: str, stride: int) -> None:
        self.span(f"range({first}, {end}, {stride})", False)

    def freed(self, first: str, stride: int) -> None:
        self.span(f"range({first}, {first} + {stride})", True)

    # statements

    def do_set(self, node: Node) -> bool:
        return self.may_add(node, super().do_set)

    def do_set_field(self, node: Node) -> bool:
        return self.may_add(node, super().do_set_field)

    def may_add(self, node: Node, do: Callable[[Node], bool]) -> bool:
        """Writes an assignment, which may be one that adds."""
        self.adding, self.own = self.is_addition(node), node.first.text
        falls = do(node)
        self.adding = False
        return falls

    def is_addition(self, node: Node) -> bool:
        """Whether an assignment adds to a variable or a field of 32 bits."""
        name = node.first.text
        if name in self.temporaries or not is_addition(node):
            return False
        if node.kind == "set":
            return self.layout.variables[self.block, name].width == MOST_WIDTH
        return self.layout.field_of[self.block, name][1].width == MOST_WIDTH


class Trails:
    """The notes of each job, by where they end among those of all jobs."""

    def __init__(self, program: TouchedProgram, context: TouchedContext) -> None:
        self.program, self.notes, self.spans = program, context.notes, context.spans
        self.ends, self.span_ends = array("q"), array("q")

    def close(self) -> None:
        """What was noted since the last job ended is of one job."""
        notes = self.notes
        begun = self.ends[-1] if self.ends else 0
        if len(notes) - begun > MANY:
            unique = set(notes[begun:])
            del notes[begun:]
            notes.extend(unique)
        self.ends.append(len(notes))
        self.span_ends.append(len(self.spans))

    def note(self, cells: Iterable[int], freed: Iterable[range]) -> None:
        """What a release or a restart stores is noted of the job that has ended last."""
        self.notes.extend(cell + WRITE for cell in cells)
        self.spans.extend(Span(cells, True) for cells in freed)
        self.ends[-1], self.span_ends[-1] = len(self.notes), len(self.spans)

    def take(self) -> Foot:
        """What was noted since the last job ended, which is forgotten."""
        begun, span_begun = (ends[-1] if ends else 0 for ends in (self.ends, self.span_ends))
        made = self.program.foot(self.notes[begun:], self.spans[span_begun:])
        del self.notes[begun:], self.spans[span_begun:]
        return made

    def feet(self) -> Iterator[Foot]:
        """What each job has touched."""
        known: Dict[Tuple[bytes, Tuple[Span, ...]], Foot] = {}
        begun = span_begun = 0
        for end, span_end in zip(self.ends, self.span_ends):
            notes, spans = self.notes[begun:end], tuple(self.spans[span_begun:span_end])
            key = notes.tobytes(), spans
            if key not in known:
                known[key] = self.program.foot(notes, spans)
            yield known[key]
            begun, span_begun = end, span_end


def range_of(file: File, record: int) -> range:
    """The cells of a record."""
    first = file.first + record * file.stride
    return range(first, first + file.stride)
