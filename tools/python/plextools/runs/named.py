"""What a word names in a run that is stepped: statements by a line, a signal or a block, and stored
data by a name, a field of a record, or a record.

`Names(text, layout)` looks words up; `Unknown` says in words what is not there.
"""
import re
from typing import Dict, FrozenSet, Iterable, Iterator, List, NamedTuple, Optional, Sequence, Set

from plextools.runs.layout import File, Layout
from plextools.runs.observed import Names as NamesOfCells
from plextools.runs.values import FIRST_TEMPORARY
from plextools.tables import printed
from plextools.text.grammar import Node
from plextools.text.hints import near
from plextools.text.statements import Text

DATA = re.compile(r"(?:([A-Z][A-Z0-9]*) ?\. ?)?([A-Z][A-Z0-9]*)(?: ?\( ?([A-Z0-9]+) ?\))?")
LINE = re.compile(r"(?:([A-Z][A-Z0-9]*) ?: ?)?([0-9]{1,8})")


class Unknown(Exception):
    """What a word names is not there."""


class Data(NamedTuple):
    """Stored data: as it is told, its block and name, its cells, and whether it is one alone."""

    told: str
    block: int
    name: str
    cells: Sequence[int]
    is_one: bool


class Value(NamedTuple):
    """A temporary of an activation, with what it holds."""

    told: str
    number: int


class Spot(NamedTuple):
    """Statements that a word names: what it is, as it is told, and the statements."""

    told: str
    points: FrozenSet[int]


class Names:
    """Looks up what words name in a text."""

    def __init__(self, text: Text, layout: Layout) -> None:
        self.text, self.layout = text, layout
        self.of_cells = NamesOfCells(layout)
        self.blocks = [block.name.text for block in text.blocks]
        self.reached: Dict[int, Set[int]] = {}

    # statements

    def where(self, point: int) -> str:
        """A statement by its block and line."""
        node = self.text.points[point]
        return f"{self.blocks[node.block]}:{node.line}"

    def spot(self, word: str) -> Optional[Spot]:
        """The statements of a line, those at which a signal arrives, or those at which a block is
        entered; None where the word is nothing of these.
        """
        line = LINE.fullmatch(word)
        if line:
            return self.line(int(line[2]), line[1])
        if word in self.text.signals:
            return self.signal(word)
        if word in self.blocks:
            block = self.blocks.index(word)
            nodes = [node for node in self.nodes(block) if node.kind == "ENTER"]
            return self.some(f"block {word}", nodes, "is never entered")
        return None

    def nodes(self, block: int) -> Iterator[Node]:
        return (node for node in self.text.points if node.block == block)

    @staticmethod
    def some(told: str, nodes: Iterable[Node], wrong: str) -> Spot:
        """These statements; there must be one."""
        points = frozenset(node.point for node in nodes)
        if not points:
            raise Unknown(f"{told} {wrong}")
        return Spot(told, points)

    def line(self, number: int, block: Optional[str]) -> Spot:
        """The statements of a line, or of the next one that has any."""
        nodes: Iterable[Node] = self.text.points
        if block is not None:
            nodes = self.nodes(self.block(block))
        later = [node.line for node in nodes if node.line >= number]
        if not later:
            raise Unknown(f"no statement stands at line {number} or behind it")
        found = min(later)
        nodes = [node for node in self.text.points if node.line == found]
        return self.some(f"{self.blocks[nodes[0].block]}:{found}", nodes, "")

    def block(self, name: str) -> int:
        if name not in self.blocks:
            raise Unknown(f"no block {printed(name)}{meant(name, self.blocks)}")
        return self.blocks.index(name)

    def signal(self, name: str) -> Spot:
        """The statements at which a signal arrives; an outside one, those that send it."""
        kind = self.text.signals[name].kind
        wanted = {"ANSWER": "RETRIEVE", "OUTSIDE": "SEND"}.get(kind, "ENTER")
        nodes = [
            node for node in self.text.points if node.kind == wanted and node.signal.text == name
        ]
        return self.some(f"signal {name}", nodes, "comes to no statement")

    def entries_to(self, points: Iterable[int]) -> FrozenSet[int]:
        """The entries whose jobs may come to one of these statements."""
        wanted = set(points)
        return frozenset(
            number
            for number, node in enumerate(self.text.entries)
            if wanted & self.reach(number, node)
        )

    def reach(self, number: int, enter: Node) -> Set[int]:
        """The statements to which jobs of an entry may come."""
        if number not in self.reached:
            seen, points = {enter.point}, [enter.point]
            while points:
                for point in self.text.leads(self.text.points[points.pop()]):
                    if point not in seen:
                        seen.add(point)
                        points.append(point)
            self.reached[number] = seen
        return self.reached[number]

    # data

    def temporary(self, word: str, block: int, activation: Sequence[int]) -> Optional[Value]:
        """A temporary of an activation."""
        place = self.text.blocks[block].temporaries.get(word)
        return None if place is None else Value(word, activation[FIRST_TEMPORARY + place])

    def data(self, word: str, block: Optional[int], values: Dict[str, int]) -> Data:
        """The data that a word names, seen from a block, where it is not said which one; a record
        may be told by a number, or by a name with one of these values.
        """
        found = DATA.fullmatch(word)
        if not found:
            raise Unknown(f"{printed(word)} is no name, as STATE, STATE(3) or LINES.STATE(3)")
        name, record = found[2], found[3]
        home = self.block(found[1]) if found[1] else self.home(name, block)
        told = f"{self.blocks[home]}.{name}"
        variable = self.layout.variables.get((home, name))
        if variable:
            if record:
                raise Unknown(f"{told} is a variable, which has no records")
            return Data(told, home, name, [variable.cell], True)
        if (home, name) not in self.layout.field_of and (home, name) not in self.layout.file_of:
            raise Unknown(f"no data {printed(told)}{meant(name, self.names_in(home))}")
        return self.stored(told, home, name, self.number(record, values) if record else None)

    def stored(self, told: str, home: int, name: str, record: Optional[int]) -> Data:
        """A field or a file, of one record or of all."""
        of_field = self.layout.field_of.get((home, name))
        file = of_field[0] if of_field else self.layout.file_of[home, name]
        end = file.first + file.size * file.stride
        first = file.first + (of_field[1].place if of_field else 0)
        step = file.stride if of_field else 1
        if record is None:
            return Data(told, home, name, range(first, end, step), False)
        if record >= file.size:
            size = f"{file.size} record{'' if file.size == 1 else 's'}"
            raise Unknown(f"{told} has {size}, from 0 on, and no record {record}")
        first += record * file.stride
        cells = range(first, first + (1 if of_field else file.stride))
        return Data(f"{told}({record})", home, name, cells, of_field is not None)

    @staticmethod
    def number(word: str, values: Dict[str, int]) -> int:
        if word.isdigit():
            return int(word)
        if word not in values:
            raise Unknown(f"{printed(word)} is no number and no temporary of the block")
        return values[word]

    def names_in(self, block: int) -> List[str]:
        """The names of the stored data of a block."""
        layout = self.layout
        keys = [*layout.variables, *layout.field_of, *layout.file_of]
        return [name for number, name in keys if number == block]

    def home(self, name: str, block: Optional[int]) -> int:
        """The block to which a name belongs: this one, or the only one that has it."""
        if block is not None and name in self.names_in(block):
            return block
        homes = [number for number in range(len(self.blocks)) if name in self.names_in(number)]
        if len(homes) == 1:
            return homes[0]
        if homes:
            told = " or ".join(f"{self.blocks[number]}.{name}" for number in homes[:4])
            raise Unknown(f"{name} stands in several blocks: say {told}")
        every = {one for number in range(len(self.blocks)) for one in self.names_in(number)}
        raise Unknown(f"no data {printed(name)}{meant(name, sorted(every))}")

    def writers(self, data: Data) -> FrozenSet[int]:
        """The statements that may store into data."""
        file = self.file_of(data)
        return frozenset(
            node.point
            for node in self.nodes(data.block)
            if node.kind == "set"
            and node.first.text == data.name
            or file is not None
            and (
                node.kind in ("SEIZE", "FREE")
                and node.file.text == file.name
                or node.kind == "set_field"
                and self.layout.field_of[data.block, node.first.text][0] is file
            )
        )

    def file_of(self, data: Data) -> Optional[File]:
        """The file of data that is no variable."""
        key = data.block, data.name
        of_field = self.layout.field_of.get(key)
        return of_field[0] if of_field else self.layout.file_of.get(key)

    def cell(self, cell: int) -> str:
        """A cell with its block, as it is told."""
        names = self.of_cells
        if cell in names.variables:
            variable = next(one for one in self.layout.variables.values() if one.cell == cell)
            return f"{variable.block}.{variable.name}"
        return f"{names.file_at(cell).block}.{names.name(cell)}"


def meant(name: str, known: Sequence[str]) -> str:
    """What a wrong name may mean, or what there is."""
    like = near(name, known)
    if like:
        return f"; {like} is one"
    return f"; there is {', '.join(known[:12])}" if known else ""
