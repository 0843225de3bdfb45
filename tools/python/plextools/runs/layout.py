"""Where the stored data of an exchange lies: the cells of its variables, fields and marks.

Cells are numbered as docs/LANGUAGE.md says: block by block, the variables first, then the files
record by record, and within a record the fields and the mark.
"""
from typing import Dict, List, NamedTuple, Optional, Tuple

from plextools.text.grammar import Node
from plextools.text.statements import Text
from plextools.text.tokens import Token


class Variable(NamedTuple):
    """A variable: the name of its block and its own, its cell, its width and its first value."""

    block: str
    name: str
    cell: int
    width: int
    init: int
    is_clear: bool


class Field(NamedTuple):
    """A field: its place in a record, its width and its first value."""

    name: str
    place: int
    width: int
    init: int


class File(NamedTuple):
    """A file. Record r begins at the cell `first + r * stride`. The records of FORLOPP FILEs are
    numbered through the exchange, those of this one from `first_record` on.
    """

    number: int
    block: str
    name: str
    first: int
    size: int
    stride: int
    fields: Tuple[Field, ...]
    is_forlopp: bool
    first_record: int

    @property
    def opening(self) -> Tuple[int, ...]:
        """The cells of a record as they are at first."""
        return tuple(field.init for field in self.fields) + (0,) * self.is_forlopp

    def told(self, record: int) -> str:
        """A record as reports name it."""
        return f"{self.block}.{self.name}({record})"


def init_of(decl: Node) -> int:
    """The first value of a variable or a field."""
    return int(decl.init.text) if decl.init else 0


def number_of(token: Optional[Token]) -> int:
    """A number that a right declaration has."""
    assert token
    return int(token.text)


class Layout:
    """The cells of an exchange."""

    def __init__(self, text: Text) -> None:
        self.cells: List[int] = []
        self.variables: Dict[Tuple[int, str], Variable] = {}
        self.files: List[File] = []
        self.file_of: Dict[Tuple[int, str], File] = {}
        self.field_of: Dict[Tuple[int, str], Tuple[File, Field]] = {}
        self.records = 0
        for number, block in enumerate(text.blocks):
            for decl in block.variables.values():
                self.place_variable(number, block.name.text, decl)
            for decl in block.files.values():
                self.place_file(number, block.name.text, decl)

    def place_variable(self, number: int, block: str, decl: Node) -> None:
        """Gives a variable the next cell."""
        name, init = decl.name.text, init_of(decl)
        made = Variable(block, name, len(self.cells), number_of(decl.width), init, bool(decl.clear))
        self.variables[number, name] = made
        self.cells.append(init)

    def place_file(self, number: int, block: str, decl: Node) -> None:
        """Gives the records of a file the next cells."""
        fields = tuple(
            Field(field.name.text, place, number_of(field.width), init_of(field))
            for place, field in enumerate(decl.fields)
        )
        size, is_forlopp = number_of(decl.size), bool(decl.forlopp)
        file = File(
            len(self.files),
            block,
            decl.name.text,
            len(self.cells),
            size,
            len(fields) + is_forlopp,
            fields,
            is_forlopp,
            self.records,
        )
        self.files.append(file)
        self.file_of[number, file.name] = file
        self.field_of.update({(number, field.name): (file, field) for field in fields})
        self.cells.extend(file.opening * size)
        self.records += size if is_forlopp else 0

    def name_of(self, cell: int) -> str:
        """A cell as reports name it; a mark by its record alone."""
        for variable in self.variables.values():
            if variable.cell == cell:
                return f"{variable.block}.{variable.name}"
        file = next(
            one for one in self.files if one.first <= cell < one.first + one.size * one.stride
        )
        record, place = divmod(cell - file.first, file.stride)
        field = f".{file.fields[place].name}" if place < len(file.fields) else ""
        return file.told(record) + field
