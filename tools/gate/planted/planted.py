"""What a planted fault is: a row of `answers.ALTERED`, of an altered answer of a program, or of
`edits.EDITS`, of an altered file of the tools.
"""
from typing import NamedTuple, Optional, Tuple, Union

from gate.planted.calls import Alter


class Cost(NamedTuple):
    """What a call costs more, by the words of costly.py."""

    what: str
    number: int


class Altered(NamedTuple):
    """An altered answer of a program. `commands` has the first words of the calls that are altered,
    and none where all are. `check` must tell it, run with the words `words` behind its own. A row
    with a `cost` alters what a call costs, and not what it writes.
    """

    name: str
    program: str
    commands: Tuple[str, ...]
    told: str
    check: str
    alter: Alter
    words: Tuple[str, ...] = ()
    cost: Optional[Cost] = None

    @property
    def of(self) -> str:
        return " ".join([f"`{self.program}`", *(f"`{word}`" for word in self.commands)])


class Edit(NamedTuple):
    """An altered file of the tools: what stands there once, and what stands there then."""

    name: str
    tool: str
    told: str
    check: str
    file: str
    old: str
    new: str
    words: Tuple[str, ...] = ()

    @property
    def of(self) -> str:
        return f"`{self.tool}`"


Planted = Union[Altered, Edit]
