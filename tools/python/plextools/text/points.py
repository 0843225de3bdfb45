"""Where the statements of a right text stand, for the tools that walk through them.

`place(blocks)` numbers the statements of all blocks as docs/ANALYSIS.md does it, and behind those
of a block the end of its program, and gives them in this order. Each of these points has the number
of its `block`, its own number `point`, and `next`, the point that follows it, which is None behind
the end of a program. A block gets its `body`, which is its points that stand in no other, and its
`labels`, each with the point to which it leads.
"""
from typing import Dict, Iterable, List, Optional, Sequence

from plextools.text.grammar import Node


def place(blocks: Sequence[Node]) -> List[Node]:
    points: List[Node] = []
    for number, block in enumerate(blocks):
        end = Node(block.end, "FINISH")
        block.body = [item for item in block.items if item.kind != "label"] + [end]
        number_list(points, number, block.body)
        chain(block.body, None)
        block.labels = labels_in([*block.items, end])
    return points


def number_list(points: List[Node], block: int, items: Iterable[Node]) -> None:
    for item in items:
        item.block, item.point = block, len(points)
        points.append(item)
        for inner in getattr(item, "lists", []):
            number_list(points, block, inner)


def chain(items: Sequence[Node], end: Optional[int]) -> None:
    """The next of each statement of a list, behind which `end` follows. No statement leads to an
    ENTER behind it.
    """
    follows = end
    for item in reversed(items):
        item.next = follows
        for inner in getattr(item, "lists", []):
            chain(inner, item.point if item.kind == "ON" else item.next)
        if item.kind != "ENTER":
            follows = item.point


def labels_in(items: Iterable[Node]) -> Dict[str, int]:
    """Each label leads to the first statement behind it that is no ENTER."""
    found: Dict[str, int] = {}
    names: List[str] = []
    for item in items:
        if item.kind == "label":
            names.append(item.first.text)
        elif item.kind != "ENTER":
            found.update(dict.fromkeys(names, item.point))
            names = []
    return found


def first_in(statements: Sequence[Node], end: int) -> int:
    """The first of the statements in another one, or what follows where there are none."""
    return statements[0].point if statements else end
