"""The pairs of an analysis as a graph, in the language of the program `dot` of Graphviz: an arrow
for each pair of entries, or one for all pairs of two blocks that are alike.
"""
from collections import Counter
from dataclasses import dataclass, field
from typing import Dict, Iterable, Iterator, List, NamedTuple, Tuple

from plextools.analysis.lines import Analysis, Entry, Verdict

HEAD = """digraph pairs {
    nodesep = %s; ranksep = %s;
    node [shape = box, style = "rounded,filled", fillcolor = white];
    node [fontname = "Helvetica", fontsize = 11];
    edge [fontname = "Helvetica", fontsize = 9];"""
TESTED = ', style = dashed, color = "#2060a0", fontcolor = "#2060a0"'
ENTRIES_APART, BLOCKS_APART = (0.9, 0.9), (0.3, 0.6)
MOST_REASONS, MOST_ENTRIES = 2, 12


def told_pairs(analysis: Analysis, never_alone: bool) -> Iterator[Tuple[int, int, Verdict]]:
    """The pairs that are drawn, in their order."""
    for first, later in sorted(analysis.told):
        verdict = analysis.verdict(first, later)
        if verdict is not None and (verdict.is_never or not never_alone):
            yield first, later, verdict


def arrow(first: str, later: str, is_never: bool, lines: Iterable[str], both: bool) -> str:
    kind = "" if is_never else TESTED
    heads = ", dir = both" if both else ""
    label = "\\n".join(f" {line} " for line in lines)
    return f'    {first} -> {later} [label = "{label}"{kind}{heads}];'


# a box for each entry


def frame(number: int, block: str, entries: Iterable[Entry]) -> Iterator[str]:
    """The boxes of a block's entries, in their frame."""
    yield f"    subgraph cluster_{number} {{"
    yield f'        label = "{block}"; fontname = "Helvetica";'
    yield '        style = "rounded,filled"; fillcolor = "#eef2f6";'
    for entry in entries:
        yield f'        e{entry.number} [label = "{entry.signal}\\nlevel {entry.level}"];'
    yield "    }"


def arrows(analysis: Analysis, never_alone: bool) -> Iterator[str]:
    """An arrow for each pair of entries; where both orders have the same verdict, one for both."""
    for first, later, verdict in told_pairs(analysis, never_alone):
        both = first != later and analysis.verdict(later, first) == verdict
        if not both or first < later:
            names = f"e{first}", f"e{later}"
            yield arrow(*names, verdict.is_never, verdict.reasons, both)


# a box for each block


class Bundle(NamedTuple):
    """Pairs of which the first entry is of one block and the later one of another, and which never
    run together, or do where tests hold.
    """

    first: int
    later: int
    is_tested: bool

    @property
    def turned(self) -> "Bundle":
        return Bundle(self.later, self.first, self.is_tested)


@dataclass
class Told:
    """Of how many pairs a bundle is, and of how many each conflict or test."""

    pairs: int = 0
    reasons: "Counter[str]" = field(default_factory=Counter)

    def lines(self, all_pairs: int) -> Iterator[str]:
        """The label of an arrow: how many pairs of the two blocks it has, and why."""
        yield f"{self.pairs} of {all_pairs}"
        common = sorted(self.reasons.items(), key=lambda one: (-one[1], one[0]))
        for reason, count in common[:MOST_REASONS]:
            yield f"{reason} ({count})"
        left = len(common) - MOST_REASONS
        if left > 0:
            yield f"{left} more"


def short(reason: str) -> str:
    """A conflict without the selectors of its records."""
    words = reason.split(" ")
    return " ".join(words[:2]) if words[0] == "FIELD" else reason


def bundles(analysis: Analysis, never_alone: bool) -> Dict[Bundle, Told]:
    """The pairs of each bundle, in the order of the blocks."""
    block_of: Dict[int, int] = {}
    for number, (_, entries) in enumerate(analysis.blocks()):
        block_of.update((entry.number, number) for entry in entries)
    found: Dict[Bundle, Told] = {}
    for first, later, verdict in told_pairs(analysis, never_alone):
        bundle = Bundle(block_of[first], block_of[later], not verdict.is_never)
        told = found.setdefault(bundle, Told())
        told.pairs += 1
        told.reasons.update({short(reason) for reason in verdict.reasons})
    return {bundle: found[bundle] for bundle in sorted(found)}


def block_box(number: int, block: str, entries: List[Entry]) -> str:
    """The box of a block, with the names of its entries."""
    names = [f"{entry.signal} {entry.level}" for entry in entries[:MOST_ENTRIES]]
    left = len(entries) - len(names)
    names += [f"{left} more"] if left else []
    label = "\\l".join(names)
    return f'    b{number} [shape = Mrecord, label = "{{{block}|{label}\\l}}"];'


def block_arrows(analysis: Analysis, never_alone: bool) -> Iterator[str]:
    """An arrow for each bundle; where both orders have the same pairs, one for both."""
    sizes = [len(entries) for _, entries in analysis.blocks()]
    found = bundles(analysis, never_alone)
    for bundle, told in found.items():
        first, later, is_tested = bundle
        both = first != later and found.get(bundle.turned) == told
        if first < later or not both:
            lines = told.lines(sizes[first] * sizes[later])
            yield arrow(f"b{first}", f"b{later}", not is_tested, lines, both)


# the graph


def graph(analysis: Analysis, never_alone: bool, by_blocks: bool = False) -> Iterator[str]:
    """The lines of the graph; with `never_alone` without the pairs that may run together, and
    `by_blocks` with a box for each block.
    """
    yield HEAD % (BLOCKS_APART if by_blocks else ENTRIES_APART)
    for number, (block, some) in enumerate(analysis.blocks()):
        if by_blocks:
            yield block_box(number, block, some)
        else:
            yield from frame(number, block, some)
    yield from (block_arrows if by_blocks else arrows)(analysis, never_alone)
    yield "}"
