"""pairs_dot [--never] [--blocks] [FILE]

Reads what `plex analyse` writes, from a file or from the standard input, and writes a graph of it
for the program `dot` of Graphviz: a box for each entry, in a frame for its block, and an arrow from
the first to the later entry of each pair of which something is told. A solid arrow is a pair whose
jobs never run together, with its conflict; a dashed one is a pair whose jobs may run together where
its tests hold. Where both orders of a pair have the same line, it has one arrow with two heads.
Pairs without an arrow may always run together. With `--never` there are no dashed arrows. For a
picture: plex analyse E | pairs_dot | dot -Tsvg > pairs.svg

With `--blocks` there is a box for each block, with its entries and their levels, and one solid and
one dashed arrow from block to block. An arrow tells for how many of the pairs of the two blocks it
stands, and the two commonest conflicts or tests, each with its number of pairs.

Where there are more than 40 arrows, a line on the standard error says what is easier to read: the
other options, or the table of `pairs_table`.
"""
import sys

from plextools import programs
from plextools.commands import pair_words
from plextools.show import pair_graph

MOST_ARROWS = 40


def main() -> int:
    """Runs the command."""
    words = programs.Words(__doc__)
    words.add_argument("--never", action="store_true")
    words.add_argument("--blocks", action="store_true")
    words.add_argument("file", nargs="?")
    given = words.parse_args()
    analysis = pair_words.analysis_in(given.file)
    arrows = pair_graph.block_arrows if given.blocks else pair_graph.arrows
    count = sum(1 for _ in arrows(analysis, given.never))
    if count > MOST_ARROWS:
        told = f"a graph of {count} arrows is hard to read"
        fewer = [f"--{name}" for name in ("never", "blocks") if not getattr(given, name)]
        others = f"try {' '.join(fewer)}, or " if fewer else "try "
        print(f"pairs_dot: {told}: {others}pairs_table", file=sys.stderr)
    return pair_words.write(pair_graph.graph(analysis, given.never, given.blocks))
