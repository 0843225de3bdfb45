"""The pairs of an analysis as a table: as text, as a page of its own, and as a picture."""
from typing import Callable, Dict, Iterator, Tuple

from plextools.analysis.lines import Analysis, Entry

ALWAYS, TESTED = ".", "?"
LEGEND = (
    ("V", "never together: a variable"),
    ("F", "never together: a field"),
    ("S", "never together: a seizure"),
    ("L", "never together: a level"),
    (TESTED, "together where its tests hold"),
    (ALWAYS, "always together"),
)
NOTE = "Two jobs of one forlopp never run together."
COLOURS = {
    "V": "#f4b6b0",
    "F": "#f8cfa0",
    "S": "#f2e08a",
    "L": "#dcc2ea",
    TESTED: "#bcd8f2",
    ALWAYS: "#d6efd0",
}


class Table:
    """The pairs of an analysis, to be looked up by first and later entry."""

    def __init__(self, analysis: Analysis) -> None:
        self.analysis, self.entries, self.blocks = analysis, analysis.entries, analysis.blocks()

    def mark(self, first: Entry, later: Entry) -> str:
        """The letter that stands in the place of a pair."""
        verdict = self.analysis.verdict(first.number, later.number)
        if verdict is None:
            return ALWAYS
        return verdict.reasons[0][0] if verdict.is_never else TESTED

    def told(self, first: Entry, later: Entry) -> str:
        """The pair in words, with its conflict or its tests."""
        verdict = self.analysis.verdict(first.number, later.number)
        pair = f"{first.signal} {first.block} first, {later.signal} {later.block} later"
        if verdict is None:
            return f"{pair}: always together"
        how = "never, for" if verdict.is_never else "where"
        return f"{pair}: {how} {' and '.join(verdict.reasons)}"


# text


def row(table: Table, width: int, shown: Callable[[Entry], object]) -> str:
    """What is shown of each entry in its column; those of a block are as wide as its name."""
    groups = []
    for block, some in table.blocks:
        groups.append(" ".join(f"{shown(entry):>{width}}" for entry in some).ljust(len(block)))
    return "   ".join(groups).rstrip()


def headings(table: Table, width: int) -> str:
    """The name of each block, above its columns."""
    return "   ".join(
        block.ljust(len(some) * (width + 1) - 1) for block, some in table.blocks
    ).rstrip()


def text(table: Table) -> Iterator[str]:
    width = len(str(len(table.entries) - 1))
    names = [f"  {entry.number:>{width}} {shown(entry)}" for entry in table.entries]
    left = max(map(len, names), default=0) + 3
    yield " " * left + headings(table, width)
    yield " " * left + row(table, width, lambda entry: entry.number)
    for block, some in table.blocks:
        yield block
        for first in some:
            yield names[first.number].ljust(left) + row(
                table, width, lambda later: table.mark(first, later)
            )  # noqa: B023
    yield ""
    yield from (f"{mark}  {meaning}" for mark, meaning in LEGEND)
    yield NOTE


# a page

STYLE = """body { font: 14px/1.4 sans-serif; margin: 2em; color: #222; background: #fff; }
table { border-collapse: collapse; }
th, td { border: 1px solid #bbb; padding: 2px 6px; text-align: center; }
th { background: #eef2f6; font-weight: normal; }
th.block { font-weight: bold; }
th.later { writing-mode: vertical-rl; transform: rotate(180deg); text-align: left; }
th.first { text-align: left; white-space: nowrap; }
"""


def page(table: Table) -> Iterator[str]:
    yield "<!doctype html>"
    yield '<html lang="en">\n<meta charset="utf-8">\n<title>Pairs of entries</title>\n<style>'
    yield STYLE + "\n".join(
        f".{name_of(mark)} {{ background: {colour}; }}" for mark, colour in COLOURS.items()
    )
    yield "</style>\n<h1>Pairs of entries</h1>"
    yield "<p>A row is the first of two jobs, a column the later one."
    yield "A place tells more when the pointer rests on it.</p>"
    yield "<table>"
    groups = "".join(
        f'<th class="block" colspan="{len(some)}">{block}</th>' for block, some in table.blocks
    )
    yield f'<tr><th colspan="2" rowspan="2"></th>{groups}</tr>'
    yield "<tr>" + "".join(
        f'<th class="later">{shown(entry)}</th>' for entry in table.entries
    ) + "</tr>"
    for block, some in table.blocks:
        for place, first in enumerate(some):
            head = f'<th class="block" rowspan="{len(some)}">{block}</th>' if place == 0 else ""
            cells = "".join(cell(table, first, later) for later in table.entries)
            yield f'<tr>{head}<th class="first">{shown(first)}</th>{cells}</tr>'
    yield "</table>\n<ul>"
    yield from (
        f'<li><span class="{name_of(mark)}">&nbsp;{mark}&nbsp;</span> {meaning}</li>'
        for mark, meaning in LEGEND
    )
    yield f"</ul>\n<p>{NOTE}</p>\n</html>"


def shown(entry: Entry) -> str:
    return f"{entry.signal} {entry.level}"


def name_of(mark: str) -> str:
    return {TESTED: "tested", ALWAYS: "always"}.get(mark, mark)


def cell(table: Table, first: Entry, later: Entry) -> str:
    mark = table.mark(first, later)
    return f'<td class="{name_of(mark)}" title="{table.told(first, later)}">{mark}</td>'


# a picture

SIDE, LETTER, GAP, MARGIN = 26, 8, 8, 10


def places(table: Table) -> Tuple[Dict[int, int], int]:
    """Where each entry's row or column begins, from the table's corner, and where the last ends."""
    begins: Dict[int, int] = {}
    place = 0
    for _, some in table.blocks:
        for entry in some:
            begins[entry.number] = place
            place += SIDE
        place += GAP
    return begins, place


def drawn_text(x: int, y: int, words: str, more: str = "") -> str:
    return f'<text x="{x}" y="{y}"{more}>{words}</text>'


def picture(table: Table) -> Iterator[str]:
    begins, end = places(table)
    names = MARGIN + LETTER * max((len(shown(entry)) for entry in table.entries), default=0)
    left = names + LETTER * max((len(block) for block, _ in table.blocks), default=0) + 2 * MARGIN
    top, width = names + SIDE, left + end + MARGIN
    legend = top + end + SIDE
    width, height = max(width, 320), legend + SIDE * (len(LEGEND) + 1)
    yield f'<svg xmlns="http://www.w3.org/2000/svg" viewBox="0 0 {width} {height}"'
    yield f'     width="{width}" height="{height}"'
    yield '     font-family="Helvetica, Arial, sans-serif" font-size="13">'
    yield f'<rect width="{width}" height="{height}" fill="white"/>'
    yield from headed(table, begins, left, top)
    for first in table.entries:
        for later in table.entries:
            yield square(
                table, first, later, left + begins[later.number], top + begins[first.number]
            )
    for place, (mark, meaning) in enumerate(LEGEND):
        y = legend + place * SIDE
        yield box(MARGIN, y, mark) + drawn_text(MARGIN + SIDE + GAP, y + 17, meaning)
    yield drawn_text(MARGIN, height - MARGIN, NOTE)
    yield "</svg>"


def headed(table: Table, begins: Dict[int, int], left: int, top: int) -> Iterator[str]:
    """The names of blocks and entries, above the columns and at the left of the rows."""
    for block, some in table.blocks:
        begin = begins[some[0].number]
        yield drawn_text(left + begin, MARGIN + 8, block, ' font-weight="bold"')
        yield drawn_text(MARGIN, top + begin + 17, block, ' font-weight="bold"')
    for entry in table.entries:
        x, y = left + begins[entry.number] + 17, top - GAP
        yield drawn_text(x, y, shown(entry), f' transform="rotate(-90 {x} {y})"')
        yield drawn_text(
            left - GAP, top + begins[entry.number] + 17, shown(entry), ' text-anchor="end"'
        )


def box(x: int, y: int, mark: str, told: str = "") -> str:
    title = f"<title>{told}</title>" if told else ""
    shape = f'x="{x}" y="{y}" width="{SIDE}" height="{SIDE}"'
    filled = f'<rect {shape} fill="{COLOURS[mark]}" stroke="#999"/>'
    letter = drawn_text(x + SIDE // 2, y + 17, mark, ' text-anchor="middle"')
    return f"<g>{title}{filled}{letter}</g>"


def square(table: Table, first: Entry, later: Entry, x: int, y: int) -> str:
    return box(x, y, table.mark(first, later), table.told(first, later))
