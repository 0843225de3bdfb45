"""Writes the page of an exchange: its text, its pairs, its entries, and a load where there is one.
It can be read without scripts.
"""
import html
import os
import pathlib
from string import Template
from typing import Container, Dict, Iterable, Iterator, List, Optional, Sequence, Tuple

from plextools import tables
from plextools.analysis.why import Exchange
from plextools.runs import report
from plextools.runs.flows import Flows
from plextools.runs.play import Play
from plextools.show import page_data

HERE = pathlib.Path(__file__).resolve().parent
LEGEND = (
    ("V", "V", "never together: a variable"),
    ("F", "F", "never together: a field"),
    ("S", "S", "never together: a seizure"),
    ("L", "L", "never together: a level"),
    ("?", "Q", "together where its tests hold"),
    (".", "P", "always together"),
)
CLASSES = {letter: kind for letter, kind, _ in LEGEND}
HINT = (
    "Choose a pair in the table, an entry, or a bar: what is to be told of it stands here, and its "
    "statements light up in the text."
)
HEAD = Template(
    """<!doctype html>
<html lang="en">
<head>
<meta charset="utf-8">
<meta name="viewport" content="width=device-width, initial-scale=1">
<title>$title</title>
<style>
$style</style>
</head>
<body>
<header>
<h1>$title</h1>
<p>$counts</p>
<nav>$links</nav>
</header>
<main>
"""
)
END = Template(
    f"""</main>
<aside id="told" aria-live="polite" aria-label="What is chosen" data-hint="{HINT}" hidden></aside>
<script type="application/json" id="data">$data</script>
<script>
$script</script>
</body>
</html>
"""
)
PAIRS = Template(
    """<section id="pairs">
<h2>Pairs of entries</h2>
<p>A row is the entry of the job that comes first, a column that of the later one. \
Jobs of one forlopp never run together.</p>
<ul class="legend">$legend</ul>
<div class="wide" tabindex="-1"><table id="table" style="--columns: $columns">
<thead><tr><th class="corner">first, by rows; later, by columns</th>$heads</tr></thead>
<tbody>
"""
)
ROW_OF_PAIRS = Template(
    """<tr$begins><th class="first" scope="row">\
<a href="#entry=$number" data-entry="$number">$number $name</a></th>$cells
"""
)
TIME_LINE = Template(
    """<section id="time">
<h2>Time line with $workers workers</h2>
<p>$which: a row is a worker, and a bar a job. \
A worker whose job has ended takes another one when all older jobs have ended too. \
The last row has the times in which a worker was free and the next job waited.</p>
<p class="keys">$keys</p>
<div id="live" hidden></div>
<div class="wide" id="drawn" tabindex="-1">"""
)
TEXT = Template(
    """<section id="text">
<h2>The text</h2>
<p>$name, with the entries that reach each line.</p>
<div id="lines">"""
)
ENTRY = Template(
    """<details><summary><a href="#entry=$number">$number $name</a>, level $level</summary>\
<pre>$lines</pre></details>
"""
)
MOST_LINES, LONGEST_LINE, TOLD_CELLS, CHUNK = 60_000, 400, 64, 200
ROW, TALL, LEFT, WIDEST, USUAL_WIDTH, USUAL_BAR = 26, 20, 80, 4_000, 760, 12
# What readers without scripts see: so many bars.
MOST_DRAWN = 200
# The colours of Okabe and Ito, which people with any sight can tell apart. Where there are more
# entries than colours, their letters tell them apart, and other patterns lie over the colours.
COLOURS = ("#e69f00", "#56b4e9", "#009e73", "#f0e442", "#0072b2", "#d55e00", "#cc79a7", "#999999")
DARK, LIGHT = 4, ' class="light"'  # the colour on which letters are white
LETTERS = "ABCDEFGHIJKLMNOPQRSTUVWXYZ"


def escaped(text: str) -> str:
    return html.escape(text, quote=True)


def tag(name: str, text: str, more: str = "") -> str:
    return f"<{name}{more}>{text}</{name}>"


class Page:
    """A page; `figures`, `made` and `flows` are those of the load, its play, and what its jobs
    sent, or None.
    """

    def __init__(
        self,
        exchange: Exchange,
        title: str,
        figures: Optional[report.Figures] = None,
        made: Optional[Play] = None,
        flows: Optional[Flows] = None,
    ) -> None:
        self.exchange, self.title, self.figures = exchange, title, figures
        self.analysis, self.text = exchange.analysis, exchange.text
        self.data = page_data.of_exchange(exchange)
        blocks = [block.name.text for block in self.text.blocks]
        self.data["play"] = page_data.of_play(made, blocks, flows) if made else None

    def parts(self) -> Iterator[str]:
        """The page in parts."""
        style, *scripts = (
            (HERE / name).read_text() for name in ("page.css", "time_line.js", "page.js")
        )
        yield HEAD.substitute(
            title=escaped(self.title), style=style, counts=self.counts(), links=self.links()
        )
        yield from self.pairs()
        if self.figures:
            yield from self.of_load(self.figures)
        if self.data["play"]:
            yield from self.time_line(self.data["play"])
        yield from self.entries()
        yield from self.lines()
        told = tables.as_json(self.data, is_short=True).replace("<", "\\u003c")
        yield END.substitute(data=told, script="".join(scripts))

    def counts(self) -> str:
        """How many blocks, entries and statements there are."""
        kinds = (
            ("block", "blocks", len(self.text.blocks)),
            ("entry", "entries", len(self.analysis.entries)),
            ("statement", "statements", len(self.text.points)),
        )
        return ", ".join(f"{some} {one if some == 1 else more}" for one, more, some in kinds) + "."

    def links(self) -> str:
        """The links to the parts of the page."""
        of_load = {"load": "Load", "time": "Time line"} if self.figures else {}
        names = {"pairs": "Pairs", **of_load, "entries": "Entries", "text": "Text"}
        return "".join(tag("a", name, f' href="#{place}"') for place, name in names.items())

    # pairs

    def letter(self, i: int, j: int) -> str:
        told = self.analysis.told.get((i, j))
        if not told:
            return "."
        return told[0].split(" ")[1][0] if told[0].startswith("NEVER") else "?"

    def name(self, entry: int) -> str:
        return escaped(self.analysis.entries[entry].name)

    def names(self, i: int, j: int) -> str:
        return f"{self.name(i)} first, {self.name(j)} later"

    def cell(self, i: int, j: int) -> str:
        letter = self.letter(i, j)
        told = ""
        if len(self.analysis.entries) <= TOLD_CELLS:
            reasons = " and ".join(self.analysis.told.get((i, j), ["always"]))
            told = f' title="{self.names(i, j)}: {reasons}"'
        return f"<td class={CLASSES[letter]}{told}>{letter}"

    def run(self, i: int) -> str:
        """A row of a large table as one run of letters, of which the script makes places when they
        come to be seen.
        """
        return '<td class="run">' + "".join(
            self.letter(i, later.number) for later in self.analysis.entries
        )

    def pairs(self) -> Iterator[str]:
        entries = self.analysis.entries
        if not entries:
            yield '<section id="pairs">\n<h2>Pairs of entries</h2>\n'
            yield "<p>No job can start in this text: it has no entry.</p>\n</section>\n"
            return
        yield PAIRS.substitute(
            legend="".join(
                f'<li><span class="{kind}">{letter}</span>{told}</li>'
                for letter, kind, told in LEGEND
            ),
            columns=len(entries),
            heads="".join(
                f'<th class="later" scope="col"><span>{one.number} {escaped(one.name)}</span></th>'
                for one in entries
            ),
        )
        block = None
        for first in entries:
            yield ROW_OF_PAIRS.substitute(
                begins=' class="begins"' if first.block != block else "",
                number=first.number,
                name=escaped(first.name),
                cells=self.cells(first.number),
            )
            block = first.block
        yield "</tbody></table></div>\n</section>\n"

    def cells(self, first: int) -> str:
        """The places of a row; those of a large table are made by the script."""
        entries = self.analysis.entries
        if len(entries) > TOLD_CELLS:
            return self.run(first)
        return "".join(self.cell(first, later.number) for later in entries)

    # a load

    def of_load(self, told: report.Figures) -> Iterator[str]:
        yield '<section id="load">\n<h2>The load</h2>\n'
        yield tag("p", escaped(" ".join(report.of_run(told)))) + "\n"
        yield from figures_table(report.HEADS, report.rows_of_workers(told))
        yield tag(
            "p", "Time is told in statements. " + " ".join(report.MEANING), ' class="soft"'
        ) + "\n"
        yield from self.blockers(told["blockers"])
        if not told["entries"]:
            yield "<p>The run has no jobs.</p>\n</section>\n"
            return
        yield "<h3>Jobs by entry</h3>\n"
        yield from figures_table(
            ["entry", "name", "jobs", "least", "mean", "most", "of all"],
            report.rows_of_entries(told),
            names=(1,),
        )
        yield "</section>\n"

    def blockers(self, told: report.Blocks) -> Iterator[str]:
        yield f"<h3>What jobs waited for with {told['workers']} workers</h3>\n"
        if not told["pairs"]:
            yield "<p>No job waited for a pair.</p>\n"
            return
        heads = ["pair", "reason", "waited", "of the time", "speed-up without it"]
        rows = []
        for row in told["pairs"][: report.SHOWN]:
            i, j = row["first"], row["later"]
            link = f'<a href="#pair={i},{j}">{i} {j}</a>'
            names = f"{self.names(i, j)}: {row['reason']}"
            speed = f"{row['speed_up_without_it']:.2f}" if "speed_up_without_it" in row else ""
            rows.append([link, names, str(row["waited"]), report.share(row["share"]), speed])
        yield from figures_table(heads, rows, names=(1,))
        yield "<h3>Which change would pay</h3>\n"
        yield from figures_table(
            ["reason in all pairs", "pairs", "waited", "of the time", "speed-up"],
            report.rows_of_changes(told),
            names=(0,),
        )

    def time_line(self, play: page_data.OfPlay) -> Iterator[str]:
        count = len(play["bars"]["entry"])
        if not count:
            yield '<section id="time">\n<h2>Time line</h2>\n'
            yield "<p>The run has no jobs.</p>\n</section>\n"
            return
        which = "All jobs" if count == play["jobs"] else f"The first {count} of {play['jobs']} jobs"
        if count > MOST_DRAWN:
            first = f"without scripts, the first {MOST_DRAWN} alone are drawn"
            which += f'<span class="scriptless"> ({first})</span>'
        used = sorted(set(play["bars"]["entry"]))
        keys = "".join(
            f'<span><i{LIGHT if entry % len(COLOURS) == DARK else ""} '
            f'style="background:{colour(entry)}">{letter(entry)}</i>'
            f"{entry} {self.name(entry)}</span>"
            for entry in used[:40]
        )
        yield TIME_LINE.substitute(workers=play["workers"], which=which, keys=keys)
        yield from self.drawing(play)
        yield "</div>\n</section>\n"

    def drawing(self, play: page_data.OfPlay) -> Iterator[str]:
        """The first bars, for readers without scripts."""
        bars, waits = play["bars"], play["waits"]
        drawn = range(min(MOST_DRAWN, len(bars["entry"])))
        end = max(bars["to"][place] for place in drawn)
        rows = max(bars["row"][place] for place in drawn) + 1
        scale = min(max(USUAL_WIDTH, USUAL_BAR * len(drawn) / rows), WIDEST) / max(1, end)
        width = LEFT + scale * end + 70
        size = f'width="{width:.0f}" height="{ROW * (rows + 1) + 22}"'
        yield f'<svg {size} role="group" aria-label="Time line">\n'
        for row in range(rows):
            yield f'<text x="4" y="{ROW * row + 15}">worker {row + 1}</text>\n'
        yield f'<text x="4" y="{ROW * rows + 15}">waits</text>\n'
        for place in drawn:
            entry, begin, to = bars["entry"][place], bars["from"][place], bars["to"][place]
            name = f"job {place + 1}: {self.name(entry)}, from {begin} to {to}"
            shape = box(scale, begin, to, bars["row"][place]) + f' fill="{colour(entry)}"'
            yield f'<rect class="bar" data-bar="{place}" {shape}><title>{name}</title></rect>\n'
        for place, begin in enumerate(waits["from"]):
            if begin >= end:
                break
            reason, to = play["reasons"][waits["reason"][place]], waits["to"][place]
            name = escaped(f"from {begin} to {to}: {reason['told']}")
            shape = box(scale, begin, to, rows)
            kind = f"wait {CLASSES[reason['kind']]}" if reason["kind"] else "wait"
            yield f'<rect class="{kind}" data-wait="{place}" {shape}><title>{name}</title></rect>\n'
        marks = max(1, int((width - LEFT) // 90))
        for place in range(marks + 1):
            time = end * place // marks
            yield f'<text x="{LEFT + scale * time:.1f}" y="{ROW * (rows + 1) + 14}">{time}</text>\n'
        yield "</svg>"

    # entries and the text

    def entries(self) -> Iterator[str]:
        yield '<section id="entries">\n<h2>Entries</h2>\n'
        for entry in self.analysis.entries:
            yield ENTRY.substitute(
                number=entry.number,
                name=escaped(entry.name),
                level=entry.level,
                lines=escaped("\n".join(entry.lines))
                or "nothing that is stored, sent or may fault",
            )
        yield "</section>\n"

    def reached_by(self) -> Dict[int, str]:
        """The entries that reach each line, as words."""
        found: Dict[int, List[int]] = {}
        for number, made in sorted(self.exchange.made.items()):
            for line in {self.text.points[point].line for point in made.reached}:
                found.setdefault(line, []).append(number)
        return {
            line: " ".join(span(*pair) for pair in pairs_of(page_data.ranges(numbers)))
            for line, numbers in found.items()
        }

    def lines(self) -> Iterator[str]:
        yield TEXT.substitute(name=escaped(tables.quoted(os.path.basename(self.text.name))))
        reached, lines = self.reached_by(), self.exchange.content.split(b"\n")
        lines = lines[:-1] if lines[-1] == b"" else lines
        kept: Sequence[int] = range(1, len(lines) + 1)
        if len(lines) > MOST_LINES:
            kept = sorted(
                {node.line for node in self.text.points}
                | {block.node.first.line for block in self.text.blocks}
            )
        for place, number in enumerate(kept):
            if place % CHUNK == 0:
                yield ("</div>" if place else "") + '<div class="some">\n'
            text = lines[number - 1].decode("utf-8", "replace").rstrip("\r")
            text = text if len(text) <= LONGEST_LINE else text[:LONGEST_LINE] + " .."
            by = f' data-by="{reached[number]}"' if number in reached else ""
            yield f"<div id=L{number} data-n={number}{by}>{escaped(text)}</div>\n"
        yield ("</div>" if kept else "") + "</div>\n</section>\n"


def colour(entry: int) -> str:
    """The colour of an entry."""
    return COLOURS[entry % len(COLOURS)]


def letter(entry: int) -> str:
    """The letters of an entry, as A to Z, AA, AB and so on."""
    more, last = divmod(entry, len(LETTERS))
    return (letter(more - 1) if more else "") + LETTERS[last]


def box(scale: float, begin: int, end: int, row: int) -> str:
    width, left = max(2.0, scale * (end - begin) - 1), LEFT + scale * begin
    return f'x="{left:.1f}" y="{ROW * row}" width="{width:.1f}" height="{TALL}"'


def span(first: int, last: int) -> str:
    return str(first) if first == last else f"{first}-{last}"


def pairs_of(numbers: Sequence[int]) -> Iterable[Tuple[int, int]]:
    return zip(numbers[::2], numbers[1::2])


def figures_table(
    heads: Sequence[str], rows: Sequence[Sequence[str]], names: Container[int] = ()
) -> Iterator[str]:
    yield '<div class="plain"><table class="figures">\n<tr>'
    yield "".join(
        f'<th class="name">{head}</th>' if place in names else f"<th>{head}</th>"
        for place, head in enumerate(heads)
    ) + "</tr>\n"
    for row in rows:
        yield "<tr>" + "".join(
            f'<td class="name">{word}</td>' if place in names else f"<td>{word}</td>"
            for place, word in enumerate(row)
        ) + "</tr>\n"
    yield "</table></div>\n"
