"""A sequence chart as SVG, in light or dark colours as the reader's system has them.

A buffered signal goes from the job that sends it to the lane of the job that starts, and down a
rail beside that lane until that job starts: so long it waits. Where a lane has all of its rails in
use, the number of the job alone tells where the signal goes.
"""
from dataclasses import dataclass, field
from html import escape
from typing import Dict, Iterator, List, NamedTuple, Optional, Sequence, Tuple

from plextools.show import chart
from plextools.show.chart import Arrow, Chart, Life, Mark, Note, Row, Style, Tone

LETTER, LINE, GAP = 7.25, 15, 14
PAD, BAR, HEAD = 10, 5, 5
RAILS, RAIL, FIRST_RAIL = 6, 6, 18  # how many a lane has, and how far they stand from it
LEAST, MOST, LEFT, TOP = 96, 270, 16, 12
COLOURS = 6
# Of Okabe and Ito, with vermilion for faults alone; the darker ones of them on white.
STYLE = """
svg { color-scheme: light dark; font: 12px "DejaVu Sans Mono", Menlo, Consolas, monospace; }
.back { fill: #ffffff; }
text { fill: #1b1f24; } .pale { fill: #5c6670; } .big { font-weight: bold; }
.lane { stroke: #b3bcc5; stroke-width: 1; } .gone { stroke-dasharray: 2 4; }
.head { fill: #eef2f6; stroke: #b3bcc5; }
.thin { fill: none; stroke-width: 1.4; } .answer { stroke-dasharray: 5 3; }
.waiting { fill-opacity: .22; }
.fault { fill: #b03a00; } .band { fill: #fbe3d6; } .plain { fill: #eef2f6; }
.s0 { stroke: #4b5563; } .f0 { fill: #4b5563; } .s1 { stroke: #0072b2; } .f1 { fill: #0072b2; }
.s2 { stroke: #b97f00; } .f2 { fill: #b97f00; } .s3 { stroke: #008260; } .f3 { fill: #008260; }
.s4 { stroke: #b0558a; } .f4 { fill: #b0558a; } .s5 { stroke: #3a94c4; } .f5 { fill: #3a94c4; }
.sx { stroke: #b03a00; } .fx { fill: #b03a00; }
@media (prefers-color-scheme: dark) {
.back { fill: #14181d; } text { fill: #e6eaee; } .pale { fill: #a2adb8; }
.lane { stroke: #4a545f; } .head { fill: #222932; stroke: #4a545f; }
.fault { fill: #ff9a66; } .band { fill: #45230f; } .plain { fill: #222932; }
.s0 { stroke: #aeb8c2; } .f0 { fill: #aeb8c2; } .s1 { stroke: #4aa8e0; } .f1 { fill: #4aa8e0; }
.s2 { stroke: #e69f00; } .f2 { fill: #e69f00; } .s3 { stroke: #00b985; } .f3 { fill: #00b985; }
.s4 { stroke: #dd8fbb; } .f4 { fill: #dd8fbb; } .s5 { stroke: #8ed0f5; } .f5 { fill: #8ed0f5; }
.sx { stroke: #ff9a66; } .fx { fill: #ff9a66; }
}
"""
KEY = (
    (Style.SIGNAL, "signal that starts a job, or leaves the exchange"),
    (Style.CALL, "signal inside a job"),
    (Style.ANSWER, "answer"),
)


def wrapped(text: str, width: float) -> List[str]:
    """The lines of a text for so many pixels."""
    return chart.wrapped(text, max(int(width / LETTER), 4))


def colour(forlopp: int) -> int:
    """The number of the colour of a forlopp; 0 is that of none."""
    return 1 + (forlopp - 1) % (COLOURS - 1) if forlopp else 0


class Span(NamedTuple):
    """A part of a lane on which something lives: from where to where, and what."""

    lane: int
    life: Life
    job: int
    forlopp: int


@dataclass
class Rails:
    """The rails beside the lanes: for each sending row its track, and how many a lane needs."""

    tracks: Dict[int, int] = field(default_factory=dict)
    needed: Dict[int, int] = field(default_factory=dict)


def rails_of(rows: Sequence[Row]) -> Rails:
    """Gives each buffered signal whose job is drawn a rail, as long as there are some."""
    found, used = Rails(), {}  # type: Rails, Dict[int, Dict[int, int]]
    for at, row in enumerate(rows):
        if not isinstance(row, Arrow):
            continue
        tracks = used.setdefault(row.target, {})
        if row.begins:
            tracks = used[row.target] = {
                track: job for track, job in tracks.items() if job != row.job
            }
        elif row.receiver:
            free = next((track for track in range(RAILS) if track not in tracks), None)
            if free is not None:
                tracks[free], found.tracks[at] = row.receiver, free
                found.needed[row.target] = max(found.needed.get(row.target, 0), free + 1)
    return found


class Drawing:
    """Draws a chart, of about this width where one is said."""

    def __init__(self, drawn: Chart, width: Optional[int]) -> None:
        self.chart, self.rails = drawn, rails_of(drawn.rows)
        letters = len(f"{drawn.largest_job} F{drawn.largest_forlopp}")
        self.first = LEFT + letters * LETTER + 34
        self.step = self.best_step(width)
        self.xs = [round(self.first + self.step * lane) for lane in range(len(drawn.lanes))]
        self.width = max(round(self.xs[-1] + self.step), 300)
        self.y = TOP
        self.under: List[str] = []  # lanes and bars
        self.over: List[str] = []  # arrows and texts
        self.spans: Dict[Span, Tuple[int, int]] = {}
        self.sent: Dict[int, List[Tuple[int, int]]] = {}

    def best_step(self, width: Optional[int]) -> float:
        """How far lanes stand apart."""
        labels = [row.label for row in self.chart.rows if isinstance(row, Arrow)]
        labels += [row.text for row in self.chart.rows if isinstance(row, Note)]
        longest = max(map(len, [*labels, *self.chart.lanes]))
        most = 2 * PAD + max(map(self.reserved, range(len(self.chart.lanes))))
        wanted = min(max(longest * LETTER + most + PAD, LEAST), MOST)
        if width is None:
            return wanted
        return max(LEAST, min(wanted, (width - self.first) / len(self.chart.lanes)))

    def reserved(self, lane: int) -> int:
        """How much room the rails of a lane take."""
        count = self.rails.needed.get(lane, 0)
        return FIRST_RAIL + RAIL * count if count else 0

    def room(self, lane: int) -> float:
        """How wide a text may be to the right of a lane."""
        return self.step - 2 * PAD - (self.reserved(lane + 1) if lane + 1 < len(self.xs) else 0)

    # parts

    def text(self, x: float, y: float, text: str, kind: str = "", anchor: str = "") -> None:
        where = f' text-anchor="{anchor}"' if anchor else ""
        style = f' class="{kind}"' if kind else ""
        self.over.append(f'<text x="{x:g}" y="{y:g}"{where}{style}>{escape(text)}</text>')

    def lines(self, x: float, parts: Sequence[str], kind: str = "", anchor: str = "") -> None:
        """Lines of text, one below the other."""
        for part in parts:
            self.y += LINE
            self.text(x, self.y - 3, part, kind, anchor)

    def path(self, steps: str, number: object, kind: str = "") -> None:
        self.over.append(f'<path class="thin s{number}{kind}" d="{steps}"/>')

    def head(self, x: float, y: float, way: int, number: object, is_full: bool) -> None:
        """The head of an arrow that comes to a place: `way` is 1 where it goes to the right."""
        back = x - way * HEAD * 1.6
        if is_full:
            points = f"{x:g},{y:g} {back:g},{y - HEAD:g} {back:g},{y + HEAD:g}"
            self.over.append(f'<polygon class="f{number}" points="{points}"/>')
        else:
            self.path(f"M{back:g} {y - HEAD:g}L{x:g} {y:g}L{back:g} {y + HEAD:g}", number)

    # the whole

    def svg(self) -> Iterator[str]:
        """The lines of the file."""
        self.lines(LEFT, wrapped(self.chart.title, self.width - 2 * LEFT), "big")
        self.y += GAP
        top = self.heads()
        last: Optional[Row] = None
        for at, row in enumerate(self.chart.rows):
            if last is None or row.job != last.job or not row.job:
                self.y += GAP
            before = self.y
            self.row(at, row)
            self.live(row, before)
            last = row
        self.y += GAP
        bottom = self.y
        self.heads()
        self.y += GAP
        self.key()
        for told in self.chart.footer:
            self.lines(LEFT, wrapped(told, self.width - 2 * LEFT), "pale")
        self.bars()
        yield from self.file(top, bottom)

    def file(self, top: int, bottom: int) -> Iterator[str]:
        height = self.y + TOP
        size = f'width="{self.width}" height="{height}" viewBox="0 0 {self.width} {height}"'
        yield f'<svg xmlns="http://www.w3.org/2000/svg" {size} role="img">'
        yield f"<title>{escape(self.chart.title)}</title><style>{STYLE}</style>"
        yield f'<rect class="back" width="{self.width}" height="{height}"/>'
        for x in self.xs:
            yield f'<line class="lane" x1="{x}" y1="{top}" x2="{x}" y2="{bottom}"/>'
        yield from self.under
        yield from self.over
        yield "</svg>"

    def heads(self) -> int:
        """The names of the lanes in boxes; gives the end of these."""
        names = [wrapped(name, self.step - 2 * PAD) for name in self.chart.lanes]
        height = max(map(len, names)) * LINE + 8
        for x, name in zip(self.xs, names):
            width = max(map(len, name)) * LETTER + 14
            place = f'x="{x - width / 2:g}" y="{self.y}" width="{width:g}" height="{height}"'
            self.under.append(f'<rect class="head" rx="4" {place}/>')
            start = self.y + (height - LINE * len(name)) / 2
            for at, part in enumerate(name, 1):
                self.text(x, start + at * LINE - 4, part, "big", "middle")
        self.y += height
        return self.y

    def key(self) -> None:
        """What the arrows mean."""
        for style, told in KEY:
            self.y += LINE
            self.path(f"M{LEFT} {self.y - 7}h30", 0, " answer" if style is Style.ANSWER else "")
            self.head(LEFT + 32, self.y - 7, 1, 0, style is Style.CALL)
            for at, part in enumerate(wrapped(told, self.width - 2 * LEFT - 44)):
                self.y += LINE if at else 0
                self.text(LEFT + 44, self.y - 3, part, "pale")

    def live(self, row: Row, before: int) -> None:
        """Notes what lives on the lanes of a row, from this place to where the next one begins."""
        for lane, life in row.lives.items():
            span = Span(lane, life, row.job, row.forlopp)
            start, end = self.spans.pop(span, (before, before))
            if end != before:
                self.bar(span, start, end)
                start = before
            self.spans[span] = start, self.y

    def bars(self) -> None:
        for span, (start, end) in self.spans.items():
            self.bar(span, start, end)

    def bar(self, span: Span, start: int, end: int) -> None:
        number = colour(span.forlopp)
        kind = f"f{number} waiting" if span.life is Life.WAITING else f"f{number}"
        place = f'x="{self.xs[span.lane] - BAR}" y="{start}" width="{2 * BAR}"'
        told = f"<title>job {span.job}, F{span.forlopp}</title>"
        self.under.append(f'<rect class="{kind}" {place} height="{end - start}">{told}</rect>')

    # rows

    def row(self, at: int, row: Row) -> None:
        if isinstance(row, Mark):
            self.mark(row)
        elif isinstance(row, Note):
            self.note(row)
        elif isinstance(row, Arrow):
            self.arrow(at, row)

    def mark(self, row: Mark) -> None:
        """A text across all lanes."""
        start = self.xs[0] - PAD
        parts = wrapped(row.text, self.width - start - 2 * PAD)
        if row.tone is not Tone.GAP:
            kind, height = "band" if row.tone is Tone.FAULT else "plain", len(parts) * LINE + 6
            place = f'x="{start}" y="{self.y}" width="{self.width - start - 4}" height="{height}"'
            self.under.append(f'<rect class="{kind}" rx="3" {place}/>')
        else:
            for x in self.xs:
                hole = f'x="{x - 2}" y="{self.y}" width="4" height="{len(parts) * LINE + 6}"'
                self.under.append(f'<rect class="back" {hole}/>')
        self.y += 3
        tone = "fault big" if row.tone is Tone.FAULT else "pale"
        self.lines(start + PAD, parts, tone)
        self.y += 3

    def note(self, row: Note) -> None:
        """A text to the right of a lane."""
        x = self.xs[row.lane] + PAD
        self.y += 3
        if row.tone is Tone.FAULT:
            y = self.y + 8
            self.over.append(
                f'<path class="thin sx" stroke-width="3" d="M{x} {y - 4}l8 8m0 -8l-8 8"/>'
            )
            self.lines(x + 14, wrapped(row.text, self.room(row.lane) - 14), "fault big")
        else:
            self.lines(x, wrapped(row.text, self.room(row.lane)), "pale")

    def arrow(self, at: int, row: Arrow) -> None:
        start = self.y
        if row.begins:
            self.number(row)
        if row.source is None:
            self.from_job(row)
        elif row.source == row.target:
            self.to_itself(at, row)
        else:
            self.across(at, row)
        self.y = max(self.y, start + LINE + 4)

    def number(self, row: Arrow) -> None:
        """The number of a job and its forlopp, at the left."""
        end = LEFT + len(str(self.chart.largest_job)) * LETTER
        self.text(end, self.y + LINE - 3, str(row.job), "big", "end")
        told, kind = f"F{row.forlopp}", f"big f{colour(row.forlopp)}"
        self.text(end + LETTER, self.y + LINE - 3, told, kind)

    def from_job(self, row: Arrow) -> None:
        """The start of a job that another job sent: the ends of the rails that lead to it."""
        x, y = self.xs[row.target] - BAR, self.y + LINE - 7
        number = colour(row.forlopp)
        rails = self.sent.pop(row.job, [])
        for rail, sent in rails:
            self.path(f"M{rail} {sent}V{y}H{x}", number)
        if not rails:
            self.path(f"M{x - 3 * HEAD} {y}H{x}", number)
        self.head(x, y, 1, number, False)
        self.lines(self.xs[row.target] + PAD, wrapped(row.label, self.room(row.target)))
        self.y += 4

    def rail(self, at: int, row: Arrow, y: int) -> Optional[int]:
        """The place of the rail of a signal that waits, beside the lane of its job."""
        if at not in self.rails.tracks:
            return None
        rail = self.xs[row.target] - FIRST_RAIL - RAIL * self.rails.tracks[at]
        assert row.receiver
        self.sent.setdefault(row.receiver, []).append((rail, y))
        return rail

    def to_itself(self, at: int, row: Arrow) -> None:
        """A signal of a block to itself."""
        x, y = self.xs[row.target] + BAR, self.y + LINE - 7
        parts, number = wrapped(row.label, self.room(row.target) - 22), colour(row.forlopp)
        if row.style is Style.SIGNAL:
            to = colour(row.its_forlopp or row.forlopp)
            rail = self.rail(at, row, y)
            self.path(f"M{x - 2 * BAR} {y}H{rail}" if rail else f"M{x} {y}h14", to)
            if not rail:
                self.head(x + 16, y, 1, to, False)
            self.lines(x + (PAD - BAR if rail else 22), parts)
            self.y += 4
            return
        kind = " answer" if row.style is Style.ANSWER else ""
        self.path(f"M{x} {y}h14v{LINE}H{x + 2}", number, kind)
        self.head(x, y + LINE, -1, number, row.style is Style.CALL)
        self.lines(x + 20, parts)
        self.y = max(self.y, y + LINE) + 8

    def across(self, at: int, row: Arrow) -> None:
        """A signal from a lane to another one, with its label above."""
        assert row.source is not None
        source, target = self.xs[row.source], self.xs[row.target]
        way = 1 if target > source else -1
        shift = 0 if way > 0 else self.reserved(row.source)
        room = self.room(row.source if way > 0 else row.source - 1)
        x = source + way * PAD - shift
        self.lines(x, wrapped(row.label, room), "", "" if way > 0 else "end")
        self.y += 7
        number = "x" if row.style is Style.LOST else colour(row.its_forlopp or row.forlopp)
        start = source + way * BAR * (row.source in row.lives)
        rail = self.rail(at, row, self.y)
        end = rail if rail else target - way * BAR * (row.target in row.lives)
        kind = " answer" if row.style is Style.ANSWER else ""
        self.path(f"M{start} {self.y}H{end}", number, kind)
        if row.style is Style.LOST:
            self.path(f"M{end - 8} {self.y - 4}l8 8m0 -8l-8 8", number)
        elif not rail:
            self.head(end, self.y, way, number, row.style is Style.CALL)
        self.y += 7


def svg_of(drawn: Chart, width: Optional[int]) -> Iterator[str]:
    """The lines of the SVG of a chart."""
    return Drawing(drawn, width).svg()
