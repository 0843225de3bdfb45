"""A sequence chart as text for a terminal, with box characters or in ASCII alone, in colours where
they are wanted.
"""
from typing import Dict, Iterator, List, NamedTuple, Optional

from plextools.show.chart import Arrow, Chart, Life, Mark, Note, Row, Style, Tone, plain, wrapped

NARROW, LEAST, MOST, MARGIN, STUB = 9, 14, 46, 4, 3
# So many lines behind the names of the lanes, these stand there again; and at the end.
HEADS_AGAIN, FEW = 40, 10
COLOURS = ("", "36", "33", "35", "32", "34")
FAULT, PALE, BOLD = "1;31", "2", "1"
CHARACTERS = "│┃┆┊─═╌┼╪╗╝┐┘✗"
KEY = "signal of a job or the edge", "in a job", "answer"


class Marks(NamedTuple):
    """The characters of a chart."""

    idle: str
    active: str
    waiting: str
    absent: str
    lines: Dict[Style, str]
    crossings: Dict[Style, str]
    corners: Dict[Style, str]
    lost: str


BOXES = Marks(
    "│",
    "┃",
    "┆",
    "┊",
    {Style.SIGNAL: "─", Style.CALL: "═", Style.ANSWER: "╌", Style.LOST: "─"},
    {Style.SIGNAL: "┼", Style.CALL: "╪", Style.ANSWER: "┼", Style.LOST: "┼"},
    {Style.CALL: "╗╝", Style.ANSWER: "┐┘"},
    "✗",
)
PLAIN = Marks(
    "|",
    "#",
    ":",
    ".",
    {Style.SIGNAL: "-", Style.CALL: "=", Style.ANSWER: ".", Style.LOST: "-"},
    {Style.SIGNAL: "+", Style.CALL: "+", Style.ANSWER: "+", Style.LOST: "+"},
    {Style.CALL: ".'", Style.ANSWER: ".'"},
    "x",
)


class Line:
    """A line of text, in which each place has a letter and a colour."""

    def __init__(self) -> None:
        self.letters: List[str] = []
        self.colours: List[str] = []

    def put(self, place: int, text: str, colour: str = "") -> None:
        """Writes a text at a place, over what stands there."""
        missing = place + len(text) - len(self.letters)
        self.letters += " " * missing
        self.colours += [""] * missing
        self.letters[place : place + len(text)] = text
        self.colours[place : place + len(text)] = [colour] * len(text)

    def text(self, is_coloured: bool) -> str:
        if not is_coloured:
            return "".join(self.letters).rstrip()
        parts, current = [], ""
        for letter, colour in zip(self.letters, self.colours):
            if colour != current and letter != " ":
                parts.append(f"\033[0m\033[{colour}m" if colour else "\033[0m")
                current = colour
            parts.append(letter)
        return "".join(parts).rstrip() + ("\033[0m" if current else "")


def colour_of(forlopp: int) -> str:
    """The colour of a forlopp; that of none is the usual one."""
    return COLOURS[1 + (forlopp - 1) % (len(COLOURS) - 1)] if forlopp else ""


class Drawing:
    """Draws a chart into lines of about this width."""

    def __init__(self, chart: Chart, width: int, is_ascii: bool, is_coloured: bool) -> None:
        self.chart, self.width, self.is_coloured = chart, width, is_coloured
        self.marks = PLAIN if is_ascii else BOXES
        self.jobs = max(3, len(str(chart.largest_job)))
        self.first = self.jobs + len(f" F{chart.largest_forlopp} ") + MARGIN
        self.step = self.best_step()
        self.lanes = [self.first + self.step * lane for lane in range(len(chart.lanes))]
        self.lines: List[Line] = []
        self.since = 0

    def best_step(self) -> int:
        """How far lanes stand apart: as far as their texts need it, where the width allows that;
        where it does not even allow narrow lanes, the chart is wider.
        """
        wanted = max((len(text) for text in self.texts()), default=0) + 6
        fitting = (self.width - self.first) // len(self.chart.lanes)
        least = min(LEAST, fitting) if fitting >= NARROW else LEAST
        return max(least, min(wanted, fitting, MOST))

    def texts(self) -> Iterator[str]:
        for row in self.chart.rows:
            if isinstance(row, Arrow):
                yield row.label
            elif isinstance(row, Note):
                yield row.text
        yield from self.chart.lanes

    @property
    def right(self) -> int:
        """The end of the widest line."""
        return self.lanes[-1] + self.step

    # lines

    def line(self, row: Row, absent: bool = False) -> Line:
        """A new line with the lanes as they are in a row."""
        made, marks = Line(), self.marks
        for lane, place in enumerate(self.lanes):
            life = row.lives.get(lane)
            if life is None:
                made.put(place, marks.absent if absent else marks.idle, PALE)
            else:
                mark = marks.active if life is Life.ACTIVE else marks.waiting
                made.put(place, mark, colour_of(row.forlopp))
        self.lines.append(made)
        self.since += 1
        return made

    def blank(self) -> None:
        self.line(Row(0, 0, {}))

    def heads(self) -> None:
        """The names of the lanes, one line below the other where they are long."""
        names = [wrapped(name, self.step - 2) for name in self.chart.lanes]
        most = max(map(len, names))
        for at in range(most):
            line = Line()
            if at == most - 1:
                line.put(self.jobs - 3, "job", PALE)
            for place, name in zip(self.lanes, names):
                part = name[at - most] if at >= most - len(name) else ""
                line.put(max(0, place - len(part) // 2), part, BOLD)
            self.lines.append(line)
        self.since = 0

    def text(self) -> Iterator[str]:
        """The lines of the whole chart."""
        yield from wrapped(self.chart.title, max(self.width, LEAST))
        yield ""
        self.heads()
        last: Optional[Row] = None
        for row in self.chart.rows:
            if last is not None and (row.job != last.job or not row.job):
                self.blank()
                if self.since > HEADS_AGAIN:
                    self.heads()
                    self.blank()
            self.row(row)
            yield from self.taken()
            last = row
        if self.since > FEW:
            self.heads()
        yield from self.taken()
        yield ""
        yield from self.key()
        for told in self.chart.footer:
            yield from wrapped(told, max(self.width, LEAST))

    def taken(self) -> Iterator[str]:
        for line in self.lines:
            yield line.text(self.is_coloured)
        self.lines = []

    def key(self) -> Iterator[str]:
        """What the arrows mean."""
        styles = Style.SIGNAL, Style.CALL, Style.ANSWER
        yield "   ".join(
            f"{self.marks.lines[style] * 2}> {told}" for style, told in zip(styles, KEY)
        )

    # rows

    def row(self, row: Row) -> None:
        if isinstance(row, Mark):
            self.mark(row)
        elif isinstance(row, Note):
            self.note(row)
        elif isinstance(row, Arrow):
            self.arrow(row)

    def mark(self, row: Mark) -> None:
        """A text across all lanes."""
        is_fault, is_gap = row.tone is Tone.FAULT, row.tone is Tone.GAP
        fill = " " if is_gap else self.marks.lines[Style.CALL if is_fault else Style.SIGNAL]
        colour, start = FAULT if is_fault else PALE, self.lanes[0] - 1
        end = self.lanes[-1] + 2
        for part in wrapped(row.text, max(end, self.width) - start - 4):
            text = f" {part} " if is_gap else f"{fill * 2} {part} ".ljust(end - start, fill)
            self.line(row, absent=is_gap).put(start + 3 * is_gap, text, colour)

    def note(self, row: Note) -> None:
        """A text to the right of a lane."""
        colour = FAULT if row.tone is Tone.FAULT else ""
        mark = f"{self.marks.lost} " if row.tone is Tone.FAULT else ""
        self.beside(row, row.lane, mark + row.text, colour, "")

    def beside(self, row: Row, lane: int, text: str, colour: str, stub: str) -> List[Line]:
        """Lines with a text to the right of a lane, behind a stub. Where it does not fit before the
        next lane, it stands over the lanes up to the next one with a job.
        """
        place = self.lanes[lane] + 2 + len(stub)
        room = self.lanes[lane] + self.step - 1 - place
        if len(text) > room:
            room = self.next_job(row, lane) - 1 - place
        lines = []
        for at, part in enumerate(wrapped(text, room)):
            line = self.line(row)
            if at == 0 and stub:
                line.put(self.lanes[lane] + 1, stub, colour_of(row.forlopp))
            line.put(place, part, colour)
            lines.append(line)
        return lines

    def next_job(self, row: Row, lane: int) -> int:
        """The place of the next lane to the right where a job is, or the end of the chart."""
        places = enumerate(self.lanes)
        return next((place for at, place in places if at > lane and at in row.lives), self.right)

    def arrow(self, row: Arrow) -> None:
        at = len(self.lines)
        if row.source is None:
            self.from_job(row)
        elif row.source == row.target:
            self.to_itself(row)
        else:
            self.across(row)
        if row.begins:
            self.number(row, self.lines[at])

    def number(self, row: Arrow, line: Line) -> None:
        """The number of a job and its forlopp, at the left."""
        colour = colour_of(row.forlopp)
        line.put(0, f"{row.job:>{self.jobs}}", BOLD)
        line.put(self.jobs + 1, f"F{row.forlopp}", colour)

    def from_job(self, row: Arrow) -> None:
        """The start of a job that another job sent."""
        line = self.beside(row, row.target, row.label, "", "")[0]
        stub = self.marks.lines[Style.SIGNAL] * (STUB - 1) + ">"
        line.put(self.lanes[row.target] - STUB, stub, colour_of(row.forlopp))

    def to_itself(self, row: Arrow) -> None:
        """A signal of a block to itself."""
        fill, colour = self.marks.lines[row.style], colour_of(row.forlopp)
        if row.style is Style.SIGNAL:
            self.beside(row, row.target, row.label, "", fill * (STUB - 1) + ">")
            return
        corners = self.marks.corners[row.style]
        lines = self.beside(row, row.target, row.label, "", fill + corners[0])
        end = lines[1] if len(lines) > 1 else self.line(row)
        end.put(self.lanes[row.target] + 1, "<" + corners[1], colour)

    def across(self, row: Arrow) -> None:
        """A signal from a lane to another one. Its label stands in it where it fits, else above."""
        assert row.source is not None
        source, target = self.lanes[row.source], self.lanes[row.target]
        is_right = target > source
        room = abs(target - source) - 1
        text = plain(row.label)
        is_inside = len(text) <= room - 5
        for part in [] if is_inside else wrapped(row.label, room - 2):
            self.line(row).put(source + 2 if is_right else source - 1 - len(part), part)
        line = self.line(row)
        self.shaft(line, row, is_right)
        if is_inside:
            line.put(source + 3 if is_right else source - 4 - len(text), f" {text} ")

    def shaft(self, line: Line, row: Arrow, is_right: bool) -> None:
        """The line of an arrow, with its head."""
        assert row.source is not None
        source, target = self.lanes[row.source], self.lanes[row.target]
        first, end = (source + 1, target) if is_right else (target + 1, source)
        fill, colour = self.marks.lines[row.style], colour_of(row.forlopp)
        line.put(first, fill * (end - first), colour)
        for lane, place in enumerate(self.lanes):
            if first < place < end and lane not in row.lives:
                line.put(place, self.marks.crossings[row.style], colour)
        head = self.marks.lost if row.style is Style.LOST else ">" if is_right else "<"
        tone = FAULT if row.style is Style.LOST else colour
        line.put(target - 1 if is_right else target + 1, head, tone)


def text_of(chart: Chart, width: int, is_ascii: bool, is_coloured: bool) -> Iterator[str]:
    """The lines of a chart."""
    return Drawing(chart, width, is_ascii, is_coloured).text()
