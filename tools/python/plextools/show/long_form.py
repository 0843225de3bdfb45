"""Findings for people who read a terminal: each with the line of the text, what is marked in it,
the places that matter, and the changed lines that cure it.
"""
import textwrap
from typing import Dict, Iterator, List, NamedTuple, Optional, Sequence

from plextools.show.snippets import Columns, Shown, around, cells, columns_of, cut, snippet
from plextools.tables import quoted
from plextools.text.finding import Edit, Finding, Note, Severity, Source, Span

LEAST_WIDTH, MOST_PLACES, MOST_HUNKS = 40, 8, 3
RED, YELLOW, GREEN, BLUE, CYAN, BOLD = "31", "33", "32", "34", "36", ""
COLOURS = {Severity.ERROR: RED, Severity.WARNING: YELLOW, Severity.NOTE: GREEN}
NOUNS = {Severity.ERROR: "fault", Severity.WARNING: "warning", Severity.NOTE: "note"}


class Style(NamedTuple):
    """How wide lines may be, and whether they have colours."""

    width: int
    has_colours: bool

    def paint(self, text: str, colour: Optional[str]) -> str:
        """A text in bold letters of a colour; BOLD is the usual one, and None changes nothing."""
        if not self.has_colours or not text or colour is None:
            return text
        return f"\x1b[1{';' + colour if colour else ''}m{text}\x1b[0m"


class Hunk(NamedTuple):
    """Lines that a cure changes: the number of the first, and the lines as they were and as they
    are to be. `marked` is what is new in a line that is changed.
    """

    number: int
    old: List[str]
    new: List[str]
    marked: Span


class LongForm:
    """Writes findings, as `lines` gives them."""

    def __init__(self, sources: Sequence[Source], style: Style) -> None:
        self.sources, self.style = sources, style
        self.width = max(style.width, LEAST_WIDTH)
        self.columns = [Columns(source) for source in sources]
        self.gutter = 1

    def lines(self, findings: Sequence[Finding]) -> Iterator[str]:
        """All findings, and behind them how many there are."""
        for finding in findings:
            yield from self.finding(finding)
            yield ""
        if findings:
            yield from self.summary(findings)

    def summary(self, findings: Sequence[Finding]) -> Iterator[str]:
        counts = {one: sum(found.severity is one for found in findings) for one in Severity}
        told = [
            f"{count:,} {NOUNS[one]}{'' if count == 1 else 's'}"
            for one, count in counts.items()
            if count
        ]
        yield self.style.paint(", ".join(told), BOLD)
        words = f"plex-check --explain {findings[0].word} tells more of that word, with an example"
        yield from textwrap.wrap(words, self.width, break_long_words=False)

    # one finding

    def finding(self, finding: Finding) -> Iterator[str]:
        colour = COLOURS[finding.severity]
        head = f"{finding.severity.value}[{finding.word}]"
        yield from self.wrapped(head, colour, finding.sentence, BOLD)
        source = self.sources[finding.file]
        if finding.place is None:
            yield f" {self.style.paint('-->', BLUE)} {quoted(source.name)}"
            return
        self.gutter = len(str(self.last_line(finding)))
        line, column = source.lines.line(finding.place), self.column(finding.file, finding.place)
        arrow = self.style.paint(f"{'':{self.gutter}}-->", BLUE)
        yield f"{arrow} {quoted(source.name)}:{line}:{column}"
        yield from self.marked(source, finding.advice.span, "^", colour, finding.advice.label)
        yield from self.others(finding)
        for note in finding.advice.notes:
            yield from self.note(note, finding.file)
        yield from self.cure(finding)

    def last_line(self, finding: Finding) -> int:
        """The largest number of a line that is shown."""
        lines = self.sources[finding.file].lines
        places = [finding.advice.span.start, *(edit.end for edit in finding.advice.edits)]
        numbers = [lines.line(place) for place in places]
        numbers += [
            self.sources[one.file].lines.line(one.span.start) for one in finding.advice.notes
        ]
        return max(numbers) + sum(edit.text.count("\n") for edit in finding.advice.edits)

    def column(self, file: int, place: int) -> int:
        return self.columns[file].column(place)

    def wrapped(self, head: str, colour: str, sentence: str, weight: Optional[str]) -> List[str]:
        """A sentence behind its head, on as many lines as it needs."""
        lines = textwrap.wrap(
            f"{head}: {sentence}", self.width, subsequent_indent="    ", break_long_words=False
        )
        first = self.style.paint(head, colour) + self.style.paint(lines[0][len(head) :], weight)
        return [first, *(self.style.paint(line, weight) for line in lines[1:])]

    def bar(self, number: str = "", mark: str = "|") -> str:
        return self.style.paint(f"{number:>{self.gutter}} {mark}", BLUE)

    @property
    def room(self) -> int:
        """How many columns there are for the text of a line."""
        return self.width - self.gutter - 3

    def marked(
        self, source: Source, span: Span, mark: str, colour: str, label: str = ""
    ) -> Iterator[str]:
        """A line of a text, with marks under a part of it."""
        shown = snippet(source, span, self.room)
        yield self.bar()
        yield f"{self.bar(str(shown.number))} {shown.line}".rstrip()
        yield from self.marks(shown, mark, colour, label)

    def marks(self, shown: Shown, mark: str, colour: str, label: str) -> Iterator[str]:
        count = max(1, min(shown.end, max(self.room, shown.start + 1)) - shown.start)
        marks = mark * count
        blanks = " " * (shown.start + 1)
        if shown.start + count + 1 + len(label) <= self.room or not label:
            told = f"{marks} {label}".rstrip()
            yield self.bar() + blanks + self.style.paint(told, colour)
            return
        yield self.bar() + blanks + self.style.paint(marks, colour)
        start = max(0, min(shown.start, self.room - len(label)))
        yield self.bar() + " " * (start + 1) + self.style.paint(label, colour)

    def others(self, finding: Finding) -> Iterator[str]:
        """The other places of a finding that has several."""
        if not finding.others:
            return
        lines, first = self.sources[finding.file].lines, finding.others[:MOST_PLACES]
        told = [f"{lines.line(one.start)}:{self.column(finding.file, one.start)}" for one in first]
        more = len(finding.others) - len(first)
        listed = ", ".join(told) + (f" and {more:,} more" if more else "")
        places = f"{len(finding.others) + 1:,} places in all; also at {listed}"
        body = textwrap.wrap(places, self.width - self.gutter - 3, break_long_words=False)
        for number, line in enumerate(body):
            yield (self.bar("", "=") if not number else " " * (self.gutter + 2)) + f" {line}"

    def note(self, note: Note, file: int) -> Iterator[str]:
        source = self.sources[note.file]
        where = f"line {source.lines.line(note.span.start)}"
        where = where if note.file == file else f"{quoted(source.name)}, {where}"
        yield from self.wrapped("note", CYAN, f"{note.sentence}: {where}", None)
        yield from self.marked(source, note.span, "-", BLUE)

    # cures

    def cure(self, finding: Finding) -> Iterator[str]:
        advice = finding.advice
        if not advice.cure:
            return
        yield from self.wrapped("help", GREEN, advice.cure, None)
        hunks = hunks_of(self.sources[finding.file], advice.edits)
        for hunk in hunks[:MOST_HUNKS]:
            yield self.bar()
            yield from self.hunk(hunk)
        if len(hunks) > MOST_HUNKS:
            yield self.bar("", "=") + f" and so on {len(hunks) - MOST_HUNKS:,} other lines"

    def hunk(self, hunk: Hunk) -> Iterator[str]:
        old, new = hunk.old, hunk.new
        if len(old) == len(new) == 1 and new[0].strip():
            row = cells(new[0])
            shown = cut(Shown(hunk.number, "", *columns_of(row, hunk.marked, 0)), row, self.room)
            yield f"{self.bar(str(hunk.number))} {shown.line}".rstrip()
            if shown.end > shown.start:
                yield from self.marks(shown, "+", GREEN, "")
            return
        if not "".join(new).strip():
            new = []
        same = 0
        while same < min(len(old), len(new)) and old[same] == new[same]:
            same += 1
        tail = 0
        while tail < min(len(old), len(new)) - same and old[-1 - tail] == new[-1 - tail]:
            tail += 1
        for mark, colour, lines in (("-", RED, old), ("+", GREEN, new)):
            for number, line in enumerate(lines[same : len(lines) - tail], hunk.number + same):
                row = cells(line)
                text = cut(Shown(number, "", 0, 0), row, self.room).line
                yield f"{self.bar(str(number), mark)} {self.style.paint(text, colour)}".rstrip()


def hunks_of(source: Source, edits: Sequence[Edit]) -> List[Hunk]:
    """What edits change, line by line; edits of one line are told together."""
    by_line: Dict[int, List[Edit]] = {}
    for edit in sorted(edits):
        by_line.setdefault(source.lines.line(edit.start), []).append(edit)
    return [hunk_of(source, number, some) for number, some in by_line.items()]


def hunk_of(source: Source, number: int, edits: Sequence[Edit]) -> Hunk:
    start = around(source, edits[0].start).start
    end = around(source, edits[-1].end).end
    old = source.text[start:end]
    new, marked, at = "", Span(0, 0), start
    for edit in edits:
        new += source.text[at : edit.start]
        first = len(new) + len(edit.text) - len(edit.text.lstrip())
        new += edit.text
        marked = Span(first, len(new)) if not marked.end else Span(marked.start, len(new))
        at = edit.end
    new += source.text[at : max(end, at)]
    return Hunk(number, old.split("\n"), new.split("\n"), marked)
