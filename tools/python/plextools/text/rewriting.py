"""A text with edits made in it, of which it is known where each place stood before.

The edits keep the lines: what they put in stands on one line, and of lines that they take out the
ends stay.
"""
from bisect import bisect_right
from typing import List, Sequence, Tuple

from plextools.text.finding import Advice, Edit, Finding, Note, Span


def on_its_lines(edit: Edit, text: str) -> Edit:
    """An edit that changes the number of no line behind it."""
    ends = text.count("\n", edit.start, edit.end)
    words = edit.text.replace("\n", " ")
    return Edit(edit.start, edit.end, words + "\n" * ends)


def apart(edits: Sequence[Edit]) -> List[Edit]:
    """The edits in their order, without those that meet an earlier one."""
    found: List[Edit] = []
    for edit in sorted(set(edits)):
        if not found or edit.start >= found[-1].end and edit.start > found[-1].start:
            found.append(edit)
    return found


class Rewriting:
    """A text in which edits are made."""

    def __init__(self, before: str, edits: Sequence[Edit]) -> None:
        self.before = before
        pieces: List[str] = []
        # where each edit begins and ends in the new text, and where in the old one
        self.starts: List[int] = []
        self.parts: List[Tuple[int, int, int, int]] = []
        at = size = 0
        for edit in (on_its_lines(one, before) for one in apart(edits)):
            start = size + edit.start - at
            size = start + len(edit.text)
            pieces += [before[at : edit.start], edit.text]
            self.starts.append(start)
            self.parts.append((start, size, edit.start, edit.end))
            at = edit.end
        self.text = "".join([*pieces, before[at:]])

    def origin(self, place: int) -> int:
        """Where a place stood; one of what was put in is where that begins."""
        number = bisect_right(self.starts, place) - 1
        if number < 0:
            return place
        _, end, old_start, old_end = self.parts[number]
        return old_start if place < end else place - end + old_end

    def span(self, span: Span) -> Span:
        start = self.origin(span.start)
        return Span(start, max(start, self.origin(span.end)))

    def finding(self, finding: Finding) -> Finding:
        """A finding of the new text, as one of the old text."""
        place = None if finding.place is None else self.origin(finding.place)
        others = tuple(map(self.span, finding.others))
        return finding._replace(place=place, advice=self.advice(finding.advice), others=others)

    def advice(self, advice: Advice) -> Advice:
        notes = tuple(Note(one.sentence, one.file, self.span(one.span)) for one in advice.notes)
        edits = tuple(map(self.edit, advice.edits))
        is_known = all(self.is_same(*pair) for pair in zip(advice.edits, edits))
        return advice._replace(
            span=self.span(advice.span), notes=notes, edits=edits if is_known else ()
        )

    def edit(self, edit: Edit) -> Edit:
        return Edit(*self.span(Span(edit.start, edit.end)), edit.text)

    def is_same(self, new: Edit, old: Edit) -> bool:
        """Whether an edit takes out the same letters of both texts."""
        return self.text[new.start : new.end] == self.before[old.start : old.end]
