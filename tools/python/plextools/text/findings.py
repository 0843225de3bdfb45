"""The findings of exchange texts, of files of lines and of changes, as all forms of output tell
them; and the findings of one cause as one.
"""
from typing import Dict, Hashable, List, Sequence, Tuple

from plextools.text import change
from plextools.text.advice import Adviser
from plextools.text.faults import Fault
from plextools.text.finding import SMALL_LETTERS, Advice, Edit, Finding, Severity, Span
from plextools.text.line_advice import LineAdviser
from plextools.text.signal_files import LineFile
from plextools.text.tokens import TOKEN, Told
from plextools.text.warnings import Oddities

NAMING = ("N6", "N7", "N10")
NO_ADVICE = Advice(Span(0, 0))


def of_exchange(
    file: int, checker: Oddities, faults: Sequence[Fault], odd: Sequence[Told], is_long: bool
) -> List[Finding]:
    """What a checker has told of a text; the advice is left out where nobody reads it."""
    adviser = Adviser(checker, file) if is_long else None

    def advised(rule: str, place: int) -> Advice:
        return adviser.of(rule, place) if adviser else NO_ADVICE

    found = [
        Finding(file, place, rule, Severity.ERROR, sentence, advised(rule, place))
        for _, place, _, rule, sentence in faults
    ]
    return found + [
        Finding(file, place, word, Severity.WARNING, sentence, advised(word, place))
        for place, word, sentence in odd
    ]


def of_lines(file: int, lines: LineFile, is_long: bool) -> List[Finding]:
    """What is told of a signal file, a table or a filter that has been looked at."""
    adviser = LineAdviser(lines, file) if is_long and not lines.is_too_large else None

    def advised(rule: str, place: int, sentence: str) -> Advice:
        return adviser.of(rule, place, sentence) if adviser else NO_ADVICE

    found = [
        Finding(
            file,
            None if lines.is_too_large else place,
            rule,
            Severity.ERROR,
            sentence,
            advised(rule, place, sentence),
        )
        for _, _, place, rule, sentence in lines.found
    ]
    return found + [
        Finding(file, place, word, Severity.WARNING, sentence, advised(word, place, sentence))
        for place, word, sentence in lines.odd
    ]


def of_change(told: Sequence[change.Told], texts: Sequence[str]) -> List[Finding]:
    """What a change does, where the old text is file 0 and the new one file 1."""
    return [
        Finding(text, place, word, severity(word), sentence, Advice(word_at(texts[text], place)))
        for text, place, word, sentence in told
    ]


def severity(word: str) -> Severity:
    """How much a word about a change matters."""
    if word in change.REFUSALS:
        return Severity.ERROR
    return Severity.NOTE if word in change.NOTES else Severity.WARNING


def word_at(text: str, place: int) -> Span:
    found = TOKEN.match(text, place)
    return Span(place, found.end() if found else place)


def by_cause(findings: Sequence[Finding]) -> List[Finding]:
    """Findings of one cause are one finding, which stands where the first of them stood. What is
    unused as its name is misspelled elsewhere is told there.
    """
    meant = {
        (note.file, note.span.start)
        for one in findings
        if one.word in NAMING and one.advice.edits
        for note in one.advice.notes
    }
    first: Dict[Tuple[int, Hashable], int] = {}
    groups: List[List[Finding]] = []
    for finding in findings:
        if finding.word == "UNUSED" and (finding.file, finding.place) in meant:
            continue
        cause = finding.advice.cause
        known = first.setdefault((finding.file, cause), len(groups)) if cause else len(groups)
        if known == len(groups):
            groups.append([])
        groups[known].append(finding)
    return [joined(*group) for group in groups]


def joined(one: Finding, *others: Finding) -> Finding:
    """A finding with others of the same cause."""
    advice, cure = one.advice, one.advice.cure
    is_small, edits = advice.cause == SMALL_LETTERS, dict.fromkeys(advice.edits)
    for other in others:
        added = [edit for edit in other.advice.edits if edit not in edits]
        is_one_word = all(same_kind(edit, advice.edits) for edit in added)
        if is_small and not is_one_word:
            cure = "write all of them in capital letters"
        if is_small or is_one_word or is_habit(advice):
            edits.update(dict.fromkeys(added))
    spans = tuple(other.advice.span for other in others)
    return one._replace(
        advice=advice._replace(edits=tuple(edits), cure=cure), others=one.others + spans
    )


def is_habit(advice: Advice) -> bool:
    """Whether a form of another language is told, of which each place is cured by itself."""
    return isinstance(advice.cause, tuple) and advice.cause[:1] == ("habit",)


def same_kind(edit: Edit, edits: Sequence[Edit]) -> bool:
    """Whether an edit writes the same words as those that are known, elsewhere."""
    return bool(edits) and edit.text == edits[0].text and edit.end > edit.start
