"""The findings of a text that has faults of its spelling, told by their causes.

One slip in the spelling lets much look wrong behind it. `retold(text, most, file, findings)` makes
the cures of a text, one after the other, and judges the rest as if it stood rewritten: forms of
another PLEX and of C (habits.py), the cure of each byte and word, and that of the first fault of
the grammar. A cure is kept where there are fewer faults of the spelling with it. The findings are
those that were cured, in the order in which plex would tell them, and what then is still wrong, at
the places of the text as it is. Their first one is the first fault of the text.
"""
import re
from functools import partial
from typing import List, NamedTuple, Optional, Sequence, Tuple

from plextools.text.faults import LINKS
from plextools.text.finding import Advice, Edit, Finding, Note, Severity
from plextools.text.findings import NAMING, of_exchange
from plextools.text.habits import Habit, habits
from plextools.text.rewriting import Rewriting
from plextools.text.tokens import Text
from plextools.text.warnings import Oddities

OF_TOKENS = ("BADBYTE", "BADNUMBER", "LONGNAME")
OF_GRAMMAR = ("UNEXPECTED", "TOODEEP", "ENDED")
SPELLED = {*OF_TOKENS, *OF_GRAMMAR}
BEHIND = re.compile(r"[ \t\r\n]*")
MOST_ROUNDS, MOST_ALONE, LARGEST = 12, 5, 2**19


class Judged(NamedTuple):
    """A text as it stands rewritten, and what is found in it."""

    text: str
    findings: List[Finding]

    @property
    def misspelled(self) -> List[Finding]:
        return [one for one in self.findings if one.word in SPELLED]


class Cure(NamedTuple):
    """What is cured at once: the findings that tell it, and the edits."""

    told: List[Finding]
    edits: List[Edit]


class Step(NamedTuple):
    """A cure that was made, and the text with it."""

    told: List[Finding]
    rewriting: Rewriting
    then: Judged


def judged(text: str, most: int, file: int) -> Judged:
    checker = Oddities(Text(text.encode("latin-1"), most))
    faults, odd = checker.check(), checker.oddities()
    return Judged(text, of_exchange(file, checker, faults, odd, True))


def retold(text: str, most: int, file: int, findings: List[Finding]) -> List[Finding]:
    """The findings of a text by their causes."""
    now = Judged(text, findings)
    told: List[Finding] = []
    stages: List[Rewriting] = []
    while now.misspelled and len(stages) < MOST_ROUNDS and len(text) <= LARGEST:
        step = next_step(now, most, file)
        if step is None:
            break
        told += [back(one, stages) for one in step.told]
        stages.append(step.rewriting)
        now = step.then
    rest = [back(one, stages) for one in unmisspelled(now, most, file)]
    known = {key_of(one) for one in findings}
    rest = [one for one in rest if is_error(one) or key_of(one) in known]
    return ordered([*told, *rest])


def unmisspelled(now: Judged, most: int, file: int) -> List[Finding]:
    """The findings of a text, without warnings and faults of links that come from misspelled
    names.
    """
    findings = unswallowed(now, most, file)
    edits = [edit for one in findings if one.word in NAMING for edit in one.advice.edits]
    may_follow = [one for one in findings if not is_error(one) or one.word in LINKS]
    if not edits or not may_follow or len(now.text) > LARGEST:
        return findings
    rewriting = Rewriting(now.text, edits)
    left = {key_of(rewriting.finding(one)) for one in judged(rewriting.text, most, file).findings}
    return [one for one in findings if one not in may_follow or key_of(one) in left]


def unswallowed(now: Judged, most: int, file: int) -> List[Finding]:
    """The findings of a text, where those that come from a statement in a comment are one finding,
    with a note of that statement; warnings that come from it are not told.
    """
    findings = now.findings
    for one in swallowed(now):
        rewriting = Rewriting(now.text, [Edit(at(one), one.advice.span.start, "")])
        then = [rewriting.finding(other) for other in judged(rewriting.text, most, file).findings]
        left = set(map(key_of, then))
        gone = [other for other in findings if key_of(other) not in left and other != one]
        errors = [other for other in gone if is_error(other)]
        if errors and count_errors(then) < count_errors(findings):
            dropped = [one, *gone]
            told = with_comment(errors, one)
            findings = [told if other is errors[0] else other for other in findings]
            findings = [other for other in findings if other not in dropped]
        elif not count_errors(findings) and not count_errors(then):
            findings = [other for other in findings if other not in gone]
    return findings


def is_error(finding: Finding) -> bool:
    return finding.severity is Severity.ERROR


def count_errors(findings: Sequence[Finding]) -> int:
    return sum(map(is_error, findings))


def key_of(finding: Finding) -> Tuple[Optional[int], str]:
    return finding.place, finding.word


def with_comment(gone: Sequence[Finding], comment: Finding) -> Finding:
    """The first of the findings that a comment makes, with all their places and its cure."""
    first, swallowed = gone[0], comment.advice
    note = Note("this statement is a part of the comment before it", comment.file, swallowed.span)
    advice = Advice(first.advice.span, first.advice.label, (note,), swallowed.cure, swallowed.edits)
    others = tuple(span for one in gone[1:] for span in (one.advice.span, *one.others))
    return first._replace(advice=advice, others=first.others + others)


def next_step(now: Judged, most: int, file: int) -> Optional[Step]:
    """The next cure that helps."""
    for cure in cures(now, file):
        rewriting = Rewriting(now.text, cure.edits)
        then = judged(rewriting.text, most, file)
        if len(then.misspelled) < len(now.misspelled):
            return Step(cure.told, rewriting, then)
    return None


def cures(now: Judged, file: int) -> List[Cure]:
    """What may be cured at once: all habits with the bytes, the first fault of the grammar that has
    a cure, and some of the others alone.
    """
    found = habits(now.text)
    alone = [habit_cure(habit, now, file) for habit in found]
    alone += [
        Cure([one], list(one.advice.edits))
        for one in with_edits(now, OF_TOKENS)
        if not any(is_of(habit, one) for habit in found)
    ]
    first = [Cure([one], list(one.advice.edits)) for one in with_edits(now, OF_GRAMMAR)[:1]]
    opened = [cure for cure in map(partial(opening, now), swallowed(now)) if cure]
    return [*([together(alone)] if alone else []), *opened, *first, *alone[:MOST_ALONE]]


def swallowed(now: Judged) -> List[Finding]:
    """Comments with a statement in them behind a second !, as in other PLEX."""
    found = [one for one in now.findings if one.word == "SWALLOWED"][:MOST_ALONE]
    return [one for one in found if "!" in now.text[at(one) + 1 : one.advice.span.start]]


def opening(now: Judged, comment: Finding) -> Optional[Cure]:
    """The statement of a comment, as the cure of the first fault of the grammar behind it."""
    behind = [one for one in now.misspelled if one.word in OF_GRAMMAR and at(one) > at(comment)]
    edit = Edit(at(comment), comment.advice.span.start, "")
    return Cure([with_comment(behind[:1], comment)], [edit]) if behind else None


def is_of(habit: Habit, finding: Finding) -> bool:
    """Whether a finding is in a habit, or in a part of the text that goes with it."""
    spans = [habit.span, *((edit.start, edit.end) for edit in habit.edits)]
    return any(start <= at(finding) <= end for start, end in spans)


def with_edits(now: Judged, words: Sequence[str]) -> List[Finding]:
    return [one for one in now.misspelled if one.word in words and one.advice.edits]


def at(finding: Finding) -> int:
    return finding.place or 0


def together(found: Sequence[Cure]) -> Cure:
    """Several cures as one."""
    told = [one for cure in found for one in cure.told]
    return Cure(told, [edit for cure in found for edit in cure.edits])


def habit_cure(habit: Habit, now: Judged, file: int) -> Cure:
    """A habit as a finding: it has the place and the word of the first fault in it, or of that at
    the word behind it.
    """
    start, end = habit.span
    behind = BEHIND.match(now.text, end)
    last = behind.end() if behind else end
    inside = [one for one in now.misspelled if start <= at(one) <= last]
    inside.sort(key=lambda one: one.word not in OF_TOKENS)
    place, word = (at(inside[0]), inside[0].word) if inside else (start, OF_GRAMMAR[0])
    edits = habit.edits if habit.is_cure else ()
    cure = "write it so" if any(edit.text for edit in edits) else "leave it out" if edits else ""
    advice = Advice(habit.span, "", (), cure, edits, ("habit", habit.sentence))
    told = Finding(file, place, word, Severity.ERROR, habit.sentence, advice)
    return Cure([told], list(habit.edits))


def back(finding: Finding, stages: Sequence[Rewriting]) -> Finding:
    """A finding of a text that was rewritten several times, at its place in the first one."""
    for stage in reversed(stages):
        finding = stage.finding(finding)
    return finding


def ordered(findings: Sequence[Finding]) -> List[Finding]:
    """The faults of the tokens, those of the grammar, and all else as it is."""

    def key(one: Finding) -> Tuple[int, int]:
        if one.word in OF_TOKENS:
            return 0, at(one)
        return (1, at(one)) if one.word in OF_GRAMMAR else (2, 0)

    return sorted(findings, key=key)
