"""The texts of the documents that break a rule, and their mended forms.

- Each text of docs/LANGUAGE.md under which a line `SOURCE line L RULE` stands must be refused by
  that line, with status 2.
- Each row in the tables of docs/FORMATS.md (Mending an exchange text, a signal file, a certificate,
  Faults of jobs) must be refused, or must fault, as it says, and on the line that it says, in the
  text that stands there; its mended form must not.

Where a row has no fragment, or one with words between, what it says stands in this module
(IN_WORDS).
"""
from __future__ import annotations

import pathlib
from typing import Callable, Iterator, NamedTuple, Optional, Sequence

import pytest

from gate import harness
from gate.checking import EXAMPLES, check, check_enough
from gate.document_texts import BROKEN, LANGUAGE, NONE, TICK, TOLD, Frame, rows, spans
from plextools.limits import MOST_BYTES

LEAST_TEXTS, LEAST_OF_A_ROW = 25, 2
LEAST_ROWS = {
    "Mending an exchange text": 31,
    "Mending a signal file": 12,
    "Mending a certificate": 5,
    "Faults of jobs": 10,
}
FRAME = Frame()


class Asker:
    """Asks the program in a folder."""

    def __init__(self, plex: pathlib.Path, folder: pathlib.Path) -> None:
        self.plex, self.folder = plex, folder

    def answer(self, words: Sequence[str], **files: str | bytes) -> harness.Answer:
        """The answer to words, with these files in the folder."""
        harness.write_files(self.folder, files)
        got: harness.Answer = harness.answer(self.plex, words, self.folder)
        return got

    def run(self, text: str, signals: str = "") -> harness.Answer:
        """The answer of a run."""
        return self.answer(["run", "E", "S"], E=text, S=signals)


class Case(NamedTuple):
    """A case of a row: its name, and what looks whether something is wrong with it."""

    name: str
    look: Callable[[Asker], Optional[str]]


# A text that breaks a rule of exchange texts with its line; a text; a text with a signal file.
Breaks = Callable[[Frame], "tuple[int, str]"]
Mends = Callable[[Frame], str]
Runs = Callable[[Frame], "tuple[str, str]"]


def each(text: str, count: int) -> str:
    """A text with each number in turn."""
    return " ".join(text % number for number in range(count))


def added(count: int) -> str:
    """A statement that adds so many numbers."""
    return "V = " + " + ".join(["1"] * count) + ";"


# For a rule of exchange texts whose row has words: a text that breaks it with its line, and a
# mended one. None where the row has a fragment for it.
IN_WORDS: dict[str, tuple[Breaks | None, Mends | None]] = {
    "TOOLARGE": (
        lambda frame: (0, frame.sized(MOST_BYTES + 1)),
        lambda frame: frame.sized(MOST_BYTES),
    ),
    "ENDED": (
        lambda frame: (frame.text.count("\n"), frame.cut() + "\n"),
        lambda frame: frame.text,
    ),
    "N5": (
        lambda frame: (
            frame.line("declarations"),
            frame.filled(declarations=each("TEMPORARY A%d;", 24)),
        ),
        lambda frame: frame.filled(declarations=each("TEMPORARY A%d;", 23)),
    ),
    "N13": (
        lambda frame: (frame.line("program"), frame.filled(program=added(65))),
        lambda frame: frame.filled(program=added(64) + " V = V + 1;"),
    ),
    "LIMIT": (
        lambda frame: (
            frame.line("signals"),
            frame.filled(signals=each("SIGNAL A%d OUTSIDE DATA 0;", 994)),
        ),
        lambda frame: frame.filled(signals=each("SIGNAL A%d OUTSIDE DATA 0;", 993)),
    ),
    "NORECEIVER": (None, Frame.with_away),
    "NOTINSURVEY": (None, lambda frame: frame.filled(program="SEND FAR;", survey="SEND FAR;")),
    "TWOENTERS": (None, lambda frame: frame.filled(program="GOTO A; A) EXIT;")),
    "NOENTER": (None, lambda frame: frame.filled(program="ENTER FAR;", survey="RECEIVE FAR;")),
}

SEIZES = "ON S FROM 1 UPTO %d DO SEIZE T IN H ELSE GOTO A; %s NO; A) EXIT;"
DECLARED = "TEMPORARY S; FORLOPP FILE H SIZE 65; FIELD Z WIDTH 8;"


def held(frame: Frame, count: int, more: str = "") -> str:
    """A text in which a job seizes so many records."""
    return frame.filled(program=SEIZES % (count, more), declarations=DECLARED)


# The same for faults of jobs: a text and a signal file with which a job faults, and with which none
# does.
FAULTS_IN_WORDS: dict[str, tuple[Runs | None, Runs | None]] = {
    "NOFORLOPP": (
        lambda frame: (frame.filled(program="SEIZE T IN G ELSE GOTO A; A) EXIT;"), NONE),
        lambda frame: (frame.filled(program="SEIZE T IN G ELSE GOTO A; A) EXIT;"), TICK),
    ),
    "CHAIN": (
        lambda frame: (held(frame, 65), TICK),
        lambda frame: (held(frame, 65, "FREE T IN H;"), TICK),
    ),
    "DEPTH": (None, lambda frame: (frame.filled(program="EXIT;"), TICK)),
}


def refused(name: str, text: str, told: str) -> Case:
    """A text that must be refused by this line."""

    def look(asker: Asker) -> str | None:
        wrong: str | None = harness.wrong(asker.run(text), 2, f"{told}\n".encode())
        return wrong

    return Case(name, look)


def not_right(got: harness.Answer) -> str | None:
    """What is wrong with a run that must end by itself, and in which no job faults."""
    faulted = b"RELEASE" in got.wrote or b"RESTART" in got.wrote
    ended = got.wrote.endswith(b"END DONE\n") and not faulted
    return harness.wrong(got, 0) or (None if ended else f"it wrote {got.wrote[:80]!r}")


def right(name: str, text: str, signals: str = "") -> Case:
    """A text that is mended."""
    return Case(f"{name} mended", lambda asker: not_right(asker.run(text, signals)))


def exchange_row(rule: str, _: str, place: str, broken: str, mended: str) -> Iterator[Case]:
    """A row of the rules of exchange texts."""
    breaks, mends = IN_WORDS.get(rule, (None, None))
    for text in spans(broken) if place else []:
        told = f"SOURCE line {FRAME.line(place)} {rule}"
        yield refused(f"{rule} {text}", FRAME.filled(**{place: text}), told)
    if breaks:
        line, text = breaks(FRAME)
        yield refused(f"{rule} in words", text, f"SOURCE line {line} {rule}")
    for text in spans(mended) if place and not mends else []:
        yield right(f"{rule} {text}", FRAME.filled(**{place: text}))
    if mends:
        yield right(f"{rule} in words", mends(FRAME))


class Lines(NamedTuple):
    """How lines of a kind are run: the words, the file, the status of a refusal, and its first
    word.
    """

    words: Sequence[str]
    file: str
    status: int
    word: str


LINES = {
    "`EVERY": Lines(["timed", "E", "S", "T"], "T", 11, "TABLE"),
    "`SHOW": Lines(["trace", "E", "S", "Q"], "Q", 13, "FILTER"),
}
SIGNAL_LINES = Lines(["run", "E", "S"], "S", 3, "SIGNALS")


def line_row(rule: str, _: str, broken: str, mended: str) -> Iterator[Case]:
    """A row of the tables of signal files, of periodic signals and of filters."""
    how = LINES.get((broken.split() or [""])[0], SIGNAL_LINES)
    lines, others = spans(broken), spans(mended)
    line = len(lines)
    if rule == "TOOLARGE":
        lines, others, line = [" " * MOST_BYTES], [" " * (MOST_BYTES - 1)], 0
    if lines:
        told = f"{how.word} line {line} {rule}\n"
        yield lines_case(f"{rule} {lines[-1][:60]}", how, lines, how.status, told.encode())
    if others:
        yield lines_case(f"{rule} {others[-1][:60]} mended", how, others, 0, None)


def lines_case(
    name: str, how: Lines, lines: Sequence[str], status: int, told: bytes | None
) -> Case:
    """Lines of a file, and what must come of them."""

    def look(asker: Asker) -> str | None:
        text = "".join(line + "\n" for line in lines)
        got = asker.answer(how.words, **{"E": FRAME.text, "S": TICK, how.file: text})
        told_wrong: str | None = harness.wrong(got, status, told)
        return told_wrong

    return Case(name, look)


def certificate_row(rule: str, _: str, name: str) -> Iterator[Case]:
    """The example of a row must tell it, and the certificate that is mended must be taken."""
    if rule == "TOOLARGE":
        yield Case("a certificate that is too large", large_certificate)
    else:
        told = (EXAMPLES / name.strip("`") / "report.txt").read_text()
        is_told = told.startswith("CERTIFICATE ") and rule in told.split()
        yield Case(f"the example {name}", lambda _: None if is_told else f"it tells {told!r}")
    yield Case(f"{rule} mended", own_certificate)


def large_certificate(asker: Asker) -> str | None:
    """A certificate of a byte too many is refused."""
    text = " " * (MOST_BYTES + 1)
    got = asker.answer(["run", "E", "S", "--cert", "F"], E=FRAME.text, S=TICK, F=text)
    told: str | None = harness.wrong(got, 9, b"CERTIFICATE line 0 TOOLARGE\n")
    return told


def own_certificate(asker: Asker) -> str | None:
    """The certificate that the program makes is taken."""
    made = asker.answer(["certify", "E"], E=FRAME.text)
    words = ["run", "E", "S", "--cert", "F"]
    return not_right(asker.answer(words, E=FRAME.text, S=TICK, F=made.wrote))


def fault_row(fault: str, _: str, broken: str, mended: str) -> Iterator[Case]:
    """A row of the faults of jobs."""
    breaks, mends = FAULTS_IN_WORDS.get(fault, (None, None))
    faulty = [(FRAME.filled(program=text), TICK) for text in spans(broken)]
    for number, (text, signals) in enumerate([breaks(FRAME)] if breaks else faulty):
        yield faulting(f"{fault} faults {number}", fault, text, signals)
    well = [(FRAME.filled(program=text), TICK) for text in spans(mended)]
    for number, (text, signals) in enumerate([mends(FRAME)] if mends else well):
        yield right(f"{fault} {number}", text, signals)


def faulting(name: str, fault: str, text: str, signals: str) -> Case:
    """A run whose first job must fault, and no other one."""

    def look(asker: Asker) -> str | None:
        event = "RELEASE F1" if signals == TICK else "RESTART"
        line = f"{event} job 1 {fault} at K:{FRAME.line('program')} jobs "
        got = asker.run(text, signals)
        told = got.wrote.decode().splitlines()
        lines = [one for one in told if one.startswith(("RELEASE", "RESTART"))]
        is_told = len(lines) == 1 and lines[0].startswith(line)
        return harness.wrong(got, 0) or (None if is_told else f"{lines} and not {line!r}")

    return Case(name, look)


ROWS: dict[str, Callable[..., Iterator[Case]]] = {
    "Mending an exchange text": exchange_row,
    "Mending a signal file": line_row,
    "Mending a certificate": certificate_row,
    "Faults of jobs": fault_row,
}


def cases_of(heading: str, cells: Sequence[str]) -> list[Case]:
    """The cases of a row."""
    return list(ROWS[heading](cells[0].strip("`"), *cells[1:]))


CASES = [case for heading in ROWS for cells in rows(heading) for case in cases_of(heading, cells)]
TEXTS = BROKEN.findall(LANGUAGE)


def test_the_text_itself(plex: pathlib.Path, folder: pathlib.Path) -> None:
    """The text into which fragments are put breaks no rule."""
    check(not_right(Asker(plex, folder).run(FRAME.text, TICK)))


@pytest.mark.parametrize(("text", "told"), TEXTS, ids=[told for _, told in TEXTS])
def test_language(plex: pathlib.Path, folder: pathlib.Path, text: str, told: str) -> None:
    """A text of LANGUAGE.md is refused by the line that stands under it."""
    check(refused("", text, told).look(Asker(plex, folder)))


@pytest.mark.parametrize("case", CASES, ids=[case.name for case in CASES])
def test_row(plex: pathlib.Path, folder: pathlib.Path, case: Case) -> None:
    """A text of a row is refused, faults or is taken, as the row says."""
    check(case.look(Asker(plex, folder)))


@pytest.mark.parametrize("heading", ROWS)
def test_all_rows_are_tried(heading: str) -> None:
    """No row is lost, and each has a broken form and a mended one."""
    check_enough(f"rows of {heading}", rows(heading), LEAST_ROWS[heading])
    for cells in rows(heading):
        check_enough(f"cases of the row {cells[0]}", cases_of(heading, cells), LEAST_OF_A_ROW)


def test_all_texts_are_tried() -> None:
    """No text of LANGUAGE.md is lost, and each line that tells a rule stands under a text."""
    check_enough("texts of LANGUAGE.md", TEXTS, LEAST_TEXTS)
    assert len(TEXTS) == len(TOLD.findall(LANGUAGE))
