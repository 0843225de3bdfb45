"""What plex-check tells, beside what the program tells.

- On the texts of test_sentences.py, test_broken_texts.py and of the documents, and on all examples
  and conformance cases: the first fault of plex-check is the program's, word and line, and there is
  none where the program tells none.
- On texts made by chance, with one to five faults put in: so too, and each fault that was put in is
  told, at its line or at the one where the program tells it alone; and nothing is told of the text
  without faults.
- On signal files, tables and filters made by chance, most of them with faults: the first one is the
  program's.
- On changes of an exchange made by chance: all lines of `--change`, and what `plex change` refuses,
  as made_changes.py says it.

What plex-check tells of the rows of check_rows.py and warning_rows.py, and of the folders below
examples/ that have a file `check`, is compared line by line, and the list of keywords in
docs/GUIDE.md is looked at.
"""
from __future__ import annotations

import os
import pathlib
import random
import subprocess
from typing import Iterator, NamedTuple, Optional, Sequence

import pytest

from gate import check_rows, document_texts, harness, made_changes, warning_rows
from gate.checking import EXAMPLES, ROOT, TOOLS, Tally, check, check_enough, read_words
from gate.makers import made_text, put_faults
from gate.test_broken_texts import TEXTS as BROKEN_TEXTS
from gate.test_sentences import TEXTS as SENTENCES
from plextools.commands import check as plex_check
from plextools.text import tokens
from plextools.text.explanations import explanations
from plextools.text.warnings import WARNINGS, Oddities

WAYS = set(
    "UNREACHED RUNSINTO ENDLESS TOOWIDE NORECORD BYZERO CONSTANT NOTURN NEVERREAD LOST".split()
)
OF_FILES = {"NOJOB"}  # of a filter, of which check_rows.py has rows
CHECK = TOOLS / "bin" / "plex-check"
LONGEST, GATE = 300, 200
TOLD = ("SOURCE", "SIGNALS", "TABLE", "FILTER")
REFUSED = (2, 3, 11, 13)
APART = 3
# How many cases of each table there must be, and for each text and file of lines that is to be made
# by chance: how many cases, and how many faults put in.
LEAST_TABLES, LEAST_ROWS, LEAST_USES = 762, 70, 32
TEXTS, TEXT_FAULTS, LINE_FAULTS, CHANGED = 1.8, 2, 0.7, 3
USES = [
    ("", 3),
    ("no_such_file", 3),
    (".", 3),
    ("E no_such_file", 3),
    ("--no FLAWS E", 3),
    ("--no", 3),
    ("--most 0 E", 3),
    ("--change E", 3),
    ("--strange E", 3),
    ("E E E E E", 3),
    ("E E E E", 2),
    ("--change E E", 2),
    ("--most 2 many", 2),
    ("--help", 0),
    ("/dev/null", 0),
    ("/dev/null /dev/null /dev/null /dev/null", 0),
    ("-- /dev/null", 0),
    ("--long E", 2),
    ("--long E many many many", 2),
    ("--color=always --long many", 2),
    ("--long /dev/null", 0),
    ("--json E", 2),
    ("--sarif E", 2),
    ("--json --sarif E", 3),
    ("--color E", 3),
    ("--color=green E", 3),
    ("--explain N6", 0),
    ("--explain", 3),
    ("--explain FLAW", 3),
    ("--explain N6 E", 3),
    ("--werror E", 2),
]
DECLARING = (
    "SIGNAL",
    "BLOCK",
    "VARIABLE",
    "TEMPORARY",
    "FILE",
    "FORLOPP",
    "FIELD",
    "RECEIVE",
    "SEND",
)
PARTS = ("END BLOCK", "DECLARE", "SURVEY", "PROGRAM")


class Fault(NamedTuple):
    """The file of a fault by its place among the words, its line, and its word."""

    file: int
    line: int
    word: str


class PutFault(NamedTuple):
    """A fault that was put in: the place of its line, the line, what was done, and how the program
    tells it alone.
    """

    place: int
    text: str
    name: str
    told: Fault

    def lines(self) -> tuple[int, int]:
        """The line of the fault, and the one where it is told."""
        return self.place + 1, self.told.line


class Files(NamedTuple):
    """An exchange text, a signal file, a table and a filter, where they are there."""

    exchange: bytes
    signals: bytes = b""
    table: Optional[bytes] = None
    filter: Optional[bytes] = None

    def given(self) -> dict[str, bytes]:
        """Those that are there, with their names."""
        return {name: content for name, content in zip("ESTQ", self) if content is not None}

    def words(self) -> list[str]:
        """The words by which the program reads them."""
        third = list(self.given())[2:]
        word = {"T": "timed", "Q": "trace"}[third[0]] if third else "run"
        return [word, "E", "S", *third, "--jobs", "20"]


def run(words: Sequence[object], folder: pathlib.Path) -> subprocess.CompletedProcess[bytes]:
    """A run of a tool."""
    return subprocess.run(
        [str(word) for word in words],
        cwd=folder,
        stdin=subprocess.DEVNULL,
        stdout=subprocess.PIPE,
        stderr=subprocess.PIPE,
        timeout=LONGEST,
    )


class Runner:
    """Asks the program and plex-check for the faults of files in a folder."""

    def __init__(self, plex: pathlib.Path, folder: pathlib.Path) -> None:
        self.plex, self.folder = plex, folder

    def program(self, *contents: bytes) -> Optional[Fault]:
        """The first fault that the program tells of a text and a signal file, or None."""
        return self.first_fault(Files(*contents))

    def first_fault(self, files: Files) -> Optional[Fault]:
        """The first fault that the program tells, or None."""
        harness.write_files(self.folder, files.given())
        got = harness.answer(self.plex, files.words(), self.folder)
        if got.status in harness.SILENT:
            return None
        if got.status not in REFUSED:
            check(f"{harness.wrong(got, 0)}; of\n{files.exchange.decode('latin-1')}")
        told = got.wrote.decode("latin-1").split()
        return Fault(TOLD.index(told[0]), int(told[2]), told[3])

    def check(self, files: Files) -> list[Fault]:
        """All faults that plex-check tells. Warnings are left out."""
        given = files.given()
        harness.write_files(self.folder, given)
        here = os.getcwd()
        os.chdir(self.folder)
        try:
            report = plex_check.checked(["--no", ",".join(WARNINGS), *given])
        finally:
            os.chdir(here)
        parts = [line.split(":", 4) for line in report.lines]
        return [Fault("ESTQ".index(row[0]), int(row[1]), row[3].strip()) for row in parts]


@pytest.fixture
def runner(plex: pathlib.Path, folder: pathlib.Path) -> Runner:
    """Asks both in a folder."""
    return Runner(plex, folder)


def differs(wanted: Optional[Fault], told: Sequence[Fault]) -> Optional[str]:
    """What is wrong with the first fault; nothing where it is as it must be."""
    first = told[0] if told else None
    return None if first == wanted else f"the program tells {wanted}, plex-check {first}"


def compare(runner: Runner, files: Files) -> None:
    """Fails where the first fault of files differs."""
    told = differs(runner.first_fault(files), runner.check(files))
    check(f"{told}\n{files.exchange.decode('latin-1')}" if told else None)


# tables


def of_tables() -> Iterator[Files]:
    """The texts of the tables and of the documents."""
    for _, text in [*SENTENCES, *BROKEN_TEXTS]:
        yield Files(text.replace("@", "\n").encode())
    for text, _ in document_texts.BROKEN.findall(document_texts.LANGUAGE):
        yield Files(text.encode())
    frame = document_texts.Frame().text
    for _, _, place, broken, mended in document_texts.rows("Mending an exchange text"):
        for text in document_texts.spans(broken) + document_texts.spans(mended) if place else []:
            yield Files(frame.replace(f"! {place}\n", text + "\n").encode())
    for _, _, *cells in document_texts.rows("Mending a signal file"):
        for lines in ("\n".join(document_texts.spans(cell)) + "\n" for cell in cells):
            if lines.startswith("AFTER"):
                yield Files(frame.encode(), lines.encode())
            elif lines.startswith("EVERY"):
                yield Files(frame.encode(), document_texts.TICK.encode(), lines.encode())
            elif lines.startswith("SHOW"):
                yield Files(frame.encode(), document_texts.TICK.encode(), None, lines.encode())


def of_folders() -> Iterator[pathlib.Path]:
    """The exchange texts of all examples, conformance cases and analyses."""
    rooms = ("conformance", "analysis")
    cases = [path for room in rooms for path in harness.CASES.glob(f"{room}/*/exchange")]
    return iter(sorted([*ROOT.glob("examples/**/exchange.plex"), *cases]))


TABLES, FOLDERS = list(of_tables()), list(of_folders())


@pytest.mark.parametrize("place", range(len(TABLES)), ids=str)
def test_table(runner: Runner, place: int) -> None:
    """The first fault of a text of a table."""
    compare(runner, TABLES[place])


@pytest.mark.parametrize("path", FOLDERS, ids=[path.parent.name for path in FOLDERS])
def test_folder(runner: Runner, path: pathlib.Path) -> None:
    """The first fault of an example or a case, with its signal file."""
    signals = [path.with_name(name) for name in ("signals.txt", "signals")]
    lines = next((place.read_bytes() for place in signals if place.is_file()), b"")
    compare(runner, Files(path.read_bytes(), lines))


def test_all_tables_are_there() -> None:
    """No text of a table is lost."""
    check_enough("texts of tables and folders", len(TABLES) + len(FOLDERS), LEAST_TABLES)


# texts made by chance


def made_lines(chance: random.Random) -> list[str]:
    """The lines of a text that breaks no rule, a piece on each line."""
    blocks = [f"K{number}" for number in range(1, chance.choice([2, 3, 4]))]
    maker = made_text.Maker(chance, blocks)
    words = " ".join([made_text.SIGNALS] + [maker.block(name) for name in blocks]).split()
    return " ".join(words).replace(" ; ", " ;\n").split("\n")


def text_of(lines: Sequence[str]) -> bytes:
    """A text of these lines."""
    return "".join(line + "\n" for line in lines).encode("latin-1")


def with_faults(chance: random.Random, lines: Sequence[str], runner: Runner) -> list[PutFault]:
    """One to five faults, each in a line of its own, with where the program tells each of them
    alone.
    """
    wanted, tries = chance.choice([1, 1, 2, 3, 4, 5]), 0
    found: list[PutFault] = []
    while len(found) < wanted and tries < 40:
        tries += 1
        fault = put_faults.put(chance, lines)
        if fault is None:
            continue
        number, text, name = fault
        told = runner.program(text_of([*lines[:number], text, *lines[number + 1 :]]), b"")
        if told is None:
            continue
        one = PutFault(number, text, name, told)
        if not any(meet(lines, one, other) for other in found):
            found.append(one)
    return found


def meet(lines: Sequence[str], one: PutFault, other: PutFault) -> bool:
    """Whether two faults stand near each other, or one may undo the other: it changes what is
    declared, or the head of a block, without which all of the block is taken for more of the one
    before; or it puts in where a part of a block begins or ends, behind which all is taken for
    another part.
    """
    if any(abs(place - near) < APART for place in one.lines() for near in other.lines()):
        return True
    changed = [(lines[fault.place], fault.text) for fault in (one, other)]
    if any(line.startswith("BLOCK ") for line, _ in changed):
        return True
    if any(part in text and part not in line for line, text in changed for part in PARTS):
        return True
    if not any(line.split(" ")[0] in DECLARING for line, _ in changed):
        return False
    names = [
        {word for line in pair for word in line.split(" ") if put_faults.is_name(word)}
        for pair in changed
    ]
    return bool(names[0] & names[1])


@pytest.mark.by_chance(GATE)
def test_right_text(runner: Runner, seed: str, number: int) -> None:
    """Nothing is told of a text without faults, but what the program tells."""
    compare(runner, Files(text_of(made_lines(random.Random(f"{seed}.{number}")))))


@pytest.mark.by_chance(GATE)
def test_put_faults(runner: Runner, seed: str, tally: Tally, number: int) -> None:
    """The first fault of a text is the program's, and each fault that was put in is told."""
    chance = random.Random(f"{seed}.{number}")
    lines = made_lines(chance)
    least = {"texts": TEXTS, "faults put in": TEXT_FAULTS}
    if runner.program(text_of(lines)) is not None:
        tally.add("checked texts", {"texts": 1}, least)
        return
    found = with_faults(chance, lines, runner)
    for fault in found:
        lines[fault.place] = fault.text
    files = Files(text_of(lines))
    told = runner.check(files)
    counts = {"texts": 2, "faults put in": len(found)}
    counts["told beside them"] = len(told) - len(found)
    tally.add("checked texts", counts, least)
    wrong = differs(runner.first_fault(files), told) or next(untold(found, told), None)
    check(f"{wrong}\n{files.exchange.decode('latin-1')}" if wrong else None)


def untold(found: Sequence[PutFault], told: Sequence[Fault]) -> Iterator[str]:
    """The faults that were put in and are not told, at their line or where the program tells them
    alone.
    """
    places, lines = {(fault.line, fault.word) for fault in told}, {fault.line for fault in told}
    for fault in found:
        if (fault.told.line, fault.told.word) not in places and fault.place + 1 not in lines:
            alone = f"alone told as {fault.told.word} on line {fault.told.line}"
            yield f"the fault {fault.name} of line {fault.place + 1}, {alone}, is not told: {told}"


# lines made by chance


def made_signals(chance: random.Random) -> list[list[str]]:
    """The words of each line of a signal file."""
    lines: list[list[str]] = []
    count = 0
    for number in range(1, chance.randint(4, 12)):
        if chance.random() < 0.2:
            lines.append(chance.choice([[], ["! a comment"]]))
            continue
        count += chance.choice([0, 0, 1, 5])
        before = [
            place
            for place, line in enumerate(lines, 1)
            if line and line[0] == "AFTER" and line[-1] != "NONE"
        ]
        end = chance.choice(
            [["NEW"], ["NONE"], ["AS", str(chance.choice(before))] if before else ["NEW"]]
        )
        signal = chance.choice([["BU", "K1", "7"], ["B0", "K1"]])
        lines.append(["AFTER", str(count), *signal, *end])
    return lines


def made_periods(chance: random.Random) -> list[list[str]]:
    """The words of each line of a table."""
    lines: list[list[str]] = []
    for _ in range(chance.randint(1, 6)):
        signal, end = chance.choice([["BU", "K1", "7"], ["B0", "K1"]]), chance.choice(
            ["NEW", "NONE"]
        )
        lines.append(["EVERY", "5", "FROM", str(chance.randrange(9)), "TIMES", "3", *signal, end])
    return lines


def made_shows(chance: random.Random) -> list[list[str]]:
    """The words of each line of a filter."""
    parts = [
        ["BLOCK", "K1"],
        ["SIGNAL", "BU"],
        ["FORLOPP", "1"],
        ["FROM", "2"],
        ["UPTO", "9"],
        ["FAULTS"],
    ]
    chosen = [
        [part for part in parts if chance.random() < 0.4] for _ in range(chance.randint(1, 5))
    ]
    return [["SHOW", *(word for part in some for word in part)] for some in chosen]


EXCHANGE = text_of(made_lines(random.Random(5)))
KINDS = (made_signals, made_periods, made_shows)


def made_file(chance: random.Random, kind: int) -> bytes:
    """Lines of a kind, with up to three faults put in."""
    lines = KINDS[kind - 1](chance)
    places = [place for place, line in enumerate(lines) if line[:1] and line[0] in FIRST_WORDS]
    for _ in range(chance.choice([0, 1, 2, 3])):
        left = [place for place in places if lines[place]]
        if left:
            place = chance.choice(left)
            lines[place] = put_faults.put_line(chance, lines[place])
    blanks, ends = [" ", "  ", "\t"], ["\n", "\n", "\r\n"]
    return "".join(
        chance.choice(blanks).join(line) + chance.choice(ends) for line in lines
    ).encode()


FIRST_WORDS = ("AFTER", "EVERY", "SHOW")


@pytest.mark.by_chance(GATE)
def test_made_lines(runner: Runner, seed: str, tally: Tally, number: int) -> None:
    """The first fault of lines is the program's."""
    chance = random.Random(f"lines {seed}.{number}")
    kind = chance.choice([1, 1, 2, 3])
    text = made_file(chance, kind)
    parts = {"signals": text} if kind == 1 else {"table": text} if kind == 2 else {"filter": text}
    files = Files(EXCHANGE)._replace(**parts)
    told = runner.check(files)
    least = {"faults": LINE_FAULTS}
    tally.add("checked lines", {"faults": len(told)}, least)
    wrong = differs(runner.first_fault(files), [Fault(kind, *fault[1:]) for fault in told])
    check(f"{wrong}\n{text.decode()}" if wrong else None)


def test_text_for_lines(runner: Runner) -> None:
    """The text for which lines are made breaks no rule."""
    assert runner.program(EXCHANGE) is None


# changes made by chance


@pytest.mark.by_chance(CHANGED * GATE)
def test_made_change(runner: Runner, seed: str, number: int) -> None:
    """All lines of `--change`, and the refusal of `plex change`."""
    pair = made_changes.made(random.Random(f"changes {seed}.{number}"))
    told = made_changes.differences(runner.plex, pair, runner.folder)
    check(told, f"{pair.old}\n{pair.new}" if told else None)


# rows

ROWS = list(check_rows.rows())
CHECKED = sorted(path.parent for path in ROOT.glob("examples/**/check"))


@pytest.mark.parametrize("place", range(len(ROWS)), ids=str)
def test_row(plex: pathlib.Path, folder: pathlib.Path, place: int) -> None:
    """A row tells its lines."""
    files, options, status, lines = ROWS[place]
    harness.write_files(folder, files)
    done = run([CHECK, *options, *files], folder)
    assert (done.returncode, done.stderr) == (status, b"")
    assert done.stdout.decode().splitlines() == lines


def test_no_false_warning_of_ways() -> None:
    """Of the examples one has a statement that nothing reaches, and none has another of the odd
    ways through a text.
    """
    found = []
    for path in sorted(EXAMPLES.glob("**/*.plex")):
        checker = Oddities(tokens.Text(path.read_bytes(), 100))
        if not checker.check():
            words = {told.rule for told in checker.oddities()} & WAYS
            found += [(path.parent.name, word) for word in words]
    assert found == [("differences", "UNREACHED")]


@pytest.mark.parametrize("row", warning_rows.ROWS, ids=lambda row: str(row.name))
def test_warning_row(folder: pathlib.Path, row: warning_rows.Row) -> None:
    """What is odd in a text is told."""
    check(warning_rows.wrong(row, folder))


@pytest.mark.parametrize("word", [word for word in WARNINGS if word not in OF_FILES])
def test_word_of_warning(folder: pathlib.Path, word: str) -> None:
    """Each word of a warning is told by a row, is left out by --no, and is explained."""
    rows = [row for row in warning_rows.ROWS if any(f": {word}: " in line for line in row.lines)]
    assert rows and word in explanations()
    left = [line for line in rows[0].lines if f": {word}: " not in line]
    status = warning_rows.ODD if left else warning_rows.FINE
    row = rows[0]._replace(words=("--no", word), lines=left, status=status, left_out="")
    check(warning_rows.wrong(row, folder))


@pytest.mark.parametrize(
    "example", CHECKED, ids=[str(path.relative_to(EXAMPLES)) for path in CHECKED]
)
def test_example(plex: pathlib.Path, example: pathlib.Path) -> None:
    """An example writes its report."""
    done = run([CHECK, *read_words(example / "check")], example)
    wanted = int((example / "status").read_text()), (example / "report.txt").read_bytes()
    assert (done.returncode, done.stdout) == wanted


def test_keywords() -> None:
    """The guide has the list of keywords."""
    guide = " ".join(word for part in harness.GUIDE for word in part.read_text().split())
    assert " ".join(tokens.KEYWORDS) in guide


def test_all_rows_are_there() -> None:
    """No row, no example and no careless use is lost."""
    rows = len(ROWS) + len(warning_rows.ROWS) + len(CHECKED) + 1
    check_enough("rows", rows, LEAST_ROWS)
    check_enough("careless uses", len(USES) + 1, LEAST_USES)


@pytest.fixture
def careless(folder: pathlib.Path) -> pathlib.Path:
    """A folder with files that are no texts."""
    (folder / "E").write_bytes(bytes(range(256)) * 40)
    (folder / "many").write_bytes(b"A=1;\n" * 30000)
    return folder


@pytest.mark.parametrize(("words", "status"), USES, ids=[words or "nothing" for words, _ in USES])
def test_careless_use(plex: pathlib.Path, careless: pathlib.Path, words: str, status: int) -> None:
    """Words and files that a careless user gives come to a status and a message, and to no
    traceback.
    """
    done = run([CHECK, *words.split()], careless)
    assert done.returncode == status
    assert b"Traceback" not in done.stderr
    assert status != 3 or done.stderr


def test_closed_pipe(plex: pathlib.Path, careless: pathlib.Path) -> None:
    """A reader who does not read on is no fault."""
    pipe = run(["sh", "-c", f"'{CHECK}' many --most 100000 | head -n 1"], careless)
    assert (pipe.stderr, pipe.stdout.count(b"\n")) == (b"", 1)
