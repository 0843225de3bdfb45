"""plex-check [OPTION ...] E [S [T [Q]]] | plex-check [OPTION ...] --change E E2 |
plex-check --explain WORD

Reports all faults of an exchange text E, and warns of suspicious code; also in a signal file S, in
a table of periodic signals T and in a filter Q for it. A third file whose first line begins with
SHOW is a filter. With --change it reports what a change from E to E2 keeps, drops, narrows and
initializes, and why it would be rejected. On a terminal each fault is shown in its source line,
with related places and the fix; else each one is a line of the form FILE:LINE:COLUMN: WORD:
sentence.

The status is 0 without faults, 1 if there are only warnings and --werror is given, 2 with faults,
and 3 if a file cannot be read or the words are wrong. The words of faults are those of plex, and
the first fault is the one that plex reports.
"""
import argparse
import gc
import os
import shutil
import sys
from enum import Enum
from typing import Iterator, List, Mapping, NoReturn, Optional, Sequence, Set

from plextools import VERSION
from plextools.commands.command_words import BY_NAME, rows
from plextools.limits import MOST_BYTES
from plextools.show.long_form import LongForm, Style
from plextools.show.records import Records
from plextools.tables import printed, quoted
from plextools.text import change, signal_files
from plextools.text.explanations import explanations, titles
from plextools.text.finding import Finding, Severity, Source
from plextools.text.findings import NO_ADVICE, by_cause, of_change, of_exchange, of_lines
from plextools.text.hints import near
from plextools.text.retelling import retold
from plextools.text.signal_files import LineFile
from plextools.text.tokens import Lines, Text
from plextools.text.warnings import WARNINGS, Oddities

FINE, ODD, WRONG, UNREADABLE = 0, 1, 2, 3
MOST, WIDTH = 1000, 80
USAGE = (
    "plex-check [OPTION ...] E [S [T [Q]]] | plex-check [OPTION ...] --change E E2"
    " | plex-check --explain WORD"
)
TO_SWITCH_OFF = {**WARNINGS, **change.CHANGES, **change.NOTES}


class Form(Enum):
    """How findings are written."""

    SHORT = "short"
    LONG = "long"
    JSON = "json"
    SARIF = "sarif"


class Unusable(Exception):
    """A file cannot be read, or the words are wrong."""


class Parser(argparse.ArgumentParser):
    """Reads words; wrong ones are told by `Unusable`."""

    def error(self, message: str) -> NoReturn:
        raise Unusable(f"{printed(message)}; --help tells all")


def number(word: str) -> int:
    """A number of faults."""
    if not word.isdigit() or not word.isascii() or len(word) > 9 or not int(word):
        raise argparse.ArgumentTypeError(f"it takes a number from 1 on, and not {word!r}")
    return int(word)


def switched_off(word: str) -> Set[str]:
    """Words that are left out, with commas between them."""
    words = set(word.split(","))
    strange = words - set(TO_SWITCH_OFF)
    if strange:
        told = f"it takes one of {', '.join(TO_SWITCH_OFF)}, and not {min(strange)!r}"
        raise argparse.ArgumentTypeError(told)
    return words


class Words(argparse.Namespace):
    """The words of the command."""

    files: List[str]
    no: List[Set[str]]
    most: int
    color: str
    written: Optional[Form]
    explain: Optional[str]
    change: bool
    werror: bool
    help: bool
    version: bool

    @property
    def switched_off(self) -> Set[str]:
        """All words that are left out."""
        return set().union(*self.no)

    @property
    def form(self) -> Form:
        """The form that is asked for, or else the one that suits the output. Emacs runs a command
        whose lines it reads on a terminal too, and says so.
        """
        is_read = "compile" in os.environ.get("INSIDE_EMACS", "")
        return self.written or (Form.LONG if sys.stdout.isatty() and not is_read else Form.SHORT)

    @property
    def has_colours(self) -> bool:
        if self.color != "auto":
            return self.color == "always"
        is_wanted = not os.environ.get("NO_COLOR") and os.environ.get("TERM") != "dumb"
        return is_wanted and sys.stdout.isatty()

    @property
    def width(self) -> int:
        """How many columns lines may have."""
        return shutil.get_terminal_size().columns if sys.stdout.isatty() else WIDTH

    @property
    def needs_files(self) -> bool:
        return not self.help and not self.version and self.explain is None


def read_words(words: Sequence[str]) -> Words:
    """The words of the command; raises `Unusable` where they are wrong."""
    parser = Parser("plex-check", USAGE, add_help=False, allow_abbrev=False)
    forms = parser.add_mutually_exclusive_group()
    for form in Form:
        forms.add_argument(f"--{form.value}", dest="written", action="store_const", const=form)
    parser.add_argument("--color", choices=("always", "never", "auto"), default="auto")
    parser.add_argument("--explain")
    parser.add_argument("--no", type=switched_off, action="append", default=[])
    parser.add_argument("--most", type=number, default=MOST)
    for flag in ("--change", "--werror", "--version"):
        parser.add_argument(flag, action="store_true")
    parser.add_argument("--help", "-h", action="store_true")
    parser.add_argument("files", nargs="*")
    given = Words()
    parser.parse_intermixed_args(words, given)
    if given.explain is not None and given.files:
        parser.error("--explain takes one word, and no file")
    if given.needs_files:
        if given.change and len(given.files) != 2:
            parser.error("--change takes two exchange texts")
        if not 1 <= len(given.files) <= 4:
            parser.error(f"usage: {USAGE}")
    return given


def bytes_of(name: str) -> bytes:
    """The bytes of a file, up to one more than a text may have."""
    try:
        with open(name, "rb") as file:
            return file.read(MOST_BYTES + 1)
    except (OSError, ValueError) as error:
        told = getattr(error, "strerror", None) or error
        raise Unusable(f"{quoted(name)} cannot be read: {told}") from error


class Report:
    """What is told, and whether there are faults and warnings among it."""

    def __init__(self, words: Words) -> None:
        self.words, self.switched_off = words, words.switched_off
        self.sources: List[Source] = []
        self.findings: List[Finding] = []
        self.told: List[str] = []

    def add_source(self, name: str, text: str, lines: Lines) -> int:
        """One more file; gives its number."""
        self.sources.append(Source(name, text, lines))
        return len(self.sources) - 1

    def add(self, findings: Sequence[Finding]) -> None:
        self.findings += [one for one in findings if one.word not in self.switched_off]

    def add_left_out(self, name: str, counts: Mapping[str, int]) -> None:
        for word, count in sorted(counts.items()):
            if word not in self.switched_off:
                left = f"{count:,} more of {word} are not told; --most N tells more"
                print(f"plex-check: {quoted(name)}: {left}", file=sys.stderr)

    @property
    def status(self) -> int:
        worst = {finding.severity for finding in self.findings}
        if Severity.ERROR in worst:
            return WRONG
        return ODD if Severity.WARNING in worst and self.words.werror else FINE

    @property
    def lines(self) -> List[str]:
        """What is written, line by line, with their ends."""
        return self.told or [f"{line}\n" for line in self.lines_of_form()]

    def lines_of_form(self) -> Iterator[str]:
        form = self.words.form
        if form is Form.SHORT:
            yield from map(self.short, self.findings)
            return
        findings = by_cause(self.findings)
        if form is Form.LONG:
            style = Style(self.words.width, self.words.has_colours)
            yield from LongForm(self.sources, style).lines(findings)
        elif form is Form.JSON:
            yield from Records(self.sources, titles()).lines(findings)
        else:
            yield Records(self.sources, titles()).sarif(findings, self.status)

    def short(self, finding: Finding) -> str:
        """A finding on one line."""
        name, _, lines = self.sources[finding.file]
        place = finding.place
        where = "0:0" if place is None else f"{lines.line(place)}:{lines.column(place)}"
        return f"{quoted(name)}:{where}: {finding.word}: {finding.sentence}"

    def write(self) -> None:
        lines = self.lines
        for start in range(0, len(lines), 1000):
            sys.stdout.buffer.write(os.fsencode("".join(lines[start : start + 1000])))
        sys.stdout.buffer.flush()


def too_large(file: int) -> Finding:
    """What is said of an exchange text that is not looked at."""
    sentence = f"the text has more than {MOST_BYTES:,} bytes: cut comments and blanks"
    return Finding(file, None, "TOOLARGE", Severity.ERROR, sentence, NO_ADVICE)


def check_exchange(report: Report, name: str, data: bytes) -> Optional[Oddities]:
    """What was found in an exchange text, or None where it is too large to be looked at."""
    if len(data) > MOST_BYTES:
        report.add([too_large(report.add_source(name, "", Lines("")))])
        return None
    checker = Oddities(Text(data, report.words.most))
    file = report.add_source(name, checker.source.text, checker.source.lines)
    faults, odd = checker.check(), checker.oddities()
    is_long = report.words.form is not Form.SHORT
    found = of_exchange(file, checker, faults, odd, is_long)
    report.add(retold(checker.source.text, report.words.most, file, found) if is_long else found)
    report.add_left_out(name, {**checker.left_out(), **checker.odd_left_out()})
    return checker


def check_lines(report: Report, name: str, file: LineFile) -> None:
    file.check()
    number = report.add_source(name, file.text, file.lines)
    report.add(of_lines(number, file, report.words.form is not Form.SHORT))
    report.add_left_out(name, file.left_out())


def check_files(report: Report, names: Sequence[str], datas: Sequence[bytes]) -> None:
    checker = check_exchange(report, names[0], datas[0])
    if checker is None:
        return
    others, most = list(zip(names, datas))[1:], report.words.most
    signals = 0
    for place, (name, data) in enumerate(others):
        file: LineFile
        if place == 0:
            file = lines = signal_files.Signals(data, checker, most)
        elif place == 2 or len(others) == 2 and signal_files.begins_with_show(data):
            forlopps = signal_files.forlopps_of(lines) if place == 1 else None
            file = signal_files.Filter(data, checker, most, forlopps)
        else:
            file = signal_files.Table(data, checker, most, signals)
        check_lines(report, name, file)
        signals = getattr(file, "lines_of_signals", signals)


def check_change(report: Report, names: Sequence[str], datas: Sequence[bytes]) -> None:
    old, new = [check_exchange(report, name, data) for name, data in zip(names, datas)]
    if report.status == WRONG or old is None or new is None:
        return
    texts = [source.text for source in report.sources]
    report.add(of_change(change.Change(old, new).compare(), texts))


def help_text() -> str:
    words = "".join(f"  {word:<15} {what}\n" for word, what in TO_SWITCH_OFF.items())
    options = "".join(f"{row}\n" for row in rows(BY_NAME["plex-check"]))
    return f"{__doc__}\nOptions:\n{options}\nWords that --no takes:\n{words}"


def explained(word: str) -> List[str]:
    """What is told of a word, as lines with their ends."""
    known = explanations()
    found = known.get(word.upper())
    if not found:
        meant = near(word.upper(), known)
        words = f"; {meant} is one" if meant else f"; the words are {', '.join(known)}"
        raise Unusable(f"no word {quoted(word)} is told of a file{words}")
    return [f"{line}\n" for line in found.lines()]


def checked(words: Sequence[str]) -> Report:
    """What is told for these words."""
    given = read_words(words)
    report = Report(given)
    if given.help:
        report.told = [help_text()]
    elif given.version:
        report.told = [f"plex-check {VERSION}\n"]
    elif given.explain is not None:
        report.told = explained(given.explain)
    else:
        datas = [bytes_of(name) for name in given.files]
        (check_change if given.change else check_files)(report, given.files, datas)
    return report


def main() -> int:
    gc.disable()
    try:
        report = checked(sys.argv[1:])
    except Unusable as error:
        print(f"plex-check: {error}", file=sys.stderr)
        return UNREADABLE
    except MemoryError:
        print("plex-check: out of memory", file=sys.stderr)
        return UNREADABLE
    report.write()
    return report.status
