"""plex-step [OPTION ...] E S [T]

A debugger for the run of the exchange text E and the signal file S. It steps forward and backward:
by statements, signals and jobs, to a line, or to a store to a name. With a table of periodic
signals T the run is that of both, merged. Commands are read from standard input; help lists them.

With -x or -e the session ends after the last of these commands, and the output depends only on the
files. An invalid command ends it there, with the status 1.
"""
import argparse
import contextlib
import os
import signal
import sys
import tempfile
from typing import Iterable, Iterator, List, NamedTuple, Optional

from plextools import limits, programs, tables
from plextools.commands import check as checker
from plextools.commands.command_words import described
from plextools.commands.step_session import BY_NAME, INFOS, Ended, Refused, Session
from plextools.runs import check, choice
from plextools.runs.signals import lines_of
from plextools.text.finding import Severity
from plextools.text.statements import Text

PROMPT = "(plex) "
WRONG_COMMAND = 1
WAKE = 0.2  # seconds after which an interrupt is heeded at the latest while a line is edited
NOTHING = contextlib.nullcontext()


class Given(argparse.Namespace):
    """The words of the command."""

    exchange: str
    signals: str
    table: Optional[str]
    scripts: Optional[List["Source"]]
    limit: int


class Source(NamedTuple):
    """Commands that are given by a word: a file of them, or one."""

    is_file: bool
    word: str

    def commands(self) -> Iterator[str]:
        if not self.is_file:
            yield self.word
            return
        content = programs.bytes_of(self.word)
        for line in content.decode("utf-8", "backslashreplace").splitlines():
            if line.strip() and not line.lstrip().startswith("!"):
                yield line.strip()


def parser() -> programs.Words:
    """Reads the words of the command."""
    words = programs.Words(__doc__)
    words.add_argument("exchange", metavar="E")
    words.add_argument("signals", metavar="S")
    words.add_argument("table", metavar="T", nargs="?")
    words.add_argument("-x", dest="scripts", action="append", type=lambda word: Source(True, word))
    words.add_argument("-e", dest="scripts", action="append", type=lambda word: Source(False, word))
    words.add_argument(
        "--limit", type=programs.number_to(limits.MOST_JOBS), default=limits.USUAL_JOBS
    )
    return described(words)


def told_faults(names: List[str]) -> bool:
    """Tells the faults of files as plex-check does; whether there are any."""
    report = checker.Report(checker.read_words(names))
    checker.check_files(report, names, [programs.bytes_of(name) for name in names])
    faults = [one for one in report.findings if one.severity is Severity.ERROR]
    report.findings = faults
    report.write()
    return bool(faults)


def run_of(given: Given, folder: str) -> choice.Run:
    """The run, whose files plex accepts. What is merged stands in a file of the folder."""
    content, signals = programs.bytes_of(given.exchange), given.signals
    if given.table:
        merged = programs.answer([given.exchange, signals, given.table], of="plex-merge")
        signals = os.path.join(folder, "merged")
        with open(signals, "wb") as file:
            file.write(merged)
    words = ["run", given.exchange, signals, "--workers", "1", "--jobs", "1"]
    programs.answer(words, programs.ENDINGS)
    text = Text(given.exchange, content)
    lines = lines_of(text, programs.bytes_of(signals))
    return choice.Run(given.exchange, signals, text, lines, given.limit)


def complete(session: Session, word: str, place: int) -> Optional[str]:
    """The word of this number that may be meant by the begin of one."""
    text = session.stepper.run.text
    names = {name for _, name in session.names.layout.variables}
    names |= {name for _, name in [*session.names.layout.field_of, *session.names.layout.file_of]}
    every = [*BY_NAME, *INFOS, *sorted(names | set(text.signals) | set(session.names.blocks))]
    found = [one for one in every if one.startswith(word) or one.startswith(word.upper())]
    return found[place] if place < len(found) else None


class Interrupts:
    """Ctrl-C on a terminal: raised while a line is edited or a command runs, once in each of these,
    and kept until the next one where it comes between them. Elsewhere it is raised at once.
    """

    def __init__(self, is_terminal: bool) -> None:
        self.is_heeded = self.is_kept = False
        if is_terminal and signal.getsignal(signal.SIGINT) is signal.default_int_handler:
            signal.signal(signal.SIGINT, self.come)

    def come(self, *_: object) -> None:
        self.is_kept = True
        self.heed()

    def heed(self, *_: object) -> None:
        """Raises what is kept, where it is heeded."""
        if self.is_heeded and self.is_kept:
            self.is_heeded = self.is_kept = False
            raise KeyboardInterrupt

    @contextlib.contextmanager
    def heeded(self) -> Iterator[None]:
        self.is_heeded = True
        try:
            self.heed()
            yield
        finally:
            self.is_heeded = False

    @contextlib.contextmanager
    def kept(self) -> Iterator[None]:
        """Keeps it within `heeded`, for what readline calls: an exception would be lost there."""
        before, self.is_heeded = self.is_heeded, False
        try:
            yield
        finally:
            self.is_heeded = before

    @contextlib.contextmanager
    def waking(self) -> Iterator[None]:
        """Ends each wait for a key after a moment, by an alarm.

        An interrupt that comes just before readline begins to wait would be heeded with the next
        key.
        """
        before = signal.signal(signal.SIGALRM, self.heed)
        signal.setitimer(signal.ITIMER_REAL, WAKE, WAKE)
        try:
            yield
        finally:
            signal.setitimer(signal.ITIMER_REAL, 0)
            signal.signal(signal.SIGALRM, before)


def edits_lines(session: Session, interrupts: Interrupts) -> None:
    """Has the lines of a terminal edited, where that is built in."""
    with contextlib.suppress(ImportError):
        import readline

        def completed(word: str, place: int) -> Optional[str]:
            with interrupts.kept():
                return complete(session, word, place)

        readline.set_completer(completed)
        readline.set_completer_delims(" ()")
        readline.parse_and_bind("tab: complete")


def typed(session: Session, interrupts: Interrupts, is_terminal: bool) -> Iterator[str]:
    """The lines of the standard input."""
    if is_terminal:
        edits_lines(session, interrupts)
    while True:
        try:
            with interrupts.heeded(), interrupts.waking() if is_terminal else NOTHING:
                line = input(PROMPT if is_terminal else "")
        except (KeyboardInterrupt, SystemError) as raised:
            if not is_interrupt(raised):
                raise
            print()
            continue
        except EOFError:
            return
        yield line


def is_interrupt(raised: BaseException) -> bool:
    """Whether it is an interrupt, or the complaint of `input` that another signal came with it:
    `input` has the handler of that one called although an exception is raised already.
    """
    return any(isinstance(one, KeyboardInterrupt) for one in (raised, raised.__cause__))


def write(lines: Iterable[str]) -> None:
    for line in lines:
        print(line)


def ask(
    session: Session, interrupts: Interrupts, lines: Iterable[str], is_echoed: bool
) -> Iterator[str]:
    """Does commands one after the other, and gives what is wrong with them."""
    for line in lines:
        if is_echoed:
            print(f"{PROMPT}{tables.printed(line)}".rstrip())
        try:
            with interrupts.heeded():
                write(session.do(line))
        except Refused as refused:
            print(refused)
            yield str(refused)
        except KeyboardInterrupt:
            print("stopped")
            session.stepper.go(session.stepper.place)


def talk(given: Given, session: Session) -> int:
    """Takes the commands of the words, or those of the standard input."""
    is_terminal = sys.stdin.isatty() and not given.scripts
    interrupts = Interrupts(is_terminal)
    write(session.begun())
    if given.scripts:
        lines = [line for source in given.scripts for line in source.commands()]
        wrong = next(ask(session, interrupts, lines, True), None)
        return WRONG_COMMAND if wrong is not None else 0
    for _ in ask(session, interrupts, typed(session, interrupts, is_terminal), not is_terminal):
        pass
    return 0


def main() -> int:
    """Runs the command."""
    given = parser().parse_args(namespace=Given())
    with tempfile.TemporaryDirectory() as folder:
        try:
            run = run_of(given, folder)
        except programs.Wrong as wrong:
            names = [given.exchange, given.signals, *([given.table] if given.table else [])]
            if wrong.refused and told_faults(names):
                return wrong.status
            raise
        try:
            return talk(given, Session(run, programs.bytes_of(given.exchange)))
        except Ended:
            return 0
        except check.Different as different:
            raise check.refused(different) from different
