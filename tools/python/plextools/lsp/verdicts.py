"""What plex-conflicts tells of the entries of a text, in a thread of its own.

Each answer is a future, which is there when the program has ended. It is None where the program is
missing or refuses the text. An answer about a text that has been changed meanwhile is given up.
"""
import os
import subprocess
import tempfile
from concurrent.futures import Future
from typing import Dict, Iterator, List, NamedTuple, Optional, Tuple

from plextools import programs
from plextools.analysis.conflicts import HEAD, PROGRAM
from plextools.analysis.lines import Analysis, NoAnalysis, read
from plextools.lsp.background import Background
from plextools.lsp.documents import Document
from plextools.lsp.workspace import Workspace

STEP, LONGEST, MOST_NAMED = 0.05, 600.0, 12


class Modified(Exception):
    """The text was changed before the answer was there."""


class Other(NamedTuple):
    """An entry that is kept apart from another one, and why."""

    name: str
    reasons: Tuple[str, ...]


class OfEntry(NamedTuple):
    """What is told of an entry: those with which it never runs together, and those with which it
    does so by tests.
    """

    never: List[Other]
    tested: List[Other]
    always: int

    def title(self) -> str:
        told = []
        if self.never:
            told.append(f"never together with {len(self.never)}")
        if self.tested:
            told.append(f"by tests with {len(self.tested)}")
        return ", ".join(told) or "together with every entry"

    def lines(self) -> Iterator[str]:
        """The same as lines of Markdown, with the entries and the reasons."""
        yield f"jobs of this entry: {self.title()}"
        for words, others in (("never together with", self.never), ("by tests with", self.tested)):
            for other in others[:MOST_NAMED]:
                yield f"- {words} {other.name}: {', '.join(other.reasons)}"
            if len(others) > MOST_NAMED:
                yield f"- {words} {len(others) - MOST_NAMED} more"


class Verdicts:
    """The verdicts of a text, by signal and block of each entry."""

    def __init__(self, analysis: Analysis) -> None:
        self.of: Dict[Tuple[str, str], OfEntry] = {}
        for entry in analysis.entries:
            self.of[entry.signal, entry.block] = of_entry(analysis, entry.number)


def of_entry(analysis: Analysis, number: int) -> OfEntry:
    never: List[Other] = []
    tested: List[Other] = []
    for other in analysis.entries:
        pairs = dict.fromkeys([(other.number, number), (number, other.number)])
        told = [verdict for verdict in map(lambda pair: analysis.verdict(*pair), pairs) if verdict]
        for is_never, others in ((True, never), (False, tested)):
            some = [verdict for verdict in told if verdict.is_never is is_never]
            if some and not (others is tested and len(some) < len(told)):
                reasons = dict.fromkeys(reason for one in some for reason in one.reasons)
                others.append(Other(other.name, tuple(reasons)))
    return OfEntry(never, tested, len(analysis.entries) - len(never) - len(tested))


class Asking(Background):
    """The thread that asks the program."""

    def __init__(self, workspace: Workspace) -> None:
        self.workspace = workspace
        self.known: Dict[str, Tuple[Document, "Future[Optional[Verdicts]]"]] = {}
        self.waiting: List[Tuple[Document, "Future[Optional[Verdicts]]"]] = []
        super().__init__(self.known)
        self.start()

    def ask(self, document: Document) -> "Future[Optional[Verdicts]]":
        """The answer about a document, which is asked for once."""
        with self.changed:
            known = self.known.get(document.uri)
            if known is not None and known[0] is document:
                return known[1]
            answer: "Future[Optional[Verdicts]]" = Future()
            self.known[document.uri] = document, answer
            self.waiting.append((document, answer))
            self.changed.notify()
            return answer

    def at_hand(self, document: Document) -> Optional[Verdicts]:
        """The answer about a document, if it is there."""
        known = self.known.get(document.uri)
        if known is None or known[0] is not document or not known[1].done():
            return None
        return None if known[1].exception() else known[1].result()

    def work(self) -> None:
        while True:
            with self.changed:
                while not self.waiting and not self.is_over:
                    self.changed.wait()
                if self.is_over:
                    return
                document, answer = self.waiting.pop(0)
            try:
                answer.set_result(self.verdicts(document))
            except Exception as wrong:  # whatever it is, who asked is to be told
                answer.set_exception(wrong)

    def verdicts(self, document: Document) -> Optional[Verdicts]:
        if self.workspace.judgement(document, lambda: self.look(document)).has_errors:
            return None
        try:
            path = programs.program(PROGRAM)
        except programs.Wrong:
            return None
        with tempfile.TemporaryDirectory(prefix="plex-lsp-") as folder:
            text, told = os.path.join(folder, "exchange.plex"), os.path.join(folder, "told")
            with open(text, "wb") as file:
                file.write(document.data)
            if not self.run([path, text], told, document):
                return None
            with open(told, "rb") as file:
                wrote = file.read()
        place = wrote.find(HEAD)
        try:
            return Verdicts(read(wrote[:place].split(b"\n"))) if place >= 0 else None
        except NoAnalysis:
            return None

    def run(self, words: List[str], told: str, document: Document) -> bool:
        """Runs the program, which ends where the text is changed meanwhile."""
        with open(told, "wb") as out, subprocess.Popen(
            words, stdin=subprocess.DEVNULL, stdout=out, stderr=subprocess.DEVNULL
        ) as process:
            try:
                waited = 0.0
                while waited < LONGEST:
                    self.look(document)
                    try:
                        return process.wait(STEP) == 0
                    except subprocess.TimeoutExpired:
                        waited += STEP
                return False
            finally:
                if process.poll() is None:
                    process.kill()

    def look(self, document: Document) -> None:
        if self.is_over or not self.workspace.is_current(document):
            raise Modified
