"""Checks documents in a thread of its own, a moment after the last key, and publishes what is told.

A check of a text that has been changed meanwhile is given up. In a long text the faults near the
edit are told first; then the whole text is looked at. The garbage collector runs behind checks, not
in them, so that it delays no answer.
"""
import contextlib
import gc
import time
from typing import Any, Callable, Dict, Iterator, List, Optional

from plextools.lsp.background import Background
from plextools.lsp.diagnostics import published
from plextools.lsp.documents import Document, Kind
from plextools.lsp.judging import LARGEST_AT_ONCE, MOST, Judgement
from plextools.lsp.quick import Told, near_edit
from plextools.lsp.workspace import Workspace
from plextools.text.findings import by_cause

PAUSE = 0.05  # seconds without a key before a check
PAUSE_OF_WHOLE = 0.4  # before a long text is looked at as a whole
UNKNOWN = {
    "range": {"start": {"line": 0, "character": 0}, "end": {"line": 0, "character": 0}},
    "severity": 3,
    "code": "NOEXCHANGE",
    "source": "plex",
    "message": "no exchange text is known for this file, so its names are not looked up: the only"
    " text *.plex of its folder is taken, exchange.plex, or that of the same name",
}


class Stale(Exception):
    """A document has been changed while it was checked."""


@contextlib.contextmanager
def without_collections() -> Iterator[None]:
    """The garbage collector does not run until the end of a check, and then where it is short."""
    gc.disable()
    try:
        yield
    finally:
        gc.enable()
        gc.collect(0)


class Checks(Background):
    """The thread that checks."""

    def __init__(self, workspace: Workspace, publish: Callable[[Dict[str, Any]], None]) -> None:
        self.workspace, self.publish = workspace, publish
        self.due: Dict[str, float] = {}
        # what the last check of the whole text told, and what was told last
        self.whole: Dict[str, Told] = {}
        self.last: Dict[str, Told] = {}
        super().__init__(self.due, self.whole, self.last)
        self.start()

    def ask(self, uri: str, pause: float = PAUSE) -> None:
        """Has a document checked after a pause."""
        with self.changed:
            self.due[uri] = time.monotonic() + pause
            self.changed.notify()

    def work(self) -> None:
        while True:
            uri = self.next()
            if uri is None:
                return
            document = self.workspace.documents.get(uri)
            if document is None:
                continue
            with contextlib.suppress(Stale), without_collections():
                self.check(document)

    def next(self) -> Optional[str]:
        """Waits for the next document that is due; None at the end."""
        with self.changed:
            while not self.is_over:
                now = time.monotonic()
                ready = [uri for uri, due in self.due.items() if due <= now]
                if ready:
                    del self.due[ready[0]]
                    return ready[0]
                self.changed.wait(min(self.due.values()) - now if self.due else None)
        return None

    def watch_of(self, document: Document) -> Callable[[], None]:
        def watch() -> None:
            if not self.workspace.is_current(document):
                raise Stale

        return watch

    def check(self, document: Document) -> None:
        watch = self.watch_of(document)
        is_long = document.kind is Kind.EXCHANGE and len(document.data) > LARGEST_AT_ONCE
        if is_long:
            self.tell_near_edit(document)
            self.wait(document, watch)
        judgement = self.workspace.judgement(document, watch)
        if document.kind is Kind.EXCHANGE:
            told = Told(document.text, judgement.findings)
            self.whole[document.uri] = self.last[document.uri] = told
            for dependent in self.workspace.dependents(document):
                self.ask(dependent.uri, 0)
        self.tell(judgement)
        if is_long:
            gc.collect()

    def wait(self, document: Document, watch: Callable[[], None]) -> None:
        """Waits a while for further keys, if faults near an edit were told before."""
        end = time.monotonic() + PAUSE_OF_WHOLE
        with self.changed:
            while document.uri in self.whole and time.monotonic() < end and not self.is_over:
                watch()
                self.changed.wait(end - time.monotonic())
        watch()

    def tell_near_edit(self, document: Document) -> None:
        """Tells what is known near an edit: all edits since the whole text was looked at, or the
        last one alone where they are far from each other. Of a text of which nothing has been told
        yet, the faults near its first edit are the first that are told.
        """
        nothing = Told(document.text, [])
        last = self.last.setdefault(document.uri, nothing)
        if last is nothing:
            return
        for old in (self.whole.get(document.uri), last):
            found = near_edit(old, document.text, MOST) if old else None
            if found is not None:
                told = by_cause(found)
                self.last[document.uri] = Told(document.text, told)
                self.tell(Judgement(document, told))
                return

    def tell(self, judgement: Judgement) -> None:
        is_alone = judgement.document.kind is not Kind.EXCHANGE and judgement.exchange is None
        parameters = published(judgement)
        if is_alone:
            told: List[Any] = [*parameters["diagnostics"], UNKNOWN]
            parameters["diagnostics"] = told
        with self.workspace.changing:
            if self.workspace.is_current(judgement.document):
                self.publish(parameters)
