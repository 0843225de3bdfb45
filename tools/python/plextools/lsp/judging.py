"""What is told of a document, as plex-check tells it."""
import os
import pathlib
from typing import List, NamedTuple, Optional, Sequence

from plextools.limits import MOST_BYTES
from plextools.lsp.documents import Document, Kind
from plextools.text import signal_files
from plextools.text.faults import Fault
from plextools.text.finding import Finding, Severity
from plextools.text.findings import NO_ADVICE, by_cause, of_exchange, of_lines
from plextools.text.retelling import retold
from plextools.text.signal_files import LineFile
from plextools.text.tokens import Text, Told
from plextools.text.tree import Watch
from plextools.text.warnings import Oddities
from plextools.text.ways import KnownWays, odd_ways

MOST = 100  # faults of each word that are told
LARGEST_RETOLD = 2**16  # bytes of a text whose faults are told by their causes
LARGEST_AT_ONCE = 2**16  # bytes of a text that is looked at as a whole at once
# What can be told of a file of lines without its exchange text.
ALONE = ("BADLINE", "FALLINGCOUNT", "BADAS", "BADRANGE", "TOOMANY", "TOOLARGE", "ODDAS")


class Judgement(NamedTuple):
    """What is told of a document. Notes of a file of lines may be about `exchange`."""

    document: Document
    findings: List[Finding]
    checker: Optional[Oddities] = None
    exchange: Optional[Document] = None

    @property
    def has_errors(self) -> bool:
        return any(one.severity is Severity.ERROR for one in self.findings)


class Watched(Oddities):
    """A checker that asks at each piece of the text whether it is still wanted."""

    def __init__(self, source: Text, watch: Watch, ways: Optional[KnownWays]) -> None:
        super().__init__(source)
        self.watch, self.ways = watch, ways

    def known_piece(self, clean: str, at: int, end: int) -> None:
        self.watch()
        super().known_piece(clean, at, end)

    def new_piece(self, at: int, end: int, key: Optional[str] = None) -> None:
        self.watch()
        super().new_piece(at, end, key)

    def ways_of(self, clean: str) -> List[Told]:
        return odd_ways(clean, self.watch, self.ways)


def of_text(document: Document, watch: Watch, ways: Optional[KnownWays] = None) -> Judgement:
    """What is told of an exchange text. `watch` raises what ends the check, and `ways` has what is
    known of blocks that have not changed.
    """
    if len(document.data) > MOST_BYTES:
        sentence = f"the text has more than {MOST_BYTES:,} bytes: cut comments and blanks"
        told = Finding(0, None, "TOOLARGE", Severity.ERROR, sentence, NO_ADVICE)
        return Judgement(document, [told])
    checker = Watched(Text(document.data, MOST), watch, ways)
    faults: Sequence[Fault] = checker.check()
    found = of_exchange(0, checker, faults, checker.oddities(), True)
    if len(document.data) <= LARGEST_RETOLD:
        watch()
        found = retold(checker.source.text, MOST, 0, found)
    return Judgement(document, by_cause(found), checker)


def of_line_file(document: Document, exchange: Optional[Judgement]) -> Judgement:
    """What is told of a signal file, a table or a filter, beside its exchange text."""
    known = exchange.checker if exchange else None
    checker = known or Oddities(Text(b"", MOST))
    if known is None:
        checker.check()
    lines: LineFile
    if document.kind is Kind.SIGNALS:
        lines = signal_files.Signals(document.data, checker, MOST)
    elif document.kind is Kind.TABLE:
        lines = signal_files.Table(document.data, checker, MOST, 0)
    else:
        lines = signal_files.Filter(document.data, checker, MOST)
    lines.check()
    found = by_cause(of_lines(1, lines, True))
    if known is None:
        found = [one for one in found if one.word in ALONE]
    return Judgement(document, found, None, exchange.document if exchange else None)


def exchange_path(path: str) -> Optional[str]:
    """The exchange text to which a file of lines belongs: that of the same name in its folder, or
    `exchange.plex`, or the only one there.
    """
    folder = pathlib.Path(path).parent
    try:
        names = sorted(name for name in os.listdir(folder) if name.endswith(".plex"))
    except (OSError, ValueError):
        return None
    for name in (pathlib.Path(path).stem + ".plex", "exchange.plex"):
        if name in names:
            return str(folder / name)
    return str(folder / names[0]) if len(names) == 1 else None
