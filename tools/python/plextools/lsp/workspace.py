"""The documents that are open, and the exchange text of each file of lines."""
import threading
from typing import Dict, List, Optional

from plextools.lsp.documents import Document, Kind, path_of, uri_of
from plextools.lsp.index import Index, Known
from plextools.lsp.judging import Judgement, exchange_path, of_line_file, of_text
from plextools.limits import MOST_BYTES
from plextools.text.tree import Watch, nothing
from plextools.text.ways import KnownWays


class Workspace:
    """The documents by their URIs, and what is known of their present versions."""

    def __init__(self) -> None:
        self.documents: Dict[str, Document] = {}
        self.named: Optional[str] = None  # the exchange text that the client names
        # held while documents change, and while something is told of one
        self.changing = threading.RLock()
        self.judging, self.indexing = threading.RLock(), threading.RLock()
        self.judged: Dict[str, Judgement] = {}
        self.indexed: Dict[str, "Indexed"] = {}
        self.ways: Dict[str, KnownWays] = {}  # what the ways through their blocks told last

    def is_current(self, document: Document) -> bool:
        return self.documents.get(document.uri) is document

    def open(self, document: Document) -> None:
        with self.changing:
            self.documents[document.uri] = document

    def close(self, uri: str) -> None:
        with self.changing:
            self.documents.pop(uri, None)
        self.judged.pop(uri, None)
        self.indexed.pop(uri, None)
        self.ways.pop(uri, None)

    # exchange texts

    def exchange_of(self, document: Document) -> Optional[Document]:
        """The exchange text of a file of lines, as it is open or else as it is on the disk."""
        path = path_of(document.uri)
        named = self.named or (path and exchange_path(path))
        wanted = {named, path_of(named) or named} if named else set()
        opened = [one for one in self.documents.values() if one.kind is Kind.EXCHANGE]
        for one in opened:
            if wanted & {one.uri, path_of(one.uri)}:
                return one
        if named:
            return self.read(path_of(named) or named)
        return opened[0] if len(opened) == 1 else None

    def read(self, path: str) -> Optional[Document]:
        """A text on the disk, as one that is never changed while it stays the same."""
        try:
            with open(path, "rb") as file:
                data = file.read(MOST_BYTES + 1)
        except (OSError, ValueError):
            return None
        uri = uri_of(path)
        known = self.judged.get(uri)
        if known and known.document.data == data:
            return known.document
        return Document(uri, "plex-exchange", None, data)

    def dependents(self, exchange: Document) -> List[Document]:
        """The open files of lines that belong to an exchange text."""
        return [
            document
            for document in list(self.documents.values())
            if document.kind is not Kind.EXCHANGE and self.exchange_of(document) is exchange
        ]

    # what is known of a document

    def judgement(self, document: Document, watch: Watch = nothing) -> Judgement:
        """What is told of a document; it is found once for each version."""
        exchange = None
        if document.kind is not Kind.EXCHANGE:
            text = self.exchange_of(document)
            exchange = self.judgement(text, watch) if text else None
        with self.judging:
            known = self.judged.get(document.uri)
            if known and known.document is document:
                if known.exchange is (exchange.document if exchange else None):
                    return known
            if document.kind is Kind.EXCHANGE:
                found = of_text(document, watch, self.ways_of(document))
            else:
                found = of_line_file(document, exchange)
            self.judged[document.uri] = found
            return found

    def ways_of(self, document: Document) -> KnownWays:
        """What is known of the blocks of an exchange text, for who holds `judging`."""
        return self.ways.setdefault(document.uri, KnownWays())

    def index(self, document: Document) -> Index:
        """The names of an exchange text; what stayed the same is not read again."""
        with self.indexing:
            known = self.indexed.setdefault(document.uri, Indexed())
            if known.document is not document or known.index is None:
                known.index = Index(document.data, known.known)
                known.document = document
            return known.index

    def known(self, document: Document) -> Known:
        """What was read of a document, for who holds `indexing`."""
        return self.indexed.setdefault(document.uri, Indexed()).known


class Indexed:
    """The names of a document, and what was read of its earlier versions."""

    def __init__(self) -> None:
        self.document: Optional[Document] = None
        self.index: Optional[Index] = None
        self.known = Known()
