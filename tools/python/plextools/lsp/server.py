"""The methods of the language server.

Notifications change the documents at once. A request is answered by a thread of its own, about the
documents as they were when it came.
"""
from concurrent.futures import Future
from functools import partial
from typing import Any, Callable, Dict, List, Optional

from plextools import VERSION
from plextools.lsp import completion, diagnostics, formatting, hover, names, outline, semantic
from plextools.lsp.checks import Checks
from plextools.lsp.documents import Document, Kind, bytes_of
from plextools.lsp.index import Placed
from plextools.lsp.protocol import (
    CONTENT_MODIFIED,
    INVALID_PARAMETERS,
    REQUEST_FAILED,
    Connection,
    Json,
    error,
)
from plextools.lsp.verdicts import Asking, Verdicts
from plextools.lsp.workspace import Workspace
from plextools.text.finding import Span

INCREMENTAL = 2
CAPABILITIES: Json = {
    "positionEncoding": "utf-16",
    "textDocumentSync": {
        "openClose": True,
        "change": INCREMENTAL,
        "save": {"includeText": False},
    },
    "hoverProvider": True,
    "completionProvider": {"triggerCharacters": [" ", "("], "resolveProvider": False},
    "definitionProvider": True,
    "referencesProvider": True,
    "documentHighlightProvider": True,
    "documentSymbolProvider": True,
    "documentFormattingProvider": True,
    "codeActionProvider": {"codeActionKinds": ["quickfix"]},
    "codeLensProvider": {"resolveProvider": False},
    "renameProvider": {"prepareProvider": True},
    "foldingRangeProvider": True,
    "semanticTokensProvider": {"legend": semantic.LEGEND, "full": True, "range": True},
}
PARAMETERS = ("position", "range", "newName", "line", "character", "start", "end")
NO_TOKENS: Json = {"data": []}
Work = Callable[[Document, Json], Any]


class Server:
    """Answers a client."""

    def __init__(self) -> None:
        self.workspace = Workspace()
        self.connection: Optional[Connection] = None
        self.has_ended = self.with_snippets = False
        self.checks = Checks(self.workspace, self.publish)
        self.asking = Asking(self.workspace)

    def methods(self) -> Dict[str, Callable[[Any], Any]]:
        """All methods by their names."""
        return {
            "initialize": self.initialize,
            "initialized": nothing,
            "shutdown": self.shutdown,
            "exit": self.exit,
            "$/setTrace": nothing,
            "textDocument/didOpen": self.did_open,
            "textDocument/didChange": self.did_change,
            "textDocument/didClose": self.did_close,
            "textDocument/didSave": self.did_save,
            "workspace/didChangeConfiguration": nothing,
            "workspace/didChangeWatchedFiles": self.did_save,
            "textDocument/codeLens": self.code_lens,
            **{
                f"textDocument/{name}": self.request(work)
                for name, work in {
                    "codeAction": self.code_action,
                    "completion": self.completion,
                    "definition": self.definition,
                    "documentHighlight": self.document_highlight,
                    "documentSymbol": self.document_symbol,
                    "foldingRange": self.folding_range,
                    "formatting": self.formatting,
                    "hover": self.hover,
                    "prepareRename": self.prepare_rename,
                    "references": self.references,
                    "rename": self.rename,
                    "semanticTokens/full": self.semantic_tokens,
                    "semanticTokens/range": self.semantic_tokens,
                }.items()
            },
        }

    def publish(self, parameters: Json) -> None:
        if self.connection:
            self.connection.notify("textDocument/publishDiagnostics", parameters)

    # the life of the server

    def initialize(self, parameters: Any) -> Json:
        given = parameters if isinstance(parameters, dict) else {}
        options = given.get("initializationOptions")
        if isinstance(options, dict) and isinstance(options.get("exchange"), str):
            self.workspace.named = options["exchange"]
        item = given.get("capabilities")
        for part in ("textDocument", "completion", "completionItem", "snippetSupport"):
            item = item.get(part) if isinstance(item, dict) else None
        self.with_snippets = item is True
        info = {"name": "plex-lsp", "version": VERSION}
        return {"capabilities": CAPABILITIES, "serverInfo": info}

    def shutdown(self, _: Any) -> None:
        self.has_ended = True
        self.checks.end()
        self.asking.end()

    def exit(self, _: Any) -> None:
        if self.connection:
            self.connection.is_over = True

    # documents

    def did_open(self, parameters: Json) -> None:
        given = parameters["textDocument"]
        version = given.get("version")
        data = bytes_of(str(given["text"]))
        language = str(given.get("languageId", ""))
        self.put(Document(str(given["uri"]), language, version, data))
        self.ask_line_files()

    def did_change(self, parameters: Json) -> None:
        given = parameters["textDocument"]
        document = self.workspace.documents.get(given["uri"])
        if document is not None:
            self.put(document.changed(given.get("version"), parameters["contentChanges"]))

    def put(self, document: Document) -> None:
        self.workspace.open(document)
        self.checks.ask(document.uri)

    def did_close(self, parameters: Json) -> None:
        uri = parameters["textDocument"]["uri"]
        self.workspace.close(uri)
        self.checks.forget(uri)
        self.asking.forget(uri)
        self.publish({"uri": uri, "diagnostics": []})
        self.ask_line_files()

    def did_save(self, _: Any) -> None:
        """The exchange text of a file of lines may have changed on the disk."""
        self.ask_line_files()

    def ask_line_files(self) -> None:
        for document in list(self.workspace.documents.values()):
            if document.kind is not Kind.EXCHANGE:
                self.checks.ask(document.uri)

    # requests

    def request(self, work: Work) -> Callable[[Any], Any]:
        """A method that answers about an open document; None where it is not open."""

        def method(parameters: Any) -> Any:
            document = self.document_of(parameters)
            if document is None:
                return None
            assert self.connection
            return self.connection.later(partial(answered, work, document, parameters))

        return method

    def document_of(self, parameters: Any) -> Optional[Document]:
        try:
            return self.workspace.documents.get(parameters["textDocument"]["uri"])
        except (KeyError, TypeError) as wrong:
            raise error(INVALID_PARAMETERS, "the document is missing") from wrong

    def code_action(self, document: Document, parameters: Json) -> List[Json]:
        only = parameters.get("context", {}).get("only")
        if only and not any("quickfix".startswith(kind) for kind in only):
            return []
        judgement = self.workspace.judgement(document)
        return diagnostics.fixes(judgement, document.span(parameters["range"]))

    def completion(self, document: Document, parameters: Json) -> Optional[List[Json]]:
        if document.kind is not Kind.EXCHANGE:
            return None
        workspace, place = self.workspace, document.place(parameters["position"])
        index, known = workspace.index(document), workspace.known(document)
        with workspace.indexing:
            return completion.completions(document, index, known, place, self.with_snippets)

    def definition(self, document: Document, parameters: Json) -> Optional[Json]:
        place = document.place(parameters["position"])
        return names.definition(self.workspace, document, place)

    def document_highlight(self, document: Document, parameters: Json) -> List[Json]:
        place = document.place(parameters["position"])
        return names.highlights(self.workspace, document, place)

    def document_symbol(self, document: Document, _: Json) -> List[Json]:
        if document.kind is not Kind.EXCHANGE:
            return []
        return outline.symbols(document, self.workspace.index(document))

    def folding_range(self, document: Document, _: Json) -> List[Json]:
        if document.kind is not Kind.EXCHANGE:
            return []
        return outline.folds(document, self.workspace.index(document))

    def formatting(self, document: Document, _: Json) -> List[Json]:
        return formatting.edits(document)

    def hover(self, document: Document, parameters: Json) -> Optional[Json]:
        place = document.place(parameters["position"])
        return hover.hover(self.workspace, document, place, self.lines_of_entry)

    def lines_of_entry(self, document: Document, signal: str, block: str) -> List[str]:
        """What is told of an entry, where the program has been asked."""
        verdicts = self.asking.at_hand(document)
        found = verdicts.of.get((signal, block)) if verdicts else None
        return list(found.lines()) if found else []

    def prepare_rename(self, document: Document, parameters: Json) -> Optional[Json]:
        place = document.place(parameters["position"])
        return names.prepared(self.workspace, document, place)

    def references(self, document: Document, parameters: Json) -> List[Json]:
        place = document.place(parameters["position"])
        context = parameters.get("context", {})
        with_declaration = bool(context.get("includeDeclaration", True))
        return names.references(self.workspace, document, place, with_declaration)

    def rename(self, document: Document, parameters: Json) -> Json:
        place = document.place(parameters["position"])
        return names.rename(self.workspace, document, place, str(parameters["newName"]))

    def semantic_tokens(self, document: Document, parameters: Json) -> Json:
        if document.kind is not Kind.EXCHANGE:
            return NO_TOKENS
        asked = parameters.get("range")
        span = document.span(asked) if asked else None
        return semantic.tokens(document, self.workspace.index(document), span)

    # code lens

    def code_lens(self, parameters: Any) -> Any:
        """A lens over each entry, once the program has told of it."""
        document = self.document_of(parameters)
        if document is None or document.kind is not Kind.EXCHANGE:
            return []
        lenses: "Future[List[Json]]" = Future()
        give = partial(self.give_lenses, document, lenses)
        self.asking.ask(document).add_done_callback(give)
        return lenses

    def give_lenses(
        self,
        document: Document,
        lenses: "Future[List[Json]]",
        answer: "Future[Optional[Verdicts]]",
    ) -> None:
        wrong = answer.exception()
        if wrong is not None:
            lenses.set_exception(error(CONTENT_MODIFIED, "the text has been changed"))
            return
        verdicts = answer.result()
        try:
            lenses.set_result(list(self.lenses(document, verdicts)) if verdicts else [])
        except Exception as other:  # whatever it is, the client waits for an answer
            lenses.set_exception(other)

    def lenses(self, document: Document, verdicts: Verdicts) -> List[Json]:
        index = self.workspace.index(document)
        return [
            lens
            for placed in index.segments
            for lens in lenses_of_block(document, placed, verdicts)
        ]


def lenses_of_block(document: Document, placed: Placed, verdicts: Verdicts) -> List[Json]:
    found = []
    for line in placed.found.entered:
        entry = verdicts.of.get((line.name, placed.found.name))
        if entry is not None:
            span = placed.span(Span(line.phrase.start, line.phrase.start + len("ENTER")))
            command = {"title": entry.title(), "command": ""}
            found.append({"range": document.range(span), "command": command})
    return found


def nothing(_: Any) -> None:
    """What needs no answer and changes nothing."""


def answered(work: Work, document: Document, parameters: Json) -> Any:
    """The answer of a request; what is wrong with it is told in words."""
    try:
        return work(document, parameters)
    except names.Refused as refused:
        raise error(REQUEST_FAILED, str(refused)) from refused
    except KeyError as wrong:
        if wrong.args and wrong.args[0] in PARAMETERS:
            raise error(INVALID_PARAMETERS, f"{wrong.args[0]} is missing") from wrong
        raise
