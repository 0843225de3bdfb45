"""Findings as diagnostics and as quick fixes of the protocol."""
from typing import Any, Dict, Iterator, List, Optional, Sequence

from plextools.lsp.documents import Document, Kind, letters_of
from plextools.lsp.judging import Judgement
from plextools.text.finding import Edit, Finding, Severity, Span

SEVERITIES = {Severity.ERROR: 1, Severity.WARNING: 2, Severity.NOTE: 3}
HINT, UNNECESSARY = 4, 1
UNUSED = ("UNUSED", "UNREACHED")
Json = Dict[str, Any]


def of_judgement(judgement: Judgement) -> List[Json]:
    """All diagnostics of a document."""
    return [one for finding in judgement.findings for one in of_finding(finding, judgement)]


def of_finding(finding: Finding, judgement: Judgement) -> Iterator[Json]:
    """A finding, and a hint at each other place that it is about."""
    document = judgement.document
    told = diagnostic(document, span_of(finding), finding.word, message(finding))
    told["severity"] = SEVERITIES[finding.severity]
    if finding.word in UNUSED:
        told["tags"] = [UNNECESSARY]
    related = [
        {"location": {"uri": of.uri, "range": of.range(note.span)}, "message": note.sentence}
        for note in finding.advice.notes
        for of in document_of(note.file, judgement)
    ]
    if related:
        told["relatedInformation"] = related
    yield told
    line = document.position(span_of(finding).start)["line"] + 1
    for span in finding.others:
        same = f"{finding.sentence} (told of line {line} too)"
        other = diagnostic(document, span, finding.word, same)
        other["severity"] = HINT if finding.severity is not Severity.ERROR else 1
        yield other


def document_of(file: int, judgement: Judgement) -> Iterator[Document]:
    """The document of a note: of a file of lines the exchange text is number 0."""
    if judgement.document.kind is Kind.EXCHANGE or file == 1:
        yield judgement.document
    elif judgement.exchange is not None:
        yield judgement.exchange


def diagnostic(document: Document, span: Span, word: str, told: str) -> Json:
    return {"range": document.range(span), "code": word, "source": "plex", "message": told}


def message(finding: Finding) -> str:
    cure = finding.advice.cure
    return finding.sentence + (f"\nhelp: {cure}" if cure else "")


def span_of(finding: Finding) -> Span:
    """What is marked; a finding on the whole file marks its beginning."""
    return Span(0, 0) if finding.place is None else finding.advice.span


def meets(span: Span, other: Span) -> bool:
    return span.start <= other.end and other.start <= span.end


def fixes(judgement: Judgement, asked: Span) -> List[Json]:
    """The quick fixes of what is told in a part of a document."""
    found = []
    for finding in judgement.findings:
        spans = [span_of(finding), *finding.others]
        if finding.advice.edits and any(meets(span, asked) for span in spans):
            found.append(fix(finding, judgement))
    return found


def fix(finding: Finding, judgement: Judgement) -> Json:
    edits = finding.advice.edits
    return {
        "title": title(finding, judgement.document),
        "kind": "quickfix",
        "isPreferred": True,
        "diagnostics": list(of_finding(finding, judgement))[:1],
        "edit": edit_of(judgement.document, edits),
    }


def title(finding: Finding, document: Document) -> str:
    """What a quick fix does, in words."""
    if finding.advice.cure:
        return finding.advice.cure
    edit = finding.advice.edits[0]
    words = " ".join(edit.text.split())
    if words:
        return f"write {words}" if edit.end > edit.start else f"put in {words}"
    out = " ".join(document.text[edit.start : edit.end].split())
    return f"leave out {out}" if out else "leave it out"


def edit_of(document: Document, edits: Sequence[Edit]) -> Json:
    """Edits of one document, as a client makes them."""
    return {"changes": {document.uri: [text_edit(document, edit) for edit in edits]}}


def text_edit(document: Document, edit: Edit) -> Json:
    new = letters_of(edit.text.encode("latin-1")).replace("\n", line_end(document))
    return {"range": document.range(Span(edit.start, edit.end)), "newText": new}


def line_end(document: Document) -> str:
    """What ends the lines of a document."""
    return "\r\n" if b"\r\n" in document.data else "\n"


def published(judgement: Judgement, told: Optional[List[Json]] = None) -> Json:
    """The parameters of textDocument/publishDiagnostics."""
    document = judgement.document
    parameters: Json = {
        "uri": document.uri,
        "diagnostics": of_judgement(judgement) if told is None else told,
    }
    if document.version is not None:
        parameters["version"] = document.version
    return parameters
