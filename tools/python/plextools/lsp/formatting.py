"""The one layout of a document, as an edit."""
from typing import Any, Dict, List

from plextools.lsp.diagnostics import line_end
from plextools.lsp.documents import Document, Kind, letters_of
from plextools.lsp.quick import common_end, common_start
from plextools.text import layout
from plextools.text.finding import Span


def edits(document: Document) -> List[Dict[str, Any]]:
    """The edit that gives a text its layout; a text with faults of its spelling stays as it is."""
    if document.kind is not Kind.EXCHANGE:
        return []
    try:
        formatted = layout.format_text(document.data).text
    except layout.OtherText:
        return []
    if formatted is None:
        return []
    ended = formatted.replace(b"\n", line_end(document).encode())
    return one_edit(document, ended.decode("latin-1"))


def one_edit(document: Document, new: str) -> List[Dict[str, Any]]:
    """The edit of the lines from the first to the last one that differs."""
    old = document.text
    if old == new:
        return []
    start = old.rfind("\n", 0, common_start(old, new)) + 1
    same = common_end(old, new, min(len(old), len(new)) - start)
    line_start = old.find("\n", len(old) - same) + 1
    behind = len(old) - line_start if line_start else 0
    span = Span(start, len(old) - behind)
    text = letters_of(new[start : len(new) - behind].encode("latin-1"))
    return [{"range": document.range(span), "newText": text}]
