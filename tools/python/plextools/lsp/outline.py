"""The outline of an exchange text, and what may be folded in it."""
from typing import Any, Dict, Iterator, List, Optional, Tuple

from plextools.lsp.documents import Document
from plextools.lsp.index import Declared, Index, Placed
from plextools.text.finding import Span

Json = Dict[str, Any]
MODULE, FIELD, FUNCTION, VARIABLE, KEY, STRUCT, EVENT = 2, 8, 12, 13, 20, 23, 24
KINDS = {"variable": VARIABLE, "temporary": VARIABLE, "label": KEY}


def symbols(document: Document, index: Index) -> List[Json]:
    """The signals, and the blocks with what they declare and enter."""
    found: List[Json] = []
    for placed in index.segments:
        for signal in placed.found.signals:
            detail = " ".join(index.clean[slice(*placed.span(signal.phrase))].split())
            found.append(symbol(document, placed, signal, EVENT, detail))
        if placed.found.is_block:
            found.append(of_block(document, placed))
    return found


def of_block(document: Document, placed: Placed) -> Json:
    block = placed.found.block
    selected = placed.span(block.span) if block else Span(placed.start, placed.start + 5)
    whole = Span(placed.start, max(placed.start + placed.found.end, selected.end))
    return {
        "name": placed.found.name or "BLOCK",
        "kind": MODULE,
        "range": document.range(whole),
        "selectionRange": document.range(selected),
        "children": list(children(document, placed)),
    }


def children(document: Document, placed: Placed) -> Iterator[Json]:
    """What a block declares, a file with its fields, and what it enters."""
    fields: Dict[str, List[Json]] = {}
    for declared in placed.found.order:
        if declared.kind == "field":
            field = symbol(document, placed, declared, FIELD, told(declared))
            fields.setdefault(declared.file, []).append(field)
    for declared in placed.found.order:
        if declared.kind == "file":
            inside = fields.pop(declared.name, [])
            yield with_fields(symbol(document, placed, declared, STRUCT, told(declared)), inside)
        elif declared.kind in KINDS:
            yield symbol(document, placed, declared, KINDS[declared.kind], told(declared))
    for alone in fields.values():
        yield from alone
    for line in placed.found.entered:
        span = document.range(placed.span(line.phrase))
        yield {
            "name": f"ENTER {line.name}",
            "kind": FUNCTION,
            "range": span,
            "selectionRange": span,
        }


def with_fields(file: Json, fields: List[Json]) -> Json:
    """A file that goes up to the end of its last field."""
    if not fields:
        return file
    whole = {"start": file["range"]["start"], "end": fields[-1]["range"]["end"]}
    return {**file, "range": whole, "children": fields}


def told(declared: Declared) -> str:
    if declared.kind == "file":
        words = "FORLOPP FILE" if declared.forlopp else "FILE"
        return f"{words} SIZE {declared.width}" if declared.width else words
    return f"WIDTH {declared.width}" if declared.width else declared.kind


def symbol(document: Document, placed: Placed, declared: Declared, kind: int, detail: str) -> Json:
    name = Span(declared.place, declared.place + len(declared.name))
    phrase = declared.phrase
    whole = Span(min(phrase.start, name.start), max(phrase.end, name.end))
    return {
        "name": declared.name,
        "kind": kind,
        "detail": detail,
        "range": document.range(placed.span(whole)),
        "selectionRange": document.range(placed.span(name)),
    }


# folding


def folds(document: Document, index: Index) -> List[Json]:
    """Blocks, their parts, entries, statements that hold others, and comments of several lines."""
    found: Dict[Tuple[int, int], Optional[str]] = {}
    for placed in index.segments:
        for start, end in parts(placed):
            first, last = document.line_of(start + placed.start), document.line_of(
                end + placed.start
            )
            if first < last:
                found.setdefault((first, last), None)
    for first, last in comments(document):
        found.setdefault((first, last), "comment")
    return [of_lines(first, last, kind) for (first, last), kind in sorted(found.items())]


def of_lines(first: int, last: int, kind: Optional[str]) -> Json:
    fold: Json = {"startLine": first, "endLine": last}
    return {**fold, "kind": kind} if kind else fold


def parts(placed: Placed) -> Iterator[Tuple[int, int]]:
    found = placed.found
    if found.is_block:
        last = max(found.end - 1, 0)
        yield 0, last
        if found.program is not None:
            yield found.program, last
        starts = [line.phrase.start for line in found.entered]
        for start, following in zip(starts, [*starts[1:], found.end]):
            yield start, max(start, following - 1)
    for fold in found.folds:
        yield fold.start, fold.end


def comments(document: Document) -> Iterator[Tuple[int, int]]:
    """Runs of lines that are comments alone."""
    first = None
    lines = document.data.split(b"\n") if b"\r" not in document.data else document.data.splitlines()
    for number, line in enumerate([*lines, b""]):
        if line.lstrip(b" \t")[:1] == b"!":
            first = number if first is None else first
        elif first is not None:
            if number - 1 > first:
                yield first, number - 1
            first = None
