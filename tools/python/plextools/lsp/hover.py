"""What is shown of a name where the pointer rests on it."""
from typing import Any, Callable, Dict, Iterable, Iterator, List, Optional

from plextools.lsp.documents import Document
from plextools.lsp.index import Declared, Does, Index, Space
from plextools.lsp.names import Meant, meant_at
from plextools.lsp.workspace import Workspace

Json = Dict[str, Any]
OfEntry = Callable[[Document, str, str], List[str]]  # lines about an entry: its signal, its block


def hover(
    workspace: Workspace, document: Document, place: int, of_entry: OfEntry
) -> Optional[Json]:
    """What is told of the name at a place."""
    meant = meant_at(workspace, document, place)
    declared = meant.declared() if meant else None
    if meant is None or declared is None:
        return None
    lines = [*code(meant, declared), "", *ended(sentences(meant, declared))]
    signal, block = entry_at(meant)
    if signal:
        lines += ["", *of_entry(meant.exchange, signal, block)]
    value = "\n".join(lines).strip()
    return {
        "contents": {"kind": "markdown", "value": value},
        "range": document.range(meant.asked),
    }


def code(meant: Meant, declared: Declared) -> List[str]:
    """The declaration, as it stands in the text; of a block its first line."""
    if meant.space is Space.BLOCK:
        words = f"BLOCK {declared.name};"
    elif declared.kind == "label":
        words = f"{declared.name})"
    else:
        words = " ".join(meant.index.clean[slice(*declared.phrase)].split())
    return ["```plex", words.replace("`", "'"), "```"]


def ended(lines: Iterable[str]) -> Iterator[str]:
    """Lines of Markdown that stay lines."""
    return (f"{line}  " for line in lines)


def sentences(meant: Meant, declared: Declared) -> Iterator[str]:
    if meant.space is Space.SIGNAL:
        yield from of_signal(meant.index, declared)
    elif meant.space is Space.BLOCK:
        yield from of_block(meant.index, declared.name)
    else:
        yield from of_local(meant, declared)


def of_local(meant: Meant, declared: Declared) -> Iterator[str]:
    block = meant.block.found.name if meant.block else ""
    what = "FORLOPP FILE" if declared.forlopp else declared.kind
    owner = f" of file {declared.file}" if declared.file else ""
    yield f"{what}{owner} of block {block}".rstrip()
    if declared.kind in ("variable", "field") and declared.width and len(declared.width) < 3:
        width = int(declared.width)
        if 1 <= width <= 32:
            yield f"values 0 to {2 ** width - 1}"
    elif declared.kind == "file" and declared.width:
        yield f"records 0 to {max(int(declared.width), 1) - 1}"
    uses = [noted.does for noted in meant.uses() if noted.does is not Does.DECLARES]
    if declared.kind == "label":
        yield f"{counted(len(uses), 'GOTO')} to it"
    else:
        reads, writes = uses.count(Does.READS), uses.count(Does.WRITES)
        named = uses.count(Does.NAMES)
        told = [f"read {times(reads)}", f"written {times(writes)}"]
        yield f"named {times(named)}" if declared.kind == "file" else ", ".join(told)


def times(count: int) -> str:
    return "once" if count == 1 else f"{count} times"


def counted(count: int, noun: str) -> str:
    return f"{count} {noun}" + ("" if count == 1 else "s")


def blocks_with(index: Index, name: str, ways: List[str]) -> List[str]:
    """The blocks in which a signal stands behind one of these words."""
    found = [
        placed.found.name
        for placed in index.segments
        if any(
            noted.name == name and noted.space is Space.SIGNAL and noted.way in ways
            for noted in placed.found.uses
        )
    ]
    return list(dict.fromkeys(filter(None, found)))


def of_signal(index: Index, declared: Declared) -> Iterator[str]:
    name = declared.name
    if declared.kind == "ANSWER":
        yield f"the answer of {declared.answer}"
        yield told_blocks("returned by", blocks_with(index, name, ["RETURN"]))
        yield told_blocks("retrieved by", blocks_with(index, name, ["RETRIEVE"]))
        return
    if declared.values is not None:
        yield f"carries {counted(declared.values, 'value')}"
    senders = blocks_with(index, name, ["SEND", "TRANSFER"])
    from_outside = " but by signal lines" if declared.kind == "BUFFERED" and not senders else ""
    yield told_blocks("sent by", senders) + from_outside
    if declared.kind != "OUTSIDE":
        yield told_blocks("received by", blocks_with(index, name, ["RECEIVE", "ENTER"]))


def told_blocks(verb: str, blocks: List[str]) -> str:
    return f"{verb} {', '.join(blocks) if blocks else 'no block'}"


def of_block(index: Index, name: str) -> Iterator[str]:
    placed = index.blocks.get(name)
    if placed is None:
        return
    for way, verb in (("RECEIVE", "receives"), ("SEND", "sends")):
        names = [line.name for line in placed.found.surveys if line.way == way]
        yield f"{verb} {', '.join(dict.fromkeys(names)) or 'no signal'}"


def entry_at(meant: Meant) -> "tuple[str, str]":
    """The signal and the block of the entry at which a name stands: at its ENTER."""
    if meant.space is Space.SIGNAL:
        placed = meant.index.segment_at(meant.asked.start)
        for line in placed.found.entered:
            phrase = placed.span(line.phrase)
            if line.name == meant.name and phrase.start <= meant.asked.start < phrase.end:
                return meant.name, placed.found.name
    return "", ""
