"""A sequence chart in the languages of other tools: Mermaid, which many pages of documents draw,
and that of mscgen.
"""
from typing import Iterator, Set

from plextools.show.chart import Arrow, Chart, Mark, Note, Row, Style, Tone, plain

MERMAID = {Style.SIGNAL: "-)", Style.CALL: "->>", Style.ANSWER: "-->>", Style.LOST: "-x"}
MSC = {Style.SIGNAL: "->", Style.CALL: "=>", Style.ANSWER: ">>", Style.LOST: "-x"}
MSC_COLOURS = ("#4b5563", "#0072b2", "#b97f00", "#008260", "#b0558a", "#3a94c4")
FAULT = "#b03a00"
STEERS = '#;<>&%"\\`{}[]|'


def begun(row: Arrow) -> str:
    """The label of an arrow; that of a first row has the number of its job and its forlopp."""
    return f"job {row.job} F{row.forlopp}: {row.label}" if row.begins else row.label


def mermaid(chart: Chart) -> Iterator[str]:
    """The lines of a sequence diagram of Mermaid."""
    yield "sequenceDiagram"
    for lane, name in enumerate(chart.lanes):
        yield f"    participant L{lane} as {name}"
    everywhere = over(len(chart.lanes) - 1)
    yield f"    Note over {everywhere}: {for_mermaid(chart.title)}"
    alive: Set[int] = set()
    job = 0
    for row in chart.rows:
        if row.job != job:
            yield from (f"    deactivate L{lane}" for lane in sorted(alive))
            job, alive = row.job, set()
        if isinstance(row, Mark):
            yield f"    Note over {everywhere}: {for_mermaid(row.text)}"
        elif isinstance(row, Note):
            yield f"    Note right of L{row.lane}: {for_mermaid(row.text)}"
        elif isinstance(row, Arrow):
            yield from arrow_of_mermaid(row)
            now = set(row.behind)
            yield from (f"    activate L{lane}" for lane in sorted(now - alive))
            yield from (f"    deactivate L{lane}" for lane in sorted(alive - now))
            alive = now
    yield from (f"    deactivate L{lane}" for lane in sorted(alive))
    for told in chart.footer:
        yield f"    Note over {everywhere}: {for_mermaid(told)}"


def over(last: int) -> str:
    """All lanes, for a note over them."""
    return f"L0,L{last}" if last else "L0"


def arrow_of_mermaid(row: Arrow) -> Iterator[str]:
    label = for_mermaid(begun(row))
    if row.source is None:
        yield f"    Note over L{row.target}: {label}"
    else:
        yield f"    L{row.source}{MERMAID[row.style]}L{row.target}: {label}"


def for_mermaid(text: str) -> str:
    """A text with numbers for what Mermaid or a page would read otherwise."""
    return "".join(f"#{ord(letter)};" if letter in STEERS else letter for letter in plain(text))


def msc(chart: Chart) -> Iterator[str]:
    """The lines of a chart for mscgen."""
    yield "msc {"
    yield "    wordwraparcs = on;"
    lanes = [f"L{lane} [label={for_msc(name)}]" for lane, name in enumerate(chart.lanes)]
    yield f"    {', '.join(lanes)};"
    yield f"    --- [label={for_msc(chart.title)}];"
    for row in chart.rows:
        yield f"    {arc(row)};"
    for told in chart.footer:
        yield f"    ... [label={for_msc(told)}];"
    yield "}"


def arc(row: Row) -> str:
    """A row in the language of mscgen."""
    forlopp = row.forlopp
    colour = MSC_COLOURS[1 + (forlopp - 1) % (len(MSC_COLOURS) - 1) if forlopp else 0]
    if isinstance(row, Mark):
        line = "..." if row.tone is Tone.GAP else "---"
        tone = f', textcolor="{FAULT}"' if row.tone is Tone.FAULT else ""
        return f"{line} [label={for_msc(row.text)}{tone}]"
    if isinstance(row, Note):
        tone = f', textcolor="{FAULT}"' if row.tone is Tone.FAULT else ""
        return f"L{row.lane} note L{row.lane} [label={for_msc(row.text)}{tone}]"
    assert isinstance(row, Arrow)
    label = f'[label={for_msc(begun(row))}, linecolor="{colour}"]'
    if row.source is None:
        return f"L{row.target} abox L{row.target} {label}"
    return f"L{row.source}{MSC[row.style]}L{row.target} {label}"


def for_msc(text: str) -> str:
    """A text as a string of mscgen."""
    escaped = plain(text).replace("\\", "\\\\").replace('"', '\\"')
    return f'"{escaped}"'
