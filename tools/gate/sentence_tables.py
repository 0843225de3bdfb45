"""What plex says of faults on the standard error: the sentences that the program has, those of the
tables in docs/FORMATS.md, and the lines that belong to a line of the output."""
from __future__ import annotations

import functools
import pathlib
import re
from typing import Sequence, Union, cast

ROOT = pathlib.Path(__file__).resolve().parents[2]
DOCUMENT = ROOT / "docs" / "FORMATS.md"
PROGRAM = ROOT / "crates" / "process_ends" / "src" / "sentences.rt"

# Each table of the program, with the heading under which the document has it, and which of the
# tables there it is.
TABLES = {
    "SOURCE": ("Mending an exchange text", 0),
    "SIGNALS": ("Mending a signal file", 0),
    "TABLE": ("Mending a signal file", 1),
    "FILTER": ("Mending a signal file", 2),
    "CERTIFICATE": ("Mending a certificate", 0),
    "CHANGE": ("Mending a change", 0),
    "read_reason": ("On the standard error", 1),
    "write_reason": ("On the standard error", 2),
}
# The functions of the program that have the rows of each table of faults, in its order.
ROWS = {
    "SOURCE": ("source_row", "numbered_row", "link_row"),
    "SIGNALS": ("signals_row",),
    "TABLE": ("table_row",),
    "FILTER": ("filter_row",),
    "CERTIFICATE": ("certificate_row",),
    "CHANGE": ("change_row",),
}
FUNCTION = re.compile(r"^(?:pub )?fn (\w+)\(.*?^}$", re.M | re.S)
ROW = re.compile(r'\(\s*"(\w+)",\s*"([^"]*)",?\s*\)')
REASON = re.compile(r'=> "([^"]*)"')

# The place among the words of a command of the file in which the fault is, by the first word of the
# line that tells it.
PLACES = {"SOURCE": 1, "SIGNALS": 2, "TABLE": 3, "FILTER": 3, "NEWSOURCE": 3, "CHANGE": 3}
FAULT = re.compile(r"([A-Z]+) (?:line (\d+) )?(\w+)")
# The words of a command that plex-check takes to tell all faults of such a file.
READ = {"SOURCE": (1, 2), "SIGNALS": (1, 3), "TABLE": (1, 4), "FILTER": (1, 4), "NEWSOURCE": (3, 4)}


# A row of a table: a word and its sentence, or a reason alone.
Row = Union[tuple[str, str], str]


@functools.lru_cache(maxsize=None)
def compiled() -> dict[str, list[Row]]:
    """The tables of the program, each with its rows: a word and a sentence, or a reason alone."""
    bodies = {found[1]: found[0] for found in FUNCTION.finditer(PROGRAM.read_text())}
    tables: dict[str, list[Row]] = {
        table: [row for name in names for row in ROW.findall(bodies.get(name, ""))]
        for table, names in ROWS.items()
    }
    tables.update(
        (name, REASON.findall(body)) for name, body in bodies.items() if name.endswith("_reason")
    )
    return tables


def tables_under(heading: str) -> list[list[list[str]]]:
    """The tables under a heading of the document, each as rows of cells."""
    part = DOCUMENT.read_text().split(f"\n## {heading}\n", 1)[1].split("\n## ", 1)[0]
    tables: list[list[list[str]]] = []
    inside = False
    for line in part.split("\n"):
        if line.startswith("|---"):
            tables.append([])
            inside = True
        elif not line.startswith("|"):
            inside = False
        elif inside:
            tables[-1].append([cell.strip() for cell in line.strip("|").split(" |")])
    return tables


@functools.lru_cache(maxsize=None)
def documented() -> dict[str, list[Row]]:
    """The same tables as the document has them."""
    tables: dict[str, list[Row]] = {}
    for name, (heading, which) in TABLES.items():
        rows = tables_under(heading)[which]
        plain = [[cell.replace("`", "") for cell in row] for row in rows]
        tables[name] = (
            [row[0] for row in plain]
            if name.endswith("_reason")
            else [(row[0], row[1]) for row in plain]
        )
    return tables


def sentences(table: str) -> dict[str, str]:
    """The sentences of a table of the document, each with its word."""
    return dict(cast("list[tuple[str, str]]", documented()[table]))


def sentence(first: str, word: str) -> str:
    """The sentence of the document for a word of a line that begins with this word."""
    own = sentences("SOURCE" if first == "NEWSOURCE" else first)
    return own.get(word) or sentences("SIGNALS")[word]


def certificate_among(words: Sequence[str]) -> str:
    options = list(words[3:])
    return dict(zip(options[::2], options[1::2]))["--cert"]


def complaint(words: Sequence[str], line: str) -> str:
    """What must stand on the standard error, where a command of these words writes this line: the
    fault, and what tells all faults of its file.
    """
    found = FAULT.match(line)
    assert found, line
    first, number, word = found.groups()
    name = certificate_among(words) if first == "CERTIFICATE" else words[PLACES[first]]
    told = f"{word}: {sentence(first, word)}\n"
    if number in (None, "0"):
        return f"{name}: {told}"
    return f"{name}:{number}: {told}{checker(words, first)}"


def checker(words: Sequence[str], first: str) -> str:
    """The line that names what tells all faults of a file, where plex-check reads it."""
    if first not in READ:
        return ""
    names = " ".join(words[slice(*READ[first])])
    return f"plex-check {names} tells all faults, with columns\n"
