"""The measure of the machine: the seconds that the proofs of three small crates take, whose files
seldom change.

docs/PROVING.md has them beside those of the table before, and of the slowest and the fastest
machine that was seen, so that tables of different machines can be read against one another. With
each crate stands a sum of its files: one that has changed is left out of the comparison, and its
seconds on another machine are reckoned by the others.
"""
import hashlib
import pathlib
import re
from typing import Dict, Iterator, List, NamedTuple, Optional

CRATES = "plex_lexer", "plex_ast", "flow_table"
TITLE = "Measure of the machine"
NOW, BEFORE, SLOWEST, FASTEST, SUMS = (
    "This table",
    "The table before",
    "Slowest machine",
    "Fastest machine",
    "Files",
)
PARTS = "src", "specs", "proofs"
SUM_LENGTH = 12

Seconds = Dict[str, float]


class NoMeasure(Exception):
    """The machine cannot be measured; the text tells why."""


class Measure(NamedTuple):
    """The seconds of each crate by the row's name, and the sums of its files."""

    rows: Dict[str, Seconds]
    sums: Dict[str, str]

    def together(self, row: str) -> float:
        """The seconds of all crates."""
        return sum(self.rows[row].values())

    def slowest(self) -> float:
        """How many times as long as here a check takes on the slowest machine that was seen."""
        return self.together(SLOWEST) / self.together(NOW)

    def fastest(self) -> float:
        """The same on the fastest one."""
        return self.together(FASTEST) / self.together(NOW)

    def lines(self) -> Iterator[str]:
        """The table."""
        yield f"| {TITLE} | " + " | ".join(f"`{crate}`" for crate in CRATES) + " | Together |"
        yield "|" + "---|" * (len(CRATES) + 2)
        for row, seconds in self.rows.items():
            each = [f"{seconds[crate]:.0f}" for crate in CRATES]
            yield f"| {row} | " + " | ".join(each) + f" | {self.together(row):.0f} |"
        yield f"| {SUMS} | " + " | ".join(f"`{self.sums[crate]}`" for crate in CRATES) + " | |"


def sum_of(crate: pathlib.Path) -> str:
    """The sum of a crate's files."""
    found = hashlib.sha256()
    for path in sorted(
        path for part in PARTS for path in (crate / part).rglob("*") if path.is_file()
    ):
        content = path.read_bytes()
        found.update(f"{path.relative_to(crate)} {len(content)}\n".encode() + content)
    return found.hexdigest()[:SUM_LENGTH]


def cells(line: str) -> List[str]:
    """The cells of a line of a table."""
    return [cell.strip().strip("`") for cell in line.strip("|").split("|")]


def told(text: str) -> Optional[Measure]:
    """The measure that a document has, None where it has none."""
    table = re.search(rf"(?m)^\| {TITLE} \|(?:.*\n\|)*.*", text)
    if not table:
        return None
    head, _, *lines = (cells(line) for line in table[0].split("\n"))
    crates = head[1:-1]
    rows = {line[0]: line[1:-1] for line in lines}
    sums = dict(zip(crates, rows.pop(SUMS)))
    return Measure({row: dict(zip(crates, map(float, each))) for row, each in rows.items()}, sums)


def measured(before: Optional[Measure], now: Seconds, sums: Dict[str, str]) -> Measure:
    """The measure with these seconds beside those of the table before."""
    missing = [crate for crate in CRATES if not now.get(crate)]
    if missing:
        raise NoMeasure(f"there is no proof of {missing[0]}, by which the machine is measured")
    if not before:
        return Measure({NOW: now, SLOWEST: now, FASTEST: now}, sums)
    same = [crate for crate in CRATES if before.sums.get(crate) == sums[crate]]
    if not same:
        raise NoMeasure(
            f"all crates by which the machine is measured have changed: {', '.join(CRATES)}"
        )

    def here(seconds: Seconds) -> Seconds:
        """Seconds of another machine, those of crates that have changed reckoned by the others."""
        pace = sum(seconds[crate] for crate in same) / sum(now[crate] for crate in same)
        return {crate: seconds[crate] if crate in same else pace * now[crate] for crate in CRATES}

    earlier = here(before.rows[NOW])
    seen = [now, earlier, here(before.rows[SLOWEST]), here(before.rows[FASTEST])]
    slowest = max(seen, key=lambda one: sum(one.values()))
    fastest = min(seen, key=lambda one: sum(one.values()))
    return Measure({NOW: now, BEFORE: earlier, SLOWEST: slowest, FASTEST: fastest}, sums)
