"""Reads what plex-why prints of a pair, and compares it with `oracle.why`. For
`test_compare_why.py`.
"""
import re
from typing import Any, Iterator, List, Optional

from gate.oracle import why as oracle_why
from gate.oracle.why import OF_WALKS, Reason
from plextools.analysis import why as why_lines
from plextools.tables import quoted

ALL = 10**9  # statements of a side
VERDICT = re.compile(r"PAIR \d+ \d+ (?:NEVER|IF) (.*)|also: (.*)")
CURE = "  what helps: "
# What is said of counters, which test_compare_additions.py looks at, and of links.
ASIDE = (why_lines.COUNTER, why_lines.TODAY, why_lines.BEHIND, "    added up", "    who reads")
OF_LINKS = (why_lines.LINK, why_lines.BEHIND_LINKS, "    both would run", "    begin, and")
UNKNOWN = {
    "changed by ON": "ON",
    "found by FOR FIRST": "FOR",
    "what SEIZE takes": "SEIZE",
    "taken from stored data": "stored",
    "a number above 255": "number",
    "computed": "computed",
}
ORIGIN = re.compile(rf".* is ({'|'.join(UNKNOWN)}) at line (\d+)(?: in \w+)?(?:, and \d+ more)?")
FOR_FIRST = "FOR FIRST looks at all records"


class Printed(Exception):
    """Something that is printed cannot be read."""


def read(lines: Iterator[str], name: str) -> List[Reason]:
    """The reasons of a pair, as they are printed."""
    found: List[Reason] = []
    statement = re.compile(rf".*?{re.escape(name)}:(\d+): (.*?)(?:  +(.*))?$")
    is_later = False
    for line in lines:
        verdict = VERDICT.fullmatch(line)
        if verdict:
            found.append(Reason(verdict[1] or verdict[2], [], [], ""))
            is_later = False
        elif line.startswith(CURE):
            found[-1] = found[-1]._replace(cure=line[len(CURE) :])
        elif line.startswith(ASIDE + OF_LINKS):
            continue
        else:
            is_later = is_later or line.startswith("  later, ")
            told = statement.fullmatch(line)
            if not told:
                raise Printed(line)
            side = found[-1].later if is_later else found[-1].first
            side.append((int(told[1]), told[3] or ""))
    return found


def known(reason: Reason) -> Reason:
    """A reason without what is told otherwise: why a record is not known, and faults of walks."""
    sides = []
    for side in (reason.first, reason.later):
        lines = [
            (line, does.split(": ")[0] if "any record" in does else does) for line, does in side
        ]
        sides.append([one for one in map(without_walks, lines) if one])
    return reason._replace(first=sides[0], later=sides[1])


def without_walks(line: "tuple[int, str]") -> "Optional[tuple[int, str]]":
    """What a statement does, without the faults that many statements have together."""
    number, does = line
    head, colon, rest = does.partition("may fault: ")
    if not colon:
        return line
    kept = [one for one in rest.split("; ") if one.split(",")[0] not in OF_WALKS]
    return (number, f"{head}{colon}{'; '.join(kept)}") if kept else None


def wrong_origins(reason: Reason, summaries: List[Any]) -> Iterator[str]:
    """The reasons why a record is not known that no statement of that line gives."""
    for side, summary in zip((reason.first, reason.later), summaries):
        for _, does in side:
            why = does.partition("of any record: ")[2]
            if not why or why == FOR_FIRST:
                continue
            origin = ORIGIN.fullmatch(why)
            kinds = oracle_why.kinds_of_origins(summary)
            if not origin or UNKNOWN[origin[1]] not in kinds.get(int(origin[2]), ()):
                yield f"{why!r} is told, and no such statement is there"


def differences(
    exchange: why_lines.Exchange, content: bytes, slow: Any, summaries: List[Any]
) -> Iterator[str]:
    """What is printed of each pair otherwise than it should be."""
    name = quoted(exchange.text.name)
    slow.lines = oracle_why.signal_lines(content)
    for i, first in enumerate(summaries):
        for j, later in enumerate(summaries):
            wanted = oracle_why.told(slow, summaries, i, j)
            lines = why_lines.told(exchange, i, j, ALL)
            got = read(lines, name) if wanted else unsaid(lines, i, j)
            for one, other in zip(got, wanted):
                if known(one) != known(other):
                    yield f"pair {i} {j}: it prints {known(one)} and not {known(other)}"
                yield from (f"pair {i} {j}: {told}" for told in wrong_origins(one, [first, later]))
            if len(got) != len(wanted):
                yield f"pair {i} {j}: it prints {len(got)} reasons and not {len(wanted)}"


def unsaid(lines: Iterator[str], i: int, j: int) -> List[Reason]:
    """Nothing keeps the two apart, which is told in one line."""
    told = f"PAIR {i} {j} always together, unless they are of one forlopp"
    if list(lines) != [told]:
        raise Printed(f"not {told}")
    return []
