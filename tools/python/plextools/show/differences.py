"""A difference of two texts as a unified diff, and texts and names as a terminal and XML may show
them.
"""
import difflib
from typing import Iterator, List, Sequence, Tuple

AROUND = 3  # lines that are shown before and behind a change
MOST_COMPARED = 4000  # lines that are compared one by one: the time grows with their square
NO_END = "\\ No newline at end of file"

Change = Tuple[str, int, int, int, int]


def visible(text: str, kept: str = "") -> str:
    """A text without control characters and what else cannot be printed; escapes stand for them."""
    return "".join(
        one if one.isprintable() or one in kept else one.encode("unicode_escape").decode("ascii")
        for one in text
    )


def quoted(name: str) -> str:
    """A name as it is, or in quotes where that could be misread."""
    is_plain = name.isprintable() and not any(one in " '\"\\" for one in name)
    return name if is_plain and name else repr(name)


def shown(line: bytes) -> str:
    """A line of a text of which nothing is known."""
    return visible(line.decode("utf-8", "backslashreplace"), kept="\t")


def unified(wanted: bytes, wrote: bytes) -> Iterator[str]:
    """The lines of a unified diff, without its two heads."""
    old, new = lines_of(wanted), lines_of(wrote)
    for hunk in hunks(old, new):
        first, last = hunk[0], hunk[-1]
        yield f"@@ -{span(first[1], last[2])} +{span(first[3], last[4])} @@"
        for kind, start, end, begin, stop in hunk:
            if kind == "equal":
                yield from marked(" ", old[start:end])
            else:
                yield from marked("-", old[start:end])
                yield from marked("+", new[begin:stop])


def lines_of(text: bytes) -> List[bytes]:
    """The lines of a text, of which LF alone is an end."""
    lines = [line + b"\n" for line in text.split(b"\n")]
    lines[-1] = lines[-1][:-1]
    return lines if lines[-1] else lines[:-1]


def span(start: int, end: int) -> str:
    """Lines of a file, as a hunk names them: the first one and how many, or the line before where
    there is none.
    """
    count = end - start
    if count == 1:
        return str(start + 1)
    return f"{start + 1 if count else start},{count}"


def marked(mark: str, lines: Sequence[bytes]) -> Iterator[str]:
    for line in lines:
        yield mark + shown(line[:-1] if line.endswith(b"\n") else line)
        if not line.endswith(b"\n"):
            yield NO_END


def hunks(old: Sequence[bytes], new: Sequence[bytes]) -> Iterator[List[Change]]:
    """The changes from one text to another, with the lines around them."""
    start = common(old, new)
    end = common(old[start:][::-1], new[start:][::-1])
    first, last = max(start - AROUND, 0), max(end - AROUND, 0)
    before, after = old[first : len(old) - last], new[first : len(new) - last]
    if max(len(before), len(after)) > MOST_COMPARED:
        yield [
            moved(change, first) for change in replaced(before, after, start - first, end - last)
        ]
        return
    matcher = difflib.SequenceMatcher(None, before, after)
    for group in matcher.get_grouped_opcodes(AROUND):
        yield [moved(change, first) for change in group]


def common(one: Sequence[bytes], other: Sequence[bytes]) -> int:
    """How many lines two texts have in common at their beginning."""
    pairs = enumerate(zip(one, other))
    return next((place for place, (a, b) in pairs if a != b), min(len(one), len(other)))


def replaced(old: Sequence[bytes], new: Sequence[bytes], head: int, tail: int) -> Iterator[Change]:
    """One change of all lines but for those at the beginning and at the end."""
    yield "equal", 0, head, 0, head
    yield "replace", head, len(old) - tail, head, len(new) - tail
    yield "equal", len(old) - tail, len(old), len(new) - tail, len(new)


def moved(change: Change, by: int) -> Change:
    kind, start, end, begin, stop = change
    return kind, start + by, end + by, begin + by, stop + by
