"""Shows on a terminal how far a tool with many cases is. Where the standard error is no terminal,
nothing is shown."""
import sys
import time
from typing import Iterable, Iterator, TypeVar

Case = TypeVar("Case")

BETWEEN = 0.1
ERASED = "\r\033[K"


class Line:
    """A line on the standard error that is written anew, ten times a second at most. Where that is
    no terminal, nothing is written.
    """

    def __init__(self) -> None:
        self.is_shown, self.is_there, self.drawn = sys.stderr.isatty(), False, 0.0

    def draw(self, text: str) -> None:
        if self.is_shown and time.monotonic() - self.drawn >= BETWEEN:
            sys.stderr.write(f"{ERASED}{text}")
            sys.stderr.flush()
            self.is_there, self.drawn = True, time.monotonic()

    def erase(self) -> None:
        if self.is_there:
            sys.stderr.write(ERASED)
            sys.stderr.flush()
            self.is_there = False


def shown(cases: Iterable[Case], name: str, count: int) -> Iterator[Case]:
    """The cases one by one; while one is waited for, a line tells how many were done."""
    if not sys.stderr.isatty():
        yield from cases
        return
    line = Line()
    try:
        line.draw(f"{name}: 0 of {count}")
        for done, case in enumerate(cases, 1):
            line.erase()
            yield case
            line.draw(f"{name}: {done} of {count}")
    finally:
        line.erase()
