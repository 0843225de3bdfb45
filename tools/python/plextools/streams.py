"""The standard streams of a tool.

`take()` puts streams in the place of those of Python. What cannot be written to the standard output
is raised as `Unwritten`; what cannot be written to the standard error is lost, since it can be told
nowhere. In the place of a stream that is closed as the tool starts something stands from which
nothing is read and to which nothing can be written, so that no file that the tool opens comes to
stand there.
"""
import contextlib
import io
import os
import sys
from typing import Any, List, Optional, TextIO

INPUT, OUTPUT, COMPLAINTS = range(3)
FULL = "/dev/full"  # which cannot be written to, by whatever name
TAKEN: List[TextIO] = []  # as Python closes a stream that nothing names any more


class Unwritten(Exception):
    """The standard output cannot be written."""

    def __init__(self, wrong: OSError) -> None:
        super().__init__(wrong.strerror)
        self.is_unread = isinstance(wrong, BrokenPipeError)


# The writers below only say what becomes of an error. Writing itself is not done by Python's code,
# in which an interrupt could come between a write and the note that it was made, so that the bytes
# would be written twice.


class Output(io.BufferedWriter):
    """A stream that tells what keeps it from being written."""

    def write(self, data: Any) -> int:
        try:
            return super().write(data)
        except OSError as wrong:
            raise Unwritten(wrong) from wrong

    def flush(self) -> None:
        try:
            super().flush()
        except OSError as wrong:
            raise Unwritten(wrong) from wrong


class Complaints(io.BufferedWriter):
    """A stream whose text is lost where it cannot be written."""

    def write(self, data: Any) -> int:
        try:
            return super().write(data)
        except OSError:
            return memoryview(data).nbytes

    def flush(self) -> None:
        with contextlib.suppress(OSError):
            super().flush()


def take() -> None:
    """Puts streams in the place of those of Python."""
    if sys.stdin is None:
        stand_in(INPUT, os.devnull)
        sys.stdin = open(INPUT, closefd=False)
    for number, stream in ((OUTPUT, sys.stdout), (COMPLAINTS, sys.stderr)):
        if stream is None:
            stand_in(number, FULL)
    output = Output(io.FileIO(OUTPUT, "wb", False))
    complaints = Complaints(io.FileIO(COMPLAINTS, "wb", False))
    sys.stdout = text_of(output, sys.stdout, output.isatty())
    sys.stderr = text_of(complaints, sys.stderr, True)
    TAKEN.extend((sys.stdout, sys.stderr))


def stand_in(number: int, name: str, mode: int = os.O_RDONLY) -> None:
    """Opens something in the place of a stream."""
    opened = os.open(name, mode)
    if opened != number:
        os.dup2(opened, number)
        os.close(opened)


def text_of(stream: io.BufferedWriter, before: Optional[TextIO], by_lines: bool) -> TextIO:
    """A stream of text with the encoding of the one that stood there before."""
    return io.TextIOWrapper(
        stream,
        encoding=before.encoding if before else "utf-8",
        errors="backslashreplace",
        line_buffering=by_lines,
    )


def give_up() -> None:
    """What is still to be written to the standard output is lost."""
    stand_in(OUTPUT, os.devnull, os.O_WRONLY)
