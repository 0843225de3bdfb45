"""plex-format [--check] [--diff] [FILE ...]

Formats each exchange text FILE in the standard layout. A file that has another one is rewritten;
its words and comments do not change. Without a FILE, or for -, it formats standard input to
standard output. A text with invalid words or syntax errors is not changed, and these are reported.

The status is 0 on success, 1 if --check or --diff finds another layout, 2 if a text or the words
are wrong or a file cannot be read or written, and 130 if it was interrupted.
"""
import argparse
import gc
import os
import sys
from typing import BinaryIO, Iterator, Sequence

from plextools import programs
from plextools.commands import outputs
from plextools.commands.command_words import described
from plextools.limits import MOST_BYTES
from plextools.show.differences import unified
from plextools.tables import quoted
from plextools.text import layout
from plextools.text.tokens import Lines, Told

FINE, OTHERWISE, WRONG = 0, 1, 2
STANDARD, STANDARD_INPUT = "-", "standard input"
MOST_TOLD = 10


def parser() -> argparse.ArgumentParser:
    """The words of the command."""
    words = programs.Words(__doc__)
    words.add_argument("files", metavar="FILE", nargs="*", help="an exchange text")
    words.add_argument(
        "--check",
        action="store_true",
    )
    words.add_argument(
        "--diff",
        action="store_true",
    )
    return described(words)


def main() -> int:
    """Runs the command."""
    gc.disable()
    given, status = parser().parse_args(), FINE
    for name in given.files or [STANDARD]:
        status = max(status, attempted(name, given.check, given.diff))
    return status


def attempted(name: str, is_check: bool, is_diff: bool) -> int:
    """Formats one file; where something is wrong with it, that is told."""
    try:
        return formatted(name, is_check, is_diff)
    except programs.Wrong as wrong:
        print(f"plex-format: {wrong.told}", file=sys.stderr)
    except MemoryError:
        print("plex-format: out of memory", file=sys.stderr)
    return WRONG


def formatted(name: str, is_check: bool, is_diff: bool) -> int:
    """Gives one text the layout, or tells that it has another one."""
    is_standard = name == STANDARD
    shown = STANDARD_INPUT if is_standard else quoted(name)
    data = read(sys.stdin.buffer) if is_standard else bytes_of(name)
    text = laid_out(shown, data)
    if is_diff and text != data:
        for line in [f"--- {shown}", f"+++ {shown}", *unified(data, text)]:
            print(line)
    elif is_check and text != data:
        print(shown)
    elif is_standard and not is_check and not is_diff:
        sys.stdout.buffer.write(text)
    elif text != data:
        outputs.write_bytes(name, [text])
    return OTHERWISE if (is_check or is_diff) and text != data else FINE


def read(file: BinaryIO) -> bytes:
    """The bytes of a file, up to one more than a text may have."""
    return file.read(MOST_BYTES + 1)


def bytes_of(name: str) -> bytes:
    """The bytes of a file that can be rewritten."""
    try:
        if os.path.exists(name) and not os.path.isfile(name):
            raise programs.Wrong(f"{quoted(name)} is no file that can be rewritten")
        with open(name, "rb") as file:
            return read(file)
    except (OSError, ValueError) as wrong:
        told = getattr(wrong, "strerror", None) or wrong
        raise programs.Wrong(f"{quoted(name)} could not be read: {told}") from wrong


def laid_out(shown: str, data: bytes) -> bytes:
    """A text in the layout. Where it has faults they are told."""
    try:
        text, faults = layout.format_text(data)
    except layout.OtherText as wrong:
        told = "it would become another text, which is a fault of plex-format"
        raise programs.Wrong(f"{shown} stays as it is: {told}") from wrong
    if text is None:
        for line in refusal(shown, data, faults):
            print(line, file=sys.stderr)
        raise programs.Wrong(f"{shown} stays as it is, with its faults; plex-check tells all")
    return text


def refusal(shown: str, data: bytes, faults: Sequence[Told]) -> Iterator[str]:
    """The lines that tell the first faults of a text, as plex-check does."""
    lines = Lines(data.decode("latin-1"))
    for place, rule, sentence in faults[:MOST_TOLD]:
        where = "0:0" if rule == layout.TOO_LARGE else f"{lines.line(place)}:{lines.column(place)}"
        yield f"{shown}:{where}: {rule}: {sentence}"
