"""The files that commands write: never one that they read, and never one that is half written."""
import os
import pathlib
from typing import Iterable, Sequence

from plextools import files
from plextools.programs import Wrong
from plextools.tables import quoted


def refuse_inputs(name: str, inputs: Sequence[str]) -> None:
    """Raises `Wrong` where an output is a file that is read, by whatever name."""
    for read in inputs:
        try:
            is_same = os.path.samefile(name, read)
        except (OSError, ValueError):
            continue  # one of them is not there, which is told where it is opened
        if is_same:
            raise Wrong(f"{quoted(name)} is read, and would be lost: name another file to write")


def write(name: str, parts: Iterable[str]) -> None:
    """Writes a file of text, as `write_bytes` does."""
    write_bytes(name, (part.encode() for part in parts))


def write_bytes(name: str, parts: Iterable[bytes]) -> None:
    """Writes a file beside its place first, so that none is left half written. What is no plain
    file, as a pipe, is written as it is.
    """
    try:
        if os.path.exists(name) and not os.path.isfile(name) and not os.path.isdir(name):
            with open(name, "wb") as file:
                file.writelines(parts)
        else:
            files.replace(pathlib.Path(os.path.realpath(name)), parts)
    except (OSError, ValueError) as wrong:
        told = getattr(wrong, "strerror", None) or wrong
        raise Wrong(f"{quoted(name)} could not be written: {told}") from wrong
